#!/usr/bin/env python3
"""Writes generated/rust/, the proved sources as plain Rust: one crate with a module for each library.

    generated.py            writes it again from the current sources; seconds
    generated.py --check    compares the sums of --sums, follows each printed token in its source (forms.txt has what may
                            differ), prints everything again, and compares every byte
    generated.py --sums     compares the sums in generated/rust/ORIGIN with the files

Needs no toolchain but rustfmt, in the version that ORIGIN names: without it, or with another one, --check leaves the last
comparison out and says so. ORIGIN has one sum for the sources of each library, for each departure, for the support, for the
printer, for what it prints before rustfmt, and for each module of the crate; then come the texts of the departures. The last
line is `N passed, M failed`."""
import hashlib
import pathlib
import shutil
import subprocess
import sys
import tempfile

from printer import crate
from printer.tokens import NotPrintable

HERE = pathlib.Path(__file__).resolve().parent
TOP = HERE.parents[1]
sys.path.append(str(HERE.parent))

from libraries import Crates

PLACE = 'generated/rust'
ORIGIN = f'{PLACE}/ORIGIN'
AGAIN = 'run python3 tools/rust/generated.py'


def digest(data):
    return hashlib.sha256(data).hexdigest()


def sum_of(files):
    """A sum of files by their names."""
    return digest(''.join(f'{digest(data)}  {name}\n' for name, data in sorted(files.items())).encode())


def below(*paths):
    """The bytes of these files, and of those below these folders, by their path from the top. What Python keeps isn't counted."""
    found = (it for path in paths for it in ([TOP / path] if (TOP / path).is_file() else (TOP / path).rglob('*')))
    return {it.relative_to(TOP).as_posix(): it.read_bytes() for it in found if it.is_file() and it.suffix != '.pyc'}


def sums_of_sources():
    """The sums of what the crate is made from."""
    crates, names = Crates(TOP), crate.LIBRARIES + crate.OF_PROGRAMS
    edges = ''.join(f'{it}: {" ".join(crates.stands_on[it])}\n' for it in names)
    tools = HERE.relative_to(TOP).as_posix()
    return {
        **{f'crates/{it}/src': sum_of(below(f'crates/{it}/src')) for it in names},
        'crates.txt': digest(edges.encode()),
        **{f'{tools}/departures/{it}.txt': sum_of(below(f'{tools}/departures/{it}.txt')) for it in crate.DEPARTURES},
        f'{tools}/support': sum_of(below(f'{tools}/support')),
        f'{tools}/printer': sum_of(below(f'{tools}/printer', f'{tools}/forms.txt', f'{tools}/generated.py', 'rustfmt.toml')),
    }


def module_of(path):
    """The part of the crate that a file is counted with: a module, or the files around the modules."""
    parts = pathlib.PurePosixPath(path).parts
    return f'src/proved/{parts[2].removesuffix(".rs")}' if parts[:2] == ('src', 'proved') and path != 'src/proved/mod.rs' else 'the rest'


def sums_of_crate(files):
    """A sum for each module of the crate, and one for the files around them."""
    modules = sorted({module_of(it) for it in files})
    return {f'{PLACE}: {part}': sum_of({it: data for it, data in files.items() if module_of(it) == part}) for part in modules}


def version_of_rustfmt():
    """The version that rustfmt prints, or None if there is no rustfmt."""
    if not shutil.which('rustfmt'):
        return None
    run = subprocess.run(['rustfmt', '--version'], stdin=subprocess.DEVNULL, stdout=subprocess.PIPE, stderr=subprocess.DEVNULL, encoding='utf-8')
    return run.stdout.strip() if run.returncode == 0 else None


def printed():
    """The files of the crate before rustfmt, and their audit."""
    crate.check_complete(Crates(TOP).stands_on)
    files = crate.files_of(crate.texts_of(TOP, HERE), HERE)
    return files, crate.audit(files, TOP, HERE)


def formatted(files):
    """The bytes of the files, formatted by rustfmt."""
    with tempfile.TemporaryDirectory(prefix='printed-') as room:
        for name, text in files.items():
            path = pathlib.Path(room) / name
            path.parent.mkdir(parents=True, exist_ok=True)
            path.write_text(text, encoding='utf-8')
        subprocess.run(['rustfmt', '--config-path', str(TOP / 'rustfmt.toml'), 'src/lib.rs'], cwd=room, check=True)
        return {name: (pathlib.Path(room) / name).read_bytes() for name in files}


def origin(version, unformatted, files):
    """What the files were made from."""
    sums = {**sums_of_sources(), 'before rustfmt': sum_of({it: text.encode() for it, text in unformatted.items()}), **sums_of_crate(files)}
    head = ''.join(f'{name} = {it}\n' for name, it in {'rustfmt': version, **sums}.items())
    departures = ''.join(f'\n---- departures/{it.name}\n{it.read_text(encoding="utf-8")}' for it in crate.departures_in(HERE))
    return f'{head}{departures}'.encode()


def said():
    """The lines `NAME = VALUE` at the front of ORIGIN, or none if it isn't there."""
    text = (TOP / ORIGIN).read_text(encoding='utf-8') if (TOP / ORIGIN).is_file() else ''
    return {name: value for name, _, value in (it.partition(' = ') for it in text.partition('\n\n')[0].splitlines())}


def committed():
    """The files of the crate as they are in the repository, without ORIGIN and what cargo makes."""
    files = {it.removeprefix(f'{PLACE}/'): data for it, data in below(PLACE).items() if it != ORIGIN}
    return {it: data for it, data in files.items() if not it.startswith('target/') and it != 'Cargo.lock'}


def differing():
    """Each thing that has a sum, with what is wrong with it, or None."""
    then, sources, parts = said(), sums_of_sources(), sums_of_crate(committed())
    for name in sorted({*sources, *parts, *then} - {'rustfmt', 'before rustfmt'}):
        now = {**sources, **parts}.get(name)
        what = f'{name} has changed since {PLACE} was written' if name in sources else f'{name} isn\'t what {ORIGIN} names'
        yield None if then.get(name) == now else f'{what}: {AGAIN}'


def compared():
    """What the audit and printing again show: each thing that was compared, with what is wrong with it, or None."""
    try:
        unformatted, audit = printed()
    except NotPrintable as error:
        yield f'not printed: {error}'
        return
    yield from audit.report() or [None]
    then, version = said(), version_of_rustfmt()
    is_same = then.get('before rustfmt') == sum_of({it: text.encode() for it, text in unformatted.items()})
    yield None if is_same else f'before rustfmt, the printed sources aren\'t what {ORIGIN} names: {AGAIN}'
    if version is None or version != then.get('rustfmt'):
        print(f'bytes of {PLACE}: skipped,', 'no rustfmt' if version is None else f'{version} is not {then.get("rustfmt")}')
        return
    wanted, found = formatted(unformatted), committed()
    wanted['ORIGIN'], found['ORIGIN'] = origin(version, unformatted, wanted), (TOP / ORIGIN).read_bytes() if (TOP / ORIGIN).is_file() else b''
    for name in sorted({*wanted, *found}):
        yield None if wanted.get(name) == found.get(name) else f'{PLACE}/{name} isn\'t what the sources are printed as: {AGAIN}'


def write():
    version = version_of_rustfmt()
    if version is None:
        sys.exit('generated.py: nothing is written, no rustfmt')
    try:
        unformatted, audit = printed()
    except NotPrintable as error:
        sys.exit(f'generated.py: nothing is written: {error}')
    if wrong := audit.report():
        sys.exit('\n'.join([*wrong, 'generated.py: nothing is written']))
    files = formatted(unformatted)
    files['ORIGIN'] = origin(version, unformatted, files)
    shutil.rmtree(TOP / PLACE / 'src', ignore_errors=True)
    for name, data in files.items():
        (TOP / PLACE / name).parent.mkdir(parents=True, exist_ok=True)
        (TOP / PLACE / name).write_bytes(data)
    print(f'{len(files)} files; {audit.kept} tokens as in the sources, others in {len(audit.used)} forms')
    return 0


def main(words):
    if words == []:
        return write()
    if words not in (['--check'], ['--sums']):
        sys.exit(__doc__)
    found = [*differing(), *(compared() if words == ['--check'] else ())]
    wrong = [it for it in found if it]
    print(*wrong, f'{len(found) - len(wrong)} passed, {len(wrong)} failed', sep='\n')
    return 1 if wrong else 0


if __name__ == '__main__':
    sys.exit(main(sys.argv[1:]))
