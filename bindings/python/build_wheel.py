"""Builds the package for pip (PEP 517). It needs nothing but Python.

    pip install ./bindings/python

A wheel contains the package and the library. The library is the file that CAPNP_CANONICAL_LIBRARY names; or else what
the C compiler `$CC` or `cc` makes of capnp_canonical.c, if that is in `native`, or in `../../generated` as in the
repository; or else the one that `pkg-config` finds. The wheel is tagged for the systems that this library is for, which
its file tells (platform_tags.py). For another tag set the config setting `plat-name`. `pip install -e` puts the library
into the package's folder here.
"""
import ast
import base64
import csv
import gzip
import hashlib
import io
import os
import pathlib
import re
import shlex
import subprocess
import sys
import tarfile
import tempfile
import zipfile

import platform_tags

HERE = pathlib.Path(__file__).resolve().parent
NAME = 'capnp_canonical'
# The names that the package looks for.
LIBRARY = {'darwin': f'lib{NAME}.dylib', 'win32': f'{NAME}.dll'}.get(sys.platform, f'lib{NAME}.so')
VARIABLE = 'CAPNP_CANONICAL_LIBRARY'
# Has the C end the process at places that are proved unreachable, where it would go on otherwise.
TRAPS = 'CAPNP_CANONICAL_TRAPS'
# Has a function touch each page of its frame, so that no frame reaches beyond the guard page below a stack.
PROTECTION = '-fstack-clash-protection'
# Fixed, so that the same files give the same wheel.
DATE = (1980, 1, 1, 0, 0, 0)


def about(key):
    return re.search(rf'^{key} = "(.*)"$', (HERE / 'pyproject.toml').read_text(encoding='utf-8'), re.M)[1]


def native(name):
    """A C file of the library: next to this one in a source archive, or else in the repository. None if there is
    none."""
    for folder in HERE / 'native', HERE.parents[1] / 'generated', HERE.parent / 'c':
        if (folder / name).is_file():
            return folder / name
    return None


def licence():
    """The licence file: next to this one in a source archive, or else at the top of the repository."""
    return next(it for it in (HERE / 'LICENSE', HERE.parents[1] / 'LICENSE') if it.is_file())


def package():
    """The files of the package, by their names in a wheel."""
    files = sorted(it for it in (HERE / NAME).iterdir() if it.suffix == '.py' or it.name == 'py.typed')
    return {f'{NAME}/{it.name}': it.read_bytes() for it in files}


def description():
    """The text of the package, which says what it does and how to call it."""
    return ast.get_docstring(ast.parse((HERE / NAME / '__init__.py').read_text(encoding='utf-8')))


def metadata():
    return (f'Metadata-Version: 2.1\nName: {NAME}\nVersion: {about("version")}\nSummary: {about("description")}\n'
            f'License: MIT\nLicense-File: LICENSE\nKeywords: capnp,capnproto,canonical,digest,signature\n'
            f'Classifier: Programming Language :: Python :: Implementation :: CPython\nClassifier: Typing :: Typed\n'
            f'Requires-Python: {about("requires-python")}\nDescription-Content-Type: text/plain; charset=UTF-8\n'
            f'\n{description()}\n').encode()


def accepts(compiler, flag):
    """Whether a compiler takes a flag without a word."""
    with tempfile.TemporaryDirectory() as folder:
        source = pathlib.Path(folder) / 'empty.c'
        source.write_text('int nothing;\n', encoding='utf-8')
        command = [*compiler, '-Werror', flag, '-c', '-o', str(source.with_suffix('.o')), str(source)]
        return subprocess.run(command, stdout=subprocess.DEVNULL, stderr=subprocess.DEVNULL).returncode == 0


def compiled(source, header):
    """The library compiled from its C, as bytes. -O2 comes after CFLAGS, because a call takes much more stack if the C isn't
    optimised. Traps cost less than 0.1 % more instructions, and end a call that goes wrong: it can only if another thread
    changes the buffer that the call writes to."""
    with tempfile.TemporaryDirectory() as folder:
        library = pathlib.Path(folder) / LIBRARY
        compiler = shlex.split(os.environ.get('CC', 'cc'))
        # ARCHFLAGS names the architectures on macOS, where a library may have several
        flags = [flag for it in ('ARCHFLAGS', 'CFLAGS', 'LDFLAGS') for flag in shlex.split(os.environ.get(it, ''))]
        protected = [PROTECTION] if accepts(compiler, PROTECTION) else []
        subprocess.run([*compiler, '-std=gnu11', f'-D{TRAPS}', *flags, '-O2', *protected, '-fPIC', '-shared',
                        f'-I{header.parent}', '-o', str(library), str(source)], check=True)
        return library.read_bytes()


def installed():
    """The library that `pkg-config` finds, as bytes."""
    run = subprocess.run(['pkg-config', '--variable=libdir', NAME], stdout=subprocess.PIPE, text=True)
    library = pathlib.Path(run.stdout.strip()) / LIBRARY
    if run.returncode or not library.is_file():
        raise SystemExit(f'{LIBRARY} is not found: let {VARIABLE} name it, or PKG_CONFIG_PATH the folder of {NAME}.pc')
    return library.read_bytes()


def library():
    if os.environ.get(VARIABLE):
        return pathlib.Path(os.environ[VARIABLE]).read_bytes()
    source = native(f'{NAME}.c')
    return compiled(source, native(f'{NAME}.h')) if source else installed()


def about_wheel(tags):
    """The files that describe a wheel with these tags, by their names in it, without its list of files."""
    folder = f'{NAME}-{about("version")}.dist-info'
    lines = ''.join(f'Tag: {it}\n' for it in tags)
    return {
        f'{folder}/METADATA': metadata(),
        f'{folder}/LICENSE': licence().read_bytes(),
        f'{folder}/WHEEL': f'Wheel-Version: 1.0\nGenerator: {NAME}\nRoot-Is-Purelib: false\n{lines}'.encode(),
    }


def written_wheel(directory, platforms, files):
    """Write a wheel of these files for these platforms, and return its name."""
    stem = f'{NAME}-{about("version")}'
    files = {**files, **about_wheel([f'py3-none-{it}' for it in platforms])}
    record = io.StringIO()
    rows = csv.writer(record, lineterminator='\n')
    for name, data in files.items():
        digest = base64.urlsafe_b64encode(hashlib.sha256(data).digest()).rstrip(b'=').decode()
        rows.writerow((name, f'sha256={digest}', len(data)))
    rows.writerow((f'{stem}.dist-info/RECORD', '', ''))
    files[f'{stem}.dist-info/RECORD'] = record.getvalue().encode()
    wheel = f'{stem}-py3-none-{".".join(platforms)}.whl'
    with zipfile.ZipFile(pathlib.Path(directory) / wheel, 'w', zipfile.ZIP_DEFLATED) as archive:
        for name, data in files.items():
            entry = zipfile.ZipInfo(name, DATE)
            entry.external_attr = (0o100755 if name.endswith(LIBRARY) else 0o100644) << 16
            entry.compress_type = zipfile.ZIP_DEFLATED
            archive.writestr(entry, data)
    return wheel


def build_wheel(wheel_directory, config_settings=None, metadata_directory=None):
    data = library()
    platforms = platform_tags.of(data, (config_settings or {}).get('plat-name'))
    return written_wheel(wheel_directory, platforms, {**package(), f'{NAME}/{LIBRARY}': data})


def build_editable(wheel_directory, config_settings=None, metadata_directory=None):
    """A wheel that has the path of the package here (PEP 660). Puts the library into the package, too."""
    data = library()
    (HERE / NAME / LIBRARY).write_bytes(data)
    return written_wheel(wheel_directory, platform_tags.of(data), {f'__editable__.{NAME}.pth': f'{HERE}\n'.encode()})


def prepare_metadata_for_build_wheel(metadata_directory, config_settings=None):
    """Write the metadata, which needs no library."""
    for name, data in about_wheel([]).items():
        file = pathlib.Path(metadata_directory) / name
        file.parent.mkdir(exist_ok=True)
        file.write_bytes(data)
    return f'{NAME}-{about("version")}.dist-info'


prepare_metadata_for_build_editable = prepare_metadata_for_build_wheel


def build_sdist(sdist_directory, config_settings=None):
    """A source archive, which compiles the C, so the C has to be there."""
    stem = f'{NAME}-{about("version")}'
    sources = {name: native(name) for name in (f'{NAME}.c', f'{NAME}.h')}
    if None in sources.values():
        raise SystemExit(f'a source archive has {NAME}.c, which is not here')
    files = {**package(), 'PKG-INFO': metadata(), 'LICENSE': licence().read_bytes()}
    files.update({name: (HERE / name).read_bytes() for name in ('pyproject.toml', 'build_wheel.py', 'platform_tags.py')})
    files.update({f'native/{name}': source.read_bytes() for name, source in sources.items()})
    whole = io.BytesIO()
    with tarfile.open(fileobj=whole, mode='w', format=tarfile.PAX_FORMAT) as archive:
        for name, data in files.items():
            entry = tarfile.TarInfo(f'{stem}/{name}')
            entry.size, entry.mode = len(data), 0o644
            archive.addfile(entry, io.BytesIO(data))
    # without a time, so that the same files give the same archive
    (pathlib.Path(sdist_directory) / f'{stem}.tar.gz').write_bytes(gzip.compress(whole.getvalue(), mtime=0))
    return f'{stem}.tar.gz'
