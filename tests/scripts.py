#!/usr/bin/env python3
"""Tests the scripts that run programs, dev/prove, tests/toolchain.py and tools/facts.py, with a made-up toolchain. For the scripts that
run programs, its command `rt` only names a version, and leaves a mark if it is called for anything else. For dev/prove it proves
everything in which the word `wrong` isn't.

    scripts.py

Works in a copy of the scripts with a few made-up files, whose Makefile writes programs in no time: so this tests which program is
run, what is built first, and what is said. tests/start.sh tests the same with the real programs, in a clone. The last line is
`N passed, M failed`."""
import importlib.util
import os
import pathlib
import re
import shutil
import subprocess
import sys
import tempfile
import time

TOP = pathlib.Path(__file__).resolve().parents[1]
COPIED = (
    'capnp_canon', 'capnpc-rattle', 'dev/layout_tool', 'dev/prove', 'crates.txt', 'HANDLES', 'TOOLCHAIN', 'README.md', 'docs/PROVED.md', 'generated/ORIGIN',
    'tools/run_program', 'tools/current.sh', 'tools/proved.py', 'tools/generated.py', 'tools/libraries.py', 'tests/toolchain.py',
)
# What each made-up program does: says which one it is, or the version; passes its input on; and ends with its own status.
PROGRAM = '''#!/bin/sh
[ "$*" != --version ] || {{ echo "capnp_canon 0"; exit 0; }}
echo "{}: $*"; cat; exit 1
'''
MAKEFILE = '''$(BUILD)/%: generated/%.c
	echo $* >>made
	sleep 0.3
	cp generated/$*.c $@ && chmod +x $@
'''
RT = '''#!/bin/sh
[ "$*" = version ] || {{ touch "{}"; exit 1; }}
echo "{}"
'''
# A toolchain that proves: `rt`, and `rattle` and `rattle-link` of its kit. Each says what it does in the file `said` of the kit.
PROVING = {
    'rt': '''#!/bin/sh
case $1 in
doc) echo "{kit}/START-HERE.md" ;;
ci)
    echo ci >>{kit}/said
    for crate in $(sed 's/:.*//' crates.txt); do
        mkdir -p crates/$crate/out/rlib/$crate.rlib && touch crates/$crate/out/rlib/$crate.rlib/format && echo "rt: $crate proved" && echo "rt: $crate: its tests are proved"
    done
    echo "2 passed, 0 failed"
    ;;
esac
''',
    'rattle': '''#!/bin/sh
echo "build $3" >>{kit}/said
if grep -q wrong src/*.rt; then exit 1; fi
for to; do :; done
case " $* " in *" --backend "*) touch "$to" ;; *) mkdir -p "$to" && touch "$to/format" ;; esac
echo "logic=proved functions=1 cpu=x86-64-v2 libraries-built=trusted"
''',
    'rattle-link': '''#!/bin/sh
printf '#!/bin/sh\\n[ "$*" = --version ] || exit 3\\necho capnp_canon 0\\n' >"$6" && chmod +x "$6"
''',
}
BUILT_FIRST = "capnp_canon: build/capnp_canon isn't built yet, so make builds it first\n"
BUILT_AGAIN = 'capnp_canon: build/capnp_canon is older than the C in generated/, so make builds it first\n'
NEWER = 'capnp_canon: crates/{} is newer than generated/, from which make compiles this program; dev/prove capnp_canon proves and builds the sources\n'
REFUSED = "capnpc_rattle: it isn't built from the current sources: run dev/prove capnpc_rattle, which proves and builds it with the toolchain's command rt\n"
BY_MAKE = 'compiled by make from generated/: build/capnp_canon\n'
BY_RT = 'proved and built with rt: crates/capnp_canon/out/capnp_canon\n'


class Tree:
    """A copy of the scripts in a folder, with made-up sources."""

    def __init__(self, folder):
        self.top, self.tools, self.called = folder / 'tree', folder / 'bin', folder / 'called'
        for path in COPIED:
            (self.top / path).parent.mkdir(parents=True, exist_ok=True)
            shutil.copy(TOP / path, self.top / path)
        self.tools.mkdir()
        self.write('Makefile', MAKEFILE)
        self.write('bindings/c/capnp_canonical.h', '#define CAPNP_CANONICAL_VERSION_TEXT "1.0.0"\n')
        self.write('bindings/c/capnp_layout.h', '')
        self.write('crates/capnp_words/src/lib.rt', '')
        self.write('crates/capnp_words/specs/Lib.antt', '')
        self.write('crates/capnp_layout/src/lib.rt', '')
        for name in 'capnp_canon', 'layout_tool':
            self.write(f'generated/{name}.c', PROGRAM.format(f'build/{name}'))
        self.stamp()

    def write(self, path, text, is_program=False):
        """Writes a file, which is newer than all that was there."""
        time.sleep(0.02)
        path = self.top / path
        path.parent.mkdir(parents=True, exist_ok=True)
        path.write_text(text, encoding='utf-8')
        path.chmod(0o755 if is_program else 0o644)

    def stamp(self):
        """Writes the sums of the sources into generated/ORIGIN."""
        script = 'import generated; print(*(f"{name}: {it}" for name, it in generated.sums().items()), sep="\\n")'
        sums = subprocess.run([sys.executable, '-B', '-c', script], cwd=self.top / 'tools', stdout=subprocess.PIPE, encoding='utf-8', check=True).stdout
        logic = (TOP / 'generated/ORIGIN').read_text(encoding='utf-8').partition('\n')[0]
        self.write('generated/ORIGIN', f'{logic}\n{sums}')

    def toolchain(self, version):
        """Puts a command `rt` of this version into the path."""
        (self.tools / 'rt').write_text(RT.format(self.called, version), encoding='utf-8')
        (self.tools / 'rt').chmod(0o755)

    def proving(self):
        """Makes a toolchain that proves, in a kit whose folder this returns, and a source for each crate."""
        kit = self.top / 'kit'
        (kit / 'bin').mkdir(parents=True)
        for name, text in PROVING.items():
            path = self.tools / name if name == 'rt' else kit / 'bin' / name
            path.write_text(text.format(kit=kit), encoding='utf-8')
            path.chmod(0o755)
        for line in (TOP / 'crates.txt').read_text(encoding='utf-8').splitlines()[1:]:
            root = f'crates/{line.partition(":")[0].split()[0]}/src'
            for file in ('lib.rt', 'main.rt'):
                if (TOP / root / file).is_file():
                    self.write(f'{root}/{file}', '')
        return kit

    def run(self, *words, given='', **variables):
        """Runs a command of the tree: what it writes, what it says on standard error, and its exit status."""
        path = f'{self.tools}:{os.environ["PATH"]}'
        run = subprocess.run(words, cwd=self.top, input=given, stdout=subprocess.PIPE, stderr=subprocess.PIPE, encoding='utf-8', env={**os.environ, 'PATH': path, **variables})
        return run.stdout, run.stderr, run.returncode

    def made(self):
        """How often make has built something since the last call."""
        path = self.top / 'made'
        times = len(path.read_text(encoding='utf-8').splitlines()) if path.is_file() else 0
        path.unlink(missing_ok=True)
        return times


def answer(words, given='', program='build/capnp_canon'):
    return f'{program}: {words}\n{given}'


def by_make(tree):
    """Facts about a program that make builds: what they are, and whether they hold."""
    first = [subprocess.Popen(['./capnp_canon', 'check', 'a'], cwd=tree.top, stdin=subprocess.DEVNULL, stdout=subprocess.PIPE, stderr=subprocess.PIPE, encoding='utf-8') for _ in range(3)]
    told = [it.communicate() for it in first]
    yield 'three runs at once build once, and one says so', tree.made() == 1 and sorted(err for _, err in told) == ['', '', BUILT_FIRST]
    yield 'and all three answer', {out for out, _ in told} == {answer('check a')} and {it.returncode for it in first} == {1}
    yield 'input, arguments and exit status are the program\'s', tree.run('./capnp_canon', 'check', 'a b', given='text') == (answer('check a b', 'text'), '', 1)
    yield 'nothing is built again', tree.made() == 0
    yield 'by a link, and from another folder', tree.run('sh', '-c', 'ln -s "$PWD/capnp_canon" "$1/linked" && cd / && "$1/linked" x', 'sh', str(tree.tools)) == (answer('x'), '', 1)
    yield 'the version, and which program it is', tree.run('./capnp_canon', '--version') == (f'capnp_canon 0\n{BY_MAKE}', '', 0)
    yield 'no second line for a file of that name', tree.run('./capnp_canon', '--', '--version')[0] == answer('-- --version')
    tree.write('generated/layout_tool.c', '')
    yield 'other C is newer', tree.run('./capnp_canon', 'x') == (answer('x'), '', 1) and tree.made() == 0
    tree.write('generated/capnp_canon.c', PROGRAM.format('new'))
    yield 'its C is newer: it is built again', tree.run('./capnp_canon', 'x') == (answer('x', program='new'), BUILT_AGAIN, 1)
    yield 'once', tree.run('./capnp_canon', 'x') == (answer('x', program='new'), '', 1) and tree.made() == 1
    yield 'make that is told otherwise around it', tree.run('./capnp_canon', 'x', MAKEFLAGS='n -- BUILD=other', BUILD='other') == (answer('x', program='new'), '', 1)
    tree.write('generated/capnp_canon.c', '')
    tree.write('Makefile', '$(BUILD)/%: generated/%.c\n\tfalse\n')
    out, err, status = tree.run('./capnp_canon', 'x')
    yield 'make fails: nothing is run', (out, status) == ('', 2) and err.startswith(BUILT_AGAIN) and "make couldn't build it" in err
    tree.write('Makefile', MAKEFILE)
    tree.write('generated/capnp_canon.c', PROGRAM.format('build/capnp_canon'))
    tree.run('./capnp_canon')
    (tree.top / 'build/lock').symlink_to('99999999')
    yield 'the lock of a run that was killed', tree.run('./capnp_canon', 'x') == (answer('x'), '', 1)


def changed_sources(tree):
    """Facts about sources that are newer than the C."""
    tree.write('crates.txt', (tree.top / 'crates.txt').read_text(encoding='utf-8') + 'shop_reading: typed_reading\n')
    yield 'a line more in crates.txt', tree.run('./capnp_canon', 'x') == (answer('x'), '', 1)
    tree.write('crates/capnp_words/src/lib.rt', '')
    yield 'a source is newer but the same', tree.run('./capnp_canon', 'x') == (answer('x'), '', 1) == tree.run('./capnp_canon', 'x')
    tree.write('crates/capnp_layout/src/lib.rt', 'changed')
    yield 'a crate that isn\'t below the program has changed', tree.run('./capnp_canon', 'x') == (answer('x'), '', 1)
    tree.write('crates/capnp_words/src/lib.rt', 'changed')
    yield 'a source has changed: a line says so', tree.run('./capnp_canon', 'x') == (answer('x'), NEWER.format('capnp_words/src/lib.rt'), 1)
    shutil.rmtree(tree.top / 'build')
    yield 'also after make has built all again', tree.run('./capnp_canon', 'x') == (answer('x'), BUILT_FIRST + NEWER.format('capnp_words/src/lib.rt'), 1)
    tree.stamp()
    yield 'the C is written again', tree.run('./capnp_canon', 'x')[0::2] == (answer('x'), 1) and tree.run('./capnp_canon', 'x')[1] == ''
    tree.made()


def proved(tree):
    """Facts about a program that was proved and built."""
    built = 'crates/capnp_canon/out/capnp_canon'
    tree.write(built, PROGRAM.format('proved'), is_program=True)
    yield 'the proved program goes before that of make', tree.run('./capnp_canon', 'x') == (answer('x', program='proved'), '', 1)
    yield 'its version', tree.run('./capnp_canon', '-V', '--version')[0] == answer('-V --version', program='proved') and tree.run('./capnp_canon', '--version') == (f'capnp_canon 0\n{BY_RT}', '', 0)
    tree.write('crates/capnp_words/CALLING.md', '')
    tree.write('crates.txt', (tree.top / 'crates.txt').read_text(encoding='utf-8') + '# more\n')
    yield 'a page and crates.txt are newer', tree.run('./capnp_canon', 'x') == (answer('x', program='proved'), '', 1)
    tree.write('crates/capnp_words/specs/Lib.antt', 'changed')
    yield 'a definition is newer: make\'s program, whose sources are the same', tree.run('./capnp_canon', 'x') == (answer('x'), '', 1)
    tree.write('crates/capnp_words/src/lib.rt', 'changed again')
    yield 'a source is newer: make\'s program, and a line says so', tree.run('./capnp_canon', 'x') == (answer('x'), NEWER.format('capnp_words/src/lib.rt'), 1)
    yield 'UNPROVED means nothing', tree.run('./capnp_canon', 'x', UNPROVED='1')[0] == answer('x')
    yield 'the generator isn\'t built', tree.run('./capnpc-rattle', given='request') == ('', REFUSED, 2) == tree.run('./capnpc-rattle', given='request', UNPROVED='1')
    tree.write('crates/capnpc_rattle/out/capnpc_rattle', PROGRAM.format('generator'), is_program=True)
    yield 'the generator is built', tree.run('./capnpc-rattle', given='request') == ('generator: \nrequest', '', 1)
    tree.write('crates/capnp_words/src/lib.rt', 'changed')
    yield 'a source of the generator is newer', tree.run('./capnpc-rattle', given='request') == ('', REFUSED, 2)


def proving(tree):
    """Facts about dev/prove."""
    kit = tree.proving()

    def prove(*crates):
        """What it says, without seconds; its exit status; and what the toolchain was asked for."""
        (kit / 'said').write_text('', encoding='utf-8')
        _, err, status = tree.run('dev/prove', *crates)
        return re.sub(r', \d+ s\n', '\n', err), status, (kit / 'said').read_text(encoding='utf-8').split('\n')[:-1]

    shutil.rmtree(tree.top / 'crates/capnp_canon/out')
    below = subprocess.run(['sh', '-c', '. tools/current.sh && crates_below capnp_canon'], cwd=tree.top, env={**os.environ, 'top': str(tree.top)}, stdout=subprocess.PIPE, encoding='utf-8').stdout.split()
    lines = [f'prove: {number} of {len(below)} proved: {crate}\n' for number, crate in enumerate(below, 1)]
    begun = f'prove: {len(below)} crates are to be proved, which takes minutes on all processors\n'
    yield 'all is proved, with a line for each crate', prove('capnp_canon') == (begun + ''.join(lines), 0, ['ci', 'build capnp_canon'])
    yield 'then the script runs what was proved', tree.run('./capnp_canon', '--version') == (f'capnp_canon 0\n{BY_RT}', '', 0)
    yield 'nothing is proved twice', prove('capnp_canon', 'capnp_words') == ('prove: proved already: capnp_words capnp_canon\n', 0, [])
    tree.write('crates/capnp_show/src/lib.rt', 'changed')
    above = 'capnp_show', 'capnp_streams', 'typed_streams', 'capnp_canon'
    said = 'prove: 4 crates are to be proved\n' + ''.join(f'prove: {n} of 4 proved: {it}\n' for n, it in enumerate(above, 1))
    yield 'after a change, it and what is above it', prove('capnp_canon') == (said, 0, [f'build {it}' for it in above])
    above = 'capnp_walks', 'capnp_numbers', 'capnp_canonical'
    said = 'prove: 3 crates are to be proved\n' + ''.join(f'prove: {n} of 3 proved: {it}\n' for n, it in enumerate(above, 1))
    yield 'the library for C', prove('capnp_canonical') == (said, 0, [f'build {it}' for it in above]) and (tree.top / 'crates/capnp_canonical/out/libcapnp_canonical.a').is_file()
    yield 'and the processor that it is for', (tree.top / 'crates/capnp_canonical/out/cpu').read_text(encoding='utf-8') == 'x86-64-v2\n'
    tree.write('crates/capnp_canon/src/main.rt', 'wrong')
    err, status, said = prove('capnp_canon')
    yield 'what is refused is tried once', status == 1 and said == ['build capnp_canon'] and err.endswith('prove: capnp_canon is not proved\n') and 'all of the above is in ' in err
    yield 'and isn\'t run', tree.run('./capnp_canon', 'x')[0] == answer('x')
    yield 'a crate that isn\'t there', prove('none') == ('prove: crates.txt has no none\n', 1, [])
    for log in re.findall('all of the above is in (.*)', err):
        os.unlink(log)


def toolchains(tree):
    """Facts about tests/toolchain.py."""
    logic = next(it.split()[1] for it in (TOP / 'TOOLCHAIN').read_text(encoding='utf-8').splitlines() if it.startswith('logic: '))
    for kit, said in (('rattle-kit-13b', 'has been proved before'), ('rattle-kit-13f', 'has been proved before'), ('made-up', f'made-up has the logic {logic}, but TOOLCHAIN does not list it')):
        tree.toolchain(f'{kit} logic {logic}')
        out, _, status = tree.run(sys.executable, 'tests/toolchain.py')
        yield f'{kit}, of this logic', status == 0 and said in out and out.endswith('4 passed, 0 failed\n')
    tree.toolchain('made-up logic 0123456789abcdef')
    out, _, status = tree.run(sys.executable, 'tests/toolchain.py')
    yield 'another logic', status == 1 and out.startswith(f'made-up has the logic 0123456789abcdef, and this repository is proved in the logic {logic}. Use a kit') and out.endswith('3 passed, 1 failed\n')
    tree.toolchain('usage')
    yield 'no version', tree.run(sys.executable, 'tests/toolchain.py')[2] == 1
    tree.toolchain(f'made-up logic {logic}')
    tree.write('README.md', 'proved in the logic 0123456789abcdef')
    out, _, status = tree.run(sys.executable, 'tests/toolchain.py')
    yield 'a page names another logic', status == 1 and 'README.md names 0123456789abcdef' in out


def facts_of_pages():
    """Facts about tools/facts.py, with made-up pages."""
    spec = importlib.util.spec_from_file_location('facts', TOP / 'tools/facts.py')
    facts = importlib.util.module_from_spec(spec)
    spec.loader.exec_module(facts)
    fact = 'least Rust', '1.88', ('Rust # or later',)
    texts = {'one.md': 'It needs Rust\n1.88 or later, and 12 KB.', 'two.md': 'Rust 1.87 or later. It takes 12\nKB. `x`\n```\n7 minutes\n```', 'three.md': '7 minutes'}
    yield 'a page with another value', facts.differences(texts, *fact) == ['two.md has 1.87 for least Rust, which is 1.88']
    yield 'a fact that no page has', len(facts.differences({'three.md': ''}, *fact)) == 1
    yield 'the value is written', facts.with_value(texts['two.md'], '1.88', fact[2]).startswith('Rust 1.88 or later. It takes')
    yield 'a number on two pages by hand', facts.by_hand(texts, [fact]) == {'12 KB': ['one.md', 'two.md']}
    yield 'a version on two pages by hand', 'Rust 1.88' in facts.by_hand({'one.md': 'Rust 1.88', 'two.md': 'Rust 1.88'}, [fact])


def main():
    passed = failed = 0
    with tempfile.TemporaryDirectory(prefix='scripts-') as folder:
        tree = Tree(pathlib.Path(folder).resolve())
        tree.toolchain('made-up logic 0')
        facts = [it for part in (by_make, changed_sources, proved, toolchains) for it in part(tree)]
        facts.append(('no script that runs a program has called rt', not tree.called.exists()))
        facts += proving(tree)
        facts += facts_of_pages()
    for what, holds in facts:
        passed, failed = passed + bool(holds), failed + (not holds)
        if not holds:
            print(f'FAILED: {what}')
    print(f'{passed} passed, {failed} failed')
    return 1 if failed else 0


sys.exit(main())
