#!/usr/bin/env python3
"""Runs the tests that aren't part of the gate: those of the quick start, of the library, of a release, of a clone, of the programs'
pages and options, of the JavaScript package, of the printed Rust and the crate over it, of generated code, of messages that are
tested against schemas, of the viewer, and the comparison with C++ Cap'n Proto.

    rest.py [NAME..]

NAMEs choose the parts: start, completion, shell, peer, js, rust, crate, typed, typed_rust, typed_c, typed_page, conforming, validating,
viewer, library, layout_c, clone, release, packages; by default all, which takes more than an hour. Some parts prove and build what
isn't built yet; start, typed_page, clone, release and packages test the last commit.

Prints the last line of each part, and the lines that say what the part itself skipped. If a part fails, also prints the end
of its output. A part whose tools are missing is skipped and not counted. The last line is `N passed, M failed`, with the
number of skips after it, if there are any. The exit status is 0 exactly if nothing failed and something passed."""
import os
import pathlib
import re
import shutil
import subprocess
import sys

TOP = pathlib.Path(__file__).resolve().parents[1]
# Each part: its name, its command, and the tools without which it isn't run. Of names separated by | one is enough.
PARTS = (
    ('start', ('sh', 'tests/start.sh'), ('git', 'make', 'cc')),
    ('completion', (sys.executable, '-B', 'tests/completion.py'), ()),
    ('shell', ('sh', 'tests/shell.sh'), ('make|build/capnp_canon', 'timeout')),
    ('peer', ('sh', 'tests/peer/run.sh'), ('make|build/capnp_canon', 'capnp')),
    ('js', ('sh', 'tests/js/run.sh'), ('node',)),
    ('rust', (sys.executable, '-B', 'tests/rust/run.py'), ('cargo', 'rustfmt')),
    ('crate', (sys.executable, '-B', 'tests/rust/layout_crate.py'), ('cargo',)),
    ('typed', (sys.executable, '-B', 'tests/typed/run.py'), ('rt', 'capnp')),
    ('typed_rust', (sys.executable, '-B', 'tests/typed/rust.py'), ('cargo', 'rustfmt', 'capnp', 'make|crates/capnpc_layout_rust/out/capnpc_layout_rust')),
    ('typed_c', (sys.executable, '-B', 'tests/typed/c.py'), ('gcc', 'g++', 'clang', 'clang++', 'capnp', 'make|crates/capnpc_layout_c/out/capnpc_layout_c')),
    ('typed_page', (sys.executable, '-B', 'tests/typed/page.py'), ('git', 'make', 'cc', 'capnp')),
    ('conforming', (sys.executable, '-B', 'tests/typed/conforming.py'), ('cargo', 'capnp')),
    ('validating', (sys.executable, '-B', 'tests/typed/validating.py'), ('make|build/capnp_canon', 'capnp')),
    ('viewer', ('sh', 'tests/viewer/run.sh'), ('node', os.environ.get('CHROMIUM', 'chromium'))),
    ('library', ('sh', 'tests/library/run.sh'), ('rt',)),
    ('layout_c', ('sh', 'tests/layout_c/run.sh'), ('gcc', 'capnp')),
    ('clone', ('sh', 'tests/release/clone.sh'), ('git', 'make', 'cc')),
    ('release', ('sh', 'tests/release/run.sh'), ('git', 'make', 'gcc|clang')),
    ('packages', ('sh', 'tests/release/packages.sh'), ('git', 'ssh-keygen')),
)
COUNTS = re.compile(r'(\d+) passed, (\d+) failed(?:; skipped: .*)?')
SKIPPED = re.compile(r'(?:^|: )skipped\b')


def say(text):
    print(text, flush=True)


def is_there(names):
    """Whether one of these tools is in the path, or one of these files is built."""
    return any((TOP / it).is_file() if '/' in it else shutil.which(it) for it in names.split('|'))


def result(name, command):
    """Runs a part, says what it says, and returns how many passed and failed, and how many things it skipped."""
    run = subprocess.run(command, cwd=TOP, stdin=subprocess.DEVNULL, stdout=subprocess.PIPE, stderr=subprocess.STDOUT, encoding='utf-8', errors='replace')
    lines = run.stdout.splitlines() or ['']
    found = COUNTS.fullmatch(lines[-1])
    passed, failed = (int(it) for it in found.groups()) if found else (0, 1)
    if not failed and (run.returncode or not passed):
        failed = 1
    skipped = [line.strip() for line in lines[:-1] if SKIPPED.search(line.strip())]
    for line in lines[-40:] if failed else skipped:
        say(f'    {line}')
    say(f'{name}: {lines[-1]}' if found else f'{name}: ended with status {run.returncode}, without a count in its last line')
    return passed, failed, len(skipped)


def main(words):
    # bytes pass unchanged in every locale
    sys.stdout.reconfigure(encoding='utf-8', errors='surrogateescape')
    if unknown := [word for word in words if word not in (name for name, *_ in PARTS)]:
        sys.exit(f'rest.py: there is no part {" ".join(unknown)}\n\n{__doc__}')
    passed = failed = skipped = 0
    for name, command, tools in PARTS:
        if words and name not in words:
            continue
        if lacking := [it for it in tools if not is_there(it)]:
            say(f'{name}: skipped, no {lacking[0].replace("|", " or ")}')
            skipped += 1
            continue
        more = result(name, command)
        passed, failed, skipped = passed + more[0], failed + more[1], skipped + more[2]
    say(f'{passed} passed, {failed} failed{f"; skipped: {skipped}" if skipped else ""}')
    return 1 if failed or not passed else 0


sys.exit(main(sys.argv[1:]))
