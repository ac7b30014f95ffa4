"""Runs the examples of the pages for users with an installed library.

    page.py PREFIX FOLDER [PAGE..]

The pages are those of PAGES, or those that are named, such as `docs/C.md`. Each one is run in a folder of its own below FOLDER,
so that each is complete by itself.

The line above a program ends with its name: `bindings/c/example.c`: or `message.c`:. The program is written to the folder, or, if
the name has a `/`, compared with that file of the repository. Each command (`sh`) runs in the folder. If it makes canonical words,
the hash of these must be the page's first block of output (`text`). If its last line ends in
`# prints ..`, that is its output. A fragment of C without a name is compiled, in a function, and one
that begins with `static` outside of it. Rust without a name is a doc test, which tests/rust/layout_crate.py runs. Any other block
without a name is an error. A block that names the REPOSITORY is run by tests/start.sh.
Prints a line `ok: COMMAND`, `FAILED: COMMAND` or `skipped: COMMAND: no TOOL` for each."""
import importlib.util
import os
import pathlib
import re
import shutil
import subprocess
import sys

TOP = pathlib.Path(__file__).resolve().parents[2]
PAGES = 'README.md', 'docs/INSTALL.md', 'docs/C.md', 'docs/CPP.md', 'docs/RUST.md', 'docs/PYTHON.md', 'docs/JAVASCRIPT.md'
FILE = re.compile(r'`([\w./]+)`:$')
TOOLS = re.compile(r'^(c\+\+|cargo|cc|node|npm|openssl) |\| (capnp|openssl) ', re.MULTILINE)
CAPNP = pathlib.Path('/usr/include/capnp/message.h')
# What a fragment of C finds around it.
AROUND = '''#include <stdio.h>
#include "capnp_layout.h"
#include "capnp_canonical.h"
#include "capnp_canonical_limits.h"
#include "addressbook.capnp.h"
#include "fields.capnp.h"
typedef struct {{ struct capnp_struct reader; }} Outer;
{before}
uint32_t fragment(struct {kind} message, uint8_t *frame, size_t size, struct capnp_segment *room,
    uint8_t *packed, size_t packed_size, uint8_t *to, size_t written, uint32_t answer) {{
    {{ {inside} }}
    return answer + message.refusal + (uint32_t)(size + packed_size + written + *frame + *packed + *to + room->size);
}}
'''


def blocks(page):
    """The code blocks of a page: for each the line above it, its language and its text."""
    above, language, text = '', None, []
    for line in (TOP / page).read_text(encoding='utf-8').splitlines():
        if language is None and line.startswith('```'):
            language, text = line[3:], []
        elif line == '```':
            yield above, language, ''.join(f'{it}\n' for it in text)
            language = None
        elif language is not None:
            text.append(line)
        elif line:
            above = line


def report(holds, what):
    print(f'{"ok" if holds else "FAILED"}: {what}', flush=True)


def lacking(text):
    """The tools that a command needs and that are missing."""
    tools = {tool for pair in TOOLS.findall(text) for tool in pair if tool and not shutil.which(tool)}
    if 'reader.cpp' in text and not CAPNP.exists():
        tools.add(str(CAPNP))
    if 'sign.py' in text and importlib.util.find_spec('cryptography') is None:
        tools.add('cryptography')
    return ', '.join(sorted(tools))


def program(page, name, text):
    if '/' in name:
        report((TOP / name).read_text(encoding='utf-8') == text, f'{name} is the same as in {page}')
    else:
        pathlib.Path(name).write_text(text, encoding='utf-8')


def fragment(page, text):
    """Compiles a fragment of C, whose `message` is one that is read or one that is built."""
    what = f'{page}: a fragment that begins with {text.splitlines()[0].strip()!r}'
    if not shutil.which('cc'):
        print(f'skipped: {what}: no cc')
        return
    is_before = text.startswith('static ')
    parts = {'before': text if is_before else '', 'inside': '' if is_before else text}
    codes = [text] if text.startswith('#include') else [AROUND.format(kind=it, **parts) for it in ('capnp_message', 'capnp_builder')]
    folders = [f'-I{TOP / it}' for it in ('bindings/c', 'tests/typed/c')]
    words = ['cc', '-std=c99', '-Wall', '-Werror', '-Wno-unused', '-fsyntax-only', *folders, '-x', 'c', '-']
    runs = [subprocess.run(words, input=it, stderr=subprocess.PIPE, encoding='utf-8') for it in codes]
    holds = any(it.returncode == 0 for it in runs)
    if not holds:
        print(*(it.stderr[:2000] for it in runs))
    report(holds, what)


def command(page, text, environment, line):
    what = f'{page}: {text.splitlines()[-1]}'
    if lacking(text):
        print(f'skipped: {what}: no {lacking(text)}')
        return
    run = subprocess.run(['sh', '-ec', text], env=environment, stdout=subprocess.PIPE, text=True)
    hashed = any(it in what for it in ('sha256sum', 'sign.py', 'names.py', '.mjs'))
    said = re.search(r'# prints `(.*)`$', what)
    holds = run.returncode == 0 and (run.stdout == line or not hashed) and (not said or run.stdout.rstrip('\n') == said[1])
    if not holds:
        print(run.stdout[:2000])
    report(holds, what)


def run_page(page, prefix, folder):
    folder.mkdir()
    os.chdir(folder)
    for name in 'bindings', 'tests':
        os.symlink(TOP / name, name)
    # C++ Cap'n Proto takes the current folder from this variable
    environment = {**os.environ, 'PREFIX': prefix, 'PKG_CONFIG_PATH': f'{prefix}/lib/pkgconfig', 'PWD': str(folder)}
    found = list(blocks(page))
    line = next((text for _, language, text in found if language == 'text'), None)
    for above, language, text in found:
        named = FILE.search(above)
        if language == 'sh' and 'REPOSITORY' not in text:
            command(page, text, environment, line)
        elif language in ('sh', 'text', 'rust', 'rust,ignore', 'html', 'console') and not named:
            continue
        elif named:
            program(page, named.group(1), text)
        elif language == 'c':
            fragment(page, text)
        else:
            report(False, f'{page} has a block of {language or "nothing"} without a name')


def main():
    prefix, folder, *pages = sys.argv[1:]
    for number, page in enumerate(pages or PAGES):
        run_page(page, prefix, pathlib.Path(folder).resolve() / f'page{number}')


main()
