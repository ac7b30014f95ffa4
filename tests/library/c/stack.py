#!/usr/bin/env python3
"""Whether each page that says how much stack the library takes says at least as much as was measured.

    stack.py BUILD <LINES

LINES are those of tests/release/stack.c. BUILD says how the library was built: `install`, by ./install; `clang` or `gcc`, in
a release with optimisation, or `release` for either; `unoptimised`, in a release. Prints a line `ok: PAGE ..` or
`FAILED: PAGE ..` for each figure of a page, and ends with 1 where one failed or a page says nothing."""
import pathlib
import re
import sys

TOP = pathlib.Path(__file__).resolve().parents[3]
MEASURED = re.compile(r': (\d+) bytes per level, (\d+) in addition$', re.M)
NUMBER = r'([\d,]+)'
BUILDS = 'install', 'clang', 'gcc', 'unoptimised'
# What a page says of each build, of a level in bytes, and of a call in KB; where it says one figure of all that are optimised, that.
SENTENCE = {
    'install': rf'{NUMBER} bytes as \./install builds', 'clang': rf'{NUMBER} bytes with clang', 'gcc': rf'{NUMBER} with gcc',
    'unoptimised': rf"{NUMBER} if the compiler doesn't optimise",
}
SHORT = {**{it: rf'{NUMBER} bytes of stack' for it in BUILDS}, 'unoptimised': rf'{NUMBER} if the compiler doesn.t optimise'}
CALL = {**{it: rf'A call takes another {NUMBER} KB' for it in BUILDS}, 'unoptimised': rf'or {NUMBER} KB if it'}
ROWS = {'install': '`./install`', 'clang': '`make`, clang', 'gcc': '`make`, gcc', 'unoptimised': '`make`, not optimised'}


def row(build, column):
    return rf'\| {re.escape(ROWS[build])} \|' + r'[^|]*\|' * column + rf' {NUMBER} '


TABLE = {it: row(it, 0) for it in BUILDS}
TABLE_OF_CALLS = {it: row(it, 1) for it in BUILDS}
PAGES = {
    'bindings/c/capnp_canonical.h': (SENTENCE, CALL), 'docs/C.md': (TABLE, TABLE_OF_CALLS),
    'dev/release_files/README.md': (TABLE, TABLE_OF_CALLS), 'README.md': (TABLE, TABLE_OF_CALLS),
    'bindings/python/capnp_canonical/__init__.py': (SHORT, None),
}


def text_of(page):
    """The page without line ends and the marks of comments; none where it isn't there, or isn't the README of a release."""
    if page == 'README.md' and (TOP / 'dev/release_files').is_dir():
        return None
    if page == 'dev/release_files/README.md' and not (TOP / page).is_file():
        return None
    return re.sub(r'\s*\n(?: \*|//!|//)?\s*', ' ', (TOP / page).read_text(encoding='utf-8'))


def said(text, patterns, builds):
    """The largest figure of a page for these builds; none where it lacks one."""
    found = [re.search(patterns[it], text) for it in builds]
    return max(int(it[1].replace(',', '')) for it in found) if all(found) else None


def main(build):
    builds = {'release': ('clang', 'gcc')}.get(build, (build,))
    measured = [(int(level), int(beside)) for level, beside in MEASURED.findall(sys.stdin.read())]
    if not measured:
        sys.exit('stack.py: nothing was measured')
    level, beside = (max(it) for it in zip(*measured))
    failed = False
    for page, (levels, calls) in PAGES.items():
        text = text_of(page)
        if text is None:
            continue
        # the README of a release says nothing of ./install
        if build == 'install' and page.endswith('README.md'):
            continue
        facts = [('a level', said(text, levels, builds), level, 'bytes')]
        facts += [('a call', said(text, calls, builds), (beside + 999) // 1000, 'KB')] if calls else []
        for what, figure, taken, unit in facts:
            holds = figure is not None and figure >= taken
            failed = failed or not holds
            print(f'{"ok" if holds else "FAILED"}: {page}, {build}: {what} takes up to {figure} {unit}, {taken} measured')
    return failed


sys.exit(main(sys.argv[1]))
