#!/usr/bin/env python3
"""Prints the texts of texts.txt, and compares what the printer of tools/rust makes of them with what is expected.

    texts.py [FOLDER]

FOLDER is tools/rust by default, or a copy of it. The last line is `N passed, M failed`."""
import pathlib
import re
import sys

HERE = pathlib.Path(__file__).resolve().parent
TOOLS = pathlib.Path(sys.argv[1]) if sys.argv[1:] else HERE.parents[1] / 'tools/rust'
sys.path.insert(0, str(TOOLS))

from printer import library
from printer.departures import Departures
from printer.tokens import NotPrintable

TEXT = re.compile(r'^=== (.*)\n((?:.*\n)*?)---( refused)?\n((?:.*\n)*?)(?=\n*(?:=== |\Z))', re.MULTILINE)


def printed(text):
    """The file that a text is printed as, or why it isn't."""
    try:
        files = library.without_contracts('sample', {'rows.rt': text}, Departures([]))
        libraries = {it: f'crate::proved::{it}' for it in ('sample', 'below', 'other')}
        libraries.update((it, f'crate::proved::support::{it}') for it in library.SUPPORT[''])
        return library.with_paths(files['rows.rt'], 'crate::proved::sample', libraries, library.support_of('crate::proved::support'), True)
    except NotPrintable as error:
        return f'refused: {error}'


def main():
    passed = failed = 0
    page = (HERE / 'texts.txt').read_text(encoding='utf-8')
    texts = TEXT.findall(page)
    for what, text, refused, wanted in texts:
        found = printed(text)
        is_right = found.startswith('refused: ') and wanted.strip() in found if refused else found.strip() == wanted.strip()
        passed, failed = passed + is_right, failed + (not is_right)
        if not is_right:
            print(f'{what}: printed as\n{found}')
    if len(texts) != page.count('\n=== '):
        print('texts.txt: a text without the other one')
        failed += 1
    print(f'{passed} passed, {failed} failed')
    return 1 if failed or not passed else 0


sys.exit(main())
