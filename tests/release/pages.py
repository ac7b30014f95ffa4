#!/usr/bin/env python3
"""Whether a release, or the repository, has each page that its pages and headers name, and each file and heading that they link to;
and whether the repository has each file of `tests`, `tools` and `dev` that its pages name.

    pages.py FOLDER

Prints what is missing, and at last `N passed, M failed`: a page or header is one count."""
import pathlib
import re
import sys

NAMED = re.compile(r'(?<![\w/])docs/\w+\.md')
# A file of the tests or tools that a page names, or a script of `dev/`; a release has few of them.
SCRIPT = re.compile(r'(?<![\w/.-])(?:(?:tests|tools)/[a-z0-9_./-]*\w\.[a-z]\w*|dev/\w+)')
LINK = re.compile(r'(?<!!)\[[^\]]*\]\(([^)\s]+)\)')
HEADING = re.compile(r'^#+ +(.*)$', re.MULTILINE)


def anchors(text):
    """The headings of a page as links name them."""
    return {re.sub(r'[^\w\- ]', '', it.lower()).replace(' ', '-') for it in HEADING.findall(text)}


def lacking(top, page):
    """What a page names that isn't there."""
    text = page.read_text(encoding='utf-8')
    yield from sorted(it for it in {*NAMED.findall(text)} if not (top / it).is_file())
    if page.suffix != '.md':
        return
    if (top / 'dev').is_dir():
        yield from sorted(it for it in {*SCRIPT.findall(text)} if not (top / it).exists())
    for link in sorted({*LINK.findall(text)}):
        file, _, anchor = link.partition('#')
        if '://' in link:
            continue
        target = page.parent / file if file else page
        if not target.exists() or anchor and anchor not in anchors(target.read_text(encoding='utf-8')):
            yield link


def main(release):
    top = pathlib.Path(release)
    pages = [it for folder in ('.', 'docs', 'tests', 'bindings', 'crates', 'generated') for it in sorted((top / folder).glob('*.md' if folder in ('.', 'docs', 'tests') else '**/*'))]
    pages = [it for it in pages if it.is_file() and it.suffix in ('.md', '.h', '.hpp', '.rs', '.py')]
    failed = 0
    for page in pages:
        missing = list(lacking(top, page))
        failed += bool(missing)
        for it in missing:
            print(f'{page.relative_to(top)} names {it}, which is not there')
    print(f'{len(pages) - failed} passed, {failed} failed')
    return 1 if failed or not pages else 0


sys.exit(main(sys.argv[1]))
