#!/usr/bin/env python3
"""Compares the facts that pages state with the one place that has each: a file of the sources, or `tools/facts.txt`.

    facts.py            writes the value into each page that has another one
    facts.py --check    says which pages have another one. The last line is `N passed, M failed`: a fact is one count, and so is a
                        number that two pages have by hand

FACTS has each fact with its value and the patterns that find it on pages, where `#` is the place of the value. A fact that no page has
any more is an error.

A number with a unit of measured or counted things (UNITS), or a version of a program (TOOLS), that is on two pages and that no fact covers
is refused: make it a fact, or state it on one page and link to that. DIFFERENT has what only looks like the same fact. Code blocks and
what tools/theorem.py quotes don't count; CHANGELOG.md is history, and isn't read."""
import collections
import functools
import gzip
import json
import pathlib
import re
import sys

TOP = pathlib.Path(__file__).resolve().parents[1]
PAGES = ('README.md', 'SECURITY.md', 'tests/*.md', 'tests/*/README.md', 'dev/release_files/README.md', 'packaging/README.md', 'viewer/README.md', 'docs/*.md', 'bindings/**/README.md')
UNITS = r'(?:processor )?(?:minutes?|hours?|seconds?|microseconds?|KB|kB|KiB|MB|MiB|GB|GiB|messages?|vectors?|mutants?|bugs?|cases?|definitions?|lines?|sequences?|runs?|functions?|times?)'
TOOLS = r"(?:gcc|clang|Rust|Python|node|glibc|Debian|LLVM|Meson|version|Cap'n Proto|crate `capnp`|`capnp`)"
NUMBER = re.compile(rf"(?<![\w.])(?:\d[\d,]*(?:\.\d+)? {UNITS}\b|{TOOLS} \d+(?:\.\d+)*)")
# Numbers that two pages have about different things.
DIFFERENT = {
    '1.5 times', '2 MB', '21 KB', '256 KiB', '500 messages', '64 MiB', '7 KB', '8 MiB', '9 KB',
    # the compilers and the messages of a measurement
    'clang 14', 'gcc 12', '66 MB', '67 MB',
}
QUOTED = re.compile(r'<!-- (?:clauses|function|item|definitions?|types|notation|count|tries|mutants|sizes)\b.*?<!-- end -->|```.*?```', re.S)


def text(path):
    return (TOP / path).read_text(encoding='utf-8')


def found(path, pattern):
    """The first group of a pattern, which the file has."""
    match = re.search(pattern, text(path), re.M)
    if not match:
        sys.exit(f'tools/facts.py: {path} has nothing like {pattern}')
    return match[1]


def macro(name):
    """A number that the C header defines, with commas."""
    number = found('bindings/c/capnp_canonical.h', rf'^#define {name} (?:UINT64_C\()?(\d+)')
    return f'{int(number):,}'


def lines_of(pattern):
    return sum(len(it.read_text(encoding='utf-8').splitlines()) for it in TOP.glob(pattern))


def rounded(count, to):
    """The count, rounded down."""
    return f'{count // to * to:,}'


def kilobytes(name):
    return f'{round(len((TOP / "bindings/js" / name).read_bytes()) / 1000)}'


def compressed(name):
    """The size in KB, compressed by gzip, rounded up to a multiple of 5: another zlib makes a few bytes more or less."""
    return f'{-(-len(gzip.compress((TOP / "bindings/js" / name).read_bytes(), 9)) // 5000) * 5}'


def stated():
    """The facts of facts.txt."""
    pairs = (line.rpartition(': ') for line in text('tools/facts.txt').splitlines() if line and not line.startswith('#'))
    return {name: value for name, _, value in pairs}


def facts():
    """Each fact: its name, its value, and the patterns that find it."""
    version = found('bindings/c/capnp_canonical.h', r'^#define CAPNP_CANONICAL_VERSION_TEXT "(.*)"')
    rust, python = found('bindings/rust/Cargo.toml', r'^rust-version = "(.*)"'), found('pyproject.toml', r'^requires-python = ">=(.*)"')
    node = json.loads(text('bindings/js/package.json'))['engines']['node'].removeprefix('>=')
    mutants = len([*TOP.glob('tests/mutants/*/*.mutant')])
    wasm, small = 'capnp_canonical.wasm', 'capnp_canonical_small.wasm'
    yield 'version', version, ('This is version #',)
    yield 'least Rust', rust, ('Rust # or later', '`alloc`, Rust #', 'without `unsafe`, Rust #', 'needs Rust #')
    yield 'least Python', python, ('Python # (?:or|and) later',)
    yield 'least node', node, ('node # and later',)
    yield 'planted bugs', rounded(mutants, 1000), ('each of more than # bugs',)
    yield 'messages with answers', rounded(lines_of('tests/vectors/*.jsonl'), 1000), ('# messages and [\\d,]+ sequences',)
    yield 'sequences of calls with answers', rounded(lines_of('tests/cases/*.jsonl'), 1000), ('messages and # sequences of calls',)
    yield 'levels by default', macro('CAPNP_CANONICAL_NESTING'), ('`{{ nesting: #, words', '`Limits\\(nesting=#,', 'and the stack \\| # \\|', 'may be nested, and therefore the stack \\| # \\|')
    yield 'words by default', macro('CAPNP_CANONICAL_WORDS'), ('therefore time and memory \\| # \\|', 'the default limits: # words', 'A frame of more words than #', 'it is # by default')
    yield 'most levels', macro('CAPNP_CANONICAL_MAX_NESTING'), ('nesting limit is at most #', 'may be up to #', 'A number above # ', 'larger number counts as #')
    yield 'size of the module in KB', kilobytes(wasm), ('The module has # KB',)
    yield 'compressed', compressed(wasm), ('The module has \\d+ KB, # KB compressed', 'compressed, in place of #\\)')
    yield 'size of the small module in KB', kilobytes(small), ('without digests # KB',)
    yield 'size of the module in the code', kilobytes('module.js'), ('in the code \\(# KB',)
    yield 'compressed, in the code', compressed('module.js'), ('in the code \\(\\d+ KB; # KB',)
    yield 'compressed, the small one', compressed(small), ('without digests \\d+ KB, # KB compressed', 'the size \\(# KB compressed')
    of_file = stated()
    for name, patterns in STATED.items():
        yield name, of_file.pop(name), patterns
    if of_file:
        sys.exit(f'tools/facts.py: no pattern for {", ".join(of_file)}')


# The patterns of the facts of facts.txt.
STATED = {
    'least gcc': ('gcc # or clang',),
    'least clang': ('or clang # or later',),
    'tested gcc': ('tested, with gcc #,', 'tested: gcc #,'),
    'tested clang': (', clang #(?=\\)| \\|)',),
    'tested Debian': ('Debian #(?=,|\\))',),
    "C++ Cap'n Proto": ("C\\+\\+ Cap'n Proto #",),
    # the version that was ported, and the one in which a program of the tests is built
    'upstream': ('`capnp` (?=0\\.2\\d\\.)#',),
    'crate capnp': ('`capnp` (?=0\\.1\\d\\.)#',),
    'stack of 1,024 levels, in MB': ('takes # MB(?!,? or in Rust of)', 'Threads of musl and of macOS have less than # MB'),
    'stack of 1,024 levels in Rust, in MB': ('or in Rust # MB',),
    'stack of a level by clang': ('`make`, clang \\| # bytes',),
    'stack of a level by gcc': ('`make`, gcc \\| # bytes',),
    'stack of a level, not optimised': ('`make`, not optimised \\| # bytes',),
    'stack of a call by clang, in KB': ('`make`, clang \\| [\\d,]+ bytes \\| # KB',),
    'stack of a call by gcc, in KB': ('`make`, gcc \\| [\\d,]+ bytes \\| # KB',),
    'stack of a call, not optimised, in KB': ('`make`, not optimised \\| [\\d,]+ bytes \\| # KB',),
    'largest message in WebAssembly, in GB': ('can have up to # GB each',),
    'memory of WebAssembly that is kept, in MB': ('grow(?:s|n|) beyond # MB', 'grew beyond # MB'),
    'what readers of packed streams read ahead, in KiB': ('read ahead, at most # KiB',),
}
VALUE = r'\d[\w,.]*\d(?: and \d+)?|\d(?: and \d+)?'


@functools.cache
def compiled(pattern):
    """The pattern with a group for the value. A space also finds the end of a line."""
    return re.compile(pattern.replace('{{', '{').replace(' ', r'\s+').replace('#', rf'({VALUE})', 1))


def pages():
    return {str(path.relative_to(TOP)): path.read_text(encoding='utf-8') for it in PAGES for path in sorted(TOP.glob(it)) if path.is_file()}


def places(text, patterns):
    """Where these patterns find a value in a text."""
    return [match for pattern in patterns for match in compiled(pattern).finditer(text)]


def differences(texts, name, value, patterns):
    """What is wrong with a fact on these pages."""
    found_there = [(page, match[1]) for page, text in texts.items() for match in places(text, patterns)]
    wrong = [f'{page} has {there} for {name}, which is {value}' for page, there in found_there if there != value]
    return wrong if found_there else [f'no page has {name}: remove the fact, or mend its pattern']


def with_value(text, value, patterns):
    """The text with this value in each place."""
    for match in sorted(places(text, patterns), key=lambda it: it.start(1), reverse=True):
        text = text[:match.start(1)] + value + text[match.end(1):]
    return text


def by_hand(texts, known):
    """The numbers with a unit, and the versions, that two pages have outside of these facts: for each the pages."""
    on = collections.defaultdict(set)
    for page, text in texts.items():
        left = QUOTED.sub(lambda it: ' ' * len(it[0]), text)
        for _, _, patterns in known:
            for match in places(text, patterns):
                left = left[:match.start()] + ' ' * len(match[0]) + left[match.end():]
        for match in NUMBER.finditer(re.sub(r'\s+', ' ', left)):
            on[match[0]].add(page)
    return {what: sorted(it) for what, it in sorted(on.items()) if len(it) > 1 and what not in DIFFERENT}


def main():
    if sys.argv[1:] not in ([], ['--check']):
        sys.exit(__doc__)
    texts, known = pages(), [*facts()]
    if not sys.argv[1:]:
        for page, text in texts.items():
            for _, value, patterns in known:
                text = with_value(text, value, patterns)
            if text != texts[page]:
                (TOP / page).write_text(text, encoding='utf-8')
                print(f'{page} is updated')
        texts = pages()
    wrong = [differences(texts, *fact) for fact in known]
    twice = by_hand(texts, known)
    wrong.append([f'{what} is on {" and ".join(on)} by hand: make it a fact of tools/facts.py, or say it once' for what, on in twice.items()])
    for line in (line for lines in wrong for line in lines):
        print(line)
    failed = sum(bool(it) for it in wrong)
    print(f'{len(wrong) - failed} passed, {failed} failed')
    return 1 if failed else 0


if __name__ == '__main__':
    sys.exit(main())
