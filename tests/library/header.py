#!/usr/bin/env python3
"""Checks that bindings/c/capnp_canonical.h agrees with crates/capnp_canonical: the numbers, names and texts of answers and
reasons, the functions and the version; that each function has a symbol version; that the other bindings and the pages
have the header's numbers, texts and version; and that bindings/c/capnp_layout.h has the same numbers, and declares what
crates/capnp_layout_c exports.

    header.py

Prints what differs. The last line is `N passed, M failed`; a number, a function, a text and a version count one each."""
import pathlib
import re
import sys

TOP = pathlib.Path(__file__).resolve().parents[2]
HEADER = (TOP / 'bindings/c/capnp_canonical.h').read_text(encoding='utf-8')
NUMBERS = ''.join((TOP / f'crates/{it}/specs/Numbers.antt').read_text(encoding='utf-8') for it in ('capnp_numbers', 'capnp_canonical'))
# The header for reading, whose refusals have the same numbers.
LAYOUT = (TOP / 'bindings/c/capnp_layout.h').read_text(encoding='utf-8')
REASONS = (TOP / 'crates/capnp_pointers/specs/CanonicalFaults.antt').read_text(encoding='utf-8')
EXPORTS = ''.join(it.read_text(encoding='utf-8') for it in sorted((TOP / 'crates/capnp_canonical/src').glob('*.rt')))
PREFIX = 'CAPNP_CANONICAL_'
# The other files that have the header's version.
VERSIONS = {
    'bindings/python/pyproject.toml': r'^version = "(.*)"$', 'bindings/rust/Cargo.toml': r'^version = "(.*)"$',
    'bindings/rust/capnp/Cargo.toml': r'^version = "(.*)"$', 'share/capnp_canon.1': r'"capnp_canon (.*)"$', 'share/capnp_canonical.3': r'"capnp_canonical (.*)"$',
    'bindings/rust/Cargo.lock': r'^name = "capnp_canonical"\nversion = "(.*)"$', 'bindings/js/package.json': r'^  "version": "(.*)",$',
    'pyproject.toml': r'^version = "(.*)"$', 'crates/capnp_canon/src/texts.rt': r'"capnp_canon (.*)";$',
    'README.md': r'\bThis is version ([\d.]*\d)', 'CHANGELOG.md': r'\A[^#]*# Changes\n[^#]*## (\S*)',
}
# The other files that have the header's largest nesting limit.
LEVELS = {
    'bindings/python/capnp_canonical/_answers.py': r'^MAX_NESTING = (\d+)$', 'bindings/js/library.js': r'^export const MAX_NESTING = (\d+);$',
    'bindings/rust/src/limits.rs': r'^    pub const MAX_NESTING: i32 = (\d+);$',
}
# The files of the repository that the package for cargo has a copy of.
PACKAGED = {'LICENSE': 'LICENSE', **{f'tests/{it}': f'tests/library/rows/{it}' for it in ('messages.txt', 'packed.txt', 'parts.txt', 'prefixes.txt', 'streams.txt')}}


def in_capitals(name):
    """The C name of a variant: AListOfNULBytes is A_LIST_OF_NUL_BYTES."""
    return re.sub(r'(?<=[a-z0-9])(?=[A-Z])|(?<=[A-Z])(?=[A-Z][a-z])', '_', name).upper()


def numbers(*functions):
    """The number of each variant, from functions of Numbers.antt, with its C name. The two errors for lack of memory share one."""
    pattern = rf'^(?:{"|".join(functions)}) \(?(\w+)(?: _\))? = (\w+)$'
    renamed = {'NoMemory': 'AllocationFailed'}
    named = dict(re.findall(r'^(\w+_number) = (\d+)$', NUMBERS, re.M))
    return [(in_capitals(renamed.get(name, name)), int(named.get(number, number))) for name, number in re.findall(pattern, NUMBERS, re.M)]


def enumerators(enum):
    body = re.search(rf'enum {enum} \{{(.*?)\n\}};', HEADER, re.S)[1]
    return [(name, int(number)) for name, number in re.findall(rf'^ +{PREFIX}(\w+) = (\d+),?$', body, re.M)]


def comments(enum):
    """The comment above each number of an enum in the header."""
    body = re.search(rf'enum {enum} \{{(.*?)\n\}};', HEADER, re.S)[1]
    found = re.findall(rf'/\*((?:(?!\*/).)*)\*/\n +{PREFIX}(\w+) = \d+', body, re.S)
    return {name: ' '.join(text.replace('\n     *', ' ').split()) for text, name in found}


def constants(function):
    """The texts that a function of the header returns, by the names of the numbers."""
    body = re.search(rf'const char \*{function}\(.*?\n\}}\n', HEADER, re.S)[0]
    return dict(re.findall(rf'case {PREFIX}(\w+): return "(.*)";', body))


def file(name):
    return (TOP / name).read_text(encoding='utf-8')


def of_python():
    """The numbers and the texts of the package for Python."""
    answers = file('bindings/python/capnp_canonical/_answers.py')
    enums = {name: re.findall(r'^    ([A-Z_]+) = (\d+)$', body, re.M)
             for name, body in re.findall(r'^class (\w+)\(enum\.IntEnum\):\n(.*?)\n\n\n', answers, re.M | re.S)}
    texts = re.findall(r"""^    (\d+): ['"](.*)['"],$""", answers, re.M)
    return enums['Refusal'], enums['Reason'], texts


def of_rust():
    """The numbers, the names and the texts of the crate for Rust."""
    errors, answers, texts = (file(f'bindings/rust/src/{it}.rs') for it in ('error', 'answers', 'texts'))
    errors = re.findall(r'pub const (\w+): Error = Error::new\((\d+)\);', errors)
    reasons = re.findall(r'pub const (\w+): Reason = Reason\((\d+)\);', answers)
    of_errors = re.findall(r'^ +(\d+) => \(\s*"(.*)",\s*"(.*)",?\s*\),$', texts, re.M)
    return errors, reasons, of_errors, re.findall(r'^ +(\d+) => "(.*)",$', texts, re.M)


def comments_of_rust():
    """The comment above each constant of the crate for Rust, by the kind of constant and its name."""
    sources = file('bindings/rust/src/error.rs') + file('bindings/rust/src/answers.rs')
    found = re.findall(r'((?: +///.*\n)+) +pub const (\w+): (\w+) = ', sources)
    return {(kind, name): ' '.join(text.replace('///', ' ').split()) for text, name, kind in found}


def sentence(text):
    return text[0].upper() + text[1:]


def facts_of_texts():
    """Whether each text is the same wherever it is said: in the header's comments, in Rust's, in the sources and on pages."""
    names, texts, faults = (constants(f'capnp_canonical_{it}') for it in ('error_name', 'error_text', 'fault_text'))
    answers, reasons = comments('capnp_canonical_answer'), comments('capnp_canonical_reason')
    rust, library, program = comments_of_rust(), file('docs/LIBRARY.md'), file('docs/PROGRAM.md')
    of_sources = dict(re.findall(r'^fault_reason_text (\w+) = codes "(.*)"$', REASONS, re.M))
    for name, number in enumerators('capnp_canonical_answer'):
        if name == 'DONE':
            continue
        yield f'the comment of {name} is its text', answers[name].startswith(f'{sentence(texts[name])}.')
        # what the wrappers answer themselves has no constant in Rust
        yield f'the comment of {name} in Rust', name == 'NO_ROOM' or rust['Error', name] == answers[name]
        yield f'LIBRARY.md has {name}', f'| {number} | `{names[name]}` | {texts[name]} |\n' in library
    for name, text in faults.items():
        yield f'the comment of {name} is its text', reasons[name].startswith(f'{sentence(text)}: ')
        yield f'the comment of {name} in Rust', rust['Reason', name.replace('REASON_', '')] == reasons[name]
        yield f'PROGRAM.md has {name}', f'`{text}`' in program
    yield 'the texts of reasons in Faults.antt', {f'REASON_{in_capitals(it)}': text for it, text in of_sources.items()} == faults


def facts_of_bindings():
    """Compares the header's constants with those of Python and Rust."""
    answers = {name: str(it) for name, it in enumerators('capnp_canonical_answer') if name != 'DONE'}
    reasons = {name: str(it) for name, it in enumerators('capnp_canonical_reason') if name != 'REASON_NONE'}
    names, texts, faults = (constants(f'capnp_canonical_{it}') for it in ('error_name', 'error_text', 'fault_text'))
    refusals, fault_reasons, python_texts = of_python()
    errors, rust_reasons, of_errors, of_reasons = of_rust()
    short = {name.replace('REASON_', ''): it for name, it in reasons.items()}
    # errors that only wrappers return have no constant in Rust
    constant = {name: it for name, it in answers.items() if name != 'NO_ROOM'}
    yield 'Refusal of Python', dict(refusals) == answers
    yield 'Reason of Python', dict(fault_reasons) == short
    yield 'the constants of Error of Rust', dict(errors) == constant
    yield 'the constants of Reason of Rust', dict(rust_reasons) == short
    for name, number in answers.items():
        yield f'the name of {number}', in_capitals(names[name]) == name
        yield f'the text of {number} in Python', (number, texts[name]) in python_texts
        yield f'the name and the text of {number} in Rust', (number, names[name], texts[name]) in of_errors
    for name, number in reasons.items():
        yield f'the text of reason {number} in Rust', (number, faults[name]) in of_reasons


def facts_of_layout(answers):
    """That the header for reading has these numbers, and declares what its library exports."""
    body = re.search(r'enum capnp_refusal \{(.*?)\n\};', LAYOUT, re.S)[1]
    found = [(name, int(number)) for name, number in re.findall(r'^ +CAPNP_(\w+) = (\d+),?$', body, re.M)]
    exports = ''.join(it.read_text(encoding='utf-8') for it in (TOP / 'crates/capnp_layout_c/src').rglob('*.rt'))
    declared = re.findall(r'^[a-z].* (capnp_layout_\w+)\(', LAYOUT, re.M)
    exported = re.findall(r'^pub extern "C" fn (\w+)', exports, re.M)
    for it in found:
        yield f'{it[0]} = {it[1]} for reading', it in answers
    for name in sorted({*declared, *exported}):
        yield f'{name} is declared and exported', name in declared and name in exported


def declared_in_library():
    """The functions that the headers declare without a body."""
    return re.findall(r'^[a-z].* (capnp_(?:canonical|layout)_\w+)\([^{;]*\);$', HEADER + LAYOUT, re.M)


def main():
    answers = numbers('answer_number', 'frame_error_number', 'error_number') + [('DONE', 0)]
    reasons = [(f'REASON_{name}', number) for name, number in numbers('reason_number')] + [('REASON_NONE', 0)]
    declared = re.findall(r'^[a-z].* (capnp_canonical_\w+)\(', HEADER, re.M)
    exported = re.findall(r'^pub extern "C" fn (\w+)', EXPORTS, re.M)
    version = re.search(rf'{PREFIX}VERSION (\d+)', HEADER)[1], re.search(rf'{PREFIX}VERSION_TEXT "(.*)"', HEADER)[1]
    parts = [int(it) for it in version[1].split('.')]
    facts = [(f'{name} = {number}', (name, number) in answers) for name, number in enumerators('capnp_canonical_answer')]
    facts += [(f'{name} = {number}', (name, number) in reasons) for name, number in enumerators('capnp_canonical_reason')]
    facts += [(f'{name} = {number} is in the header', (name, number) in enumerators('capnp_canonical_reason')) for name, number in reasons]
    facts += [(f'{name} is declared and exported', name in declared and name in exported) for name in sorted({*declared, *exported})]
    facts += [('the number of the version', int(version[0]) == parts[0] * 10000 + parts[1] * 100 + parts[2])]
    facts += [(f'{text} is the version that the library gives', re.search(text, EXPORTS)) for text in (rf'result ≡ {version[0]} ', f'put_text\\("{version[1]}", to\\)')]
    facts += list(facts_of_bindings()) + list(facts_of_texts()) + list(facts_of_layout(answers))
    facts += [(f'{name} has the version', re.findall(pattern, file(name), re.M) == [version[1]]) for name, pattern in VERSIONS.items()]
    levels = re.findall(rf'{PREFIX}MAX_NESTING (\d+)$', HEADER, re.M)
    facts += [(f'{name} has the largest nesting limit', re.findall(pattern, file(name), re.M) == levels) for name, pattern in LEVELS.items()]
    listed = re.findall(r'^[\d.]+ (\w+)$', file('tools/exports.txt'), re.M)
    facts += [(f'{name} is declared, and has a version in tools/exports.txt', name in declared_in_library() and listed.count(name) == 1)
              for name in sorted({*declared_in_library(), *listed})]
    named = re.findall(r'\bcapnp_canonical_[a-z_]*[a-z]\b(?!\.h)', file('share/capnp_canonical.3'))
    within = re.findall(r'^CAPNP_CANONICAL_INLINE \w+ (\w+)\(', file('bindings/c/capnp_canonical_limits.h'), re.M)
    inline = re.findall(r'^CAPNP_CANONICAL_INLINE .*?(capnp_canonical_\w+)\(', HEADER, re.M)
    known = {*declared, *within, *inline, 'capnp_canonical_limits', 'capnp_canonical_segments', 'capnp_canonical_words'}
    facts += [(f'{name} of the manual page is declared', name in known) for name in sorted({*named})]
    # the package for cargo has copies of these files in its folder, because the gate takes no links
    facts += [(f'bindings/rust/{name} is {of}', file(f'bindings/rust/{name}') == file(of)) for name, of in PACKAGED.items()]
    failed = [what for what, holds in facts if not holds]
    for what in failed:
        print(f'not so: {what}')
    print(f'{len(facts) - len(failed)} passed, {len(failed)} failed')
    return 1 if failed else 0


sys.exit(main())
