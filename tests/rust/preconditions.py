#!/usr/bin/env python3
"""Checks that the doc comment of each public function of the printed libraries states what the function requires: callers in
Rust have no prover, and read it there.

    preconditions.py [FOLDER]

FOLDER is the top of the repository by default, or a copy of it. A doc comment states this in one sentence that starts with
`Precondition: `, or with `Preconditions: ` if there are several, with a semicolon between any two. In code marks, it names each
parameter that a `requires` of the function names, except for the arena. A function that requires nothing states none. The last
line is `N passed, M failed`, which counts public functions that require or state something."""
import pathlib
import re
import sys
from typing import NamedTuple

HERE = pathlib.Path(__file__).resolve().parent
TOP = pathlib.Path(sys.argv[1]).resolve() if sys.argv[1:] else HERE.parents[1]
sys.path.insert(0, str(HERE.parents[1] / 'tools/rust'))

from printer import crate, library, rewriting
from printer.source import Source
from printer.tokens import tokens_of

STATEMENT = re.compile(r'\b(Preconditions?): .*?\.(?= [A-Z`]|$)')
# What the rest of a statement is about, so it needn't be named.
UNDERSTOOD = 'arena', 'self'


class Function(NamedTuple):
    name: str
    line: int
    parameters: set[str]
    requires: list[str]
    doc: list[str]


def parameters_of(s, keyword):
    """The names of a function's parameters."""
    at = s.next(s.next(keyword))
    opening = s.find(s.angle(at) if s.is_at(at, '<') else at, '(')
    words = (it for it in range(opening, s.closing(opening)) if s.tokens[it].kind == 'word')
    return {s.tokens[it].text for it in words if s.is_at(s.next(it), ':') and s.is_at(s.back(it), '(', ',', 'mut')}


def requires_of(s, keyword):
    """The clauses of a function that say what it requires."""
    signature = s.tokens[keyword:rewriting.end_of_signature(s, keyword)]
    return [it.text for it in signature if it.kind == 'clause' and it.text.startswith('requires')]


def names_in(clause):
    """The names in the braces of a clause, without those of fields."""
    code = [it for it in tokens_of(clause.partition('{')[2]) if it.kind != 'space']
    return {it.text for before, it in zip([None, *code], code) if it.kind == 'word' and (before is None or before.text != '.')}


def methods_of_traits(s):
    """The indexes of the tokens in the braces of public traits."""
    for at, _ in s.each('pub trait'):
        opening = s.find(at, '{')
        yield from range(opening, s.closing(opening))


def public_functions(s):
    """The public functions of a file and the methods of its public traits."""
    in_traits = set(methods_of_traits(s))
    for at in s.kinds('word'):
        if not s.is_at(at, 'fn') or s.tokens[s.next(at)].kind != 'word':
            continue
        first = s.back(s.back(at)) if s.is_at(s.back(s.back(at)), 'extern') else at
        head = s.head(first)
        is_public = any(s.is_at(it, 'pub') and not s.is_at(it + 1, '(') for it in range(head, at))
        if is_public or at in in_traits:
            lines = '\n'.join(it.text[3:].strip() for it in s.tokens[head:at] if it.text.startswith('///'))
            paragraphs = [' '.join(it.split('\n')) for it in lines.split('\n\n')]
            line = s.text_of(0, at).count('\n') + 1
            yield Function(s.tokens[s.next(at)].text, line, parameters_of(s, at), requires_of(s, at), paragraphs)


def wrong_with(function):
    """What is wrong with the doc comment of a function, or None."""
    stated = [it for paragraph in function.doc for it in STATEMENT.finditer(paragraph)]
    if not function.requires:
        return 'states a precondition, but requires nothing' if stated else None
    if len(stated) != 1:
        return f'states its preconditions in {len(stated)} sentences' if stated else 'states no precondition, but requires one'
    sentence = stated[0][0]
    if (stated[0][1] == 'Preconditions') != ('; ' in sentence):
        return 'starts the sentence with the other number, or has no semicolon between preconditions'
    named = set(re.findall(r'\w+', ' '.join(re.findall('`[^`]*`', sentence))))
    required = set().union(*map(names_in, function.requires)) & function.parameters
    lacking = sorted(required - named - set(UNDERSTOOD))
    return f'says nothing about {", ".join(lacking)}' if lacking else None


def main():
    passed = failed = 0
    for name in crate.LIBRARIES + crate.OF_PROGRAMS:
        for path, text in library.sources_of(TOP / 'crates' / name).items():
            for function in sorted(public_functions(Source(text)), key=lambda it: it.line):
                wrong = wrong_with(function)
                if wrong:
                    print(f'crates/{name}/src/{path}:{function.line}: {function.name} {wrong}')
                failed += bool(wrong)
                passed += not wrong and bool(function.requires)
    print(f'{passed} passed, {failed} failed')
    return 1 if failed or not passed else 0


if __name__ == '__main__':
    sys.exit(main())
