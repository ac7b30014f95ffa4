"""What a printed file doesn't have: clauses, ghost items, what only the prover reads, laws, tests, and bounds by `Drop`."""
from __future__ import annotations

import re

from .source import Source
from .tokens import NotPrintable

PROVERS_ATTRIBUTES = 'tactic', 'cycle', 'rattlefmt'
PRECONDITIONS = '# Preconditions'


def document_preconditions(s: Source) -> None:
    """Writes each `requires` of a function into its doc comment, because Rust callers don't prove it."""
    for at in s.kinds('clause'):
        if at >= len(s.tokens) or s.tokens[at].kind != 'clause' or s.tokens[s.next(at)].kind == 'clause':
            continue
        start = at
        while s.tokens[s.back(start)].kind == 'clause':
            start = s.back(start)
        clauses = [it.text for it in s.tokens[start:at + 1] if it.kind == 'clause' and it.text.startswith('requires')]
        keyword = function_of(s, start)
        if clauses and keyword is not None:
            insert_lines(s, keyword, [PRECONDITIONS, '', '```text', *(line for it in clauses for line in dedented(it)), '```'])


def function_of(s: Source, clause: int) -> int | None:
    """The index of the `fn` that a clause belongs to; None if it belongs to a closure."""
    at = s.back(clause)
    while not s.is_at(at, 'fn', '|', ';', '{', '}'):
        at = s.opening(at) - 1 if s.is_at(at, ')', ']') else at - 1
    return at if s.is_at(at, 'fn') else None


def dedented(clause: str) -> list[str]:
    """The lines of a clause, with those after the first one indented by four spaces or more."""
    first, *rest = clause.split('\n')
    least = min((len(it) - len(it.lstrip()) for it in rest), default=0)
    return [first, *('    ' + it[least:] for it in rest)]


def insert_lines(s: Source, keyword: int, lines: list[str]) -> None:
    """Adds lines to the end of the doc comment of the function whose `fn` is at `keyword`."""
    start = s.head(keyword)
    indent = s.indent(start)
    docs = [it for it in range(start, keyword) if s.tokens[it].text.startswith('///')]
    if docs:
        s.insert(docs[-1] + 1, ''.join(f'\n{indent}{f"/// {it}".rstrip()}' for it in ['', *lines]))
    else:
        s.insert(start, ''.join(f'{f"/// {it}".rstrip()}\n{indent}' for it in lines))


def erase_clauses(s: Source) -> None:
    """Removes clauses with the space before them, so that `{` or `;` follows the signature."""
    at = 0
    while at < len(s.tokens):
        if s.tokens[at].kind != 'clause':
            at += 1
            continue
        start = end = at
        while s.tokens[start - 1].kind == 'space':
            start -= 1
        while s.tokens[end].kind in ('space', 'clause'):
            end += 1
        s.replace(start, end, '' if s.is_at(end, ';') else ' ')
        at = start


def erase_ghosts(s: Source) -> None:
    for at in s.kinds('ghost'):
        s.remove_lines(s.head(at), at + 1)


def erase_attributes(s: Source) -> None:
    for at, _ in s.each('#'):
        bracket = at + 2 if s.is_at(at + 1, '!') else at + 1
        if s.is_at(bracket, '[') and s.is_at(bracket + 1, *PROVERS_ATTRIBUTES):
            s.remove_lines(at, s.closing(bracket) + 1)


def erase_models(s: Source) -> None:
    """Removes each `impl .. Model for ..`, and the import of `Model`."""
    for at, end in s.each('Model for'):
        start = s.find_back(at, 'impl')
        s.remove_lines(s.head(start), s.closing(s.find(end, '{')) + 1)
    for at, end in s.each('use std::marker::Model;'):
        s.remove_lines(at, end)


def erase_laws(s: Source) -> set[str]:
    """Removes modules of laws and their imports, and each free function that has neither parameters, result nor body, which
    is a law. Returns the names of these functions."""
    for at, end in s.each('mod laws;'):
        s.remove_lines(s.head(at), end)
    for at, end in s.each('laws;'):
        start = s.find_back(at, 'use', ';', '{', '}')
        if s.is_at(start, 'use'):
            s.remove_lines(s.head(start), end)
    for at, end in s.each('laws,'):
        s.remove(at, s.next(end - 1) if s.tokens[end].text == ' ' else end)
    laws = set()
    for at, name in s.each('fn'):
        name = s.next(at)
        end = s.match(s.next(name), '() {}')
        if end is not None and not s.indent(at):
            laws.add(s.tokens[name].text)
            s.remove_lines(s.head(at), end)
    return laws


def erase_exports(s: Source, laws: set[str]) -> None:
    """Removes the names of laws from imports and exports."""
    for law in sorted(laws):
        for at, end in s.each(law):
            before, after = s.back(at), s.next(at)
            if s.is_at(before, ','):
                s.remove(before, end)
            elif s.is_at(after, ','):
                s.remove(at, s.next(after))
            elif s.is_at(end, ';'):
                s.remove_lines(s.head(s.find_back(at, 'use')), end + 1)
            else:
                raise NotPrintable(f'the law {law} is used')


def erase_tests(s: Source) -> None:
    for at, end in s.each('#[cfg(test)]'):
        stop = s.find(end, '{', ';')
        s.remove_lines(at, (s.closing(stop) if s.is_at(stop, '{') else stop) + 1)


def erase_drop_bounds(s: Source) -> None:
    """Removes `Drop` as a bound, which all types of Rust meet."""
    for at, end in s.each('Drop'):
        before, after = s.back(at), s.next(at)
        if s.is_at(after, 'for'):
            continue
        if s.is_at(before, '+'):
            start = before
            while s.tokens[start - 1].kind == 'space':
                start -= 1
            s.remove(start, end)
        elif s.is_at(before, ':') and not s.is_at(before - 1, ':'):
            if s.is_at(after, '+'):
                raise NotPrintable('a bound `Drop` before others')
            s.remove(*(bound_of_associated(s, at) if s.is_at(before - 2, ':') else (before, end)))


def bound_of_associated(s: Source, at: int) -> tuple[int, int]:
    """The tokens of a bound such as `T::Err: Drop` after `where`, with `where` if nothing else comes after it."""
    start, end = s.find_back(at, ',', 'where'), at + 1
    if s.is_at(start, 'where'):
        end = s.next(at) + 1 if s.is_at(s.next(at), ',') else end
        start = start if s.is_at(s.next(end - 1), '{') else start + 1
    return start, end


def erase(s: Source) -> set[str]:
    """Removes all of this, and returns the names of the laws."""
    document_preconditions(s)
    erase_clauses(s)
    laws = erase_laws(s)
    for step in (erase_ghosts, erase_attributes, erase_models, erase_tests, erase_drop_bounds):
        step(s)
    return laws


def is_of_laws(path: str) -> bool:
    """Whether a file has nothing but laws."""
    return 'laws' in re.split('[/.]', path)
