"""The tokens of a Rattle source: those of Rust, with each clause and each ghost item as one token."""
import functools
import re
from typing import NamedTuple


class NotPrintable(Exception):
    """A source has a form that the printer doesn't know, or a departure no longer fits. Nothing is written then."""


class Token(NamedTuple):
    kind: str
    text: str


# The first kind that fits counts. A number has its point only if a digit is next, so `0..8` starts with `0`.
KINDS = re.compile(r'''
    (?P<space>\s+)
  | (?P<comment>//[^\n]*|/\*.*?\*/)
  | (?P<raw>b?r\#*"|r\#\w)
  | (?P<string>b?"(?:\\.|[^"\\])*")
  | (?P<char>b?'(?:\\x[0-9a-fA-F]{2}|\\u\{[0-9a-fA-F_]*\}|\\.|[^\\'])')
  | (?P<lifetime>'\w+)
  | (?P<number>\d\w*(?:\.\d\w*)?)
  | (?P<word>\w+)
  | (?P<sign>.)
''', re.VERBOSE | re.DOTALL)
# What isn't code: these words are reserved in Rattle, so no name can be one of them.
CLAUSE_WORDS = 'requires', 'ensures'
GHOST_WORD = 'ghost'
UNPRINTED = 'clause', 'ghost'


def line_of(text: str, at: int) -> str:
    """The number and the text of a line, for messages."""
    start = text.rfind('\n', 0, at) + 1
    return f'line {text.count(chr(10), 0, at) + 1}: {text[start:].partition(chr(10))[0].strip()}'


def end_of_braces(text: str, at: int) -> int:
    """The end of the braces that open at `at`, in the language of definitions, whose only quotes are strings."""
    depth = 0
    for part in re.compile(r'"(?:\\.|[^"\\])*"|[{}]', re.DOTALL).finditer(text, at):
        depth += {'{': 1, '}': -1}.get(part[0], 0)
        if depth == 0:
            return part.end()
    raise NotPrintable(f'braces without end, {line_of(text, at)}')


def end_of_clause(text: str, at: int) -> int:
    """The end of a clause after its keyword: a star or a name, if it has one, and braces."""
    head = re.compile(r'\s*\*?\s*[^\s{}()]*\s*(?=\{)').match(text, at)
    if not head:
        raise NotPrintable(f'a clause without braces, {line_of(text, at)}')
    return end_of_braces(text, head.end())


def end_of_ghost(text: str, at: int) -> int:
    """The end of a ghost import, item or field after its keyword."""
    if head := re.compile(r'\s+use\b[^{};]*').match(text, at):
        at = head.end()
        at = end_of_braces(text, at) if text.startswith('{', at) else at
        return expected(text, at, ';')
    while True:
        opening = re.compile(r'[^{};]*(?=\{)').match(text, at)
        if not opening:
            raise NotPrintable(f'a ghost item without braces, {line_of(text, at)}')
        at = end_of_braces(text, opening.end())
        following = re.compile(r'\s*').match(text, at).end()
        if text[following] in ';,':
            return following + 1
        if text[following] == '}':
            return at
        at = expected(text, at, '=')


def expected(text: str, at: int, sign: str) -> int:
    """The end of `sign`, which is next after spaces."""
    at = re.compile(r'\s*').match(text, at).end()
    if not text.startswith(sign, at):
        raise NotPrintable(f'{sign} is expected, {line_of(text, at)}')
    return at + len(sign)


def tokens_of(text: str) -> list[Token]:
    """All tokens of a text, with its spaces and comments."""
    found, at = [], 0
    while at < len(text):
        part = KINDS.match(text, at)
        kind, end = part.lastgroup, part.end()
        if kind == 'raw':
            raise NotPrintable(f'a raw string or name, {line_of(text, at)}')
        if kind == 'word' and part[0] == GHOST_WORD:
            kind, end = 'ghost', end_of_ghost(text, end)
        elif kind == 'word' and part[0] in CLAUSE_WORDS:
            kind, end = 'clause', end_of_clause(text, end)
        found.append(Token(kind, text[at:end]))
        at = end
    return found


@functools.cache
def pattern_of(text: str) -> tuple[str, ...]:
    """The texts of a pattern's tokens, without spaces."""
    return tuple(it.text for it in tokens_of(text) if it.kind != 'space')
