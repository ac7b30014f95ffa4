"""A source as a list of tokens, with edits on them. An edit keeps the lines and indents of what it doesn't touch."""
from __future__ import annotations

from typing import Iterator

from .tokens import NotPrintable, Token, pattern_of, tokens_of

CLOSING = {'(': ')', '[': ']', '{': '}'}
OPENING = {it: other for other, it in CLOSING.items()}
SKIPPED = 'space', 'comment'


class Source:
    """The tokens of one file. An edit changes the indexes of the tokens after it."""

    def __init__(self, text: str):
        self.tokens = tokens_of(text)

    def text(self) -> str:
        return ''.join(it.text for it in self.tokens)

    def text_of(self, start: int, end: int) -> str:
        return ''.join(it.text for it in self.tokens[start:end])

    def is_at(self, at: int, *texts: str) -> bool:
        """Whether the token at `at` has one of these texts."""
        return 0 <= at < len(self.tokens) and self.tokens[at].text in texts

    def next(self, at: int) -> int:
        """The index of the next token after `at` that is neither space nor comment."""
        at += 1
        while at < len(self.tokens) and self.tokens[at].kind in SKIPPED:
            at += 1
        return at

    def back(self, at: int) -> int:
        """The index of the last token before `at` that is neither space nor comment."""
        at -= 1
        while at >= 0 and self.tokens[at].kind in SKIPPED:
            at -= 1
        return at

    def find(self, at: int, *texts: str) -> int:
        """The index of the first token at or after `at` that has one of these texts."""
        while not self.is_at(at, *texts):
            at += 1
            if at >= len(self.tokens):
                raise NotPrintable(f'{" or ".join(texts)} is expected')
        return at

    def find_back(self, at: int, *texts: str) -> int:
        """The index of the last token at or before `at` that has one of these texts."""
        while not self.is_at(at, *texts):
            at -= 1
            if at < 0:
                raise NotPrintable(f'{" or ".join(texts)} is expected before')
        return at

    def match(self, at: int, pattern: str) -> int | None:
        """If the tokens from `at` on are those of `pattern`, the index after them."""
        last = at
        for wanted in pattern_of(pattern):
            if not self.is_at(at, wanted):
                return None
            last, at = at, self.next(at)
        return last + 1

    def each(self, pattern: str) -> Iterator[tuple[int, int]]:
        """Where `pattern` is, from the last place to the first, so that an edit there moves none of the others."""
        first = pattern_of(pattern)[0]
        for at in reversed([it for it, token in enumerate(self.tokens) if token.text == first]):
            if self.is_at(at, first) and (end := self.match(at, pattern)) is not None:
                yield at, end

    def kinds(self, *kinds: str) -> Iterator[int]:
        """The indexes of the tokens of these kinds, from the last to the first."""
        for at in reversed([it for it, token in enumerate(self.tokens) if token.kind in kinds]):
            if at < len(self.tokens) and self.tokens[at].kind in kinds:
                yield at

    def closing(self, at: int) -> int:
        """The index of the bracket that closes the one at `at`."""
        return self.other_bracket(at, CLOSING, 1)

    def opening(self, at: int) -> int:
        """The index of the bracket that the one at `at` closes."""
        return self.other_bracket(at, OPENING, -1)

    def other_bracket(self, at: int, pairs: dict[str, str], step: int) -> int:
        wanted: list[str] = []
        while 0 <= at < len(self.tokens):
            kind, text = self.tokens[at]
            if kind == 'sign' and text in pairs:
                wanted.append(pairs[text])
            elif kind == 'sign' and wanted and text == wanted[-1]:
                wanted.pop()
                if not wanted:
                    return at
            at += step
        raise NotPrintable('a bracket has no other one')

    def angle(self, at: int) -> int:
        """The index after the generic parameters whose `<` is at `at`."""
        depth = 0
        while True:
            depth += {'<': 1, '>': -1}.get(self.tokens[at].text, 0) if not self.is_at(at - 1, '-') else 0
            at += 1
            if depth == 0:
                return at

    def head(self, start: int) -> int:
        """Where the item starts whose keyword is at `start`: at its first comment, attribute or `pub`."""
        while True:
            at = start - 1
            if at >= 0 and self.tokens[at].kind == 'space' and self.tokens[at].text.count('\n') < 2:
                at -= 1
            if at < 0:
                return start
            kind, text = self.tokens[at]
            if kind == 'comment' and not text.startswith('//!') or text in ('pub', 'const'):
                start = at
            elif text == ']' and self.is_at(self.opening(at) - 1, '#'):
                start = self.opening(at) - 1
            elif text == ')' and self.is_at(self.opening(at) - 1, 'pub'):
                start = self.opening(at) - 1
            else:
                return start

    def indent(self, at: int) -> str:
        """The spaces before the line of the token at `at`."""
        before = self.text_of(max(0, at - 200), at).rpartition('\n')[2]
        return before[:len(before) - len(before.lstrip(' '))]

    def insert(self, at: int, text: str) -> None:
        self.tokens[at:at] = tokens_of(text)

    def replace(self, start: int, end: int, text: str) -> None:
        self.tokens[start:end] = tokens_of(text)

    def remove(self, start: int, end: int) -> None:
        del self.tokens[start:end]

    def remove_lines(self, start: int, end: int) -> None:
        """Removes the tokens from `start` to before `end`, which fill whole lines. Of the empty lines around them one
        stays, and none at the start or the end of braces."""
        space = ''
        if end < len(self.tokens) and self.tokens[end].kind == 'space':
            space = self.tokens[end].text
            end += 1
        if start and self.tokens[start - 1].kind == 'space':
            start -= 1
            lines = max(self.tokens[start].text.count('\n'), space.count('\n'))
            if self.is_at(start - 1, '{') or self.is_at(end, '}') or start == 0:
                lines = min(lines, 1)
            if start and self.tokens[start - 1].text.startswith('//!'):
                lines = 2
            space = '\n' * lines + space.rpartition('\n')[2]
        elif start == 0:
            space = ''
        self.tokens[start:end] = [Token('space', space)] if space else []

    def has(self, word: str) -> int:
        """How often a word is in the code."""
        return sum(it == ('word', word) for it in self.tokens)
