"""Compares a printed file with its source, token by token: each token is in both, or is part of a form of forms.txt or of a
departure. This shares the tokens with the printer, and none of its rules.

A line of forms.txt is `SOURCE => PRINTED`, where one side may be empty. NAME is any one name, on both sides the same; LAW the
name of a law; and `...` the tokens up to the closing bracket. What a form replaces must be replaced wherever it is, and what a
form only removes or adds may be."""
from __future__ import annotations

import pathlib
import re
from typing import Iterator, NamedTuple

from .departures import BLOCK
from .library import ROOT
from .tokens import NotPrintable, tokens_of

# What no token has.
SEPARATOR = '\x1f'
BRACKETS = {'(': 1, '[': 1, '{': 1, ')': -1, ']': -1, '}': -1}
# A line that begins as an item or a statement does. None may be inside of what the printer leaves out.
ITEM = re.compile(r'\n\s*(?:pub\b|fn\b|impl\b|use\b|struct\b|enum\b|trait\b|mod\b|const\b|static\b|let\b|return\b|#\[|///)')
LAW = re.compile(r'\bpub fn (\w+)\(\)(?=\s)')


class Form(NamedTuple):
    name: str
    gone: tuple[str, ...]
    come: tuple[str, ...]


def words(text: str) -> tuple[str, ...]:
    """The tokens of code."""
    return tuple(it.text for it in tokens_of(text) if it.kind not in ('space', 'comment', 'ghost', 'clause'))


def pattern(text: str) -> tuple[str, ...]:
    """The tokens of one side of a form."""
    found: list[str] = []
    for word in words(text):
        found.append(word)
        if found[-3:] == ['.', '.', '.']:
            found[-3:] = ['...']
    return tuple(found)


def forms_of(page: pathlib.Path) -> list[Form]:
    """The forms of a page. Its lines that start with `--` are remarks."""
    found = []
    for line in page.read_text(encoding='utf-8').splitlines():
        if line and not line.startswith('--'):
            gone, arrow, come = line.partition('=>')
            if not arrow or not gone.strip() and not come.strip():
                raise NotPrintable(f'{page.name}: not a form: {line}')
            found.append(Form(line, pattern(gone), pattern(come)))
    return found


def departures_of(pages: list[pathlib.Path]) -> Iterator[tuple[str, Form]]:
    """The departures as forms, each with the path of its printed file."""
    for page in pages:
        for path, _, old, new in BLOCK.findall(page.read_text(encoding='utf-8')):
            yield path, Form(f'{page.name}: {path}', words(old), words(new))


def end_of(form: tuple[str, ...], found: tuple[str, ...], at: int, names: list[str], laws: set[str]) -> int | None:
    """If the tokens at `at` have this form, the index after them. `names` has what NAME is, if it was found before."""
    for wanted in form:
        if wanted == '...':
            depth = 0
            while at < len(found) and (depth > 0 or BRACKETS.get(found[at], 0) >= 0):
                depth += BRACKETS.get(found[at], 0)
                at += 1
            continue
        if at >= len(found):
            return None
        if wanted == 'NAME':
            names += [found[at]] if not names else []
            is_right = found[at] == names[0] and re.fullmatch(r'\w+', names[0])
        else:
            is_right = found[at] in laws if wanted == 'LAW' else found[at] == wanted
        if not is_right:
            return None
        at += 1
    return at


def as_in_source(found: tuple[str, ...], name: str) -> tuple[str, ...]:
    """The tokens of a printed file with the paths that its source has."""
    def spaced(text: str) -> str:
        return SEPARATOR.join(text.split(' '))

    root = spaced(' '.join(words(ROOT)))
    text = SEPARATOR.join(['', *found, ''])
    for printed, path in (
        (rf'pub \( in {root} : : {name} \)', 'pub ( crate )'),
        (rf'{root} : : {name}', 'crate'),
        (rf'{root} : : support : : (sha2|hex)', r'\1'),
        (rf'{root} : : support', 'std'),
        (rf'{root} : : (\w+)', r'\1'),
        (r'core(?= : : )', 'std'),
    ):
        text = re.sub(f'(?<={SEPARATOR}){spaced(printed)}(?={SEPARATOR})', spaced(path), text)
    return tuple(text.split(SEPARATOR)[1:-1])


class Audit:
    """Counts the tokens that are as in the sources, and how often each form was found; notes what isn't a form."""

    def __init__(self, here: pathlib.Path, departures: list[pathlib.Path]):
        self.page = here / 'forms.txt'
        self.forms = forms_of(self.page)
        self.departures = list(departures_of(departures))
        self.kept = 0
        self.used = dict.fromkeys((it.name for it in self.forms), 0)
        self.wrong: list[str] = []

    def follow(self, name: str, files: dict[str, tuple[str, str]]) -> None:
        """Follows the files of a crate: by the path of each printed file, such as `zero.rs`, its source and its text."""
        laws = {it for source, _ in files.values() for it in LAW.findall(source)}
        for path, (source, printed) in files.items():
            for token in tokens_of(source):
                if token.kind in ('ghost', 'clause') and ITEM.search(token.text):
                    self.wrong.append(f'{name}/{path}: code inside of what isn\'t printed: {token.text:.200}')
            departures = [form for at, form in self.departures if at == f'{name}/{path}']
            self.follow_file(f'{name}/{path}', words(source), as_in_source(words(printed), name), departures, laws)

    def follow_file(self, path: str, old: tuple[str, ...], new: tuple[str, ...], departures: list[Form], laws: set[str]) -> None:
        """Follows the tokens of one file."""
        replacing: dict[str, list[Form]] = {}
        adding: dict[str, list[Form]] = {}
        for form in sorted(departures + self.forms, key=lambda it: (-len(it.gone), -len(it.come))):
            (replacing if form.gone else adding).setdefault((form.gone or form.come)[0], []).append(form)
        at = to = 0
        while at < len(old) or to < len(new):
            now, then = old[at] if at < len(old) else '', new[to] if to < len(new) else ''
            for form in replacing.get(now, []) + adding.get(then, []):
                names: list[str] = []
                end = end_of(form.gone, old, at, names, laws)
                stop = end_of(form.come, new, to, names, laws) if end is not None else None
                is_in_both = stop is not None and (
                    not form.gone and old[at:at + stop - to] == new[to:stop] or not form.come and new[to:to + end - at] == old[at:end])
                if stop is not None and not is_in_both:
                    self.used[form.name] = self.used.get(form.name, 0) + 1
                    at, to = end, stop
                    break
            else:
                if now != then:
                    after = ' '.join(new[max(0, to - 8):to])
                    self.wrong.append(f'{path}: no form is `{" ".join(old[at:at + 12])}` => `{" ".join(new[to:to + 12])}`, after `{after}`')
                    return
                at, to, self.kept = at + 1, to + 1, self.kept + 1

    def report(self) -> list[str]:
        """What is wrong, with the forms that nothing has."""
        return self.wrong + [f'{self.page.name}: nothing has the form {name}' for name, times in self.used.items() if not times]
