"""Texts of the printed code that are replaced by hand-written ones. Each file of departures/ starts with its reason. Then come
texts, each as three parts: the line `=== FILE`, or `=== FILE, N times`, with the text that is replaced; the line `--- by`; and
the text that takes its place. The first text must occur exactly once in that file, or N times."""
import pathlib
import re
from typing import NamedTuple

from .tokens import NotPrintable

BLOCK = re.compile(r'^=== (\S+?)(?:, (\d+) times)?\n(.*?)\n--- by\n(.*?)(?=^=== |\Z)', re.MULTILINE | re.DOTALL)


class Departure(NamedTuple):
    times: int
    old: str
    new: str


class Departures:
    """All departures of some files, by the path of the printed file. Each is used once, by `apply`."""

    def __init__(self, pages: list[pathlib.Path]):
        self.of: dict[str, list[Departure]] = {}
        for page in pages:
            text = page.read_text(encoding='utf-8')
            if len(found := BLOCK.findall(text)) != len(re.findall('^===', text, re.MULTILINE)) or not found:
                raise NotPrintable(f'{page.name}: a text isn\'t followed by another one')
            for path, times, old, new in found:
                self.of.setdefault(path, []).append(Departure(int(times or 1), old.strip('\n'), new.strip('\n')))

    def apply(self, path: str, text: str) -> str:
        """The text of a printed file, with its departures."""
        for it in self.of.pop(path, []):
            if text.count(it.old) != it.times:
                raise NotPrintable(f'{path}: a departure is for {it.times} of these, but there are {text.count(it.old)}:\n{it.old}')
            text = text.replace(it.old, it.new)
        return text

    def check_used(self) -> None:
        if self.of:
            raise NotPrintable(f'there is no {", ".join(sorted(self.of))}, which departures are for')
