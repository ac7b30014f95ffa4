"""The commands of `python3 -m capnp_canonical`."""
from __future__ import annotations

import argparse
import contextlib
import errno
import io
import itertools
import os
import re
import sys
import time
from dataclasses import dataclass
from typing import Any, BinaryIO, Callable, Dict, Iterator, List, NoReturn, Optional, Tuple, Union

from capnp_canonical._answers import Error, Limits
from capnp_canonical._calls import LIMITS, copy_flat, words_copy, words_digest
from capnp_canonical._calls import digest as frame_digest
from capnp_canonical._frames import frames
from capnp_canonical._library import version, version_text

NAME = 'capnp_canonical'
SAME, DIFFERS, TROUBLE = 0, 1, 2
# Of the names of files, in lists too.
ENCODING = sys.getfilesystemencoding()
# What a line of `digest` says: the digest, the name of the file, and the number of the message.
Entry = Tuple[bytes, str, int]
# A call on the bytes of a message.
_Call = Callable[[bytes, Limits], bytes]
ABOUT = '''Names Cap'n Proto messages by the SHA-256 of their canonical words, so that equal values have equal names,
whatever their layout. FILE holds framed messages, one after the other, as `capnp encode` writes them; `-` is standard
input. Message N of a file is FILE:N, counted from 1. No schema is needed.'''
STATUS = '''status: 0 if all is well; 1 if a message differs, isn't as listed, or has an equal one, or a list names none;
2 if a message or a file can't be read, or an argument is wrong.'''

_SPECIAL = re.compile(r'[\\\n\r]')
_ESCAPES = {'\\': '\\\\', '\n': '\\n', '\r': '\\r'}


def escaped(name: str) -> str:
    """A name in one line, with the escapes of sha256sum."""
    return _SPECIAL.sub(lambda it: _ESCAPES[it[0]], name)


def say(text: str) -> None:
    """Reports on standard error. Python has no stream for a standard device that was closed when it started."""
    if sys.stdout:
        sys.stdout.flush()
    if sys.stderr:
        with contextlib.suppress(OSError):
            print(f'{NAME}: {text}', file=sys.stderr, flush=True)


class Progress:
    """Shows progress on standard error if that is a terminal, from the first second on."""

    def __init__(self, names: List[str]) -> None:
        self._is_shown = bool(sys.stderr) and sys.stderr.isatty()
        self._total = sum(os.path.getsize(it) for it in names if os.path.isfile(it)) if self._is_shown else 0
        self._start = self._last = time.monotonic()
        self._bytes = self._messages = 0

    def add(self, size: int) -> None:
        if not self._is_shown:
            return
        self._bytes += size
        self._messages += 1
        now = time.monotonic()
        if now - self._start > 1 and now - self._last > 0.2:
            self._last = now
            part = f', {100 * self._bytes // self._total} %' if self._total else ''
            sys.stderr.write(f'\r\033[K{NAME}: {self._messages:,} messages, {self._bytes / 1e6:,.0f} MB{part}')
            sys.stderr.flush()

    def end(self) -> None:
        if self._is_shown and self._last != self._start:
            sys.stderr.write('\r\033[K')
            sys.stderr.flush()


@dataclass
class Reading:
    """How messages are read, and whether all of them were."""

    limits: Limits
    is_flat: bool
    progress: Progress
    status: int = SAME

    def trouble(self, name: str, error: object, status: int = TROUBLE) -> None:
        self.progress.end()
        self.status = max(self.status, status)
        say(f'{escaped(name)}: {error}')

    def words_of(self, name: str) -> Iterator[Tuple[int, Optional[bytes]]]:
        """The numbers of the messages of a file and their canonical words; None for one that is refused, which is
        reported."""
        return self._told(name, self._answers_of(name, copy_flat, words_copy))

    def digests_of(self, name: str) -> Iterator[Tuple[int, bytes]]:
        """The numbers of the messages of a file and their digests, without those that are refused, which are reported."""
        for number, value in self._told(name, self._answers_of(name, frame_digest, words_digest)):
            if value is not None:
                yield number, value

    def _told(self, name: str, answers: Iterator[Tuple[int, Union[bytes, Error]]]) -> Iterator[Tuple[int, Optional[bytes]]]:
        """The answers to the messages of a file; None for each refusal, which is reported."""
        while True:
            # an error of standard output, where mistakes are reported, is none of the file
            try:
                number, answer = next(answers)
            except StopIteration:
                return
            except OSError as error:
                self.trouble(name, error.strerror or error)
                return
            except MemoryError:
                self.trouble(name, os.strerror(errno.ENOMEM))
                return
            except ValueError as error:
                # the bytes aren't a frame, or no file can have the name
                self.trouble(name, error)
                return
            if isinstance(answer, Error):
                self.trouble(name, answer)
                yield number, None
            else:
                yield number, answer

    def _answers_of(self, name: str, of_frame: _Call, of_words: _Call) -> Iterator[Tuple[int, Union[bytes, Error]]]:
        """What a call answers to each message of a file."""
        with opened(name) as stream:
            if self.is_flat:
                yield 1, of_words(stream.read(), self.limits)
                return
            at = 0
            for number, frame in enumerate(frames(stream, self.limits.words), 1):
                try:
                    answer: Union[bytes, Error] = of_frame(frame, self.limits)
                except Error as error:
                    answer = error.at(number, at)
                yield number, answer
                at += len(frame)
                self.progress.add(len(frame))


def opened(name: str) -> BinaryIO:
    """A file, open for reading. It isn't mapped into memory: if it became shorter, a read there would end the process.
    Standard input gets a number of its own, so that it stays open."""
    if name == '-' and sys.stdin is None:
        # another file may have its number
        raise OSError(errno.EBADF, os.strerror(errno.EBADF))
    return open(os.dup(0) if name == '-' else name, 'rb')


def mark_of(name: str) -> str:
    """What sha256sum puts in front of a line whose name has escapes."""
    return '\\' if _SPECIAL.search(name) else ''


def line_of(digest: bytes, name: str, number: int) -> str:
    """A line in the layout of sha256sum."""
    return f'{mark_of(name)}{digest.hex()}  {escaped(name)}:{number}'


def read_line(line: str) -> Optional[Entry]:
    """What a line of `digest` says; None if it isn't one."""
    found = re.fullmatch(r'(\\?)([0-9a-fA-F]{64}) [ *](.*):([1-9][0-9]*)', line)
    if not found:
        return None
    name = found[3]
    if found[1]:
        back = {'\\\\': '\\', '\\n': '\n', '\\r': '\r'}
        name = re.sub(r'\\[\\nr]', lambda it: back[it[0]], name)
    # lists have many lines, and few names
    return bytes.fromhex(found[2]), sys.intern(name), int(found[4])


def digest(reading: Reading, names: List[str]) -> int:
    for name in names:
        for number, value in reading.digests_of(name):
            print(line_of(value, name, number))
    return reading.status


def check_lists(reading: Reading, lists: List[str], quiet: bool) -> int:
    """Verify lists that `digest` or `duplicates` has written."""
    failed = sum(check_list(reading, entries_of(reading, it), quiet) for it in lists)
    if failed:
        reading.progress.end()
        say('1 listed message is missing or differs' if failed == 1 else f'{failed} listed messages are missing or differ')
    return reading.status or (DIFFERS if failed else SAME)


def check_list(reading: Reading, entries: List[Entry], quiet: bool) -> int:
    """Verify the entries of a list, in any order, and return how many fail. Reads each file that they name once."""
    places: Dict[str, List[int]] = {}
    for place, (_, name, _) in enumerate(entries):
        places.setdefault(name, []).append(place)
    holds = bytearray(len(entries))
    for place, (_, name, number) in enumerate(entries):
        if name in places:
            found = dict(reading.digests_of(name))
            for it in places.pop(name):
                holds[it] = found.get(entries[it][2]) == entries[it][0]
        if not holds[place] or not quiet:
            print(f'{mark_of(name)}{escaped(name)}:{number}: {"OK" if holds[place] else "FAILED"}')
    return holds.count(0)


def entries_of(reading: Reading, name: str) -> List[Entry]:
    """The lines of a list, except for empty ones, which `duplicates` writes between its groups. Reports lines that
    aren't as `digest` writes them, and a list without any line that is."""
    entries: List[Entry] = []
    others: List[int] = []
    try:
        with io.TextIOWrapper(opened(name), encoding=ENCODING, errors='surrogateescape', newline='\n') as file:
            for number, line in enumerate(file, 1):
                entry = read_line(line.rstrip('\n'))
                if entry:
                    entries.append(entry)
                elif line != '\n':
                    others.append(number)
    except OSError as error:
        reading.trouble(name, error.strerror or error)
        return entries
    if len(others) == 1:
        reading.trouble(name, f'line {others[0]} is not as `digest` writes it')
    elif others:
        reading.trouble(name, f'line {others[0]} and {len(others) - 1} more are not as `digest` writes them')
    elif not entries:
        reading.trouble(name, 'no line names a message', DIFFERS)
    return entries


def same(reading: Reading, first: str, second: str) -> int:
    """Print which messages of two files differ."""
    differ = 0
    one, other = reading.words_of(first), reading.words_of(second)
    lasts = [0, 0]
    for left, right in itertools.zip_longest(one, other):
        lasts = [lasts[0] + (left is not None), lasts[1] + (right is not None)]
        if left and right and left[1] is not None and right[1] is not None and left[1] != right[1]:
            differ += 1
            print(f'message {left[0]} differs')
    if lasts[0] != lasts[1] and not reading.status:
        differ += 1
        counts = ' and '.join(f'{name} has {count} message{"" if count == 1 else "s"}' for name, count in zip((first, second), lasts))
        print(counts)
    return reading.status or (DIFFERS if differ else SAME)


def duplicates(reading: Reading, names: List[str]) -> int:
    """Print each group of equal messages as lines of `digest`, with an empty line between groups."""
    groups: Dict[bytes, List[Tuple[str, int]]] = {}
    for name in names:
        for number, value in reading.digests_of(name):
            groups.setdefault(value, []).append((name, number))
    found = [(value, places) for value, places in groups.items() if len(places) > 1]
    for index, (value, places) in enumerate(found):
        if index:
            print()
        for name, number in places:
            print(line_of(value, name, number))
    return reading.status or (DIFFERS if found else SAME)


class Parser(argparse.ArgumentParser):
    """Reports a mistake in one line."""

    def error(self, message: str) -> NoReturn:
        for pattern, plain in _MISTAKES:
            message = re.sub(pattern, plain, message)
        say(f'{message}; see --help')
        sys.exit(TROUBLE)


# What argparse says of a mistake, and what is said instead.
_MISTAKES = (
    (r'^argument COMMAND: invalid choice: (.*) \(choose from .*', r'unknown command \1'),
    (r'^argument (?:-\w/)?(--\w+): expected one argument$', r'\1 needs a value'),
    (r'^argument (?:-\w/)?(--\w+): ignored explicit argument .*', r'\1 takes no value'),
    (r'^argument (--\w+): (.*)', r'\2 for \1'),
)


def number_below(bound: int, text: str) -> int:
    if not re.fullmatch('[0-9]{1,20}', text) or int(text) >= bound:
        raise argparse.ArgumentTypeError(f"invalid value '{text}'")
    return int(text)


def words_limit(text: str) -> int:
    return 2**64 - 1 if text == 'none' else number_below(2**64, text)


def nesting_limit(text: str) -> int:
    return number_below(2**31, text)


def parser() -> Parser:
    whole = Parser(prog=f'python3 -m {NAME}', description=ABOUT, epilog=STATUS, formatter_class=argparse.RawDescriptionHelpFormatter)
    whole.add_argument('-V', '--version', action='version', version=f'{NAME} {version_text(version())}')
    commands = whole.add_subparsers(dest='command', metavar='COMMAND', required=True, parser_class=Parser)
    known: Any = (
        ('digest', 'print the name of each message, in the layout of sha256sum', '*'),
        ('same', 'print which messages of two files differ', 2),
        ('duplicates', 'print the messages that equal another one', '*'),
    )
    for name, about, files in known:
        command = commands.add_parser(name, help=about, description=about)
        command.add_argument('files', metavar='FILE', nargs=files)
        command.add_argument('--nesting', type=nesting_limit, default=LIMITS.nesting, metavar='N', help='the nesting limit (%(default)s)')
        command.add_argument('--words', type=words_limit, default=LIMITS.words, metavar='N', help='the traversal limit of each message, and the most words its frame may have (%(default)s), or `none`')
        command.add_argument('--flat', action='store_true', help='each FILE is the raw words of one message')
        if name == 'digest':
            command.add_argument('-c', '--check', action='store_true', help='each FILE is a list that `digest` or `duplicates` has written: verify it')
            command.add_argument('--quiet', action='store_true', help='with --check, print nothing for a message that is as listed')
    return whole


def run(given: Any) -> int:
    is_check = given.command == 'digest' and given.check
    # how long the files are that a list names isn't known
    progress = Progress([] if is_check else given.files)
    reading = Reading(Limits(given.nesting, given.words), given.flat, progress)
    names = given.files or ['-']
    try:
        if given.command == 'same':
            return same(reading, *names)
        if given.command == 'duplicates':
            return duplicates(reading, names)
        return check_lists(reading, names, given.quiet) if is_check else digest(reading, names)
    finally:
        progress.end()


class Closed(io.StringIO):
    """Standard output if it was closed when Python started."""

    def write(self, text: str) -> NoReturn:
        raise OSError(errno.EBADF, os.strerror(errno.EBADF))


def main(arguments: List[str]) -> int:
    known = parser()
    given = known.parse_args(arguments)
    if given.command == 'digest' and given.quiet and not given.check:
        known.error('--quiet needs --check')
    if not sys.stdout:
        sys.stdout = Closed()
    elif isinstance(sys.stdout, io.TextIOWrapper):
        # names of files are bytes
        sys.stdout.reconfigure(encoding=ENCODING, errors='surrogateescape')
    try:
        status = run(given)
        sys.stdout.flush()
        return status
    except BrokenPipeError:
        # nobody reads any more: say nothing of it, also when Python ends
        os.dup2(os.open(os.devnull, os.O_WRONLY), 1)
    except OSError as error:
        # what could not be written goes nowhere, also when Python ends
        os.dup2(os.open(os.devnull, os.O_WRONLY), 1)
        say(f'standard output: {error.strerror}')
    except KeyboardInterrupt:
        return 130
    return TROUBLE
