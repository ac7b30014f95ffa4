"""Runs the program with standard error on a pseudo-terminal, and looks at what the screen shows while a run lasts and after it.

A run shows its progress once it has lasted two seconds, or from its start on, and waits for at least 200 milliseconds from one
line to the next. The tests wait longer than that, after the answer to a message has come, so no result depends on how fast the
machine is."""
import os
import pathlib
import pty
import re
import select
import subprocess
import tempfile
import time
import tty

from hostile import MESSAGES
from packing import packed

LINE = re.compile(r'\rcapnp_canon: \d+\.\d MB, (?:(\d+) messages?, )?\d+\.\d MB/s\x1b\[K')
LONG, PAUSE = 2.1, 0.3
THREE = MESSAGES[1], MESSAGES[1], MESSAGES[3]


def screen(text):
    """The lines that a terminal shows after it got this text. Only what the program may use is known."""
    lines, at = [''], 0
    for part in re.findall(r'\x1b\[K|\r|\n|[^\r\n\x1b]+|\x1b', text):
        if part == '\x1b[K':
            lines[-1] = lines[-1][:at]
        elif part == '\r':
            at = 0
        elif part == '\n':
            lines.append('')
            at = 0
        else:
            lines[-1] = lines[-1][:at] + part + lines[-1][at + len(part):]
            at += len(part)
    return lines


class Run:
    """A run whose standard error is a terminal; if `is_one` is set, standard output is the same one."""

    def __init__(self, program, args, is_one=False):
        self.terminal, other = pty.openpty()
        tty.setraw(other)
        output = other if is_one else subprocess.PIPE
        self.run = subprocess.Popen([program.path, *args], stdin=subprocess.PIPE, stdout=output, stderr=other, bufsize=0)
        os.close(other)
        self.limit, self.screened, self.output = program.limit, '', b''
        self.open = {self.terminal, *([] if is_one else [self.run.stdout.fileno()])}

    def shown(self):
        """How many messages were done in each line that the run has shown."""
        return [int(it[1] or 0) for it in LINE.finditer(self.screened)]

    def read(self, is_enough):
        """Reads what the run writes until there is enough, it has ended or the time is over."""
        end = time.monotonic() + self.limit
        while self.open and not is_enough():
            ready = select.select([*self.open], [], [], max(0, end - time.monotonic()))[0]
            if not ready:
                return
            for it in ready:
                try:
                    data = os.read(it, 1 << 16)
                except OSError:
                    data = b''
                if not data:
                    self.open.remove(it)
                elif it == self.terminal:
                    self.screened += data.decode()
                else:
                    self.output += data

    def feed(self, parts, is_answered, seconds=PAUSE):
        """Writes each part, and waits until it is answered, and then for a while: `seconds` after the first."""
        for number, part in enumerate(parts, 1):
            self.run.stdin.write(part)
            self.read(lambda: is_answered(number))
            time.sleep(seconds if number == 1 else PAUSE)

    def ended(self):
        """Closes the input. Standard output, unless it is the terminal, and the exit status."""
        self.run.stdin.close()
        self.read(lambda: False)
        if self.run.stdout:
            self.run.stdout.close()
        os.close(self.terminal)
        return self.output, self.run.wait(self.limit)


def ends(counts, what, run, wanted, screened):
    """Counts how a run has ended, and what the screen shows then."""
    got = run.ended()
    counts.told(got == wanted, 'progress:', what, 'wanted', wanted, 'got', got)
    counts.told(screen(run.screened) == screened, 'progress:', what, 'the screen', screen(run.screened))


def options(program, counts):
    """Which options show the progress, and the messages that are done in each line. The end of the input is a read, too."""
    for words, is_shown in (['--progress'], True), (['--no-progress', '--progress'], True), ([], True), (['--no-progress'], False), (['--progress', '--no-progress'], False):
        run = Run(program, ['check', *words])
        run.feed(THREE, lambda number: run.output.count(b'\n') == number, PAUSE if words[-1:] == ['--progress'] else LONG)
        ends(counts, words, run, (b'canonical\n' * 3, 0), [''])
        # without an option, the first message comes too early
        wanted = ([0, 1, 2, 3] if words else [1, 2, 3]) if is_shown else []
        counts.told(run.shown()[-len(wanted):] == wanted, 'progress:', words, run.shown())


def commands(program, counts):
    for args in ['canon'], ['size'], ['digest'], ['validate'], ['validate', '--quiet'], ['show'], ['show', '--json'], ['check', '--packed'], ['size', '--from-flat']:
        data = [packed(it) if '--packed' in args else it for it in THREE]
        if '--from-flat' in args:
            data = [THREE[-1][8:]]
        wanted = program.run(args, b''.join(data))
        run = Run(program, [*args, '--progress'])
        run.feed(data, lambda number: len(run.shown()) == number)
        ends(counts, args, run, wanted[:2], [''])
        is_counted = not {'--packed', '--from-flat'} & {*args}
        counts.told(run.shown() == [number * is_counted for number in range(len(data) + 1)], 'progress:', args, run.shown())
        # nothing is written to a pipe
        counts.told(program.run([*args, '--progress'], b''.join(data)) == wanted, 'progress: piped', args)


def one_screen(program, counts):
    """Answers and the progress on one screen: each answer is a whole line."""
    run = Run(program, ['check', '--progress'], True)
    run.feed(THREE, lambda number: run.screened.count('\n') == number)
    ends(counts, 'one screen', run, (b'', 0), ['canonical'] * 3 + [''])
    counts.told(run.shown() == [0, 1, 2, 3], 'progress: one screen', run.shown())
    # the answers fill the buffer, so a line of them is written in two parts
    many = [MESSAGES[3] * 1900, MESSAGES[3]]
    wanted = program.run(['show'], b''.join(many))[0].decode()
    run = Run(program, ['show', '--progress'], True)
    run.feed(many, lambda number: run.screened.count('\n') == 2 * (1899 + number))
    ends(counts, 'one screen, filled', run, (b'', 0), wanted.split('\n'))
    counts.told(run.shown()[-1:] == [1901], 'progress: one screen, filled', run.shown())
    # after bytes that don't end a line, nothing is shown
    frames = program.run(['canon'], MESSAGES[3] * 3)[0].decode()
    run = Run(program, ['canon', '--progress'], True)
    run.feed([MESSAGES[3]] * 3, lambda number: run.screened.count('hello') == number)
    ends(counts, 'one screen, no lines', run, (b'', 0), frames.split('\n'))
    counts.told(run.shown() == [0], 'progress: one screen, no lines', run.shown())
    run = Run(program, ['check', '--progress'], True)
    run.feed([MESSAGES[1], b'\x00'], lambda number: len(run.shown()) == number)
    ends(counts, 'one screen, refused', run, (b'', 2), ['canonical', 'capnp_canon: message 2 at byte 16: refused Truncated', ''])


def files(program, counts):
    """Files, lists of digests, and files that are compared."""
    with tempfile.TemporaryDirectory(prefix='progress-') as folder:
        one, two, names = (str(pathlib.Path(folder) / it) for it in ('one', 'two', 'names'))
        pathlib.Path(one).write_bytes(b''.join(THREE))
        pathlib.Path(two).write_bytes(b''.join(THREE[:2]))
        pathlib.Path(names).write_bytes(program.run(['digest', one, two], b'')[0])
        for args in (['check', one, two], ['check', one, f'{folder}/none'], ['digest', '--check', names], ['digest', '--check', '--quiet', names],
                     ['digest', '--check', names, one], ['digest', '--check', names, f'{folder}/none'], ['diff', one, one], ['diff', one, two]):
            output, status, error = program.run(args, b'')
            run = Run(program, [*args, '--progress'])
            ends(counts, args, run, (output, status), error.split('\n'))
            counts.told(run.shown()[:1] == [0], 'progress:', args, run.shown())


def runs(program, counts):
    options(program, counts)
    commands(program, counts)
    one_screen(program, counts)
    files(program, counts)
