#!/usr/bin/env python3
"""Proves crates of this repository, and builds them.

    proved.py CRATE..

Builds each crate from the current sources: the program crates/CRATE/out/CRATE, the static library crates/CRATE/out/libCRATE.a,
or the library crates/CRATE/out/rlib, on which other crates are proved and built. It works with each kit of the toolchain, also
with one that has no `rt ci NAME`.

`dev/test` and earlier runs of this script leave libraries in this tree. If nearly all libraries that the crates depend on are
there, built from the current sources, `rattle build` proves and builds the others and the crates over these. Otherwise `rt ci`
proves all of the libraries first, in a folder of its own, side by side, and this script leaves them in this tree.

Prints a line on standard error for each crate that is proved, with how many of how many are. What the toolchain prints goes to a
file, which is named if something isn't proved."""
import os
import pathlib
import re
import shutil
import subprocess
import sys
import tempfile
import threading
import time

from libraries import PARTS, TOP, Crates

COUNTS = re.compile(r'[1-9]\d* passed, 0 failed')
# How many libraries may be missing in the tree for the others to be used: these are proved one after the other.
FEW = 6
# A line says after so many seconds that the proof goes on.
PATIENCE = 60


class Stopped(Exception):
    """Nothing is written; the text says why."""


class Refused(Stopped):
    """The checker has refused a crate. Other libraries wouldn't help."""


def say(text):
    print(f'prove: {text}', file=sys.stderr, flush=True)


class Progress:
    """Counts the crates that are proved, and says so; keeps what the toolchain prints in a file."""

    def __init__(self):
        self.log = tempfile.NamedTemporaryFile('w', prefix='prove-', suffix='.log', delete=False, encoding='utf-8')
        self.left, self.of, self.begun, self.ended = {}, 0, time.time(), threading.Event()
        self.lock, self.said = threading.Lock(), time.time()
        threading.Thread(target=self.go_on, daemon=True).start()

    def expect(self, crates):
        """Begins to count: these crates are to be proved."""
        self.left = dict.fromkeys(crates)
        self.of = len(self.left)
        say(f'{self.of} crate{"s are" if self.of > 1 else " is"} to be proved' + (', which takes minutes on all processors' if self.of > FEW else ''))

    def proved(self, crate):
        if crate in self.left:
            with self.lock:
                del self.left[crate]
                self.state(f': {crate}')

    def state(self, more=''):
        """Says how many are proved."""
        self.said = time.time()
        say(f'{self.of - len(self.left)} of {self.of} proved{more}, {round(self.said - self.begun)} s')

    def go_on(self):
        while not self.ended.wait(1):
            with self.lock:
                if self.left and time.time() - self.said >= PATIENCE:
                    self.state()

    def take(self, line):
        """Takes a line that the toolchain has printed. `rt ci` prints one for each crate."""
        self.log.write(line)
        if found := re.match(r'rt: (\w+) (?:proved$|is kept\b)', line):
            self.proved(found[1])

    def end(self, well):
        """Ends the log. If all went well, nobody reads it."""
        self.ended.set()
        self.log.close()
        if well:
            os.unlink(self.log.name)
            return
        lines = pathlib.Path(self.log.name).read_text(encoding='utf-8').splitlines()
        print(*lines[-20:], sep='\n', file=sys.stderr)
        say(f'all of the above is in {self.log.name}')


def copy(room, paths):
    """Copies files and folders of this tree as they are now, without what was built from them."""
    for path in paths:
        if (TOP / path).is_dir():
            shutil.copytree(TOP / path, room / path, ignore=shutil.ignore_patterns('out'))
        else:
            shutil.copy(TOP / path, room / path)


def below_any(crates, wanted):
    """The crates that one of these depends on, lowest first."""
    below = {it for crate in wanted for it in crates.below(crate)}
    return [it for it in crates.stands_on if it in below]


def is_current(crate):
    """Whether the library of a crate is in this tree, built from the crate's current sources over the libraries that are here."""
    crates = Crates()
    return crates.is_built(crate) and all(it.exists() and it.stat().st_mtime <= crates.rlib(crate).stat().st_mtime for it in map(crates.rlib, crates.below(crate)))


def leave(library, crate, begun):
    """Puts a library into this tree, in place of an older one. Dates it as old as the start of this run, so that a source that
    was changed since then is newer."""
    to = TOP / f'crates/{crate}/out/rlib'
    shutil.rmtree(to, ignore_errors=True)
    shutil.copytree(library.parent, to, symlinks=True)
    os.utime(to / f'{crate}.rlib', (begun, begun))


class Room:
    """A temporary folder in which crates are proved, in a run that began at a time."""

    def __init__(self, progress, begun):
        self.at, self.progress, self.begun = pathlib.Path(tempfile.mkdtemp(prefix='proved-')).resolve(), progress, begun

    def __enter__(self):
        copy(self.at, ['crates.txt', 'HANDLES'])
        self.crates = Crates(self.at)
        return self

    def __exit__(self, *_):
        shutil.rmtree(self.at, ignore_errors=True)

    def said(self, *command, **how):
        """Runs a command. Returns its output and its exit status."""
        lines = []
        with subprocess.Popen(command, stdin=subprocess.DEVNULL, stdout=subprocess.PIPE, stderr=subprocess.STDOUT, encoding='utf-8', errors='replace', **how) as run:
            for line in run.stdout:
                lines.append(line)
                self.progress.take(line)
        return ''.join(lines), run.returncode

    def take(self, wanted):
        """Uses the libraries in this tree that these crates depend on, if nearly all are built from the current sources, and
        builds the others. Returns whether it does."""
        left, lacking = Crates(), []
        for it in below_any(left, wanted):
            # what is above a library that is built now has to be built again
            if not is_current(it) or any(low in lacking for low in left.below(it)):
                lacking.append(it)
        if len(lacking) > FEW:
            return False
        self.crates = left
        self.progress.expect([*lacking, *wanted])
        for it in lacking:
            self.library(it)
        return True

    def prove(self, wanted):
        """Makes `rt ci` prove and build the libraries that these crates depend on, or take them from its earlier runs. Leaves them
        in this tree."""
        proved = below_any(self.crates, wanted)
        self.progress.expect([*proved, *wanted])
        copy(self.at, [f'crates/{it}' for it in proved])
        lines = (f'{it}: {" ".join(self.crates.stands_on[it])}\n' for it in proved)
        (self.at / 'crates.txt').write_text(''.join(lines), encoding='utf-8')
        # `rt ci` wants the top of a repository
        (self.at / '.git').mkdir()
        text, _ = self.said('rt', 'ci', cwd=self.at)
        if not COUNTS.fullmatch(text.rstrip('\n').rpartition('\n')[2]):
            raise Stopped('not all is proved')
        for crate in proved:
            leave(self.crates.rlib(crate), crate, self.begun)

    def rattle_build(self, crate, to, *flags):
        """Proves the crate and builds it into a file or, as a library, into a folder. Returns what was printed."""
        copy(self.at, [f'crates/{crate}'])
        build = str(self.crates.kit / 'bin/rattle'), 'build', *self.crates.words(crate), *flags, '-o', str(to)
        text, status = self.said(*build, cwd=self.at / f'crates/{crate}')
        if status or not re.search(r'(?m)^logic=proved ', text):
            # these say that the crate is refused, or that the checker hit a limit; others, that it couldn't begin
            raise (Refused if status in (1, 3) else Stopped)(f'{crate} is not proved')
        self.progress.proved(crate)
        return text

    def build(self, crate, to, toolchain, *flags):
        """Proves a program or a static library and compiles it into a file. Returns what was printed."""
        return self.rattle_build(crate, to, *flags, '--backend', 'llvm', '--toolchain', str(toolchain))

    def library(self, crate):
        """Proves and builds a library and leaves it in this tree, unless it is there already."""
        if is_current(crate):
            self.progress.proved(crate)
            return
        made = self.at / f'made/{crate}.rlib'
        made.parent.mkdir()
        self.rattle_build(crate, made)
        leave(made, crate, self.begun)
        shutil.rmtree(made.parent)

    def link(self, crate, to):
        """Proves and compiles a program, and links it into a file."""
        kit, compiled = self.crates.kit, self.at / f'{crate}.o'
        self.build(crate, compiled, kit / 'toolchain')
        words = '--target', 'x86_64-unknown-linux-gnu', '--toolchain', kit / 'toolchain', '-o', to, compiled
        _, status = self.said(*map(str, (kit / 'bin/rattle-link', *words, kit / 'c/libos_c.a', kit / 'c/liblibc_c.a')))
        if status:
            raise Stopped(f'{crate} is not linked')


def in_order(crates):
    """These crates, in the order of crates.txt."""
    known = Crates().stands_on
    if unknown := [it for it in crates if it not in known]:
        raise Stopped(f'crates.txt has no {unknown[0]}')
    return [it for it in known if it in crates]


def over_libraries(crates, make):
    """Calls `make` with a room and each crate, over the libraries in this tree or, if that isn't possible, over ones that are
    proved first."""
    crates = in_order(crates)
    begun, progress, well = time.time(), Progress(), False
    try:
        for has_left in (True, False):
            with Room(progress, begun) as room:
                try:
                    if has_left and not room.take(crates):
                        continue
                    if not has_left:
                        room.prove(crates)
                    for crate in crates:
                        make(room, crate)
                    well = True
                    return
                except Stopped as why:
                    if not has_left or isinstance(why, Refused):
                        raise
                    say(f'with the libraries that are here, {why}; now everything is proved again')
    finally:
        progress.end(well)


def file_of(crate):
    """The file that a program or a static library is built into; None for a library on which other crates are built."""
    if (TOP / f'crates/{crate}/src/main.rt').is_file():
        return TOP / f'crates/{crate}/out/{crate}'
    return TOP / f'crates/{crate}/out/lib{crate}.a' if 'staticlib' in Crates().kind[crate] else None


def is_done(crate):
    """Whether a crate is built from the current sources."""
    made, crates = file_of(crate), Crates()
    if not made or not made.is_file():
        return not made and is_current(crate)
    files = (it for name in (*crates.below(crate), crate) for part in PARTS for it in (TOP / 'crates' / name / part).rglob('*'))
    return all(it.stat().st_mtime <= made.stat().st_mtime for it in files)


def build(room, crate):
    """Builds a crate in its folder."""
    made, out = file_of(crate), TOP / f'crates/{crate}/out'
    out.mkdir(exist_ok=True)
    if made == out / crate:
        room.link(crate, room.at / 'linked')
        shutil.copy(room.at / 'linked', f'{made}.new')
    elif made:
        text = room.build(crate, f'{made}.new', room.crates.kit / 'toolchain')
        (out / 'cpu').write_text(re.search(r'(?m)^logic=proved .* cpu=(\S+)', text)[1] + '\n', encoding='utf-8')
        os.utime(out / 'cpu', (room.begun, room.begun))
    else:
        room.library(crate)
        return
    # as old as the start of this run, so that a source that was changed since then is newer
    os.utime(f'{made}.new', (room.begun, room.begun))
    os.replace(f'{made}.new', made)


def main(crates):
    if not crates or crates[0].startswith('-'):
        sys.exit(__doc__)
    if not shutil.which('rt'):
        sys.exit('prove: this needs the toolchain, whose command rt is not in the path')
    try:
        done = [it for it in in_order(crates) if is_done(it)]
        if done:
            say(f'proved already: {" ".join(done)}')
        if left := [it for it in in_order(crates) if it not in done]:
            over_libraries(left, build)
    except Stopped as why:
        sys.exit(f'prove: {why}')
    except KeyboardInterrupt:
        sys.exit(130)


if __name__ == '__main__':
    main(sys.argv[1:])
