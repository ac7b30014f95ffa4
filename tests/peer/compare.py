"""Compares what the program capnp_canon answers to real messages with what C++ Cap'n Proto answers.

    compare.py [PROGRAM]

The last line is `N passed, M failed`."""
import re
import subprocess
import sys

from peer import PERSON, REQUEST, TOP, Peer

SEEDS = 1, 2, 3, 4
SMALL, LARGE, DATA = 100_000, '7100000', '8388000'


class Comparison:
    def __init__(self, peer, program):
        self.peer, self.program = peer, program
        self.passed = self.failed = 0

    def ours(self, *words, data):
        run = subprocess.run([self.program, *words], input=data, stdout=subprocess.PIPE)
        return run.stdout, run.returncode

    def same(self, what, ours, theirs):
        if ours == theirs:
            self.passed += 1
        else:
            self.failed += 1
            print(f'{what} differs')

    def commands(self, name, data):
        """Compares each command on a stream."""
        for ours, theirs in (['canon'], ['canon']), (['canon', '--flat'], ['flat']), (['size'], ['size']):
            self.same(f'{name}: {" ".join(ours)}', self.ours(*ours, data=data), self.peer.answer(theirs, data))
        self.check(f'{name}: check', data)
        canonical = self.peer.copied(['canon'], data)
        self.check(f'{name}: check of canonical messages', canonical)
        self.packing(name, data, canonical)

    def check(self, what, data):
        """Compares `check` without its reasons, because the peer doesn't print any."""
        text, status = self.ours('check', data=data)
        lines = [b'not canonical' if line.startswith(b'not canonical: ') else line for line in text.split(b'\n')]
        self.same(what, (b'\n'.join(lines), status), self.peer.answer(['check'], data))

    def packing(self, name, data, canonical):
        packed = self.peer.copied(['copy', 'pack'], data)
        packed_canonical = self.peer.copied(['copy', 'pack'], canonical)
        for words, given, wanted in (
            (['--packed'], packed, canonical),
            (['--pack'], data, packed_canonical),
            (['--packed', '--pack'], packed, packed_canonical),
            (['--packed'], packed_canonical, canonical),
        ):
            self.same(f'{name}: canon {" ".join(words)}', self.ours('canon', *words, data=given), (wanted, 0))

    def tool(self, name, of, data):
        """Compares with the command `capnp`: the canonical words, plain and packed, and how it reads our output."""
        packed = self.peer.convert('binary:packed', of, data)
        flat = self.peer.convert('binary:canonical', of, data)
        self.same(f'{name}: capnp convert', self.ours('canon', '--flat', data=data), (flat, 0))
        flat = self.peer.convert('packed:canonical', of, packed)
        self.same(f'{name}: capnp convert, packed', self.ours('canon', '--flat', '--packed', data=packed), (flat, 0))
        text = self.peer.decode(of, data)
        ours, _ = self.ours('canon', data=data)
        self.same(f'{name}: capnp decode', self.peer.decode(of, ours), text)
        ours, _ = self.ours('canon', '--pack', data=data)
        self.same(f'{name}: capnp convert of packed messages', self.peer.convert('packed:text', of, ours), text)

    def corpus(self, name, *command):
        """The corpus of ../corpus, over C++ or the program; what fails is printed."""
        run = subprocess.run([sys.executable, str(TOP / 'tests/corpus/run.py'), *command], stdout=subprocess.PIPE, encoding='utf-8')
        *lines, last = run.stdout.splitlines() or ['']
        count = re.fullmatch(r'(\d+) passed, (\d+) failed', last)
        passed, failed = map(int, count.groups()) if count else (0, 1)
        self.passed += passed
        self.failed += failed
        print(f'corpus, {name}: {last}')
        if failed:
            print('\n'.join(lines))

    def corpora(self):
        example = self.peer.example()
        self.corpus('C++', example, 'words')
        self.corpus('C++, test', '--check', example, 'check')
        self.corpus('C++, packed', '--packed', example, 'words', 'packed')
        self.corpus('words', self.program, 'canon', '--flat')
        self.corpus('test', '--check', '--places', self.program, 'check')
        self.corpus('packed', '--packed', self.program, 'canon', '--flat', '--packed')
        self.corpus('packed, test', '--packed', '--check', '--places', self.program, 'check', '--packed')

    def all(self):
        self.corpora()
        for seed in SEEDS:
            data = self.peer.people(seed, 2000, 2)
            self.commands(f'seed {seed}', data)
            self.tool(f'seed {seed}', PERSON, data)
            self.commands(f'seed {seed} in many segments', self.peer.scattered(self.peer.people(seed, 300, 1)))
        data = self.peer.people(9, SMALL, 0)
        self.commands('small messages', data)
        self.tool('small messages', PERSON, data)
        self.commands('large', self.peer.book(LARGE))
        self.commands('data', self.peer.book(DATA, 'data'))
        for path, data in self.peer.requests():
            self.commands(path.name, data)
            self.tool(path.name, REQUEST, data)


def main():
    program = sys.argv[1] if sys.argv[1:] else str(TOP / 'capnp_canon')
    with Peer() as peer:
        comparison = Comparison(peer, program)
        comparison.all()
    print(f'{comparison.passed} passed, {comparison.failed} failed')
    return 1 if comparison.failed else 0


sys.exit(main())
