"""Tests `python3 -m capnp_canonical` with the messages of messages.txt. The name of a message is the SHA-256 of its canonical
words, which that file has from `capnp convert`."""
import hashlib
import os
import pathlib
import pty
import subprocess
import sys
import tempfile
import time
import unittest

MESSAGES = pathlib.Path(__file__).resolve().parents[1] / 'rows' / 'messages.txt'
LINES = [line.split() for line in MESSAGES.read_text().splitlines() if not line.startswith('#')]
FRAMES = {name: bytes.fromhex(frame.strip('-')) for name, frame, *_ in LINES}
WORDS = {name: bytes.fromhex(flat) for name, _, copy, flat, *_ in LINES if copy == 'Done'}
GOOD = list(WORDS)
STREAM = b''.join(FRAMES[name] for name in GOOD)
# of the same value, in other segments
PAIR = 'book', 'book_in_segments'
TRUNCATED = 'Truncated: the bytes end inside a frame or a packed word'
MANY = 'TooManySegments: the frame has more than 512 segments; they look like '


def name_of(words):
    return hashlib.sha256(words).hexdigest()


def run(*arguments, input=b'', **more):
    return subprocess.run([sys.executable, '-B', '-m', 'capnp_canonical', *map(os.fspath, arguments)], input=input,
                          stdout=subprocess.PIPE, stderr=subprocess.PIPE, **more)


class Commands(unittest.TestCase):
    def setUp(self):
        folder = tempfile.TemporaryDirectory()
        self.addCleanup(folder.cleanup)
        self.folder = pathlib.Path(folder.name)

    def file(self, name, content):
        path = self.folder / name
        path.write_bytes(content)
        return path

    def require(self, done, status, output, *errors):
        said = [f'capnp_canonical: {it}' for it in errors]
        self.assertEqual((done.stderr.decode().splitlines(), done.returncode), (said, status))
        self.assertEqual(done.stdout.decode().splitlines(), output)

    def names(self, path, only=None):
        return [f'{name_of(WORDS[name])}  {path}:{number}' for number, name in enumerate(GOOD, 1) if only is None or name in only]

    def test_digest(self):
        path = self.file('stream', STREAM)
        self.require(run('digest', path), 0, self.names(path))
        self.require(run('digest', '-', input=STREAM), 0, self.names('-'))
        self.require(run('digest', input=STREAM), 0, self.names('-'))
        self.require(run('digest', self.file('nothing', b'')), 0, [])

    def test_sha256sum_reads_it(self):
        """sha256sum verifies the words of a message in a file whose name is the message's name."""
        path = self.file('stream', STREAM)
        for number, name in enumerate(GOOD, 1):
            self.file(f'stream:{number}', WORDS[name])
        listed = run('digest', path).stdout
        checked = subprocess.run(['sha256sum', '--check', '--quiet'], input=listed, stdout=subprocess.PIPE, stderr=subprocess.STDOUT)
        self.assertEqual((checked.returncode, checked.stdout), (0, b''))

    def test_digest_of_words(self):
        path = self.file('words', WORDS['book'])
        self.require(run('digest', '--flat', path), 0, [f'{name_of(WORDS["book"])}  {path}:1'])
        self.require(run('digest', '--flat', input=WORDS['book']), 0, [f'{name_of(WORDS["book"])}  -:1'])
        half = self.file('half', WORDS['book'][:-1])
        self.require(run('digest', '--flat', half), 2, [], f"{half}: SegmentIsNotWholeWords: the size of a segment isn't a multiple of 8 bytes")

    def test_check(self):
        path = self.file('stream', STREAM)
        names = self.names(path)
        listed = self.file('list', ('\n'.join(names) + '\n').encode())
        self.require(run('digest', '--check', listed), 0, [f'{path}:{it}: OK' for it in range(1, len(GOOD) + 1)])
        self.require(run('digest', '--check', '--quiet', listed), 0, [])
        other = '0' * 64 + names[1][64:]
        wrong = self.file('wrong', '\n'.join([names[0], other, names[2].replace(':3', ':99'), 'no line']).encode())
        self.require(run('digest', '--check', wrong), 2, [f'{path}:1: OK', f'{path}:2: FAILED', f'{path}:99: FAILED'],
                     f'{wrong}: line 4 is not as `digest` writes it', '2 listed messages are missing or differ')
        self.require(run('digest', '--check', '--quiet', input=other.encode()), 1, [f'{path}:2: FAILED'],
                     '1 listed message is missing or differs')
        self.require(run('digest', '--check', input=b'a\nb\n\nc'), 2, [], '-: line 1 and 2 more are not as `digest` writes them')

    def test_check_of_names_that_no_file_can_have(self):
        name = name_of(WORDS['book'])
        self.require(run('digest', '--check', input=f'{name}  a\0b:1\n{name}  :2\n'.encode()), 2, ['a\0b:1: FAILED', ':2: FAILED'],
                     'a\0b: embedded null byte', ': No such file or directory', '2 listed messages are missing or differ')

    def test_check_of_sorted_lists(self):
        """The lines are in any order, and each file is read once: once for each line would take minutes."""
        count = 3000
        paths = [self.file(it, FRAMES['canonical'] * count) for it in ('one', 'two')]
        value = name_of(WORDS['canonical'])
        lines = [f'{value}  {path}:{number}' for number in range(1, count + 1) for path in paths]
        listed = self.file('list', '\n'.join(lines).encode())
        start = time.monotonic()
        self.require(run('digest', '--check', '--quiet', listed), 0, [])
        self.assertLess(time.monotonic() - start, 30)
        merged = run('digest', '--check', listed).stdout.decode().splitlines()
        self.assertEqual(merged, [f'{line.partition("  ")[2]}: OK' for line in lines])

    def test_check_of_empty_lists(self):
        """A list that was cut to nothing isn't verified without a word, also among others."""
        path = self.file('stream', STREAM)
        good, empty = self.file('good', '\n'.join(self.names(path)).encode()), self.file('empty', b'\n')
        self.require(run('digest', '--check', '--quiet', os.devnull), 1, [], f'{os.devnull}: no line names a message')
        self.require(run('digest', '--check', '--quiet', good, empty), 1, [], f'{empty}: no line names a message')

    def test_check_of_duplicates(self):
        path = self.file('stream', FRAMES['canonical'] * 2)
        groups = run('duplicates', path, self.file('book', FRAMES['book'] * 2))
        self.assertEqual(len(groups.stdout.splitlines()), 5)
        self.require(run('digest', '--check', '--quiet', input=groups.stdout), 0, [])

    def closed(self, devices, *arguments):
        """A command with closed devices, such as `>&-`."""
        return subprocess.run(['sh', '-c', f'"$0" -B -m capnp_canonical "$@" {devices}', sys.executable, *arguments], stdout=subprocess.PIPE,
                              stderr=subprocess.PIPE)

    def test_closed_devices(self):
        path = self.file('stream', STREAM)
        listed = self.file('list', '\n'.join(self.names(path)).encode())
        self.require(self.closed('>&-', 'digest', path), 2, [], 'standard output: Bad file descriptor')
        self.require(self.closed('>&-', 'digest', self.folder), 2, [], f'{self.folder}: Is a directory')
        # nothing has to be written
        self.require(self.closed('>&-', 'digest', '--check', '--quiet', listed), 0, [])
        self.require(self.closed('2>&-', 'digest', path), 0, self.names(path))
        self.require(self.closed('2>&-', 'digest', path, self.folder), 2, self.names(path))
        self.require(self.closed('<&-', 'same', path, '-'), 2, [], '-: Bad file descriptor')

    def test_a_file_that_is_cut_while_it_is_read(self):
        path = self.file('stream', FRAMES['canonical'] * 100_000)
        size = path.stat().st_size
        with subprocess.Popen([sys.executable, '-B', '-m', 'capnp_canonical', 'digest', path], stdout=subprocess.PIPE, stderr=subprocess.PIPE) as reader:
            reader.stdout.readline()
            os.truncate(path, size // 2 // len(FRAMES['canonical']) * len(FRAMES['canonical']) + 12)
            _, error = reader.communicate()
        self.assertEqual(reader.returncode, 2)
        self.assertIn(f': {TRUNCATED}\n', error.decode())

    def test_names_with_line_ends(self):
        path = self.file('a\\b\nc', FRAMES['book'])
        escaped = str(path).replace('\\', '\\\\').replace('\n', '\\n')
        done = run('digest', path)
        self.require(done, 0, [f'\\{name_of(WORDS["book"])}  {escaped}:1'])
        self.require(run('digest', '--check', input=done.stdout), 0, [f'\\{escaped}:1: OK'])
        path.unlink()
        self.require(run('digest', path), 2, [], f'{escaped}: No such file or directory')

    def test_names_that_are_no_text(self):
        path = self.folder / os.fsdecode(b'\xe4')
        path.write_bytes(FRAMES['book'])
        for locale in 'C.UTF-8', 'C':
            variables = {**os.environ, 'LC_ALL': locale}
            done = run('digest', path, env=variables)
            self.assertEqual(done.stdout, f'{name_of(WORDS["book"])}  '.encode() + os.fsencode(path) + b':1\n')
            self.assertEqual(run('digest', '--check', input=done.stdout, env=variables).stdout, os.fsencode(path) + b':1: OK\n')

    def test_same(self):
        first = self.file('first', STREAM)
        moved = {PAIR[0]: PAIR[1], PAIR[1]: PAIR[0]}
        second = self.file('second', b''.join(FRAMES[moved.get(name, name)] for name in GOOD))
        self.require(run('same', first, second), 0, [])
        third = self.file('third', FRAMES['canonical'] + STREAM[len(FRAMES[GOOD[0]]):])
        self.require(run('same', first, third), 1, ['message 1 differs'])
        shorter = self.file('shorter', FRAMES[GOOD[0]])
        self.require(run('same', shorter, first), 1, [f'{shorter} has 1 message and {first} has {len(GOOD)} messages'])
        self.require(run('same', '-', first, input=STREAM), 0, [])

    def test_duplicates(self):
        path, other = self.file('stream', STREAM), self.file('other', FRAMES['canonical'])
        names = self.names(path)
        # `canonical` and `zero_word` are one value, and so are the books
        groups = [[GOOD.index('canonical'), GOOD.index('zero_word')], [GOOD.index(it) for it in PAIR]]
        wanted = [*[names[it] for it in groups[0]], f'{name_of(WORDS["canonical"])}  {other}:1', '', *[names[it] for it in groups[1]]]
        self.require(run('duplicates', path, other), 1, wanted)
        self.require(run('duplicates', other), 0, [])

    def test_refused_messages(self):
        """The good messages get their names, and each mistake one line that says what and where."""
        bad = STREAM + FRAMES['capability'] + FRAMES['book'] + FRAMES['book'][:-1]
        path, count = self.file('bad', bad), len(GOOD)
        at = len(STREAM)
        after = at + len(FRAMES['capability'])
        self.require(run('digest', path, self.folder / 'none', self.folder), 2,
                     [*self.names(path), f'{name_of(WORDS["book"])}  {path}:{count + 2}'],
                     f'{path}: message {count + 1} at byte {at}: CannotCreateACanonicalMessageWithACapability at segment 0, word 1: '
                     'the value contains a capability, so it has no canonical form',
                     f'{path}: message {count + 3} at byte {after + len(FRAMES["book"])}: {TRUNCATED}',
                     f'{self.folder / "none"}: No such file or directory', f'{self.folder}: Is a directory')
        for content, like in (
            (b'\x1f\x8b\x08\0\0\0\0\0', 'gzip'), (b'(id = 1)', 'text'), (bytes.fromhex('10021001012a'), 'packed messages'),
            (WORDS['empty_struct'], 'raw canonical words'),
        ):
            self.require(run('digest', input=content), 2, [], f'-: message 1 at byte 0: {MANY}{like}')

    def test_devices(self):
        path = self.file('stream', STREAM)
        with open('/dev/full', 'wb') as full:
            done = subprocess.run([sys.executable, '-B', '-m', 'capnp_canonical', 'digest', path], stdout=full, stderr=subprocess.PIPE)
        self.assertEqual((done.returncode, done.stderr), (2, b'capnp_canonical: standard output: No space left on device\n'))
        many = self.file('many', STREAM * 2000)
        done = subprocess.run(f'{sys.executable} -B -m capnp_canonical digest {many} | head -n 1', shell=True, stdout=subprocess.PIPE, stderr=subprocess.PIPE)
        self.assertEqual((done.stdout.decode(), done.stderr), (self.names(many)[0] + '\n', b''))
        done = subprocess.run([sys.executable, '-B', '-m', 'capnp_canonical', 'digest'], stdin=subprocess.DEVNULL, stdout=subprocess.PIPE,
                              stderr=subprocess.PIPE, preexec_fn=lambda: os.close(0))
        self.assertEqual((done.returncode, done.stderr), (2, b'capnp_canonical: -: Bad file descriptor\n'))

    def test_arguments(self):
        for arguments, said in (
            ([], 'the following arguments are required: COMMAND'), (['digist'], "unknown command 'digist'"),
            (['same', 'one'], 'the following arguments are required: FILE'), (['digest', '--nothing'], 'unrecognized arguments: --nothing'),
            (['digest', '--words', 'x'], "invalid value 'x' for --words"), (['digest', '--words=-5'], "invalid value '-5' for --words"),
            (['digest', '--words', str(2**64)], f"invalid value '{2**64}' for --words"),
            (['digest', '--words', '1' * 5000], f"invalid value '{'1' * 5000}' for --words"),
            (['digest', '--nesting', str(2**31)], f"invalid value '{2**31}' for --nesting"), (['digest', '--nesting'], '--nesting needs a value'),
            (['digest', '--check=x'], '--check takes no value'), (['digest', '--quiet'], '--quiet needs --check'),
        ):
            self.require(run(*arguments), 2, [], f'{said}; see --help')
        self.assertIn(b'--check', run('digest', '--help').stdout)
        self.assertRegex(run('--version').stdout.decode(), r'^capnp_canonical \d+\.\d+\.\d+\n$')

    def test_limits(self):
        path = self.file('stream', FRAMES['canonical'])
        self.require(run('digest', '--words', '2', path), 2, [],
                     f'{path}: message 1 at byte 0: MessageTooLong: the frame or the unpacked bytes have more words than the limit')
        self.require(run('digest', '--words', 'none', path), 0, [f'{name_of(WORDS["canonical"])}  {path}:1'])

    def test_no_library(self):
        done = run('digest', env={**os.environ, 'CAPNP_CANONICAL_LIBRARY': 'nowhere.so'})
        self.assertEqual(done.returncode, 1)
        self.assertRegex(done.stderr.decode().splitlines()[-1], r'^ImportError: [^\n]*nowhere\.so')

    def test_progress(self):
        """Progress is shown if standard error is a terminal and the work takes longer than a second, and is erased at the end."""
        read, write = os.pipe()
        terminal, other = pty.openpty()
        with open(write, 'wb', buffering=0) as stream:
            process = subprocess.Popen([sys.executable, '-B', '-m', 'capnp_canonical', 'digest', '-'], stdin=read, stdout=subprocess.DEVNULL, stderr=other)
            os.close(read)
            os.close(other)
            for _ in range(30):
                stream.write(STREAM)
                time.sleep(0.1)
        shown = b''
        try:
            while piece := os.read(terminal, 1 << 16):
                shown += piece
        except OSError:
            pass  # the terminal's other side is closed
        os.close(terminal)
        self.assertEqual(process.wait(), 0)
        self.assertRegex(shown.decode(), r'\rX*\x1b\[Kcapnp_canonical: \d+ messages, \d+ MB')
        self.assertTrue(shown.endswith(b'\r\x1b[K'))


if __name__ == '__main__':
    unittest.main()
