"""Tests what the module capnp_canonical adds to the library's calls: the type of raw words, limits by name, classes of errors,
messages of pycapnp, streams of asyncio, and the file that it loads."""
import asyncio
import concurrent.futures
import gc
import importlib.util
import inspect
import os
import pathlib
import pickle
import shutil
import subprocess
import sys
import tempfile
import unittest
import warnings

import capnp_canonical
from capnp_canonical import Error, Limits, Refusal, Words

STREAMS = pathlib.Path(__file__).resolve().parents[1] / 'rows' / 'streams.txt'
FRAME = bytes.fromhex('0000000004000000 0000000003000000 1111111111111111 ffffffffffffffff 0000000000000000')
FLAT = bytes.fromhex('0000000002000000 1111111111111111 ffffffffffffffff')
CANONICAL = bytes.fromhex('0000000003000000') + FLAT
# A struct of one pointer, to a text.
TEXT = bytes.fromhex('0000000000000100 0100000022000000 4164610000000000')
TEXT_FRAME = bytes.fromhex('0000000003000000') + TEXT
# Canonical words of a struct of two numbers, which are also a frame of two words.
TWO = bytes.fromhex('0000000002000000 0000000001000000 2a00000000000000')
LIMIT = 2**31 - 1


class RawWords(unittest.TestCase):
    MAKERS = (
        lambda: capnp_canonical.copy_flat(FRAME), lambda: capnp_canonical.segments_copy_flat([FRAME[8:]]),
        lambda: capnp_canonical.words_copy(FLAT), lambda: capnp_canonical.copy_flat_at(FRAME, []),
        lambda: capnp_canonical.segments_copy_flat_at([FRAME[8:]], []), lambda: capnp_canonical.words_copy_at(FLAT, []),
    )

    def test_type(self):
        for make in self.MAKERS:
            words = make()
            self.assertIs(type(words), Words)
            self.assertEqual((words, hash(words), {FLAT: 1}[words], bytes(words)), (FLAT, hash(FLAT), 1, FLAT))
            self.assertIs(type(words[8:]), bytes)
            self.assertIs(type(b'type' + words), bytes)
            self.assertIs(type(pickle.loads(pickle.dumps(words))), Words)
        for call in capnp_canonical.copy, capnp_canonical.digest, capnp_canonical.words_digest:
            self.assertIs(type(call(FRAME)), bytes)

    def test_no_call_takes_them_for_a_frame(self):
        """The trap: as a frame, these words are another value."""
        module, words = capnp_canonical, capnp_canonical.words_copy(TWO)
        self.assertEqual(words, TWO)
        self.assertEqual(module.copy_flat(TWO), TWO[8:])
        calls = (
            module.copy, module.copy_flat, module.digest, module.hexdigest, module.check, module.is_canonical, module.size,
            module.validate, module.walk, module.frame_size, module.frames, module.packed_frames, module.unpack,
            lambda it: module.copy_flat_at(it, []), lambda it: module.digest_at(it, []), lambda it: module.size_at(it, []),
            lambda it: module.copy_into(bytearray(99), it), lambda it: module.copy_flat_into(bytearray(99), it),
            lambda it: module.unpack_into(bytearray(99), it),
        )
        for call in calls:
            for given in words, memoryview(words), Words(TWO):
                with self.assertRaisesRegex(TypeError, "raw words aren't a frame"):
                    call(given)
        # what is only a part of them may be a frame
        self.assertEqual(module.frame_size(memoryview(words)[8:]), 16)
        for call in module.words_digest, module.words_size, module.words_validate, module.words_check:
            self.assertEqual(call(words), call(TWO))

    def test_made_of_stored_bytes(self):
        for stored in TWO, bytearray(TWO), memoryview(TWO):
            self.assertEqual(Words(stored), TWO)
        for other in 7, 'text', [1, 2], None:
            with self.assertRaises(TypeError):
                Words(other)

    def test_frame(self):
        frame = capnp_canonical.copy_flat(FRAME).frame()
        self.assertEqual((type(frame), frame), (bytes, CANONICAL))
        self.assertEqual(capnp_canonical.copy(frame), frame)
        with self.assertRaises(ValueError):
            Words(b'.......').frame()


class Results(unittest.TestCase):
    def test_many(self):
        """Each result is an object of its own, which is freed."""
        small, large = CANONICAL, bytes.fromhex('0000000012270000 0000000000000100 010000008a380100') + b'1' * 80016
        for frame in small, large:
            copies = [capnp_canonical.copy(frame) for _ in range(300)]
            self.assertEqual(set(copies), {capnp_canonical.copy(bytearray(frame))})
            self.assertEqual(len({id(it) for it in copies}), 300)
            self.assertEqual({sys.getrefcount(it) for it in copies}, {sys.getrefcount(it) for it in [bytes(bytearray(frame))]})
        self.assertEqual({hash(it) for it in copies}, {hash(bytes(bytearray(copies[0])))})
        del copies
        gc.collect()
        before = sys.getallocatedblocks()
        for _ in range(1000):
            capnp_canonical.copy(small), capnp_canonical.copy_flat(small), capnp_canonical.unpack(b'\0\0')
            with self.assertRaises(Error):
                capnp_canonical.copy(small[:-1])
        gc.collect()
        self.assertLess(sys.getallocatedblocks() - before, 300)

    def test_threads(self):
        with concurrent.futures.ThreadPoolExecutor(8) as pool:
            self.assertEqual(set(pool.map(capnp_canonical.copy, [FRAME] * 3000)), {CANONICAL})

    def test_nothing_packed(self):
        self.assertEqual(capnp_canonical.unpack(b''), b'')

    @unittest.skipUnless(importlib.util.find_spec('resource') and sys.platform == 'linux', 'no limit on memory')
    def test_no_memory(self):
        """There is one error if memory runs out: the refusal, which is a MemoryError, too."""
        code = '''import resource, sys, capnp_canonical
text = b'1' * (64 << 20)
frame = bytes(4) + (2 + len(text) // 8).to_bytes(4, 'little') + bytes.fromhex('0000000000000100') + b'\\1\\0\\0\\0' + (len(text) * 8 + 2).to_bytes(4, 'little') + text
used = int(open('/proc/self/statm').read().split()[0]) * resource.getpagesize()
resource.setrlimit(resource.RLIMIT_AS, (used + (16 << 20), used + (16 << 20)))
for call in capnp_canonical.copy, capnp_canonical.copy_flat:
    try:
        call(frame, words=1 << 30)
    except MemoryError as error:
        print(type(error).__name__, isinstance(error, capnp_canonical.Error), int(error.number))
'''
        said = subprocess.run([sys.executable, '-B', '-c', code], stdout=subprocess.PIPE, text=True).stdout
        self.assertEqual(said, 'OutOfMemoryError True 32\n' * 2)


class Hexdigest(unittest.TestCase):
    def test_all(self):
        module = capnp_canonical
        for call, hexcall, given in (
            (module.digest, module.hexdigest, (FRAME,)), (module.segments_digest, module.segments_hexdigest, ([FRAME[8:]],)),
            (module.words_digest, module.words_hexdigest, (FLAT,)), (module.digest_at, module.hexdigest_at, (TEXT_FRAME, [0])),
            (module.segments_digest_at, module.segments_hexdigest_at, ([TEXT], [0])),
            (module.words_digest_at, module.words_hexdigest_at, (TEXT, [0])),
        ):
            self.assertEqual(hexcall(*given), call(*given).hex())
            with self.assertRaises(Error):
                hexcall(*given, words=0)


class Equal(unittest.TestCase):
    def test_all(self):
        module, same, other = capnp_canonical, [FRAME, CANONICAL, bytearray(FRAME)], TEXT_FRAME
        for one in same:
            for two in same:
                self.assertIs(module.equal(one, two), True)
                self.assertIs(module.segments_equal([one[8:]], iter([two[8:]])), True)
                self.assertIs(module.words_equal(one[8:], two[8:]), True)
            self.assertIs(module.equal(one, other), False)
            self.assertIs(module.segments_equal([other[8:]], [one[8:]]), False)
            self.assertIs(module.words_equal(one[8:], other[8:]), False)
        # words that begin like others
        self.assertIs(module.equal(module.words_copy(FLAT).frame(), bytes.fromhex('0000000002000000 0000000001000000 1111111111111111')), False)
        for pair in (FRAME, b''), (b'', FRAME):
            with self.assertRaises(module.IncompleteError):
                module.equal(*pair)
        with self.assertRaises(TypeError):
            module.equal(FRAME, module.copy_flat(FRAME))


class LimitsByName(unittest.TestCase):
    def calls(self):
        """Each call that takes limits, and the rest of what it needs."""
        more = {'most': 9, 'path': [], 'prefix': b'id', 'to': bytearray(99)}
        given = {'frame': TEXT_FRAME, 'segments': [TEXT], 'message': TEXT}
        others = {'equal': TEXT_FRAME, 'segments_equal': [TEXT], 'words_equal': TEXT}
        for name in capnp_canonical.__all__:
            call = getattr(capnp_canonical, name)
            if inspect.isfunction(call) and 'limits' in inspect.signature(call).parameters:
                names = [it for it in inspect.signature(call).parameters if it not in ('limits', 'nesting', 'words')]
                yield name, call, {it: {**more, **given, 'other': others.get(name)}[it] for it in names}

    def test_each(self):
        count = 0
        for name, call, given in self.calls():
            count += 1
            self.assertEqual(call(**given, nesting=2, words=9), call(**given), name)
            for limits in {'nesting': 0}, {'words': 0}, {'limits': Limits(9, 9), 'nesting': 0}, {'limits': Limits(9, 9), 'words': 0}:
                if 'is_canonical' in name:
                    self.assertIs(call(**given, **limits), False)
                    continue
                if 'walk' in name and limits.get('words') != 0:
                    self.assertIsNotNone(call(**given, **limits).refused)
                    continue
                try:
                    refused = call(**given, **limits).refused
                except Error as error:
                    refused = error
                self.assertIsInstance(refused, capnp_canonical.OverLimitError, (name, limits))
            for wrong in {'nesting': 'deep'}, {'words': '9'}, {'limits': 9, 'words': 9}:
                with self.assertRaises(TypeError):
                    call(**given, **wrong)
        self.assertEqual(count, 43)

    def test_by_the_name_of_before(self):
        for name, wanted in ('words_copy', TEXT), ('words_size', capnp_canonical.Size(2, 0)), ('words_check', None):
            with warnings.catch_warnings(record=True) as said:
                warnings.simplefilter('always')
                self.assertEqual(getattr(capnp_canonical, name)(words=TEXT), wanted)
            self.assertEqual([it.category for it in said], [DeprecationWarning])


class Classes(unittest.TestCase):
    def test_each_refusal_has_one(self):
        module = capnp_canonical
        classes = {
            module.NoRoomError: [1], module.IncompleteError: [2, 19], module.MalformedError: [3, 34, 42, 43, 44, 45, 55, 66],
            module.TooLargeError: [17, 59], module.OverLimitError: [18, 57, 58, 60, 62], module.OutOfMemoryError: [32],
            module.CapabilityError: [33], module.NoSuchPlaceError: [61],
        }
        self.assertEqual(sorted(sum(classes.values(), [])), sorted(Refusal))
        for kind, numbers in classes.items():
            for number in numbers:
                for error in Error(number), Error(Refusal(number)), kind(number), pickle.loads(pickle.dumps(Error(number))), Error(number).at(2, 40):
                    self.assertIs(type(error), kind)
                    self.assertIsInstance(error, ValueError)
                    self.assertIs(error.number, Refusal(number))
            self.assertIs(issubclass(kind, MemoryError), kind is module.OutOfMemoryError)
        self.assertIs(type(Error(1000000)), Error)

    def test_raised(self):
        module = capnp_canonical
        for kind, call in (
            (module.IncompleteError, lambda: module.copy(FRAME[:-1])), (module.IncompleteError, lambda: module.digest(b'')),
            (module.IncompleteError, lambda: list(module.frames(FRAME[:9]))), (module.IncompleteError, lambda: module.unpack(b'\0')),
            (module.MalformedError, lambda: module.words_copy(b'.......')), (module.OverLimitError, lambda: module.copy(FRAME, words=1)),
            (module.TooLargeError, lambda: module.copy(b'text' * 9)), (module.NoSuchPlaceError, lambda: module.digest_at(FRAME, [7])),
            (module.NoRoomError, lambda: module.copy_into(bytearray(8), FRAME)),
            (module.CapabilityError, lambda: module.words_copy(bytes.fromhex('0300000000000000'))),
        ):
            with self.assertRaises(kind):
                call()


class Reader:
    """A struct of pycapnp that is read."""

    def as_builder(self):
        return Builder()


class Builder:
    """A struct of pycapnp that is built: only the root can be written, and that says when it has been."""

    def __init__(self, is_root=True):
        self.is_root, self.count = is_root, 0

    def as_reader(self):
        return Reader()

    def to_bytes(self):
        if not self.is_root or self.count:
            raise RuntimeError('You can only call write() once, on the root')
        self.count += 1
        return FRAME


class Pycapnp(unittest.TestCase):
    def test_messages(self):
        module = capnp_canonical
        for given in Reader(), Builder(), Builder(False):
            for _ in range(2):
                for call in module.copy, module.copy_flat, module.digest, module.hexdigest, module.size, module.validate:
                    self.assertEqual(call(given), call(FRAME))
                for call in module.copy_flat_at, module.digest_at, module.hexdigest_at, module.size_at:
                    self.assertEqual(call(given, []), call(FRAME, []))
                to = bytearray(24)
                self.assertEqual((module.copy_flat_into(to, given), to), (24, FLAT))
            # these say something about a frame, and not about its value
            for call in module.check, module.is_canonical, module.frame_size, module.walk:
                with self.assertRaisesRegex(TypeError, 'bytes-like'):
                    call(given)

    @unittest.skipUnless(importlib.util.find_spec('capnp'), 'no pycapnp')
    def test_real_ones(self):
        import capnp
        person = capnp.load(str(pathlib.Path(__file__).resolve().parents[2] / 'peer/people.capnp')).Person.new_message(id=1, name='Ada')
        wanted = capnp_canonical.hexdigest(person.to_bytes())
        self.assertEqual(wanted, '62cac392152416d2e5417a2626d7f3eae39e50670674e711134666536187c231')
        self.assertEqual([capnp_canonical.hexdigest(it) for it in (person, person.as_reader(), person)], [wanted] * 3)


class Socket:
    """A stream that is awaited for a few bytes at a time."""

    def __init__(self, whole, piece):
        self.whole, self.piece, self.given = whole, piece, 0

    async def read(self, size):
        await asyncio.sleep(0)
        part = self.whole[self.given:self.given + min(size, self.piece)]
        self.given += len(part)
        return part


async def pieces(whole, size, kind=bytes):
    """The bytes in one buffer that is used again and again, if `kind` is bytearray."""
    buffer = bytearray()
    for at in range(0, len(whole), size):
        buffer[:] = whole[at:at + size]
        yield buffer if kind is bytearray else bytes(buffer)
        yield b''


async def found_in(frames):
    found, said, place = [], 'Done', None
    try:
        async for frame in frames:
            found.append(frame)
    except Error as error:
        said, place = error.name, error.place
    return [it.hex() for it in found], said, place


class Asyncio(unittest.TestCase):
    STREAM = (FRAME + TEXT_FRAME) * 50

    def streams(self, whole):
        for size in 1, 7, 10**6:
            yield Socket(whole, size)
            yield pieces(whole, size)
            yield pieces(whole, size, bytearray)

    def test_frames(self):
        for stream in self.streams(self.STREAM):
            found = asyncio.run(found_in(capnp_canonical.async_frames(stream)))
            self.assertEqual(found, ([FRAME.hex(), TEXT_FRAME.hex()] * 50, 'Done', None))
        for size in 1, 3, 5, 39:
            for stream in self.streams(self.STREAM + FRAME[:size]):
                found, said, place = asyncio.run(found_in(capnp_canonical.async_frames(stream)))
                self.assertEqual((len(found), said, place), (100, 'Truncated', (101, len(self.STREAM))))

    def test_packed_frames(self):
        for name, packed, wanted, end in [line.split() for line in STREAMS.read_text().splitlines() if not line.startswith('#')]:
            whole = bytes.fromhex(packed.replace(',', '').strip('-'))
            for stream in self.streams(whole):
                found, said, place = asyncio.run(found_in(capnp_canonical.async_packed_frames(stream)))
                self.assertEqual((','.join(found) or '-', said), (wanted, end), name)
                self.assertEqual(place, None if said == 'Done' else (len(found) + 1, sum(map(len, found)) // 2))

    def test_limits(self):
        for stream in self.streams(FRAME):
            self.assertEqual(asyncio.run(found_in(capnp_canonical.async_frames(stream, 3)))[1], 'MessageTooLong')
        with self.assertRaises(ValueError):
            capnp_canonical.async_frames(Socket(b'', 1), -1)

    def test_a_frame_is_given_as_soon_as_it_is_there(self):
        async def both():
            stream = asyncio.StreamReader()
            frames = capnp_canonical.async_frames(stream).__aiter__()
            for message in FRAME, TEXT_FRAME, FRAME:
                stream.feed_data(message)
                self.assertEqual(await asyncio.wait_for(frames.__anext__(), 9), message)
            stream.feed_eof()
            with self.assertRaises(StopAsyncIteration):
                await frames.__anext__()
        asyncio.run(both())

    def test_other_streams(self):
        async def text():
            yield 'text'
        for stream in text(), 7:
            with self.assertRaises(TypeError):
                asyncio.run(found_in(capnp_canonical.async_frames(stream)))


class Files(unittest.TestCase):
    """The names of the library's file, by the system."""

    def found(self, system, folder, name):
        with tempfile.TemporaryDirectory() as temporary:
            top = pathlib.Path(temporary)
            package = top / 'python/capnp_canonical'
            shutil.copytree(pathlib.Path(capnp_canonical.__file__).parent, package, ignore=shutil.ignore_patterns('__pycache__', '*.so'))
            if name:
                (top / folder).mkdir(exist_ok=True)
                shutil.copy(capnp_canonical._library.library._name, top / folder / name)
            code = f'import ctypes, sys; sys.platform = {system!r}; import capnp_canonical; print(capnp_canonical._library.library._name)'
            run = subprocess.run([sys.executable, '-B', '-c', code], env={'PYTHONPATH': str(top / 'python')}, stdout=subprocess.PIPE, stderr=subprocess.PIPE, text=True)
            return run.stdout.strip().replace(str(top) + '/', '') or run.stderr.strip().splitlines()[-1]

    def test_names(self):
        for system, names in (
            ('linux', ['libcapnp_canonical.so']), ('freebsd14', ['libcapnp_canonical.so']),
            ('darwin', ['libcapnp_canonical.dylib', 'libcapnp_canonical.so']),
        ):
            for name in names:
                for folder in 'python/capnp_canonical', 'python', 'lib':
                    self.assertEqual(self.found(system, folder, name), f'{folder}/{name}')
        self.assertRegex(self.found('darwin', 'lib', ''), r'^ImportError: libcapnp_canonical\.1\.dylib: .*libcapnp_canonical\.dylib$')

    def test_names_of_windows(self):
        # ctypes asks for this system too, so only the names are compared, and the library is named
        code = "import capnp_canonical, importlib, sys; sys.platform = 'win32'; it = importlib.reload(capnp_canonical._library); print(it._NAMES, it._SONAME)"
        named = {'CAPNP_CANONICAL_LIBRARY': capnp_canonical._library.library._name, 'PYTHONPATH': str(pathlib.Path(capnp_canonical.__file__).parents[1])}
        run = subprocess.run([sys.executable, '-B', '-c', code], env={**os.environ, **named}, stdout=subprocess.PIPE, text=True)
        self.assertEqual(run.stdout, "('capnp_canonical.dll', 'libcapnp_canonical.dll') capnp_canonical.dll\n")


class EmptyBuffers(unittest.TestCase):
    @unittest.skipUnless(importlib.util.find_spec('numpy'), 'no numpy')
    def test_of_several_dimensions(self):
        import numpy
        for empty in numpy.zeros((0, 3), 'uint8'), numpy.zeros((2, 0), '<u8'):
            self.assertEqual(list(capnp_canonical.frames(empty)), [])
            self.assertEqual(list(capnp_canonical.packed_frames(empty)), [])


if __name__ == '__main__':
    unittest.main()
