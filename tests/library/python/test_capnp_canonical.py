"""Tests the module capnp_canonical with the messages of messages.txt, and in cases that this file can't express."""
import array
import concurrent.futures
import hashlib
import importlib.util
import io
import mmap
import os
import pathlib
import pickle
import shutil
import subprocess
import sys
import tempfile
import threading
import time
import unittest

import capnp_canonical
from capnp_canonical import Error, Fault, Limits, Reason, Refusal, Size

ROWS = pathlib.Path(__file__).resolve().parents[1] / 'rows'
MESSAGES = ROWS / 'messages.txt'
PLACES = ROWS / 'places.txt'
PACKED = ROWS / 'packed.txt'
PARTS = ROWS / 'parts.txt'
PREFIXES = ROWS / 'prefixes.txt'
STREAMS = ROWS / 'streams.txt'
LIBRARY = 'CAPNP_CANONICAL_LIBRARY'
# A struct of three words that ends in a zero word.
ZERO_WORD = bytes.fromhex('0000000004000000 0000000003000000 1111111111111111 ffffffffffffffff 0000000000000000')
ZERO_WORD_FLAT = bytes.fromhex('0000000002000000 1111111111111111 ffffffffffffffff')
TEXT = '6162636465666768 6162636465666700'
# Two pointers to one text: its canonical form has two texts, and is longer.
SHARED = bytes.fromhex('0000000005000000 0000000000000200 0500000082000000 0100000082000000' + TEXT)
SHARED_FLAT = bytes.fromhex('0000000000000200 0500000082000000 0900000082000000' + TEXT + TEXT)


def framed(words):
    return bytes(4) + (len(words) // 8).to_bytes(4, 'little') + words


def chain(levels):
    """A canonical message of so many structs, each in the one before: each word is a pointer to a struct that has the next
    word as its pointer."""
    return bytes.fromhex('0000000000000100') * (levels - 1) + bytes.fromhex('fcffffff00000000')


def segments_in(frame):
    """The segments of a whole frame."""
    def number(at):
        return int.from_bytes(frame[at:at + 4], 'little')

    count = number(0) + 1
    at = (4 + 4 * count + 7) // 8 * 8
    for id in range(count):
        size = 8 * number(4 + 4 * id)
        yield frame[at:at + size]
        at += size


def answer(text, call, *arguments):
    """The result of a call as text, or the name of its refusal."""
    try:
        return text(call(*arguments))
    except Error as error:
        return error.name


def fault_text(fault):
    return 'yes' if fault is None else f'{int(fault.reason)},{fault.segment},{fault.word}'


def size_text(size):
    return f'{size.words},{size.capabilities}'


class Messages(unittest.TestCase):
    """One test for each message of messages.txt."""

    def compare(self, given, calls, copy, flat, check, size, digest):
        words = bytes.fromhex(flat.strip('-'))
        copy_call, flat_call, check_call, size_call, digest_call = calls
        done = copy == 'Done'
        self.assertEqual(answer(bytes.hex, copy_call, given), framed(words).hex() if done else copy)
        self.assertEqual(answer(bytes.hex, flat_call, given), words.hex() if done else copy)
        self.assertEqual(answer(fault_text, check_call, given), check)
        self.assertEqual(answer(size_text, size_call, given), size)
        self.assertEqual(answer(bytes.hex, digest_call, given), digest if done else copy)
        is_canonical = capnp_canonical.is_canonical if isinstance(given, bytes) else capnp_canonical.segments_is_canonical
        self.assertIs(is_canonical(given), check == 'yes')
        if done:
            self.assertEqual(capnp_canonical.words_copy(words), words)
            self.assertEqual(capnp_canonical.words_digest(words).hex(), digest)
            self.assertTrue(capnp_canonical.words_is_canonical(words))
            self.assertIsNone(capnp_canonical.words_check(words))
            self.assertGreaterEqual(8 + 8 * capnp_canonical.words_size(words).words, len(words))

    def frame(self, digits, copy, *wanted):
        given = bytes.fromhex(digits.strip('-'))
        module = capnp_canonical
        self.compare(given, (module.copy, module.copy_flat, module.check, module.size, module.digest), copy, *wanted)
        if copy not in ('Truncated', 'NoMessage'):
            calls = (module.segments_copy, module.segments_copy_flat, module.segments_check, module.segments_size,
                     module.segments_digest)
            self.compare(list(segments_in(given)), calls, copy, *wanted)

    def test_count(self):
        self.assertEqual(len(LINES), 10)


LINES = [line.split() for line in MESSAGES.read_text().splitlines() if not line.startswith('#')]
for name, *line in LINES:
    setattr(Messages, f'test_{name}', lambda self, line=line: self.frame(*line))


class Parts(unittest.TestCase):
    def test_parts(self):
        lines = [line.split() for line in PARTS.read_text().splitlines() if not line.startswith('#')]
        self.assertEqual(len(lines), 70)
        module = capnp_canonical
        of_frames = module.copy_flat_at, module.digest_at, module.size_at
        of_segments = module.segments_copy_flat_at, module.segments_digest_at, module.segments_size_at
        of_words = module.words_copy_at, module.words_digest_at, module.words_size_at
        for name, frame, path, wanted, flat, digest in lines:
            given, indexes = bytes.fromhex(frame), [int(it) for it in path.strip('-').split('.') if it]
            segments = list(segments_in(given))
            messages = [(given, of_frames), (segments, of_segments)] + [(it, of_words) for it in segments if len(segments) == 1]
            for message, (copy, hash, size) in messages:
                with self.subTest(name, path=path, call=copy.__name__):
                    done = wanted == 'Done'
                    self.assertEqual(answer(bytes.hex, copy, message, indexes), flat if done else wanted)
                    self.assertEqual(answer(bytes.hex, hash, message, indexes), digest if done else wanted)
                    if done:
                        self.assertGreaterEqual(8 + 8 * size(message, indexes).words, len(flat) // 2)
                        self.assertEqual(size(message, indexes), module.size_at(given, indexes))
                    else:
                        self.assertEqual(answer(size_text, size, message, indexes), wanted)

    def test_paths(self):
        self.assertEqual(capnp_canonical.copy_flat_at(SHARED, ()), SHARED_FLAT)
        for path in (0,), iter([1]), b'\0':
            self.assertEqual(capnp_canonical.copy_flat_at(SHARED, path), bytes.fromhex('0100000082000000' + TEXT))
        with self.assertRaises(Error) as caught:
            capnp_canonical.digest_at(SHARED, [2])
        self.assertEqual(caught.exception.number, Refusal.NO_SUCH_PLACE)
        for path in [-1], [2**32]:
            with self.assertRaises(OverflowError):
                capnp_canonical.size_at(SHARED, path)
        for path in 0, ['0'], [None]:
            with self.assertRaises(TypeError):
                capnp_canonical.copy_flat_at(SHARED, path)


class Prefixes(unittest.TestCase):
    """The rows of prefixes.txt: digests of a prefix and words, and packed frames; and messages that are compared."""

    def rows(self):
        for line in PREFIXES.read_text().splitlines():
            if not line.startswith('#'):
                name, frame, path, prefix, digest, packed = line.split()
                indexes = [int(it) for it in path.strip('-').split('.') if it]
                given = bytes.fromhex(frame), bytes.fromhex(prefix.strip('-')), bytes.fromhex(packed.strip('-'))
                with self.subTest(name, path=path, prefix=prefix):
                    yield (*given, indexes, digest)

    def test_digests(self):
        module, count = capnp_canonical, 0
        for frame, prefix, _, path, digest in self.rows():
            segments, words = list(segments_in(frame)), module.copy_flat_at(frame, path)
            for before in prefix, bytearray(prefix), memoryview(b'.' + prefix)[1:]:
                self.assertEqual(module.digest_at(frame, path, prefix=before).hex(), digest)
                self.assertEqual(module.segments_digest_at(segments, path, prefix=before).hex(), digest)
                self.assertEqual(module.words_digest(words, prefix=before).hex(), digest)
            self.assertEqual(module.hexdigest_at(frame, path, prefix=prefix), digest)
            self.assertEqual(module.segments_hexdigest_at(segments, path, prefix=prefix), digest)
            self.assertEqual(module.words_hexdigest_at(words, (), prefix=prefix), digest)
            self.assertEqual(hashlib.sha256(prefix + words).hexdigest(), digest)
            if not path:
                self.assertEqual(module.hexdigest(frame, prefix=prefix), digest)
                self.assertEqual(module.segments_hexdigest(segments, prefix=prefix), digest)
            count += 1
        self.assertEqual(count, 26)
        for prefix in 8, 'text', None:
            with self.assertRaises(TypeError):
                module.digest(SHARED, prefix=prefix)
        with self.assertRaises(Error) as refused:
            module.digest(ZERO_WORD, prefix=b'.', words=0)
        self.assertIs(refused.exception.number, Refusal.MESSAGE_TOO_LONG)

    def test_packed(self):
        known = 0
        for frame, _, packed, _, _ in self.rows():
            ours = capnp_canonical.pack(frame)
            for given in bytearray(frame), memoryview(b'.' + frame)[1:]:
                self.assertEqual(capnp_canonical.pack(given), ours)
            if packed:
                self.assertEqual(ours.hex(), packed.hex())
                known += 1
            self.assertEqual(capnp_canonical.unpack(ours), frame)
        self.assertEqual(known, 18)
        self.assertEqual(capnp_canonical.pack(b''), b'')
        self.assertEqual(capnp_canonical.pack(bytes(8 * 300)), bytes.fromhex('00ff002b'))
        for size in 1, 7, 9, 4095:
            with self.assertRaises(Error) as refused:
                capnp_canonical.pack(bytes(size))
            self.assertIs(refused.exception.number, Refusal.SEGMENT_IS_NOT_WHOLE_WORDS)

    def test_equal(self):
        module = capnp_canonical
        self.assertTrue(module.equal(SHARED, module.copy(SHARED)))
        self.assertFalse(module.equal(SHARED, ZERO_WORD))
        self.assertTrue(module.segments_equal([ZERO_WORD[8:]], [ZERO_WORD_FLAT]))
        self.assertTrue(module.words_equal(ZERO_WORD[8:], ZERO_WORD_FLAT))
        self.assertFalse(module.words_equal(ZERO_WORD_FLAT, SHARED_FLAT))
        # the error is that of the first message that is refused
        broken = bytes.fromhex('0000000001000000 0000000001000000')
        for one, other in (broken, SHARED), (SHARED, broken), (broken, b''):
            with self.assertRaises(Error) as refused:
                module.equal(one, other)
            self.assertIs(refused.exception.number, Refusal.MESSAGE_CONTAINS_OUT_OF_BOUNDS_POINTER)
            self.assertEqual(refused.exception.pointer, (0, 0))
        with self.assertRaises(Error) as refused:
            module.equal(SHARED, SHARED[:-1])
        self.assertIs(refused.exception.number, Refusal.TRUNCATED)


class Calls(unittest.TestCase):
    def test_buffers(self):
        spread = memoryview(bytes(it for byte in ZERO_WORD for it in (byte, 0)))[::2]
        for message in ZERO_WORD, bytearray(ZERO_WORD), memoryview(ZERO_WORD), memoryview(b'.' + ZERO_WORD)[1:], \
                array.array('Q', ZERO_WORD), spread:
            self.assertEqual(capnp_canonical.copy_flat(message), ZERO_WORD_FLAT)
        for message in 16, 'text', None:
            with self.assertRaisesRegex(TypeError, 'bytes-like'):
                capnp_canonical.copy_flat(message)

    def test_buffers_are_given_back(self):
        message = bytearray(ZERO_WORD)
        for call in capnp_canonical.copy_flat, capnp_canonical.digest, capnp_canonical.check, capnp_canonical.size, capnp_canonical.frame_size:
            call(message)
        capnp_canonical.segments_copy([message[8:]])
        with self.assertRaises(Error):
            capnp_canonical.copy(bytearray(b'.......'))
        message += b'.'  # it can't grow while it is lent

    def test_buffers_that_another_thread_changes(self):
        """The library reads a copy of what can change, so a call answers for bytes that were there at one time: here, the
        digest is that of one of two messages, between which another thread changes the buffer again and again."""
        count = 1 << 24
        one, other = [framed(b'\1\0\0\0' + (8 * count + 2).to_bytes(4, 'little') + byte * count) for byte in (b'1', b'2')]
        wanted = {capnp_canonical.digest(one), capnp_canonical.digest(other)}
        shared = mmap.mmap(-1, len(one))
        shared[:] = one
        has_ended = threading.Event()

        def change(buffer):
            while not has_ended.is_set():
                for message in other, one:
                    buffer[len(one) - count:] = message[-count:]

        for buffer in bytearray(one), shared:
            has_ended.clear()
            writer = threading.Thread(target=change, args=(buffer,))
            writer.start()
            try:
                for given in buffer, memoryview(buffer), memoryview(buffer).toreadonly():
                    self.assertIn(capnp_canonical.digest(given), wanted)
                    self.assertIn(capnp_canonical.words_digest(memoryview(given)[8:]), wanted)
                    self.assertTrue(capnp_canonical.is_canonical(given))
            finally:
                has_ended.set()
                writer.join()
        del given
        shared.close()

    def test_large_buffers(self):
        """Bytes that may change are copied before they are read: the frame at their front, and of a stream each table."""
        text = b'\1\0\0\0' + (8 * 8000 + 2).to_bytes(4, 'little') + b'1' * 8000
        frame, stream = framed(text), framed(text) * 3 + bytes(9)
        for whole in stream, bytearray(stream), memoryview(bytearray(stream)):
            self.assertEqual(capnp_canonical.copy(whole), frame)
            self.assertEqual(capnp_canonical.frame_size(whole), len(frame))
            self.assertIsNone(capnp_canonical.check(whole))
            self.assertEqual([bytes(it) for it in capnp_canonical.frames(memoryview(whole)[:-9])], [frame] * 3)
            with self.assertRaises(Error) as refused:
                list(capnp_canonical.frames(whole))
            self.assertEqual((refused.exception.number, refused.exception.place), (Refusal.TRUNCATED, (5, 3 * len(frame) + 8)))
        limits = Limits(words=1000)
        hidden = {'text': b'(id = 1, name = "Ada")' * 999, 'gzip': bytes.fromhex('1f8b08') + bytes(9999)}
        for given, number, what in (
            (frame, Refusal.MESSAGE_TOO_LONG, None), (frame[:-1], Refusal.MESSAGE_TOO_LONG, None),
            *((it, Refusal.TOO_MANY_SEGMENTS, name) for name, it in hidden.items()),
        ):
            for call in capnp_canonical.copy, capnp_canonical.digest, capnp_canonical.check, capnp_canonical.size, capnp_canonical.walk:
                said = []
                for whole in given, bytearray(given):
                    with self.assertRaises(Error) as refused:
                        call(whole, limits=limits)
                    said.append((str(refused.exception), refused.exception.looks_like, refused.exception.pointer))
                    self.assertEqual((refused.exception.number, refused.exception.looks_like), (number, what))
                self.assertEqual(said[0], said[1])
            self.assertFalse(capnp_canonical.is_canonical(bytearray(given), limits))
        cut = []
        for whole in frame[:-1], bytearray(frame[:-1]):
            with self.assertRaises(Error) as refused:
                capnp_canonical.frame_size(whole)
            cut.append((str(refused.exception), refused.exception.wanted))
        self.assertEqual(cut, [(str(Error(Refusal.TRUNCATED, wanted=len(frame))), len(frame))] * 2)

    def test_mmap(self):
        with tempfile.TemporaryFile() as file:
            file.write(ZERO_WORD + SHARED)
            file.flush()
            with mmap.mmap(file.fileno(), 0, access=mmap.ACCESS_READ) as stream:
                self.assertEqual(capnp_canonical.copy_flat(stream), ZERO_WORD_FLAT)
                frames = capnp_canonical.frames(stream)
                self.assertEqual([it.tobytes() for it in frames], [ZERO_WORD, SHARED])
            # a frame that is still held would keep it open
            with mmap.mmap(file.fileno(), 0, access=mmap.ACCESS_READ) as stream:
                for frame in capnp_canonical.frames(stream):
                    capnp_canonical.copy_flat(frame)
                    frame.release()

    @unittest.skipUnless(importlib.util.find_spec('numpy'), 'no numpy')
    def test_numpy(self):
        import numpy
        for kind in 'uint8', '<u8':
            whole = numpy.frombuffer(ZERO_WORD, dtype=kind)
            self.assertEqual(capnp_canonical.copy_flat(whole), ZERO_WORD_FLAT)
        to = numpy.zeros(32, dtype='uint8')
        self.assertEqual(capnp_canonical.copy_flat_into(to, whole), len(ZERO_WORD_FLAT))
        self.assertEqual(to.tobytes(), ZERO_WORD_FLAT + bytes(8))

    def test_bytes_behind_cost_nothing(self):
        stream = memoryview(bytearray(ZERO_WORD) + bytes(64 << 20))
        start = time.process_time()
        for _ in range(1000):
            capnp_canonical.copy_flat(stream)
            capnp_canonical.frame_size(stream)
        self.assertLess(time.process_time() - start, 1)

    def test_into(self):
        to = bytearray(b'.' * 40)
        self.assertEqual(capnp_canonical.copy_flat_into(to, ZERO_WORD), 24)
        self.assertEqual(to, ZERO_WORD_FLAT + b'.' * 16)
        self.assertEqual(capnp_canonical.copy_into(to, ZERO_WORD), 32)
        with self.assertRaises(Error) as refused:
            capnp_canonical.copy_flat_into(memoryview(to)[:23], ZERO_WORD)
        self.assertEqual((refused.exception.number, refused.exception.wanted), (Refusal.NO_ROOM, 24))
        self.assertEqual(str(refused.exception), 'NoRoom: the buffer is too small, and 24 bytes are wanted')
        with self.assertRaises(BufferError):
            capnp_canonical.copy_into(b'no buffer to write to', ZERO_WORD)
        whole = bytearray(ZERO_WORD + bytes(40))
        for call in capnp_canonical.copy_into, capnp_canonical.copy_flat_into:
            with self.assertRaisesRegex(ValueError, 'overlaps'):
                call(memoryview(whole)[39:], memoryview(whole)[:40])
        self.assertEqual(whole, ZERO_WORD + bytes(40))
        self.assertEqual(capnp_canonical.copy_flat_into(memoryview(whole)[40:], memoryview(whole)[:40]), 24)

    def test_words_beside_a_frame(self):
        """Canonical words of a struct of two numbers, 2^32 and 42, passed as a frame. They are read as a frame of two words, which
        is a struct of the number 42."""
        words = bytes.fromhex('0000000002000000 0000000001000000 2a00000000000000')
        self.assertEqual(capnp_canonical.words_copy(words), words)
        self.assertEqual(capnp_canonical.copy_flat(words), bytes.fromhex('0000000001000000 2a00000000000000'))

    def test_segments(self):
        words = ZERO_WORD[8:]
        self.assertEqual(capnp_canonical.segments_copy_flat([words]), ZERO_WORD_FLAT)
        self.assertEqual(capnp_canonical.segments_copy_flat([memoryview(words), b'']), ZERO_WORD_FLAT)
        for segments, name in ([], 'InvalidSegmentId'), ([words[:28]], 'SegmentIsNotWholeWords'):
            with self.assertRaises(Error) as refused:
                capnp_canonical.segments_copy(segments)
            self.assertEqual(refused.exception.name, name)

    def test_pointers_of_refusals(self):
        """The rows of places.txt: for each, a call that reads the message in that way."""
        calls = capnp_canonical.validate, capnp_canonical.copy_flat, capnp_canonical.size
        by_segments = capnp_canonical.segments_validate, capnp_canonical.segments_copy_flat, capnp_canonical.segments_size
        for line in PLACES.read_text().splitlines():
            if line.startswith('#'):
                continue
            name, digits, reading, nesting, words, answer, segment, word = line.split()
            frame, limits = bytes.fromhex(digits), Limits(int(nesting), int(words))
            wanted = None if answer == 'Done' else (answer, (int(segment), int(word)))
            segments = list(segments_in(frame))
            for call, message in (calls[int(reading)], frame), (by_segments[int(reading)], segments):
                if message is frame and int(words) < sum(map(len, segments)) // 8:
                    continue
                found = None
                try:
                    call(message, limits)
                except Error as error:
                    found = error.name, error.pointer
                    self.assertIn(f'{error.name} at segment {segment}, word {word}: ', str(error))
                with self.subTest(name, reading=reading):
                    self.assertEqual(found, wanted)

    def test_refusals_of_no_pointer(self):
        for call in capnp_canonical.copy, capnp_canonical.validate, capnp_canonical.size, capnp_canonical.check:
            with self.assertRaises(Error) as refused:
                call(ZERO_WORD[:20])
            self.assertIsNone(refused.exception.pointer)
        with self.assertRaises(Error) as refused:
            capnp_canonical.copy_flat_at(ZERO_WORD, (7,))
        self.assertIsNone(refused.exception.pointer)
        error = pickle.loads(pickle.dumps(Error(55, pointer=(2, 17))))
        self.assertEqual((error.pointer, error.at(3, 40).pointer), ((2, 17), (2, 17)))
        self.assertEqual(str(error), 'MessageContainsOutOfBoundsPointer at segment 2, word 17: a pointer points outside its segment')

    def test_copies_that_are_longer_than_their_message(self):
        self.assertEqual(capnp_canonical.copy_flat(SHARED), SHARED_FLAT)
        self.assertEqual(capnp_canonical.copy(SHARED), framed(SHARED_FLAT))
        self.assertEqual(capnp_canonical.segments_copy_flat([SHARED[8:]]), SHARED_FLAT)
        self.assertEqual(capnp_canonical.segments_copy([SHARED[8:]]), framed(SHARED_FLAT))

    def test_limits(self):
        self.assertEqual(capnp_canonical.copy_flat(ZERO_WORD, Limits(2, 4)), ZERO_WORD_FLAT)
        for message, limits, name in (
            (ZERO_WORD, Limits(words=3), 'MessageTooLong'),
            (ZERO_WORD, Limits(nesting=0), 'MessageIsTooDeeplyNestedOrContainsCycles'),
            (SHARED, Limits(words=6), 'ReadLimitExceeded'),
        ):
            with self.assertRaises(Error) as refused:
                capnp_canonical.copy(message, limits)
            self.assertEqual(refused.exception.name, name)
        for numbers in {'words': -1}, {'words': 2**64}, {'nesting': 2**31}:
            with self.assertRaises(ValueError):
                Limits(**numbers)
        for numbers in {'words': None}, {'words': 5.5}, {'nesting': '64'}:
            with self.assertRaisesRegex(TypeError, f'{next(iter(numbers))} is a number'):
                Limits(**numbers)
        buffer = bytearray(ZERO_WORD)
        for call in capnp_canonical.copy, capnp_canonical.check, capnp_canonical.is_canonical, capnp_canonical.size:
            with self.assertRaisesRegex(TypeError, 'class Limits'):
                call(buffer, (64, 8))
            # a buffer that was still lent could not be extended
            buffer.append(0)

    def test_no_number_of_levels_overflows_the_stack(self):
        # each of these calls would take 190 MB of stack, and end the process
        words, last = chain(300_000), chain(1024)
        frame = framed(words)
        for nesting in 2**31 - 1, 300_000, 1025:
            limits = Limits(nesting, 2**64 - 1)
            for call, given in (
                (capnp_canonical.copy, frame), (capnp_canonical.copy_flat, frame), (capnp_canonical.digest, frame),
                (capnp_canonical.check, frame), (capnp_canonical.size, frame), (capnp_canonical.validate, frame),
                (capnp_canonical.words_copy, words), (capnp_canonical.words_digest, words),
            ):
                with self.assertRaises(Error) as refused:
                    call(given, limits)
                self.assertIn(refused.exception.number, (57, 58))
                self.assertEqual(refused.exception.pointer, (0, 1024))
            for call in capnp_canonical.copy_flat_at, capnp_canonical.digest_at, capnp_canonical.size_at:
                with self.assertRaises(Error) as refused:
                    call(frame, [0], limits)
                self.assertIn(refused.exception.number, (57, 58))
            self.assertFalse(capnp_canonical.is_canonical(frame, limits))
            walk = capnp_canonical.walk(frame, 2000, limits)
            self.assertEqual((walk.count, walk.refused.pointer), (1024, (0, 1024)))
            self.assertEqual(capnp_canonical.words_copy(last, limits), last)
        with self.assertRaises(Error):
            capnp_canonical.words_copy(last, Limits(1023))
        self.assertEqual(capnp_canonical.MAX_NESTING, 1024)

    def test_faults(self):
        fault = capnp_canonical.check(ZERO_WORD)
        self.assertEqual(fault, Fault(reason=9, segment=0, word=3))
        self.assertEqual(str(fault), 'a data section whose last word is zero at segment 0, word 3')
        self.assertIs(fault.reason, Reason.DATA_SECTION)
        self.assertIsNone(capnp_canonical.check(capnp_canonical.copy(ZERO_WORD)))

    def test_faults_have_no_truth_value(self):
        with self.assertRaisesRegex(TypeError, 'is_canonical'):
            if capnp_canonical.check(ZERO_WORD):
                self.fail('taken for yes')
        self.assertIs(capnp_canonical.is_canonical(ZERO_WORD), False)
        self.assertIs(capnp_canonical.is_canonical(capnp_canonical.copy(ZERO_WORD)), True)
        self.assertIs(capnp_canonical.is_canonical(b'no frame'), False)

    def test_size(self):
        self.assertEqual(capnp_canonical.size(SHARED), Size(words=6, capabilities=0))

    def test_frames_of_a_stream(self):
        stream = ZERO_WORD + SHARED
        self.assertEqual(list(capnp_canonical.frames(stream)), [ZERO_WORD, SHARED])
        self.assertEqual(capnp_canonical.frame_size(stream), len(ZERO_WORD))
        self.assertEqual(list(capnp_canonical.frames(b'')), [])
        frames = capnp_canonical.frames(stream[:-1])
        self.assertEqual(next(frames), ZERO_WORD)
        with self.assertRaises(Error) as refused:
            next(frames)
        self.assertEqual(refused.exception.name, 'Truncated')
        self.assertEqual(refused.exception.place, (2, 40))
        self.assertEqual(str(refused.exception), 'message 2 at byte 40: Truncated: the bytes end inside a frame or a packed word')

    def test_size_of_a_frame_that_is_not_whole(self):
        """Whoever reads just what is wanted has the frame after its table."""
        many = b''.join(it.to_bytes(4, 'little') for it in (2, 1, 0, 70000)) + bytes(8 * 70001)
        # its first bytes may be those of packed messages
        most = (0x110).to_bytes(4, 'little') + bytes(4 * 0x111)
        for frame, sizes in (ZERO_WORD, [8, 40]), (many, [8, 16, len(many)]), (most, [8, len(most)]):
            held = [1]
            while held[-1] < len(frame):
                with self.assertRaises(Error) as refused:
                    capnp_canonical.frame_size(frame[:held[-1]])
                self.assertIs(refused.exception.number, Refusal.TRUNCATED)
                held.append(refused.exception.wanted)
            self.assertEqual(held[1:], sizes)
            self.assertEqual(capnp_canonical.frame_size(frame), len(frame))
        with self.assertRaises(Error) as refused:
            capnp_canonical.frame_size(b'')
        self.assertEqual((refused.exception.number, refused.exception.wanted), (Refusal.NO_MESSAGE, 0))

    def test_errors(self):
        error = Error(19)
        self.assertIsInstance(error, ValueError)
        self.assertEqual((str(error), error.name, error.number), ('Truncated: the bytes end inside a frame or a packed word', 'Truncated', 19))
        self.assertIs(error.number, Refusal.TRUNCATED)
        again = pickle.loads(pickle.dumps(error.at(2, 40)))
        self.assertEqual((again.number, again.place, str(again)), (19, (2, 40), str(error.at(2, 40))))
        self.assertEqual(Error(1000000).name, '')
        for number in Refusal:
            self.assertEqual(Error(number).name.lower(), number.name.replace('_', '').lower())

    def test_what_refused_bytes_look_like(self):
        many = 'TooManySegments: the frame has more than 512 segments; they look like '
        for digits, wanted in (
            ('1f8b080000000000', 'gzip'), ('28b52ffd24009900', 'zstd'), ('425a683931415926', 'bzip2'),
            ('fd377a585a000004', 'xz'), ('504b030414000000', 'a zip archive'), ('2869642031290a20', 'text'),
            ('fcffffff00000000', 'raw canonical words'), ('10021001012a0000', 'packed messages'),
        ):
            for refused in (capnp_canonical.copy, capnp_canonical.frame_size):
                with self.assertRaises(Error) as error:
                    refused(bytes.fromhex(digits))
                self.assertEqual(str(error.exception), many + wanted)

    def test_threads(self):
        with concurrent.futures.ThreadPoolExecutor(8) as pool:
            copies = set(pool.map(capnp_canonical.copy_flat, [SHARED] * 2000))
        self.assertEqual(copies, {SHARED_FLAT})

    def test_version(self):
        self.assertEqual(capnp_canonical.version() // 10000, 1)
        self.assertEqual(tuple(map(int, capnp_canonical.__version__.split('.'))) >= (1, 1, 0), True)

    @unittest.skipUnless(shutil.which('cc'), 'no cc')
    def test_other_libraries(self):
        """A library of another version isn't loaded, and the error says which it is."""
        with tempfile.TemporaryDirectory() as folder:
            source, library = pathlib.Path(folder) / 'other.c', pathlib.Path(folder) / 'libcapnp_canonical.so'
            for number, found in (10000, 'has version 1.0.0'), (10012, 'has version 1.0.12'), (20000, 'has version 2.0.0'), (None, 'is another library'):
                source.write_text('int nothing;' if number is None else f'unsigned capnp_canonical_version(void) {{ return {number}; }}')
                subprocess.run(['cc', '-shared', '-fPIC', '-o', library, source], check=True)
                run = subprocess.run([sys.executable, '-B', '-c', 'import capnp_canonical'], env={**os.environ, LIBRARY: str(library)}, stderr=subprocess.PIPE, encoding='utf-8')
                self.assertEqual(run.returncode, 1)
                last = run.stderr.splitlines()[-1]
                self.assertTrue(last.startswith(f'ImportError: {library} {found}: capnp_canonical needs 1.1.0 or a later version 1; '), last)


class Packed(unittest.TestCase):
    """The packed bytes of packed.txt, and cases that this file can't express."""

    def test_elements(self):
        rows = [line.split() for line in PACKED.read_text().splitlines() if not line.startswith('#')]
        self.assertEqual(len(rows), 22)
        for name, digits, wanted in rows:
            packed = bytes.fromhex(digits.strip('-'))
            for given in packed, bytearray(packed), memoryview(b'.' + packed)[1:]:
                self.assertEqual(answer(bytes.hex, capnp_canonical.unpack, given), wanted.strip('-'), name)

    def test_messages(self):
        packed = bytes.fromhex('10021001012a') * 3
        frames = list(capnp_canonical.frames(capnp_canonical.unpack(packed)))
        words = bytes.fromhex('0000000001000000 2a00000000000000')
        self.assertEqual([capnp_canonical.copy_flat(it) for it in frames], [words] * 3)

    def test_into(self):
        to = bytearray(b'.' * 20)
        self.assertEqual(capnp_canonical.unpack_into(to, bytes.fromhex('510803023119aa01')), 16)
        self.assertEqual(to, bytes.fromhex('0800000003000200 19000000aa010000') + b'.' * 4)
        self.assertEqual(capnp_canonical.unpack_into(bytearray(), b''), 0)
        for room in 0, 15:
            to = bytearray(b'.' * room)
            with self.assertRaises(Error) as refused:
                capnp_canonical.unpack_into(to, bytes.fromhex('510803023119aa01'))
            self.assertEqual((refused.exception.number, refused.exception.wanted), (Refusal.NO_ROOM, 16))
            self.assertEqual(to, b'.' * room)

    def test_in_place(self):
        """A buffer that overlaps the packed bytes is refused, and nothing is written."""
        packed = bytes.fromhex('00ff') * 2
        buffer = bytearray(4096)
        for at in 0, 1, 4000:
            buffer[at:at + len(packed)] = packed
            before = bytes(buffer)
            with self.assertRaises(ValueError):
                capnp_canonical.unpack_into(buffer, memoryview(buffer)[at:at + len(packed)])
            self.assertEqual(buffer, before)
        apart = bytearray(packed + bytes(4096))
        self.assertEqual(capnp_canonical.unpack_into(memoryview(apart)[len(packed):], memoryview(apart)[:len(packed)]), 4096)
        # nothing overlaps an empty buffer
        self.assertEqual(capnp_canonical.unpack_into(apart, memoryview(apart)[2:2]), 0)
        with self.assertRaises(Error) as refused:
            capnp_canonical.unpack_into(memoryview(buffer)[1:1], memoryview(buffer)[:2])
        self.assertIs(refused.exception.number, Refusal.NO_ROOM)

    def test_limit(self):
        packed = bytes.fromhex('00ff') * 100
        self.assertEqual(capnp_canonical.unpack(packed, 25600), bytes(8 * 25600))
        for given, words in (packed, 25599), (bytes.fromhex('00ff') * 40000, 8388608):
            with self.assertRaises(Error) as refused:
                capnp_canonical.unpack(given, words)
            self.assertIs(refused.exception.number, Refusal.MESSAGE_TOO_LONG)
        with self.assertRaises(ValueError):
            capnp_canonical.unpack(packed, -1)
        with self.assertRaisesRegex(TypeError, 'bytes-like'):
            capnp_canonical.unpack('text')


class Raw:
    """A file that returns a few bytes at a time, like a socket."""

    def __init__(self, whole, piece):
        self.whole, self.piece, self.given = whole, piece, 0

    def read(self, size):
        part = self.whole[self.given:self.given + min(size, self.piece)]
        self.given += len(part)
        return part


class FramesOfFiles(unittest.TestCase):
    STREAM = (ZERO_WORD + SHARED) * 50

    def test_pieces(self):
        for file in io.BytesIO(self.STREAM), Raw(self.STREAM, 1), Raw(self.STREAM, 7), Raw(self.STREAM, 10**6):
            self.assertEqual([bytes(it) for it in capnp_canonical.frames(file)], [ZERO_WORD, SHARED] * 50)
        self.assertEqual(list(capnp_canonical.frames(io.BytesIO())), [])

    def test_cut(self):
        for size in 1, 3, 5, 39:
            found = []
            with self.assertRaises(Error) as refused:
                found.extend(capnp_canonical.frames(Raw(self.STREAM + ZERO_WORD[:size], 3)))
            self.assertEqual(refused.exception.place, (101, len(self.STREAM)))
            self.assertIs(refused.exception.number, Refusal.TRUNCATED)
            self.assertEqual(len(found), 100)

    def test_one_name_however_the_bytes_arrive(self):
        for piece in 1, 2, 3, 4, 5:
            with self.assertRaises(Error) as refused:
                list(capnp_canonical.frames(Raw(bytes.fromhex('0100002a01'), piece)))
            self.assertIs(refused.exception.number, Refusal.TOO_MANY_SEGMENTS)

    def test_a_table_that_announces_more_than_comes(self):
        """Memory is taken for what is there, and not for 32 GiB."""
        for file in io.BytesIO(bytes.fromhex('00000000ffffffff2a')), Raw(bytes.fromhex('00000000ffffffff2a'), 3):
            with self.assertRaises(Error) as refused:
                next(capnp_canonical.frames(file, words=2**64 - 1))
            self.assertIs(refused.exception.number, Refusal.TRUNCATED)

    def test_large(self):
        words = 100_000
        large = bytes(4) + words.to_bytes(4, 'little') + bytes(8 * words)
        found = list(capnp_canonical.frames(Raw(ZERO_WORD + large + ZERO_WORD, 5000)))
        self.assertEqual(found, [ZERO_WORD, large, ZERO_WORD])
        file = Raw(large, 5000)
        with self.assertRaises(Error) as refused:
            next(capnp_canonical.frames(file, words=words - 1))
        self.assertIs(refused.exception.number, Refusal.MESSAGE_TOO_LONG)
        self.assertLessEqual(file.given, 5000)

    def test_a_frame_is_given_as_soon_as_it_is_there(self):
        read, write = os.pipe()
        with open(read, 'rb') as file, open(write, 'wb', buffering=0) as other:
            frames = capnp_canonical.frames(file)
            for message in ZERO_WORD, SHARED, ZERO_WORD:
                other.write(message)
                self.assertEqual(next(frames), message)

    def test_other_files(self):
        with self.assertRaisesRegex(TypeError, 'open for text'):
            list(capnp_canonical.frames(io.StringIO('text')))
        with self.assertRaises(TypeError):
            list(capnp_canonical.frames(7))


class PackedFrames(unittest.TestCase):
    """The packed streams of streams.txt, and cases that this file can't express."""

    def test_elements(self):
        rows = [line.split() for line in STREAMS.read_text().splitlines() if not line.startswith('#')]
        self.assertEqual(len(rows), 18)
        for name, packed, wanted, end in rows:
            stream = bytes.fromhex(packed.replace(',', '').strip('-'))
            for given in stream, io.BytesIO(stream), Raw(stream, 1), Raw(stream, 7):
                found, said, place = [], 'Done', None
                try:
                    for frame in capnp_canonical.packed_frames(given):
                        found.append(frame.hex())
                except Error as error:
                    said, place = error.name, error.place
                self.assertEqual((','.join(found) or '-', said), (wanted, end), name)
                if place:
                    self.assertEqual(place, (len(found) + 1, sum(map(len, found)) // 2))

    def test_a_frame_is_given_as_soon_as_it_is_there(self):
        """Also if the count after its last word hasn't come."""
        read, write = os.pipe()
        message = bytes.fromhex('0000000001000000 0000000000000000')
        with open(read, 'rb') as file, open(write, 'wb', buffering=0) as other:
            frames = capnp_canonical.packed_frames(file)
            for packed in '1001 00', '00 1001 0000', '1001 00':
                other.write(bytes.fromhex(packed))
                self.assertEqual(next(frames), message)
            other.write(bytes(1))
            other.close()
            self.assertEqual(list(frames), [])

    def test_large(self):
        words = 100_000
        large = bytes(4) + words.to_bytes(4, 'little') + bytes(8 * words)
        packed = bytes.fromhex('70a08601') + b'\0\xff' * (words // 256) + bytes([0, words % 256 - 1])
        self.assertEqual(list(capnp_canonical.packed_frames(packed * 2)), [large] * 2)
        for limit, wanted in (words, large.hex()), (words - 1, 'MessageTooLong'):
            frames = capnp_canonical.packed_frames(Raw(packed, 5), limit)
            self.assertEqual(answer(memoryview.hex, next, frames), wanted)

    def test_a_table_that_announces_more_than_comes(self):
        """Memory is taken for what is there, and not for 32 GiB."""
        with self.assertRaises(Error) as refused:
            next(capnp_canonical.packed_frames(bytes.fromhex('f0ffffffff 0000'), words=2**64 - 1))
        self.assertIs(refused.exception.number, Refusal.TRUNCATED)

    def test_other_files(self):
        with self.assertRaisesRegex(TypeError, 'open for text'):
            list(capnp_canonical.packed_frames(io.StringIO('text')))
        with self.assertRaises(TypeError):
            list(capnp_canonical.packed_frames(7))


class Places(unittest.TestCase):
    """How the module finds the library."""

    def setUp(self):
        self.folder = pathlib.Path(tempfile.mkdtemp())
        self.addCleanup(shutil.rmtree, self.folder)
        self.module = self.folder / 'python'
        self.package = self.module / 'capnp_canonical'
        shutil.copytree(
            pathlib.Path(capnp_canonical.__file__).parent, self.package, ignore=shutil.ignore_patterns('__pycache__', '*.so'))

    def run_with(self, before='', **more):
        kept = {name: value for name, value in os.environ.items() if name not in (LIBRARY, 'LD_LIBRARY_PATH')}
        return subprocess.run(
            [sys.executable, '-c', f'{before}import capnp_canonical; print(capnp_canonical.version())'],
            env={**kept, 'PYTHONPATH': str(self.module), **more},
            stdout=subprocess.PIPE, stderr=subprocess.PIPE, text=True,
        )

    def require_found(self, **more):
        self.assertEqual(self.run_with(**more).stdout, f'{capnp_canonical.version()}\n')

    def copy_to(self, folder):
        folder.mkdir(exist_ok=True)
        shutil.copy(capnp_canonical._library.library._name, folder / 'libcapnp_canonical.so')

    def test_in_the_package(self):
        self.copy_to(self.package)
        self.require_found()

    def test_beside_the_package(self):
        self.copy_to(self.module)
        self.require_found()

    def test_in_lib(self):
        self.copy_to(self.folder / 'lib')
        self.require_found()

    def test_by_the_environment(self):
        self.copy_to(self.folder / 'elsewhere')
        self.require_found(**{LIBRARY: str(self.folder / 'elsewhere/libcapnp_canonical.so')})

    def test_nowhere(self):
        self.assertIn('nowhere.so', self.run_with(**{LIBRARY: 'nowhere.so'}).stderr)

    def test_a_python_without_the_calls_of_cpython(self):
        """PyPy says what is missing, before the library is looked for."""
        said = self.run_with('import ctypes; del ctypes.pythonapi; ').stderr.splitlines()[-1]
        self.assertEqual(said, 'ImportError: capnp_canonical needs CPython: this Python has no ctypes.pythonapi')


if __name__ == '__main__':
    unittest.main()
