"""Builds, writes, reads and audits messages of many segments under a limit on the address space of the process. The memory of
these calls comes from the global allocator, which a test program can't make refuse a request."""
import resource
import subprocess

import frames
from growth import audited
from program import LIMIT, answers
from trees import segments_of, value

REFUSED = 'AllocationFailed'
UNWRITTEN = 'WriteFailed'
# The number of bytes that the program holds and frees before it answers, so that there is memory for the answer.
HELD = 1 << 24
# The list of segments takes 16 bytes for each. So for one of the limits, a step apart, only that list is refused.
COUNT = 1 << 15
STEP = 1 << 18
# A message of OBJECTS objects of SIZE bytes each is written and read in pieces that are larger than these steps.
OBJECTS, SIZE = 3, 1 << 19
SMALL_STEP = 1 << 17
# The traversal limit, in words, for a message that is written as a frame.
BUDGET = 1 << 23
# The number of words of an audited message. The audit takes a byte for each, and eight if it is a pointer.
AUDITED = 1 << 19


def answered(program, line, most):
    """The answer to a line, split at spaces, with an address space of `most` bytes; None if the program can't run in that."""
    try:
        run = subprocess.run(
            program,
            input=line + '\n',
            stdout=subprocess.PIPE,
            stderr=subprocess.DEVNULL,
            timeout=LIMIT,
            encoding='latin-1',
            preexec_fn=lambda: resource.setrlimit(resource.RLIMIT_AS, (most, most)),
        )
    except (OSError, subprocess.SubprocessError):
        return None
    return None if run.returncode else run.stdout.rstrip('\n').split(' ')


def is_built(set_, refused, words):
    """Whether these are the words of a list of pointers with the first `set_` ones set, and a request was refused exactly if not
    all are."""
    found = value(segments_of(words)) if words else None
    wanted = [('list', 2, 8, i.to_bytes(8, 'little')) if i < set_ else None for i in range(COUNT)]
    return (set_ == COUNT) == (refused == 0) and (found == ('pointers', wanted) or set_ == 0 and found is None)


def output(runs, rows, counts):
    """Requests the segments of a message under each limit, from one at which the program can't answer up to one at which nothing
    is refused. Checks that a refusal has the right name and leaves the message unchanged."""
    found = set()
    most = HELD
    while (COUNT, 'ok') not in found and most < 4 * HELD:
        most += STEP
        run = answered(runs, f'segments {COUNT} {HELD}', most)
        if run is None:
            continue
        set_, refused, answer, words = int(run[0]), int(run[1]), run[2], run[3]
        found.add((set_, answer))
        counts.told(answer in ('ok', REFUSED) and is_built(set_, refused, words), 'with little memory', most, set_, refused, answer)
        if words:
            audited(rows, [(f'{most} bytes of memory', words)], counts)
    counts.told((COUNT, REFUSED) in found, 'the list of segments was never the only refused request', found)
    counts.told((COUNT, 'ok') in found, 'each run had a refusal', found)


def data_of(i, size):
    return i.to_bytes(8, 'little')[:size] + bytes(max(size - 8, 0))


def canonical(count, set_, size):
    """The canonical words of a list of `count` pointers. The first `set_` ones lead to data of this size, the others are null."""
    words = (size + 7) // 8
    pointers = [(count - 1 - i + i * words) << 2 | 1 | (2 | size << 3) << 32 if i < set_ else 0 for i in range(count)]
    table = b''.join(it.to_bytes(8, 'little') for it in [1 | (6 | count << 3) << 32, *pointers])
    return table + b''.join(data_of(i, size).ljust(8 * words, b'\0') for i in range(set_))


def is_framed(frame, count, set_, size):
    """Whether a frame holds a list of `count` pointers. The first `set_` ones must lead to data of this size."""
    data = [('list', 2, size, data_of(i, size)) if i < set_ else None for i in range(count)]
    segments = frames.parted(bytes.fromhex(frame))
    return frames.framed(segments) == frame and value(segments) == ('pointers', data)


def cost(count, set_, size):
    """The number of words charged for reading the root pointer, the list with its landing pad, and each data with its own."""
    return 1 + (count + 1 if count else 0) + set_ * ((size + 7) // 8 + 1)


def is_handled(run, count, size):
    """Whether the answer is right for a message that is written as a frame, read back and made canonical. Up to the first step
    that is refused because memory runs out, everything must be right; the steps after it must have left nothing."""
    set_, refused, written, flat, read, copied, left, frame, copy = run
    set_, left, frame, copy = int(set_), int(left), frame[1:], copy[1:]
    if (set_ == count) != (refused == '0') or written not in ('ok', UNWRITTEN, REFUSED):
        return False
    if written != 'ok':
        return (flat, read, copied, left, copy) == ('-', '-', '-', BUDGET, '')
    if flat != 'ok' or not is_framed(frame, count, set_, size) or read not in ('ok', REFUSED):
        return False
    if read != 'ok':
        return (copied, left, copy) == ('-', BUDGET, '')
    if copied == REFUSED:
        return (left, copy) == (BUDGET - 1, '')
    whole = frames.framed([canonical(count, set_, size)])
    return left == BUDGET - cost(count, set_, size) and (copied == UNWRITTEN and whole.startswith(copy) or (copied, copy) == ('ok', whole))


def written(runs, counts):
    """Checks that a message means the same after it was written as a frame and read back, and that its canonical copy is right.
    With ample memory, for several numbers of segments up to one too many; and with little memory."""
    lines = [(count, size) for count in (0, 1, 2, 3, 31, 32, 509, 510) for size in (8, 20)]
    for (count, size), answer in zip(lines, answers(runs, [f'framed {count} {size} 0' for count, size in lines])):
        run = answer.split(' ')
        counts.told(run[2:6] == ['ok'] * 4 and is_handled(run, count, size), 'another frame', count, size, answer)
    for answer in answers(runs, ['framed 511 8 0']):
        counts.told(answer == f'511 0 TooManySegments - - - {BUDGET} - -', 'a frame of 513 segments', answer)
    found = set()
    for most in range(HELD, 3 * HELD, SMALL_STEP):
        run = answered(runs, f'framed {OBJECTS} {SIZE} {HELD}', most)
        if run is None or run[0] != str(OBJECTS):
            continue
        found.add((run[2], run[4], run[5]))
        counts.told(is_handled(run, OBJECTS, SIZE), 'with little memory', most, *run)
    for steps in ((UNWRITTEN, '-', '-'), ('ok', REFUSED, '-'), ('ok', 'ok', REFUSED), ('ok', 'ok', UNWRITTEN), ('ok', 'ok', 'ok')):
        counts.told(steps in found, 'no run with little memory ended like this', steps, found)


def audits(rows, counts):
    """Checks that the audit of a long list of null pointers is refused with the right name if memory runs out, and otherwise
    passes."""
    line = (1 | (6 | AUDITED << 3) << 32).to_bytes(8, 'little').hex() + '00' * 8 * AUDITED
    found = set()
    most = HELD
    while '1' not in found and most < 8 * HELD:
        most += STEP
        run = answered([*rows, 'audits'], line, most)
        if run is not None:
            found.add(run[0])
            counts.told(run in (['1'], [REFUSED]), 'audited with little memory', most, *run)
    counts.told(found == {'1', REFUSED}, 'not both answers with little memory', found)
