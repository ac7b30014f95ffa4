"""Makes runs whose standard input or output fails or ends early, and runs with little memory. The program must end with an exit
status and the name of the refusal, not by a signal. It must take memory for the bytes that came, not for what a table
announces."""
import os
import pathlib
import resource
import subprocess
import tempfile

# 1,000 messages with a null root. Each takes 16 bytes, and so does its answer.
NULL = bytes.fromhex('0000000001000000') + bytes(8)
MANY = NULL * 1000
FOLDER = pathlib.Path(__file__).resolve().parent
# item.bin is the schema of the cases in conforming.jsonl.
TYPED = ['validate', '--schema', f'{FOLDER / "item.bin"}:Item']
FORMS = ['canon'], ['canon', '--flat'], ['canon', '--pack'], ['canon', '--hex'], ['check'], ['size'], ['digest'], ['validate'], TYPED, ['show'], ['show', '--json']
FULL = 2, 'capnp_canon: write error: No space left on device\n'
# After a closed pipe nothing is printed: the reader closed it.
LEFT = 2, ''
IS_FOLDER = 'message 1 at byte 0: refused ReadFailed: Is a directory\n'
# The number of words of a message that is a list of bytes without a zero.
WORDS = 1 << 17
HELD, STEP, MOST = 1 << 21, 1 << 12, 1 << 26
# The number of bytes that a run may take in addition to its requests, because the system needs some.
ROOM = 1 << 20


def ended(program, args, given, taken):
    """The status and standard error of a run between two files."""
    run = subprocess.run([program.path, *args], stdin=given, stdout=taken, stderr=subprocess.PIPE, timeout=program.limit)
    return run.returncode, run.stderr.decode()


def input_of(data):
    """A file with this content, to be read from its start."""
    given = tempfile.TemporaryFile()
    given.write(data)
    given.seek(0)
    return given


def full(program, args, data):
    """Runs the program with a full disk as its output."""
    with input_of(data) as given, open('/dev/full', 'wb') as taken:
        return ended(program, args, given, taken)


def closed(program, args, data):
    """Runs the program with a closed pipe as its output."""
    reading, writing = os.pipe()
    os.close(reading)
    with input_of(data) as given, os.fdopen(writing, 'wb', buffering=0) as taken:
        return ended(program, args, given, taken)


def front(program, args, data, count):
    """Runs the program into a pipe that is closed after `count` bytes. Returns these, the exit status and standard error."""
    with input_of(data) as given:
        run = subprocess.Popen([program.path, *args], stdin=given, stdout=subprocess.PIPE, stderr=subprocess.PIPE)
        taken = run.stdout.read(count)
        run.stdout.close()
        error = run.stderr.read().decode()
        run.stderr.close()
    return taken, run.wait(program.limit), error


def unread(program, args):
    """Runs the program with a folder as its input."""
    folder = os.open(FOLDER, os.O_RDONLY)
    try:
        return ended(program, args, folder, subprocess.DEVNULL)
    finally:
        os.close(folder)


def shut(program, args):
    """Runs the program without standard input."""
    run = subprocess.run([program.path, *args], stdout=subprocess.DEVNULL, stderr=subprocess.PIPE, timeout=program.limit,
                         preexec_fn=lambda: os.close(0))
    return run.returncode, run.stderr.decode()


def of_files(program, counts):
    """Runs with file arguments: a full disk, a closed pipe, and a limit on the number of open files."""
    with tempfile.TemporaryDirectory(prefix='streams-') as folder:
        names = [f'{folder}/{number}' for number in range(40)]
        for name in names:
            pathlib.Path(name).write_bytes(MANY)
        for args in FORMS:
            counts.told(full(program, [*args, *names], b'') == FULL, 'a full disk, of files', args)
            counts.told(closed(program, [*args, *names], b'') == LEFT, 'a closed pipe, of files', args)
            few = {'preexec_fn': lambda: resource.setrlimit(resource.RLIMIT_NOFILE, (16, 16))}
            counts.told(program.run([*args, *names], b'', **few)[1:] == (0, ''), 'few files are open at a time', args)
        got = program.run(['size', names[0], folder, names[1]], b'')
        lines = f'{names[0]}: words 0 caps 0\n'.encode() * 1000
        counts.told(got == (lines, 2, f'capnp_canon: {folder}: {IS_FOLDER}'), 'a folder after a file', got)


def failing(program, counts):
    for args in FORMS:
        counts.told(full(program, args, MANY) == FULL, 'a full disk', args)
        counts.told(full(program, args, b'') == (0, ''), 'nothing to a full disk', args)
        counts.told(full(program, args, NULL + b'\0') == FULL, 'a cut stream to a full disk', args)
        counts.told(closed(program, args, MANY) == LEFT, 'a closed pipe', args)
        counts.told(unread(program, args) == (2, f'capnp_canon: {IS_FOLDER}'), 'a folder as the input', args)
        counts.told(unread(program, [*args, '-']) == (2, f'capnp_canon: -: {IS_FOLDER}'), 'a folder as the input, by name', args)
        closed_input = 'capnp_canon: message 1 at byte 0: refused ReadFailed: Bad file descriptor\n'
        counts.told(shut(program, args) == (2, closed_input), 'a closed input', args, shut(program, args))
        with open(os.devnull, 'rb') as given:
            counts.told(ended(program, args, given, subprocess.DEVNULL) == (0, ''), 'no input', args)
    for words in ['--help'], ['--version']:
        counts.told(full(program, words, b'') == FULL, 'a full disk', words)
        counts.told(closed(program, words, b'') == LEFT, 'a closed pipe', words)
    whole, _, _ = program.run(['canon'], MANY * 100)
    got = front(program, ['canon'], MANY * 100, 10)
    counts.told(got == (whole[:10], *LEFT), 'a reader that leaves', got)
    of_files(program, counts)


def scarce(program, counts):
    """Runs the program on a small message and a large one, under each limit on the address space from one at which nothing is
    answered up to one at which both are. A refusal must have the right name, and the answers before it must be written."""
    body = (1 | 2 << 32 | 8 * WORDS << 35).to_bytes(8, 'little') + b'\x11' * 8 * WORDS
    large = bytes(4) + (WORDS + 1).to_bytes(4, 'little') + body
    wanted = {NULL: 'capnp_canon: message 2 at byte 16: refused AllocationFailed\n', b'': 'capnp_canon: memory exhausted\n', NULL + large: ''}
    found = set()
    for most in range(HELD, MOST, STEP * 16):
        how = {'preexec_fn': lambda: resource.setrlimit(resource.RLIMIT_AS, (most, most))}
        try:
            output, status, error = program.run(['canon'], NULL + large, **how)
        except (OSError, subprocess.SubprocessError):
            continue
        if status not in (0, 2):
            # there was no memory to start the program
            continue
        found.add(error)
        answers = [it for it, name in wanted.items() if name == error]
        counts.told(answers == [output] and (status == 0) == (error == ''), 'with little memory', most, status, error)
        if status == 0:
            break
    counts.told(wanted[NULL] in found and '' in found, 'with little memory, only', found)


def least(program, args, data):
    """The smallest limit on the address space, a multiple of STEP, at which no request of a run is refused."""
    low, high = HELD // STEP, MOST // STEP
    while low < high:
        most = (low + high) // 2
        how = {'preexec_fn': lambda: resource.setrlimit(resource.RLIMIT_AS, (most * STEP, most * STEP))}
        try:
            _, status, error = program.run(args, data, **how)
        except (OSError, subprocess.SubprocessError):
            status, error = -1, ''
        if status in (0, 1, 2) and 'AllocationFailed' not in error and 'memory exhausted' not in error:
            high = most
        else:
            low = most + 1
    return low * STEP


def table(*lengths):
    """The table of a frame whose segments have these lengths in words."""
    numbers = b''.join(it.to_bytes(4, 'little') for it in (len(lengths) - 1, *lengths))
    return numbers + bytes(-len(numbers) % 8)


def bounded(program, counts):
    """Checks how much more memory a run takes than one on a message of one word. It may take at most twice the bytes that came;
    for `canon` and `digest`, at most four times; and for `show`, which holds the text of a message with two digits for each byte,
    at most six times. What the table of a frame announces must not matter."""
    announced = {'64 MiB': table((1 << 23) - 1), '512 segments': table(*[1 << 14] * 511, (1 << 14) - 1)}
    for form in FORMS:
        base = least(program, form, NULL)
        for name, front in announced.items():
            want = least(program, form, front + bytes(8))
            counts.told(want <= base + ROOM, 'announced', name, form, want - base)
        front = table((1 << 32) - 1)
        want = least(program, [*form, '--words', 'none'], front + bytes(8))
        counts.told(want <= base + ROOM, 'announced 32 GiB', form, want - base)
        # a list of bytes, which is as long in canonical form; and the same bytes with nothing that leads to them
        used = (1 | 2 << 32 | 8 * WORDS << 35).to_bytes(8, 'little') + b'\x11' * 8 * WORDS
        for name, body in ('a list of bytes', used), ('words that nothing leads to', bytes(8) + used[8:]):
            data = table(WORDS + 1) + body
            most = {'canon': 4, 'digest': 4, 'show': 6}.get(form[0], 2) * len(data) + ROOM
            want = least(program, form, data)
            counts.told(want <= base + most, name, form, want - base, 'for', len(data))
