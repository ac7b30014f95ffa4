"""Uses the program as a coprocess: reads each answer before it writes the next message. Each answer must come within a
second, while the input is still open."""
import json
import os
import pathlib
import select
import subprocess
import tempfile
import time

from devices import FOLDER, TYPED
from hostile import FORMS, MESSAGES, WANTED
from packing import packed, unpacked
from shown import shown

SECONDS = 1


class Coprocess:
    def __init__(self, program, args):
        self.run = subprocess.Popen([program.path, *args], stdin=subprocess.PIPE, stdout=subprocess.PIPE, stderr=subprocess.DEVNULL, bufsize=0)

    def asked(self, data, enough):
        """Writes these bytes, and returns the answer, read until there is enough or the time is over."""
        self.run.stdin.write(data)
        got, end = b'', time.monotonic() + SECONDS
        while not enough(got):
            ready, _, _ = select.select([self.run.stdout], [], [], max(0, end - time.monotonic()))
            more = os.read(self.run.stdout.fileno(), 1 << 16) if ready else b''
            if not more:
                break
            got += more
        return got

    def ended(self, limit):
        """Closes the input, and returns what the program writes after that, and its exit status."""
        self.run.stdin.close()
        with self.run.stdout:
            return self.run.stdout.read(), self.run.wait(limit)


def parts(messages):
    """Two ways to write the messages: each on its own; and each together with the first half of the next one."""
    yield list(messages)
    cut = [len(it) // 2 for it in messages]
    fronts = [it[:n] for it, n in zip(messages, cut)]
    rests = [it[n:] for it, n in zip(messages, cut)]
    yield [rest + front for rest, front in zip([fronts[0] + rests[0], *rests[1:]], [*fronts[1:], b''])]


def without_reason(line):
    return b'not canonical\n' if line.startswith(b'not canonical: ') else line


def conversation(program, counts, args, asked, wanted, read=lambda got: got):
    """Writes each part of the input and compares the answer to it."""
    process = Coprocess(program, args)
    for number, (data, want) in enumerate(zip(asked, wanted)):
        got = read(process.asked(data, lambda got: len(read(got)) >= len(want)))
        counts.told(without_reason(got) == want, 'a coprocess', args, number, got, want)
    counts.told(process.ended(program.limit)[0] == b'', 'a coprocess', args, 'after the end')


def whole(got):
    """The unpacked bytes; none if the packed bytes are cut short."""
    words, is_whole = unpacked(got)
    return words if is_whole else b''


def lines_of(form):
    """The answers to the messages on standard input: to those of `digest`, the program adds a name and a number."""
    if form != 'digest':
        return WANTED[form]
    return [b'%s  -:%d\n' % (it.rstrip(b'\n'), number) for number, it in enumerate(WANTED[form], 1)]


def of_type(program, counts):
    """The same for messages that conform to a schema, and for one after these that doesn't."""
    cases = [json.loads(line) for line in (FOLDER / 'conforming.jsonl').read_text(encoding='utf-8').splitlines()]
    alone = [it for it in cases if it['args'] == ['validate', '--schema', 's.bin:Item'] and it['input']]
    conform = [bytes.fromhex(it['input']) for it in alone if bytes.fromhex(it['output']) == b'conforms\n' and not it['status']]
    differs = next(bytes.fromhex(it['input']) for it in alone if it['name'] == 'a struct for a text')
    for asked in parts([*conform, differs]):
        conversation(program, counts, TYPED, asked, [b'conforms\n'] * len(conform) + [b''])
    conversation(program, counts, [*TYPED, '--packed'], [packed(it) for it in conform], [b'conforms\n'] * len(conform))
    counts.told(len(conform) > 5, 'messages that conform', len(conform))


def answered(program, counts):
    of_type(program, counts)
    for form in FORMS:
        args, wanted = form.split(','), lines_of(form)
        for asked in parts(MESSAGES):
            conversation(program, counts, args, asked, wanted)
        conversation(program, counts, [*args, '--packed'], [packed(it) for it in MESSAGES], wanted)
    for options in [], ['--json']:
        texts = [shown(it, options, number)[0].encode() for number, it in enumerate(MESSAGES, 1)]
        conversation(program, counts, ['show', *options], MESSAGES, texts)
        conversation(program, counts, ['show', *options, '--packed'], [packed(it) for it in MESSAGES], texts)
    conversation(program, counts, ['canon', '--pack'], MESSAGES, WANTED['canon'], whole)
    digits = [it.hex().encode() + b'\n' for it in WANTED['canon,--flat']]
    conversation(program, counts, ['canon', '--hex'], MESSAGES, digits)
    with tempfile.TemporaryDirectory(prefix='streams-') as folder:
        # the answers to an earlier file must come before the program waits for standard input
        path = pathlib.Path(folder) / 'first'
        path.write_bytes(MESSAGES[0])
        wanted = [digits[0] + digits[1], *digits[2:]]
        conversation(program, counts, ['canon', '--hex', str(path), '-'], MESSAGES[1:], wanted)
        process = Coprocess(program, ['canon', '--hex', str(path), '-'])
        got = process.asked(b'', lambda got: got == digits[0])
        counts.told(got == digits[0], 'a coprocess, before standard input is asked', got)
        process.ended(program.limit)
