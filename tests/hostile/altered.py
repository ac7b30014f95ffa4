"""Runs layout_tool on altered messages and frames, with devices that fail, and with memory refused."""
import itertools
import json
import re

from frames import MOST_SEGMENTS, framed, parted, refusal
from program import answers

COMMANDS = 'canon', 'check', 'size'
LIMITS = '64,8388608'
# A run makes at most twice as many requests for memory as its input has bytes, and this many more.
MORE_REQUESTS = 40
REFUSED = re.compile(r'refused 0 refused ([A-Z][A-Za-z]+)/')
ANSWERED = {
    'canon': re.compile(r'done 0 ([0-9a-f]{16})+/'),
    'check': re.compile(r'done 0 (not )?canonical/'),
    'size': re.compile(r'done 0 words \d+ caps \d+/'),
    'framed-check': re.compile(r'done 0 (not a )?canonical message/'),
}
# All names that a message can be refused with while memory isn't refused.
NAMES = {
    'CantHandleNonStructInlineComposite', 'CannotCreateACanonicalMessageWithACapability', 'InlineCompositeListsElementsOverrunItsWordCount',
    'InlineCompositeListsOfNonStructTypeAreNotSupported', 'InvalidSegmentId', 'MalformedDoubleFarPointer',
    'MessageContainsOutOfBoundsPointer', 'MessageIsTooDeeplyNested', 'MessageIsTooDeeplyNestedOrContainsCycles',
    'MessageTooLarge', 'NestingLimitExceeded', 'ReadLimitExceeded', 'UnknownPointerType',
}


def worked(path):
    """The worked runs that end with an answer or a refusal: arguments, input lines, output and exit status."""
    for line in path.open(encoding='utf-8'):
        vector = json.loads(line)
        lines = vector['stdin'].lower()
        if vector['status'] in (0, 1) and re.fullmatch('([0-9a-f]*\n)*', lines):
            yield ','.join(vector['args']), lines, vector['stdout'], vector['status']


def shown(lines):
    """An input in the form that a line for layout_runs has it."""
    return ','.join(lines.split('\n')[:-1]) or ('-' if not lines else '')


def alterations(segments):
    """The message cut short after each byte of each segment, and with each bit flipped."""
    for i, segment in enumerate(segments):
        for end in range(len(segment)):
            yield segments[:i] + [segment[:end]] + segments[i + 1:]
        for bit in range(8 * len(segment)):
            flipped = bytearray(segment)
            flipped[bit // 8] ^= 1 << bit % 8
            yield segments[:i] + [bytes(flipped)] + segments[i + 1:]


def line_of(command, text, reads='none', writes='none', requests='none'):
    return f'{command} {reads} {writes} {requests} {text}'


def listed(path):
    """The segments of the messages in a file, which has a note before each message."""
    for line in path.open(encoding='utf-8'):
        if not line.startswith('#'):
            yield [bytes.fromhex(segment) for segment in line.rpartition(':')[2].strip().split(',')]


def altered(program, vectors, others, counts):
    """Runs each command on each alteration of the messages of the worked runs and of the other messages. Each command must answer,
    or refuse with one of NAMES. If `check` says canonical, `canon` must copy the message unchanged. `check` must say
    canonical of what `canon` writes, and `canon` must copy that unchanged."""
    messages = {}
    worked_ones = ([bytes.fromhex(line) for line in lines.split('\n')[:-1]] for lines in messages_of(vectors, COMMANDS))
    for segments in itertools.chain(worked_ones, others):
        for changed in alterations(segments):
            messages[','.join(it.hex() for it in changed)] = None
    lines = [line_of(f'{command},{LIMITS}', text) for text in messages for command in COMMANDS]
    found = iter(answers(program, lines))
    copies = {}
    for text in messages:
        answer = {command: next(found) for command in COMMANDS}
        for command in COMMANDS:
            name = REFUSED.fullmatch(answer[command])
            holds = name[1] in NAMES if name else ANSWERED[command].fullmatch(answer[command])
            counts.told(holds, command, text, answer[command])
        copy = answer['canon'][len('done 0 '):-1] if answer['canon'].startswith('done') else None
        if copy:
            copies[copy] = None
        if answer['check'] == 'done 0 canonical/':
            counts.told(copy and text.split(',')[0].startswith(copy), 'canonical, but copied differently', text, copy)
    again = [line_of(f'{command},{LIMITS}', copy) for copy in copies for command in ('check', 'canon')]
    found = iter(answers(program, again))
    for copy in copies:
        counts.told(next(found) == 'done 0 canonical/', 'a copy that is not canonical', copy)
        counts.told(next(found) == f'done 0 {copy}/', 'a copy that is copied differently', copy)


def messages_of(vectors, commands):
    """The input lines of the worked runs of these commands, each once."""
    return sorted({lines for args, lines, _, _ in vectors if args.split(',')[0] in commands})


def reframed(program, vectors, counts):
    """Runs commands on each alteration of the messages of the worked runs. `frame` must write its frame; `framed-canon` must write
    the frame of what `canon` writes, or refuse with the same name."""
    texts = {}
    for lines in messages_of(vectors, {'canon', 'frame', 'framed-canon'}):
        for changed in alterations([bytes.fromhex(line) for line in lines.split('\n')[:-1]]):
            texts[','.join(it.hex() for it in changed)] = changed
    commands = 'frame', f'framed-canon,{LIMITS}', f'canon,{LIMITS}'
    found = iter(answers(program, [line_of(command, text) for text in texts for command in commands]))
    for text, segments in texts.items():
        frame, framed_copy, copy = next(found), next(found), next(found)
        few = len(segments) <= MOST_SEGMENTS
        wanted = f'done 0 {framed(segments)}/' if few else 'refused 0 refused TooManySegments/'
        counts.told(frame == wanted, 'frame', text, wanted, frame)
        if copy.startswith('done 0 '):
            copy = f"done 0 {framed([bytes.fromhex(copy[len('done 0 '):-1])])}/"
        counts.told(framed_copy == copy, 'framed-canon', text, copy, framed_copy)


def unframed(program, vectors, counts):
    """Runs commands on each alteration of the frames of the worked runs. `unframe` must write the segments, or refuse with the name
    of the first mistake in the frame. `framed-check` must find a canonical message exactly if the frame has one segment
    and `canon` copies that unchanged."""
    frames = {}
    for lines in messages_of(vectors, {'unframe', 'framed-check'}):
        for line in lines.split('\n')[:-1]:
            for (changed,) in alterations([bytes.fromhex(line)]):
                frames[changed] = None
    commands = 'unframe', f'framed-check,{LIMITS}'
    found = iter(answers(program, [line_of(command, frame.hex()) for frame in frames for command in commands]))
    alone = {}
    for frame in frames:
        lines, checked = next(found), next(found)
        name = refusal(frame)
        wanted = f'refused 0 refused {name}/' if name else f"done 0 {''.join(it.hex() + '/' for it in parted(frame))}"
        counts.told(lines == wanted, 'unframe', frame.hex(), wanted, lines)
        refused = REFUSED.fullmatch(checked)
        holds = refused[1] == (name or refused[1]) if refused else not name and ANSWERED['framed-check'].fullmatch(checked)
        counts.told(holds and (name or not refused or refused[1] in NAMES), 'framed-check', frame.hex(), checked)
        if not name and len(parted(frame)) == 1:
            alone[parted(frame)[0].hex()] = checked == 'done 0 canonical message/'
        elif not name:
            counts.told(checked == 'done 0 not a canonical message/', 'several segments', frame.hex(), checked)
    found = answers(program, [line_of(f'canon,{LIMITS}', text) for text in alone])
    for (text, canonical), copy in zip(alone.items(), found):
        counts.told(canonical == (copy == f'done 0 {text}/'), 'framed-check and canon', text, canonical, copy)


def failing(program, vectors, counts):
    """Makes each worked run with a reader, a writer or an allocator that fails at one call, for each call in turn."""
    strict, granted = [], []
    for args, lines, stdout, status in vectors:
        text, answer = shown(lines), f"{'refused' if status else 'done'} 0 {stdout}".replace('\n', '/')
        strict += [(line_of(args, text, reads=n), 'bad_input 0 -') for n in range(len(lines) + 1)]
        strict.append((line_of(args, text, reads=len(lines) + 1), answer))
        strict += [(line_of(args, text, writes=n), f"write_failed 0 {stdout[:n] or '-'}".replace('\n', '/')) for n in range(len(stdout))]
        strict.append((line_of(args, text, writes=len(stdout)), answer))
        requests = 2 * len(lines) + MORE_REQUESTS
        strict.append((line_of(args, text, requests=requests), answer))
        granted += [(line_of(args, text, requests=n), answer) for n in range(requests)]
    found = answers(program, [line for line, _ in strict + granted])
    for (line, wanted), got in zip(strict, found):
        counts.told(got == wanted, line, wanted, got)
    for (line, wanted), got in zip(granted, found[len(strict):]):
        counts.told(got in (wanted, 'refused 1 refused AllocationFailed/'), line, wanted, got)
