"""Builds messages while segments are refused. Checks that each message has the value that the calls should leave, and passes
the audit."""
import copy
import itertools
import json
import re

from program import answers
from trees import segments_of, value

WORDS = 1, 2, 3, 7
SEGMENTS = range(8)
# Cases that request an object of this many elements or bytes, or more, are left out.
MANY = 10_000
REFUSED = 'AllocationFailed'
STRUCT = '0000000001000100070000000000000001000000120000006100000000000000'
# What is built in a scratch space only: a text; a struct with a text; and a canonical copy of that.
ALONE = {
    '-:st,48656c6c6f2c20576f726c6421': 'ok 010000007200000048656c6c6f2c20576f726c6421000000',
    '-:is,1,1;-:sf,2,0,7;c0:st,61': f'ok;ok;ok {STRUCT}',
    f'-:cf,{STRUCT},64,8,1': f'ok {STRUCT}',
}
# Edits and builder calls that leave null if memory is refused; all others leave what was there.
MAKING = {'is', 'il', 'isl', 'it', 'id', 'st', 'sd', 'cf', 'ss', 'sl'}
MAKING_CALLS = {
    'init_struct_place', 'init_struct', 'init_list_place', 'init_list', 'init_struct_list_place', 'init_struct_list', 'init_text', 'init_data',
    'set_text', 'set_data', 'put_default', 'copy', 'set_struct', 'set_list', 'set_struct_element', 'set_section',
}
# The calls that open a struct or a list of structs. Their last argument may be a default.
OPENING_CALLS = {'get_struct_place', 'get_struct', 'get_struct_list_place', 'get_struct_list'}
# The position of the argument of an edit or a builder call that is a number of elements or bytes.
COUNTS = {
    'il': 1, 'isl': 0, 'it': 0, 'id': 0,
    'init_list_place': 1, 'init_list': 1, 'init_struct_list_place': 0, 'init_struct_list': 0, 'init_text': 0, 'init_data': 0,
}


def operation(edit):
    return edit.partition(':')[2].split(',')[0]


def instead(edit):
    """Lists of edits. One of them has the same effect with ample memory as this edit without memory. Each edit has its outcome,
    or None if that doesn't matter."""
    path, _, call = edit.partition(':')
    if operation(edit) in MAKING:
        return [[(f'{path}:cl', 'ok')]]
    default = call.split(',')[-1]
    if operation(edit) in {'gs', 'gsl'} and default != 'none':
        # either the copy of the default is refused, or it is stored and the opened object is refused more words
        return [[], [(f'{path}:gt,{default}', None)]]
    return [[]]


def replacements(edits, outcomes):
    """Lists of edits with outcomes. One of them has the same effect with ample memory as these edits."""
    choices = [instead(edit) if outcome == REFUSED else [[(edit, outcome)]] for edit, outcome in zip(edits, outcomes)]
    return [list(itertools.chain(*choice)) or [('-:cl', 'ok')] for choice in itertools.product(*choices)]


def parted(answer):
    """The outcomes of a list of edits, and the words of the message."""
    outcomes, _, words = answer.partition(' ')
    return outcomes.split(';'), words


def run_edits(program, lines):
    return [parted(answer) for answer in answers([*program, 'edits'], lines)]


def lent(program, command, calls, counts):
    """Checks that the answers, refusals included, stay the same if the first segment is in memory that the caller lends and has
    filled; and if the arena's row of a segment is refused instead of the segment."""
    runs = [(words, segments, it) for it in calls for words in WORDS for segments in (*SEGMENTS, 'none')]
    heap = answers([*program, command], [f'{words} {segments} {it}' for words, segments, it in runs])
    scratch = answers([*program, command], [f'{words}/{words} {segments} {it}' for words, segments, it in runs])
    for run, wanted, got in zip(runs, heap, scratch):
        counts.told(got == wanted, 'other answers in scratch space', run, wanted, got)
    # on the heap a row is requested for each segment; in scratch space, for each except the first
    refused = [(run, wanted) for run, wanted in zip(runs, heap) if REFUSED in wanted]
    lines = [(f'{words} none/{rows} {it}', wanted) for (words, rows, it), wanted in refused]
    lines += [(f'{words}/{words} none/{segments - 1} {it}', wanted) for (words, segments, it), wanted in refused if segments]
    for (line, wanted), got in zip(lines, answers([*program, command], [line for line, _ in lines])):
        counts.told(got == wanted, 'other answers if rows are refused', line, wanted, got)


def is_large(call):
    """Whether an edit or a builder call requests an object of MANY elements or more."""
    name, *arguments = re.split('[:.]', call)[-1].split(',')
    at = COUNTS.get(name)
    return at is not None and int(arguments[at]) >= MANY


def lists(paths, left_out):
    """The lists of edits of all cases, each once. Those with very large objects are added to `left_out` instead."""
    found = {}
    for path in paths:
        for line in path.open(encoding='utf-8'):
            _, _, edits = json.loads(line)['stdin'].rstrip('\n').split(' ')
            (left_out if any(map(is_large, edits.split(';'))) else found)[edits] = None
    return list(found)


def refusals(program, command, texts, counts):
    """Runs these texts with 0, 1, 2 .. segments granted, until no segment is refused. Yields each run in which a segment was
    refused: the start of its line (words of a segment, number of segments), its text and its answer."""
    runs = [(f'{words} ', text) for text in texts for words in WORDS]
    for segments in itertools.count():
        found = answers([*program, command], [f'{words}{segments} {text}' for words, text in runs])
        runs = [(words, text, answer) for (words, text), answer in zip(runs, found) if REFUSED in answer]
        if not runs:
            return
        for words, text, answer in runs:
            if segments:
                yield f'{words}{segments} ', text, answer
            else:
                counts.told(answer == f'refused {REFUSED}', 'no segment', words, text, answer)
        runs = [(words, text) for words, text, _ in runs]


def is_told(choice, answer):
    outcomes, _ = answer
    return all(wanted in (None, got) for (_, wanted), got in zip(choice, outcomes))


def edited(program, edits, counts):
    """Runs lists of edits with segments refused. A refused edit must leave what `instead` says; the others must do what they
    always do."""
    runs = [(start, edits.split(';'), *parted(answer)) for start, edits, answer in refusals(program, 'edits', edits, counts)]
    # refused content leaves a part of it, so `content` checks the list of edits up to there on its own
    parts, whole = [], []
    for run in runs:
        refused = [i for i, (edit, outcome) in enumerate(zip(run[1], run[2])) if outcome == REFUSED and operation(edit) == 'cc']
        (parts if refused else whole).append((run, refused))
    told(program, [run for run, _ in whole], counts)
    content(program, [(run, refused[0]) for run, refused in parts], counts)
    audited(program, [(start + ';'.join(edits), words) for start, edits, _, words in runs], counts)


def told(program, runs, counts):
    """Checks that each message has the value that the replacements of the refused edits leave with ample memory."""
    choices = [(run, choice) for run in runs for choice in replacements(run[1], run[2])]
    ample = run_edits(program, ['1024 none ' + ';'.join(edit for edit, _ in choice) for _, choice in choices])
    for run, group in itertools.groupby(zip(choices, ample), key=lambda it: it[0][0]):
        found = value(segments_of(run[3]))
        holds = any(is_told(choice, answer) and value(segments_of(answer[1])) == found for (_, choice), answer in group)
        counts.told(holds, 'another value or another outcome', run)


def part(whole, path):
    """The data and the pointers of the struct that a path leads to."""
    for step in path.split('.') if path != '-' else ():
        kind, number = step[0], int(step[1:])
        if kind == 'c':
            whole = (whole[1] if whole[0] == 'struct' else whole)[1][number]
        else:
            whole = whole[3][number] if whole[0] == 'structs' else whole[1][number]
    return whole[1] if whole[0] == 'struct' else whole


def content(program, runs, counts):
    """Checks that content that was refused memory has left its data, its first pointers up to some point, and null pointers
    after them."""
    fronts = [(start, edits[:at + 1], outcomes[:at + 1]) for (start, edits, outcomes, _), at in runs]
    limited = run_edits(program, [start + ';'.join(edits) for start, edits, _ in fronts])
    choices = [(front, choice) for front in zip(fronts, limited) for choice in replacements(front[0][1][:-1], front[0][2][:-1])]
    ample = run_edits(program, ['1024 none ' + ';'.join([edit for edit, _ in choice] + [front[0][1][-1]]) for front, choice in choices])
    for front, group in itertools.groupby(zip(choices, ample), key=lambda it: it[0][0]):
        path = front[0][1][-1].partition(':')[0]
        found = value(segments_of(front[1][1]))
        counts.told(any(found in cut(value(segments_of(answer[1])), path) for _, answer in group), 'another content', front)


def cut(whole, path):
    """For each pointer of the struct at a path, from the last to the first: the value with this pointer and all after it null.
    Nothing if there is no such struct."""
    try:
        pointers = part(whole, path)[1]
    except (IndexError, TypeError):
        return
    for i in reversed(range(len(pointers) + 1)):
        pointers[i:] = [None] * (len(pointers) - i)
        yield copy.deepcopy(whole)


def builder_calls(paths, left_out):
    """The lists of builder calls of all cases, each once, except for those that use segments as bytes. Those with very large
    objects are added to `left_out` instead."""
    calls = {}
    for path in paths:
        for line in path.open(encoding='utf-8'):
            rest = json.loads(line)['stdin'].rstrip('\n').split(' ', 2)[2:]
            if rest and not re.search('allocated|pointer_at', rest[0]):
                (left_out if any(map(is_large, rest[0].split())) else calls)[rest[0]] = None
    return list(calls)


def in_scratch(program, edits, builds, counts):
    """Compares runs with the first segment in scratch space to runs with it on the heap, with segments refused."""
    lent(program, 'edits', edits, counts)
    lent(program, 'builds', builds, counts)


def alone(program, counts):
    """Checks that a scratch space of 1,024 words is enough for a small message if every other segment is refused."""
    lines = [f'0/1024 1 {edits}' for edits in ALONE]
    for line, wanted, got in zip(lines, ALONE.values(), answers([*program, 'edits'], lines)):
        counts.told(got == wanted, 'not built in scratch space only', line, wanted, got)


def calls_instead(call):
    """Lists of builder calls. One of them has the same effect with ample memory as this call without memory, and keeps no place
    either. There are none for a call that leaves a part of what it copies."""
    place, point, rest = call.rpartition('.')
    name, *arguments = rest.split(',')
    if name == 'content':
        return []
    if name in MAKING_CALLS:
        return [[f'{place}{point}clear']]
    if name in OPENING_CALLS and len(arguments) == 3:
        # either the copy of the default is refused, or it is stored and the opened object is refused more words
        return [[], [f'{place}{point}put_default,{arguments[2]}']]
    return [[]]


def calls_replaced(calls, outcomes):
    """Lists of calls. One of them has the same effect with ample memory as these calls."""
    choices = [calls_instead(call) if outcome.startswith(REFUSED) else [[call]] for call, outcome in zip(calls, outcomes)]
    return [list(itertools.chain(*choice)) or ['clear'] for choice in itertools.product(*choices)]


def built(program, calls, counts):
    """Runs lists of builder calls with segments refused. Checks that each message passes the audit, and has the value that the
    replacements of the refused calls leave with ample memory."""
    runs = [(start + calls, calls, *answer.rsplit(';', 1)) for start, calls, answer in refusals(program, 'builds', calls, counts)]
    audited(program, [(line, words) for line, _, _, words in runs], counts)
    choices = [((line, words), choice) for line, calls, outcomes, words in runs for choice in calls_replaced(calls.split(), outcomes.split(';'))]
    ample = answers([*program, 'builds'], ['1024 none ' + ' '.join(choice) for _, choice in choices])
    for (line, words), group in itertools.groupby(zip(choices, ample), key=lambda it: it[0][0]):
        found = value(segments_of(words))
        holds = any(value(segments_of(answer.rpartition(';')[2])) == found for _, answer in group)
        counts.told(holds, 'another value', line, words)


def deep(program, counts):
    """Audits a message of very many levels: the audit has no recursion."""
    word = (1 << 48).to_bytes(8, 'little').hex()
    audited(program, [('2^20 structs, one inside the other', word * (1 << 20) + '00' * 8)], counts)


def audited(program, messages, counts):
    """Checks that the audit passes these messages, each given with the line that made it."""
    found = answers([*program, 'audits'], [words for _, words in messages])
    for (line, words), answer in zip(messages, found):
        counts.told(answer == '1', 'not a message that a builder makes', line, words, answer)
