#!/usr/bin/env python3
"""Runs an implementation of canonical form over the corpus.

    run.py [OPTION..] COMMAND..            COMMAND reads a frame, writes the canonical words, and ends with status 0;
                                           with another status it refuses the message
    run.py --check [OPTION..] COMMAND..    COMMAND reads a frame, and ends with status 0 exactly if the message is canonical
    run.py --packed [--check] COMMAND..    the same, but COMMAND reads packed bytes: all frames, packed, and packed.jsonl

    --strict        answers that are only allowed by `may` are failures too
    --places        with --check: COMMAND also writes the fault's `segment S, word W`, which is compared
    --timeout S     seconds for each message (default 5); an answer that takes longer is a failure
    --jobs N        how many run at once (default: the number of processors)
    --show N        how many failures are shown of each section (default 5)
    --only TEXT     only lines whose section or `what` has this text, or whose number it is

Prints what differs, by section of the encoding specification, and in the last line `N passed, M failed`."""
import argparse
import collections
import concurrent.futures
import json
import os
import pathlib
import re
import subprocess
import sys

HERE = pathlib.Path(__file__).resolve().parent
PLACE = re.compile(r'segment (\d+), word (\d+)')


def pack(data, longest=255):
    """Packed bytes of whole words, in runs of at most `longest` words after the first ("Packing")."""
    words, packed, at = [data[i:i + 8] for i in range(0, len(data), 8)], bytearray(), 0
    while at < len(words):
        word = words[at].ljust(8, b'\0')
        tag = sum(1 << i for i, byte in enumerate(word) if byte)
        packed.append(tag)
        packed += bytes(byte for byte in word if byte)
        at += 1
        if tag not in (0, 255):
            continue
        end = at
        while end < len(words) and end - at < longest and (not any(words[end]) if tag == 0 else len(words[end]) == 8 and words[end].count(0) < 2):
            end += 1
        packed.append(end - at)
        if tag == 255:
            packed += b''.join(words[at:end])
        at = end
    return bytes(packed)


def pack_frame(frame):
    """The packed bytes of a frame. As in what C++ writes, no run continues past the end of the table or of a segment."""
    count = int.from_bytes(frame[:4], 'little') + 1
    ends = [(4 + 4 * count + 7) // 8 * 8]
    if count > 4096 or len(frame) < ends[0]:
        return pack(frame)
    for at in range(4, 4 + 4 * count, 4):
        ends.append(min(len(frame), ends[-1] + 8 * int.from_bytes(frame[at:at + 4], 'little')))
    return b''.join(pack(frame[at:end]) for at, end in zip([0, *ends], [*ends, len(frame)]))


def lines_of(options):
    """The lines, each with the bytes that are given to the command."""
    for name in ('corpus', 'packed') if options.packed else ('corpus',):
        for text in (HERE / f'{name}.jsonl').open(encoding='utf-8'):
            line = json.loads(text)
            line['name'] = f"{name} {line['id']}"
            if options.only and options.only not in (str(line['id']), line['name']) and options.only not in line['section'] and options.only not in line['what']:
                continue
            if 'packed' in line:
                given = bytes.fromhex(line['packed'])
            else:
                given = bytes.fromhex(line['frame'])
                if options.packed:
                    # a frame that is cut inside a word has no packed form
                    if len(given) % 8:
                        continue
                    given = pack_frame(given)
            yield line, given


def run(options, line, given):
    """What the command answers: its output and status, or none if it takes too long."""
    try:
        it = subprocess.run(options.command, input=given, stdout=subprocess.PIPE, stderr=subprocess.DEVNULL, timeout=options.timeout)
    except subprocess.TimeoutExpired:
        return None
    return it.stdout, it.returncode


def judged(options, line, answer):
    """Nothing, or the rule of `may` that allows the answer, or what is wrong with it."""
    if answer is None:
        return '', f'no answer within {options.timeout:g} seconds'
    output, status = answer
    if options.check:
        return judged_test(options, line, output, status)
    got, wanted = output.hex() if status == 0 else None, line['canonical']
    if got == wanted:
        return '', ''
    rule = next((name for name, it in line.get('may', {}).items() if it == got), '')
    if rule:
        return rule, ''
    if got is None:
        return '', f'refused with status {status}; wanted {shown(wanted)}'
    return '', f"{shown(got)}; wanted {shown(wanted) if wanted else 'a refusal: ' + line['class']}"


def judged_test(options, line, output, status):
    got, wanted = status == 0, line['is_canonical']
    if got != wanted:
        rule = next((name for name, it in line.get('may_check', {}).items() if it == got), '')
        return (rule, '') if rule else ('', f"says that it {'is' if got else 'isn’t'} canonical, status {status}")
    if options.places and 'fault' in line:
        found = PLACE.search(output.decode('latin-1'))
        segment, word, why = line['fault']
        if not found or [int(found[1]), int(found[2])] != [segment, word]:
            return '', f"wanted segment {segment}, word {word} ({why}), got {found[0] if found else 'no place'}"
    return '', ''


def shown(text):
    return text if len(text) <= 96 else f'{text[:96]}.. ({len(text) // 2} bytes)'


def main():
    parser = argparse.ArgumentParser(description=__doc__, formatter_class=argparse.RawDescriptionHelpFormatter, usage=argparse.SUPPRESS)
    for name in 'check', 'packed', 'strict', 'places':
        parser.add_argument(f'--{name}', action='store_true')
    parser.add_argument('--timeout', type=float, default=5)
    parser.add_argument('--jobs', type=int, default=os.cpu_count() or 1)
    parser.add_argument('--show', type=int, default=5)
    parser.add_argument('--only', default='')
    parser.add_argument('command', nargs=argparse.REMAINDER)
    options = parser.parse_args()
    if not options.command:
        parser.error('no command is named')
    passed, failed, rules, shown_of = collections.Counter(), collections.Counter(), collections.Counter(), collections.defaultdict(list)
    with concurrent.futures.ThreadPoolExecutor(options.jobs) as pool:
        rows = list(lines_of(options))
        for (line, given), answer in zip(rows, pool.map(lambda it: run(options, *it), rows)):
            rule, problem = judged(options, line, answer)
            if rule and options.strict:
                problem = f'allowed only by `may`: {rule}'
            elif rule:
                rules[rule] += 1
            (failed if problem else passed)[line['section']] += 1
            if problem:
                shown_of[line['section']].append(f"  {line['name']}, {line['what']}: {problem}")
    for section in sorted({*passed, *failed}):
        print(f'{section}: {passed[section]} passed, {failed[section]} failed')
        for text in shown_of[section][:options.show]:
            print(text)
        if failed[section] > options.show:
            print(f'  and {failed[section] - options.show} more')
    for rule, count in sorted(rules.items()):
        print(f'{count} differ as `{rule}` allows')
    print(f'{passed.total()} passed, {failed.total()} failed')
    return 1 if failed.total() or not passed.total() else 0


if __name__ == '__main__':
    sys.exit(main())
