#!/usr/bin/env python3
"""Compares what the toolchain reports that each proof rests on with `axioms.txt`.

    axioms.py LOG             compares the crates whose reports are in LOG, which has what `dev/test` or `rt ci` printed
    axioms.py --write LOG     writes the reports in LOG into `axioms.txt`; those of other crates stay

A report is the end of a proof's verdict: its words after the number of functions, and, for a program or a library for C, a
line for each crate whose C functions it may rest on. That line names the first three of these functions and says how many
they are. `rt check --list-axioms` in a crate's folder lists all of them. The reports of tests aren't compared.

The gate compares what its own `rt ci` printed. `rt ci` prints no report of a crate that it doesn't prove again, because an
earlier run on the same machine proved the same files; these crates aren't counted. A report that differs from `axioms.txt`
fails, and so do a crate without a report that isn't kept from an earlier run, and a crate of `axioms.txt` that isn't in
`crates.txt`. The last line is `N passed, M failed`."""
import pathlib
import re
import sys

TOP = pathlib.Path(__file__).resolve().parents[1]
FILE = TOP / 'tests/axioms.txt'
HEAD = """\
# What the toolchain reports about each proof: a line with the end of the crate's verdict, then a line for each crate
# whose C functions the proof may rest on. `tests/axioms.py` says more, and the gate compares.
"""
# How the report of a crate begins, and how its verdict does. Sums and numbers of functions say nothing of what is trusted.
BEGIN = re.compile(r'== (\w+)(: its tests)?$')
KEPT = re.compile(r'rt: (\w+) is kept: ')
VERDICT = re.compile(r'logic=proved ')
LEFT_OUT = re.compile(r'(?:logic|functions|sum)=\S+ ?')


def reports(lines):
    """The reports among the lines that `rt ci` printed: what was proved, and the lines of its report."""
    found, what, axioms = {}, None, []
    for line in lines:
        if begin := BEGIN.match(line):
            what, axioms = None if begin[2] else begin[1], []
        elif what and line.startswith('axioms '):
            axioms.append(line)
        elif what and VERDICT.match(line):
            found[what], what = [LEFT_OUT.sub('', line).strip(), *axioms], None
    return found


def wanted():
    """The reports of `axioms.txt`, if that is there."""
    found, what = {}, None
    for line in FILE.read_text(encoding='utf-8').splitlines() if FILE.is_file() else ():
        if line.startswith('    '):
            found[what].append(line.strip())
        elif line and not line.startswith('#'):
            what, _, verdict = line.partition(': ')
            found[what] = [verdict]
    return found


def crates():
    lines = (TOP / 'crates.txt').read_text(encoding='utf-8').splitlines()
    return [line.partition(':')[0].split()[0] for line in lines if line.strip() and not line.startswith('#')]


def compare(lines):
    """Compares the reports among these lines. Prints what differs, and returns how many are as wanted and how many aren't."""
    known, found, names = wanted(), reports(lines), crates()
    kept = {it[1] for line in lines if (it := KEPT.match(line))}
    failed = [what for what in found if found[what] != known.get(what)]
    for what in failed:
        print(f'{what} rests on', *found[what], 'and according to tests/axioms.txt on', *known.get(what, ['nothing']), sep='\n    ')
    lacking = [f'{name} has no report' for name in names if name not in found and name not in kept]
    gone = [f'{what} of tests/axioms.txt is not in crates.txt' for what in known if what not in names]
    for text in lacking + gone:
        print(text)
    if kept:
        print(f'not proved again, so not compared: {" ".join(sorted(kept))}')
    return len(found) - len(failed), len(failed + lacking + gone)


def write(lines):
    found = {**wanted(), **reports(lines)}
    text = ''.join('\n    '.join([f'{name}: {found[name][0]}', *found[name][1:]]) + '\n' for name in crates() if name in found)
    FILE.write_text(HEAD + text, encoding='utf-8')


def main(words):
    if len(words) not in (1, 2) or (len(words) == 2 and words[0] != '--write'):
        sys.exit(__doc__)
    lines = pathlib.Path(words[-1]).read_text(encoding='utf-8', errors='replace').splitlines()
    if len(words) == 2:
        return write(lines)
    passed, failed = compare(lines)
    print(f'{passed} passed, {failed} failed')
    return 1 if failed or not passed else 0


if __name__ == '__main__':
    sys.exit(main(sys.argv[1:]))
