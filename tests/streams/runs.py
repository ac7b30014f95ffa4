"""Runs the program, and compares how the runs ended with what is expected."""
import json
import os
import pathlib
import subprocess
import tempfile

HERE = pathlib.Path(__file__).resolve().parent
NOT_CANONICAL = b'not canonical'


class Program:
    def __init__(self, path, limit):
        self.path, self.limit = os.path.abspath(path), limit

    def run(self, args, data, **how):
        """The output, the exit status and standard error of a run."""
        try:
            run = subprocess.run([self.path, *args], input=data, capture_output=True, timeout=self.limit, **how)
        except subprocess.TimeoutExpired:
            return b'', 'no end', ''
        return run.stdout, run.returncode, run.stderr.decode('utf-8', 'replace')

    def run_case(self, case):
        """Makes the run that a case of a .jsonl file describes, in a folder that has its files and no others."""
        data = bytes.fromhex(case['input'])
        if 'files' not in case:
            return self.run(case['args'], data)
        with tempfile.TemporaryDirectory(prefix='streams-') as folder:
            for name, content in case['files'].items():
                path = pathlib.Path(folder) / name
                path.parent.mkdir(exist_ok=True)
                path.write_bytes(bytes.fromhex(content))
            return self.run(case['args'], data, cwd=folder)


def same(counts, what, args, wanted, got):
    """Counts a run. If `not canonical` is expected without a reason, any reason is right."""
    output, *others = got
    if args[:1] == ['check']:
        output = without_reasons(wanted[0], output)
    counts.told((output, *others) == wanted, what, 'wanted', shown(wanted), 'got', shown(got))


def stored(program, counts):
    """Runs all cases of the .jsonl files."""
    for path in sorted(HERE.glob('*.jsonl')):
        for number, line in enumerate(path.open(encoding='utf-8'), 1):
            case = json.loads(line)
            wanted = bytes.fromhex(case['output']), case['status'], case['stderr']
            got = program.run_case(case)
            same(counts, f'{path.name}:{number} {case["name"]}: {case["args"]}', case['args'], wanted, got)


def without_reasons(wanted, got):
    lines = got.split(b'\n')
    for at, want in enumerate(wanted.split(b'\n')[:len(lines)]):
        if want == NOT_CANONICAL and lines[at].startswith(NOT_CANONICAL + b': '):
            lines[at] = want
    return b'\n'.join(lines)


def shown(answer):
    output, status, error = answer
    return f'{output[-60:]!r} {status} {error!r:.200}'
