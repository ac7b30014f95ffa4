"""Refuses each request for memory of the program capnp_canon in turn, and counts the requests.

    memory.py [PROGRAM]

Needs gcc. PROGRAM must be built; it is crates/capnp_canon/out/capnp_canon if left out.

After a refused request, a run must do one of two things. It may stop: then the output is the answers to the messages
before, and standard error says `refused AllocationFailed`, with the number of the message if it had begun one. Or it may
request less instead, for example one more byte for a list instead of a larger piece: then the run must end as without a
refusal. The last line is `N passed, M failed`."""
import os
import pathlib
import re
import subprocess
import sys
import tempfile

HERE = pathlib.Path(__file__).resolve().parent
TOP = HERE.parent
sys.path[:0] = [str(TOP / 'tests/streams'), str(TOP / 'tests/hostile')]

from hostile import STREAM
from packing import packed

RUNS = (['canon'], STREAM), (['canon', '--flat'], STREAM), (['canon', '--packed', '--pack'], packed(STREAM)), (['check'], STREAM), (['size'], STREAM)
REFUSED = re.compile(r'(message (\d+) at byte \d+: )?refused AllocationFailed\n')


class Preloaded:
    def __init__(self, program, folder):
        self.program, self.told = program, folder / 'told'
        self.library = str(folder / 'memory.so')
        subprocess.run(['gcc', '-shared', '-fPIC', '-O1', '-o', self.library, str(HERE / 'memory.c')], check=True)

    def run(self, args, data, refused=0):
        """Makes a run. Returns it with its number of requests and the size of the largest one in bytes."""
        environment = {'LD_PRELOAD': self.library, 'REFUSED': str(refused), 'REQUESTS': str(self.told)}
        run = subprocess.run([self.program, *args], input=data, capture_output=True, env=environment)
        return run, *map(int, self.told.read_text().split())


def refusals(preloaded, args, data):
    """Refuses each request of a run in turn, and says whether the run ends as it should."""
    whole, requests, _ = preloaded.run(args, data)
    for number in range(1, requests + 1):
        run, made, _ = preloaded.run(args, data, number)
        stops = run.returncode == 2 and REFUSED.fullmatch(run.stderr.decode()) and whole.stdout.startswith(run.stdout)
        asks_for_less = made > requests and (run.returncode, run.stdout, run.stderr) == (whole.returncode, whole.stdout, whole.stderr)
        yield stops or asks_for_less, args, number, run


def main():
    program = os.path.abspath(sys.argv[1]) if sys.argv[1:] else str(TOP / 'crates/capnp_canon/out/capnp_canon')
    passed = failed = 0
    with tempfile.TemporaryDirectory() as folder:
        preloaded = Preloaded(program, pathlib.Path(folder))
        for args, data in RUNS:
            for holds, *what in refusals(preloaded, args, data):
                passed, failed = passed + bool(holds), failed + (not holds)
                if not holds:
                    print(*what)
            _, once, greatest = preloaded.run(args, data)
            _, often, _ = preloaded.run(args, STREAM * 100 if data == STREAM else data * 100)
            print(f'{" ".join(args)}: {once} requests, {(often - once) / 594:.2f} for each further message, the largest of {greatest} bytes')
    print(f'{passed} passed, {failed} failed')
    return 1 if failed else 0


sys.exit(main())
