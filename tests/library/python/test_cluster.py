"""Tests bindings/python/examples/cluster.py on a cluster of Dask on this machine, whose workers are processes. It must write
what a single process writes, even if a worker is killed half way."""
import contextlib
import io
import os
import pathlib
import random
import signal
import subprocess
import sys
import tempfile
import time
import unittest

HERE = pathlib.Path(__file__).resolve().parent
EXAMPLES = HERE.parents[2] / 'bindings/python/examples'
# the workers import it too
os.environ['PYTHONPATH'] = os.pathsep.join([str(EXAMPLES), os.environ.get('PYTHONPATH', '')])
sys.path.insert(0, str(EXAMPLES))

import cluster  # noqa: E402
from distributed import Client, LocalCluster  # noqa: E402

WORKERS = 3
LINES = [line.split() for line in (HERE.parent / 'rows/messages.txt').read_text().splitlines() if not line.startswith('#')]
FRAMES = [bytes.fromhex(frame) for _, frame, copy, *_ in LINES if copy == 'Done']


def numbered(number):
    """A message of one number."""
    return bytes(4) + (2).to_bytes(4, 'little') + (1 << 32).to_bytes(8, 'little') + number.to_bytes(8, 'little')


def one_process(command, files):
    return subprocess.run([sys.executable, '-B', '-m', 'capnp_canonical', command, *files], stdout=subprocess.PIPE, text=True).stdout


class Cluster(unittest.TestCase):
    @classmethod
    def setUpClass(cls):
        cls.folder = tempfile.TemporaryDirectory()
        cls.addClassCleanup(cls.folder.cleanup)
        cls.files = []
        drawn = random.Random(5)
        for file, count in enumerate((6000, 1, 3000, 0)):
            name = os.path.join(cls.folder.name, f'file{file}')
            content = b''.join(drawn.choice(FRAMES) if drawn.random() < 0.2 else numbered(drawn.randrange(5000)) for _ in range(count))
            pathlib.Path(name).write_bytes(content)
            cls.files.append(name)
        cls.local = LocalCluster(n_workers=WORKERS, threads_per_worker=1, processes=True, dashboard_address=':0')
        cls.client = Client(cls.local)

    @classmethod
    def tearDownClass(cls):
        cls.client.close()
        cls.local.close()

    def written(self, command, seen=lambda done, of: None, files=None):
        work = cluster.Work(self.client, files or self.files, size=5000, buckets=WORKERS, seen=seen)
        said = io.StringIO()
        with contextlib.redirect_stdout(said), contextlib.redirect_stderr(said if files else sys.stderr):
            status = cluster.write(work, command)
        return status, said.getvalue()

    def test_workers_are_processes(self):
        numbers = self.client.run(os.getpid)
        self.assertEqual(len({os.getpid(), *numbers.values()}), WORKERS + 1)

    def test_digest(self):
        self.assertEqual(self.written('digest'), (0, one_process('digest', self.files)))

    def test_duplicates(self):
        self.assertEqual(self.written('duplicates'), (1, one_process('duplicates', self.files)))

    def test_a_worker_is_killed(self):
        for command in 'digest', 'duplicates':
            killed = []

            def kill(done, of):
                if not killed and done > of / 2:
                    self.assertGreater(of, 20)
                    address, number = sorted(self.client.run(os.getpid).items())[0]
                    os.kill(number, signal.SIGKILL)
                    killed.append(number)

            status, text = self.written(command, kill)
            self.assertEqual(len(killed), 1)
            self.assertEqual(text, one_process(command, self.files))
            # another one has been started in its place
            self.client.wait_for_workers(WORKERS, timeout=60)
            self.assertNotIn(killed[0], self.client.run(os.getpid).values())

    def test_what_is_refused(self):
        bad = os.path.join(self.folder.name, 'bad')
        deep = next(bytes.fromhex(frame) for _, frame, copy, *_ in LINES if copy.startswith('CannotCreate'))
        pathlib.Path(bad).write_bytes(numbered(1) + deep + numbered(2) + numbered(3)[:-1])
        none = os.path.join(self.folder.name, 'none')
        status, text = self.written('digest', files=[bad, none])
        lines = text.splitlines()
        self.assertEqual(status, 2)
        self.assertEqual([it.split(':')[-1] for it in lines[:2]], ['1', '3'])
        at = len(numbered(1) + deep + numbered(2))
        self.assertEqual(lines[2:], [
            f'cluster: {bad}: message 4 at byte {at}: Truncated: the bytes end inside a frame or a packed word',
            f'cluster: {none}: No such file or directory',
            f'cluster: {bad}: message 2 at byte {len(numbered(1))}: CannotCreateACanonicalMessageWithACapability: '
            'the value contains a capability, so it has no canonical form',
        ])

    def test_command(self):
        start = time.monotonic()
        run = subprocess.run([sys.executable, '-B', EXAMPLES / 'cluster.py', '--workers', '2', '--piece', '20000', 'duplicates', *self.files],
                             stdout=subprocess.PIPE, stderr=subprocess.PIPE, text=True)
        self.assertEqual((run.returncode, run.stdout), (1, one_process('duplicates', self.files)))
        self.assertRegex(run.stderr, r'(?m)^cluster: 9,001 messages, .* MB in .* s with 2 workers: .* messages a second$')
        self.assertLess(time.monotonic() - start, 120)


if __name__ == '__main__':
    unittest.main()
