"""Builds the C++ peer in a temporary folder, and makes real messages with `capnp encode`, for the other scripts here."""
import os
import pathlib
import shutil
import subprocess
import sys
import tempfile

HERE = pathlib.Path(__file__).resolve().parent
TOP = HERE.parents[1]
SCHEMA = 'people.capnp'
# The type of what `capnp compile -o-` writes. Its schema comes with Cap'n Proto.
REQUEST = '/usr/include/capnp/schema.capnp', 'CodeGeneratorRequest'
COMPILER = 'g++', '-std=c++17', '-O3', '-DNDEBUG'
PERSON, BOOK = (SCHEMA, 'Person'), (SCHEMA, 'Book')


class Peer:
    """Use as `with Peer() as peer`, which removes the folder at its end."""

    def __enter__(self):
        self.folder = pathlib.Path(tempfile.mkdtemp(prefix='capnp-peer-'))
        for name in (SCHEMA, 'peer.c++'):
            shutil.copy(HERE / name, self.folder)
        self.bytes_of('capnp', 'compile', '-oc++', SCHEMA)
        self.bytes_of(*COMPILER, '-o', 'peer', 'peer.c++', SCHEMA + '.c++', '-lcapnp', '-lkj')
        return self

    def __exit__(self, *_):
        shutil.rmtree(self.folder)

    def run(self, words, data=b''):
        """The output of a command for this input, and its exit status."""
        # C++ Cap'n Proto takes the current folder from this variable
        environment = {**os.environ, 'PWD': str(self.folder)}
        run = subprocess.run(words, input=data, cwd=self.folder, env=environment, stdout=subprocess.PIPE)
        return run.stdout, run.returncode

    def bytes_of(self, *words, data=b''):
        """The output of a command for this input. The command must end with status 0."""
        output, status = self.run(words, data)
        if status:
            raise RuntimeError(f'{words[0]} ended with status {status}')
        return output

    def example(self):
        """The program of ../corpus/example.c++, for the corpus."""
        self.bytes_of(*COMPILER, '-o', 'example', str(TOP / 'tests/corpus/example.c++'), '-lcapnp', '-lkj')
        return str(self.folder / 'example')

    def answer(self, words, data):
        """What the C++ library answers to a command of peer.c++, and the exit status."""
        return self.run(['./peer', *words], data)

    def copied(self, words, data):
        return self.bytes_of('./peer', *words, data=data)

    def convert(self, way, of, data):
        return self.bytes_of('capnp', 'convert', way, *of, data=data)

    def decode(self, of, data):
        return self.bytes_of('capnp', 'decode', *of, data=data)

    def people(self, seed, count, deep):
        """`count` consecutive random messages; `deep` is how deep friends of friends are nested."""
        text = self.bytes_of(sys.executable, str(HERE / 'people.py'), str(seed), str(count), str(deep))
        return self.bytes_of('capnp', 'encode', *PERSON, data=text)

    def scattered(self, data):
        """These messages with their objects in many segments."""
        return self.copied(['scatter'], data)

    def book(self, *words):
        return self.bytes_of('./peer', 'book', *words)

    def requests(self):
        """The path of each schema of the system, with what `capnp compile -o-` writes for it."""
        for path in sorted(pathlib.Path('/usr/include').rglob('*.capnp')):
            data, status = self.run(['capnp', 'compile', '-o-', str(path)])
            if status == 0:
                yield path, data
