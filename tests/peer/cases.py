"""Rewrites tests/streams/peer.jsonl: real messages, and what C++ Cap'n Proto answers to them.

    cases.py"""
import json

from peer import PERSON, REQUEST, TOP, Peer

# Streams of random people: the seed, how many people, and how deep their friends are nested.
STREAMS = (11, 1, 0), (12, 1, 2), (13, 2, 1), (14, 6, 1), (15, 25, 0)


class Cases:
    def __init__(self, peer, file):
        self.peer, self.file = peer, file

    def case(self, name, args, data, output, status=0):
        case = {'name': name, 'args': args, 'input': data.hex(), 'output': output.hex(), 'stderr': '', 'status': status}
        print(json.dumps(case), file=self.file)

    def answers(self, name, data):
        """The answers to each command. The peer only says whether a message is canonical, without a reason."""
        for ours, theirs in (['canon'], ['canon']), (['canon', '--flat'], ['flat']), (['size'], ['size']), (['check'], ['check']):
            self.case(name, ours, data, *self.peer.answer(theirs, data))

    def stream(self, name, data):
        self.answers(name, data)
        canonical = self.peer.copied(['canon'], data)
        self.case(f'{name}, in canonical form', ['check'], canonical, *self.peer.answer(['check'], canonical))
        self.case(f'{name}, in canonical form', ['canon'], canonical, canonical)
        packed, packed_canonical = (self.peer.copied(['copy', 'pack'], it) for it in (data, canonical))
        self.case(f'{name}, packed', ['canon', '--packed'], packed, canonical)
        self.case(f'{name}, packed', ['check', '--packed'], packed, *self.peer.answer(['check'], data))
        self.case(f'{name}, packed', ['size', '--packed'], packed, *self.peer.answer(['size'], data))
        self.case(f'{name}, to be packed', ['canon', '--pack'], data, packed_canonical)
        self.case(f'{name}, packed, to be packed', ['canon', '--pack', '--packed'], packed, packed_canonical)

    def tool(self, name, of, data):
        """The answers of the command `capnp convert`."""
        packed = self.peer.convert('binary:packed', of, data)
        self.case(f'{name}, by capnp convert', ['canon', '--flat'], data, self.peer.convert('binary:canonical', of, data))
        self.case(f'{name}, by capnp convert', ['canon', '--packed', '--flat'], packed, self.peer.convert('packed:canonical', of, packed))

    def all(self):
        for seed, count, deep in STREAMS:
            data = self.peer.people(seed, count, deep)
            name = f'{count} of seed {seed}'
            self.stream(name, data)
            self.tool(name, PERSON, data)
            self.stream(f'{name} in many segments', self.peer.scattered(data))
        for path, data in self.peer.requests():
            if path.name in ('stream.capnp', 'c++.capnp'):
                self.answers(f'the request of {path.name}', data)
                self.tool(f'the request of {path.name}', REQUEST, data)


def main():
    path = TOP / 'tests/streams/peer.jsonl'
    with Peer() as peer, path.open('w', encoding='utf-8') as file:
        Cases(peer, file).all()


main()
