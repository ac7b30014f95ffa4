"""Writes random people as text for `capnp encode people.capnp Person`, one per line.

    people.py SEED COUNT DEEP

DEEP is how deep friends of friends are nested."""
import random
import sys

LETTERS = 'abcdefghijklmnopqrstuvwxyz '


class People:
    def __init__(self, seed):
        self.random = random.Random(seed)

    def below(self, bound):
        return self.random.randrange(bound)

    def text(self):
        return f'"{"".join(self.random.choice(LETTERS) for _ in range(self.below(24)))}"'

    def listed(self, bound, item):
        """A list of fewer elements than the bound."""
        return f'[{", ".join(item() for _ in range(self.below(bound)))}]'

    def struct(self, fields):
        """A struct of these fields in order. A field is a probability, a name, and a function that makes its value."""
        return f'({", ".join(f"{name} = {value()}" for chance, name, value in fields if self.random.random() < chance)})'

    def phone(self):
        return self.struct([(0.7, 'number', self.text), (0.5, 'kind', lambda: self.below(3))])

    def birth(self):
        return self.struct([
            (1, 'year', lambda: self.below(2100) - 50),
            (1, 'month', lambda: self.below(13)),
            (1, 'day', lambda: self.below(32)),
        ])

    def score(self):
        return self.random.choice(['0', f'{self.random.random():.6f}'])

    def blob(self):
        # `capnp encode` refuses data without bytes
        return f'0x"{" ".join(f"{self.below(256):02x}" for _ in range(1 + self.below(19)))}"'

    def union(self):
        """The fields of the union. At most one has probability 1, the others 0."""
        kind = self.below(5)
        return [(kind == 0, 'note', self.text), (kind == 1, 'number', lambda: self.below(2**32) - 2**31)]

    def person(self, deep):
        return self.struct([
            (0.9, 'id', lambda: self.random.choice([0, self.below(2**64)])),
            (0.8, 'name', self.text),
            (0.5, 'email', self.text),
            (0.6, 'phones', lambda: self.listed(4, self.phone)),
            (0.5, 'birth', self.birth),
            (0.4, 'scores', lambda: self.listed(4, lambda: self.listed(4, self.score))),
            (0.4, 'flags', lambda: self.listed(20, lambda: self.random.choice(['true', 'false']))),
            (0.4, 'blob', self.blob),
            (0.4, 'ages', lambda: self.listed(12, lambda: str(self.below(256)))),
            (0.2, 'voids', lambda: self.listed(5, lambda: 'void')),
            *self.union(),
            (0.3, 'height', lambda: self.random.choice([0, 1.75])),
            (0.6 if deep else 0, 'friends', lambda: self.listed(4, lambda: self.person(deep - 1))),
        ])


def main():
    seed, count, deep = map(int, sys.argv[1:])
    people = People(seed)
    for _ in range(count):
        print(people.person(deep))


main()
