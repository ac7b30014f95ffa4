#!/usr/bin/env python3
"""Writes a random address book as text for `capnp encode addressbook.capnp AddressBook`.

    book.py SEED COUNT"""
import random
import sys

LETTERS = 'abcdefghijklmnop "\\'


def text(it):
    letters = ''.join(it.choice(LETTERS) for _ in range(it.randrange(20)))
    return '"' + letters.replace('\\', '\\\\').replace('"', '\\"') + '"'


def struct(it, fields):
    """A struct with some of these fields."""
    return '(' + ', '.join(f'{name} = {value()}' for chance, name, value in fields if it.random() < chance) + ')'


def phone(it):
    return struct(it, [(.8, 'number', lambda: text(it)), (.6, 'type', lambda: it.choice(['mobile', 'home', 'work']))])


def employment(it):
    return it.choice(['unemployed = void', 'selfEmployed = void', f'employer = {text(it)}', f'school = {text(it)}'])


def person(it):
    return struct(it, [
        (.9, 'id', lambda: it.randrange(2 ** 32)),
        (.9, 'name', lambda: text(it)),
        (.6, 'email', lambda: text(it)),
        (.7, 'phones', lambda: '[' + ', '.join(phone(it) for _ in range(it.randrange(4))) + ']'),
        (.8, 'employment', lambda: f'({employment(it)})'),
    ])


def main(words):
    it = random.Random(int(words[0]))
    print('(people = [' + ', '.join(person(it) for _ in range(int(words[1]))) + '])')


main(sys.argv[1:])
