#!/usr/bin/env python3
"""Measures how many bytes of stack a built layout_tool takes for each level of a message.

    stack.py BINARY

There are three kinds of chains of nested objects: structs, lists of pointers, lists of structs. For each kind and each
command, this script finds the deepest chain that the program answers with a small stack, and with a larger one. It prints
the difference of the stacks divided by the difference of the levels. A deeper message ends the program by a signal."""
import itertools
import resource
import subprocess
import sys

STACKS = (1 << 20, 8 << 20)
COMMANDS = ('canon', 'check', 'size')
# One level of each kind: a struct of one pointer, a list of one pointer, a list of one such struct. Its content comes next.
CHAINS = {
    'structs': [1 << 48],
    'lists of pointers': [1 | 6 << 32 | 1 << 35],
    'lists of structs': [1 | 7 << 32 | 1 << 35, 1 << 2 | 1 << 48],
}


def is_answered(binary, command, words, levels, stack):
    """Whether a command answers a chain of `levels` levels that ends in a null pointer, with `stack` bytes of stack."""
    def limit():
        resource.setrlimit(resource.RLIMIT_STACK, (stack, stack))
        resource.setrlimit(resource.RLIMIT_CORE, (0, 0))

    message = levels * b''.join(it.to_bytes(8, 'little') for it in words) + bytes(8)
    nesting = levels + 2
    run = subprocess.run([binary, command, str(nesting), 'none'], input=message.hex().encode(), capture_output=True, preexec_fn=limit)
    return run.returncode == 0


def deepest(binary, command, words, stack):
    """The number of levels of the deepest chain that a command answers, with an error of at most one part in 2000."""
    least, most = 1, 2
    while is_answered(binary, command, words, most, stack):
        least, most = most, 2 * most
    while most - least > max(1, least // 2000):
        middle = (least + most) // 2
        least, most = (middle, most) if is_answered(binary, command, words, middle, stack) else (least, middle)
    return least


for command, (name, words) in itertools.product(COMMANDS, CHAINS.items()):
    small, great = (deepest(sys.argv[1], command, words, stack) for stack in STACKS)
    print(f'{command}, {name}: {small} levels in {STACKS[0] >> 10} KiB, {great} in {STACKS[1] >> 10} KiB: {(STACKS[1] - STACKS[0]) / (great - small):.0f} bytes per level')
