#!/usr/bin/env python3
"""Tests tools/c_of_module, which translates LLVM modules to C: functions for each instruction that it knows, and modules that
it must refuse.

    instructions.py [COMPILER..]

Each compiler compiles the C at -O0, -O2 and -O3 and with the address and undefined-behaviour sanitizers, and the programs
run. Without arguments these are gcc, clang, and gcc for aarch64 with qemu. The expected results are computed in Python, from
LLVM's language reference. clang also compiles the C for WebAssembly, and node runs that. If the toolchain is there, its clang
compiles the module itself, with the same expected results. What isn't there is skipped, and a line says so. The last line is `N passed, M failed`."""
import functools
import itertools
import json
import pathlib
import re
import shutil
import subprocess
import sys
import tempfile

TOP = pathlib.Path(__file__).resolve().parents[2]
WRITER = TOP / 'tools/c_of_module'
sys.path.append(str(WRITER))
sys.dont_write_bytecode = True

import constants
import writing

WIDTHS = 8, 16, 32, 64
MOST = 2**64 - 1
FLAGS = '-std=c11 -Wall -Wextra -Werror -Wno-unused-function -Wno-unused-variable -Wno-unused-but-set-variable'.split()
KINDS = {'-O0': ['-O0'], '-O2': ['-O2'], '-O3': ['-O3'], 'sanitizers': ['-O1', '-g', '-fsanitize=address,undefined', '-fno-sanitize-recover=all']}

# The commands that run programs for another machine, by compiler.
RUNNERS = {'aarch64-linux-gnu-gcc': ['qemu-aarch64', '-L', '/usr/aarch64-linux-gnu']}


class Cases:
    """The text of functions of two numbers, and calls with their expected results."""

    def __init__(self):
        self.text, self.calls, self.count = [], [], 0

    def add(self, body, wanted, pairs=((0, 0),), before=''):
        """Adds a function with this body, which may use %a and %b. `wanted` computes its result in Python."""
        name = f'test_{self.count}'
        self.count += 1
        lines = '\n'.join(it if it[:2] == '  ' or re.match(r'[\w.]+:', it) else f'  {it}' for it in body.strip().split('\n'))
        self.text.append(f'{before}\ndefine i64 @{name}(i64 noundef %a, i64 noundef %b) unnamed_addr #0 {{\nstart:\n{lines}\n}}\n')
        self.calls += [(name, a, b, wanted(a, b) & MOST) for a, b in pairs]


def signed(number, width):
    number &= 2**width - 1
    return number - 2**width if number >> width - 1 else number


def edges(width):
    """Pairs of numbers near the limits of `width` bits, with further bits above."""
    ends = [0, 1, 2, 3, width - 1, 2**(width - 1) - 1, 2**(width - 1), 2**(width - 1) + 1, 2**width - 2, 2**width - 1, 0x5a5a5a5a5a5a5a5a & 2**width - 1]
    return [(a | 0xc3 << width & MOST, b) for a, b in itertools.product(ends, ends)]


def narrowed(width, *names):
    """Lines that truncate %a and %b to `width` bits, and the names of the results."""
    if width == 64:
        return '', [f'%{it}' for it in names]
    return ''.join(f'%{it}n = trunc i64 %{it} to i{width}\n' for it in names), [f'%{it}n' for it in names]


def widened(width, name, how='zext'):
    return f'ret i64 {name}' if width == 64 else f'%wide = {how} i{width} {name} to i64\nret i64 %wide'


def quotient(a, b):
    """Divides, rounding towards zero."""
    return abs(a) // abs(b) * (1 if (a < 0) == (b < 0) else -1)


def of_signed(count):
    return lambda a, b, width: count(signed(a, width), signed(b, width))


BINARY = {
    'add': lambda a, b, w: a + b, 'sub': lambda a, b, w: a - b, 'mul': lambda a, b, w: a * b, 'and': lambda a, b, w: a & b, 'or': lambda a, b, w: a | b,
    'xor': lambda a, b, w: a ^ b, 'udiv': lambda a, b, w: a // b, 'urem': lambda a, b, w: a % b, 'shl': lambda a, b, w: a << b,
    'lshr': lambda a, b, w: a >> b, 'ashr': lambda a, b, w: signed(a, w) >> b, 'sdiv': of_signed(quotient),
    'srem': of_signed(lambda a, b: a - b * quotient(a, b)),
}
COMPARED = {
    'eq': lambda a, b, w: a == b, 'ne': lambda a, b, w: a != b, 'ult': lambda a, b, w: a < b, 'ule': lambda a, b, w: a <= b, 'ugt': lambda a, b, w: a > b,
    'uge': lambda a, b, w: a >= b, 'slt': of_signed(lambda a, b: a < b), 'sle': of_signed(lambda a, b: a <= b), 'sgt': of_signed(lambda a, b: a > b),
    'sge': of_signed(lambda a, b: a >= b),
}
NUMBERS = {
    'abs': lambda a, b, w: abs(signed(a, w)), 'ctpop': lambda a, b, w: bin(a).count('1'), 'cttz': lambda a, b, w: (a & -a).bit_length() - 1 if a else w, 'ctlz': lambda a, b, w: w - a.bit_length(),
    'bswap': lambda a, b, w: int.from_bytes(a.to_bytes(w // 8, 'little'), 'big'), 'umin': lambda a, b, w: min(a, b), 'umax': lambda a, b, w: max(a, b),
    'smin': of_signed(min), 'smax': of_signed(max), 'uadd.sat': lambda a, b, w: min(a + b, 2**w - 1), 'usub.sat': lambda a, b, w: max(a - b, 0),
}
# Two numbers, joined and shifted by a third one, modulo their width: the upper half, and the lower one.
JOINED = {
    'fshl': lambda a, b, c, w: ((a << w | b) << c % w) >> w, 'fshr': lambda a, b, c, w: (a << w | b) >> c % w,
}


def is_defined(word, a, b, width):
    """Whether the operation has a value. A proved module never does one without a value."""
    if word in ('udiv', 'urem'):
        return b != 0
    if word in ('sdiv', 'srem'):
        return b != 0 and not (signed(b, width) == -1 and signed(a, width) == -2**(width - 1))
    return b < width if word in ('shl', 'lshr', 'ashr') else True


def arithmetic(cases):
    for (word, count), width in itertools.product(BINARY.items(), WIDTHS):
        cut, (a, b) = narrowed(width, 'a', 'b')
        pairs = [(x, y) for x, y in edges(width) if is_defined(word, x % 2**width, y, width)]
        cases.add(f'{cut}%r = {word} i{width} {a}, {b}\n{widened(width, "%r")}', lambda x, y, count=count, width=width: count(x % 2**width, y, width) % 2**width, pairs)
        # by a constant, and with promises about the result
        constant = next(y for _, y in edges(width) if y > 2 and is_defined(word, 5, y, width))
        pairs = [(x, 0) for x, _ in edges(width)]
        cases.add(f'{cut}%r = {word} i{width} {a}, {constant}\n{widened(width, "%r")}', lambda x, _, count=count, width=width, y=constant: count(x % 2**width, y, width) % 2**width, pairs)
    for word in 'and', 'or', 'xor':
        pairs = list(itertools.product((0, 1, 6, 7), repeat=2))
        cases.add(f'%x = trunc i64 %a to i1\n%y = trunc i64 %b to i1\n%r = {word} i1 %x, %y\n%wide = zext i1 %r to i64\nret i64 %wide', lambda a, b, word=word: BINARY[word](a & 1, b & 1, 1), pairs)
    cases.add('%x = trunc i64 %a to i1\n%r = xor i1 %x, true\n%wide = zext i1 %r to i64\nret i64 %wide', lambda a, b: ~a & 1, [(0, 0), (1, 0), (6, 0)])
    cases.add('%x = add nuw nsw i64 %a, 1\n%y = or disjoint i64 %x, 0\n%r = udiv exact i64 %y, 1\nret i64 %r', lambda a, b: a + 1, [(5, 0)])
    # products of numbers shorter than C's `int`, which would overflow in C
    cases.add('%x = trunc i64 %a to i16\n%y = mul i16 %x, %x\n%z = shl i16 %y, 15\n%r = zext i16 %z to i64\nret i64 %r', lambda a, b: a * a << 15 & 0xffff, [(0xffff, 0), (0x8001, 0)])


def comparing(cases):
    for (word, count), width in itertools.product(COMPARED.items(), WIDTHS):
        cut, (a, b) = narrowed(width, 'a', 'b')
        cases.add(f'{cut}%r = icmp {word} i{width} {a}, {b}\n{widened(1, "%r")}', lambda x, y, count=count, width=width: count(x % 2**width, y, width), edges(width))
    for word in 'eq', 'ult':
        cases.add(f'%x = inttoptr i64 %a to ptr\n%y = inttoptr i64 %b to ptr\n%r = icmp samesign {word} ptr %x, %y\n{widened(1, "%r")}'.replace('samesign ' if word == 'eq' else 'none', ''),
                  lambda a, b, word=word: COMPARED[word](a, b, 64), edges(64))
    cases.add('%c = icmp eq i64 %a, %b\n%r = select i1 %c, i64 77, i64 %a\nret i64 %r', lambda a, b: 77 if a == b else a, [(3, 3), (3, 4)])
    cases.add('%c = trunc i64 %a to i1\n%d = freeze i1 %c\n%r = select i1 %d, i64 %b, i64 9\nret i64 %r', lambda a, b: b if a & 1 else 9, [(3, 5), (4, 5)])


def casting(cases):
    for wide, width in itertools.combinations((64, 32, 16, 8), 2):
        for how in 'zext', 'sext':
            count = (lambda a, b, n=width, w=wide: signed(a, n) % 2**w) if how == 'sext' else (lambda a, b, n=width: a % 2**n)
            cut, (a,) = narrowed(width, 'a')
            cases.add(f'{cut}%r = {how} i{width} {a} to i{wide}\n{widened(wide, "%r")}', count, edges(width))
    for width in WIDTHS:
        cases.add(f'%x = trunc i64 %a to i1\n%r = sext i1 %x to i{width}\n{widened(width, "%r")}', lambda a, b, w=width: 2**w - 1 if a & 1 else 0, [(0, 0), (1, 0), (2, 0), (MOST, 0)])
    for how in 'ptrtoint', 'ptrtoaddr':
        cases.add(f'%p = inttoptr i64 %a to ptr\n%r = {how} ptr %p to i64\nret i64 %r', lambda a, b: a, edges(64)[:5])


def remembering(cases):
    for width in WIDTHS:
        cut, (a,) = narrowed(width, 'a')
        cases.add(f'%at = alloca [16 x i8], align 8\ncall void @llvm.memset.p0.i64(ptr nonnull align 8 %at, i8 85, i64 16, i1 false)\n%p = getelementptr inbounds i8, ptr %at, i64 3\n'
                  f'{cut}store i{width} {a}, ptr %p, align 1\n%r = load i64, ptr %p, align 1\nret i64 %r',
                  lambda a, b, w=width: a % 2**w | 0x5555555555555555 >> w << w, edges(width)[:12])
        cases.add(f'%at = alloca i64, align 8\nstore i64 %a, ptr %at, align 8\n%v = load i{width}, ptr %at, align 1, !noundef !1\n{widened(width, "%v")}', lambda a, b, w=width: a % 2**w, edges(64)[:12])
    # numbers that are moved, truncated, extended and shifted, also through a choice
    for width in (24, 40, 48, 56):
        cases.add(f'%x = alloca i64, align 8\n%y = alloca i64, align 8\nstore i64 %a, ptr %x, align 8\nstore i64 %b, ptr %y, align 8\n%v = load i{width}, ptr %x, align 1\n%w = load i{width}, ptr %y, align 1\n'
                  f'%c = icmp ult i64 %a, %b\n%m = select i1 %c, i{width} %w, i{width} %v\nstore i{width} %m, ptr %y, align 1\n%r = load i64, ptr %y, align 8\nret i64 %r',
                  lambda a, b, w=width: max(a, b) % 2**w | b >> w << w, edges(64)[:40])
        cases.add(f'%x = alloca i64, align 8\nstore i64 %a, ptr %x, align 8\nstore i{width} 0, ptr %x, align 1\n%r = load i64, ptr %x, align 8\nret i64 %r', lambda a, b, w=width: a >> w << w, edges(64)[:12])
        cases.add(f'%v = trunc i64 %a to i{width}\n%r = zext i{width} %v to i64\nret i64 %r', lambda a, b, w=width: a % 2**w, edges(64)[:12])
        # a table of few bytes in such a number, which LLVM makes of a choice: a byte of it, by a shift
        for word, by in ('lshr', 5), ('shl', 7), ('mul', 8):
            count = BINARY[word]
            cases.add(f'%v = trunc i64 %a to i{width}\n%w = {word} i{width} %v, {by}\n%r = zext i{width} %w to i64\nret i64 %r', lambda a, b, w=width, count=count, by=by: count(a % 2**w, by, w) % 2**w, edges(64)[:12])
        cases.add(f'%v = trunc i64 %a to i{width}\n%n = trunc i64 %b to i{width}\n%by = shl i{width} %n, 3\n%w = lshr i{width} %v, %by\n%c = trunc i{width} %w to i8\n%r = zext i8 %c to i64\nret i64 %r',
                  lambda a, b: a >> 8 * b & 0xff, [(0x0123456789abcdef, b) for b in range(width // 8)])
        cases.add(f'%n = trunc i64 %b to i{width}\n%by = shl i{width} %n, 3\n%w = lshr i{width} 66051, %by\n%c = trunc i{width} %w to i8\n%r = zext i8 %c to i64\nret i64 %r',
                  lambda a, b: 0x010203 >> 8 * b & 0xff, [(0, b) for b in range(width // 8)])
        # a choice of two such tables, which C could keep in 32 bits
        choice = f'%c = icmp ult i64 %a, 5\n%v = select i1 %c, i{width} 66051, i{width} 197121\n'
        for word in 'lshr', 'shl':
            cases.add(f'{choice}%n = trunc i64 %b to i{width}\n%by = shl i{width} %n, 3\n%w = {word} i{width} %v, %by\n%r = zext i{width} %w to i64\nret i64 %r',
                      lambda a, b, w=width, count=BINARY[word]: count(0x010203 if a < 5 else 0x030201, 8 * b, w) % 2**w, [(a, b) for a in (4, 5) for b in range(width // 8)])
        cases.add(f'{choice}%d = icmp ult i64 %b, 5\n%y = select i1 %d, i{width} 16777215, i{width} 16777214\n%w = mul i{width} %v, %y\n%r = zext i{width} %w to i64\nret i64 %r',
                  lambda a, b, w=width: (0x010203 if a < 5 else 0x030201) * (2**24 - 1 - (b > 4)) % 2**w, [(4, 4), (4, 5), (5, 4), (5, 5)])
    for width, how in itertools.product((24, 40, 48, 56), ('eq', 'ne', 'ult', 'uge')):
        cases.add(f'%v = trunc i64 %a to i{width}\n%w = trunc i64 %b to i{width}\n%c = icmp {how} i{width} %v, %w\n%d = icmp {how} i{width} %v, 7\n'
                  '%x = zext i1 %c to i64\n%y = zext i1 %d to i64\n%z = shl i64 %x, 1\n%r = or i64 %z, %y\nret i64 %r',
                  lambda a, b, w=width, it=COMPARED[how]: 2 * it(a % 2**w, b % 2**w, w) + it(a % 2**w, 7, w), [*edges(64)[:20], (7, 7), (7 << width | 7, 7), (7, 7 << width)])
    # an unused cast, and a value that is read only for it
    cases.add('%at = alloca i64, align 8\nstore i64 %a, ptr %at, align 8\n%v = load i8, ptr %at, align 8\n%u = trunc i8 %v to i1\nret i64 %b', lambda a, b: b, [(5, 8)])
    # a read before a write returns the old value
    cases.add('%at = alloca i64, align 8\nstore i64 %a, ptr %at, align 8\n%old = load i64, ptr %at, align 8\nstore i64 %b, ptr %at, align 8\n%new = load i64, ptr %at, align 8\n'
              '%r = sub i64 %old, %new\nret i64 %r', lambda a, b: a - b, [(9, 4), (4, 9)])
    cases.add('%at = alloca i64, align 8\nstore i64 %a, ptr %at, align 8\n%old = load i64, ptr %at, align 8\n%c = call fastcc i64 @writes(ptr %at, i64 %b)\n%r = sub i64 %old, %c\nret i64 %r',
              lambda a, b: a - b, [(9, 4), (4, 9)], 'define internal fastcc i64 @writes(ptr noundef %to, i64 %it) unnamed_addr #1 {\nstart:\n  store i64 %it, ptr %to, align 8\n  ret i64 %it\n}\n')
    cases.add('%at = alloca [2 x ptr], align 8\n%p = inttoptr i64 %a to ptr\nstore ptr %p, ptr %at, align 8\n%q = load ptr, ptr %at, align 8\n%r = ptrtoint ptr %q to i64\nret i64 %r', lambda a, b: a, [(MOST, 0), (5, 0)])
    cases.add('%at = alloca { i64, i64 }, align 8\nstore i64 %a, ptr %at, align 8\n%p = getelementptr inbounds i8, ptr %at, i64 8\nstore i64 %b, ptr %p, align 8\n'
              '%both = load { i64, i64 }, ptr %at, align 8\n%x = extractvalue { i64, i64 } %both, 0\n%y = extractvalue { i64, i64 } %both, 1\n%r = sub i64 %x, %y\nret i64 %r', lambda a, b: a - b, [(1, 2), (7, 3)])
    # the bytes of one type, read as another type
    cases.add('%at = alloca i64, align 8\nstore i64 %a, ptr %at, align 8\n%p = getelementptr inbounds i8, ptr %at, i64 2\nstore i16 7, ptr %p, align 2\n%r = load i64, ptr %at, align 8\nret i64 %r',
              lambda a, b: a & ~0xffff0000 | 0x70000, edges(64)[:9])
    cases.add('%x = alloca i64, align 8\n%y = alloca i64, align 8\ncall void @llvm.lifetime.start.p0(ptr nonnull %x)\nstore i64 %a, ptr %x, align 8\n%v = load i64, ptr %x, align 8\n'
              'call void @llvm.lifetime.end.p0(ptr nonnull %x)\ncall void @llvm.lifetime.start.p0(ptr nonnull %y)\nstore i64 %b, ptr %y, align 8\n%w = load i64, ptr %y, align 8\n'
              'call void @llvm.lifetime.end.p0(ptr nonnull %y)\n%r = sub i64 %v, %w\nret i64 %r', lambda a, b: a - b, [(5, 8)])


def addressing(cases):
    for kind, step in ('i8', 1), ('i16', 2), ('i32', 4), ('i64', 8), ('[3 x i8]', 3), ('{ i64, i8 }', 16):
        head = f'%at = alloca [64 x i8], align 8\n%n = ptrtoint ptr %at to i64\n'
        for inside in 'inbounds ', '':
            cases.add(f'{head}%p = getelementptr {inside}{kind}, ptr %at, i64 %a\n%m = ptrtoint ptr %p to i64\n%r = sub i64 %m, %n\nret i64 %r', lambda a, b, step=step: a * step, [(0, 0), (1, 0), (3, 0)])
            cases.add(f'{head}%p = getelementptr {inside}{kind}, ptr %at, i64 2\n%q = getelementptr {inside}{kind}, ptr %p, i64 -2\n%m = ptrtoint ptr %q to i64\n%r = sub i64 %m, %n\nret i64 %r', lambda a, b: 0)
        cases.add(f'{head}%p = getelementptr inbounds {kind}, ptr %at, i64 3\n%q = getelementptr inbounds {kind}, ptr %p, i64 %a\n%m = ptrtoint ptr %q to i64\n%r = sub i64 %m, %n\nret i64 %r',
                  lambda a, b, step=step: (3 + signed(a, 64)) * step, [(0, 0), (MOST, 0), (MOST - 2, 0)])
        cases.add(f'{head}%p = getelementptr {kind}, ptr %at, i64 %a\n%m = ptrtoint ptr %p to i64\n%r = sub i64 %m, %n\nret i64 %r', lambda a, b, step=step: a * step, [(MOST, 0), (2**40, 0)])


def blocks(cases):
    fill = '%at = alloca [160 x i8], align 8\ncall void @llvm.memset.p0.i64(ptr nonnull %at, i8 0, i64 160, i1 false)\n' + ''.join(
        f'%p{i} = getelementptr inbounds i8, ptr %at, i64 {i}\nstore i8 {i + 1}, ptr %p{i}, align 1\n' for i in range(80))
    memory = bytes(i + 1 if i < 80 else 0 for i in range(160))

    def moved(size, to, start):
        after = bytearray(memory)
        after[to:to + size] = memory[start:start + size]
        return int.from_bytes(after[to + size // 2:to + size // 2 + 8], 'little')

    for size, (to, start), variable in itertools.product((0, 1, 7, 8, 13, 64, 65, 72), ((5, 0), (0, 5)), (False, True)):
        count = '%a' if variable else str(size)
        cases.add(f'{fill}%to = getelementptr inbounds i8, ptr %at, i64 {to}\n%from = getelementptr inbounds i8, ptr %at, i64 {start}\n'
                  f'call void @llvm.memmove.p0.p0.i64(ptr nonnull align 1 %to, ptr nonnull align 1 %from, i64 {count}, i1 false)\n'
                  f'%seen = getelementptr inbounds i8, ptr %at, i64 {to + size // 2}\n%r = load i64, ptr %seen, align 1\nret i64 %r', lambda a, b, it=(size, to, start): moved(*it), [(size, 0)])
    for size in 0, 3, 64, 70:
        cases.add(f'{fill}%to = getelementptr inbounds i8, ptr %at, i64 80\ncall void @llvm.memcpy.p0.p0.i64(ptr %to, ptr %at, i64 {size}, i1 false)\n'
                  f'%seen = getelementptr inbounds i8, ptr %at, i64 {80 + size // 2}\n%r = load i64, ptr %seen, align 1\nret i64 %r', lambda a, b, it=(size, 80, 0): moved(*it))
    for size, variable in itertools.product((0, 4, 100), (False, True)):
        after = bytes([7] * size) + memory[size:]
        cases.add(f'{fill}call void @llvm.memset.p0.i64(ptr %at, i8 7, i64 {"%a" if variable else size}, i1 false)\n%r = load i64, ptr %at, align 1\nret i64 %r',
                  lambda a, b, after=after: int.from_bytes(after[:8], 'little'), [(size, 0)])
    # a null pointer with a count of 0
    cases.add('%p = inttoptr i64 %b to ptr\ncall void @llvm.memset.p0.i64(ptr %p, i8 7, i64 %a, i1 false)\ncall void @llvm.memmove.p0.p0.i64(ptr %p, ptr %p, i64 %a, i1 false)\n'
              'call void @llvm.memcpy.p0.p0.i64(ptr null, ptr null, i64 %a, i1 false)\nret i64 1', lambda a, b: 1)


def jumping(cases):
    loop = '''br label %loop
loop:
%i = phi i64 [ 0, %start ], [ %next, %loop ]
%x = phi i64 [ %a, %start ], [ %y, %loop ]
%y = phi i64 [ %b, %start ], [ %x, %loop ]
%next = add i64 %i, 1
%more = icmp ult i64 %next, 5
br i1 %more, label %loop, label %end
end:
%r = sub i64 %x, %y
ret i64 %r'''
    cases.add(loop, lambda a, b: a - b, [(10, 3), (3, 10)])
    cases.add(loop.replace('5', '4'), lambda a, b: b - a, [(10, 3)])
    switch = '''switch i64 %a, label %other [
    i64 0, label %same
    i64 -1, label %two
    i64 5, label %same
  ]
same:
%v = phi i64 [ 70, %start ], [ 70, %start ]
ret i64 %v
two:
ret i64 %b
other:
ret i64 3'''
    cases.add(switch, lambda a, b: 70 if a in (0, 5) else b if a == MOST else 3, [(0, 9), (5, 9), (MOST, 9), (7, 9)])
    cases.add('%x = trunc i64 %a to i8\nswitch i8 %x, label %other [\n    i8 -1, label %one\n  ]\none:\nret i64 1\nother:\nret i64 2', lambda a, b: 1 if a & 255 == 255 else 2, [(255, 0), (0x1ff, 0), (1, 0)])
    # several jumps from one block to another one, where a value is chosen that nothing else uses: one that is computed, one that
    # is read, and one that is read twice
    before = '%at = alloca i64, align 8\nstore i64 %b, ptr %at, align 8\n%old = load i64, ptr %at, align 8\n'
    arms = 'switch i64 %a, label %same [\n    i64 0, label %same\n    i64 5, label %two\n    i64 7, label %same\n  ]\nsame:\n%v = phi i64 [ X, %start ], [ X, %start ], [ X, %start ]\nret i64 %v\ntwo:\nret i64 3'
    both = '%c = icmp ult i64 %a, 9\nbr i1 %c, label %same, label %same\nsame:\n%v = phi i64 [ X, %start ], [ X, %start ]\nret i64 %v'
    for value, body, count in (
        ('%x', '%x = add i64 %b, 1\n', lambda b: b + 1), ('%old', before, lambda b: b),
        ('%y', before + '%x = mul i64 %old, 3\n%new = load i64, ptr %at, align 8\n%y = xor i64 %x, %new\n', lambda b: 3 * b ^ b),
    ):
        pairs = [(0, 4), (5, 4), (7, 4), (8, MOST), (MOST, 6)]
        cases.add(body + arms.replace('X', value), lambda a, b, count=count: 3 if a == 5 else count(b), pairs)
        cases.add(body + both.replace('X', value), lambda a, b, count=count: count(b), pairs)
    # the same in a loop, where an old value would be seen
    cases.add('''br label %loop
loop:
%i = phi i64 [ 0, %start ], [ %next, %on ]
%sum = phi i64 [ 0, %start ], [ %more, %on ]
%x = mul i64 %i, 10
switch i64 %i, label %on [
    i64 1, label %on
    i64 2, label %skip
    i64 3, label %on
  ]
skip:
br label %on
on:
%v = phi i64 [ %x, %loop ], [ %x, %loop ], [ %x, %loop ], [ 7, %skip ]
%more = add i64 %sum, %v
%next = add i64 %i, 1
%again = icmp ult i64 %next, %a
br i1 %again, label %loop, label %end
end:
ret i64 %more''', lambda a, b: sum(7 if i == 2 else 10 * i for i in range(max(a, 1))), [(0, 0), (1, 0), (2, 0), (3, 0), (4, 0), (9, 0)])
    cases.add('%c = icmp ult i64 %a, %b\nbr i1 %c, label %never, label %on\non:\nret i64 4\nnever:\ncall void @llvm.trap()\nunreachable', lambda a, b: 4, [(5, 4)])
    cases.add('%both = call fastcc { i64, i8 } @pair(i64 %a, i64 %b)\n%x = extractvalue { i64, i8 } %both, 0\n%y = extractvalue { i64, i8 } %both, 1\n%z = zext i8 %y to i64\n%r = mul i64 %x, %z\nret i64 %r',
              lambda a, b: a * (b & 255), [(6, 7), (6, 263)],
              'define internal fastcc { i64, i8 } @pair(i64 noundef %x, i64 noundef %y) unnamed_addr #2 {\nstart:\n  %small = trunc i64 %y to i8\n  %one = insertvalue { i64, i8 } poison, i64 %x, 0\n'
              '  %both = insertvalue { i64, i8 } %one, i8 %small, 1\n  ret { i64, i8 } %both\n}\n')
    cases.add('call fastcc void @nothing()\nret i64 8', lambda a, b: 8, before='define internal fastcc void @nothing() unnamed_addr #0 {\nstart:\n  ret void\n}\n')


def as_llvm_writes(text):
    """A constant's bytes in LLVM's form: two backslashes for one, and two hex digits for a quote or an unprintable byte."""
    return ''.join('\\\\' if it == 92 else chr(it) if 32 <= it < 127 and it != 34 else f'\\{it:02X}' for it in text)


def standing(cases):
    """Constants."""
    # every byte, and each of them next to a backslash, which LLVM writes as two
    for name, row in ('bytes', bytes(range(256))), ('pairs', b''.join(bytes((92, it, it, 92)) for it in range(256))), ('slashes', b'\\41\\'):
        cases.add(f'%p = getelementptr inbounds i8, ptr @{name}, i64 %a\n%v = load i8, ptr %p, align 1\n%r = zext i8 %v to i64\nret i64 %r', lambda a, b, row=row: row[a],
                  [(i, 0) for i in range(len(row))], f'@{name} = private unnamed_addr constant [{len(row)} x i8] c"{as_llvm_writes(row)}", align 1\n')
    text = b'a"b\\c?? /*\n\xff\x00z'
    shown = ''.join(chr(it) if 32 <= it < 127 and it not in (34, 92) else f'\\{it:02X}' for it in text)
    before = f'@row = private unnamed_addr constant [{len(text)} x i8] c"{shown}", align 1\n@plain = internal constant [9 x i8] c"say \\22hi?\\22", align 1\n' \
             '@numbers = private unnamed_addr constant [3 x i32] [i32 -1, i32 7, i32 2147483647], align 4\n@zeros = private unnamed_addr constant [4 x i8] zeroinitializer, align 1\n' \
             '@places = private unnamed_addr constant [2 x ptr] [ptr @row, ptr @zeros], align 8\n' \
             '@record = private constant <{ ptr, ptr, [5 x i8] }> <{ ptr getelementptr (i8, ptr @record, i64 17), ptr @plain, [5 x i8] c"ab\\00\\22c" }>, align 8\n' \
             '@mixed = private constant <{ ptr, [8 x i8], ptr, [24 x i8], ptr, [3 x i8] }> <{ ptr @plain, [8 x i8] c"\\04\\00\\00\\00\\00\\00\\00\\00", ptr getelementptr (i8, ptr @mixed, i64 56), [24 x i8] zeroinitializer, ptr @plain, [3 x i8] c"xyz" }>, align 8\n'
    load = '%p = getelementptr inbounds i8, ptr {}, i64 %a\n%v = load i8, ptr %p, align 1\n%r = zext i8 %v to i64\nret i64 %r'
    cases.add(load.format('@row'), lambda a, b: text[a], [(i, 0) for i in range(len(text))], before)
    cases.add(load.format('@plain'), lambda a, b: b'say "hi?"'[a], [(i, 0) for i in range(9)])
    cases.add(load.format('@zeros'), lambda a, b: 0, [(3, 0)])
    cases.add('%p = getelementptr inbounds i32, ptr @numbers, i64 %a\n%v = load i32, ptr %p, align 4\n%r = zext i32 %v to i64\nret i64 %r', lambda a, b: [2**32 - 1, 7, 2**31 - 1][a], [(i, 0) for i in range(3)])
    cases.add('%p = getelementptr inbounds ptr, ptr @places, i64 %a\n%q = load ptr, ptr %p, align 8\n%v = load i8, ptr %q, align 1\n%r = zext i8 %v to i64\nret i64 %r', lambda a, b: [text[0], 0][a], [(0, 0), (1, 0)])
    for record, at, wanted in ('record', 0, b'b\0"c'), ('record', 8, b'say "hi?"'), ('mixed', 0, b'say "hi?"'), ('mixed', 16, b'xyz'), ('mixed', 48, b'say "hi?"'):
        cases.add(f'%at = getelementptr inbounds i8, ptr @{record}, i64 {at}\n%q = load ptr, ptr %at, align 8\n%p = getelementptr inbounds i8, ptr %q, i64 %a\n%v = load i8, ptr %p, align 1\n%r = zext i8 %v to i64\nret i64 %r',
                  lambda a, b, wanted=wanted: wanted[a], [(i, 0) for i in range(len(wanted))])
    cases.add('%v = load i8, ptr getelementptr inbounds (i8, ptr @row, i64 2), align 1\n%r = zext i8 %v to i64\nret i64 %r', lambda a, b: text[2])
    cases.add('%x = getelementptr inbounds i8, ptr @row, i64 3\n%n = ptrtoint ptr %x to i64\n%r = sub i64 %n, ptrtoint (ptr @row to i64)\nret i64 %r', lambda a, b: 3)


def vectors(cases):
    spread = '%at = alloca [64 x i8], align 8\n' + ''.join(f'%x{i} = add i64 %{"ab"[i % 2]}, {i * 0x0101}\n%p{i} = getelementptr inbounds i8, ptr %at, i64 {8 * i}\nstore i64 %x{i}, ptr %p{i}, align 1\n' for i in range(8))

    def memory(a, b):
        return b''.join(((b if i % 2 else a) + i * 0x0101 & MOST).to_bytes(8, 'little') for i in range(8))

    pairs = [(0, 0), (1, MOST), (0x80ff00017f00ff80, 0x0102030405060708), (0x8000000000000000, 0)]
    for count in 8, 16, 32, 64:
        kind = f'<{count} x i8>'
        cases.add(f'{spread}%v = load {kind}, ptr %at, align 1\n%o = call i8 @llvm.vector.reduce.or.v{count}i8({kind} %v)\n%r = zext i8 %o to i64\nret i64 %r',
                  lambda a, b, n=count: functools.reduce(lambda x, y: x | y, memory(a, b)[:n]), pairs)
        cases.add(f'%to = alloca [72 x i8], align 8\n{spread}%v = load {kind}, ptr %at, align 1\nstore {kind} %v, ptr %to, align 1\n%q = getelementptr inbounds i8, ptr %to, i64 {count - 8}\n%r = load i64, ptr %q, align 1\nret i64 %r',
                  lambda a, b, n=count: int.from_bytes(memory(a, b)[n - 8:n], 'little'), pairs)
        cases.add(f'{spread}store {kind} zeroinitializer, ptr %at, align 1\n%q = getelementptr inbounds i8, ptr %at, i64 {count - 8}\n%r = load i64, ptr %q, align 1\nret i64 %r', lambda a, b: 0, pairs)
    for word in 'and', 'or', 'xor':
        cases.add(f'{spread}%q = getelementptr inbounds i8, ptr %at, i64 8\n%v = load <16 x i8>, ptr %at, align 1\n%w = load <16 x i8>, ptr %q, align 1\n%u = {word} <16 x i8> %v, %w\nstore <16 x i8> %u, ptr %at, align 1\n'
                  '%r = load i64, ptr %at, align 1\nret i64 %r', lambda a, b, word=word: BINARY[word](a, b + 0x0101 & MOST, 64), pairs)
    for word, count in COMPARED.items():
        compared = lambda a, b, count=count: [bool(count(x, y, 8)) for x, y in zip(memory(a, b)[:16], memory(a, b)[8:24])]
        head = f'{spread}%q = getelementptr inbounds i8, ptr %at, i64 8\n%v = load <16 x i8>, ptr %at, align 1\n%w = load <16 x i8>, ptr %q, align 1\n%c = icmp {word} <16 x i8> %v, %w\n'
        cases.add(f'{head}%m = bitcast <16 x i1> %c to i16\n%r = zext i16 %m to i64\nret i64 %r', lambda a, b, it=compared: sum(bit << i for i, bit in enumerate(it(a, b))), pairs)
        cases.add(f'{head}%m = sext <16 x i1> %c to <16 x i8>\nstore <16 x i8> %m, ptr %at, align 1\n%r = load i64, ptr %at, align 1\nret i64 %r',
                  lambda a, b, it=compared: sum(255 * bit << 8 * i for i, bit in enumerate(it(a, b)[:8])), pairs)
    for start in 0, 16, 32, 48:
        cases.add(f'{spread}%v = load <64 x i8>, ptr %at, align 1\n%w = shufflevector <64 x i8> %v, <64 x i8> poison, <16 x i32> <{", ".join(f"i32 {start + i}" for i in range(16))}>\nstore <16 x i8> %w, ptr %at, align 1\n'
                  '%r = load i64, ptr %at, align 1\nret i64 %r', lambda a, b, at=start: int.from_bytes(memory(a, b)[at:at + 8], 'little'), pairs)
    cases.add('%v = bitcast i64 %a to <8 x i8>\n%w = bitcast i64 %b to <8 x i8>\n%u = xor <8 x i8> %v, %w\n%o = call i8 @llvm.vector.reduce.or.v8i8(<8 x i8> %u)\n%r = zext i8 %o to i64\nret i64 %r',
              lambda a, b: functools.reduce(lambda x, y: x | y, (a ^ b).to_bytes(8, 'little')), pairs)


def counting(cases):
    for (word, count), width in itertools.product(NUMBERS.items(), WIDTHS):
        if word == 'bswap' and width == 8:
            continue
        cut, (a, b) = narrowed(width, 'a', 'b')
        given = f'i{width} {a}, i{width} {b}' if word[:1] in 'us' else f'i{width} {a}, i1 false' if word in ('abs', 'cttz', 'ctlz') else f'i{width} {a}'
        cases.add(f'{cut}%r = call i{width} @llvm.{word}.i{width}({given})\n{widened(width, "%r")}', lambda x, y, count=count, width=width: count(x % 2**width, y, width) % 2**width, edges(width))

    for (word, count), width, by in itertools.product(JOINED.items(), WIDTHS, (0, 1, 3, 7, 8, 63, 64, 200)):
        cut, (a, b) = narrowed(width, 'a', 'b')
        by %= 2**width
        cases.add(f'{cut}%r = call i{width} @llvm.{word}.i{width}(i{width} {a}, i{width} {b}, i{width} {by})\n{widened(width, "%r")}',
                  lambda x, y, count=count, width=width, by=by: count(x % 2**width, y % 2**width, by, width) % 2**width, edges(width)[::7])
    # a product, and whether it needs more bits
    for width in 32, 64:
        cut, (a, b) = narrowed(width, 'a', 'b')
        kind = f'{{ i{width}, i1 }}'
        product = f'{cut}%p = call {kind} @llvm.umul.with.overflow.i{width}(i{width} {a}, i{width} {b})\n'
        pairs = edges(32) + edges(64)
        for over in 7, '%m':
            # the bits that are left, too
            cases.add(f'{product}%m = extractvalue {kind} %p, 0\n%o = extractvalue {kind} %p, 1\n%s = select i1 %o, i{width} {over}, i{width} %m\n{widened(width, "%s")}',
                      lambda a, b, w=width, over=over: min((a % 2**w) * (b % 2**w) >> w, 1) * 7 or (a % 2**w) * (b % 2**w) if over == 7 else (a % 2**w) * (b % 2**w) % 2**w, pairs)
        cases.add(f'{product}%o = extractvalue {kind} %p, 1\n{widened(1, "%o")}', lambda a, b, w=width: (a % 2**w) * (b % 2**w) >> w > 0, pairs)
        cases.add(f'{product}ret i64 9', lambda a, b: 9)


def long_names(cases):
    """Names that differ only after what C promises to compare, and what makes lines and texts longer than it promises to read."""
    long = 'canonical' * 30
    values = ''.join(f'%{long}{it} = add i64 %a, {number}\n' for number, it in enumerate(('one', 'two', '.i.i7', '.i.i70')))
    cases.add(f'{values}%"{long}<u8>" = mul i64 %{long}one, %{long}two\n%"{long}<u9>" = mul i64 %{long}.i.i7, %{long}.i.i70\n%x = sub i64 %"{long}<u8>", %"{long}<u9>"\n'
              f'%y = xor i64 %{long}one, %{long}.i.i70\n%z = xor i64 %{long}two, %{long}.i.i7\n%v = mul i64 %y, %z\n%r = add i64 %x, %v\nret i64 %r',
              lambda a, b: a * (a + 1) - (a + 2) * (a + 3) + (a ^ a + 3) * (a + 1 ^ a + 2), [(0, 0), (9, 0), (2**40, 0)])
    # functions, constants and blocks
    cases.add(f'%x = call fastcc i64 @"{long}::one"(i64 %a)\n%y = call fastcc i64 @"{long}::two"(i64 %a)\n%r = sub i64 %x, %y\nret i64 %r', lambda a, b: (a ^ 5) - (a ^ 9), [(0, 0), (77, 0)],
              ''.join(f'define internal fastcc i64 @"{long}::{it}"(i64 noundef %a) unnamed_addr #1 {{\nstart:\n  %r = xor i64 %a, {number}\n  ret i64 %r\n}}\n' for it, number in (('one', 5), ('two', 9))))
    cases.add(f'%p = getelementptr inbounds i32, ptr @{long}.1, i64 %a\n%q = getelementptr inbounds i32, ptr @{long}.2, i64 %a\n%v = load i32, ptr %p, align 4\n%w = load i32, ptr %q, align 4\n%u = sub i32 %v, %w\n'
              '%r = zext i32 %u to i64\nret i64 %r', lambda a, b: 7 * a % 2**32, [(0, 0), (1499, 0)],
              ''.join(f'@{long}.{it} = private unnamed_addr constant [1500 x i32] [{", ".join(f"i32 {by * i}" for i in range(1500))}], align 4\n' for it, by in ((1, 10), (2, 3))))
    cases.add(f'%c = icmp ult i64 %a, %b\nbr i1 %c, label %{long}.one, label %{long}.two\n{long}.one:\nret i64 1\n{long}.two:\nret i64 2', lambda a, b: 1 if a < b else 2, [(1, 2), (2, 1)])
    # values of the names of a function and of a constant
    cases.add('%writes = add i64 %a, 1\n%row = mul i64 %writes, %writes\n%v = load i8, ptr @row, align 1\n%w = zext i8 %v to i64\n%x = mul i64 %row, %w\n%r = add i64 %x, %row\nret i64 %r', lambda a, b: (a + 1) ** 2 * (1 + ord('a')), [(4, 0)])
    # two structs whose last fields differ
    for last in 'i32', 'i64':
        kind = f'{{ {"i64, " * 20}{last} }}'
        cut = 'trunc i64 %x to i32' if last == 'i32' else 'add i64 %x, 0'
        made = ''.join(f'  %s{i + 1} = insertvalue {kind} {f"%s{i}" if i else "poison"}, i64 %x, {i}\n' for i in range(20))
        cases.add(f'%s = call fastcc {kind} @row_of_{last}(i64 %a)\n%x = extractvalue {kind} %s, 19\n%y = extractvalue {kind} %s, 20\n' + (f'%z = zext i32 %y to i64\n%r = sub i64 %x, %z\n' if last == 'i32' else '%r = sub i64 %x, %y\n') + 'ret i64 %r',
                  lambda a, b, last=last: a - a % 2**32 if last == 'i32' else 0, [(2**40 + 5, 0)],
                  f'define internal fastcc {kind} @row_of_{last}(i64 noundef %x) unnamed_addr #1 {{\nstart:\n{made}  %last = {cut}\n  %all = insertvalue {kind} %s20, {last} %last, 20\n  ret {kind} %all\n}}\n')
    # a call with many arguments, and a block with many choices, each a long expression
    mixed = ''.join(f'%m{i}.0 = add i64 %a, {i}\n' + ''.join(f'%m{i}.{n + 1} = xor i64 %m{i}.{n}, {0x123456789abcdef + n}\n' for n in range(13)) for i in range(40))
    value = functools.reduce(lambda x, y: x ^ y, (0x123456789abcdef + n for n in range(13)))
    parameters = ', '.join(f'i64 noundef %x{i}' for i in range(40))
    sums = ''.join(f'  %s{i + 1} = add i64 {f"%s{i}" if i else "0"}, %x{i}\n' for i in range(40))
    cases.add(f'{mixed}%r = call fastcc i64 @sum_of_many({", ".join(f"i64 %m{i}.13" for i in range(40))})\nret i64 %r', lambda a, b: sum(a + i ^ value for i in range(40)), [(5, 0), (2**50, 0)],
              f'define internal fastcc i64 @sum_of_many({parameters}) unnamed_addr #1 {{\nstart:\n{sums}  ret i64 %s40\n}}\n')
    cases.add(f'{mixed}%c = icmp ult i64 %a, %b\nbr i1 %c, label %on, label %end\non:\n{"".join(f"%x{i} = phi i64 [ %m{i}.13, %start ]" + chr(10) for i in range(40))}{sums}ret i64 %s40\nend:\nret i64 7',
              lambda a, b: sum(a + i ^ value for i in range(40)) if a < b else 7, [(5, 9), (2**50, 2**60), (1, 0)])
    for name, text in ('line', b'say "so?" ' * 390), ('page', b'say "so?"\n\n' * 900):
        cases.add(f'%p = getelementptr inbounds i8, ptr @{name}, i64 %a\n%v = load i8, ptr %p, align 1\n%r = zext i8 %v to i64\nret i64 %r', lambda a, b, text=text: text[a], [(i, 0) for i in range(0, len(text), 97)],
                  f'@{name} = private unnamed_addr constant [{len(text)} x i8] c"{as_llvm_writes(text)}", align 1\n')


ATTRIBUTES = '''
attributes #0 = { nofree norecurse nosync nounwind willreturn memory(none) "frame-pointer"="all" "target-cpu"="x86-64" }
attributes #1 = { noinline nounwind "probe-stack"="inline-asm" }
attributes #2 = { cold noinline nounwind }
!1 = !{}
'''
# Modules that must be refused: with things that no proved module has, or that would mean something else in C.
BODY = 'define i64 @test_0(i64 %a, i64 %b) #0 {{\nstart:\n  {}\n  ret i64 %a\n}}\n'
REFUSED = [BODY.format(it) for it in (
    '%x = fadd double 1.0, 2.0', '%x = add i128 1, 2', '%x = add i24 1, 2', '%x = icmp slt i56 0, 0', '%x = sext i40 0 to i64', '%x = ptrtoint ptr null to i56', '%x = alloca i48, align 8', '%x = uitofp i64 %a to double', 'fence seq_cst', '%x = atomicrmw add ptr null, i64 1 seq_cst, align 8',
    '%x = cmpxchg ptr null, i64 1, i64 2 seq_cst seq_cst, align 8', '%x = load volatile i64, ptr null, align 8', '%x = load atomic i64, ptr null seq_cst, align 8',
    'store volatile i64 1, ptr null, align 8', 'store atomic i64 1, ptr null seq_cst, align 8', '%x = load i1, ptr null, align 1', 'store i1 true, ptr null, align 1', '%x = load double, ptr null, align 8',
    '%x = load ptr addrspace(1), ptr null, align 8', '%p = inttoptr i64 %a to ptr\n  %x = call i64 %p(i64 1)', 'call void asm sideeffect "nop", ""()', '%x = va_arg ptr null, i64', '%x = udiv <16 x i8> zeroinitializer, zeroinitializer',
    '%x = add <16 x i8> zeroinitializer, zeroinitializer', '%x = call i64 @llvm.bitreverse.i64(i64 %a)', '%x = call { i64, i1 } @llvm.uadd.with.overflow.i64(i64 %a, i64 %b)',
    'call void @llvm.memset.p0.i64(ptr null, i8 0, i64 8, i1 true)', 'call void @llvm.memcpy.p0.p0.i64(ptr null, ptr null, i64 8, i1 true)', '%x = extractelement <16 x i8> zeroinitializer, i64 0',
    '%x = insertelement <16 x i8> zeroinitializer, i8 1, i64 0', '%x = shufflevector <16 x i8> zeroinitializer, <16 x i8> poison, <2 x i32> <i32 1, i32 0>', '%x = getelementptr { i64, i64 }, ptr null, i64 0, i32 1',
    '%x = getelementptr i8, ptr null, i32 1', 'musttail call void @test_0(i64 1, i64 2)', 'invoke void @test_0() to label %start unwind label %start', 'indirectbr ptr null, [label %start]', 'resume { ptr, i32 } poison',
    '%x = landingpad { ptr, i32 } cleanup', '%x = bitcast i64 %a to double', '%x = bitcast <16 x i1> zeroinitializer to <2 x i8>', '%x = add i1 true, true', '%x = icmp slt i1 true, false', '%x = add i64 %a, 1.5', '%x = alloca i64, i64 %a, align 8',
    'br label %on\non:\n  %x = alloca i64, align 8', '%x = select <16 x i1> zeroinitializer, <16 x i8> zeroinitializer, <16 x i8> zeroinitializer', '%x = addrspacecast ptr null to ptr addrspace(1)',
    '%x = fcmp oeq double 0.0, 0.0', '%x = frem double 1.0, 2.0', 'call void @llvm.lifetime.start.p0(ptr null)', '%x = unknown i64 %a', '%x = add i64 %a, 1 $',
    # a value that no instruction has
    '%x = add i64 %a, %nowhere\n  ret i64 %x',
)] + [
    'define i64 @not_declared(i64 %a, i64 %b) #0 {\nstart:\n  ret i64 %a\n}\n', 'define i64 @test_0(i64 %a) #0 {\nstart:\n  ret i64 %a\n}\n', 'define i64 @test_0(i64 %a, i64 %b) #9 {\nstart:\n  ret i64 %a\n}\nattributes #9 = { returns_twice }\n',
    'define i64 @test_0(i64 %a, ...) #0 {\nstart:\n  ret i64 %a\n}\n', 'define i64 @test_0(ptr byval(i64) %a, i64 %b) #0 {\nstart:\n  ret i64 1\n}\n', 'define i64 @test_0(i64 %a, i64 %b) gc "statepoint" {\nstart:\n  ret i64 %a\n}\n',
    '@x = global i64 7, align 8\n', '@x = thread_local constant [1 x i8] zeroinitializer\n', '@x = private constant { i64 } { i64 1 }\n', '@x = external constant [2 x i8]\n', '@x = alias i64, ptr @y\n', '@x = private constant [3 x i8] c"ab"\n',
    'define i32 @main(i32 %count, ptr %words) #1 {\nstart:\n  ret i32 %count\n}\n', 'declare i64 @printf(ptr)\n', '$x = comdat any\n', 'module asm "nop"\n',
]
# Changes of the written C that no compiler can tell.
WRONG_CONSTANTS = (('say \\"hi', 'say \\"ho'), ('4294967295u, 7u', '4294967295u, 6u'), ('{ PLACE((const u8 *)g_row), PLACE((const u8 *)g_zeros) }', '{ PLACE((const u8 *)g_zeros), PLACE((const u8 *)g_row) }'), ('plain[9]', 'plain[10]'),
                   ('PLACE((const u8 *)g_record + 17)', 'PLACE((const u8 *)g_record + 16)'))
KNOWN = 'define i64 @test_0(i64 %a, i64 %b) #0 {\nstart:\n  %x = add i64 %a, %b\n  ret i64 %x\n}\n'


def written(room, text, names):
    """The C of a module, or None; and why it is refused."""
    (room / 'module.ll').write_text(text, encoding='latin-1')
    (room / 'capnp_canonical.h').write_text('#include <stdint.h>\n' + ''.join(f'uint64_t {it}(uint64_t a, uint64_t b);\n' for it in names), encoding='utf-8')
    run = subprocess.run([sys.executable, '-B', str(WRITER), str(room / 'module.ll'), str(room / 'capnp_canonical.h')], stdout=subprocess.PIPE, stderr=subprocess.PIPE, encoding='utf-8')
    return (run.stdout if run.returncode == 0 else None), run.stderr


def beyond(made):
    """The first name, line or text of the C that is longer than C promises to compare or to read; empty if there is none."""
    texts = re.compile(r'"(?:\\.|[^"\\\n])*"(?:\s*"(?:\\.|[^"\\\n])*")*')
    plain = re.sub(r'/\*.*?\*/', ' ', texts.sub('""', made), flags=re.S)
    long = [it for it in re.findall(r'[A-Za-z_]\w*', plain) if len(it) > 63] + [it for it in made.split('\n') if len(it) > 4095]
    long += [it for it in texts.findall(made) if len(re.sub(r'"\s*"|\\(?=.)', '', it)) > 4095]
    return long[0][:200] if long else ''


def renumbered(room):
    """Whether the C of a function stays if LLVM's numbers of inlined values and blocks shift."""
    def made(by):
        names = [f'.i.i{by + it}' for it in range(3)]
        body = f'  %x{names[0]} = add i64 %a, %b\n  br label %on{names[1]}\non{names[1]}:\n  %x{names[2]} = mul i64 %x{names[0]}, %x{names[0]}\n  %y = mul i64 %x{names[2]}, %x{names[2]}\n  ret i64 %y\n'
        return written(room, f'define i64 @test_0(i64 %a, i64 %b) #0 {{\nstart:\n{body}}}\n{ATTRIBUTES}', ['test_0'])[0]
    return made(7) is not None and made(7) == made(98)


def lacking(text):
    """The instructions and intrinsics that the writer knows and no function here tests."""
    known = {it.removeprefix('do_') for it in dir(writing.Writer) if it.startswith('do_')} | {*writing.BINARY, *writing.SIGNED, *writing.SHIFTS}
    known |= {f'llvm.{it}' for it in (*writing.BLOCKS, *writing.NUMBERS)}
    return sorted(it for it in known if not re.search(rf'(^|[ @]){re.escape(it)}\b', text, re.M))


def main_of(calls):
    rows = ''.join(f'    {{ "{name}", {name}, {a}u, {b}u, {wanted}u }},\n' for name, a, b, wanted in calls)
    return f'''#include "capnp_canonical.h"
#include <stdio.h>
static const struct {{ const char *name; uint64_t (*call)(uint64_t, uint64_t); uint64_t a, b, wanted; }} rows[] = {{
{rows}}};
int main(void) {{
    unsigned failed = 0;
    for (unsigned i = 0; i < sizeof rows / sizeof *rows; i++) {{
        uint64_t got = rows[i].call(rows[i].a, rows[i].b);
        if (got != rows[i].wanted && failed++ < 10)
            printf("%s(%#llx, %#llx): wanted %#llx, got %#llx\\n", rows[i].name, (unsigned long long)rows[i].a, (unsigned long long)rows[i].b, (unsigned long long)rows[i].wanted, (unsigned long long)got);
    }}
    printf("%u failed\\n", failed);
    return failed != 0;
}}
'''


class Counts:
    passed = failed = 0

    def told(self, holds, what, said=''):
        self.passed += bool(holds)
        self.failed += not holds
        print(f'{what}: {"passed" if holds else "failed"}{"" if holds else said[-2000:]}')


def compiled_and_run(room, command, runner=()):
    """Whether the program passes, and what it prints."""
    run = subprocess.run([*command, '-o', str(room / 'tested')], stdout=subprocess.PIPE, stderr=subprocess.STDOUT, encoding='utf-8', errors='replace')
    if run.returncode:
        return False, run.stdout
    run = subprocess.run([*runner, str(room / 'tested')], stdout=subprocess.PIPE, stderr=subprocess.STDOUT, encoding='utf-8', errors='replace')
    return run.returncode == 0 and run.stdout == '0 failed\n', run.stdout


WASM_MAIN = '''#include "module.c"
#undef memcpy
#undef memmove
#undef memset
void *memcpy(void *restrict to, const void *restrict from, size_t size) { return __builtin_memcpy(to, from, size); }
void *memmove(void *to, const void *from, size_t size) { return __builtin_memmove(to, from, size); }
void *memset(void *to, int value, size_t size) { return __builtin_memset(to, value, size); }
'''
NODE_MAIN = '''const fs = require('fs'), { calls, wasm } = JSON.parse(fs.readFileSync(0));
const { exports } = new WebAssembly.Instance(new WebAssembly.Module(fs.readFileSync(wasm)), {});
const wrong = calls.filter(([name, a, b, wanted]) => BigInt.asUintN(64, exports[name](BigInt(a), BigInt(b))) !== BigInt(wanted));
console.log(`${wrong.length} failed`, ...wrong.slice(0, 5));
'''


def by_wasm(room, cases, counts):
    """The C for WebAssembly of 32 bits. Numbers that such pointers can't hold are left out."""
    lacks = next((it for it in ('clang', 'wasm-ld', 'node') if not shutil.which(it)), None)
    if lacks:
        print(f'wasm32: skipped, no {lacks}')
        return
    has_pointers = {f'test_{number}' for number, text in enumerate(cases.text) if re.search('inttoptr|ptrto|getelementptr', text)}
    calls = [(name, str(a), str(b), str(wanted)) for name, a, b, wanted in cases.calls if name not in has_pointers or max(a, b, wanted) < 2**31]
    (room / 'wasm.c').write_text(WASM_MAIN, encoding='utf-8')
    headers = room / 'headers'
    headers.mkdir()
    (headers / 'stdlib.h').write_text('#include <stddef.h>\nvoid *malloc(size_t);\nvoid *realloc(void *, size_t);\nvoid free(void *);\n', encoding='utf-8')
    (headers / 'string.h').write_text('#include <stddef.h>\nvoid *memcpy(void *, const void *, size_t);\nvoid *memmove(void *, const void *, size_t);\nvoid *memset(void *, int, size_t);\n', encoding='utf-8')
    for level in '-O0', '-O2', '-O3':
        to = room / 'tested.wasm'
        command = ['clang', '--target=wasm32', '-DCAPNP_CANONICAL_SLOTS_OF_8', *FLAGS, level, '-nostdlib', '-ffreestanding', '-mbulk-memory', f'-I{room}', f'-I{headers}',
                   '-Wl,--no-entry,--export-all,--allow-undefined', '-o', str(to), str(room / 'wasm.c')]
        run = subprocess.run(command, stdout=subprocess.PIPE, stderr=subprocess.STDOUT, encoding='utf-8', errors='replace')
        if run.returncode == 0:
            run = subprocess.run(['node', '-e', NODE_MAIN], input=json.dumps({'calls': calls, 'wasm': str(to)}), stdout=subprocess.PIPE, stderr=subprocess.STDOUT, encoding='utf-8')
        counts.told(run.stdout == '0 failed\n', f'{len(calls)} calls by clang for wasm32 {level}', f': {run.stdout}')
    refused = subprocess.run([it for it in command if it != '-DCAPNP_CANONICAL_SLOTS_OF_8'], stdout=subprocess.PIPE, stderr=subprocess.STDOUT, encoding='utf-8', errors='replace')
    counts.told('this needs a machine of 64 bits' in refused.stdout, 'a machine of 32 bits is refused without a macro that speaks for its callers')


def by_llvm(room, counts):
    """Compiles the module itself with the toolchain's LLVM, and runs it."""
    if not shutil.which('rt'):
        print('by the toolchain: skipped, no rt')
        return
    page = subprocess.run(['rt', 'doc'], stdin=subprocess.DEVNULL, stdout=subprocess.PIPE, encoding='utf-8', check=True).stdout
    clang = pathlib.Path(page.strip()).parent / 'toolchain/bin/clang'
    run = subprocess.run([str(clang), '--target=x86_64-unknown-linux-gnu', '--no-default-config', '-O1', '-fPIC', '-c', '-o', str(room / 'module.o'), '-x', 'ir', str(room / 'module.ll')], stdout=subprocess.PIPE, stderr=subprocess.STDOUT, encoding='utf-8')
    holds, said = (False, run.stdout) if run.returncode else compiled_and_run(room, ['cc', '-w', f'-I{room}', str(room / 'main.c'), str(room / 'module.o')])
    counts.told(holds, 'the module itself by the toolchain', said)


# A program that makes a folder, and asks whether there is one. Its status has a bit for each answer that is right.
FOLDERS = '''@made = private unnamed_addr constant [5 x i8] c"made\\00", align 1
@none = private unnamed_addr constant [5 x i8] c"none\\00", align 1
@file = private unnamed_addr constant [7 x i8] c"main.c\\00", align 1
declare i32 @mkdir(ptr, i32)
declare i32 @statx(i32, ptr, i32, i32, ptr)
declare i32 @rattle_errno()
declare void @llvm.memset.p0.i64(ptr, i8, i64, i1)
define i32 @main(i32 %count, ptr %words) #1 {
start:
  %at = alloca [256 x i8], align 8
  call void @llvm.memset.p0.i64(ptr %at, i8 0, i64 256, i1 false)
  %place = getelementptr inbounds i8, ptr %at, i64 28
  %once = call i32 @mkdir(ptr @made, i32 511)
  %a = icmp eq i32 %once, 0
  %twice = call i32 @mkdir(ptr @made, i32 511)
  %is_there = call i32 @rattle_errno()
  %b = icmp eq i32 %is_there, 17
  %there = call i32 @statx(i32 -100, ptr @made, i32 0, i32 4095, ptr %at)
  %folder = load i16, ptr %place, align 2
  %kind = and i16 %folder, -4096
  %c = icmp eq i16 %kind, 16384
  %read = call i32 @statx(i32 -100, ptr @file, i32 0, i32 4095, ptr %at)
  %plain = load i16, ptr %place, align 2
  %other = and i16 %plain, -4096
  %d = icmp eq i16 %other, -32768
  %missing = call i32 @statx(i32 -100, ptr @none, i32 0, i32 4095, ptr %at)
  %is_none = call i32 @rattle_errno()
  %e = icmp eq i32 %is_none, 2
  %unknown = call i32 @statx(i32 3, ptr @made, i32 4096, i32 4095, ptr %at)
  %f = icmp eq i32 %unknown, -1
  %told = add i32 %there, %read
  %g = icmp eq i32 %told, 0
''' + ''.join(f'  %{it}.0 = zext i1 %{it} to i32\n  %{it}.1 = shl i32 %{it}.0, {at}\n  %{it}.2 = or i32 %{it}.1, {f"%{chr(ord(it) - 1)}.2" if at else 0}\n' for at, it in enumerate('abcdefg')) + '''  ret i32 %g.2
}
'''


def programs(room, compilers, counts):
    """What a program asks the system for."""
    made, said = written(room, FOLDERS + ATTRIBUTES, [])
    counts.told(made is not None, 'a program that makes folders is written', said)
    for compiler in [*compilers, 'musl-gcc'] if made else []:
        runner = RUNNERS.get(compiler, [])
        lacks = next((it for it in (compiler, *runner[:1]) if not shutil.which(it)), None)
        if lacks:
            print(f'{compiler}: skipped, no {lacks}')
            continue
        with tempfile.TemporaryDirectory(dir=room) as folder:
            (pathlib.Path(folder) / 'main.c').write_text(made, encoding='utf-8')
            run = subprocess.run([compiler, *FLAGS, '-O2', '-o', f'{folder}/main', f'{folder}/main.c'], stdout=subprocess.PIPE, stderr=subprocess.STDOUT, encoding='utf-8', errors='replace')
            status = subprocess.run([*runner, f'{folder}/main'], cwd=folder).returncode if run.returncode == 0 else run.stdout
            counts.told(status == 127, f'a program that makes folders by {compiler}', f': {status}')


def refusals(room, counts):
    counts.told(written(room, KNOWN + ATTRIBUTES, ['test_0'])[0] is not None, 'what is known is written')
    for text in REFUSED:
        made, said = written(room, text + ATTRIBUTES, ['test_0'])
        line = next((it.strip() for it in text.split('\n')[2:3] if it.strip() != 'ret i64 %a'), text.split('\n')[0])
        counts.told(made is None and 'Traceback' not in said, f'refused: {line[:80]}', said)


def main(compilers):
    cases, counts = Cases(), Counts()
    for part in arithmetic, comparing, casting, remembering, addressing, blocks, jumping, standing, vectors, counting, long_names:
        part(cases)
    text = ''.join(cases.text)
    declared = sorted({(name, count) for name, count in re.findall(r'@(llvm\.[\w.]+)(\([^\n]*)', text)})
    named = dict(declared)
    text += ''.join(f'declare {declaration(name, given)}\n' for name, given in named.items()) + ATTRIBUTES
    missing = lacking(text)
    counts.told(not missing, 'each instruction of the writer has a test', f': not {missing}')
    with tempfile.TemporaryDirectory(prefix='instructions-') as room:
        room = pathlib.Path(room)
        made, said = written(room, text, [f'test_{i}' for i in range(cases.count)])
        counts.told(made is not None, f'the module of {cases.count} functions is written', said)
        if made is not None:
            (room / 'module.c').write_text(made, encoding='utf-8')
            (room / 'main.c').write_text(main_of(cases.calls), encoding='utf-8')
            for compiler, (kind, flags) in itertools.product(compilers, KINDS.items()):
                runner = RUNNERS.get(compiler, [])
                lacks = next((it for it in (compiler, *runner[:1]) if not shutil.which(it)), None)
                if lacks or runner and kind == 'sanitizers':
                    print(f'{compiler} {kind}: skipped, {f"no {lacks}" if lacks else "not by the machine"}')
                    continue
                holds, said = compiled_and_run(room, [compiler, *FLAGS, *flags, f'-I{room}', str(room / 'main.c'), str(room / 'module.c')], runner)
                counts.told(holds, f'{len(cases.calls)} calls by {compiler} {kind}', f': {said}')
            by_wasm(room, cases, counts)
            by_llvm(room, counts)
            counts.told(constants.differing(text, made)[0] is None, 'the constants, read a second time')
            counts.told(not beyond(made), 'names, lines and texts of the C are within what C promises', f': {beyond(made)}')
            for old, new in WRONG_CONSTANTS:
                counts.told(made.count(old) == 1 and constants.differing(text, made.replace(old, new))[0], f'a wrong constant is found: {new}')
        counts.told(renumbered(room), 'the same C after other numbers of inlined values')
        programs(room, compilers, counts)
        refusals(room, counts)
    print(f'{counts.passed} passed, {counts.failed} failed')
    return 1 if counts.failed else 0


def declaration(name, given):
    """How an intrinsic is declared."""
    if name.startswith('llvm.lifetime'):
        return f'void @{name}(ptr captures(none))'
    if name == 'llvm.trap':
        return 'void @llvm.trap()'
    if name.startswith('llvm.memset'):
        return f'void @{name}(ptr writeonly captures(none), i8, i64, i1 immarg)'
    if name.startswith('llvm.mem'):
        return f'void @{name}(ptr writeonly captures(none), ptr readonly captures(none), i64, i1 immarg)'
    if name.startswith('llvm.vector'):
        return f'i8 @{name}(<{re.search("[0-9]+", name)[0]} x i8>)'
    kind = name.rpartition('.')[2]
    if '.with.overflow.' in name:
        return f'{{ {kind}, i1 }} @{name}({kind}, {kind})'
    return f'{kind} @{name}({", ".join([kind] * len(re.findall(kind + " ", given)))}{", i1 immarg" if "i1 false" in given else ""})'


sys.exit(main(sys.argv[1:] or ['gcc', 'clang', *RUNNERS]))
