#!/usr/bin/env python3
"""singles.py

Makes the cases of crates/single_cases and crates/singles and their answers anew: which doubles of a struct or a message an f32 holds. None comes from the port: a double is judged by
Python's own struct, which packs it as an f32 and takes it back; what is read and what is refused is the model of faults.py, written from docs/SCOPE.md, which the crate's own skip agreed with
where that file was made. It reads the doubles in the order of the bytes, map keys and inner structs among them.
"""
import os
import random
import struct
import sys

sys.dont_write_bytecode = True
import faults
from faults import Broken, DOUBLE, PRINTED, WIDE, STRUCT

CRATES = os.path.join(os.path.dirname(os.path.abspath(__file__)), os.pardir, 'crates')
YES, NO, NAN = range(3)


def held(bits):
    """Whether an f32 holds the very number of these 64 bits, by Python's struct."""
    number = struct.unpack('<d', struct.pack('<Q', bits))[0]
    if number != number:
        return NAN
    try:
        return YES if struct.unpack('<f', struct.pack('<f', number))[0] == number else NO
    except OverflowError:
        return NO


class Finding(faults.Reading):
    """The model's reading, with the doubles it meets."""

    def __init__(self, *parts):
        super().__init__(*parts)
        self.answers = []

    def value(self, kind):
        if kind == DOUBLE:
            self.answers.append(held(int.from_bytes(self.body(8), 'little')))
        else:
            super().value(kind)


def struct_said(data, start=0, limits=WIDE, begin=0):
    """The line, and the answers where there are any."""
    reading = Finding(data, start, min(len(data), begin + limits.message), limits.depth, limits)
    try:
        reading.value(STRUCT)
    except Broken as why:
        return f'refused {why.why}\n', None
    counts = [reading.answers.count(answer) for answer in (YES, NO, NAN)]
    return 'yes {} no {} nan {}\n'.format(*counts), reading.answers


def message_said(data):
    if len(data) > 65536:
        return 'refused 14\n'
    reading = Finding(data, 0, min(len(data), PRINTED.message), PRINTED.depth, PRINTED)
    try:
        reading.message()
    except Broken as why:
        return f'refused {why.why}\n'
    return struct_said(data, reading.at, PRINTED)[0]


# ---- Cases

def bits(number):
    return struct.unpack('<Q', struct.pack('<d', number))[0]


def edges():
    """Patterns around every edge of the rule: 24 digits, 2^-149, 2^128, zeros, infinities, NaNs."""
    found = [0, 1 << 63, bits(float('inf')), bits(float('-inf')), 0x7ff8 << 48, (0x7ff << 52) + 1, (0xfff << 52) + 1, (1 << 64) - 1, 1, (1 << 52) - 1, 1 << 52]
    for number in (0.5, 16777215.0, 16777216.0, 16777217.0, 16777218.0, 0.1, 101.325, 293.15, 2.0 ** 127, 2.0 ** 128, 2.0 ** 128 - 2.0 ** 104, 2.0 ** 128 - 2.0 ** 103, 2.0 ** -126, 2.0 ** -149, 2.0 ** -150,
                   3 * 2.0 ** -149, 3 * 2.0 ** -150, (2 ** 23 + 1) * 2.0 ** -149, (2 ** 24 - 1) * 2.0 ** -149, (2 ** 24 - 1) * 2.0 ** -150, 2.0 ** -1022, 1e308):
        found += [bits(number), bits(-number), bits(number) + 1, bits(number) - 1]
    return found


def double(b):
    return b.to_bytes(8, 'little')


def listed(patterns, kind=0x19):
    n = len(patterns)
    head = bytes([n << 4 | 7]) if n < 15 else bytes([0xf7]) + varint(n)
    return bytes([kind]) + head + b''.join(map(double, patterns)) + b'\0'


def varint(n):
    out = b''
    while n > 127:
        out, n = out + bytes([n & 127 | 128]), n >> 7
    return out + bytes([n])


class Trees:
    """Random structs, with doubles everywhere."""

    def __init__(self, seed):
        self.dice = random.Random(seed)
        self.edges = edges()

    def pattern(self):
        if self.dice.random() < 0.5:
            return self.dice.choice(self.edges)
        number = struct.unpack('<f', struct.pack('<I', self.dice.getrandbits(32)))[0]
        return bits(number) if self.dice.random() < 0.5 else self.dice.getrandbits(64)

    def kind(self, depth):
        kinds = [1, 3, 4, 5, 6, 7, 7, 7, 8, 13] + ([9, 10, 11, 12] * 2 if depth > 0 else [])
        return self.dice.choice(kinds)

    def value(self, kind, depth):
        d = self.dice
        if kind == 1:
            return bytes([d.choice([1, 2])])
        if kind == 3:
            return bytes([d.getrandbits(8)])
        if kind in (4, 5, 6):
            return varint(d.getrandbits({4: 15, 5: 31, 6: 63}[kind]))
        if kind == 7:
            return double(self.pattern())
        if kind == 8:
            n = d.randrange(5)
            return varint(n) + bytes(d.getrandbits(8) for _ in range(n))
        if kind == 13:
            return bytes(d.getrandbits(8) for _ in range(16))
        if kind in (9, 10):
            inner, n = self.kind(depth - 1), d.choice([0, 1, 2, 3, 3, 15, 17] if depth < 2 else [0, 1, 2, 3])
            head = bytes([n << 4 | inner]) if n < 15 else bytes([0xf0 | inner]) + varint(n)
            return head + b''.join(self.value(inner, depth - 1) for _ in range(n))
        if kind == 11:
            n = d.randrange(4)
            if n == 0:
                return b'\0'
            key, inner = self.kind(depth - 1), self.kind(depth - 1)
            return varint(n) + bytes([key << 4 | inner]) + b''.join(self.value(key, depth - 1) + self.value(inner, depth - 1) for _ in range(n))
        return self.struct(depth - 1)

    def struct(self, depth):
        out, last = b'', 0
        for _ in range(self.dice.randrange(6)):
            kind = self.kind(depth)
            delta = self.dice.choice([0, 1, 1, 2, 15])
            if delta == 0:
                last = self.dice.choice([1, last, 300, -5])  # an id may come twice
                head = bytes([kind]) + varint(last * 2 if last >= 0 else -last * 2 - 1)
            elif last + delta > 32767:
                continue
            else:
                last += delta
                head = bytes([delta << 4 | kind])
            out += head + (b'' if kind == 1 else self.value(kind, depth))
        return out + b'\0'


def cases():
    header = bytes.fromhex('8221010174')
    yield 'struct', 'nothing', b''
    yield 'struct', 'an empty struct', b'\0'
    for b in edges():
        yield 'struct', f'field {b:016x}', b'\x17' + double(b) + b'\0'
    yield 'struct', 'a list of every edge', listed(edges())
    yield 'struct', 'a set of every edge', listed(edges(), 0x1a)
    yield 'struct', 'an empty list of doubles', b'\x19\x07\0'
    yield 'struct', 'a list cut short', listed(edges())[:-9]
    yield 'struct', 'a field cut short', b'\x17' + double(0)[:7]
    yield 'struct', 'map keys', b'\x1b\x02\x75' + double(bits(0.5)) + b'\x02' + double(bits(0.1)) + b'\x04\0'
    yield 'struct', 'map values', b'\x1b\x02\x57\x02' + double(bits(0.1)) + b'\x04' + double(bits(float('nan'))) + b'\0'
    yield 'struct', 'map keys and values', b'\x1b\x01\x77' + double(bits(0.1)) + double(bits(0.5)) + b'\0'
    yield 'struct', 'map of stop and double', b'\x1b\x01\x07' + double(0) + b'\0'
    yield 'struct', 'map of double and stop', b'\x1b\x01\x70' + double(0) + b'\0'
    yield 'struct', 'a struct in a struct', b'\x1c\x17' + double(bits(0.1)) + b'\0\x17' + double(bits(0.5)) + b'\0'
    yield 'struct', 'an id that comes twice', b'\x17' + double(bits(0.1)) + b'\x07\x02' + double(bits(0.5)) + b'\0'
    yield 'struct', 'an id past the last', b'\x07\xfe\xff\x03' + double(0) + b'\x17' + double(0) + b'\0'
    yield 'struct', '64 deep', b'\x1c' * 63 + b'\x17' + double(bits(0.1)) + b'\0' * 64
    yield 'struct', '65 deep', b'\x1c' * 64 + b'\x17' + double(bits(0.1)) + b'\0' * 65
    yield 'struct', 'a bad type behind a double', b'\x17' + double(0) + b'\x1e'
    yield 'struct', 'a bad bool in a list behind a double', b'\x17' + double(0) + b'\x19\x11\x05\0'
    trees = Trees(13)
    for k in range(500):
        tree = trees.struct(4)
        if len(tree) < 2000:
            yield 'struct', f'tree {k}', tree
            if len(tree) > 1:
                yield 'struct', f'tree {k} cut', tree[:trees.dice.randrange(1, len(tree))]
                broken = bytearray(tree)
                broken[trees.dice.randrange(len(tree))] ^= 1 << trees.dice.randrange(8)
                if broken[0] != 0x82:
                    yield 'struct', f'tree {k} with a bit turned', bytes(broken)
    for k in range(60):
        tree = trees.struct(3)
        if len(tree) < 2000:
            yield 'message', f'message {k}', header + tree
    yield 'message', 'a header alone', header
    yield 'message', 'a bad version', b'\x82\x22' + header[2:]
    yield 'message', 'a bad type', b'\x82\xa1' + header[2:]
    yield 'message', 'a name that is not UTF-8', b'\x82\x21\x01\x01\xff\0'
    yield 'message', 'cut in the header', header[:3]


def main():
    given, said = b'', b''
    for kind, what, data in cases():
        line = f'{len(data):05} {kind} {what}\n'.encode()
        if kind == 'message':
            answer = message_said(data)
        else:
            text, answers = struct_said(data)
            answer = text + (''.join(map(str, answers)) + '\n' if answers is not None else '')
        given, said = given + line + data, said + line + answer.encode()
    folder = os.path.join(CRATES, 'single_cases')
    with open(os.path.join(folder, 'stdin'), 'wb') as out:
        out.write(given)
    with open(os.path.join(folder, 'stdout'), 'wb') as out:
        out.write(said)
    trial = bytes.fromhex('8221010174') + listed([bits(n) for n in (0.0, 101.325, 293.25, 0.5, 16777217.0, float('nan'))])
    with open(os.path.join(CRATES, 'singles', 'stdin'), 'wb') as out:
        out.write(trial)
    with open(os.path.join(CRATES, 'singles', 'stdout'), 'wb') as out:
        out.write(message_said(trial).encode())
    print(f'{said.count(b" struct ")} structs, {said.count(b" message ")} messages, {len(given)} bytes')


if __name__ == '__main__':
    main()
