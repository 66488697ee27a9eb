#!/usr/bin/env python3
"""faults.py CRATE_SRC HARNESS [WORK]

Makes the cases of crates/fault_cases and crates/fault and their answers anew: where and why a struct, or a message, is refused. The answers are those of a model
written from the request and the rules of docs/SCOPE.md; none comes from the port. CRATE_SRC is the folder of the Rust crate's sources (with lib.rs), HARNESS the
folder of the harness over it (build.sh, oracle.rs), WORK a folder to build in (a temporary one where it is left out; what an earlier run built there is used again).
The crate tells no offset and no path, but it has a word on all three, and where it has one it must agree, or nothing is written:
- the number, and the place behind an accepted struct, are those of its own skip;
- the offset of a refusal that is not for a missing byte: on the bytes before it the crate misses a byte, on the bytes up to it, it gives the number;
- the path: of the lines that its own reader prints of a message (`print` of the harness), the fields and elements that are begun and not ended at the refusal.
Where a rule is broken that the crate does not have (rules.py), it is asked on the bytes before.
"""
import collections
import os
import random
import struct
import subprocess
import sys
import tempfile

sys.dont_write_bytecode = True
import day
import rules

CRATES = os.path.join(os.path.dirname(os.path.abspath(__file__)), os.pardir, 'crates')

END, BAD_VERSION, BAD_MESSAGE_TYPE, BAD_TYPE, BAD_BOOL, LONG_VARINT, FIELD_ID, SIZE_LIMIT, NEGATIVE, DEPTH, BAD_UTF8, OUT_OF_TURN = range(1, 13)
NO_ROOM, BAD_STATE, RANGE, BAD_DAY, MESSAGE_SIZE = 14, 15, 17, 18, 19
STOP, BOOL, I8, I16, I32, I64, DOUBLE, STRING, LIST, SET, MAP, STRUCT, UUID = 0, 1, 3, 4, 5, 6, 7, 8, 9, 10, 11, 12, 13
MOST = 2147483647

# ---- The model

Accepted = collections.namedtuple('Accepted', 'used')
Refused = collections.namedtuple('Refused', 'why offset path')
Limits = collections.namedtuple('Limits', 'depth string container message')
State = collections.namedtuple('State', 'limits place begin depth pending')

WIDE = Limits(64, MOST, MOST, MOST)
PRINTED = Limits(64, 65536, 65536, 65536)


class Broken(Exception):
    def __init__(self, why, offset):
        self.why, self.offset = why, offset


class Reading:
    """A struct or a header, read from a place up to the cut, with the last byte that was read and the fields and elements that are begun and not ended."""

    def __init__(self, data, start, cut, room, limits):
        self.data, self.at, self.cut, self.room, self.limits = data, start, cut, room, limits
        self.last, self.path = start, []
        self.deepest, self.stop_values = 0, False

    def refuse(self, why):
        """ "the offset of the last byte read before the refusal (the start where none was read" """
        raise Broken(why, self.last)

    def short(self):
        """ "a byte missed there, with input behind it, gives 19, MESSAGE SIZE, and a byte missed at the true end gives END" """
        return MESSAGE_SIZE if self.cut < len(self.data) else END

    def byte(self):
        """ "the input's length where a single byte was missing" """
        if self.at == self.cut:
            raise Broken(self.short(), self.cut)
        self.last, self.at = self.at, self.at + 1
        return self.data[self.last]

    def body(self, n):
        """ "A double, a uuid or a string's body cut short counts as unread." """
        if self.cut - self.at < n:
            self.refuse(self.short())
        if n > 0:
            self.last, self.at = self.at + n - 1, self.at + n
        return self.data[self.at - n:self.at]

    def varint(self, bits):
        value = 0
        for k in range(-(-bits // 7)):
            b = self.byte()
            value |= (b & 127) << 7 * k
            if b < 128:
                return value & (1 << bits) - 1
        self.refuse(LONG_VARINT)

    def i16(self):
        n = self.varint(32)
        n = -(n + 1 >> 1) if n & 1 else n >> 1
        if n < -32768 or n > 32767:
            self.refuse(RANGE)
        return n

    def length(self):
        n = self.varint(32)
        if n > self.limits.string:
            self.refuse(SIZE_LIMIT)
        return n

    def counted(self, n, *kinds):
        """ "9, then 8. With a count over 0 .. refused END when the count times the least size exceeds the bytes left after the header" """
        if n > MOST:
            self.refuse(NEGATIVE)
        if n > self.limits.container:
            self.refuse(SIZE_LIMIT)
        if n * sum({DOUBLE: 8, UUID: 16}.get(kind, 1) for kind in kinds) > self.cut - self.at:
            self.refuse(self.short())
        self.stop_values |= n > 0 and len(kinds) == 2 and kinds[1] == STOP
        if n > 0 and STOP in kinds:
            self.refuse(BAD_TYPE)
        return n

    def element_type(self, code):
        if code > UUID:
            self.refuse(BAD_TYPE)
        return BOOL if code == 2 else code

    def step(self, word, number, kind):
        """A field, an element, a key or a value: it joins the path before anything of it is looked at, and leaves it when it has ended."""
        self.path.append((word, number))
        self.value(kind)
        self.path.pop()

    def value(self, kind):
        if kind in (LIST, SET, MAP, STRUCT):
            if self.room == 0:
                self.refuse(DEPTH)
            self.room, self.deepest = self.room - 1, max(self.deepest, self.limits.depth - self.room + 1)
            {LIST: self.items, SET: self.items, MAP: self.pairs, STRUCT: self.fields}[kind]()
            self.room += 1
        elif kind == BOOL:
            if self.byte() > 2:
                self.refuse(BAD_BOOL)
        elif kind == I8:
            self.byte()
        elif kind == I16:
            self.i16()
        elif kind == I32:
            self.varint(32)
        elif kind == I64:
            self.varint(64)
        elif kind == STRING:
            self.body(self.length())
        else:
            self.body({DOUBLE: 8, UUID: 16}[kind])

    def items(self):
        b = self.byte()
        kind = self.element_type(b & 15)
        n = self.varint(32) if b >> 4 == 15 else b >> 4
        for i in range(self.counted(n, kind)):
            self.step('element', i, kind)

    def pairs(self):
        n = self.varint(32)
        if n == 0:
            return
        b = self.byte()
        key, value = self.element_type(b >> 4), self.element_type(b & 15)
        for i in range(self.counted(n, key, value)):
            self.step('key', i, key)
            self.step('value', i, value)

    def fields(self):
        last = 0
        while True:
            b = self.byte()
            delta, kind = b >> 4, b & 15
            if kind == STOP:
                return
            if kind > UUID:
                self.refuse(BAD_TYPE)
            if delta == 0:
                last = self.i16()
            elif last + delta > 32767:
                self.refuse(FIELD_ID)
            else:
                last += delta
            if kind > 2:
                self.step('field', last, kind)

    def message(self):
        """A message's header has an offset by the same rules."""
        if self.byte() != 0x82:
            self.refuse(BAD_VERSION)
        b = self.byte()
        if b & 31 != 1:
            self.refuse(BAD_VERSION)
        if b >> 5 not in (1, 2, 3, 4):
            self.refuse(BAD_MESSAGE_TYPE)
        self.varint(32)
        name = self.body(self.length())
        try:
            name.decode('utf-8', 'strict')
        except UnicodeDecodeError:
            self.refuse(BAD_UTF8)


def told(reading, *parts):
    try:
        for part in parts:
            part()
    except Broken as no:
        return Refused(no.why, no.offset, tuple(reading.path))
    return Accepted(reading.at)


def is_sound(data, state):
    limits, cut = state.limits, min(len(data), state.begin + state.limits.message)
    return (limits.depth <= 64 and max(limits.string, limits.container, limits.message) <= MOST and state.depth <= limits.depth
            and state.begin <= state.place <= cut)


def struct_fault(data, state):
    """A struct at the state's place. "BAD STATE and OUT OF TURN give the start and no path." The answer, and how it was read."""
    if not is_sound(data, state):
        return Refused(BAD_STATE, state.place, ()), None
    if state.pending:
        return Refused(OUT_OF_TURN, state.place, ()), None
    cut = min(len(data), state.begin + state.limits.message)
    reading = Reading(data, state.place, cut, state.limits.depth - state.depth, state.limits)
    return told(reading, lambda: reading.value(STRUCT)), reading


def message_fault(data):
    """A message and its struct, as the printing program reads them. The answer, and how it was read."""
    if len(data) > 65536:
        return Refused(NO_ROOM, 0, ()), None
    reading = Reading(data, 0, len(data), 64, PRINTED)
    reading.headed = False
    def behind():
        reading.headed = True
    return told(reading, reading.message, behind, lambda: reading.value(STRUCT)), reading


# ---- The program's text

NAMES = {
    1: "END: a byte needed lies past the input, or a container's elements can't be in what is left of it",
    2: 'BAD VERSION: the first message byte is not 0x82, or the version is not 1',
    3: 'BAD MESSAGE TYPE: a message type out of 1 to 4',
    4: "BAD TYPE: a code without a type, or Stop where a value's type is asked",
    5: 'BAD BOOL: an element bool is not 0, 1 or 2',
    6: 'LONG VARINT: a varint of more bytes than its width allows',
    7: 'FIELD ID: the last id plus the delta is over 32767',
    8: 'SIZE LIMIT: a length or count over its limit',
    9: 'NEGATIVE SIZE: a count below 0',
    10: 'DEPTH: a struct or a container beyond the depth limit',
    11: 'BAD UTF-8: a string or a message name that is not UTF-8',
    14: 'NO ROOM: more bytes than there is room for, which is 65536 for a message',
    17: 'RANGE: an i16, as value or field id, outside -32768 to 32767',
}


def line(answer):
    """The first line, for machines."""
    if isinstance(answer, Accepted):
        return f'accepted {answer.used}\n'
    return f'refused {answer.why} at {answer.offset}' + ''.join(f' {word} {number}' for word, number in answer.path) + '\n'


def where(answer, is_headed):
    if not is_headed:
        return "In the message's header.\n"
    return 'In the struct' + ''.join(f', {word} {number}' for word, number in answer.path) + '.\n'


def around(data, offset):
    """Sixteen bytes: eight before the offset, its own in brackets, seven behind it; fewer where the input begins or ends. A byte that is missing is --."""
    first = max(0, offset - 8)
    bytes_of = lambda part: ''.join(f' {b:02x}' for b in part)
    own = f'{data[offset]:02x}' if offset < len(data) else '--'
    return f'{first}:{bytes_of(data[first:offset])} [{own}]{bytes_of(data[offset + 1:offset + 8])}\n'


def text(data, answer, reading):
    if isinstance(answer, Accepted):
        return line(answer)
    if answer.why == NO_ROOM:
        return line(answer) + NAMES[NO_ROOM] + '.\n'
    return line(answer) + NAMES[answer.why] + '.\n' + where(answer, reading.headed) + around(data, answer.offset)


# ---- Bytes

def varint(n, least=1):
    out = b''
    while n > 127 or len(out) + 1 < least:
        out, n = out + bytes([n % 128 + 128]), n // 128
    return out + bytes([n])


def zigzag(n):
    return varint(2 * n if n >= 0 else -2 * n - 1)


def point(time, pressure, temperature):
    return b''.join(b'\x17' + struct.pack('<d', x) for x in (time, pressure, temperature)) + b'\0'


TRIAL = b'\x19\x3c' + point(0.0, 101.325, 293.15) + point(0.5, 101.5, 293.25) + point(1.0, 102.0, 294.0) + b'\0'
HEAD = bytes.fromhex('8221010174')
KINDS = {BOOL: 'bool', I8: 'i8', I16: 'i16', I32: 'i32', I64: 'i64', DOUBLE: 'double', STRING: 'string', LIST: 'list', SET: 'set', MAP: 'map', STRUCT: 'struct', UUID: 'uuid'}


# ---- Cases by hand: (title, bytes of a struct)

def wrong_leaves():
    """(type, what, bytes) of a value that is refused, or that ends early."""
    yield BOOL, '5', b'\x03'
    yield BOOL, '5, the top bit', b'\x81'
    yield BOOL, '1, missing', b''
    yield I8, '1, missing', b''
    yield I16, '17', zigzag(32768)
    yield I16, '17, below', zigzag(-32769)
    yield I16, '6', b'\x80' * 5
    yield I16, '1, cut', b'\x80\x80'
    yield I32, '6', b'\xff' * 5
    yield I32, '1, cut', b'\x80' * 4
    yield I64, '6', b'\x80' * 10
    yield I64, '1, cut', b'\xff' * 9
    yield DOUBLE, '1, no byte of it', b''
    yield DOUBLE, '1, seven bytes', bytes(7)
    yield UUID, '1, fifteen bytes', bytes(15)
    yield STRING, '1, its length missing', b''
    yield STRING, '1, its length cut', b'\x85'
    yield STRING, '1, its body missing', b'\x05'
    yield STRING, '1, its body cut', b'\x05abcd'
    yield STRING, '6', b'\xff' * 5
    yield STRING, '8', varint(2 ** 31)
    yield LIST, '1, its header missing', b''
    yield LIST, '4', b'\x1e'
    yield LIST, '4, before the count', b'\xff'
    yield LIST, '1, its count cut', b'\xf3\x80'
    yield LIST, '6', b'\xf3' + b'\x80' * 5
    yield LIST, '9', b'\xf3' + varint(2 ** 31)
    yield LIST, "1, a count that can't be", b'\xf7' + varint(2000000000) + bytes(30)
    yield LIST, '4, of Stop', b'\x30\0\0\0'
    yield LIST, '1, of Stop, two bytes left', b'\x30\0\0'
    yield SET, '4', b'\x2f'
    yield SET, '4, of Stop, its count a varint', b'\xf0\x0f' + bytes(15)
    yield MAP, '1, its count missing', b''
    yield MAP, '1, its types missing', b'\x02'
    yield MAP, '6', b'\x80' * 5
    yield MAP, '4, the key', b'\x01\xe3\0\0'
    yield MAP, '4, the value', b'\x01\x3e\0\0'
    yield MAP, '9', varint(2 ** 32 - 1) + b'\x33'
    yield MAP, "1, a count that can't be", b'\x02\xd7' + bytes(47)
    yield MAP, '4, keys of Stop', b'\x01\x03\0\0'
    yield MAP, '4, values of Stop', b'\x01\x30\0\0'
    yield STRUCT, '1, no byte of it', b''
    yield STRUCT, '4, a field of type 14', b'\x1e'
    yield STRUCT, '4, a field of type 15, before its id', b'\x0f\x80'
    yield STRUCT, '7', b'\x03' + zigzag(32767) + b'\x01\x13'
    yield STRUCT, '17, an id', b'\x05' + zigzag(65537) + b'\x02\0'
    yield STRUCT, "17, a bool's id", b'\x01' + zigzag(-32769) + b'\0'
    yield STRUCT, '6, an id', b'\x05' + b'\x80' * 5
    yield STRUCT, '1, an id cut', b'\x05\x80'
    yield STRUCT, '1, behind a bool', b'\x11'


def good(kind):
    """A value of a type, well formed."""
    return {BOOL: b'\x01', I8: b'\x7f', I16: zigzag(-300), I32: zigzag(70000), I64: zigzag(-2 ** 40), DOUBLE: struct.pack('<d', 1.5), STRING: b'\x02ab', LIST: b'\x23\x01\x02',
            SET: b'\x11\x02', MAP: b'\x01\x35\x07\x04', STRUCT: b'\x15\x02\0', UUID: bytes(range(16))}[kind]


def held(kind, wrong):
    """(where it stands, bytes) of a struct that holds the value."""
    behind = b'' if wrong is None else b'\0'
    whole = good(kind)
    if kind != BOOL:
        yield 'a field', bytes([0x10 + kind]) + wrong
        yield 'a field behind others', b'\x11\x15\x02' + bytes([0x20 + kind]) + whole + bytes([0x10 + kind]) + wrong
        yield 'a field of a negative id', bytes([kind]) + zigzag(-5) + wrong
    yield 'an element', b'\x19' + bytes([0x30 + kind]) + whole * 2 + wrong
    yield 'the first element of a set', b'\x1a' + bytes([0x10 + kind]) + wrong
    yield 'an element of a list in a map', b'\x2b\x01\x39\x05' + bytes([0x20 + kind]) + whole + wrong
    yield 'a key', b'\x1b\x03' + bytes([kind * 16 + I8]) + (whole + b'\x01') * 2 + wrong
    yield 'a value', b'\x1b\x03' + bytes([I8 * 16 + kind]) + (b'\x01' + whole) * 2 + b'\x01' + wrong
    yield 'a field of a struct in a list', b'\x19\x2c' + b'\x15\x02\0' + (bytes([0x70 + kind]) if kind != BOOL else b'\x79\x11') + wrong


def by_hand():
    yield 'nothing', b''
    yield 'an empty struct', b'\0'
    yield "the scope paper's T13", bytes.fromhex('11250100')
    yield 'a trial', TRIAL
    yield 'a trial and bytes behind it', TRIAL + b'left'
    for k in (1, 9, 10, 11, 20, 55, 84, 85):
        yield f'a trial, {k} bytes cut off', TRIAL[:-k]
    for kind in KINDS:
        yield f'a field, an element, a key and a value of {KINDS[kind]}', (
            b'\x19' + bytes([0x20 + kind]) + good(kind) * 2 + b'\x1b\x01' + bytes([kind * 17]) + good(kind) * 2 + (bytes([0x10 + kind]) + good(kind) if kind != BOOL else b'\x11') + b'\0')
    for kind, what, wrong in wrong_leaves():
        for place, data in held(kind, wrong):
            yield f'{KINDS[kind]} {what}: {place}', data
    yield 'fields: ids 15, -1, 32767 by delta, then 7', b'\xf3\x01' + b'\x03' + zigzag(-1) + b'\x01' + b'\x03' + zigzag(32760) + b'\x01' + b'\x73\x01' + b'\x13\x01'
    yield 'a field that has ended is not in the path', b'\x1c\x15\x02\0' + b'\x1e'
    yield 'an element that has ended is not in the path', b'\x19\x1c\x15\x02\0' + b'\x1e'
    yield 'a map that has ended is not in the path', b'\x1b\x01\x33\x01\x02' + b'\x2f'
    yield 'a field 1 after a field 1', b'\x13\x01' + b'\x05' + zigzag(1) + b'\xff' * 5
    yield 'an overlong empty map, then a bad type', b'\x1b\x80\x80\0' + b'\x1e'
    yield 'an empty list of Stop, then a bad type', b'\x19\0' + b'\x1e'
    yield 'an empty string and a body cut', b'\x18\0' + b'\x18\x01'
    yield 'no element of a thousand empty strings ends early', b'\x19\xf8' + varint(1000) + b'\0' * 999 + b'\x01'
    yield 'element 299 of 300', b'\x19\xf1' + varint(300) + b'\x01' * 299 + b'\x03'
    yield 'value 199 of 200', b'\x1b' + varint(200) + b'\x31' + b'\x01\x02' * 199 + b'\x01\x03'


def nested():
    """(title, bytes, whether the crate's own depth rule is another one)"""
    def of(n, way):
        """n containers in one another inside a struct, the innermost with no element."""
        if way == 'struct':
            return b'\x1c' * n + b'\0' * (n + 1)
        if way == 'list':
            return b'\x19' + b'\x19' * (n - 1) + b'\x03' + b'\0'
        if way == 'set':
            return b'\x1a' + b'\x1a' * (n - 1) + b'\x03' + b'\0'
        if way == 'value':
            return b'\x1b' + b'\x01\x3b\x07' * (n - 1) + b'\0' + b'\0'
        if way == 'key':
            return b'\x1b' + b'\x01\xb3' * (n - 1) + b'\0' + b'\x07' * (n - 1) + b'\0'
        return b'\x19' + b'\x1c\x19' * ((n - 1) // 2) + (b'\x03' if n % 2 else b'\x1c\0') + b'\0' * ((n - 1) // 2) + b'\0'
    for way in ('struct', 'list', 'set', 'value', 'key', 'both'):
        for n in (1, 2, 31, 62, 63, 64, 65, 80):
            yield f'{n} in a struct, by {way}', of(n, way)
        yield f'40 in a struct, by {way}, cut', of(40, way)[:-42]
    yield '62 structs in one another, a bad type', b'\x1c' * 62 + b'\x1e'
    yield '63 structs in one another, a bad type', b'\x1c' * 63 + b'\x1e'
    yield '63 structs in one another, a bad bool in none', b'\x1c' * 63 + b'\x15' + b'\xff' * 5
    yield '64: a key is at the limit', b'\x1c' * 62 + b'\x1b\x01\xb3\x01\x01'
    yield '64: a value is at the limit, its key read before', b'\x1c' * 62 + b'\x1b\x01\x3b\x01\x01'
    yield '64: a value is at the limit, its key is refused before', b'\x1c' * 62 + b'\x1b\x01\x1b\x03\x01'
    yield '64: an element is at the limit, and nothing is left of it', b'\x1c' * 62 + b'\x19\x19\x03'
    yield '64: Stop elements do not begin', b'\x1c' * 62 + b'\x19\x10\0'


# ---- Cases by chance

def any_value(dice, kind, room):
    if kind == BOOL:
        return bytes([dice.choice((0, 1, 2))])
    if kind == I8:
        return dice.randbytes(1)
    if kind == I16:
        return zigzag(dice.choice((0, -1, 300, -32768, 32767)))
    if kind in (I32, I64):
        return zigzag(dice.randrange(-2 ** 31, 2 ** 31) >> dice.randrange(31))
    if kind == STRING:
        return b'\x03' + dice.randbytes(3) if dice.random() < .5 else b'\0'
    if kind in (DOUBLE, UUID):
        return dice.randbytes(8 if kind == DOUBLE else 16)
    kinds = [k for k in KINDS if room > 1 or k not in (LIST, SET, MAP, STRUCT)]
    if kind == STRUCT:
        return any_struct(dice, room - 1)
    n = dice.randrange(4) if room > 1 else 0
    if kind == MAP:
        k, v = dice.choice(kinds), dice.choice(kinds)
        return b'\0' if n == 0 else bytes([n, k * 16 + v]) + b''.join(any_value(dice, k, room - 1) + any_value(dice, v, room - 1) for _ in range(n))
    k = dice.choice(kinds)
    return bytes([n * 16 + k]) + b''.join(any_value(dice, k, room - 1) for _ in range(n))


def any_struct(dice, room):
    out = b''
    for _ in range(dice.randrange(1, 4)):
        kind = dice.choice([k for k in KINDS if room > 0 or k not in (LIST, SET, MAP, STRUCT)])
        if kind == BOOL:
            out += bytes([dice.choice((0x11, 0x22))])
        elif dice.random() < .2:
            out += bytes([kind]) + zigzag(dice.choice((-7, 0, 9, 1000, 32700))) + any_value(dice, kind, room)
        else:
            out += bytes([dice.choice((0x10, 0x20, 0xf0)) + kind]) + any_value(dice, kind, room)
    return out + b'\0'


def damaged(dice, data):
    data, way = bytearray(data), dice.random()
    at = dice.randrange(len(data))
    if way < .25:
        del data[at:]
    elif way < .6:
        data[at] = dice.choice((0xff, 0x0e, 0x1f, 0x80, 0xf7, dice.randrange(256)))
    elif way < .8:
        data[at:at] = dice.randbytes(dice.randrange(1, 4))
    else:
        del data[at:at + dice.randrange(1, 4)]
    return bytes(data)


def by_chance(count):
    """Structs damaged in one place; of each number, and of each kind of path, no more than so many."""
    dice, seen, kept = random.Random(8), collections.Counter(), 0
    while kept < count:
        data = damaged(dice, any_struct(dice, 5))
        if len(data) > 200:
            continue
        answer, _ = struct_fault(data, State(WIDE, 0, 0, 0, False))
        shape = ('accepted',) if isinstance(answer, Accepted) else (answer.why, tuple(word for word, _ in answer.path))
        seen[shape] += 1
        if seen[shape] <= 2:
            kept += 1
            yield f'by chance, {kept}', data


# ---- Cases of a state: limits, the place, the beginning, the depth, a bool that waits

def states():
    wide = State(WIDE, 0, 0, 0, False)
    under = lambda **limits: wide._replace(limits=WIDE._replace(**limits))
    yield 'depth limit 0: no byte read', under(depth=0), b'\0'
    yield 'depth limit 0: nothing there', under(depth=0), b''
    yield 'depth limit 0: at place 3', under(depth=0)._replace(place=3, begin=3), b'\0\0\0\0\0'
    yield 'depth limit 1: a struct', under(depth=1), b'\x1c\0\0'
    yield 'depth limit 1: a list, empty', under(depth=1), b'\x15\x02\x19\x03\0'
    yield 'depth limit 2: element 0 of a list is a list', under(depth=2), b'\x19\x29\x03\x03\0'
    yield 'depth limit 2: the value of a map is a map', under(depth=2), b'\x1b\x01\x3b\x07\0\0'
    yield 'depth limit 2: the key of a map is a struct', under(depth=2), b'\x1b\x01\xc3\0\x07\0'
    yield 'depth limit 2: a list of lists, empty', under(depth=2), b'\x19\x09\0'
    yield 'depth 64 of 64', wide._replace(depth=64), b'\0'
    yield 'depth 63 of 64: a struct in it', wide._replace(depth=63), b'\x1c\0\0'
    yield 'depth 62 of 64: an element in a list in it', wide._replace(depth=62), b'\x19\x1c\0\0'
    yield 'string limit 3', under(string=3), b'\x18\x03abc\x18\x04abcd\0'
    yield 'string limit 0', under(string=0), b'\x18\0\x18\x01a\0'
    yield 'string limit 3, certain before the length ends', under(string=3), b'\x18\xff\xff\x7f'
    yield 'container limit 2', under(container=2), b'\x19\x23\x01\x02\x1a\x33\x01\x02\x03\0'
    yield 'container limit 2, a map', under(container=2), b'\x1b\x03\x33\x01\x02\x03\x04\x05\x06\0'
    yield 'container limit 2, 9 first', under(container=2), b'\x19\xf3' + varint(2 ** 31)
    yield 'container limit 20, 8 before the bytes left', under(container=20), b'\x19\xf3\x15\0'
    yield 'container limit 1000, before Stop elements', under(container=1000), b'\x19\xf0' + varint(1001)
    for begin in (0, 4):
        at = wide._replace(place=begin, begin=begin)
        pad = b'\xee' * begin
        for ceiling in (0, 1, 2, 3, 9, 10, 11, 12, 84, 85, 86):
            limits = WIDE._replace(message=ceiling)
            yield f'a trial from {begin} under the ceiling {ceiling}', at._replace(limits=limits), pad + TRIAL + b'left'
        for ceiling in (1, 2, 3, 4, 5):
            limits = WIDE._replace(message=ceiling)
            yield f'a string cut by the ceiling {ceiling}, from {begin}', at._replace(limits=limits), pad + b'\x18\x02ab\0'
            yield f'a list of i8 cut by the ceiling {ceiling}, from {begin}', at._replace(limits=limits), pad + b'\x19\x23\x01\x02\0'
            yield f'a map cut by the ceiling {ceiling}, from {begin}', at._replace(limits=limits), pad + b'\x1b\x01\x33\x01\x02\0'
            yield f'a bad type under the ceiling {ceiling}, from {begin}', at._replace(limits=limits), pad + b'\x13\x01\x15\x02\x1e'
    yield 'the ceiling is where the input ends: END', wide._replace(limits=WIDE._replace(message=2)), b'\x15\x82'
    yield 'the ceiling is behind the end: END', wide._replace(limits=WIDE._replace(message=3)), b'\x15\x82'
    yield 'the ceiling counts from the beginning, not from the place', State(WIDE._replace(message=8), 5, 2, 0, False), b'\xee' * 5 + b'\x15\x02\x15\x82\x04\0'
    yield 'the place is at the cut', State(WIDE._replace(message=3), 5, 2, 0, False), b'\xee' * 5 + b'\0'
    yield 'in the middle of the input', wide._replace(place=3, begin=3), b'\xee' * 3 + b'\x11\x15\x02\x1e'
    yield 'at the end of the input', wide._replace(place=3, begin=3), b'\xee' * 3
    yield '15: the place is past the cut', State(WIDE._replace(message=3), 6, 2, 0, False), b'\xee' * 6 + b'\0'
    yield '15: the place is past the input', wide._replace(place=4), b'\0\0\0'
    yield '15: the place is far past the input', wide._replace(place=4000000000), b'\0'
    yield '15: the beginning is past the place', wide._replace(place=1, begin=2), b'\0\0\0'
    yield '15: the depth is over its limit', under(depth=3)._replace(depth=4), b'\0'
    yield '15: a depth limit of 65', under(depth=65), b'\0'
    for name in ('string', 'container', 'message'):
        yield f'15: a limit out of range, {name}', under(**{name: MOST + 1}), b'\0'
    yield '15 before 12', under(depth=65)._replace(pending=True), b'\0'
    yield '12: a bool waits', wide._replace(pending=True), b'\0'
    yield '12: a bool waits, further on', wide._replace(place=2, begin=1, pending=True), b'\0\0\x1e'
    yield '12: a bool waits, and no room', under(depth=0)._replace(pending=True), b'\0'


# ---- Cases of a message

def messages():
    yield "the scope paper's sample", bytes.fromhex('822101017411150100')
    yield 'nothing', b''
    yield '1: the second byte missing', b'\x82'
    yield '1: the sequence number missing', b'\x82\x21'
    yield '1: the sequence number cut', b'\x82\x21\x80\x80'
    yield '1: the length of the name missing', b'\x82\x21\x01'
    yield '1: the length of the name cut', b'\x82\x21\x01\x81'
    yield '1: no byte of the name', b'\x82\x21\x01\x02'
    yield '1: a byte of the name missing', b'\x82\x21\x01\x02t'
    yield '1: no struct', HEAD
    yield '2: the first byte', b'\x81\x21\x01\x01t\0'
    yield '2: the version', b'\x82\x22\x01\x01t\0'
    yield '3: type 0', b'\x82\x01\x01\x01t\0'
    yield '3: type 5', b'\x82\xa1\x01\x01t\0'
    yield '6: the sequence number', b'\x82\x21' + b'\xff' * 6
    yield '6: the length of the name', b'\x82\x21\x01' + b'\x80' * 6
    yield '8: the length of the name', b'\x82\x21\x01' + varint(65537) + b't'
    yield '11: the name', b'\x82\x21\x01\x03t\xffq\0'
    yield '11: the name, cut in a character', b'\x82\x21\x01\x02t\xc3\0'
    yield 'a name of 300 bytes', b'\x82\x21\x01' + varint(300) + b'n' * 300 + b'\x1e\0'
    yield '8: a string longer than 65,536', HEAD + b'\x18' + varint(65537)
    yield '8: a list of more than 65,536', HEAD + b'\x19\xf3' + varint(65537)
    yield '8: a map of more than 65,536', HEAD + b'\x2b' + varint(65537) + b'\x33'
    head = bytes.fromhex('8221070574') + b'rial'
    yield 'a trial', head + TRIAL
    yield 'a trial, and bytes behind it', head + TRIAL + bytes(range(20))
    for k in range(0, len(TRIAL), 6):
        yield f'a trial, byte {k} of its struct changed', head + TRIAL[:k] + bytes([TRIAL[k] ^ 0x0f]) + TRIAL[k + 1:]
        yield f'a trial cut behind byte {k} of its struct', head + TRIAL[:k]
    for title, data in by_hand():
        if ': a field' not in title or ': a field of a struct' in title:
            yield title, HEAD + data
    for title, data in nested():
        yield title, HEAD + data
    long = HEAD + b'\x18' + varint(65526) + b'a' * 65526
    yield '65,536 bytes', long + b'\0' * (65536 - len(long))
    yield '14: 65,537 bytes', long + b'\0' * (65537 - len(long))


# ---- Cases of a day

def days():
    """Day files: good and damaged trials in one; one whose last message is too long; one that breaks a rule."""
    head = bytes.fromhex('8221070574') + b'rial'
    bad = bytearray(head + TRIAL)
    bad[len(head) + 30] = 0x1e
    long = head + b'\x18' + varint(65600) + b'a' * 65600 + b'\0'
    yield 'seven messages', day.day([head + TRIAL, bytes(bad), head + TRIAL[:40], b'\x81', head + b'\0' + b'left', head[:5], head + b'\x1e'])
    yield 'nine messages', day.day([head + TRIAL] * 8 + [b'\0'])
    yield 'a message of more than 65,536 bytes', day.day([head + b'\0', long])
    yield 'no message', day.day([])
    yield 'a file that is none', b'\x01\0\0\0' + head
    yield 'no byte', b''


PROBES = 8


def day_lines(file):
    for k in range(PROBES):
        found = day.message(file, k)
        yield f'{k} ' + line(Refused(BAD_DAY, 0, ()) if found is None else message_fault(file[found[0]:found[1]])[0])


# ---- The crate's word

class Crate:
    def __init__(self, work):
        self.work = work

    def ask(self, lines):
        text = ''.join(each + '\n' for each in lines)
        told = [subprocess.run([os.path.join(self.work, build)], input=text, capture_output=True, text=True, check=True).stdout.splitlines() for build in ('oracle', 'oracle-chk')]
        words = [[each.split(' ; ')[0].split() for each in build] for build in told]
        assert words[0] == words[1] and len(words[0]) == len(lines)
        return words[0]

    def skips(self, rows):
        """What skip answers of (bytes, string limit, container limit): the place behind the struct, or minus the number."""
        told = self.ask([f'R 64 {string} {container} - {data.hex() or "-"} skip:struct' for data, string, container in rows])
        return [-int(last[1:]) if last.startswith('!') else int(last.split('@')[1]) for *_, last in told]

    def reads(self, calls):
        """(value, place) or a refusal's number of the last of (bytes, calls) each."""
        told = self.ask([f'R - - - - {data.hex() or "-"} {" ".join(names)}' for data, names in calls])
        return [int(last[1:]) if last.startswith('!') else (last.split('@')[0], int(last.split('@')[1])) for *_, last in told]

    def prints(self, data):
        told = [subprocess.run([os.path.join(self.work, build), 'print'], input=data, capture_output=True, check=True).stdout for build in ('oracle', 'oracle-chk')]
        assert told[0] == told[1]
        return told[0].decode().splitlines()


def agree(what, *words):
    if any(word != words[0] for word in words):
        sys.exit(f'{what}: {words}')


def check_structs(crate, cases):
    """The crate's skip on the structs that stand alone in their input, where its depth rule and its Stop rule are the scope's (docs/DIFFERENCES.md, D1 to D6)."""
    asked = []
    for title, state, data in cases:
        answer, reading = struct_fault(data, state)
        plain = state == State(state.limits._replace(depth=64, message=MOST), 0, 0, 0, False) and max(state.limits[1:3]) <= MOST
        if plain and not reading.stop_values and reading.deepest != 64:
            asked.append((title, data, state.limits[1:3], answer))
    rows, wants, what = [], [], []
    for title, data, sizes, answer in asked:
        rule = rules.broken(data, 0, ('skip', STRUCT), (64, *sizes))
        if isinstance(answer, Accepted):
            probes = [(data, answer.used)]
        elif rule:
            agree(title, rule.why, answer.why)
            probes = [(data[:rule.begins], -END)]
        elif answer.why == END:
            probes = [(data, -END)]
        else:
            probes = [(data, -answer.why), (data[:answer.offset], -END), (data[:answer.offset + 1], -answer.why)]
        for probe, want in probes:
            rows.append((probe, *sizes))
            wants.append(want)
            what.append((title, probe.hex()))
    for each, want, told in zip(what, wants, crate.skips(rows)):
        agree(each, want, told)
    check_causes(crate, asked)
    return len(asked)


def check_causes(crate, asked):
    """Where a rule is broken that the crate does not have: its own call reads what the rule refuses, and up to the byte behind the offset."""
    found = []
    for title, data, sizes, answer in asked:
        rule = rules.broken(data, 0, ('skip', STRUCT), (64, *sizes))
        if rule:
            found.append((title, data, rule, answer))
    for (title, data, rule, answer), told in zip(found, crate.reads([(data, ['i8'] * rule.begins + [rule.by]) for _, data, rule, _ in found])):
        agree(title, True, rules.is_cause(rule, told, len(data)))
        agree(title, answer.offset + 1, told[1])


class Ended(Exception):
    pass


class Lines:
    """The lines that the crate's reader prints: which fields and elements are begun and not ended where they end with a refusal."""

    def __init__(self, lines):
        self.lines, self.at, self.path = lines, 0, []

    def next(self):
        words = self.lines[self.at].split()
        if words[0] == 'refused':
            raise Ended
        self.at += 1
        return words

    def step(self, word, number, kind):
        self.path.append((word, number))
        self.value(kind)
        self.path.pop()

    def value(self, kind):
        words = self.next()
        if kind == 'struct':
            while (words := self.next())[0] != 'stop':
                self.step('field', int(words[1]), words[2])
        elif kind in ('list', 'set'):
            if words[1] == 'stop' and words[2] != '0':
                self.next()
            for i in range(int(words[2])):
                self.step('element', i, words[1])
        elif kind == 'map' and words[1] != '0':
            if 'stop' in words[1:3]:
                self.next()
            for i in range(int(words[3])):
                self.step('key', i, words[1])
                self.step('value', i, words[2])

    def message(self):
        """The path, or None where nothing is refused; and whether the header was."""
        try:
            self.next()
            self.value('struct')
        except Ended:
            return tuple(self.path), self.at == 0
        return None, False


def check_messages(crate, cases):
    """The crate's lines of each message: number and path."""
    for title, data in cases:
        answer, reading = message_fault(data)
        if reading is None:
            continue
        rule = rules.broken(data, 0, ('print',), PRINTED[:3])
        lines = crate.prints(data[:rule.begins] if rule else data)
        path, in_header = Lines(lines).message()
        if isinstance(answer, Accepted):
            agree(title, lines[-1].split()[:2], ['end', str(answer.used)])
        else:
            agree(title, path, answer.path)
            agree(title, in_header, not reading.headed)
            agree(title, lines[-1], f'refused {END if rule else answer.why}')


# ---- The request's own words, on the model

def steady(cases):
    """ "other bytes behind the offset, with the length kept, change neither number, offset nor path" """
    dice = random.Random(88)
    for title, state, data in cases:
        answer, _ = struct_fault(data, state)
        if isinstance(answer, Refused):
            kept = data[:answer.offset + 1]
            agree(title, answer, struct_fault(kept + dice.randbytes(len(data) - len(kept)), state)[0])
            assert len(answer.path) <= 64 and (answer.why == BAD_STATE or state.place <= answer.offset <= len(data))


def covered(cases):
    """Every number that can come, every kind of step, paths of every length, every type's own refusals."""
    numbers, words, lengths = set(), set(), set()
    for _, state, data in cases:
        answer, _ = struct_fault(data, state)
        if isinstance(answer, Refused):
            numbers.add(answer.why)
            words.update(word for word, _ in answer.path)
            lengths.add(len(answer.path))
    assert numbers == {1, 4, 5, 6, 7, 8, 9, 10, 12, 15, 17, 19}, numbers
    assert words == {'field', 'element', 'key', 'value'}
    assert {0, 1, 2, 3, 4, 5, 63, 64} <= lengths and max(lengths) == 64, lengths


# ---- The files

def structs():
    wide = State(WIDE, 0, 0, 0, False)
    for title, data in by_hand():
        yield title, wide, data
    for title, data in nested():
        yield title, wide, data
    for title, data in by_chance(400):
        yield title, wide, data
    yield from states()


def state_bytes(state):
    return struct.pack('<8I', *state.limits, state.place, state.begin, state.depth, state.pending)


def make_cases(structs, messages):
    given = told = b''
    for title, state, data in structs:
        given, told = add(given, told, 'struct', title, state_bytes(state) + data, line(struct_fault(data, state)[0]))
    for title, data in messages:
        given, told = add(given, told, 'message', title, data, text(data, *message_fault(data)))
    for title, file in days():
        given, told = add(given, told, 'day', title, file, ''.join(day_lines(file)))
    put('fault_cases', 'stdin', given)
    put('fault_cases', 'stdout', told)
    return len(given)


def make_sample():
    """The file of the program's own run: a trial of three points, whose third one has a field of a type that has no code."""
    data = bytearray(bytes.fromhex('8221070574') + b'rial' + TRIAL)
    data[76] = 0x1e
    put('fault', os.path.join('data', 'damaged'), bytes(data))
    put('fault', 'stdout', text(bytes(data), *message_fault(bytes(data))).encode())
    put('fault', 'args', b'damaged\n')


def add(given, told, kind, title, frame, answer):
    head = f'{len(frame):05} {kind} {title}\n'.encode()
    return given + head + frame, told + head + answer.encode()


def put(crate, file, what):
    path = os.path.join(CRATES, crate, file)
    os.makedirs(os.path.dirname(path), exist_ok=True)
    with open(path, 'wb') as f:
        f.write(what)


def main():
    if len(sys.argv) not in (3, 4):
        sys.exit(__doc__)
    source, harness = sys.argv[1:3]
    work = sys.argv[3] if len(sys.argv) > 3 else tempfile.mkdtemp()
    if not os.path.exists(os.path.join(work, 'oracle-chk')):
        subprocess.run(['sh', os.path.join(harness, 'build.sh'), source, work], check=True, stdout=subprocess.DEVNULL)
    crate, all_structs, all_messages = Crate(work), list(structs()), list(messages())
    covered(all_structs)
    steady(all_structs)
    asked = check_structs(crate, all_structs)
    check_messages(crate, all_messages)
    length = make_cases(all_structs, all_messages)
    make_sample()
    print(f'{len(all_structs)} structs, {asked} of them judged by the crate too; {len(all_messages)} messages; {length} bytes of cases')


if __name__ == '__main__':
    main()
