#!/usr/bin/env python3
"""day.py

Makes the cases of a day file and their answers anew: stdin and stdout of crates/day_cases, and data/ and stdout of crates/day. Everything here is a model
written from the request and the rules of docs/SCOPE.md; no answer comes from the port.
"""
import os
import struct

CRATES = os.path.join(os.path.dirname(os.path.abspath(__file__)), os.pardir, 'crates')

BAD_DAY, NO_ROOM = 18, 14
MOST_MESSAGES, MOST_BYTES = 4096, 4294967295


# ---- The model

def number(file, k):
    return struct.unpack_from('<I', file, 4 * k)[0]


def check(file):
    """ "The first offset is 4N+8, each is larger than the one before, the last is the file's length; N is at most 4,096." N, or None where a rule is broken. """
    if len(file) < 4:
        return None
    n = number(file, 0)
    if n > MOST_MESSAGES or len(file) < 4 * n + 8:
        return None
    offsets = [number(file, 1 + k) for k in range(n + 1)]
    if offsets[0] != 4 * n + 8 or offsets[-1] != len(file) or any(a >= b for a, b in zip(offsets, offsets[1:])):
        return None
    return n


def message(file, k):
    """Where message k starts and ends, or None."""
    n = check(file)
    return None if n is None or k >= n else (number(file, k + 1), number(file, k + 2))


def day(messages):
    """ "a header of a count N and N+1 offsets, each a little-endian 32-bit number, then the messages one after another" """
    at, offsets = 4 * len(messages) + 8, []
    for each in messages:
        offsets.append(at)
        at += len(each)
    return b''.join(struct.pack('<I', n) for n in [len(messages)] + offsets + [at]) + b''.join(messages)


def write(room, data, ends):
    """The refusal's number or 0, the file's length, and the lent output behind the call, which was filled with aa."""
    out = b'\xaa' * room
    begins = [0] + ends[:-1]
    lists_them = all(a < b for a, b in zip(begins, ends)) and (ends[-1] if ends else 0) == len(data)
    if not lists_them or len(ends) > MOST_MESSAGES or 4 * len(ends) + 8 + len(data) > MOST_BYTES:
        return BAD_DAY, 0, out
    file = day([data[a:b] for a, b in zip(begins, ends)])
    if len(file) > room:
        return NO_ROOM, 0, out
    return 0, len(file), file + out[len(file):]


# ---- Cases: files

def row(*numbers):
    return b''.join(struct.pack('<I', n) for n in numbers)


def messages(*lengths):
    return [bytes((37 * i + j) % 256 for j in range(n)) for i, n in enumerate(lengths)]


def files():
    yield 'the empty day of the request', bytes.fromhex('0000000008000000')
    yield 'one message of one byte', day(messages(1))
    yield 'two messages', day(messages(3, 2))
    yield 'three messages', day(messages(1, 300, 7))
    yield 'one message of 9,000 bytes', day(messages(9000))
    yield '4,096 messages of one byte', day(messages(*[1] * 4096))
    yield 'messages that are no messages', day([b'\0', b'\xff' * 4])
    yield 'a message that is a day file', day([day(messages(1, 2)), b'\x82'])
    good = day(messages(3, 2))
    yield 'no byte', b''
    yield 'three bytes', bytes(3)
    yield 'a count alone', row(0)
    yield 'a count and three bytes', row(0) + b'\x08\0\0'
    yield 'an empty day and a byte', row(0, 8) + b'\0'
    yield 'an empty day whose offset is 9', row(0, 9)
    yield 'an empty day whose offset is 9, with that byte', row(0, 9) + b'\0'
    yield 'an empty day whose offset is 4', row(0, 4)
    yield 'an empty day whose offset is 0', row(0, 0)
    for cut in (1, 4, 5, 6, 12, 17):
        yield f'two messages, {cut} bytes cut off', good[:-cut]
    yield 'two messages and a byte', good + b'\0'
    yield 'the first offset too small by one', row(2, 15, 19, 21) + bytes(5)
    yield 'the first offset too large by one, a byte between', row(2, 17, 20, 22) + bytes(6)
    yield 'the first offset 0', row(2, 0, 19, 21) + bytes(5)
    yield 'an empty message first', row(2, 16, 16, 21) + bytes(5)
    yield 'an empty message last', row(2, 16, 21, 21) + bytes(5)
    yield 'an empty message between', row(3, 20, 22, 22, 25) + bytes(5)
    yield 'an offset that falls', row(3, 20, 24, 22, 25) + bytes(5)
    yield 'an offset past the file, then the file\'s length', row(3, 20, 22, 4000, 25) + bytes(5)
    yield 'the last offset too small by one', row(2, 16, 19, 20) + bytes(5)
    yield 'the last offset too large by one', row(2, 16, 19, 22) + bytes(5)
    yield 'the last offset 2^32 - 1', row(2, 16, 19, 2 ** 32 - 1) + bytes(5)
    yield 'an offset with the top bit', row(2, 16, 2 ** 31 + 19, 21) + bytes(5)
    yield 'offsets that are the file\'s and 2^24 more', row(2, 16, 19, 21 + 2 ** 24) + bytes(5)
    yield 'a count one too large', row(3, 16, 19, 21) + bytes(5)
    yield 'a count one too large, the first offset its own', row(3, 20, 21, 22) + bytes(6)
    yield 'a count one too small', row(1, 16, 19, 21) + bytes(5)
    yield 'a count one too small, the first offset its own', row(1, 12, 19, 21) + bytes(5)
    yield 'a count of 2^30: four times it is 0 in 32 bits', row(2 ** 30, 8)
    yield 'a count of 2^30, two offsets', row(2 ** 30, 8, 12)
    yield 'a count of 2^32 - 1: the header wraps to 4', row(2 ** 32 - 1, 4)
    yield 'a count of 2^32 - 2: the header wraps to 0', row(2 ** 32 - 2, 0)
    yield 'a count of 2^31', row(2 ** 31, 8) + bytes(100)
    yield 'a count of 4,096 with no offsets', row(4096, 16392)
    yield '4,097 messages of one byte', day(messages(*[1] * 4097))
    many = list(struct.unpack('<4098I', day(messages(*[1] * 4096))[:16392]))
    yield '4,096 messages, an offset twice in the middle', row(*many[:2000] + many[1999:2000] + many[2001:]) + bytes(4096)
    yield 'big-endian numbers', struct.pack('>4I', 2, 16, 19, 21) + bytes(5)


PROBES = (0, 1, 2, 3, 4095, 4096, 2 ** 32, 2 ** 64 - 1)


def file_answer(file):
    n = check(file)
    yield f'refused {BAD_DAY}' if n is None else f'count {n}'
    for k in PROBES:
        found = message(file, k)
        yield f'{k} refused {BAD_DAY} x' if found is None else f'{k} at {found[0]} {found[1]} x{file[found[0]:found[1]].hex()}'


# ---- Cases: the writer

def ends_of(lists):
    ends, at = [], 0
    for each in lists:
        at += len(each)
        ends.append(at)
    return ends


def writes():
    def of(name, lists, more=0):
        return name, len(day(lists)) + more, b''.join(lists), ends_of(lists)
    two = messages(3, 2)
    yield of('no message, just enough room', [])
    yield of('no message, a byte too little', [], -1)
    yield of('no message, no room', [], -8)
    yield of('one message, just enough room', messages(1))
    yield of('two messages, just enough room', two)
    yield of('two messages, more room', two, 9)
    yield of('two messages, a byte too little', two, -1)
    yield of('two messages, room for the header alone', two, -5)
    yield of('two messages, no room', two, -21)
    yield of('4,096 messages of one byte', messages(*[1] * 4096))
    yield of('4,096 messages of one byte, room for 488 bytes', messages(*[1] * 4096), -20000)
    yield of('a message of 2,000 bytes', messages(2000))
    yield '4,097 messages, no room: 18 before 14', 0, bytes(4097), list(range(1, 4098))
    yield 'an empty message first', 40, b'abcde', [0, 5]
    yield 'an empty message last', 40, b'abcde', [5, 5]
    yield 'an empty message between', 40, b'abcde', [2, 2, 5]
    yield 'an empty message alone', 40, b'', [0]
    yield 'an empty message, no room: 18 before 14', 0, b'abcde', [2, 2, 5]
    yield 'an end that falls', 40, b'abcde', [3, 2, 5]
    yield 'an end past the bytes', 40, b'abcde', [3, 6]
    yield 'an end far past the bytes', 40, b'abcde', [3, 2 ** 64 - 1]
    yield 'an end of 2^32 and 5', 40, b'abcde', [3, 2 ** 32 + 5]
    yield 'an end past the bytes, then their end', 40, b'abcde', [7, 5]
    yield 'bytes behind the last end', 40, b'abcde', [2, 4]
    yield 'bytes and no end', 40, b'abcde', []


def write_answer(room, data, ends):
    why, length, out = write(room, data, ends)
    yield f'{"refused " + str(why) if why else "to " + str(length)} x{out.hex()}'


def make_cases():
    given, told = b'', b''
    for name, file in files():
        given, told = add(given, told, 'file', name, file, file_answer(file))
    for name, room, data, ends in writes():
        frame = row(room, len(ends)) + b''.join(struct.pack('<Q', e) for e in ends) + data
        given, told = add(given, told, 'write', name, frame, write_answer(room, data, ends))
    put('day_cases', 'stdin', given)
    put('day_cases', 'stdout', told)


def add(given, told, kind, name, frame, answer):
    line = f'{len(frame):05} {kind} {name}\n'.encode()
    return given + line + frame, told + line + ''.join(each + '\n' for each in answer).encode()


# ---- The program's list: a line for each message of a day

STRING_LIMIT, CEILING = 65536, 65536


class Refused(Exception):
    pass


class Header:
    """A message's header by docs/SCOPE.md, read up to the message's end or its ceiling."""

    def __init__(self, data):
        self.data, self.at, self.cut = data, 0, min(len(data), CEILING)

    def some(self, n):
        if self.cut - self.at < n:
            raise Refused(19 if self.cut < len(self.data) else 1)
        self.at += n
        return self.data[self.at - n:self.at]

    def varint(self):
        value = 0
        for k in range(5):
            b = self.some(1)[0]
            value |= (b & 127) << 7 * k
            if b < 128:
                return value % 2 ** 32
        raise Refused(6)

    def line(self):
        if self.some(1) != b'\x82':
            raise Refused(2)
        b = self.some(1)[0]
        if b % 32 != 1:
            raise Refused(2)
        if not 1 <= b // 32 <= 4:
            raise Refused(3)
        sequence, length = self.varint(), self.varint()
        if length > STRING_LIMIT:
            raise Refused(8)
        name = self.some(length)
        try:
            name.decode('utf8')
        except UnicodeDecodeError:
            raise Refused(11)
        return f'message {b // 32} {sequence - 2 ** 32 if sequence >= 2 ** 31 else sequence} x{name.hex()}'


def header_line(data):
    try:
        return Header(data).line()
    except Refused as why:
        return f'refused {why}'


def sample():
    """A day: calls, replies, and bytes that are no message."""
    yield bytes.fromhex('822101017411150100')
    yield bytes.fromhex('8221070574') + b'rial' + b'\0'
    yield bytes.fromhex('8241ffffffff0f0000')
    yield bytes.fromhex('828180808080080' '4c3a9c3b800')
    yield b'\x82'
    yield b'\x81\x21\x01\x00\x00'
    yield b'\x82\x22\x01\x00\x00'
    yield b'\x82\x01\x01\x00\x00'
    yield b'\x82\x21' + b'\xff' * 5
    yield b'\x82\x21\x01\x81\x80\x04'
    yield b'\x82\x21\x01\x05abc'
    yield b'\x82\x21\x01\x01\xff\x00'
    yield b'\x82\x21\x01\xfb\xff\x03' + b'n' * 65533
    yield b'\x82\x21\x01\xfa\xff\x03' + b'n' * 65530


def list_lines(file):
    for k in range(check(file)):
        start, end = message(file, k)
        yield f'{k} {start} {end - start} {header_line(file[start:end])}'


def make_list():
    file = day(list(sample()))
    put('day', os.path.join('data', 'sample.day'), file)
    put('day', 'stdout', ''.join(each + '\n' for each in list_lines(file)).encode())


def put(crate, file, what):
    path = os.path.join(CRATES, crate, file)
    os.makedirs(os.path.dirname(path), exist_ok=True)
    with open(path, 'wb') as f:
        f.write(what)


if __name__ == '__main__':
    make_cases()
    make_list()
