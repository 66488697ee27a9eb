#!/usr/bin/env python3
"""binary.py CRATE_SRC HARNESS [WORK]

Makes the cases of crates/binary_cases and their answers anew: its files stdin and stdout. The answers are those of a model of the binary reader's calls, written from
the public document of the binary protocol and the rules of docs/SCOPE.md; none comes from the port. The first cases are the bytes of the crate's published tests of
the binary protocol (thrift 0.24.0, src/protocol/binary.rs), whose answers stand beside them here as those tests give them and must be the model's own.
CRATE_SRC is the folder of the Rust crate's sources (with lib.rs), HARNESS the folder of the harness over it (build.sh, oracle.rs), WORK a folder to build in (a
temporary one where it is left out; what an earlier run built there is used again). On every case without a ceiling whose state is sound the crate's own strict
binary reader is asked, and on many more that are not kept, 18,702 in all. The model without the rules that the crate does not have (docs/DIFFERENCES.md, D50, D52
and D53) must say what the crate says, or nothing is written; of skip the headers and values are the crate's, nesting and Stop elements are counted by the harness.
"""
import collections
import os
import random
import struct
import subprocess
import sys
import tempfile

sys.dont_write_bytecode = True

FOLDER = os.path.join(os.path.dirname(os.path.abspath(__file__)), os.pardir, 'crates', 'binary_cases')
END, BAD_VERSION, BAD_MESSAGE_TYPE, BAD_TYPE, BAD_BOOL, SIZE_LIMIT, NEGATIVE, DEPTH, BAD_UTF8, OUT_OF_TURN = 1, 2, 3, 4, 5, 8, 9, 10, 11, 12
BAD_STATE, MESSAGE_SIZE = 15, 19
MOST = 2147483647
# the types by the numbers that the calls take, with the binary document's code and the fewest bytes of a value
STOP, BOOL, I8, I16, I32, I64, DOUBLE, STRING, LIST, SET, MAP, STRUCT, UUID = 0, 1, 3, 4, 5, 6, 7, 8, 9, 10, 11, 12, 13
CODE = {STOP: 0, BOOL: 2, I8: 3, DOUBLE: 4, I16: 6, I32: 8, I64: 10, STRING: 11, STRUCT: 12, MAP: 13, SET: 14, LIST: 15, UUID: 16}
TYPE = {code: kind for kind, code in CODE.items()}
LEAST = {STOP: 1, BOOL: 1, I8: 1, STRUCT: 1, I16: 2, I32: 4, STRING: 4, LIST: 5, SET: 5, MAP: 6, I64: 8, DOUBLE: 8, UUID: 16}
VALUES = [kind for kind in CODE if kind != STOP]

Limits = collections.namedtuple('Limits', 'depth string container message')
LIMITS = [Limits(64, MOST, MOST, MOST), Limits(3, 5, 3, MOST), Limits(64, MOST, MOST, 12), Limits(65, MOST, MOST, MOST)]
MESSAGE, FIELD, LIST_BEGIN, MAP_BEGIN, STRUCT_BEGIN, STRUCT_END, SKIP = 0, 1, 2, 3, 13, 14, 20
SCALARS = {4: BOOL, 5: I8, 6: I16, 7: I32, 8: I64, 9: DOUBLE, 10: UUID, 11: STRING, 12: STRING}


class Refused(Exception):
    def __init__(self, why):
        self.why = why


class Reading:
    """The bytes from a place up to the cut, by the public document."""

    def __init__(self, data, at, cut, limits):
        self.data, self.at, self.limits = data, at, limits
        self.end = min(cut, len(data))
        self.missing = MESSAGE_SIZE if cut < len(data) else END

    def some(self, n):
        if self.end - self.at < n:
            raise Refused(self.missing)
        self.at += n
        return self.data[self.at - n:self.at]

    def number(self, n):
        """most significant byte first"""
        return int.from_bytes(self.some(n), 'big')

    def kind(self):
        code = self.number(1)
        if code not in TYPE:
            raise Refused(BAD_TYPE)
        return TYPE[code]

    def size(self, limit):
        n = self.number(4)
        if n > MOST:
            raise Refused(NEGATIVE)
        if n > limit:
            raise Refused(SIZE_LIMIT)
        return n

    def ahead(self, n):
        if self.end - self.at < n:
            raise Refused(self.missing)

    def list_begin(self):
        kind = self.kind()
        n = self.size(self.limits.container)
        self.ahead(n * LEAST[kind])
        return kind, n

    def map_begin(self):
        key, value = self.kind(), self.kind()
        n = self.size(self.limits.container)
        self.ahead(n * (LEAST[key] + LEAST[value]))
        return key, value, n

    def field(self):
        """the type and the id; only the type where it is Stop"""
        kind = self.kind()
        return (STOP, 0) if kind == STOP else (kind, self.number(2))

    def part(self):
        n = self.size(self.limits.string)
        self.some(n)
        return self.at - n, self.at

    def text(self):
        a, z = self.part()
        try:
            self.data[a:z].decode('utf-8')
        except UnicodeDecodeError:
            raise Refused(BAD_UTF8) from None
        return a, z

    def truth(self):
        b = self.number(1)
        if b > 1:
            raise Refused(BAD_BOOL)
        return b

    def message(self):
        word = self.some(4)
        if word[:2] != b'\x80\x01':
            raise Refused(BAD_VERSION)
        if word[3] not in (1, 2, 3, 4):
            raise Refused(BAD_MESSAGE_TYPE)
        a, z = self.text()
        return word[3], self.number(4), a, z

    def skip(self, kind, room):
        if kind == STOP:
            raise Refused(BAD_TYPE)
        if kind in (LIST, SET, MAP, STRUCT) and room == 0:
            raise Refused(DEPTH)
        if kind == BOOL:
            self.truth()
        elif kind == STRING:
            self.part()
        elif kind in (LIST, SET):
            element, n = self.list_begin()
            self.begin(n, element)
            for _ in range(n):
                self.skip(element, room - 1)
        elif kind == MAP:
            key, value, n = self.map_begin()
            self.begin(n, key, value)
            for _ in range(n):
                self.skip(key, room - 1)
                self.skip(value, room - 1)
        elif kind == STRUCT:
            while True:
                member, _ = self.field()
                if member == STOP:
                    return
                self.skip(member, room - 1)
        else:
            self.some(LEAST[kind])

    def begin(self, n, *kinds):
        if n and STOP in kinds:
            raise Refused(BAD_TYPE)


def answer(data, call, which, place, begin, depth):
    """What the call answers and the state that it hands back, in the program's words."""
    limits = LIMITS[which]
    said, state = respond(data, call, limits, place, begin, depth)
    return '%s at %d %d %d' % ((said,) + state)


def respond(data, call, limits, place, begin, depth):
    old = (place, begin, depth)
    cut = begin + limits.message
    if limits.depth > 64 or place > len(data) or depth > limits.depth or begin > place or place > cut:
        return 'refused %d' % BAD_STATE, old
    if call == STRUCT_BEGIN:
        return ('refused %d' % DEPTH, old) if depth >= limits.depth else ('got', (place, begin, depth + 1))
    if call == STRUCT_END:
        return ('refused %d' % OUT_OF_TURN, old) if depth == 0 else ('got', (place, begin, depth - 1))
    if call == MESSAGE:
        begin, cut = place, place + limits.message
    reading = Reading(data, place, cut, limits)
    try:
        said = words(reading, call, limits.depth - depth)
    except Refused as refusal:
        return 'refused %d' % refusal.why, old
    return said, (reading.at, begin, depth)


def words(reading, call, room):
    if call >= SKIP:
        reading.skip(call - SKIP, room)
        return 'got'
    if call == MESSAGE:
        return 'got %d %d %d %d' % reading.message()
    if call == FIELD:
        kind, ident = reading.field()
        return 'stop' if kind == STOP else 'got %d %d' % (kind, ident)
    if call == LIST_BEGIN:
        return 'got %d %d' % reading.list_begin()
    if call == MAP_BEGIN:
        return 'got %d %d %d' % reading.map_begin()
    if call == 4:
        return 'got %d' % reading.truth()
    if call == 10:
        reading.some(16)
        return 'got %d %d' % (reading.at - 16, reading.at)
    if call == 11:
        return 'got %d %d' % reading.part()
    if call == 12:
        return 'got %d %d' % reading.text()
    return 'got %d' % reading.number(LEAST[SCALARS[call]])


# ---- The crate

NAME = {STOP: 'stop', BOOL: 'bool', I8: 'i8', I16: 'i16', I32: 'i32', I64: 'i64', DOUBLE: 'double', STRING: 'string', LIST: 'list', SET: 'set', MAP: 'map', STRUCT: 'struct', UUID: 'uuid'}
CALLS = {MESSAGE: 'message', FIELD: 'field', LIST_BEGIN: 'list', MAP_BEGIN: 'map', 4: 'bool', 5: 'i8', 6: 'i16', 7: 'i32', 8: 'i64', 9: 'double', 10: 'uuid', 11: 'bytes', 12: 'string'}


class NotAsked(Exception):
    pass


class Looser(Reading):
    """What the crate reads: any byte but 0 is true, counts are not held against the bytes left, and 1 is a type (then it is not asked)."""

    def truth(self):
        return int(self.number(1) != 0)

    def ahead(self, n):
        pass

    def kind(self):
        if self.at < self.end and self.data[self.at] == 1:
            raise NotAsked
        return super().kind()


def signed(n, size):
    return n - (1 << 8 * size) if n >> 8 * size - 1 else n


def expected(data, call, limits, depth):
    """What the crate should say, in the harness's words."""
    reading = Looser(data, 0, len(data), limits)
    try:
        if call >= SKIP:
            reading.skip(call - SKIP, limits.depth - depth)
            said = 'ok'
        elif call == MESSAGE:
            kind, sequence, a, z = reading.message()
            said = '%d,%d,x%s' % (kind, signed(sequence, 4), data[a:z].hex())
        elif call == FIELD:
            kind, ident = reading.field()
            said = 'stop' if kind == STOP else '%d,%s' % (signed(ident, 2), NAME[kind])
        elif call == LIST_BEGIN:
            kind, n = reading.list_begin()
            said = '%s,%d' % (NAME[kind], n)
        elif call == MAP_BEGIN:
            key, value_type, n = reading.map_begin()
            said = '%s,%s,%d' % (NAME[key], NAME[value_type], n)
        elif call == 4:
            said = 'true' if reading.truth() else 'false'
        elif call == 9:
            said = '%016x' % reading.number(8)
        elif call == 10:
            said = 'x' + reading.some(16).hex()
        elif call in (11, 12):
            a, z = reading.part() if call == 11 else reading.text()
            said = 'x' + data[a:z].hex()
        else:
            size = LEAST[SCALARS[call]]
            said = '%d' % signed(reading.number(size), size)
    except Refused as refusal:
        return '!%d' % refusal.why
    return '%s@%d' % (said, reading.at)


def ask(crate, harness, work, rows):
    """How many cases the crate was asked, all of which it must answer as the looser model does."""
    if not os.path.exists(os.path.join(work, 'oracle')):
        subprocess.run([os.path.join(harness, 'build.sh'), crate, work], check=True, stdout=subprocess.DEVNULL)
    lines, wanted = [], []
    for data, call, which, place, begin, depth in rows:
        limits = LIMITS[which]
        if which > 1 or place > len(data) or begin > place or depth > limits.depth or call in (STRUCT_BEGIN, STRUCT_END) or call == SKIP + STOP:
            continue
        data = data[place:]
        try:
            said = expected(data, call, limits, depth)
        except NotAsked:
            continue
        name = CALLS[call] if call < SKIP else 'walk:' + NAME[call - SKIP]
        lines.append('RB %d %d %d - %s %s' % (limits.depth, limits.string, limits.container, data.hex() or '-', ' '.join(['sbegin'] * depth + [name])))
        wanted.append(' '.join(['ok@0'] * depth + [said]))
    run = subprocess.run([os.path.join(work, 'oracle')], input='\n'.join(lines) + '\n', capture_output=True, text=True, check=True)
    told = [line.split(' ; ')[0].strip() for line in run.stdout.split('\n')[:len(lines)]]
    for line, want, got in zip(lines, wanted, told):
        assert want == got, (line, want, got)
    assert len(told) == len(lines)
    return len(lines)


# ---- The published tests: bytes, call, limits, and what the test says. Behind a container's header as many bytes are put as its count calls for.

PUBLISHED = [
    ('80 01 00 01 00 00 00 04 74 65 73 74 00 00 00 01', MESSAGE, 0, 'got 1 1 8 12 at 16 0 0'),
    ('80 01 00 02 00 00 00 04 74 65 73 74 00 00 00 0a', MESSAGE, 0, 'got 2 10 8 12 at 16 0 0'),
    ('0b 00 16', FIELD, 0, 'got 8 22 at 3 0 0'),
    ('00', FIELD, 0, 'stop at 1 0 0'),
    ('02 00 00 00 05' + ' 00' * 5, LIST_BEGIN, 0, 'got 1 5 at 5 0 0'),
    ('06 00 00 00 07' + ' 00' * 14, LIST_BEGIN, 0, 'got 4 7 at 5 0 0'),
    ('0a 0c 00 00 00 20' + ' 00' * 288, MAP_BEGIN, 0, 'got 6 12 32 at 6 0 0'),
    ('01', 4, 0, 'got 1 at 1 0 0'),
    ('00', 4, 0, 'got 0 at 1 0 0'),
    ('00 00 00 0a 0a cc d1 84 99 12 ab bb 45 df', 11, 0, 'got 4 14 at 14 0 0'),
    ('f9 16 8c 5e ce b2 4f aa b6 bf 32 9b f3 9f a1 e4', 10, 0, 'got 0 16 at 16 0 0'),
    ('0f ff ff ff ff', LIST_BEGIN, 0, 'refused 9 at 0 0 0'),
    ('0f 00 00 00 c8', LIST_BEGIN, 1, 'refused 8 at 0 0 0'),
    ('00 00 07 d0', 12, 1, 'refused 8 at 0 0 0'),
    # where the rules part from the crate: it takes any byte but 0 for true, and, not strict, a message without a version
    ('ac', 4, 0, 'refused 5 at 0 0 0'),
    ('00 00 00 04 74 65 73 74 01 00 00 00 01', MESSAGE, 0, 'refused 2 at 0 0 0'),
]

# ---- The rules' own small inputs

NOTED = [
    ('00', MESSAGE), ('80 01 00', MESSAGE), ('80 01 ff 01 00 00 00 01 74 00 00 00 01', MESSAGE), ('80 02 00 01 00 00 00 01 74 00 00 00 01', MESSAGE),
    ('00 01 00 01 00 00 00 01 74 00 00 00 01', MESSAGE), ('80 01 00 09 00 00 00 01 74 00 00 00 01', MESSAGE), ('80 01 00 00 00 00 00 00 00 00 00 01', MESSAGE),
    ('80 01 00 05 00 00 00 00 00 00 00 01', MESSAGE), ('80 01 00 81 00 00 00 00 00 00 00 01', MESSAGE), ('80 01 00 04 00 00 00 00 ff ff ff ff', MESSAGE),
    ('80 01 00 02 80 00 00 00 00 00 00 01', MESSAGE), ('80 01 00 02 00 00 00 01 ff 00 00 00 01', MESSAGE), ('80 01 00 02 00 00 00 01 74 00 00 00', MESSAGE),
    ('01 00 01', FIELD), ('05 00 01', FIELD), ('11 00 01', FIELD), ('02 ff ff', FIELD), ('02 00', FIELD), ('', FIELD),
    ('02', 4), ('ff', 4), ('00 00 00 00', LIST_BEGIN), ('00 00 00 00 00', LIST_BEGIN), ('00 00 00 00 02 00 00', LIST_BEGIN), ('00 00 00 00 02 00', LIST_BEGIN),
    ('00 00 00 00 00 00', MAP_BEGIN), ('01 0b 00 00 00 00', MAP_BEGIN), ('0b 01 00 00 00 00', MAP_BEGIN), ('0b 08 00 00 00 00', MAP_BEGIN), ('0b 08 00 00 00 01', MAP_BEGIN),
    ('0b 08 00 00 00 01 00 00 00 00 00 00 00', MAP_BEGIN), ('0b 08 00 00 00 01 00 00 00 00 00 00 00 07', MAP_BEGIN), ('00', SKIP + STRUCT), ('00', SKIP + STOP),
    ('00 00 00 00 00', SKIP + LIST), ('00 00 00 00 01 00', SKIP + LIST), ('00 00 00 00 00 00', SKIP + MAP), ('0b 00 00 00 00 01 00 00 00 00 00', SKIP + MAP),
    ('0f 00 00 00 01 0f 00 00 00 00', SKIP + LIST), ('02 00 01 01 00', SKIP + STRUCT), ('02 00 01 02 00', SKIP + STRUCT), ('', STRUCT_BEGIN), ('', STRUCT_END),
]


# ---- Values and damage

def value(rng, kind, depth):
    """The bytes of a value of the type, as the document says."""
    if kind == BOOL:
        return bytes([rng.randrange(2)])
    if kind == STRING:
        text = ''.join(rng.choice('aé€😀') for _ in range(rng.randrange(3))).encode()
        return struct.pack('>i', len(text)) + text
    if kind in (LIST, SET):
        element, n = inner(rng, depth), rng.randrange(4)
        return bytes([CODE[element]]) + struct.pack('>i', n) + b''.join(value(rng, element, depth - 1) for _ in range(n))
    if kind == MAP:
        n = rng.randrange(3)
        if not n and rng.randrange(2):
            return bytes(6)
        key, item = inner(rng, depth), inner(rng, depth)
        return bytes([CODE[key], CODE[item]]) + struct.pack('>i', n) + b''.join(value(rng, key, depth - 1) + value(rng, item, depth - 1) for _ in range(n))
    if kind == STRUCT:
        fields = b''
        for _ in range(rng.randrange(4)):
            member = inner(rng, depth)
            fields += bytes([CODE[member]]) + struct.pack('>h', rng.choice([0, 1, -1, 7, 32767, -32768])) + value(rng, member, depth - 1)
        return fields + b'\0'
    return rng.randbytes(LEAST[kind])


def inner(rng, depth):
    return rng.choice([kind for kind in VALUES if depth > 0 or kind not in (LIST, SET, MAP, STRUCT)])


def header(rng, call):
    if call == MESSAGE:
        return b'\x80\x01' + bytes([rng.randrange(256), rng.randrange(1, 5)]) + value(rng, STRING, 0) + rng.randbytes(4)
    if call == FIELD:
        return bytes([CODE[rng.choice(VALUES)]]) + rng.randbytes(2)
    if call == LIST_BEGIN:
        return value(rng, LIST, 2)
    if call == MAP_BEGIN:
        return value(rng, MAP, 2)
    return value(rng, SCALARS[call], 0)


def damaged(rng, data):
    data = bytearray(data)
    for _ in range(rng.randrange(3)):
        if data:
            at = rng.randrange(min(len(data), rng.choice([3, 8, 400])))
            data[at] = rng.choice([0, 1, 2, 5, 8, 11, 12, 15, 16, 17, 127, 128, 255, data[at] ^ 1 << rng.randrange(8)])
    if data and rng.randrange(3) == 0:
        del data[rng.randrange(len(data)):]
    return bytes(data)


def cases(rng, many):
    for text, call, which, _ in PUBLISHED:
        yield bytes.fromhex(text), call, which, 0, 0, 0
    for text, call in NOTED:
        for which in (0, 1, 2):
            yield bytes.fromhex(text), call, which, 0, 0, 0
    calls = [MESSAGE, FIELD, LIST_BEGIN, MAP_BEGIN] + list(SCALARS)
    for number in range(many):
        if number % 2:
            kind = rng.choice(VALUES if number % 4 == 1 else [LIST, SET, MAP, STRUCT])
            call, data = SKIP + kind, value(rng, kind, rng.randrange(5))
        else:
            call = rng.choice(calls)
            data = header(rng, call)
        if number % 3:
            data = damaged(rng, data)
        before = rng.randbytes(rng.choice([0, 0, 1, 4]))
        data = before + data + rng.randbytes(rng.choice([0, 0, 1, 5]))
        if len(data) > 300:
            continue
        which = rng.choice([0, 0, 1, 2, 2])
        place = len(before)
        begin = rng.choice([0, place])
        depth = rng.choice([0, 0, 1, 3])
        if number % 50 == 0:
            which, place, begin, depth = rng.choice([(3, place, 0, 0), (0, len(data) + 1, 0, 0), (0, place, place + 1, 0), (1, place, 0, 4), (2, len(data), 0, 0)])
        yield data, call, which, place, begin, depth


def main():
    for text, call, which, said in PUBLISHED:
        assert answer(bytes.fromhex(text), call, which, 0, 0, 0) == said, (text, said)
    crate, harness = sys.argv[1:3]
    work = sys.argv[3] if len(sys.argv) > 3 else tempfile.mkdtemp()
    kept = list(cases(random.Random(20), 1500))
    asked = ask(crate, harness, work, kept) + ask(crate, harness, work, cases(random.Random(21), 30000))
    print('the crate was asked %d times' % asked)
    given, answered = b'', b''
    for data, *numbers in kept:
        line = ('%d %d %d %d %d %d\n' % (len(data), *numbers)).encode()
        given += line + data
        answered += line + (answer(data, *numbers) + '\n').encode()
    assert len(given) < 262144
    for name, text in (('stdin', given), ('stdout', answered)):
        with open(os.path.join(FOLDER, name), 'wb') as file:
            file.write(text)


main()
