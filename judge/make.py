#!/usr/bin/env python3
"""make.py CRATE_SRC HARNESS PUBLISHED [WORK]

Makes the cases of crates/vectors and their answers anew: its files stdin and stdout. No answer comes from the port.
CRATE_SRC is the folder of the Rust crate's sources (with lib.rs), HARNESS the folder of the harness over it (build.sh, oracle.rs), PUBLISHED the file of
the published tests of thrift 0.24.0's compact protocol (the `mod tests` of its compact.rs), WORK a folder to build in (a temporary one where it is left out;
what an earlier run built there is used again). Needs rustc, and as and objcopy of GNU binutils. rows.py has the rows of calls, rules.py the rules that the crate does not have.
Where two judges have a word on a case they must agree; the run stops where they don't.
"""
import os
import random
import struct
import subprocess
import sys
import tempfile

sys.dont_write_bytecode = True
import published
import rows
import rules

HERE = os.path.dirname(os.path.abspath(__file__))
CRATE = os.path.join(HERE, os.pardir, 'crates', 'vectors')
END, LONG_VARINT, NO_ROOM = 1, 6, 14
ROOM = 16


def run(command, text):
    done = subprocess.run(command, input=text, capture_output=True, text=True)
    if done.returncode:
        sys.exit(f'{command[0]}: {done.stderr}')
    return done.stdout.splitlines()


def agree(what, *words):
    if any(w != words[0] for w in words):
        sys.exit(f'the judges differ at {what}: {words}')
    return words[0]


def tidy(data):
    """Bytes as a word of a case."""
    return data.hex() or '-'


# ------------------------------------------------------------------ the judges

class Judges:
    """The crate in both builds, GNU as, Python's and Rust's UTF-8, each asked once for all that it is to answer."""

    def __init__(self, source, harness, work):
        if not os.path.exists(os.path.join(work, 'oracle-chk')):
            run(['sh', os.path.join(harness, 'build.sh'), source, work], '')
        run(['rustc', '-O', '-o', os.path.join(work, 'utf8'), os.path.join(HERE, 'utf8.rs')], '')
        self.work = work

    def crate(self, calls):
        """(bytes, calls) each: what stands in the crate's answer for the last call, as (value, place) or a refusal's number."""
        lines = ''.join(f'R - - - - {tidy(data)} {" ".join(names)}\n' for data, names in calls)
        told = [run([os.path.join(self.work, name)], lines) for name in ('oracle', 'oracle-chk')]
        answers = []
        for call, *both in zip(calls, *told):
            last = agree(call, *both).split(' ; ')[0].split()[-1]
            if last.startswith('!'):
                answers.append(int(last[1:]))
            else:
                value, place = last.split('@')
                answers.append((value, int(place)))
        assert len(answers) == len(calls)
        return answers

    def words(self, calls, all_of=False):
        """The crate's own words for the last call of each (bytes, calls), or for all of them, under the port's widest limits."""
        lines = ''.join(f'{LIMITS} {tidy(data)} {" ".join(names)}\n' for data, names in calls)
        told = [run([os.path.join(self.work, name)], lines) for name in ('oracle', 'oracle-chk')]
        both = [agree(c, *[w.split(' ; ')[0].split() for w in ws]) for c, *ws in zip(calls, *told)]
        assert len(both) == len(calls)
        return both if all_of else [w[-1] for w in both]

    def crate_writes(self, calls):
        lines = ''.join(f'W - 64 {call}\n' for call in calls)
        return [agree(*both) for both in zip(*[run([os.path.join(self.work, name)], lines) for name in ('oracle', 'oracle-chk')])]

    def row_words(self, lines):
        """The crate's answers to rows of calls: (release, with overflow checks) each."""
        text = ''.join(line + '\n' for line in lines)
        told = list(zip(*[run([os.path.join(self.work, name)], text) for name in ('oracle', 'oracle-chk')]))
        assert len(told) == len(lines)
        return told

    def assembler(self, numbers):
        """The bytes of each number by the directive .uleb128."""
        asm, obj, flat = (os.path.join(self.work, 'leb.' + e) for e in ('s', 'o', 'bin'))
        with open(asm, 'w') as f:
            for i, n in enumerate(numbers):
                f.write(f'.text\na{i}: .uleb128 {n}\nb{i}:\n.data\n.byte b{i} - a{i}\n')
        run(['as', '-o', obj, asm], '')
        parts = []
        for section in ('.text', '.data'):
            run(['objcopy', '-O', 'binary', '-j', section, obj, flat], '')
            with open(flat, 'rb') as f:
                parts.append(f.read())
        out, at = [], 0
        for length in parts[1][:len(numbers)]:
            out.append(parts[0][at:at + length])
            at += length
        return out

    def utf8(self, rows):
        """Whether each row is UTF-8: Python's strict decoder and Rust's standard library."""
        rust = run([os.path.join(self.work, 'utf8')], ''.join(row.hex() + '\n' for row in rows))
        assert len(rust) == len(rows)
        return [agree(row.hex(), r == 'yes', strict(row)) for row, r in zip(rows, rust)]


def strict(row):
    try:
        row.decode('utf-8', 'strict')
        return True
    except UnicodeDecodeError:
        return False


# Second words on the reads, from the public document: varints in groups of 7 bits, low first; zigzag.

def varint(data, at, bits):
    most = (bits + 6) // 7
    value = 0
    for i in range(most):
        if at + i >= len(data):
            return END
        value |= (data[at + i] & 0x7f) << 7 * i
        if data[at + i] < 0x80:
            return value % (1 << bits), at + i + 1
    return LONG_VARINT


def unzigzag(n):
    return n // 2 if n % 2 == 0 else -(n + 1) // 2


def zigzag(n):
    return 2 * n if n >= 0 else -2 * n - 1


def signed(n, bits):
    n %= 1 << bits
    return n - (1 << bits) if n >> bits - 1 else n


def second_word(kind, data, at):
    if kind == 'double':
        return (struct.unpack_from('<Q', data, at)[0], at + 8) if at + 8 <= len(data) else END
    if kind == 'i8':
        return (signed(data[at], 8), at + 1) if at < len(data) else END
    told = varint(data, at, 64 if kind.endswith('64') else 32)
    if isinstance(told, int):
        return told
    value, place = told
    if kind[0] == 'i':
        value = unzigzag(value)
    return (signed(value, 16) if kind == 'i16' else value), place


# ------------------------------------------------------------------ the cases

def around(*middles):
    return [n for m in middles for n in (m - 1, m, m + 1)]


def uleb(n, length=0):
    """n in groups of 7 bits, in at least so many bytes."""
    out = [n % 128]
    while n >= 128 or len(out) < length:
        n //= 128
        out[-1] |= 128
        out.append(n % 128)
    return bytes(out)


def unsigned_edges(bits):
    tops = [1 << 7 * k for k in range(1, (bits + 6) // 7)]
    halves = [1 << b for b in (15, 16, 31, 32, 63) if b < bits]
    return sorted(set([0, 1, 50399, (1 << bits) - 2, (1 << bits) - 1] + around(*tops) + around(*halves)))


def signed_edges(bits):
    """The ends of the type, and of each length of the number's zigzag."""
    edges = {0, 50399, -50399, (1 << bits - 1) - 1, -(1 << bits - 1)}
    for e in [1 << b for b in range(0, bits - 1) if b % 7 in (5, 6) or b in (0, 15, 31)]:
        edges.update(around(e) + around(-e))
    return sorted(n for n in edges if -(1 << bits - 1) <= n < 1 << bits - 1)


def varint_rows(bits):
    """(title, rows of bytes) of a varint of so many bits."""
    most = (bits + 6) // 7
    full = b'\xff' * (most - 1)
    zeros = b'\x80' * (most - 1)
    last = [0, 1, 2, 3, 4, 7, 8, 0x0f, 0x10, 0x1f, 0x20, 0x40, 0x70, 0x7e, 0x7f]
    return [
        ('the edges of every length', [uleb(n) for n in unsigned_edges(bits)]),
        ('longer forms of a number', [uleb(n, k) for n in (0, 1, 127, 50399) for k in range(len(uleb(n)) + 1, most + 1)]),
        ('the last byte: its upper bits are dropped', [rest + bytes([b]) for rest in (zeros, full) for b in last]),
        ('every top bit set', [rest + bytes([b]) for rest in (zeros, full) for b in (0x80, 0x88, 0xff)] + [full + b'\xff\x00']),
        ('cut short', [b''] + [bytes([b]) * k for b in (0x80, 0xff) for k in range(1, most)]),
        ('bytes behind have no say', [uleb(50399) + b for b in (b'\x00', b'\x80', b'\xff\xff\xff')] + [b'\x00' * 3, b'\x7f\xff']),
    ]


def read_cases():
    """(title, [(kind, bytes, place)])"""
    for kind, bits in (('u32', 32), ('u64', 64)):
        for title, rows in varint_rows(bits):
            yield f'{kind}: {title}', [(kind, row, 0) for row in rows]
        moved = [(b'\xaa' * k + uleb(50399), k) for k in (1, 2, 7)]
        past = [(uleb(50399), p) for p in (1, 2, 3, 4, 9, (1 << 63), (1 << 64) - 1)]
        yield f'{kind}: from a place on', [(kind, row, p) for row, p in moved + past]
    for kind, bits in (('i16', 16), ('i32', 32), ('i64', 64)):
        yield f'{kind}: the edges', [(kind, uleb(zigzag(n)), 0) for n in signed_edges(bits)]
        wide = 64 if kind == 'i64' else 32
        rows = [rows for title, rows in varint_rows(wide) if title.startswith(('the last', 'every', 'cut'))]
        yield f'{kind}: the last byte, every top bit set, cut short', [(kind, row, 0) for part in rows for row in part]
    beyond = [n for n in around(1 << 15, 1 << 16, 1 << 17, 1 << 30) for n in (n, -n)] + [(1 << 31) - 1, -(1 << 31)]
    yield 'i16: numbers of more than 16 bits (the crate keeps the low 16)', [('i16', uleb(zigzag(n)), 0) for n in beyond]
    yield 'the sample bytes of table T, 1 to 4', [
        (kind, bytes.fromhex(row), 0) for kind, row in (
            ('i32', '00'), ('i32', '01'), ('i32', '02'), ('i16', 'ffff03'), ('i32', 'ffffffff0f'), ('i32', 'ffffffff7f'),
            ('i32', 'ffffffffff'), ('i32', 'ffffffff'), ('i16', '808004'))]
    yield 'i8', [('i8', bytes([b]), 0) for b in (0, 1, 0x41, 0x7e, 0x7f, 0x80, 0x81, 0xc0, 0xfe, 0xff)] + [('i8', b'', 0), ('i8', b'\x00\xff', 1)]
    yield 'double: any bits are kept', [('double', struct.pack('<Q', bits), 0) for bits in DOUBLES]
    yield 'double: cut short, bytes behind, a place', (
        [('double', bytes(range(1, k)), 0) for k in range(1, 9)]
        + [('double', bytes(range(1, 17)), p) for p in range(0, 10)] + [('double', bytes(8), (1 << 64) - 1)])


# 0, -0, 1, -1, pi, the least and largest, infinities, and NaNs: quiet and signalling, with and without a payload
DOUBLES = [
    0, 1 << 63, 0x3ff0000000000000, 0xbff0000000000000, 0x400921fb54442d18, 1, 0x000fffffffffffff, 0x0010000000000000,
    0x7fefffffffffffff, 0xffefffffffffffff, 0x7ff0000000000000, 0xfff0000000000000, 0x7ff8000000000000, 0xfff8000000000000,
    0x7ff8000000000001, 0x7ff0000000000001, 0x7ff4000000000000, 0xfff123456789abcd, 0xffffffffffffffff, 0x0123456789abcdef,
]


def write_cases():
    """(title, [(kind, number)])"""
    for kind, bits in (('u32', 32), ('u64', 64)):
        yield f'{kind}: the edges of every length', [(kind, n) for n in unsigned_edges(bits)]
    for kind, bits in (('i16', 16), ('i32', 32), ('i64', 64)):
        yield f'{kind}: the edges', [(kind, n) for n in signed_edges(bits)]
    yield 'double', [('double', bits) for bits in DOUBLES]


def place_cases():
    """(kind, number, place), about the last places of a buffer of ROOM bytes that have room for it"""
    for kind, n, length in (('u32', 0, 1), ('u32', 50399, 3), ('u32', (1 << 32) - 1, 5), ('u64', (1 << 64) - 1, 10),
                            ('i16', -32768, 3), ('i32', -1, 1), ('i64', -(1 << 63), 10), ('double', 0x0123456789abcdef, 8)):
        for place in [1, 5] + around(ROOM - length) + [ROOM, ROOM + 1, 1 << 63, (1 << 64) - length, (1 << 64) - 1]:
            yield kind, n, place


def gap_cases():
    """(title, [(bytes before, bytes behind)])"""
    hexes = lambda *words: [bytes.fromhex(w) for w in words]
    yield 'every byte alone', [(b'', b'')]
    yield 'every row of two bytes', [(bytes([b]), b'') for b in range(256)]
    yield 'the lead byte before each kind of following bytes', [
        (b'', tail) for tail in hexes('7f', '80', 'bf', 'c0', '8080', '9fbf', 'a080', 'bfbf', '807f', '7f80', '80c0', 'c080',
                                      '808080', '8fbfbf', '908080', 'bfbfbf', '80807f', '807f80', '7f8080', '8080c0',
                                      '80808080', 'bfbfbfbf', '8080808080')]
    leads = list(range(0xc0, 0x100))
    yield 'the second of three bytes', [(bytes([b]), tail) for b in leads for tail in hexes('80', 'bf')]
    yield 'the same before a byte that cannot follow', [(bytes([b]), tail) for b in (0xe0, 0xe1, 0xed, 0xef) for tail in hexes('7f', 'c0', 'ff')]
    edges = (0x7f, 0x80, 0x8f, 0x90, 0x9f, 0xa0, 0xbf, 0xc0)
    yield 'the third of three bytes', [(bytes([b, c]), b'') for b in range(0xe0, 0xf0) for c in edges]
    fours = list(range(0xf0, 0xf9))
    yield 'the second of four bytes', [(bytes([b]), tail) for b in fours for tail in hexes('8080', 'bfbf')]
    yield 'the same before bytes that cannot follow', [(bytes([b]), tail) for b in (0xf0, 0xf1, 0xf4) for tail in hexes('7f80', '807f', 'c080', '80c0')]
    yield 'the third of four bytes', [(bytes([b, c]), tail) for b in fours for c in edges for tail in hexes('80')]
    yield 'the fourth of four bytes', [(bytes([b, c, d]), b'') for b in (0xf0, 0xf1, 0xf3, 0xf4, 0xf5) for c in (0x80, 0x8f, 0x90, 0xbf) for d in (0x7f, 0x80, 0xbf, 0xc0)]
    yield 'any place of a text longer than 8 and 16 bytes', (
        [(b'a' * k, b'z' * (20 - k)) for k in range(21)] + [(b'a' * k + b'\xe2', b'\xac' + b'z' * (20 - k)) for k in range(21)])


RFC_3629 = ['41e289a2ce912e', 'ed959ceab5adec96b4', 'e697a5e69cace8aa9e', 'efbbbff0a38eb4']


def utf8_cases():
    """(title, [rows])"""
    rows = [bytes.fromhex(row) for row in RFC_3629]
    yield 'the examples of RFC 3629, section 7', rows
    yield 'the same cut short at each length', [row[:k] for row in rows for k in range(len(row))]
    yield 'the ends of each length and their neighbours', [bytes.fromhex(row) for row in (
        '00', '7f', 'c280', 'dfbf', 'e0a080', 'ed9fbf', 'ee8080', 'efbfbf', 'f0908080', 'f48fbfbf', '80', 'bf', 'c080', 'c1bf', 'e09fbf',
        'eda080', 'edafbf', 'edb080', 'edbfbf', 'f08fbfbf', 'f4908080', 'f5808080', 'f888808080', 'fc8480808080', 'fe', 'ff', 'feff', 'fffe',
        'eda080edb080', 'e28028a1', 'c3', 'e282', 'f09080')]
    text = b'The quick brown fox jumps over it.'
    yield 'a character, and a byte that has none, at each place of a text', [
        text[:k] + part + text[k:] for part in (b'\xe2\x82\xac', b'\xf0\x9d\x84\x9e', b'\x80', b'\xc3') for k in range(0, 20)]
    yield 'texts of each length, whole and cut in their last character', [
        (b'x' * k + tail) for k in (0, 1, 7, 8, 9, 15, 16, 17, 31, 32, 33) for tail in (b'', b'\xc3\xa9', b'\xc3', b'\xe2\x82', b'\xf0\x9d\x84')]
    dice = random.Random(3629)
    parts = rows + [text, bytes.fromhex('c3a9'), bytes.fromhex('f48fbfbf')]
    spoilt = []
    for _ in range(60):
        row = bytearray(b''.join(dice.choice(parts) for _ in range(3)))
        row[dice.randrange(len(row))] = dice.randrange(256)
        spoilt.append(bytes(row[:60]))
    yield 'a byte of a row changed by chance', spoilt


# ------------------------------------------------------------------ the answers

def read_answers(judges):
    groups = list(read_cases())
    cases = [c for _, cs in groups for c in cs]
    named = {'u32': 'i32', 'u64': 'i64'}
    inside = [c for c in cases if c[2] <= len(c[1])]
    calls = [(data, ['i8'] * at + [named.get(kind, kind)]) for kind, data, at in inside]
    told = dict(zip(inside, judges.crate(calls)))
    # A 32-bit varint once more, as a message's sequence number: 82, 21, the varint, an empty name.
    again = [c for c in inside if c[0] == 'u32' and not isinstance(told[c], int)]
    heads = [(b'\x82\x21' + data[at:told[(kind, data, at)][1]] + b'\x00', ['message']) for kind, data, at in again]
    sequence = dict(zip(again, judges.crate(heads)))
    for title, cs in groups:
        yield '# read ' + title, None
        for kind, data, at in cs:
            case = (kind, data, at)
            own = second_word(kind, data, at)
            if case in told:
                crate = told[case]
                if not isinstance(crate, int):
                    value, place = crate
                    value = int(value, 16) if kind == 'double' else int(value)
                    crate = (zigzag(value) if kind in named else value), place
                agree(case, crate, own)
                if case in sequence:
                    words, _ = sequence[case]
                    agree(case, int(words.split(',')[1]) % (1 << 32), own[0])
            if isinstance(own, int):
                answer = f'refused {own}'
            else:
                answer = f'{own[0]:016x} {own[1]}' if kind == 'double' else f'{own[0]} {own[1]}'
            comment, answer = ruled(data, (kind,), [(at, answer)])
            yield from comment
            yield f'read {kind} {tidy(data)}' + (f' {at}' if at else ''), answer


def bytes_of(judges, pairs):
    """The bytes of each (kind, number): GNU as, read back by the crate; a double by the crate, and by Python."""
    out = {}
    varints = sorted({p for p in pairs if p[0] != 'double'})
    made = judges.assembler([zigzag(n) if kind[0] == 'i' else n for kind, n in varints])
    back = judges.crate([(data, [{'u32': 'i32', 'u64': 'i64'}.get(kind, kind)]) for (kind, _), data in zip(varints, made)])
    for (kind, n), data, (value, place) in zip(varints, made, back):
        agree((kind, n), (unzigzag(n) if kind[0] == 'u' else n, len(data)), (int(value), place))
        out[kind, n] = data
    doubles = sorted({p for p in pairs if p[0] == 'double'})
    for (kind, n), told in zip(doubles, judges.crate_writes([f'double:{n:016x}' for _, n in doubles])):
        out[kind, n] = agree((kind, n), bytes.fromhex(told.split()[0]), struct.pack('<Q', n))
    return out


def write_answers(judges):
    groups = list(write_cases())
    placed = list(dict.fromkeys(place_cases()))
    made = bytes_of(judges, {p for _, ps in groups for p in ps} | {(kind, n) for kind, n, _ in placed})
    spell = lambda kind, n: f'{n:016x}' if kind == 'double' else str(n)
    for title, pairs in groups:
        yield '# write ' + title, None
        for kind, n in pairs:
            yield f'write {kind} {spell(kind, n)}', made[kind, n].hex()
    yield f'# write at a place of a buffer of {ROOM} bytes', None
    for kind, n, place in placed:
        fits = place + len(made[kind, n]) <= ROOM
        yield f'write {kind} {spell(kind, n)} {place}', made[kind, n].hex() if fits else f'refused {NO_ROOM}'


def ranges(passing):
    out, b = [], 0
    while b < 256:
        if not passing[b]:
            b += 1
            continue
        e = b
        while e < 255 and passing[e + 1]:
            e += 1
        out.append(f'{b:02x}-{e:02x}')
        b = e + 1
    return ' '.join(out) or 'none'


def utf8_answers(judges):
    gaps = list(gap_cases())
    rows = list(utf8_cases())
    asked = [front + bytes([b]) + tail for _, cs in gaps for front, tail in cs for b in range(256)] + [r for _, rs in rows for r in rs]
    told = iter(judges.utf8(asked))
    for title, cs in gaps:
        yield '# utf8: ' + title, None
        for front, tail in cs:
            yield f'gap {tidy(front)} {tidy(tail)}', ranges([next(told) for _ in range(256)])
    for title, rs in rows:
        yield '# utf8: ' + title, None
        for row in rs:
            yield f'utf8 {tidy(row)}', 'yes' if next(told) else 'no'


# ------------------------------------------------------------------ calls of the reader, and skip

TYPES = {'stop': 0, 'bool': 1, 'i8': 3, 'i16': 4, 'i32': 5, 'i64': 6, 'double': 7, 'string': 8, 'list': 9, 'set': 10, 'map': 11, 'struct': 12, 'uuid': 13}
LIMITS = 'R 64 2147483647 2147483647 -'


def backed(header, read):
    """A header with as many bytes behind it as its elements need, where these are at most 300."""
    walk = rules.Walk(header + bytes(300), 0, rows.WIDE)
    try:
        need = rules.least(*read(walk))
    except rules.Refused:
        return header
    return header + bytes(need) if walk.at == len(header) else header


def call_rows():
    """(title, call, [rows of bytes])"""
    every = [bytes([b]) for b in range(256)]
    long_ids = [bytes([t]) + uleb(zigzag(n)) for t in (1, 2, 5, 12) for n in (0, 1, -1, 14, 15, 16, 32767, -32768, 32768, 65537)]
    yield 'field: every first byte alone', 'field', every
    yield 'field: every first byte, then another header', 'field', [bytes([b, 0x15]) for b in range(256)]
    yield 'field: ids written out, and what follows them', 'field', [row + bytes([b]) for row in long_ids for b in (0x15, 0xf1, 0x02, 0x00)]
    yield 'field: past 32767', 'field', [b'\x05' + uleb(zigzag(n)) + bytes([d << 4 | 5]) for n in range(32750, 32768) for d in (1, 8, 15)]
    yield 'field: cut short', 'field', [b'', b'\x05', b'\x01\x80', b'\x05\xff\xff', b'\x0e', b'\x0f\x80', b'\x05' + b'\xff' * 5]
    counts = [uleb(n) for n in (0, 1, 14, 15, 16, 127, 128, 16384, (1 << 31) - 1, 1 << 31, (1 << 32) - 1)] + [b'\x80\x00', b'\x8f\x00', b'\xff' * 5, b'\x80', b'']
    first = {b: rules.least(b & 15, b >> 4) if b >> 4 < 15 and b & 15 <= rules.UUID else 0 for b in range(256)}
    for name in ('list', 'set'):
        yield f'{name}: every first byte, and as many bytes behind it as its elements need', name, [bytes([b]) + bytes(n) for b, n in first.items()]
        yield f'{name}: a byte fewer', name, [bytes([b]) + bytes(n - 1) for b, n in first.items() if n and (name == 'list' or b >> 4 in (1, 14))]
        yield f'{name}: counts behind it, and the elements\' bytes where they are few', name, [backed(bytes([0xf0 | t]) + n, rules.Walk.items) for t in (0, 1, 2, 5, 7, 13, 14, 15) for n in counts]
    yield 'map: counts, with types and without, and the elements\' bytes where they are few', 'map', [
        backed(n + tail, rules.Walk.pairs) for n in counts for tail in (b'', b'\x85', b'\x12', b'\x00', b'\xe5', b'\x5e', b'\xff')]
    both = [backed(b'\x01' + bytes([b]), rules.Walk.pairs) for b in range(256)]
    yield 'map: every byte of types, and as many bytes behind it as its elements need', 'map', both
    yield 'map: a byte fewer', 'map', [row[:-1] for row in both if len(row) > 2]
    names = [b'\x00', b'\x01t', b'\x03abc', b'\x02\xc3\xa9', b'\x01\xc3', b'\x02\xc3', b'', b'\x80\x00', b'\x05ab', b'\xff\xff\xff\xff\x0f', b'\xff\xff\xff\xff\x07']
    yield 'message: every second byte', 'message', [bytes([0x82, b, 1, 1]) + b't' for b in range(256)]
    yield 'message: sequence numbers and names', 'message', [b'\x82\x21' + n + name for n in counts for name in names]
    yield 'message: the first byte, cut short', 'message', [bytes([b, 0x21, 1, 1]) + b't' for b in (0, 0x80, 0x81, 0x82, 0x83, 0xff)] + [b'', b'\x82', b'\x82\x21', b'\x82\x21\x01']
    for name in ('bytes', 'string'):
        yield f'{name}: lengths, contents, cut short', name, [row + tail for row in names for tail in (b'', b'\x00\xff')]
    yield 'uuid', 'uuid', [bytes(range(k)) for k in range(19)]
    yield 'bool: every byte', 'bool', every + [b'']


def said(name, words):
    """A call's answer in the crate's words, `VALUE@PLACE` or `!N`, as the port says it."""
    if words.startswith('!'):
        return f'refused {int(words[1:])}'
    value, place = words.rsplit('@', 1)
    parts = value.split(',')
    if name == 'bool':
        return ('yes' if value == 'true' else 'no') + f' {place}'
    if name == 'field':
        return f'stop {place}' if value == 'stop' else f'{TYPES[parts[1]]} {parts[0]} {place}'
    if name in ('list', 'set'):
        return f'{TYPES[parts[0]]} {parts[1]} {place}'
    if name == 'map':
        return f'0 0 0 {place}' if value == '0' else f'{TYPES[parts[0]]} {TYPES[parts[1]]} {parts[2]} {place}'
    if name == 'message':
        return f'{parts[0]} {parts[1]} {parts[2][1:] or "-"} {place}'
    return f'{value[1:] or "-"} {place}'


def field_answers(judges, rows):
    """Two fields in a row, a bool's value taken behind its header: asked of the crate in as many steps. (place, answer) of each header."""
    first = judges.words([(row, ['field']) for row in rows])
    is_bool = lambda w: w.rsplit('@', 1)[0].endswith(',bool')
    goes = lambda w: not w.startswith('!') and not w.startswith('stop')
    order = [['field'] + (['bool'] if is_bool(w) else []) + ['field'] for w in first]
    second = judges.words([(row, calls) for row, calls, w in zip(rows, order, first) if goes(w)], all_of=True)
    third = iter(second)
    out = []
    for row, w in zip(rows, first):
        line, parts = said('field', w), []
        if goes(w):
            told = next(third)
            if is_bool(w):
                line += ' yes' if told[1].startswith('true') else ' no'
            parts, line = [(0, line)], said('field', told[-1])
            if is_bool(told[-1]):
                again = judges.words([(row, (['field', 'bool'] if is_bool(w) else ['field']) + ['field', 'bool'])])[0]
                line += ' yes' if again.startswith('true') else ' no'
        out.append(parts + [(int(w.rsplit('@', 1)[1]) if parts else 0, line)])
    return out


def ruled(row, call, parts):
    """(place, answer) of the calls in a row, by the crate: the case's answer with the scope's own rules on top, and before it the crate's where such a rule decides."""
    answer, kept = ' '.join(answer for _, answer in parts), []
    for at, each in parts:
        rule = rules.broken(row, at, call, rows.WIDE)
        if rule:
            own = ' '.join(kept + [f'refused {rule.why}'])
            return [(f'# {rule.difference}, the crate: {answer}', None)] if own != answer else [], own
        kept.append(each)
    return [], answer


def call_answers(judges):
    for title, name, rows in call_rows():
        yield '# call ' + title, None
        told = field_answers(judges, rows) if name == 'field' else [[(0, said(name, w))] for w in judges.words([(row, [name]) for row in rows])]
        for row, parts in zip(rows, told):
            comment, answer = ruled(row, (name,), parts)
            yield from comment
            yield f'call {name} {tidy(row)}', answer


def skip_rows():
    """(title, [(type, bytes)]): nesting of at most 63, and no map with values of type Stop, where the crate differs by intent"""
    names = [n for n in TYPES if n != 'stop']
    yield 'every type on every byte', [(n, bytes([b])) for n in names for b in range(256) if not (n == 'map' and b)]
    yield 'stop', [('stop', b''), ('stop', b'\x00')]
    shapes = [bytes.fromhex(h) for h in (
        '11250100', '1117000000000000f03f150100', '1c00', '2c0000', '25020400', '19250204', '2b', '0185017402', '0185017402',
        '02851174', '1b01850174020000', '13050016020000', '0c060000', '00', '0500', '0580010200', 'f5010200', 'e5020400',
        '190c00', '1d' + '00' * 16, '17' + '00' * 8, '18047465737400', '1802ff0000', '211102', '121100')]
    rows = []
    for shape in shapes:
        for n in ('struct', 'list', 'set', 'map', 'string', 'i64', 'uuid', 'double'):
            for k in range(len(shape) + 1):
                rows.append((n, shape[:k]))
    yield 'values of each kind, whole and cut short', [(n, r) for n, r in dict.fromkeys(rows) if not stop_values(n, r)]
    yield 'nested lists', [('list', b'\x19' * k + b'\x03') for k in (0, 1, 2, 31, 61, 62)] + [('list', b'\x19' * 65 + b'\x03')]
    yield 'nested structs', [('struct', b'\x1c' * k + b'\x00' * (k + 1)) for k in (0, 1, 31, 62)]
    dice = random.Random(1900)
    damaged = []
    for _ in range(300):
        row = bytearray(b''.join(dice.choice(shapes) for _ in range(2)))
        row[dice.randrange(len(row))] = dice.randrange(256)
        damaged.append((dice.choice(('struct', 'list', 'set')), bytes(row[:60])))
    yield 'damaged by chance', damaged


def stop_values(name, row):
    return name == 'map' and len(row) > 1 and row[0] not in (0,) and row[1] & 15 == 0


def skip_answers(judges):
    for title, rows in skip_rows():
        told = judges.words([(row, ['skip:' + name]) for name, row in rows])
        yield '# skip ' + title, None
        for (name, row), w in zip(rows, told):
            comment, answer = ruled(row, ('skip', TYPES[name]), [(0, f'refused {int(w[1:])}' if w.startswith('!') else w.rsplit('@', 1)[1])])
            yield from comment
            yield f'skip {TYPES[name]} {tidy(row)}', answer


def reader_answers(judges, tests):
    groups = list(rows.reader_rows()) + list(rows.skip_rows()) + [('the published tests of thrift 0.24.0', tests.reads)]
    return list(rows.reader_answers(judges, groups)) + list(rows.capped_answers(judges, list(rows.capped_rows())))


def writer_answers(judges, tests):
    groups = list(rows.plain_rows(signed_edges, DOUBLES)) + list(rows.refused_rows()) + [('the published tests of thrift 0.24.0', tests.writes)]
    lines = list(rows.writer_answers(judges, groups))
    numbers = sorted(rows.Writer.varints)
    for n, data in zip(numbers, judges.assembler(numbers)):
        agree(f'varint {n}', data, rows.Writer.varints[n])
    return lines + [(f'# published: {name}: of calls that the port does not have', None) for name in tests.none]


def write(lines):
    with open(os.path.join(CRATE, 'stdin'), 'w') as cases, open(os.path.join(CRATE, 'stdout'), 'w') as answers:
        for case, answer in lines:
            cases.write(case + '\n')
            answers.write(case + '\n' if answer is None else f'{case} = {answer}\n')
    print(f'{sum(a is not None for _, a in lines)} cases')


def main():
    if len(sys.argv) not in (4, 5):
        sys.exit(__doc__)
    with tempfile.TemporaryDirectory() as spare:
        judges = Judges(sys.argv[1], sys.argv[2], sys.argv[4] if len(sys.argv) == 5 else spare)
        tests = published.Published(sys.argv[3])
        parts = (read_answers, write_answers, utf8_answers, call_answers, skip_answers)
        write([line for part in parts for line in part(judges)] + list(reader_answers(judges, tests)) + writer_answers(judges, tests))
        print(f'refused by rules that the crate does not have: {rules.checked(judges.crate, judges.row_words)}')
    print(f'published tests: {tests.count}, with rows: {tests.count - len(tests.none)}')


main()
