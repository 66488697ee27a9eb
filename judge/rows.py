"""Rows of calls, the writer's and the reader's, for crates/vectors, and their answers; those of the published tests among them.

A call is a tuple, ('field', 5, 1), a type being its number. A row has limits (depth, string, container), a room and calls. What each call answers
is said by a model of the rules of docs/SCOPE.md, and by the crate in both builds wherever it has the call: they must agree. Where docs/DIFFERENCES.md has a
number for what the crate does instead, the row has that number and the crate's own words in a comment before it, and the rules decide. The crate gives no number for a
refusal of its writer but 10: of the others the number is the rules' alone. What follows a refused call is compared with the crate's answers to the row without it.
"""
import random
import struct

import rules

NUMBERS = {'stop': 0, 'bool': 1, 'i8': 3, 'i16': 4, 'i32': 5, 'i64': 6, 'double': 7, 'string': 8, 'list': 9, 'set': 10, 'map': 11, 'struct': 12, 'uuid': 13}
NAMES = {n: name for name, n in NUMBERS.items()}
KINDS = [n for n in NAMES if n != 0]
MOST = 2147483647
WIDE = (64, MOST, MOST)
MARK = b'\xaa'
BAD_TYPE, SIZE_LIMIT, NEGATIVE, DEPTH, BAD_UTF8, OUT_OF_TURN, NO_ROOM, BAD_STATE, MESSAGE_SIZE = 4, 8, 9, 10, 11, 12, 14, 15, 19
PUTS = ('place', 'depth', 'ceiling', 'began')


def agree(what, *words):
    if any(w != words[0] for w in words):
        raise SystemExit(f'the judges differ at {what}: {words}')
    return words[0]


def zigzag(n):
    return 2 * n if n >= 0 else -2 * n - 1


class Writer:
    """The writer by the rules of docs/SCOPE.md. `varints` keeps every number that was written as one, for GNU as to have a word on it."""
    varints = {}

    def __init__(self, limits, room):
        self.depth_limit, self.string_limit, self.container_limit = limits
        self.buffer, self.place, self.last, self.ids, self.depth, self.pending = bytearray(MARK * room), 0, 0, [], 0, None
        self.ceiling, self.began = MOST, 0

    def call(self, name, *args):
        """None, or the number of the refusal."""
        if name in PUTS:
            setattr(self, name, args[0])
            return None
        if self.depth_limit > 64 or max(self.string_limit, self.container_limit) > MOST or self.place > len(self.buffer) or self.depth > self.depth_limit:
            return BAD_STATE
        if self.ceiling > MOST or not self.began <= self.place <= self.began + self.ceiling:
            return BAD_STATE
        if self.pending is not None and name != 'bool':
            return OUT_OF_TURN
        wrong = self.wrong(name, args)
        if wrong:
            return wrong
        data = self.spell(name, args)
        began = self.place if name == 'message' else self.began
        if self.place + len(data) > began + self.ceiling:
            return MESSAGE_SIZE
        if self.place + len(data) > len(self.buffer):
            return NO_ROOM
        self.began = began
        self.buffer[self.place:self.place + len(data)] = data
        self.place += len(data)
        self.move(name, args)
        return None

    def wrong(self, name, args):
        if name == 'end' and self.depth == 0:
            return OUT_OF_TURN
        if name == 'begin' and self.depth >= self.depth_limit:
            return DEPTH
        if name == 'field' and args[0] == 0:
            return BAD_TYPE
        if name in ('list', 'set', 'map'):
            count = args[-1]
            if count > 0 and 0 in args[:-1]:
                return BAD_TYPE
            return NEGATIVE if count < 0 else SIZE_LIMIT if count > self.container_limit else 0
        if name in ('bytes', 'string', 'message'):
            if len(args[-1]) > self.string_limit:
                return SIZE_LIMIT
            return BAD_UTF8 if name != 'bytes' and not is_text(args[-1]) else 0
        return 0

    def spell(self, name, args):
        if name == 'field':
            return b'' if args[0] == 1 else self.header(args[0], args[1])
        if name == 'bool':
            code = 1 if args[0] else 2
            return bytes([code]) if self.pending is None else self.header(code, self.pending)
        if name in ('list', 'set'):
            kind, count = args
            return bytes([count << 4 | kind]) if count <= 14 else bytes([0xf0 | kind]) + self.varint(count)
        if name == 'map':
            key, value, count = args
            return b'\x00' if count == 0 else self.varint(count) + bytes([key << 4 | value])
        if name == 'message':
            kind, sequence, text = args
            return bytes([0x82, kind << 5 | 1]) + self.varint(sequence % (1 << 32)) + self.varint(len(text)) + text
        if name in ('bytes', 'string'):
            return self.varint(len(args[0])) + args[0]
        if name in ('i16', 'i32', 'i64'):
            return self.varint(zigzag(args[0]))
        fixed = {'begin': lambda: b'', 'end': lambda: b'', 'stop': lambda: b'\x00', 'i8': lambda: struct.pack('b', args[0]),
                 'double': lambda: struct.pack('<Q', args[0]), 'uuid': lambda: args[0]}
        return fixed[name]()

    def header(self, code, ident):
        delta = ident - self.last
        return bytes([delta << 4 | code]) if 1 <= delta <= 14 else bytes([code]) + self.varint(zigzag(ident))

    def varint(self, n):
        out, rest = [], n
        while rest > 127:
            out.append(rest & 127 | 128)
            rest >>= 7
        self.varints[n] = bytes(out + [rest])
        return self.varints[n]

    def move(self, name, args):
        if name == 'begin':
            self.ids.append(self.last)
            self.last, self.depth = 0, self.depth + 1
        elif name == 'end':
            self.last, self.depth = self.ids.pop(), self.depth - 1
        elif name == 'field' and args[0] == 1:
            self.pending = args[1]
        elif name == 'field':
            self.last = args[1]
        elif name == 'bool' and self.pending is not None:
            self.last, self.pending = self.pending, None


def is_text(data):
    try:
        data.decode('utf-8', 'strict')
        return True
    except UnicodeDecodeError:
        return False


# ------------------------------------------------------------------ how a call is spelt

def word(x):
    return (x.hex() or '-') if isinstance(x, bytes) else str(x)


def spelt(call):
    """A call as words of a case: a double is 16 hex digits, bytes are hex."""
    name, *args = call
    return ' '.join([name] + [f'{a:016x}' if name == 'double' else word(a) for a in args])


def harness(call):
    """The same for the harness over the crate, which has types by name."""
    name, *args = call
    name = {'begin': 'sbegin', 'end': 'send'}.get(name, name)
    if not args:
        return name
    if name == 'skip':
        args = [NAMES[args[0]]]
    if name in ('field', 'list', 'set'):
        args = [NAMES[args[0]], args[1]]
    if name == 'map':
        args = [NAMES[args[0]], NAMES[args[1]], args[2]]
    if name == 'double':
        args = [f'{args[0]:016x}']
    return ':'.join([name] + [word(a) for a in args])


# ------------------------------------------------------------------ the writer's cases

class Row:
    def __init__(self, calls, limits=WIDE, room=None, number=None, published=None):
        self.calls, self.limits, self.number, self.published = list(calls), limits, number, published
        self.room = self.least() + 2 if room is None else room

    def least(self):
        """The room that all of its calls need."""
        writer = Writer(self.limits, 1 << 16)
        for call in self.calls:
            if call[0] not in PUTS:
                writer.call(*call)
        return writer.place


SCALARS = [('bool', 1), ('bool', 0), ('i8', -128), ('i16', -1), ('i16', -32768), ('i32', 0), ('i32', 64), ('i32', -2147483648), ('i64', 8192), ('i64', -(1 << 63)),
           ('double', 1 << 63), ('uuid', bytes(range(16))), ('bytes', b''), ('bytes', b'\xff\x00'), ('string', 'né'.encode()), ('string', b'x' * 130)]
HEADERS = [('message', 1, 1, b't'), ('message', 4, -1, b'abc'), ('field', 5, 1), ('field', 12, 14), ('field', 8, 15), ('field', 3, -32768), ('stop',), ('begin',),
           ('list', 5, 0), ('list', 5, 14), ('list', 12, 15), ('set', 1, 3), ('set', 8, MOST), ('map', 8, 5, 0), ('map', 8, 5, 1), ('map', 1, 13, 128)]
COUNTS = [0, 1, 2, 13, 14, 15, 16, 127, 128, 16383, 16384, 2097151, 2097152, 268435455, 268435456, MOST - 1, MOST]
IDS = sorted({e + d for e in (0, 14, 64, 128, 8192, 16384) for d in (-1, 0, 1)} | {-e + d for e in (1, 14, 64, 8192) for d in (-1, 0, 1)} | {32767, 32766, -32768, -32767, 15})
TEXTS = ['', 'a', 'né', '€', '𝄞', '\x00', '\x7f\x80']


def field_rows(wide):
    """(last id, id) whose difference fits 16 signed bits, or not."""
    lasts = [0, 1, 14, 15, 16, 100, -1, -15, -100, 16383, -16384, 32752, 32753, 32766, 32767, -32768, -32767]
    pairs = {(last, i) for last in lasts for i in IDS} | {(last, last + d) for last in lasts for d in range(-17, 18)} | {(32767, i) for i in range(-32768, -32750)}
    fits = lambda d: -32768 <= d <= 32767
    return sorted((last, i) for last, i in pairs if fits(i) and fits(i - last) != wide)


def plain_rows(signed_edges, doubles):
    """(title, rows) whose answers the crate gives, in both builds."""
    yield 'field: an id behind another', [Row([('field', 5, last), ('field', 8, i)]) for last, i in field_rows(False)]
    yield 'field: every type in both forms', [Row([('field', t, i)] + ([('bool', 1)] if t == 1 else []) + [('stop',)]) for t in KINDS for i in (1, 14, 15, 0, -1, 300)]
    yield 'field: bools', [Row([('field', 5, last), ('field', 1, i), ('bool', b), ('field', 1, i + 1), ('bool', 1 - b), ('stop',)])
                           for last, i in field_rows(False)[::5] if i < 32767 for b in (0, 1)]
    yield 'i8', [Row([('i8', n)]) for n in range(-128, 128)]
    dice = random.Random(25)
    for name, bits in (('i16', 16), ('i32', 32), ('i64', 64)):
        by_chance = [dice.randrange(-(1 << b - 1), 1 << b - 1) for b in range(2, bits + 1) for _ in range(3)]
        yield f'{name}: the edges, and by chance', [Row([(name, n)]) for n in signed_edges(bits) + by_chance]
    yield 'double: any bits are kept', [Row([('double', bits)]) for bits in doubles + [dice.randrange(1 << 64) for _ in range(40)]]
    yield 'uuid', [Row([('uuid', u)]) for u in (bytes(16), b'\xff' * 16, bytes(range(16)), bytes(dice.randrange(256) for _ in range(16)))]
    yield 'bool: an element', [Row([('list', 1, 2), ('bool', 1), ('bool', 0)])]
    lengths = (0, 1, 2, 14, 15, 126, 127, 128, 129, 255, 256, 300)
    yield 'bytes, string: lengths', [Row([(name, bytes([0x41 + k % 26 for k in range(n)]))]) for n in lengths + (16383, 16384) for name in ('bytes', 'string')]
    yield 'bytes, string: what they hold', [Row([(name, t.encode())]) for t in TEXTS for name in ('bytes', 'string')] + [Row([('bytes', b)]) for b in (b'\xff', b'\xc3', b'\x80\x00')]
    for name in ('list', 'set'):
        yield f'{name}: types and counts', [Row([(name, t, n)]) for t in KINDS for n in COUNTS] + [Row([(name, 0, 0)])]
    yield 'map: types', [Row([('map', k, v, 1)]) for k in KINDS for v in KINDS]
    yield 'map: counts', [Row([('map', k, v, n)]) for k, v in ((8, 5), (1, 12), (13, 9)) for n in COUNTS] + [Row([('map', 0, 0, 0)]), Row([('map', 0, 5, 0)])]
    sequences = signed_edges(32) + [431, 991828, -431, -73184125, 127, 128, 16383, 16384, 2097151, 2097152, 268435455, 268435456]
    yield 'message: sequence numbers', [Row([('message', 1, n, b't')]) for n in sequences]
    yield 'message: types and names', [Row([('message', t, 1, name)]) for t in (1, 2, 3, 4) for name in [x.encode() for x in TEXTS] + [b'n' * 127, b'n' * 128]]
    yield 'message: the last id stays', [Row([('field', 5, i), ('message', 1, 1, b't'), ('field', 5, i + 1), ('begin',), ('message', 1, 1, b''), ('field', 5, 1)]) for i in (0, 5, 300)]
    yield 'struct: begin sets the last id to 0, end brings it back', [
        Row([('field', 12, i), ('begin',), ('field', 12, j), ('begin',), ('field', 5, 1), ('stop',), ('end',), ('field', 5, j + 1), ('stop',), ('end',), ('field', 5, i + 1), ('stop',)])
        for i in (1, 15, 300, -5, 32766) for j in (1, 14, 15, -1)]
    yield 'struct: as deep as the limit', [Row([('begin',)] * d + [('field', 3, 1), ('i8', 1), ('stop',)] + [('end',)] * d, limits=(max(d, 1), MOST, MOST)) for d in (1, 2, 31, 63, 64)]
    yield 'the sample bytes of table T', [Row(calls) for calls in (
        [('i32', 0), ('i32', -1), ('i32', 1)], [('i16', -32768)], [('i32', -2147483648)], [('field', 5, 14)], [('field', 5, 15)], [('list', 5, 14)], [('list', 5, 15)],
        [('map', 8, 5, 0)], [('map', 8, 5, 1)], [('message', 1, 1, b't')], [('field', 1, 1), ('bool', 1), ('field', 5, 3), ('i32', -1), ('stop',)],
        [('field', 1, 1), ('bool', 1), ('field', 7, 2), ('double', 0x3ff0000000000000), ('field', 5, 3), ('i32', -1), ('stop',)])]
    yield 'messages with a struct, by chance', [Row([('message', dice.randrange(1, 5), dice.randrange(-99, 99), b'call')] + chance_value(dice, 12, 4)) for _ in range(250)]


def chance_value(dice, kind, depth):
    """The calls that write a value of this type, made by chance."""
    if kind == 12:
        calls, last = [('begin',)], 0
        for _ in range(dice.randrange(4)):
            ident = last + dice.choice((1, 1, 2, 7, 14, 15, 16, 40, -1, -20, 300))
            inner = chance_kind(dice, depth)
            calls += [('field', inner, ident)] + chance_value(dice, inner, depth - 1)
            last = ident
        return calls + [('stop',), ('end',)]
    if kind in (9, 10):
        inner, count = chance_kind(dice, depth), dice.choice((0, 1, 2, 3))
        if inner in (1, 3) and dice.randrange(3) == 0:
            count = dice.choice((14, 15, 16))
        return [(NAMES[kind], inner, count)] + [c for _ in range(count) for c in chance_value(dice, inner, depth - 1)]
    if kind == 11:
        key, value, count = chance_kind(dice, 0), chance_kind(dice, depth), dice.randrange(3)
        return [('map', key, value, count)] + [c for _ in range(count) for k in (key, value) for c in chance_value(dice, k, depth - 1)]
    if kind == 1:
        return [('bool', dice.randrange(2))]
    if kind == 8:
        return [('string', dice.choice(TEXTS).encode())] if dice.randrange(2) else [('bytes', bytes(dice.randrange(256) for _ in range(dice.randrange(5))))]
    if kind == 7:
        return [('double', dice.randrange(1 << 64))]
    if kind == 13:
        return [('uuid', bytes(dice.randrange(256) for _ in range(16)))]
    bits = {3: 8, 4: 16, 5: 32, 6: 64}[kind]
    return [(NAMES[kind], dice.randrange(-(1 << bits - 1), 1 << bits - 1) >> dice.randrange(bits))]


def chance_kind(dice, depth):
    return dice.choice(KINDS if depth > 1 else [k for k in KINDS if k not in (9, 10, 11, 12)])


def refused_rows():
    """(title, rows): refused calls, and what the state and the buffer are behind them. A row's number is that of docs/DIFFERENCES.md; `-` where the crate can't
    be asked, as it has no such state or argument."""
    after = [('field', 5, 4), ('stop',)]
    start = [('field', 12, 3)]
    yield 'field: differences of more than 16 bits', [Row([('field', 5, last), ('field', 5, i)], number='D16' if last - i > 65521 else 'D17') for last, i in field_rows(True)]
    negative = (-1, -2, -14, -15, -16, -17, -128, -2147483647, -2147483648)
    for name in ('list', 'set'):
        yield f'{name}: a count below 0', [Row(start + [(name, t, n)] + after, number='D18') for t in (0, 1, 5, 12) for n in negative]
    yield 'map: a count below 0', [Row(start + [('map', k, v, n)] + after, number='D19') for k, v in ((8, 5), (0, 5)) for n in negative]
    yield 'list, set, map: elements of type Stop', [Row(start + [c] + after, number='D20') for n in (1, 14, 15, MOST) for c in (
        ('list', 0, n), ('set', 0, n), ('map', 0, 5, n), ('map', 5, 0, n), ('map', 0, 0, n))]
    yield 'field: of type Stop', [Row(start + [('field', 0, i)] + after, number='D21') for i in (4, 1, 0, -1, 32767, -32768)]
    pending = [('field', 1, 4)]
    yield 'a bool is pending: only the bool call is in turn', [Row(start + pending + [c] + [('bool', 1), ('field', 5, 5), ('stop',)], number='D22')
                                                               for c in SCALARS[2:] + HEADERS if c[0] not in ('stop',)]
    yield 'the same where the crate panics', [Row([('begin',)] + start + pending + [c] + [('bool', b), ('field', 5, 5), ('stop',), ('end',)], number='D23')
                                              for c in (('stop',), ('end',), ('field', 1, 5)) for b in (0, 1)]
    yield 'struct: an end at depth 0', [Row(calls, number='D24') for calls in ([('end',)], start + [('end',)] + after, [('begin',), ('end',), ('end',), ('field', 5, 1)])]
    text = b'0123456789' * 13
    yield 'bytes, string, message: longer than the limit', [
        Row(start + [c] + after, limits=(64, limit, 0), number='D26' if n > limit else None)
        for limit in (0, 1, 127, 128) for n in (limit, limit + 1) for c in (('bytes', text[:n]), ('string', text[:n]), ('message', 1, 1, text[:n]))]
    yield 'list, set, map: more than the limit', [
        Row(start + [c] + after, limits=(64, 0, limit), number='D26' if n > limit else None)
        for limit in (0, 1, 14, 15, 128, MOST - 1) for n in (limit, limit + 1) for c in (('list', 5, n), ('set', 8, n), ('map', 8, 5, n))]
    yield 'struct: a begin at the limit, as in the crate', [
        Row([('field', 12, 3)] + [('begin',)] * (d + 1) + [('field', 5, 4), ('stop',)] + [('end',)] * d + [('field', 5, 4)], limits=(d, 0, 0)) for d in (0, 1, 2, 3, 63, 64)]
    yield 'string, message: not UTF-8 (the crate takes a str, which is)', [
        Row(start + [c] + after, number='-') for bad in ('80', 'c080', 'c3', 'eda080', 'f4908080', 'f5808080', '61ff62') for c in (
            ('string', bytes.fromhex(bad)), ('message', 2, 7, bytes.fromhex(bad)))]
    yield from no_room_rows()
    yield 'a limit that is out of range, on every call (the crate takes it: D13)', [
        Row([c], limits=limits, number='-') for limits in ((65, 0, 0), (64, MOST + 1, 0), (64, 0, MOST + 1), (0, 4294967295, 4294967295), (1 << 63, 0, 0)) for c in SCALARS + HEADERS + [('end',)]]
    yield 'a place past the end of the buffer, on every call (the crate has no such state)', [
        Row([('place', p), c, ('place', 0), ('i8', 1)], room=8, number='-') for p in (9, 1 << 63, (1 << 64) - 1) for c in SCALARS + HEADERS + [('end',)]]
    yield 'a place at the end of the buffer', [Row([('place', 4), c], room=4, number='-') for c in SCALARS + HEADERS + [('end',)]]
    yield 'a depth over its limit, on every call (the crate has no such state)', [
        Row([('depth', d), c, ('depth', 0), ('i8', 1)], limits=(limit, 9, 9), number='-') for limit, d in ((0, 1), (3, 4), (64, 65), (64, (1 << 64) - 1)) for c in SCALARS + HEADERS + [('end',)]]
    yield from ceiling_rows()
    yield 'which of two refusals is given', order_rows()
    yield 'calls by chance, under small limits and in a small room', [chance_row(random.Random(k)) for k in range(500)]


def chance_row(dice):
    """Calls in any order. What the crate has a word on is the row without the calls that the rules refuse."""
    some = [lambda: ('field', dice.choice(KINDS + [0]), dice.randrange(-20, 40)), lambda: ('field', 1, dice.randrange(40)), lambda: ('bool', dice.randrange(2)), lambda: ('begin',),
            lambda: ('end',), lambda: ('stop',), lambda: ('list', dice.randrange(3) and 5, dice.randrange(-1, 17)), lambda: ('set', 8, dice.randrange(-1, 17)),
            lambda: ('map', dice.randrange(3) and 8, 5, dice.randrange(-1, 4)), lambda: ('message', dice.randrange(1, 5), dice.randrange(-9, 999), b'name'[:dice.randrange(5)]),
            lambda: ('string', dice.choice((b'', b'ab', b'abcdef', b'\xff', b'\xc3\xa9'))), lambda: ('bytes', bytes(dice.randrange(7))), lambda: ('i64', dice.randrange(1 << 63) >> dice.randrange(63)),
            lambda: ('i16', dice.randrange(-300, 300)), lambda: ('i32', -dice.randrange(1 << 31)), lambda: ('i8', dice.randrange(-128, 128)), lambda: ('double', dice.randrange(1 << 64))]
    calls = [dice.choice(some)() for _ in range(dice.randrange(4, 14))]
    return Row(calls, limits=(dice.randrange(4), dice.randrange(6), dice.randrange(16)), room=dice.randrange(30), number='+')


def no_room_rows():
    """Each call at every room from 0 to enough, between a byte before it and one behind."""
    for c in SCALARS + HEADERS:
        whole = Row([('i8', 7), c, ('stop',)])
        enough = whole.least()
        rooms = range(enough) if enough < 30 else list(range(6)) + list(range(enough - 4, enough))
        yield 'no room: ' + spelt(c)[:60], [Row([('i8', 7), c, ('stop',)], room=r, number='D25') for r in rooms] + [Row([('i8', 7), c, ('stop',)], room=enough)]
    yield 'no room for a field: the last id stays', [Row([('field', 5, 3), ('field', 5, i), ('field', 5, 4)], room=r, number='D25') for i in (300, 32767, 18, 4) for r in range(1, 4)]
    yield 'no room for a bool field: it stays pending', [Row([('field', 1, i), ('bool', b), ('stop',), ('bool', b)], room=r, number='D25') for i in (1, 300, 32767) for b in (0, 1) for r in range(5)
                                                         if r < Row([('field', 1, i), ('bool', b)]).least()]


def under(ceiling, calls, **more):
    """A row under a ceiling. Where a call is refused for it the crate, which has none, writes on: D30."""
    row = Row([('ceiling', ceiling)] + calls, **more)
    if f'refused {MESSAGE_SIZE}' in replayed(row)[0]:
        row.number = row.number or 'D30'
    return row


def ceiling_rows():
    """(title, rows): each call at every ceiling from 0 to enough, between a byte before it and one behind; messages one behind the other; states that are none."""
    for c in SCALARS + HEADERS:
        enough = Row([('i8', 7), c, ('stop',)]).least()
        yield 'a ceiling: ' + spelt(c)[:60], [under(n, [('i8', 7), c, ('stop',)]) for n in (range(enough + 1) if enough < 30 else [*range(6), *range(enough - 4, enough + 1)])]
        size = Row([c]).least()
        yield 'a ceiling comes before the room: ' + spelt(c)[:60], [
            under(n, [c], room=room, number='+') for n in {max(size - 1, 0), size, MOST} for room in {0, max(size - 1, 0), size}]
    yield 'a ceiling: the last id stays', [under(n, [('field', 5, 3), ('field', 5, i), ('field', 5, 4)]) for i in (300, 32767, 18, 4) for n in range(1, 4)]
    yield 'a ceiling: a bool field stays pending', [
        under(n, [('field', 1, i), ('bool', b), ('ceiling', 9), ('bool', b), ('stop',)], number='+') for i in (1, 300, 32767) for b in (0, 1) for n in range(4)]
    whole = [('message', 1, 1, b't'), ('begin',), ('field', 1, 1), ('bool', 1), ('field', 5, 2), ('i32', -1), ('stop',), ('end',)]
    yield 'a message of 9 bytes and another, each counted from its first byte', [under(n, whole + whole + [('i8', 1)], number='+') for n in [*range(13), 17, 18, 19, MOST]]
    yield 'before any message the count is the state\'s, a refused message leaves it', [
        under(n, [('i32', 1), ('message', 1, 1, b'a' * k), ('i64', 1 << 40), ('i8', 1)], number='+') for n in range(9) for k in (0, 2, 5)]
    every = SCALARS + HEADERS + [('end',)]
    late = lambda calls, room=8: Row(calls, room=room, number='-')
    yield 'a ceiling out of range, on every call (the crate has none)', [late([('ceiling', n), c, ('ceiling', MOST), ('i8', 1)]) for n in (MOST + 1, 4294967295) for c in every]
    yield 'a beginning past the place, on every call', [late([('began', n), c, ('began', 0), ('i8', 1)]) for n in (1, 8, (1 << 64) - 1) for c in every]
    yield 'a place past the cut, on every call', [late([('place', 6), ('began', b), ('ceiling', n), c, ('ceiling', 9), ('i8', 1)]) for b, n in ((0, 5), (2, 3), (5, 0)) for c in every]
    yield 'a place at the cut: what writes no byte passes', [late([('place', 6), ('began', b), ('ceiling', n), c]) for b, n in ((0, 6), (2, 4), (6, 0)) for c in every]
    yield 'what a ceiling comes behind', [late([('ceiling', 0), c]) for c in (
        ('list', 5, -1), ('list', 0, 1), ('field', 0, 1), ('string', b'\xff'), ('message', 1, 1, b'\xff'), ('end',))] + [late([('ceiling', 0), ('field', 1, 1), c]) for c in (('stop',), ('i8', 1), ('message', 1, 1, b''))] + [
        Row([('ceiling', 0), c], limits=(0, 1, 1), room=8, number='-') for c in (('begin',), ('bytes', b'ab'), ('string', b'ab'), ('message', 1, 1, b'ab'), ('list', 5, 2), ('map', 5, 5, 2))]
    yield 'calls by chance, under a ceiling', [capped(chance_row(random.Random(k)), k % 31) for k in range(1000, 1200)]


def capped(row, ceiling):
    row.calls.insert(0, ('ceiling', ceiling))
    return row


def order_rows():
    late = lambda calls, limits=WIDE, room=8: Row(calls, limits=limits, room=room, number='-')
    pending = [('field', 1, 1)]
    bad_text = b'\xff' * 9
    return [
        late(pending + [('place', 9), ('bool', 1), ('i8', 1)]), late(pending + [('depth', 65), ('bool', 1), ('begin',)]),
        late(pending + [('begin',)], (0, 0, 0)), late(pending + [('end',)]), late(pending + [('field', 0, 1)]), late(pending + [('list', 5, -1)]), late(pending + [('list', 0, 1)]),
        late(pending + [('list', 5, 9)], (64, 9, 8)), late(pending + [('string', bad_text)], (64, 8, 8)), late(pending + [('i64', -(1 << 63))], room=0),
        late([('list', 0, -1)]), late([('list', 0, 9)], (64, 9, 8)), late([('map', 0, 5, -1)]), late([('map', 5, 0, 9)], (64, 9, 8)), late([('list', 5, -1)], (64, 0, 0)),
        late([('string', bad_text)], (64, 8, 8)), late([('message', 1, 1, bad_text)], (64, 8, 8)),
        late([('list', 5, -1)], room=0), late([('list', 0, 1)], room=0), late([('list', 5, 9)], (64, 9, 8), room=0), late([('field', 0, 300)], room=0), late([('string', bad_text)], room=0),
        late([('string', b'a' * 9)], (64, 8, 8), room=0), late([('message', 1, 1, b'\xff')], room=0), late([('message', 1, 1, b'a' * 9)], (64, 8, 8), room=0),
        late([('begin',)], (0, 0, 0), room=0), late([('end',)], room=0), late([('begin',), ('end',)], room=0)]


# ------------------------------------------------------------------ the answers

def replayed(row):
    """What the rules say of a row: each call's place behind it or refusal, the bytes of each call, and the buffer at the end."""
    writer, told, made = Writer(row.limits, row.room), [], []
    for call in row.calls:
        place = writer.place
        why = writer.call(*call)
        told.append(f'refused {why}' if why else str(writer.place))
        made.append(None if why or call[0] in PUTS else bytes(writer.buffer[place:writer.place]))
    return told, made, bytes(writer.buffer)


def writer_answers(judges, groups):
    rows = [row for _, rs in groups for row in rs]
    said = {id(row): replayed(row) for row in rows}
    kept = lambda row: [c for c, data in zip(row.calls, said[id(row)][1]) if data is not None]
    asked = [row for row in rows if row.number != '-']
    # Without the calls that the rules refuse, and with room for all: what both have a word on.
    clean = judges.row_words([f'W {row.limits[0]} - ' + ' '.join(harness(c) for c in kept(row)) if kept(row) else '#' for row in asked])
    # As it stands; in the row's own room only where that is the difference.
    whole = judges.row_words([f'W {row.limits[0]} {row.room if row.number == "D25" else "-"} ' + ' '.join(harness(c) for c in row.calls if c[0] not in PUTS) for row in asked])
    crate = {id(row): words for row, *words in zip(asked, clean, whole)}
    for title, rs in groups:
        yield '# writer ' + title, None
        for row in rs:
            told, made, buffer = said[id(row)]
            if row.number != '-':
                compare(row, told, made, *crate[id(row)])
            if row.published:
                yield f'# published: {row.published}', None
            if row.number not in (None, '-', '+'):
                yield f'# {row.number}, the crate: ' + in_short(crate[id(row)][1]), None
            limits = ' '.join(map(str, row.limits))
            yield f'writer {limits} {row.room} ' + ' '.join(map(spelt, row.calls)), ' '.join(told + [word(buffer)])


def in_short(both):
    """The crate's own words for the whole row: each call's bytes, `.` for none, `!` where it stops; those of the build with overflow checks where they differ."""
    release, checked = [' '.join(w.split(' ; ')[0].split()) for w in both]
    return release if release == checked else f'{release}; with overflow checks: {checked}'


def compare(row, told, made, clean, whole):
    """The crate and the rules agree on the row without its refused calls; and on the row as it stands, unless a difference has a number (`+`: that is not asked)."""
    data = [d for d in made if d is not None]
    want = ' '.join(d.hex() or '.' for d in data)
    if data and row.number not in ('D16', 'D17'):
        agree(row.calls, want, *clean)
    if row.number == 'D17':
        agree(row.calls, want, clean[0])
    if row.number == 'D16':
        assert clean[0] != want, row.calls
    if row.number == '+':
        return
    expected = []
    for call, answer, d in zip(row.calls, told, made):
        if call[0] in PUTS:
            continue
        if d is None:
            expected.append('!' + answer.split()[1])
            break
        expected.append(d.hex() or '.')
    same = all(w.split(' ; ')[0] == ' '.join(expected) for w in whole)
    if same != (row.number is None):
        raise SystemExit(f'{row.number or "no number"} at {row.calls}, room {row.room}: the rules {expected}, the crate {whole}')


# ------------------------------------------------------------------ rows of the reader's calls

class Read:
    """`refused` has what the rules refuse and the crate does not: the number by the call's index; `ruled` the rules' answer where they accept and the crate does not. A published test has a name, and the values that it wants,
    without places, or the refusals of which its last call gives one. `rule` is the comment where one is broken that the crate does not have (rules.py)."""

    def __init__(self, data, calls, limits=WIDE, number=None, published=None, refused=None, wanted=None, kinds=None, ruled=None):
        self.ruled, self.rule = ruled or {}, None
        self.data, self.calls, self.limits, self.number, self.published = data, list(calls), limits, number, published
        self.refused, self.answers, self.wanted, self.kinds = dict(refused or {}), {}, wanted, kinds

    def ask(self, skipped):
        calls = [harness(c) for k, c in enumerate(self.calls) if k not in skipped]
        return f'R {" ".join(map(str, self.limits))} - {word(self.data)} ' + ' '.join(calls) if calls else '#'


def read_back(calls):
    """The reader's calls over what these writer's calls wrote."""
    out = []
    for c in calls:
        out.append(('field',) if c[0] == 'stop' else c[:1])
    return out


def written(calls):
    """(bytes, the calls that read them) of writer's calls."""
    writer = Writer(WIDE, 1 << 16)
    for c in calls:
        assert writer.call(*c) is None, c
    return bytes(writer.buffer[:writer.place]), read_back(calls)


def reader_rows():
    """(title, rows)"""
    dice = random.Random(82)
    whole = [written([('message', dice.randrange(1, 5), dice.randrange(-99, 99), b'call')] + chance_value(dice, 12, 4)) for _ in range(250)]
    yield 'messages with a struct, by chance', [Read(data, calls) for data, calls in whole]
    values = [written(chance_value(dice, 12, 4)) for _ in range(300)]
    yield 'structs cut short: a refused call leaves the state as it was (a call out of turn thereafter is the rules\' 12: D8, D11)', [
        Read(data[:dice.randrange(len(data))], calls) for data, calls in values for _ in range(2)]
    yield 'structs under small limits', [Read(data, calls, limits=(dice.randrange(4), dice.randrange(4), dice.randrange(4))) for data, calls in values]
    yield 'struct: begin sets the last id to 0, end brings it back', [
        Read(data, calls) for data, calls in (written([('field', 12, i), ('begin',), ('field', 5, j), ('stop',), ('end',), ('field', 5, i + 1), ('stop',)]) for i in (1, 15, 300, -5) for j in (1, 15, -1))]
    yield 'message: sets the last id to 0', [Read(bytes.fromhex('55' + '8221010174' + '15'), [('field',), ('message',), ('field',)])]
    yield 'struct: begins at the limit', [Read(b'\x15', [('begin',)] * (d + 2) + [('field',)] + [('end',)] * d, limits=(d, 0, 0)) for d in (0, 1, 2, 63, 64)]
    others = [('i8',), ('i16',), ('i32',), ('i64',), ('double',), ('uuid',), ('bytes',), ('string',), ('list',), ('set',), ('map',), ('message',), ('field',), ('begin',)]
    yield 'a bool is pending: only the bool call is in turn', [
        Read(bytes.fromhex(h), [('field',), c, ('bool',), ('field',)], number='D8', refused={1: OUT_OF_TURN}) for h in ('112500', '01d80412', '1200') for c in others]
    yield 'the same where the crate takes it for an element', [
        Read(bytes.fromhex('1111021500'), [('field',), ('list',), ('bool',), ('list',), ('bool',), ('field',)], number='D9', refused={1: OUT_OF_TURN})]
    yield 'a bool is pending, skips', [Read(bytes.fromhex('112500'), [('field',), ('skip', 0), ('skip', 1), ('field',)], number='D10', refused={1: OUT_OF_TURN})] + [
        Read(bytes.fromhex('112500'), [('field',), ('skip', 1), ('field',)]), Read(bytes.fromhex('022412'), [('field',), ('skip', 1), ('field',), ('bool',)])]
    yield 'struct: an end at depth 0', [Read(b'\x15', calls, number='D11', refused=refused) for calls, refused in (
        ([('end',), ('field',)], {0: OUT_OF_TURN}), ([('begin',), ('end',), ('end',), ('field',)], {2: OUT_OF_TURN}))]
    yield 'a refused call leaves the state: D12', [Read(bytes.fromhex(h), calls) for h, calls in (
        ('01', [('field',), ('i8',), ('list',)]), ('05feff0311', [('field',), ('field',), ('i8',)]), ('85', [('field',), ('i16',), ('bool',), ('i8',)]),
        ('ff', [('list',), ('bool',), ('i8',)]), ('05ffffffffff', [('string',), ('bytes',), ('field',), ('i8',)]), ('0e02', [('field',), ('list',)]))]
    yield from range_rows()
    yield from count_rows()
    forged = lambda puts, c: Read(b'\x15\x02\x04\x06', [('i8',), *puts, c], number='-', refused={1 + len(puts): BAD_STATE}, ruled={0: '21 1'} | {1 + k: '1' for k in range(len(puts))})
    every = others + [('bool',), ('end',), ('skip', 5), ('skip', 0)]
    yield 'a ceiling out of range, a beginning past the place, a place past the cut, on every call (the crate has none)', [
        forged(puts, c) for puts in ([('ceiling', MOST + 1)], [('ceiling', 4294967295)], [('began', 2)], [('began', (1 << 64) - 1)], [('ceiling', 0)], [('ceiling', 1), ('began', 2)]) for c in every]
    yield 'a limit that is out of range, on every call (the crate takes it: D13)', [
        Read(b'\x15\x02', [c], limits=limits, number='-', refused={0: BAD_STATE})
        for limits in ((65, 0, 0), (64, MOST + 1, 0), (64, 0, MOST + 1), (1 << 63, 4294967295, 0)) for c in others + [('bool',), ('end',), ('skip', 5), ('skip', 0)]]


def range_rows():
    """(title, rows): numbers of an i16, as value and as field id, about the ends of its range. 65,537 is 82 80 08, 32,768 is 80 80 04."""
    wide, least = bytes.fromhex('828008'), bytes.fromhex('808004')
    yield 'an i16 out of range: 65,537, 32,768, -32,769, the least of 32 bits; and the ends of the range', [
        Read(bytes.fromhex(h), [('i16',), ('i32',)]) for h in ('828008', '808004', '818004', 'ffffffff0f', 'feff03', 'ffff03')]
    yield 'an i16 that is cut short or too long has no range; what the fifth byte drops, and longer forms, have no say', [
        Read(bytes.fromhex(h), [('i16',), ('i8',)]) for h in ('8280', '8080808080', 'ffffffffff', '8280808070', '828080801f', '8280808000', '80808400')]
    yield 'a field id out of range: the state is as it was, and no bool is pending', [
        Read(bytes([code]) + wide + tail, [('field',), after, ('field',)]) for code in (5, 1, 2, 12) for tail in (b'', bytes(2)) for after in (('i8',), ('skip', 1), ('skip', 12))]
    yield 'a field id out of range: a code without a type comes first', [Read(bytes([code]) + wide, [('field',), ('i8',)]) for code in (14, 15, 0)]
    yield 'skip: an i16 out of range', [Read(data, [('skip', kind), ('i8',)]) for kind, data in (
        (4, least), (4, wide), (9, b'\x14' + least), (9, b'\x24\x02' + wide), (10, b'\x14' + least),
        (11, b'\x01\x44' + least + b'\x00'), (11, b'\x01\x84\x01x' + least), (12, b'\x14' + least + b'\x00'))]
    yield 'skip: a field id out of range, a bool\'s too', [Read(data, [('skip', 12), ('i8',)]) for data in (
        b'\x03' + wide + b'\x05\x00', b'\x01' + wide + b'\x00', b'\x02' + wide + b'\x00', b'\x1c\x01' + wide + bytes(2), b'\x14\x02\x19\x14' + least + b'\x00')]
    yield 'skip: an i16 out of range, and another refusal before or behind it', [Read(data, [('skip', 12), ('i8',)]) for data in (
        b'\x15\x02\x14' + least, b'\x1e\x14' + least, b'\x14' + least + b'\x1e', b'\x04' + b'\xff' * 5, b'\x0e' + wide)] + [
        Read(data, [('skip', 12), ('i8',)], limits=limits) for data, limits in (
            (b'\x14' + least + b'\x18\x02ab\x00', (2, 1, MOST)), (b'\x18\x02ab\x14' + least + b'\x00', (2, 1, MOST)), (b'\x19\x24\x02' + least, (2, 1, 1)))]


def count_rows():
    """(title, rows): counts of elements that can't be in the bytes left, and that just can. f7 80 a8 d6 b9 07 is a list of two thousand million doubles."""
    hexes = lambda text, n=0: bytes.fromhex(text) + bytes(n)
    doubles = 'f780a8d6b907'
    yield 'two thousand million doubles in 40 bytes, alone and as a field; the state is as it was', [
        Read(hexes(doubles, 34), [('list',), ('set',), ('skip', 9), ('skip', 10), ('i8',)]),
        Read(hexes('19' + doubles, 33), [('skip', 12), ('begin',), ('field',), ('list',), ('skip', 9), ('i8',)]),
        Read(hexes('80a8d6b90777', 34), [('map',), ('skip', 11), ('i8',)])]
    kinds = (0, 1, 3, 4, 5, 6, 7, 8, 9, 10, 11, 12, 13)
    yield 'as many bytes as each type needs, and one fewer', [
        Read(bytes([count << 4 | kind]) + bytes(rules.least(kind, count) - short), [('list',), ('i8',)]) for kind in kinds for count in (1, 3) for short in (0, 1)] + [
        Read(bytes([count, key << 4 | value]) + bytes(rules.least(key, value, count) - short), [('map',), ('i8',)])
        for key, value in ((1, 3), (7, 8), (8, 7), (13, 5), (5, 13), (7, 13), (13, 13), (0, 0)) for count in (1, 2) for short in (0, 1)]
    yield 'as many bytes as no element needs', [Read(hexes(h), [c]) for h, c in (('07', ('list',)), ('0d', ('set',)), ('f700', ('list',)), ('00', ('map',)))]
    yield 'products of 32 bits and more', [Read(hexes(h, n), [c, ('i8',)]) for h, n, c in (
        ('fd8080808001', 16, ('list',)), ('f78080808002', 16, ('set',)), ('fdffffffff07', 16, ('list',)), ('8080808001dd', 32, ('map',)), ('ffffffff07dd', 32, ('map',)), ('f78180a006', 0, ('list',)))]
    yield 'a count below 0, one over its limit and a type without a code come first', [Read(hexes(h), [c, ('i8',)], limits=(64, MOST, limit)) for h, c, limit in (
        ('fdffffffff0f', ('list',), MOST), ('fd65', ('set',), 100), ('fd64', ('list',), 100), ('ffffffff0fdd', ('map',), MOST), ('65dd', ('map',), 100), ('64dd', ('map',), 100),
        ('64de', ('map',), 100), ('1e', ('list',), MOST))]
    yield 'skip: a count is held against the bytes left before its elements are looked at', [Read(hexes(h), [('skip', kind), ('i8',)]) for h, kind in (
        ('2103', 9), ('211103', 9), ('2580', 10), ('30', 9), ('300000', 9), ('30000000', 9), ('0130', 11), ('01300000', 11), ('0111037f', 11), ('192300', 12), ('19230000', 12), ('1923000000', 12), ('292303', 9), ('1923030303', 9))]


class Capped:
    """Calls under a ceiling. Of each the crate is asked on the input cut where the message must have ended by then, behind the calls that were not refused: a byte that it misses
    there, with input behind the cut, is MESSAGE SIZE. A row ends at its third refusal."""

    def __init__(self, data, calls, ceiling, limits=WIDE):
        self.data, self.calls, self.ceiling, self.limits = data, list(calls), ceiling, limits
        self.answers, self.kept, self.place, self.began, self.depth, self.pending, self.capped = [], [], 0, 0, 0, False, False

    def call(self):
        return self.calls[len(self.answers)]

    def cut(self):
        return (self.place if self.call() == ('message',) else self.began) + self.ceiling

    def line(self, data, calls):
        return f'R {" ".join(map(str, self.limits))} - {word(data)} ' + ' '.join(map(harness, calls))

    def ask(self):
        return self.line(self.data[:self.cut()], self.kept + [self.call()])

    def take(self, words):
        call, cut = self.call(), self.cut()
        rule = None if self.pending else rules.broken(self.data[:cut], self.place, call, (self.limits[0] - self.depth,) + self.limits[1:])
        if self.pending and call not in (('bool',), ('skip', 1)):
            self.answers.append(f'refused {OUT_OF_TURN}')
        elif rule or words.startswith('!'):
            why = rule.why if rule else int(words[1:])
            over = why == rules.END and cut < len(self.data)
            self.capped |= over
            self.answers.append(f'refused {MESSAGE_SIZE if over else why}')
        else:
            self.answers.append(spoken(call, words))
            self.kept.append(call)
            self.began = self.place if call == ('message',) else self.began
            self.place, self.depth = int(words.rsplit('@', 1)[1]), self.depth + {'begin': 1, 'end': -1}.get(call[0], 0)
            self.pending = call == ('field',) and words.split('@')[0].endswith(',bool')
        if sum(a.startswith('refused') for a in self.answers) == 3:
            del self.calls[len(self.answers):]


def capped_rows():
    """(title, rows): ceilings from 0 to behind the end, in every header and at each call's end."""
    dice = random.Random(19)
    nine, reads = bytes.fromhex('822101017411150100'), [('message',), ('skip', 12), ('i8',)]
    ceilings = lambda n: [*range(n + 3), MOST]
    yield 'a message of 9 bytes: nothing, a byte and another message behind it', [Capped(nine + more, reads + reads, n) for more in (b'', b'\x05', nine) for n in ceilings(9)]
    yield 'the same cut short: a byte missed at the true end', [Capped(nine[:k], reads, n) for k in (4, 8) for n in ceilings(9)]
    yield 'before any message', [Capped(nine[5:] + b'\x07', [('begin',), ('field',), ('bool',), ('field',), ('i32',), ('field',), ('end',), ('i8',)], n) for n in ceilings(5)]
    scalars = [(b'\x01', 'bool'), (b'\x05', 'i8'), (b'\xff\xff\x03', 'i16'), (b'\xff\xff\xff\xff\x0f', 'i32'), (b'\xff' * 9 + b'\x01', 'i64'), (bytes(8), 'double'), (bytes(16), 'uuid'),
               (b'\x03abc', 'bytes'), (b'\x03abc', 'string'), (b'\x35\x00\x02\x04', 'list'), (b'\xf3\x0f' + bytes(15), 'set'), (b'\x01\x85\x01a\x00', 'map'), (b'\x01\x00', 'map')]
    yield 'each call between a byte before it and one behind', [Capped(b'\x07' + data + b'\x08', [('i8',), (name,), ('i8',)], n) for data, name in scalars for n in ceilings(len(data) + 2)]
    kinds = [(9, b'\x35\x00\x02\x04'), (10, b'\x27' + bytes(16)), (11, b'\x01\x85\x01a\x00'), (12, nine[5:]), (8, b'\x03abc'), (13, bytes(16)), (9, b'\x29\x25\x00\x02\x13\x05')]
    yield 'skip: each type, between a byte before it and one behind', [Capped(b'\x07' + data + b'\x08', [('i8',), ('skip', kind), ('i8',)], n) for kind, data in kinds for n in ceilings(len(data) + 2)]
    yield 'a limit comes before the ceiling', [Capped(data, [c, ('i8',)], n, limits=(64, 2, 2)) for data, c in (
        (b'\x03abc', ('bytes',)), (b'\x35\x00\x02\x04', ('list',)), (b'\x35\x00\x02\x04', ('skip', 9)), (b'\x03\x55' + bytes(6), ('map',))) for n in range(5)]
    rows = []
    for _ in range(50):
        data, calls = written([('message', dice.randrange(1, 5), dice.randrange(-99, 99), b'call')] + chance_value(dice, 12, 4))
        more, behind = written([('message', 1, 1, b'')] + chance_value(dice, 12, 2))
        rows += [Capped(data + more, calls + behind, n) for n in (dice.randrange(len(data)), len(data) - 1, len(data), max(len(data), len(more)))]
    yield 'messages by chance, with another behind: a ceiling in the first, one byte less than it, its length, enough for both', rows


def capped_answers(judges, groups):
    rows = [row for _, rs in groups for row in rs]
    words = lambda asked: [agree(line, *[w.split(' ; ')[0] for w in both]) for line, both in zip(asked, judges.row_words(asked))]
    whole = dict(zip(map(id, rows), words([row.line(row.data, row.calls) for row in rows])))
    while live := [row for row in rows if len(row.answers) < len(row.calls)]:
        for row, told in zip(live, words([row.ask() for row in live])):
            row.take(told.split()[-1])
    for title, rs in groups:
        yield '# reader under a ceiling: ' + title, None
        for row in rs:
            if row.capped:
                yield '# D30, the crate: ' + ' '.join(whole[id(row)].split()[:len(row.calls)]), None
            yield f'reader {" ".join(map(str, row.limits))} {word(row.data)} ceiling {row.ceiling} ' + ' '.join(map(spelt, row.calls)), ' '.join(['0'] + row.answers)


def skip_rows():
    """(title, rows): skips where the crate does otherwise, D1 to D6. The rules decide: they refuse, or accept all of the bytes."""
    refuse = lambda number, why, data, kind, depth=64: Read(bytes.fromhex(data), [('skip', kind), ('i8',)], (depth, MOST, MOST), number, refused={0: why})
    begun = lambda data, depth: Read(bytes.fromhex(data), [('begin',), ('skip', 9), ('end',)], (depth, MOST, MOST), 'D4', refused={1: DEPTH})
    accept = lambda data, kind: Read(bytes.fromhex(data), [('skip', kind)], number='D5', ruled={0: str(len(data) // 2)})
    yield 'skip: a map with values of type Stop', [refuse('D1', BAD_TYPE, data, 11) for data in ('01107f00', '01800200', '0180ffffffff07', '01c0150000', '02d0' + '00' * 34)]
    yield 'skip: lists, sets and maps count as structs do', [refuse('D2', DEPTH, data, kind, 0) for data, kind in (('03', 9), ('03', 10), ('00', 11))] + [
        refuse('D3', DEPTH, data, kind, 1) for data, kind in (('190300', 12), ('1c00', 9), ('1b00', 10))] + [begun('03', 1), begun('19' * 63 + '03', 64)]
    yield 'skip: a scalar in the 64th container', [accept(data, kind) for data, kind in (
        ('19' * 63 + '1300', 9), ('19' * 63 + '1101', 9), ('1c' * 63 + '11' + '00' * 64, 12), ('1c' * 63 + '1305' + '00' * 64, 12))]
    yield 'skip: a Stop element in the 64th container', [refuse('D6', BAD_TYPE, '19' * 63 + '1000', 9), refuse('D6', BAD_TYPE, '1a' * 63 + '1000', 10)]


def spoken(call, words):
    """A call's answer in the crate's words, `VALUE@PLACE`, as the port says it."""
    value, place = words.rsplit('@', 1)
    parts, name = value.split(','), call[0]
    if name in ('begin', 'end', 'skip'):
        return place
    if name == 'bool':
        return ('yes' if value == 'true' else 'no') + f' {place}'
    if name == 'field':
        return f'stop {place}' if value == 'stop' else f'{NUMBERS[parts[1]]} {parts[0]} {place}'
    if name in ('list', 'set'):
        return f'{NUMBERS[parts[0]]} {parts[1]} {place}'
    if name == 'map':
        return f'0 0 0 {place}' if value == '0' else f'{NUMBERS[parts[0]]} {NUMBERS[parts[1]]} {parts[2]} {place}'
    if name == 'message':
        return f'{parts[0]} {parts[1]} {parts[2][1:] or "-"} {place}'
    if name in ('bytes', 'string', 'uuid'):
        return f'{value[1:] or "-"} {place}'
    return f'{value} {place}'


def reader_answers(judges, groups):
    rows = [row for _, rs in groups for row in rs]
    live = [row for row in rows if row.number != '-']
    for row in rows:
        row.answers = {k: f'refused {n}' for k, n in row.refused.items()} | row.ruled
    whole = dict(zip(map(id, live), judges.row_words([row.ask(()) for row in live])))
    while live:
        # A row up to its first refusal; then again without the refused call, which is to have changed nothing.
        again = []
        for row, both in zip(live, judges.row_words([row.ask(row.refused | row.ruled) for row in live])):
            told = agree(row.calls, *[w.split(' ; ')[0] for w in both]).split()
            indices = [k for k in range(len(row.calls)) if k not in row.refused | row.ruled]
            pending, place, depth = False, 0, 0
            for k, words in zip(indices, [] if told == ['#'] else told):
                call = row.calls[k]
                # By the rules these are out of turn; the crate goes on, or panics.
                wrong = 'D8' if pending and call not in (('bool',), ('skip', 1)) else 'D11' if words == '!panic' and call == ('end',) else None
                rule = None if pending else rules.broken(row.data, place, call, (row.limits[0] - depth,) + row.limits[1:])
                if rule and words != f'!{rule.why}':
                    agree(row.calls, row.number, None)
                    before = ', without the calls refused before' if row.refused else ''
                    row.rule = row.rule or f'{rule.difference}, the crate{before}: ' + in_short(both)
                    row.refused[k], row.answers[k] = rule.why, f'refused {rule.why}'
                    break
                if wrong or words.startswith('!'):
                    row.refused[k] = OUT_OF_TURN if wrong else int(words[1:])
                    row.answers[k] = f'refused {row.refused[k]}'
                    break
                row.answers[k] = spoken(call, words)
                place, depth = int(words.rsplit('@', 1)[1]), depth + {'begin': 1, 'end': -1}.get(call[0], 0)
                pending = call == ('field',) and words.split('@')[0].endswith(',bool')
            if len(row.answers) < len(row.calls):
                again.append(row)
        live = again
    for title, rs in groups:
        yield '# reader ' + title, None
        for row in rs:
            if row.published:
                yield f'# published: {row.published}', None
            if row.number not in (None, '-'):
                yield f'# {row.number}, the crate: ' + in_short(whole[id(row)]), None
            if row.rule:
                yield f'# {row.rule}', None
            answers = [row.answers[k] for k in range(len(row.calls))]
            if row.wanted is not None:
                agree(row.published, row.wanted, [a.rsplit(' ', 1)[0] for c, a in zip(row.calls, answers) if c[0] not in ('begin', 'end') and not a.startswith('stop')])
            if row.kinds:
                assert answers[-1] in [f'refused {n}' for n in row.kinds] and len(row.refused) == 1, row.published
            yield f'reader {" ".join(map(str, row.limits))} {word(row.data)} ' + ' '.join(map(spelt, row.calls)), ' '.join(answers)
