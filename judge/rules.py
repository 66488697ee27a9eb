"""Rules of docs/SCOPE.md that the crate does not have: the one place for all of them.

The crate answers every case. On top of its answer stands `broken`: it walks a call's bytes after docs/SCOPE.md and finds the first that break a rule of the scope
alone, where nothing before them breaks one that the crate has as well. It answers the refusal's number, the difference's number in docs/DIFFERENCES.md and the place where
those bytes begin. A rule more is a `raise Refused` in `Walk`, with the number of its difference and that place, and a cause in `checked` for the crate to confirm.
The crate has a word on both halves of what is found. Given the bytes before that place, it misses a byte: so it refused nothing up to there. And the cause is its own: of
an i16 out of range, its i32 call reads a number outside 16 bits; of a count that can't be there, its header call reads the types and the count (`checked`).
The ceiling per message (D30) is no part of the walk: there the crate is asked on the input cut where the message must have ended (`Capped` in rows.py).
"""
from collections import namedtuple

END, BAD_VERSION, BAD_MESSAGE_TYPE, BAD_TYPE, BAD_BOOL, LONG_VARINT, FIELD_ID, SIZE_LIMIT, NEGATIVE, DEPTH, BAD_UTF8, RANGE = 1, 2, 3, 4, 5, 6, 7, 8, 9, 10, 11, 17
STOP, BOOL, I8, I16, I32, I64, DOUBLE, STRING, LIST, SET, MAP, STRUCT, UUID = 0, 1, 3, 4, 5, 6, 7, 8, 9, 10, 11, 12, 13

LEAST = {DOUBLE: 8, UUID: 16}

Broken = namedtuple('Broken', 'why difference begins by')
found = {}


def least(*header):
    """The fewest bytes of a container's elements, by its types and its count."""
    *kinds, count = header
    return count * sum(LEAST.get(kind, 1) for kind in kinds)


class Refused(Exception):
    """A refusal's number; where the crate has no such rule, the difference's number, the place at which the bytes begin that break it, and the call by which the crate shows it."""

    def __init__(self, why, difference=None, begins=None, by=None):
        self.why, self.difference, self.begins, self.by = why, difference, begins, by


class Walk:
    """A reader by the rules of docs/SCOPE.md over a call's bytes. It keeps no value but what tells the next bytes."""

    def __init__(self, data, at, limits):
        self.data, self.at, (self.room, self.string_limit, self.container_limit) = data, at, limits

    def some(self, n):
        if len(self.data) - self.at < n:
            raise Refused(END)
        self.at += n
        return self.data[self.at - n:self.at]

    def byte(self):
        return self.some(1)[0]

    def varint(self, bits):
        value = 0
        for k in range((bits + 6) // 7):
            b = self.byte()
            value |= (b & 127) << 7 * k
            if b < 128:
                return value % (1 << bits)
        raise Refused(LONG_VARINT)

    def i16(self):
        """ "An i16 is read as a 32-bit zigzag number. One outside -32,768 to 32,767 is RANGE." """
        begins, n = self.at, self.varint(32)
        n = n // 2 if n % 2 == 0 else -(n + 1) // 2
        if not -32768 <= n <= 32767:
            raise Refused(RANGE, 'D28', begins, 'i32')
        return n

    def length(self):
        n = self.varint(32)
        if n > self.string_limit:
            raise Refused(SIZE_LIMIT)
        return n

    def count(self, n):
        if n >= 1 << 31:
            raise Refused(NEGATIVE)
        if n > self.container_limit:
            raise Refused(SIZE_LIMIT)
        return n

    def message(self):
        if self.byte() != 0x82:
            raise Refused(BAD_VERSION)
        b = self.byte()
        if b % 32 != 1:
            raise Refused(BAD_VERSION)
        if not 1 <= b // 32 <= 4:
            raise Refused(BAD_MESSAGE_TYPE)
        self.varint(32)
        try:
            self.some(self.length()).decode('utf-8', 'strict')
        except UnicodeDecodeError:
            raise Refused(BAD_UTF8)

    def field(self, last):
        """(type, id), or None for Stop. A bool field's type is its code, 1 or 2."""
        b = self.byte()
        kind, delta = b & 15, b >> 4
        if kind == STOP:
            return None
        if kind > UUID:
            raise Refused(BAD_TYPE)
        if delta == 0:
            return kind, self.i16()
        if last + delta > 32767:
            raise Refused(FIELD_ID)
        return kind, last + delta

    def element(self, code):
        if code > UUID:
            raise Refused(BAD_TYPE)
        return BOOL if code == 2 else code

    def backed(self, begins, by, *header):
        """ "With a count over 0 .. refused END when the count times the least size exceeds the bytes left after the header." """
        if least(*header) > len(self.data) - self.at:
            raise Refused(END, 'D29', begins, by)
        return header

    def items(self):
        begins, b = self.at, self.byte()
        kind = self.element(b & 15)
        return self.backed(begins, 'list', kind, self.count(self.varint(32) if b >> 4 == 15 else b >> 4))

    def pairs(self):
        begins, n = self.at, self.varint(32)
        if n == 0:
            return STOP, STOP, 0
        b = self.byte()
        return self.backed(begins, 'map', self.element(b >> 4), self.element(b & 15), self.count(n))

    def skip(self, kind):
        if kind in (LIST, SET, MAP, STRUCT):
            if self.room == 0:
                raise Refused(DEPTH)
            self.room -= 1
            self.container(kind)
            self.room += 1
        elif kind == STOP:
            raise Refused(BAD_TYPE)
        elif kind == BOOL:
            if self.byte() > 2:
                raise Refused(BAD_BOOL)
        elif kind == I16:
            self.i16()
        elif kind in (I32, I64):
            self.varint(32 if kind == I32 else 64)
        elif kind == STRING:
            self.some(self.length())
        else:
            self.some({I8: 1, DOUBLE: 8, UUID: 16}[kind])

    def container(self, kind):
        if kind == STRUCT:
            last = 0
            while (field := self.field(last)) is not None:
                inner, last = field
                if inner > 2:
                    self.skip(inner)
            return
        *kinds, count = self.pairs() if kind == MAP else self.items()
        if count > 0 and STOP in kinds:
            raise Refused(BAD_TYPE)
        for _ in range(count):
            for inner in kinds:
                self.skip(inner)

    def printed(self):
        self.message()
        self.skip(STRUCT)

    def call(self, name, *args):
        walks = {'i16': self.i16, 'field': lambda: self.field(0), 'list': self.items, 'set': self.items, 'map': self.pairs, 'message': self.message,
                 'skip': self.skip, 'print': self.printed}
        if name in walks:
            walks[name](*args)


def broken(data, at, call, limits):
    """What a rule of the scope alone refuses of a call at a place, with no bool pending; None where no such rule is broken first. The limit on depth is what is left of it.
    A field's last id may be taken as 0: no rule here depends on it."""
    try:
        Walk(data, at, limits).call(*call)
    except Refused as no:
        if no.difference:
            found[bytes(data), at, call, limits] = Broken(no.why, no.difference, no.begins, no.by)
            return found[bytes(data), at, call, limits]
    return None


def checked(crate, words):
    """Asks the crate about all that was found. crate(calls) gives (value, place) or a refusal's number of the last of (bytes, calls) each; words(lines) the two builds' words for lines of the harness."""
    cases = [(key, rule) for key, rule in found.items() if key[2][0] != 'print']
    spelt = lambda call: f'skip:{NAMES[call[1]]}' if call[0] == 'skip' else call[0]
    lines = [f'R {" ".join(map(str, limits))} - {data[at:rule.begins].hex() or "-"} {spelt(call)}' for (data, at, call, limits), rule in cases]
    for (key, rule), both in zip(cases, words(lines)):
        assert all(w.split(' ; ')[0] == '!1' for w in both), (key, rule, both)
    causes = list(dict.fromkeys((data, rule) for (data, *_), rule in found.items()))
    for (data, rule), told in zip(causes, crate([(data, ['i8'] * rule.begins + [rule.by]) for data, rule in causes])):
        assert not isinstance(told, int) and is_cause(rule, told, len(data)), (data.hex(), rule, told)
    return len(found)


def is_cause(rule, told, length):
    """Whether what the crate reads at the place, (value, the place behind it), is such as the rule refuses."""
    if rule.by == 'i32':
        return not -32768 <= int(told[0]) <= 32767
    *kinds, count = told[0].split(',')
    return least(*[NUMBERS[kind] for kind in kinds], int(count)) > length - told[1]


NAMES = {0: 'stop', 1: 'bool', 3: 'i8', 4: 'i16', 5: 'i32', 6: 'i64', 7: 'double', 8: 'string', 9: 'list', 10: 'set', 11: 'map', 12: 'struct', 13: 'uuid'}
NUMBERS = {name: number for number, name in NAMES.items()}
