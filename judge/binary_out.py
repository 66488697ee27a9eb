#!/usr/bin/env python3
"""Makes crates/binary_out_cases/stdin and stdout: rows of the binary writer's calls, and what a model answers.

    judge/binary_out.py CRATE_SRC HARNESS [WORK]

The model is written from the public document of the binary protocol and from docs/SCOPE.md's rules on refusals, with Python's own struct for the bytes of
numbers; it has no part in common with the code. The published tests of the Rust's binary protocol, its strict form, stand first, with the bytes that they
expect: the model must write these, or nothing is made. CRATE_SRC is the folder of the Rust crate's sources (with lib.rs), HARNESS the folder of the harness
over it (build.sh, oracle.rs), which is built in WORK: the crate's own writer, in both its builds, is given each row's calls that go through, and must write
the same bytes for each. It parts from the rules at the header of an empty map, which it writes with the types given.
"""
import os
import random
import struct
import subprocess
import sys
import tempfile

HERE = os.path.dirname(os.path.abspath(__file__))
CASES = os.path.join(HERE, '..', 'crates', 'binary_out_cases')
MOST = 2147483647
NAMES = ['message', 'begin', 'end', 'field', 'stop', 'list', 'set', 'map', 'bool', 'i8', 'i16', 'i32', 'i64', 'double', 'uuid', 'bytes', 'string']
CODES = {'stop': 0, 'bool': 2, 'i8': 3, 'double': 4, 'i16': 6, 'i32': 8, 'i64': 10, 'string': 11, 'struct': 12, 'map': 13, 'set': 14, 'list': 15, 'uuid': 16}
BAD_TYPE, SIZE_LIMIT, NEGATIVE, DEPTH, BAD_UTF8, OUT_OF_TURN, NO_ROOM, BAD_STATE, MESSAGE_SIZE = 4, 8, 9, 10, 11, 12, 14, 15, 19


def text(data):
    try:
        data.decode('utf-8')
        return True
    except UnicodeDecodeError:
        return False


class State:
    def __init__(self, depth_limit=64, string=MOST, container=MOST, ceiling=MOST, place=0, began=0, depth=0, room=64):
        self.limits = (depth_limit, string, container, ceiling)
        self.place, self.began, self.depth, self.buffer = place, began, depth, bytearray(b'\xaa' * room)

    def header(self):
        return struct.pack('<8I', *self.limits, self.place, self.began, self.depth, len(self.buffer))

    def wrong(self, name, args):
        depth_limit, string, container, _ = self.limits
        if name in ('string', 'bytes', 'message'):
            data = args[-1]
            if len(data) > string:
                return SIZE_LIMIT
            if name != 'bytes' and not text(data):
                return BAD_UTF8
        if name == 'field' and args[0] == 'stop':
            return BAD_TYPE
        if name in ('list', 'set', 'map'):
            count = args[-1]
            if count < 0:
                return NEGATIVE
            if count and 'stop' in args[:-1]:
                return BAD_TYPE
            if count > container:
                return SIZE_LIMIT
        if name == 'begin' and self.depth >= depth_limit:
            return DEPTH
        if name == 'end' and self.depth == 0:
            return OUT_OF_TURN
        return 0

    def spell(self, name, args):
        if name == 'message':
            kind, sequence, data = args
            return struct.pack('>HBBI', 0x8001, 0, kind, len(data)) + data + struct.pack('>i', sequence)
        if name == 'field':
            return struct.pack('>Bh', CODES[args[0]], args[1])
        if name in ('list', 'set'):
            return struct.pack('>Bi', CODES[args[0]], args[1])
        if name == 'map':
            return struct.pack('>BBi', 0, 0, 0) if args[2] == 0 else struct.pack('>BBi', CODES[args[0]], CODES[args[1]], args[2])
        if name in ('string', 'bytes'):
            return struct.pack('>I', len(args[0])) + args[0]
        if name in ('begin', 'end'):
            return b''
        if name == 'stop':
            return b'\0'
        if name == 'uuid':
            return args[0]
        return struct.pack({'bool': '>?', 'i8': '>b', 'i16': '>h', 'i32': '>i', 'i64': '>q', 'double': '>Q'}[name], args[0])

    def call(self, name, *args):
        """None, or the number of the refusal: 15; 12, 4, 8 to 11; 19; 14."""
        depth_limit, string, container, ceiling = self.limits
        if depth_limit > 64 or max(string, container, ceiling) > MOST or self.place > len(self.buffer) or self.depth > depth_limit:
            return BAD_STATE
        if not self.began <= self.place <= self.began + ceiling:
            return BAD_STATE
        why = self.wrong(name, args)
        if why:
            return why
        data = self.spell(name, args)
        began = self.place if name == 'message' else self.began
        if self.place + len(data) > began + ceiling:
            return MESSAGE_SIZE
        if self.place + len(data) > len(self.buffer):
            return NO_ROOM
        self.buffer[self.place:self.place + len(data)] = data
        self.place, self.began = self.place + len(data), began
        self.depth += {'begin': 1, 'end': -1}.get(name, 0)
        return None


def coded(name, args):
    """A call as the program reads it: number, a, b, n, and its bytes."""
    a = b = n = 0
    data = b''
    if name == 'message':
        a, n, data = args
    elif name in ('field', 'list', 'set'):
        a, n = CODES[args[0]], args[1]
    elif name == 'map':
        a, b, n = CODES[args[0]], CODES[args[1]], args[2]
    elif name == 'bool':
        a = int(args[0])
    elif name == 'i8':
        a = args[0] % 256
    elif name in ('i16', 'i32', 'i64', 'double'):
        n = args[0]
    elif name in ('uuid', 'bytes', 'string'):
        data = args[0]
    return struct.pack('<BBBQI', NAMES.index(name) + 1, a, b, n % 2 ** 64, len(data)) + data


def asked(name, args):
    """The call in the harness's words."""
    words = [{'begin': 'sbegin', 'end': 'send'}.get(name, name)]
    for word in args:
        words.append(word.hex() if isinstance(word, bytes) else f'{word:x}' if name == 'double' else str(int(word)) if isinstance(word, bool) else str(word))
    return ':'.join(words)


ROWS = []


def case(what, state, calls):
    frame, words, row = state.header(), [], []
    for name, *args in calls:
        frame += coded(name, args)
        before = state.place
        why = state.call(name, *args)
        words.append(f'{state.place} ' if why is None else f'refused {why} ')
        if why is None:
            data = bytes(state.buffer[before:state.place])
            if name == 'map' and args[2] == 0:
                data = struct.pack('>BBi', CODES[args[0]], CODES[args[1]], 0)
            row.append((asked(name, args), data.hex() or '.'))
    if row:
        ROWS.append((what, row))
    line = f'{len(frame):05} {what}\n'.encode()
    return line + frame, line + (''.join(words) + state.buffer.hex()).encode() + b'\n'


PUBLISHED = [
    ('must_write_strict_message_call_begin', [('message', 1, 1, b'test')], '80010001000000047465737400000001'),
    ('must_write_strict_message_reply_begin', [('message', 2, 10, b'test')], '8001000200000004746573740000000a'),
    ('must_write_struct_begin', [('begin',)], ''),
    ('must_write_struct_end', [('begin',), ('end',)], ''),
    ('must_write_field_begin', [('field', 'string', 22)], '0b0016'),
    ('must_write_stop_field', [('stop',)], '00'),
    ('must_write_list_begin', [('list', 'bool', 5)], '0200000005'),
    ('must_write_set_begin', [('set', 'i16', 7)], '0600000007'),
    ('must_write_map_begin', [('map', 'i64', 'struct', 32)], '0a0c00000020'),
    ('must_write_bool_true', [('bool', True)], '01'),
    ('must_write_bool_false', [('bool', False)], '00'),
    ('must_write_bytes', [('bytes', bytes.fromhex('0accd1849912abbb45df'))], '0000000a0accd1849912abbb45df'),
    ('must_round_trip_uuid', [('uuid', bytes.fromhex('f9168c5eceb24faab6bf329bf39fa1e4'))], 'f9168c5eceb24faab6bf329bf39fa1e4'),
    ('must_round_trip_field_begin', [('field', 'i64', 20)], '0a0014'),
    ('must_round_trip_map_begin', [('map', 'string', 'i32', 2), ('string', b'key1'), ('i32', 100), ('string', b'key2'), ('i32', 200)],
     '0b0800000002000000046b65793100000064000000046b657932000000c8'),
]


def published():
    for what, calls, expected in PUBLISHED:
        state = State(room=len(expected) // 2)
        made = case(what, state, calls)
        if state.buffer.hex() != expected:
            raise SystemExit(f'the model differs from the published test {what}: {state.buffer.hex()}')
        yield made


EDGES = {'i8': (-128, -1, 0, 1, 127), 'i16': (-32768, -1, 0, 255, 256, 32767), 'i32': (-2 ** 31, -1, 0, 65535, 65536, 2 ** 31 - 1),
         'i64': (-2 ** 63, -1, 0, 2 ** 32 - 1, 2 ** 32, 2 ** 63 - 1), 'double': (0, 1, 0x7ff0000000000000, 0x7ff8000000000001, 0x8000000000000000, 2 ** 64 - 1)}


def edges():
    for name, numbers in EDGES.items():
        for n in numbers:
            for room in (16, len(State().spell(name, (n,))), len(State().spell(name, (n,))) - 1):
                yield case(f'{name} {n} in {room}', State(room=room), [(name, n)])
    for kind in CODES:
        for id in (-32768, -1, 0, 1, 255, 256, 32767):
            yield case(f'field {kind} {id}', State(room=3), [('field', kind, id)])
        for count in (-2 ** 31, -1, 0, 1, 255, 65536, 2 ** 31 - 1):
            yield case(f'list {kind} {count}', State(room=5), [('list', kind, count)])
            yield case(f'set {kind} {count}', State(room=4), [('set', kind, count)])
            yield case(f'map {kind} i8 {count}', State(room=6), [('map', kind, 'i8', count)])
            yield case(f'map i8 {kind} {count} under 100', State(room=6, container=100), [('map', 'i8', kind, count)])


def states():
    for what, given in (('depth limit 65', {'depth_limit': 65}), ('strings past the most', {'string': MOST + 1}), ('containers past the most', {'container': MOST + 1}),
                        ('a ceiling past the most', {'ceiling': MOST + 1}), ('a place past the buffer', {'place': 65}), ('a place at its end', {'place': 64, 'began': 60}),
                        ('a depth over its limit', {'depth_limit': 2, 'depth': 3}), ('a beginning past the place', {'place': 3, 'began': 4}),
                        ('a place past the cut', {'place': 9, 'began': 4, 'ceiling': 4}), ('a place at the cut', {'place': 8, 'began': 4, 'ceiling': 4}),
                        ('no ceiling', {'ceiling': 0})):
        for calls in ([('stop',)], [('end',), ('begin',), ('end',)], [('string', b'\xff'), ('bytes', b'\xff')], [('message', 1, 1, b't'), ('bool', True)], [('list', 'stop', 1), ('list', 'stop', 0)]):
            yield case(f'{what}: {calls[0][0]}', State(**given), calls)


def rows(seed, count):
    """Rows of random calls, under limits, ceilings and rooms that some of them meet."""
    rng = random.Random(seed)
    kinds = list(CODES)
    names = [b'', b't', b'trial', '\u00e9\u20ac\U0001f600'.encode(), b'\xc0\x80', b'\xed\xa0\x80', b'a' * 20]

    def one():
        name = rng.choice(NAMES)
        if name == 'message':
            return name, rng.randint(1, 4), rng.choice((0, 1, -1, 2 ** 31 - 1, -2 ** 31)), rng.choice(names)
        if name == 'field':
            return name, rng.choice(kinds), rng.randint(-32768, 32767)
        if name in ('list', 'set'):
            return name, rng.choice(kinds), rng.choice((-1, 0, 1, 2, 300, 70000))
        if name == 'map':
            return name, rng.choice(kinds), rng.choice(kinds), rng.choice((-1, 0, 1, 2, 300, 70000))
        if name == 'bool':
            return name, rng.random() < 0.5
        if name in EDGES:
            return name, rng.choice(EDGES[name])
        if name == 'uuid':
            return name, rng.randbytes(16)
        if name in ('bytes', 'string'):
            return name, rng.choice(names)
        return (name,)

    for i in range(count):
        state = State(depth_limit=rng.choice((0, 1, 2, 64)), string=rng.choice((0, 4, 10, MOST)), container=rng.choice((0, 2, 299, MOST)), ceiling=rng.choice((5, 20, 60, MOST, MOST)),
                      room=rng.choice((0, 7, 30, 64, 120)))
        yield case(f'row {i}', state, [one() for _ in range(rng.randint(1, 9))])


def heard(work):
    """How many calls the crate has answered, each as the model."""
    text = ''.join('WB - - ' + ' '.join(call for call, _ in row) + '\n' for _, row in ROWS)
    for build in ('oracle', 'oracle-chk'):
        told = subprocess.run([os.path.join(work, build)], input=text, capture_output=True, text=True, check=True).stdout.splitlines()
        for (what, row), answer in zip(ROWS, told, strict=True):
            if answer.split(' ') != [data for _, data in row]:
                raise SystemExit(f'{build} differs at {what}: {answer}: {row}')
    return sum(len(row) for _, row in ROWS)


def main():
    if len(sys.argv) not in (3, 4):
        sys.exit(__doc__)
    source, harness = sys.argv[1:3]
    work = sys.argv[3] if len(sys.argv) > 3 else tempfile.mkdtemp()
    if not os.path.exists(os.path.join(work, 'oracle-chk')):
        subprocess.run(['sh', os.path.join(harness, 'build.sh'), source, work], check=True, stdout=subprocess.DEVNULL)
    frames = [*published(), *edges(), *states(), *rows(29, 600)]
    calls = heard(work)
    for name, at in (('stdin', 0), ('stdout', 1)):
        with open(os.path.join(CASES, name), 'wb') as file:
            file.write(b''.join(f[at] for f in frames))
    print(f'{len(frames)} rows, of which the published tests are {len(PUBLISHED)}; {calls} calls that went through, judged by the crate too')


main()
