"""The published tests of thrift 0.24.0's compact protocol, read out of their own text: what each writes, the bytes it expects, what each reads, and what it
expects of that. Each of the tests is a row of crates/vectors, the writer's or the reader's or both; or it is said why it is none.
"""
import re

from rows import MOST, WIDE, Read, Row, agree, written
from rules import least

DEFAULTS = (64, 104857600, MOST)
TYPES = {'Stop': 0, 'Bool': 1, 'I08': 3, 'I16': 4, 'I32': 5, 'I64': 6, 'Double': 7, 'String': 8, 'List': 9, 'Set': 10, 'Map': 11, 'Struct': 12, 'Uuid': 13}
MESSAGES = {'Call': 1, 'Reply': 2, 'Exception': 3, 'OneWay': 4}
CALLS = {'struct_begin': 'begin', 'struct_end': 'end', 'field_begin': 'field', 'field_stop': 'stop', 'message_begin': 'message', 'list_begin': 'list', 'set_begin': 'set',
         'map_begin': 'map', 'list_set_begin': 'list', 'bool': 'bool', 'i8': 'i8', 'i16': 'i16', 'i32': 'i32', 'i64': 'i64', 'double': 'double', 'string': 'string', 'bytes': 'bytes'}
ENDS = ('field_end', 'list_end', 'set_end', 'map_end', 'message_end')
KINDS = {'DepthLimit': 10, 'SizeLimit': 8, 'NegativeSize': 9, 'InvalidData': 6}
PI = 0x400921fb54442d18
# What these assert of what they read, in the words of a case and without places.
ASSERTED = {'must_read_boolean_list': ['1 2', 'no', 'yes'], 'must_read_boolean_list_alternative_encoding': ['1 2', 'no', 'yes'],
            'must_allow_containers_within_limit': ['5 5'], 'must_allow_strings_within_limit': [b'hello'.hex()]}


def number(text):
    text = text.strip().replace('_', '')
    return {'i32::MAX': MOST, 'i32::MIN': -MOST - 1}.get(text) if '::' in text else int(text, 0)


def split(text):
    return [part.strip() for part in text.split(',') if part.strip()]


def ident(text):
    """The arguments of an identifier, as those of a call: `TFieldIdentifier::new("foo", TType::I64, 1)`."""
    kind, parts = re.match(r'T(\w+)Identifier::new\((.*)\)$', text, re.S).groups()
    parts = split(parts)
    types = [TYPES[p[7:]] for p in parts if p.startswith('TType::')]
    if kind == 'Message':
        return MESSAGES[parts[1].split('::')[1]], number(parts[2]), parts[0].strip('"').encode()
    if kind == 'Struct':
        return ()
    return (*types, number(parts[-1]))


def array(text):
    return bytes(ord(p[2]) if p.startswith("b'") else number(p) for p in split(text))


class Test:
    """A test by its text: its writer's calls and expected bytes, the bytes it reads and its reader's calls."""

    def __init__(self, name, attributes, body):
        self.name, self.panics = name, 'should_panic' in attributes
        body = re.sub(r'//[^\n]*|/\*.*?\*/', '', body, flags=re.S)
        bound = {n: ident(t) for n, t in re.findall(r'let (\w+) = (T\w+Identifier::new\(.*?\));', body, re.S)}
        self.identifier = bound.get('expected')
        self.writes = [self.call(name, args, bound) for name, args in re.findall(r'o_prot\s*\.write_(\w+)\(((?:[^()]|\([^()]*\))*)\)', body) if name not in ENDS + ('bytes',)]
        self.ends_only = not self.writes and not re.search(r'\.read_(?!\w*end\()', body)
        self.expected = re.search(r'let expected(?:: \[u8; \d+\])? = \[(.*?)\]', body, re.S)
        self.expected = self.expected and array(self.expected[1])
        source = re.search(r'let source_bytes: \[u8; \d+\] = \[(.*?)\]', body, re.S) or re.search(r'set_readable_bytes\(&\[(.*?)\]\)', body, re.S)
        self.source = source and ';' not in source[1] and array(source[1])
        self.reads = [(CALLS[name],) for name in re.findall(r'(?:i_prot|protocol)\s*\.read_(\w+)\(\)', body) if name not in ENDS]
        self.limits = self.limits_of(body)
        self.kinds = {KINDS[k] for k in re.findall(r'ProtocolErrorKind::(\w+)', body)}

    @staticmethod
    def call(name, args, bound):
        args = args.strip().lstrip('&')
        name = CALLS[name]
        if args in bound:
            return (name, *bound[args])
        if args.startswith('T'):
            return (name, *ident(args))
        if args in ('true', 'false'):
            return (name, int(args == 'true'))
        if name == 'double':
            return (name, PI)
        return (name, number(args)) if args and args != 'val' else (name,)

    @staticmethod
    def limits_of(body):
        if 'no_limits' in body:
            return WIDE
        told = dict(re.findall(r'max_(recursion_depth|string_size|container_size)\(Some\((\d+)\)\)', body))
        return tuple(int(told.get(key, usual)) for key, usual in zip(('recursion_depth', 'string_size', 'container_size'), DEFAULTS))


def tests(path):
    with open(path) as f:
        text = f.read()
    found = re.findall(r'((?:    #\[[^\n]*\]\n)*    #\[test\]\n(?:    #\[[^\n]*\]\n)*)    fn (\w+)\(\) \{\n(.*?)\n    \}\n', text, re.S)
    return [Test(name, attributes, body) for attributes, name, body in found]


def told(call):
    """What a reader answers to what this writer's call wrote, but for the place."""
    name, *args = call
    if name == 'bool':
        return 'yes' if args[0] else 'no'
    if name == 'double':
        return f'{args[0]:016x}'
    if name == 'map' and args[-1] == 0:
        return '0 0 0'
    return ' '.join(a.hex() if isinstance(a, bytes) else str(a) for a in args)


SPECIAL = ('must_round_trip_upto_i64_maxvalue', 'must_reject_overlong_varint_i64', 'must_accept_valid_10_byte_varint_i64', 'must_allow_no_limit_configuration',
           'must_check_container_size_overflow')


def special_rows():
    """Tests with a loop or a limit of their own: (writer's rows, reader's rows)."""
    steps = [[('field', 6, 1), ('i64', (1 << k) - 1)] for k in range(64)]
    writes = [Row(calls, published=f'{SPECIAL[0]}, {k}') for k, calls in enumerate(steps)]
    reads = [Read(*written(calls), published=f'{SPECIAL[0]}, {k}', wanted=['6 1', str((1 << k) - 1)]) for k, calls in enumerate(steps)]
    reads.append(Read(b'\x80' * 11, [('i64',)], DEFAULTS, published=SPECIAL[1], kinds={6}))
    reads.append(Read(b'\x80' * 9 + b'\x01', [('i64',)], DEFAULTS, published=SPECIAL[2]))
    reads.append(Read(b'', [('begin',)] * 100 + [('end',)] * 64, WIDE, published=SPECIAL[3] + ' (here the depth is at most 64: D13)'))
    reads.append(Read(b'\xfd\x64' + bytes(1600), [('list',)], WIDE, published=SPECIAL[4] + ' (here a message has no limit, D7, and the elements are there, D29)', wanted=['13 100']))
    return writes, reads


class Published:
    """The rows of the writer and of the reader, and the names of the tests that are none: those of calls that the port does not have."""

    def __init__(self, path):
        found = tests(path)
        self.count = len(found)
        assert set(SPECIAL) <= {t.name for t in found}
        self.writes, self.reads = special_rows()
        self.none = [t.name for t in found if t.ends_only or t.panics and t.writes[-1][0] == 'field']
        for test in found:
            if test.name in self.none or test.name in SPECIAL:
                continue
            if test.writes:
                self.writes.append(write_row(test))
            if test.reads:
                self.reads.append(read_row(test))


def write_row(test):
    number = None
    if test.panics:
        number = 'D24' if len(test.writes) == 1 else 'D23'
    row = Row(test.writes, DEFAULTS, number=number, published=test.name)
    if test.expected is not None:
        agree(test.name, test.expected, written(test.writes)[0])
    return row


def read_row(test):
    """The row, with what the test wants of it: the values that it wrote or names, or a refusal of one of its kinds at the last call."""
    data, wanted = test.source or b'', ASSERTED.get(test.name)
    if test.identifier:
        wanted = [told(('message', *test.identifier))]
    if test.writes:
        data, calls = written(test.writes)
        agree(test.name, calls, test.reads)
        wanted = [told(c) for c in test.writes if c[0] not in ('begin', 'end', 'stop')]
        # A header that ends the test has its elements' bytes behind it, where they are few; else it is D29.
        if test.writes[-1][0] in ('list', 'set', 'map'):
            need = least(*test.writes[-1][1:])
            if need > 2000:
                return Read(data, test.reads, test.limits, published=test.name + ' (here without its elements: D29)')
            data += bytes(need)
    assert wanted or test.kinds, test.name
    return Read(data, test.reads, test.limits, published=test.name, wanted=wanted, kinds=test.kinds)
