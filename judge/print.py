#!/usr/bin/env python3
"""print.py CRATE_SRC HARNESS [WORK]

Makes the messages of crates/print_cases and what the crate's own reader prints of them anew: its files stdin and stdout. No answer comes from the port.
CRATE_SRC is the folder of the Rust crate's sources (with lib.rs), HARNESS the folder of the harness over it (build.sh, oracle.rs), WORK a folder to build
in (a temporary one where it is left out; what an earlier run built there is used again). Both builds of the crate must agree, or nothing is written.
Headers, values and their refusals are the crate's; the nesting at the limit and the refusal of Stop elements are counted by the harness. Where a rule is broken that the
crate does not have (rules.py), the lines up to there are the crate's for the bytes before, and the message's title says what the crate prints instead.
"""
import os
import struct
import subprocess
import sys
import tempfile

sys.dont_write_bytecode = True
import rules

CRATE = os.path.join(os.path.dirname(os.path.abspath(__file__)), os.pardir, 'crates', 'print_cases')

HEAD = bytes.fromhex('8221010174')


def varint(n):
    out = b''
    while n > 127:
        out, n = out + bytes([n % 128 + 128]), n // 128
    return out + bytes([n])


def zigzag(n):
    return varint(2 * n if n >= 0 else -2 * n - 1)


def double(bits):
    return struct.pack('<Q', bits)


def point(time, pressure, temperature):
    """A struct of three doubles in fields 1 to 3."""
    return b''.join(b'\x17' + struct.pack('<d', x) for x in (time, pressure, temperature)) + b'\0'


def hexes(text):
    return bytes.fromhex(text)


def body(what):
    return HEAD + what


def cases():
    yield "the scope paper's sample", hexes('822101017411150100')
    yield 'nothing', b''
    yield 'a sample trial: a list of time, pressure and temperature', hexes('8221070574') + b'rial' + b'\x19\x3c' + point(0.0, 101.325, 293.15) + point(0.5, 101.5, 293.25) + point(1.0, 102.0, 294.0) + b'\0'
    for kind, name in ((1, 'call'), (2, 'reply'), (3, 'exception'), (4, 'oneway')):
        yield f'a {name}', bytes([0x82, 32 * kind + 1]) + b'\x05\x00' + b'\0'
    yield 'a negative sequence number', hexes('8221ffffffff0f0000')
    yield 'the largest sequence number', hexes('8221ffffffff070000')
    yield 'a name of two characters', hexes('82210104c3a9c3b800')
    yield 'bytes behind the struct', body(hexes('00')) + b'left'
    yield 'bool fields', body(hexes('111200'))
    for code, data in ((3, b'\x80'), (3, b'\x7f'), (4, zigzag(-32768)), (4, zigzag(32767)), (5, zigzag(-2 ** 31)), (5, zigzag(2 ** 31 - 1)), (6, zigzag(-2 ** 63)), (6, zigzag(2 ** 63 - 1)), (5, b'\0')):
        yield f'a number of type {code}', body(bytes([0x10 + code]) + data + b'\0')
    yield '17: an i16 of 32,768', body(hexes('1480800400'))
    yield '17: an i16 of -32,769, in a list', body(hexes('19240281800400'))
    yield '17: the id 65,537', body(hexes('11058280080200'))
    yield '17: the id 65,537 of a bool', body(hexes('0182800800'))
    yield '17: the id 65,537 in an inner struct', body(hexes('1c1302038280080500'))
    yield '17: an i16 key of 65,537', body(hexes('1b01438280080100'))
    yield 'an i16 of 1 whose last byte drops bits', body(hexes('14828080807000'))
    for bits, name in ((0x3ff0 << 48, '1.0'), (1 << 63, '-0.0'), (0x7ff8_0000_dead_beef, 'a NaN with a payload'), (0xfff0_0000_0000_0001, 'a signalling NaN, negative'), (0x7ff0 << 48, 'infinity'), (0xfff0 << 48, '-infinity'), (1, 'the least above 0'), (2 ** 64 - 1, 'all bits')):
        yield f'double {name}', body(b'\x17' + double(bits) + b'\0')
    yield 'a string', body(b'\x18\x05hello\0')
    yield 'an empty string', body(b'\x18\x00\0')
    yield 'a string that is no UTF-8', body(b'\x18\x02\xc3\x28\0')
    yield 'a uuid', body(b'\x1d' + bytes(range(16)) + b'\0')
    yield 'a list of i32', body(hexes('193502040600'))
    yield 'a list of 15', body(hexes('19f30f') + bytes(15) + b'\0')
    yield 'a list of bools, 0, 1 and 2', body(hexes('193100010200'))
    yield 'a list of bools, by the other code', body(hexes('1912010 0'.replace(' ', '')))
    yield 'a set of i8', body(hexes('1a1380 00'.replace(' ', '')))
    yield 'an empty set of strings', body(hexes('1a0800'))
    yield 'a map of string to i32', body(hexes('1b018501610200'))
    yield 'an empty map', body(hexes('1b0000'))
    yield 'an empty map, its count overlong', body(hexes('1b800000'))
    yield 'a map of uuid to double', body(b'\x1b\x01\xd7' + bytes(16) + double(0) + b'\0')
    yield 'a list of lists and a struct in a struct', body(hexes('19291300 03'.replace(' ', '')) + b'\x1c\x13\x01\0' + b'\0')
    yield 'a list of empty structs', body(hexes('193c000000 00'.replace(' ', '')))
    yield 'a list of Stop, empty', body(hexes('190000'))
    yield 'ids: short 14 and 15, long, negative, the least and the greatest', body(hexes('e30103') + zigzag(29) + b'\x01' + b'\xf3\x01' + b'\x03' + zigzag(-1) + b'\x01' + b'\x03' + zigzag(-32768) + b'\x01' + b'\x03' + zigzag(32767) + b'\x01\0')
    yield 'a stop with a delta', body(b'\x10')
    yield '1: no struct', HEAD
    yield '1: within a field', body(b'\x15\x80')
    yield '1: within a list', body(hexes('19280161056869'))
    yield "1: a list that can't be there", body(hexes('193302'))
    yield '1: two doubles in 15 bytes', body(b'\x19\x27' + bytes(15))
    yield 'two doubles in 16 bytes', body(b'\x19\x27' + bytes(17))
    yield '1: a uuid to a bool in 16 bytes', body(b'\x1b\x01\xd1' + bytes(16))
    yield 'a uuid to a bool in 17 bytes', body(b'\x1b\x01\xd1' + bytes(18))
    yield '1: 60,000 doubles in 40 bytes', body(b'\x19\xf7' + varint(60000) + bytes(30))
    yield '1: a list of three Stop, two bytes behind it', body(hexes('19300000'))
    yield '1: a list of lists, the inner one without its elements', body(hexes('19293303'))
    yield '1: within a double', body(b'\x17\0\0\0')
    yield '1: within a string', body(b'\x18\x05abc')
    yield '1: within a uuid', body(b'\x1d' + bytes(15))
    yield '1: within a name', hexes('8221010574')
    yield '2: first byte', hexes('8121010174')
    yield '2: version', hexes('82220101740 0'.replace(' ', ''))
    yield '3: type 0', hexes('8201010174')
    yield '3: type 5', hexes('82a1010174')
    yield '4: a field of type 14', body(b'\x1e')
    yield '4: an element of type 15', body(hexes('192f'))
    yield '4: a list of Stop', body(hexes('1930000000'))
    yield '4: a set of Stop, its count in a varint', body(hexes('1af00f') + bytes(15))
    yield '4: a map with keys of Stop', body(hexes('1b01050000'))
    yield '5: an element bool', body(hexes('192101 03'.replace(' ', '')))
    yield '6: an i32', body(b'\x15' + b'\xff' * 5)
    yield '6: an i64', body(b'\x16' + b'\x80' * 10)
    yield '6: a count', body(b'\x19\xf3' + b'\xff' * 5)
    yield '6: the sequence number', hexes('8221ffffffffff')
    yield '7: an id over 32,767', body(b'\x03' + zigzag(32760) + b'\x01\x83\x01')
    yield '8: a string longer than 65,536', body(b'\x18' + varint(65537))
    yield '8: a list of more than 65,536', body(b'\x19\xf3' + varint(65537))
    yield '8: two thousand million doubles in 40 bytes', body(b'\x19\xf7' + varint(2000000000) + bytes(28))
    yield '8: a map of more than 65,536', body(b'\x1b' + varint(65537) + b'\x33')
    yield '8: a name longer than 65,536', b'\x82\x21\x01' + varint(65537)
    yield '9: a list', body(b'\x19\xf3' + varint(2 ** 31))
    yield '9: a map', body(b'\x1b' + varint(2 ** 32 - 1) + b'\x33')
    yield '11: a name', hexes('82210101ff')
    yield 'nesting 64: structs', body(b'\x1c' * 63 + b'\0' * 64)
    yield 'nesting 64: lists in the struct', body(b'\x19' + b'\x19' * 62 + b'\x03' + b'\0')
    yield '10: nesting 65, structs', body(b'\x1c' * 64 + b'\0' * 65)
    yield '10: nesting 65, lists in the struct', body(b'\x19' + b'\x19' * 63 + b'\x03' + b'\0')
    yield '10: nesting 65, a map', body(b'\x1c' * 63 + b'\x1b\0')
    yield '10: nesting 65, a set', body(b'\x1c' * 63 + b'\x1a\x03')
    long = body(b'\x18' + varint(65526) + b'a' * 65526)
    yield '65,536 bytes', long + b'\0' * (65536 - len(long))
    yield '14: 65,537 bytes', long + b'\0' * (65537 - len(long))


LIMITS = (64, 65536, 65536)


def crate_prints(work, data):
    """The crate's lines, in both builds."""
    words = [subprocess.run([os.path.join(work, build), 'print'], input=data, capture_output=True, check=True).stdout for build in ('oracle', 'oracle-chk')]
    if words[0] != words[1]:
        sys.exit(f'the builds differ at {data.hex()}')
    return words[0].decode().splitlines()


def main():
    source, harness = sys.argv[1:3]
    work = sys.argv[3] if len(sys.argv) > 3 else tempfile.mkdtemp()
    if not os.path.exists(os.path.join(work, 'oracle-chk')):
        subprocess.run(['sh', os.path.join(harness, 'build.sh'), source, work], check=True, stdout=subprocess.DEVNULL)
    frames, told = b'', b''
    for name, data in cases():
        wanted, lines = name.split(':')[0], crate_prints(work, data)
        rule = rules.broken(data, 0, ('print',), LIMITS)
        if rule:
            before = crate_prints(work, data[:rule.begins])
            if before.pop() != 'refused 1' or lines[:len(before)] != before:
                sys.exit(f'{name}: the crate refuses before the rule does')
            name += f' ({rule.difference}, the crate: {lines[len(before)]})'
            lines = before + [f'refused {rule.why}']
        if wanted.isdigit() and lines[-1] != 'refused ' + wanted:
            sys.exit(f'{name}: {lines[-1]}')
        line = f'{len(data):05} {name}\n'.encode()
        frames, told = frames + line + data, told + line + ''.join(each + '\n' for each in lines).encode()
    for file, what in (('stdin', frames), ('stdout', told)):
        with open(os.path.join(CRATE, file), 'wb') as f:
            f.write(what)


main()
