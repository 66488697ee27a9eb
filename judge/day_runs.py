#!/usr/bin/env python3
"""day_runs.py ARCHIVE COUNT [SEED]

Compares the day file's exports with the model of day.py on COUNT random files, most of them broken in one place, and as many random calls of the writer: every
answer, what a refused call leaves, and the whole lent output. Then the bound of 4,294,967,295 bytes, on memory that is mapped and hardly touched, by the request's own words. ARCHIVE is target/staticlib/libtagrumzil.a, which `tools/archive` makes. It needs cc.
"""
import ctypes
import mmap
import os
import random
import struct
import subprocess
import sys
import tempfile

sys.dont_write_bytecode = True
import day

size = ctypes.c_size_t
COUNT_BEFORE, START_BEFORE, END_BEFORE, LENGTH_BEFORE = 71, 72, 73, 74


class Port:
    """The exports, each with what it leaves in its caller's numbers."""

    def __init__(self, archive):
        with tempfile.TemporaryDirectory() as folder:
            shared = os.path.join(folder, 'libtagrumzil.so')
            subprocess.run(['cc', '-shared', '-o', shared, '-Wl,--whole-archive', archive, '-Wl,--no-whole-archive'], check=True)
            self.calls = ctypes.CDLL(shared)

    def check(self, file):
        count = size(COUNT_BEFORE)
        return self.calls.tagrumzil_check_day(file, size(len(file)), ctypes.byref(count)), count.value

    def message(self, file, k):
        start, end = size(START_BEFORE), size(END_BEFORE)
        why = self.calls.tagrumzil_day_message(file, size(len(file)), size(k), ctypes.byref(start), ctypes.byref(end))
        return why, start.value, end.value

    def write(self, room, data, ends):
        out, length = ctypes.create_string_buffer(b'\xaa' * room, max(1, room)), size(LENGTH_BEFORE)
        row = (size * max(1, len(ends)))(*ends)
        why = self.calls.tagrumzil_write_day(out, size(room), data, size(len(data)), row, size(len(ends)), ctypes.byref(length))
        return why, length.value, out.raw[:room]


def broken(rolls, file, count):
    """A file, as it is or with one thing changed."""
    file, way = bytearray(file), rolls.random()
    if way < .25:
        k = rolls.randrange(count + 2)
        number = day.number(file, k) + rolls.choice((-2, -1, 1, 2, 4, 256, 2 ** 24, 2 ** 31))
        struct.pack_into('<I', file, 4 * k, number % 2 ** 32)
    elif way < .45:
        file = file[:rolls.randrange(len(file) + 1)]
    elif way < .55:
        file += rolls.randbytes(rolls.randrange(1, 9))
    elif way < .75:
        file[rolls.randrange(len(file))] = rolls.randrange(256)
    return bytes(file)


def call(rolls, messages):
    """A call of the writer: room, bytes and ends, as they should be or not."""
    data, ends = b''.join(messages), day.ends_of(messages)
    if ends and rolls.random() < .4:
        j = rolls.randrange(len(ends))
        ends[j] = max(0, ends[j] + rolls.choice((-3, -1, 1, 2, 2 ** 32)))
    if rolls.random() < .1:
        data += b'x'
    if rolls.random() < .1:
        ends = ends[:-1]
    return max(0, len(day.day(messages)) + rolls.choice((-9, -1, 0, 0, 1, 7))), data, ends


def bound(port):
    """ "a file over 4,294,967,295 bytes": one message, which the writer has no room for; and files of that length and one byte more."""
    most = 4294967295
    memory = mmap.mmap(-1, most + 1)
    everything = (ctypes.c_char * (most + 1)).from_buffer(memory)

    def write(length):
        left = size(LENGTH_BEFORE)
        return port.calls.tagrumzil_write_day(b'', size(0), everything, size(length), (size * 1)(length), size(1), ctypes.byref(left)), left.value

    def check(length, last):
        struct.pack_into('<3I', memory, 0, 1, 12, last)
        count = size(COUNT_BEFORE)
        return port.calls.tagrumzil_check_day(everything, size(length), ctypes.byref(count)), count.value

    same('a file of the most bytes, written', (day.NO_ROOM, LENGTH_BEFORE), write(most - 12))
    same('a file of one byte more, written', (day.BAD_DAY, LENGTH_BEFORE), write(most - 11))
    same('a file of the most bytes', (0, 1), check(most, most))
    same('a file of one byte more', (day.BAD_DAY, COUNT_BEFORE), check(most + 1, most))
    same('a file of one byte more, whose last offset is 0', (day.BAD_DAY, COUNT_BEFORE), check(most + 1, 0))


def same(what, want, got, *case):
    if want != got:
        sys.exit(f'{what}: the model has {want}, the port {got}, at {case}')


def main():
    port, rolls, accepted = Port(sys.argv[1]), random.Random(int(sys.argv[3]) if len(sys.argv) > 3 else 1), 0
    for _ in range(int(sys.argv[2])):
        messages = [rolls.randbytes(rolls.choice((1, 1, 2, 5, rolls.randrange(1, 40)))) for _ in range(rolls.choice((0, 1, 2, 3, rolls.randrange(30))))]
        file = broken(rolls, day.day(messages), len(messages))
        count = day.check(file)
        accepted += count is not None
        same('check', (day.BAD_DAY, COUNT_BEFORE) if count is None else (0, count), port.check(file), file.hex())
        for k in (rolls.randrange(len(messages) + 2), rolls.choice((0, len(messages), 2 ** 64 - 1))):
            found = day.message(file, k)
            same('message', (day.BAD_DAY, START_BEFORE, END_BEFORE) if found is None else (0, *found), port.message(file, k), file.hex(), k)
        room, data, ends = call(rolls, messages)
        why, length, out = day.write(room, data, ends)
        same('write', (why, LENGTH_BEFORE if why else length, out), port.write(room, data, ends), room, data.hex(), ends)
    bound(port)
    print(f'{sys.argv[2]} files, {accepted} of them good, and as many calls of the writer: every answer is the model\'s')


if __name__ == '__main__':
    main()
