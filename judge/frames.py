#!/usr/bin/env python3
"""frames.py

Makes the frames of crates/frame_cases and their answers anew: its files stdin and stdout. They are the structs among the cases of crates/vectors that the
crate's own skip answered (make.py, rules.py), so no answer comes from the port: however a frame is cut, its answer is that of skip over the whole.
"""
import os
import re

CRATES = os.path.join(os.path.dirname(os.path.abspath(__file__)), os.pardir, 'crates')
BURSTS = 3


def main():
    frames = answers = b''
    for line in open(os.path.join(CRATES, 'vectors', 'stdout'), encoding='utf8'):
        case = re.fullmatch(r'skip 12 (\S+) = (.*)\n', line)
        if case:
            data = b'' if case[1] == '-' else bytes.fromhex(case[1])
            answer = case[2] if case[2].startswith('refused') else 'done ' + case[2]
            head = b'%05d\n' % len(data)
            frames += head + data
            answers += head + (answer + '\n').encode() * BURSTS
    for name, text in (('stdin', frames), ('stdout', answers)):
        with open(os.path.join(CRATES, 'frame_cases', name), 'wb') as file:
            file.write(text)


main()
