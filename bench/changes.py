#!/usr/bin/env python3
"""Writes an export with changes behind it, for `leancheck recheck`: in each part one theorem that nothing mentions has another proof.

usage: bench/changes.py PARTS < EXPORT > FILE

The new proof is the old one under a function that gives its argument again. The theorems are spread over the last ones.
"""
import re
import sys


def main():
    if len(sys.argv) != 2 or not sys.argv[1].isdigit():
        sys.exit(__doc__)
    parts = int(sys.argv[1])
    lines = sys.stdin.buffer.read().rstrip(b'\n').split(b'\n')
    last = max(int(line.split(b' ', 1)[0]) for line in lines if re.match(rb'\d+ #E', line))
    mentioned = {line.split(b' ')[2] for line in lines if re.match(rb'\d+ #EC ', line)}
    leaves = [line for line in lines if line.startswith(b'#THM ') and line.split(b' ')[1] not in mentioned]
    step = max(1, min(7, len(leaves) // max(1, parts)))
    for leaf in leaves[-parts * step::step][:parts]:
        tag, name, type_, proof, *levels = leaf.split(b' ')
        lines += [
            b'#GO',
            b'%d #EV 0' % (last + 1),
            b'%d #EL #BD 0 %s %d' % (last + 2, type_, last + 1),
            b'%d #EA %d %s' % (last + 3, last + 2, proof),
            b' '.join([tag, name, type_, b'%d' % (last + 3), *levels]),
        ]
        last += 3
    sys.stdout.buffer.write(b'\n'.join(lines) + b'\n')


main()
