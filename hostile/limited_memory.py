#!/usr/bin/env python3
"""Runs the program under limits of its memory, twenty sizes over each input, and looks at what it answers.

usage: limited_memory.py PROGRAM

The sizes (of what the process may map, as by `ulimit -v`) go in equal steps from a little more than the program itself maps
up to what the input needs. Where memory is wanting the program may end with status 6 and nothing written, or say `memory`
of units, with the last line and the status for it. Any other answer is told, and then the status is 1.
"""
import os
import resource
import subprocess
import sys

from answers import counted, fault, kind
from inputs import INPUTS, doubling

SIZES = 20


def run(program, words, data, limit):
    def limited():
        if limit:
            resource.setrlimit(resource.RLIMIT_AS, (limit, limit))
    ran = subprocess.run([program, *words], input=data, stdout=subprocess.PIPE, stderr=subprocess.DEVNULL, preexec_fn=limited,
                         timeout=120)
    return ran.returncode, ran.stdout


def starts(program, limit):
    """Whether the program answers at all: of too little even the C library cannot be loaded."""
    return run(program, ['check'], b'', limit)[0] in (0, 6)


def enough(good, program, words, data, low):
    """A limit under which the answer is the good one."""
    high = low
    while run(program, words, data, high) != good:
        high += max(high // 4, 1 << 16)
    return high


def main():
    if len(sys.argv) != 2:
        sys.exit(__doc__)
    program, wrong = os.path.abspath(sys.argv[1]), 0
    low = 1 << 20
    while not starts(program, low):
        low += 1 << 16
    print(f'the program answers from {low >> 10} KiB on')
    inputs = [*INPUTS, ('trial of 20,000 units', ['trial', '--units', '20000', '--seed', '7'], b''),
              ('10,000 Pis', ['check'], doubling(10000))]
    for name, words, data in inputs:
        good = run(program, words, data, None)
        high = enough(good, program, words, data, low)
        kinds = []
        for step in range(SIZES):
            limit = low + (high - low) * step // (SIZES - 1)
            status, text = run(program, words, data, limit)
            why = fault(good, status, text)
            if why:
                wrong += 1
                print(f'{name}, {limit >> 10} KiB: {why}')
            else:
                kinds.append(kind(good, status, text))
        print(f'{name}: {SIZES} sizes to {high >> 10} KiB, {counted(kinds)}', flush=True)
    sys.exit(1 if wrong else 0)


main()
