#!/usr/bin/env python3
"""Refuses each call of malloc and realloc in turn, over a few inputs, and looks at what the program then answers.

usage: refused_memory.py PROGRAM

Where a call is refused the program may end with status 6 and nothing written, or say `memory` of units, with the last line
and the status for it, or answer as ever. Any other answer is told, and then the status is 1. Needs `cc`.
"""
import os
import subprocess
import sys
import tempfile
from concurrent.futures import ThreadPoolExecutor

from answers import counted, fault, kind
from inputs import HERE, INPUTS


def run(program, words, data, shim, number, count=None):
    env = {**os.environ, 'LD_PRELOAD': shim, 'REFUSE': str(number)}
    if count:
        env['COUNT'] = count
    ran = subprocess.run([program, *words], input=data, stdout=subprocess.PIPE, stderr=subprocess.DEVNULL, env=env, timeout=60)
    return ran.returncode, ran.stdout


def main():
    if len(sys.argv) != 2:
        sys.exit(__doc__)
    program, wrong = os.path.abspath(sys.argv[1]), 0
    with tempfile.TemporaryDirectory() as room, ThreadPoolExecutor(2) as pool:
        shim, count = f'{room}/refuse.so', f'{room}/count'
        subprocess.run(['cc', '-O1', '-shared', '-fPIC', '-o', shim, f'{HERE}/refuse.c', '-ldl'], check=True)
        for name, words, data in INPUTS:
            good = run(program, words, data, shim, 0, count)
            with open(count) as file:
                calls = int(file.read())
            kinds = []
            answers = pool.map(lambda n: run(program, words, data, shim, n), range(1, calls + 1))
            for number, (status, text) in enumerate(answers, 1):
                why = fault(good, status, text)
                if why:
                    wrong += 1
                    print(f'{name}, call {number}: {why}')
                else:
                    kinds.append(kind(good, status, text))
            print(f'{name}: {calls} calls, {counted(kinds)}', flush=True)
    sys.exit(1 if wrong else 0)


main()
