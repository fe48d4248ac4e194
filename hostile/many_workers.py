#!/usr/bin/env python3
"""Runs the program many times on twenty files with 1, 2, 3 and 8 workers, and tells where not all wrote the same bytes.

usage: many_workers.py PROGRAM [RUNS]

RUNS of each file with each number of workers is 100. The first run of a file, with one worker, says what is written. Of the
files most have many units; those of `asked_again` ask what other workers have answered before them. The status is 1 where
one run differs.
"""
import subprocess
import sys

import families
from inputs import example

WORKERS = ['1', '2', '3', '8']
EXAMPLES = ['applications', 'axioms', 'blocks', 'definitions', 'levels', 'literals', 'nested', 'nested-refused', 'number-laws',
            'quotients', 'sharing']
FAMILIES = [('theorems', 300), ('refused', 300), ('unfolding', 300), ('many_axioms', 100), ('blocks', 100), ('nested', 10),
            ('doubled_fields', 60)]


def asked_again(units, types):
    """So many axioms, by turns of so many types: each type doubles sixty times, and has a sort of its own."""
    f = families.Lines()
    made = []
    for i in range(types):
        last = f.sort(f.level(f'#US {i}'))
        for _ in range(60):
            last = f.pi(last, last)
        made.append(last)
    for i in range(units):
        f.axiom(f'a{i}', made[i % types])
    return f.bytes()


def inputs():
    for name in EXAMPLES:
        yield name, example(name)
    for name, number in FAMILIES:
        yield f'{name} {number}', getattr(families, name)(number)
    for units, types in [(200, 4), (200, 100)]:
        yield f'asked_again {units} of {types}', asked_again(units, types)


def run(program, workers, data):
    ran = subprocess.run([program, 'check', '--workers', workers], input=data, stdout=subprocess.PIPE,
                         stderr=subprocess.DEVNULL, timeout=120)
    return ran.returncode, ran.stdout


def main():
    if len(sys.argv) not in (2, 3):
        sys.exit(__doc__)
    program, runs = sys.argv[1], int(sys.argv[2]) if len(sys.argv) == 3 else 100
    differ = files = 0
    for name, data in inputs():
        first = run(program, '1', data)
        others = sum(run(program, workers, data) != first for _ in range(runs) for workers in WORKERS)
        print(f'{name}: {len(data)} bytes, status {first[0]}, {others} of {runs * len(WORKERS)} differ', flush=True)
        differ, files = differ + others, files + 1
    print(f'{files} files, {differ} runs differ')
    sys.exit(1 if differ else 0)


if __name__ == '__main__':
    main()
