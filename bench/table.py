#!/usr/bin/env python3
"""Measures the program beside another checker over all kinds of work, in one run, and prints a table.

usage: table.py OTHER [RUNS [PROGRAM]]

OTHER is the program of another checker that reads and writes the same, RUNS 3 (of which the least processor time counts,
and the most memory), PROGRAM that of this clone. The two run in turn on each file, and must write the same. Needs GNU's
`time`, as a program that this script started itself would be charged with the script's memory.
"""
import os
import subprocess
import sys
import tempfile

HERE = os.path.dirname(os.path.abspath(__file__))

# What is measured: its name, the generator with its words, and whether its file is cut off by a faulty line at its end, so
# that it is read and not checked.
WORK = [
    ('300,000 small theorems', ['make.py', 'small', '300000'], False),
    ('10,000 blocks with their recursors', ['blocks.py', '10000'], False),
    ('an enumeration of 400 constructors', ['enumeration.py', '400'], False),
    ('2,000 structures, 18,003 units', ['structures.py', '2000'], False),
    ('reading these 10,000 blocks alone', ['blocks.py', '10000'], True),
    ('reading 100 MB of names, levels and terms', ['make.py', 'lines', '100000000'], True),
    ('2,000 definitions that unfold', ['unfolding.py', '2000'], False),
    ('10,000 units on literals', ['literals.py', '10000'], False),
    ('levels of width 20', ['levels.py', '1'], False),
    ('a type of 100,000 Pis', ['make.py', 'chain', '100000'], False),
]
FAULTY = b'#CTOR 1 0 0 0 0 0\n'


def run(program, path, room):
    """(processor time in seconds, peak memory in bytes, status, text)"""
    told = f'{room}/told'
    with open(path, 'rb') as file:
        ran = subprocess.run(['/usr/bin/time', '-q', '-f', '%U %S %M', '-o', told, program, 'check'], stdin=file,
                             stdout=subprocess.PIPE, stderr=subprocess.DEVNULL)
    with open(told) as file:
        user, system, held = file.read().split()
    return float(user) + float(system), int(held) * 1024, ran.returncode, ran.stdout


def measured(programs, path, room, runs):
    """Of each program the least time and the most memory. All answer alike."""
    times, memory, first = {}, {}, None
    for _ in range(runs):
        for program in programs:
            took, held, *answer = run(program, path, room)
            first = first or answer
            if answer != first:
                sys.exit(f'{program} ends with {answer[0]} and writes {answer[1][:200]!r}, the other one {first!r:.200}')
            times[program] = min(took, times.get(program, took))
            memory[program] = max(held, memory.get(program, held))
    return times, memory


def main():
    if not 2 <= len(sys.argv) <= 4:
        sys.exit(__doc__)
    other, runs = os.path.abspath(sys.argv[1]), int(sys.argv[2]) if len(sys.argv) > 2 else 3
    program = os.path.abspath(sys.argv[3] if len(sys.argv) > 3 else f'{HERE}/../crates/leancheck/out/leancheck')
    if len(sys.argv) <= 3:
        subprocess.run([f'{HERE}/../leancheck', 'check'], stdin=subprocess.DEVNULL, stdout=subprocess.DEVNULL, check=True)
    print('| work | MB | leancheck | other | times | memory |\n|---|---|---|---|---|---|')
    with tempfile.TemporaryDirectory() as room:
        path = f'{room}/export'
        for name, (generator, *words), is_cut in WORK:
            with open(path, 'wb') as file:
                subprocess.run([sys.executable, f'{HERE}/{generator}', *words], stdout=file, check=True)
                if is_cut:
                    file.write(FAULTY)
            times, memory = measured([other, program], path, room, runs)
            size = os.path.getsize(path) / 1e6
            text = lambda which: f'{times[which]:.2f} s, {memory[which] / 1e6:.0f} MB'
            print(f'| {name} | {size:.1f} | {text(program)} | {text(other)} | '
                  f'{times[program] / max(times[other], 0.005):.1f} | {memory[program] / memory[other]:.1f} |', flush=True)


if __name__ == '__main__':
    main()
