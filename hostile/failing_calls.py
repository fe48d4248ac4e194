#!/usr/bin/env python3
"""Fails the program's reads and writes in turn, each by several errors, and looks at what it answers.

usage: failing_calls.py PROGRAM

A call that a signal interrupted (EINTR) is to be repeated: the answer is as ever. Where a read fails otherwise the status is
4 and nothing is written; where a write fails, 5 and a prefix of the text. Any other answer is told, and then the status is
1. Needs `strace`.
"""
import os
import subprocess
import sys
import tempfile

from inputs import INPUTS, doubling

# what is tried: a call, its error, and how many calls in a row it meets
FAILURES = [('read', 'EINTR', 1), ('read', 'EINTR', 3), ('read', 'EIO', 1), ('read', 'EISDIR', 1), ('write', 'EINTR', 1),
            ('write', 'EINTR', 3), ('write', 'EIO', 1), ('write', 'ENOSPC', 1), ('write', 'EPIPE', 1)]
CALLS = 4


def run(program, words, room, inject=()):
    """(status, text, how many calls failed)"""
    told = f'{room}/told'
    with open(f'{room}/in', 'rb') as source, open(f'{room}/out', 'wb') as sink:
        ran = subprocess.run(['strace', '-qq', '-o', told, '-P', f'{room}/in', '-P', f'{room}/out', *inject, program, *words],
                             stdin=source, stdout=sink, stderr=subprocess.DEVNULL, timeout=120)
    with open(f'{room}/out', 'rb') as sink, open(told) as calls:
        return ran.returncode, sink.read(), calls.read().count('(INJECTED)')


def fault(call, error, good, status, text, failed):
    """Why this is no answer, or None."""
    if not failed or error == 'EINTR':
        return None if (status, text) == good else f'status {status}'
    if call == 'read':
        return None if status == 4 and not text else f'status {status}, {len(text)} bytes'
    return None if status == 5 and good[1].startswith(text) and text != good[1] else f'status {status}, {len(text)} bytes'


def main():
    if len(sys.argv) != 2:
        sys.exit(__doc__)
    program, wrong = os.path.abspath(sys.argv[1]), 0
    inputs = [*INPUTS, ('60,000 Pis', ['check'], doubling(60000)), ('a faulty line', ['check'], b'0 #ES 7\n'),
              ('20,000 units', ['make', '--units', '20000', '--seed', '7'], b'')]
    with tempfile.TemporaryDirectory() as room:
        for name, words, data in inputs:
            with open(f'{room}/in', 'wb') as file:
                file.write(data)
            *good, _ = run(program, words, room)
            runs = failures = 0
            for call, error, count in FAILURES:
                for number in range(1, CALLS + 1):
                    when = f'{number}..{number + count - 1}'
                    status, text, failed = run(program, words, room, ['-e', f'inject={call}:error={error}:when={when}'])
                    runs, failures = runs + 1, failures + failed
                    why = fault(call, error, tuple(good), status, text, failed)
                    if why:
                        wrong += 1
                        print(f'{name}, {call} {when} {error}: {why}')
            print(f'{name}: {runs} runs, {failures} calls failed', flush=True)
    sys.exit(1 if wrong else 0)


main()
