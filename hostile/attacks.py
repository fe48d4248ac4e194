#!/usr/bin/env python3
"""Tries the program's time and memory: each family of files (`families.py`) at a number and at four times that number.

usage: attacks.py PROGRAM [OTHER] [--only WORD] [--seconds S]

A row has the sizes of the larger file and of what is written of it, the program's processor time at both numbers, how many
times the smaller one's time the larger one's is (4 is linear in n, 16 quadratic), how many times the bytes read and written
are, and memory, status and OTHER's time and memory at the larger number. A run that takes longer than S seconds (20; of
OTHER three times as long) is ended, and its time stands as '> S'. The status is 1 where the two write different texts.
"""
import argparse
import filecmp
import os
import signal
import subprocess
import sys
import tempfile
import time

from families import FAMILIES

HERE = os.path.dirname(os.path.abspath(__file__))


def run(program, path, text, seconds):
    """(processor time in seconds or None where it was ended, memory in bytes, status). The text goes to that path."""
    with open(path, 'rb') as file, open(text, 'wb') as out:
        child = subprocess.Popen([program, 'check'], stdin=file, stdout=out, stderr=subprocess.DEVNULL)
    end = time.monotonic() + seconds
    while True:
        pid, status, used = os.wait4(child.pid, os.WNOHANG)
        if pid:
            child.returncode = os.waitstatus_to_exitcode(status)
            return used.ru_utime + used.ru_stime, used.ru_maxrss * 1024, child.returncode
        if time.monotonic() > end:
            child.send_signal(signal.SIGKILL)
            _, _, used = os.wait4(child.pid, 0)
            child.returncode = -9
            return None, used.ru_maxrss * 1024, None
        time.sleep(0.002)


def told(took, seconds):
    return f'> {seconds}' if took is None else f'{took:.2f}'


def is_same(one, other):
    return filecmp.cmp(one, other, shallow=False)


def ratio(small, large):
    """How often the smaller time the larger one is, where both are long enough to say so."""
    return '' if small is None or large is None or large < 0.1 else f'{large / max(small, 0.005):.1f}'


def main():
    parser = argparse.ArgumentParser(description=__doc__, formatter_class=argparse.RawDescriptionHelpFormatter)
    parser.add_argument('program')
    parser.add_argument('other', nargs='?')
    parser.add_argument('--only', default='')
    parser.add_argument('--seconds', type=int, default=20)
    given = parser.parse_args()
    seconds, differ = given.seconds, 0
    head = ['family', 'n', 'MB', 'text MB', 's at n / 4', 's at n', 'times', 'bytes times', 'memory MB', 'status',
            'other s', 'other MB']
    print('| ' + ' | '.join(head) + ' |\n|' + '---|' * len(head))
    with tempfile.TemporaryDirectory() as room:
        path, text, other_text = (f'{room}/{name}' for name in ('export', 'text', 'other'))
        for family, largest in FAMILIES:
            if given.only not in family.__name__:
                continue
            times, sizes = [], []
            for number in (largest // 4, largest):
                # Made by another process: what this one starts is charged with the memory that it holds itself.
                with open(path, 'wb') as file:
                    subprocess.run([sys.executable, f'{HERE}/families.py', family.__name__, str(number)], stdout=file,
                                   check=True)
                took, memory, status = run(os.path.abspath(given.program), path, text, seconds)
                times.append(took)
                sizes.append(os.path.getsize(path) + os.path.getsize(text))
            row = [family.__name__, largest, f'{os.path.getsize(path) / 1e6:.1f}', f'{os.path.getsize(text) / 1e6:.1f}',
                   told(times[0], seconds), told(times[1], seconds), ratio(*times), f'{sizes[1] / sizes[0]:.1f}',
                   f'{memory / 1e6:.0f}', status]
            if given.other:
                other, held, other_status = run(os.path.abspath(given.other), path, other_text, 3 * seconds)
                row += [told(other, 3 * seconds), f'{held / 1e6:.0f}']
                if None not in (took, other) and not (status == other_status and is_same(text, other_text)):
                    differ += 1
                    row.append(f'differs: other status {other_status}')
            print('| ' + ' | '.join('' if each is None else str(each) for each in row) + ' |', flush=True)
    sys.exit(1 if differ else 0)


main()
