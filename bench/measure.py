#!/usr/bin/env python3
"""Runs programs on one file in turn and prints a table of their speed and memory.

usage: measure.py FILE RUNS -- NAME PROGRAM WORD.. [-- NAME PROGRAM WORD..]..

FILE is the standard input. Of RUNS runs the least processor time (user and system) counts, and the most memory that was
resident. All must write the same and end with status 0. The last line compares the last program with the first.
"""
import os
import sys
import tempfile


def run(command, path):
    """(processor time in seconds, peak memory in bytes, status, output)"""
    with open(path, 'rb') as file, tempfile.TemporaryFile() as out:
        child = os.posix_spawn(command[0], command, os.environ,
                               file_actions=[(os.POSIX_SPAWN_DUP2, file.fileno(), 0),
                                             (os.POSIX_SPAWN_DUP2, out.fileno(), 1)])
        _, status, used = os.wait4(child, 0)
        out.seek(0)
        return used.ru_utime + used.ru_stime, used.ru_maxrss * 1024, os.waitstatus_to_exitcode(status), out.read()


def main():
    parts = [[]]
    for word in sys.argv[1:]:
        if word == '--':
            parts.append([])
        else:
            parts[-1].append(word)
    if len(parts) < 2 or len(parts[0]) != 2 or any(len(part) < 2 for part in parts[1:]):
        sys.exit(__doc__)
    path, runs = parts[0][0], int(parts[0][1])
    programs = [(part[0], part[1:]) for part in parts[1:]]
    time, memory, first = {}, {}, None
    for _ in range(runs):
        for name, command in programs:
            took, held, status, text = run(command, path)
            if status != 0:
                sys.exit(f'{name}: status {status}: {text[:200]!r}')
            if first is None:
                first = text
            if text != first:
                sys.exit(f'{name} writes {text[:200]!r}, {programs[0][0]} {first[:200]!r}')
            time[name] = min(took, time.get(name, took))
            memory[name] = max(held, memory.get(name, held))
    size = os.path.getsize(path) / 1e6
    print(f'{size:.1f} MB, {runs} runs each, least processor time, most memory')
    print(f'{"program":16} {"s":>8} {"MB/s":>8} {"MB":>8}')
    for name, _ in programs:
        print(f'{name:16} {time[name]:8.2f} {size / time[name]:8.1f} {memory[name] / 1e6:8.0f}')
    (one, _), (other, _) = programs[0], programs[-1]
    print(f'{other} to {one}: speed {time[one] / time[other]:.2f}, memory {memory[other] / memory[one]:.2f}')


if __name__ == '__main__':
    main()
