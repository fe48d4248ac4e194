#!/usr/bin/env python3
"""Writes definitions whose checks compare levels to standard output. The same numbers give the same bytes.

usage: levels.py COUNT [WIDTH]     so many definitions, with so many parameters inside right sides of `imax` (20)

Definition k has the levels of a nest of `imax` over all its parameters, on one side as it is and on the other side with
its parameters under one more greatest, from the k-th one on: two levels that are equal and are made in different ways.
"""
import sys

from terms import File, Sort


def nest(words):
    """`imax w1 (imax w2 (.. wn))`"""
    level = words[-1]
    for word in reversed(words[:-1]):
        level = '#UIM', word, level
    return level


def main():
    if len(sys.argv) not in (2, 3):
        sys.exit(__doc__)
    count, width = int(sys.argv[1]), int(sys.argv[2]) if len(sys.argv) == 3 else 20
    file = File()
    words = [f'u{number}' for number in range(width)]
    for number in range(count):
        turned = words[number % width:] + words[:number % width]
        plain = nest(turned)
        # what was the first word stands once more beside the whole
        beside = '#UM', plain, nest([turned[-1], turned[-1]])
        file.definition((f'd{number}',), Sort(('#US', beside)), Sort(plain), words)
    file.write(sys.stdout.buffer)


if __name__ == '__main__':
    main()
