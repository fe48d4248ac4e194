#!/usr/bin/env python3
"""Writes an enumeration with its recursor to standard output. The same number gives the same bytes.

usage: enumeration.py CONSTRUCTORS     one type with so many constructors without fields, and a rule for each
"""
import sys

from terms import TYPE, Block, Constructor, File


def main():
    if len(sys.argv) != 2:
        sys.exit(__doc__)
    sys.setrecursionlimit(100000)
    file = File()
    block = Block(TYPE)
    file.block(block.with_type('E', [], *[Constructor(f'c{number}') for number in range(int(sys.argv[1]))]))
    file.write(sys.stdout.buffer)


if __name__ == '__main__':
    main()
