#!/usr/bin/env python3
"""Writes a file of inductive blocks whose fields share their parts to standard output. The same numbers give the same bytes.

usage: shared.py PAIRS LEVELS     so many pairs of blocks, whose fields double so many times

The type that a field doubles from A is A_0 = A and A_(k+1) = A_k -> A_k: one line a level, and 2^k times A. The first
block of a pair has the field (N_k -> T) over an axiom N; the second one (K T_k), where K is unfolded to N, so that its
own type is looked at in each part. Each block has its recursor, and says yes.
"""
import sys
from collections import namedtuple

from terms import TREE, TYPE, Block, Constructor, File, Local, apply, constant, lambdas, pis

Stated = namedtuple('Stated', 'number')     # a term without variables that is stated already


class Shared(File):
    def tree(self, term, scope=()):
        return term.number if isinstance(term, Stated) else super().tree(term, scope)

    def doubled(self, term, levels):
        number = self.tree(term)
        for _ in range(levels):
            number = self.line(TREE, '#EP', number, number, binder=('#BD', 0))
        return Stated(number)

    def under_arrow(self, name, levels):
        """The block with the field (N_k -> T)."""
        block = Block(TYPE)
        below = Local('a', self.doubled(constant('N'), levels))
        self.block(block.with_type(name, [], Constructor('mk', block.recursive('f', name, under=[below]))))

    def unfolded(self, name, levels):
        """The block with the field (K T_k)."""
        field = Local('f', apply(constant('K'), self.doubled(constant(name), levels)))
        self.block(Block(TYPE).with_type(name, [], Constructor('mk', field)))


def main():
    if len(sys.argv) != 3 or not all(word.isdecimal() for word in sys.argv[1:]):
        sys.exit(__doc__)
    pairs, levels = map(int, sys.argv[1:])
    file = Shared()
    file.axiom(('N',), TYPE)
    file.definition(('K',), pis([Local('A', TYPE)], TYPE), lambdas([Local('A', TYPE)], constant('N')), hint='R 1')
    for number in range(pairs):
        file.under_arrow(f'Below{number}', levels)
        file.unfolded(f'Own{number}', levels)
    file.write(sys.stdout.buffer)


if __name__ == '__main__':
    main()
