#!/usr/bin/env python3
"""Writes a hierarchy of structures to standard output. The same number gives the same bytes.

usage: structures.py LEVELS     so many structures, each with the one below as its first field

Structure k is `structure Sk (α : Type u) where (below : S(k-1) α) (value : α)`; below the first one stands α itself.
With each come its recursor, its two projections, the way down through the eight structures below by projections of
projections, and theorems by reflexivity. Every chain of projections is so short, but for the last two units: there it
goes through all structures once.
"""
import sys

from terms import Block, Constructor, File, Local, Projection, Sort, apply, constant, equality, lambdas, pis

DEPTH = 8       # how far down the units of one structure go
FEW = 4         # how many structures are built anew in one theorem
CARRIER = Local('α', Sort(('#US', 'u')), '#BI')


def structure(k):
    """The type, at the carrier."""
    return apply(constant(f'S{k}', 'u'), CARRIER) if k >= 0 else CARRIER


def made(k, *fields):
    return apply(constant(f'S{k}.mk', 'u'), CARRIER, *fields)


def member(k, name, subject):
    """A definition of structure k, applied."""
    return apply(constant(f'S{k}.{name}', 'u'), CARRIER, subject)


def below(k, subject):
    return Projection((f'S{k}',), 0, subject)


def value(k, subject):
    return Projection((f'S{k}',), 1, subject)


def down(k, depth, subject):
    """The structure that stands so far below structure k."""
    for level in range(k, k - depth, -1):
        subject = below(level, subject)
    return subject


def up(k, depth, subject, top):
    """Structure k over one that stands so far below; all have this value."""
    for level in range(k - depth + 1, k + 1):
        subject = made(level, subject, top)
    return subject


def by_parts(k, depth, subject):
    """Structure k made of the values of the subject so far down, and of what stands below them."""
    if depth == 0:
        return subject
    return made(k, by_parts(k - 1, depth - 1, below(k, subject)), value(k, subject))


class Hierarchy:
    def __init__(self, file):
        self.file = file
        file.block(equality())

    def define(self, k, name, local, stated, body):
        """The definition of structure k that takes the local to this body."""
        binders = [CARRIER, local]
        self.file.definition((f'S{k}', name), pis(binders, stated), lambdas(binders, body), ('u',))

    def equal(self, k, name, locals_, type_, left, right):
        """The theorem that two are equal, by reflexivity of the second."""
        binders, level = [CARRIER, *locals_], ('#US', 'u')
        stated = apply(constant('Eq', level), type_, left, right)
        proof = apply(constant('Eq.refl', level), type_, right)
        self.file.theorem((f'S{k}', name), pis(binders, stated), lambdas(binders, proof), ('u',))

    def structure(self, k):
        fields = Local('below', structure(k - 1)), Local('value', CARRIER)
        block = Block(CARRIER.type, ('u',), [CARRIER])
        self.file.block(block.with_type(f'S{k}', [], Constructor('mk', *fields)))
        self.units(k)

    def units(self, k):
        depth, few = min(k + 1, DEPTH), min(k + 1, FEW)
        top, bottom, x = Local('s', structure(k)), Local('b', structure(k - depth)), Local('x', CARRIER)
        self.define(k, 'below', top, structure(k - 1), below(k, top))
        self.define(k, 'value', top, CARRIER, value(k, top))
        self.define(k, 'down', top, structure(k - depth), down(k, depth, top))
        self.define(k, 'last', top, CARRIER, value(k - depth + 1, down(k, depth - 1, top)))
        step_by_step = top
        for level in range(k, k - depth, -1):
            step_by_step = member(level, 'below', step_by_step)
        self.equal(k, 'unfolded', [top], structure(k - depth), step_by_step, down(k, depth, top))
        self.equal(k, 'computed', [bottom, x], bottom.type, member(k, 'down', up(k, depth, bottom, x)), bottom)
        self.equal(k, 'eta', [top], top.type, by_parts(k, few, top), top)
        fields = Local('below', structure(k - 1)), Local('value', CARRIER)
        recursor = apply(constant(f'S{k}.rec', ('#US', 'u'), 'u'), CARRIER, lambdas([top], CARRIER))
        by_recursor = apply(recursor, lambdas(fields, fields[1]), top)
        self.equal(k, 'recursor', [top], CARRIER, by_recursor, value(k, top))

    def whole(self, k):
        """From structure k down through all."""
        top, x = Local('s', structure(k)), Local('x', CARRIER)
        self.define(k, 'bottom', top, CARRIER, down(k, k + 1, top))
        self.equal(k, 'whole', [x], CARRIER, member(k, 'bottom', up(k, k + 1, x, x)), x)

def main():
    if len(sys.argv) != 2 or not sys.argv[1].isdecimal() or int(sys.argv[1]) == 0:
        sys.exit(__doc__)
    levels = int(sys.argv[1])
    sys.setrecursionlimit(10 * levels + 1000)
    file = File()
    hierarchy = Hierarchy(file)
    for k in range(levels):
        hierarchy.structure(k)
    hierarchy.whole(levels - 1)
    file.write(sys.stdout.buffer)


if __name__ == '__main__':
    main()
