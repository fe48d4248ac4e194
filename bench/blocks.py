#!/usr/bin/env python3
"""Writes a file of inductive blocks to standard output. The same number gives the same bytes.

usage: blocks.py BLOCKS     so many blocks under fresh names, of seven shapes in turn

The shapes are those of Nat, List, Prod, Eq, Or, Acc and of two types that hold each other. Each block has all its
recursors with their rules, as Lean's kernel makes them. What mentions no name of a block stands once in the file.
"""
import sys

from terms import LEVEL, NAME, PROP, TYPE, Block, Constructor, Local, Sort, Statements, apply, equality, nat, pis

# ---- Shapes. In a name '%d' is the block's number.


def lists():
    element = Local('α', Sort(('#US', 'u')))
    block = Block(element.type, ('u',), [element])
    cons = Constructor('cons', Local('head', element), block.recursive('tail', 'List%d'))
    return block.with_type('List%d', [], Constructor('nil'), cons)


def pairs():
    first, second = Local('α', Sort(('#US', 'u'))), Local('β', Sort(('#US', 'v')))
    block = Block(Sort(('#US', ('#UM', 'u', 'v'))), ('u', 'v'), [first, second])
    return block.with_type('Prod%d', [], Constructor('mk', Local('fst', first), Local('snd', second)))


def either():
    first, second = Local('a', PROP), Local('b', PROP)
    block = Block(PROP, (), [first, second], large=False)
    return block.with_type('Or%d', [], Constructor('inl', Local('h', first)), Constructor('inr', Local('h', second)))


def accessible():
    carrier = Local('α', Sort('u'), '#BI')
    relation = Local('r', pis([Local('a', carrier), Local('a', carrier)], PROP))
    block = Block(PROP, ('u',), [carrier, relation])
    x, y = Local('x', carrier), Local('y', carrier)
    below = block.recursive('h', 'Acc%d', y, under=[y, Local('a', apply(relation, y, x))])
    return block.with_type('Acc%d', [Local('a', carrier)], Constructor('intro', x, below, indices=[x]))


def trees():
    block = Block(TYPE)
    block.with_type('Tree%d', [], Constructor('node', block.recursive('children', 'Forest%d')))
    cons = Constructor('cons', block.recursive('head', 'Tree%d'), block.recursive('tail', 'Forest%d'))
    return block.with_type('Forest%d', [], Constructor('nil'), cons)


SHAPES = [nat('Nat%d'), lists(), pairs(), equality('Eq%d'), either(), accessible(), trees()]

# ---- Lines

class Line:
    """A line of the file, and the lines whose numbers stand in it. An own line is written in each block anew."""
    __slots__ = 'numbering', 'text', 'parts', 'own', 'number'

    def __init__(self, numbering, text, parts, own, number=None):
        self.numbering, self.text, self.parts, self.own, self.number = numbering, text, parts, own, number


THIS_BLOCK = Line(None, '', (), True)   # its number is that of the block that is written
ANONYMOUS, ZERO = Line(NAME, '', (), False, 0), Line(LEVEL, '', (), False, 0)


class Plan(Statements):
    """The lines of a block in the order in which they are written."""
    anonymous, zero = ANONYMOUS, ZERO
    known = {}                          # of all plans: what two shapes have in common is one line

    def __init__(self, block):
        self.lines = {}
        self.block(block)

    def line(self, numbering, tag, *fields, binder=()):
        line = self.known.get((numbering, tag, *fields))
        if line is None:
            parts, words = [], []
            for field in (tag, *binder, *fields):
                words.append('%d' if isinstance(field, Line) else str(field))
                if '%d' in words[-1]:
                    parts.append(field if isinstance(field, Line) else THIS_BLOCK)
            line = Line(numbering, ' '.join(words), parts, any(part.own for part in parts))
            self.known[numbering, tag, *fields] = line
        self.lines[line] = None
        return line


def main():
    if len(sys.argv) != 2 or not sys.argv[1].isdecimal():
        sys.exit(__doc__)
    out = sys.stdout.buffer
    out.write(b'2.0.0\n')
    plans = [list(Plan(shape).lines) for shape in SHAPES]
    next_numbers = [1, 1, 0, 0]
    for THIS_BLOCK.number in range(int(sys.argv[1])):
        texts = []
        for line in plans[THIS_BLOCK.number % len(plans)]:
            if line.own or line.number is None:
                text = line.text % tuple([part.number for part in line.parts])
                if line.numbering is not None:
                    line.number = next_numbers[line.numbering]
                    next_numbers[line.numbering] += 1
                    text = f'{line.number} {text}'
                texts.append(text + '\n')
        out.write(''.join(texts).encode())


if __name__ == '__main__':
    main()
