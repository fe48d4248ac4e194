#!/usr/bin/env python3
"""Writes an export in whose memo a cheap answer takes the slot of a dear one, again and again.

usage: colliding_slots.py [LEVELS]

The type of the one axiom is a Pi whose parts are shared, so that its sort is found in as many steps as it has parts, if
answers are kept: with LEVELS (20) of them some hundred. On each level the numbers of its parts are chosen so that the
answers of two small questions, asked just before, take the slots of the two dear answers that are asked for next. A memo
that had these in their slots alone would work each of them out twice, and so 2^LEVELS times in all.
"""
import sys

WORD = (1 << 64) - 1
FACTOR = 0x9E3779B97F4A7C15
SLOTS = 8192
# So many small types, each of another universe, are written first.
SMALL = 25000


def mix(hash_, number):
    product = (hash_ ^ number) * FACTOR
    return (product & WORD) ^ (product >> 64)


def slot(e):
    """The slot of the question for the type of expression e."""
    return mix(mix(2, e), e) % SLOTS


class Export:
    def __init__(self):
        self.lines = ['1 #NS 0 d'] + [f'{i} #US {i - 1}' for i in range(1, SMALL + 2)]
        self.levels, self.made = SMALL + 2, []
        self.terms, self.variables = 0, 0
        self.small = {}

    def level(self, a, b):
        self.lines.append(f'{self.levels} #UIM {a} {b}')
        self.made.append(self.levels)
        self.levels += 1
        return self.levels - 1

    def term(self, text):
        self.lines.append(f'{self.terms} {text}')
        self.terms += 1
        return self.terms - 1

    def pi(self, a, b):
        return self.term(f'#EP #BD 0 {a} {b}')

    def skip(self, is_wanted):
        """Writes variables until the number of the next expression is wanted."""
        while not is_wanted(self.terms):
            self.term(f'#EV {self.variables}')
            self.variables += 1

    def has_small(self, wanted):
        return bool(self.small.get(wanted))

    def take_small(self, wanted):
        """A small type whose question has that slot, and its universe."""
        return self.small[wanted].pop()


def write(levels):
    export = Export()
    for i in range(SMALL):
        export.term(f'#ES {i}')
    for i in range(SMALL):
        e = export.pi(i, i)
        export.small.setdefault(slot(e), []).append((e, i))
    export.skip(lambda e: export.has_small(slot(e)))
    whole, whole_level = export.pi(0, 1), export.level(1, 2)
    first, second = None, None
    for _ in range(levels):
        before = export.take_small(slot(whole))
        other = export.take_small(slot(second) if second is not None else max(export.small, key=lambda s: len(export.small[s])))
        export.skip(lambda e: first is None or slot(e) == slot(first))
        levels_of = [export.level(i + 1, i + 1) for _, i in (before, other)]
        guard, guard_level = export.pi(before[0], other[0]), export.level(*levels_of)
        export.skip(lambda e: export.has_small(slot(e)))
        second, second_level = export.pi(whole, guard), export.level(whole_level, guard_level)
        first, first_level = export.pi(guard, second), export.level(guard_level, second_level)
        export.skip(lambda e: export.has_small(slot(e)) and slot(e) not in (slot(first), slot(second)))
        whole, whole_level = export.pi(whole, first), export.level(whole_level, first_level)
    for level in export.made:
        export.term(f'#ES {level}')
    export.lines.append(f'#AX 1 {whole}')
    print('\n'.join(export.lines))


if __name__ == '__main__':
    if len(sys.argv) > 2:
        sys.exit(__doc__)
    write(int(sys.argv[1]) if len(sys.argv) > 1 else 20)
