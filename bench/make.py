#!/usr/bin/env python3
"""Writes the files of the benchmarks to standard output. The same words give the same bytes.

usage: make.py lines BYTES [SEED]       names, levels and expressions alone, at least so many bytes
       make.py theorems UNITS [SEED]    so many theorems, each of a name and three lines, all yes
       make.py small UNITS              the same, each of them `P → P` for the same P
       make.py chain PIS                one axiom, whose type is so many Pis, each over the next

Of `lines`: the tags are #NS #NI #US #ES #EV #EL #EP. Numbers rise with gaps, and some that were left out come later.
Lines come in groups as of one declaration: names, now and then a level, some sorts and variables, then binders over
what is there. Seven of eight expressions are new ones. No tree is deeper than 100.
"""
import random
import sys

BINDER_NAMES = ['x', 'y', 'h', 'a', 'b', 'inst✝', 'a✝', 'α', 'β', 'self', 'motive', 't', 'f', 'g', 'n', 'm', 'p', 'q',
                'ih', 'x✝', 'this', 'i', 'j', 'hab', 'R', 'S', 'M', 'N', 'C', 'D', 'F', 'inst', 'a_ih', 'μ', 'ε', 'ι']
WORDS = ['Nat', 'List', 'Finset', 'Set', 'CategoryTheory', 'Functor', 'map', 'comp', 'rec', 'casesOn', 'mk', 'toFun',
         'injective', 'add', 'mul', 'comm', 'assoc', 'zero', 'succ', 'le', 'lt', 'trans', 'of', 'iff', 'Order', 'Ring',
         'ext', 'congr', 'simp', 'proof', 'match', 'eq', 'sum', 'prod', 'filter', 'Topology', 'nhds', 'continuous',
         'MeasureTheory', 'ae', 'σ-finite', 'ℝ', 'ℕ', '«term_+_»', 'smul', 'inv', 'apply', 'coe', 'lift', 'Hom']
INFOS = ['#BD'] * 15 + ['#BI'] * 3 + ['#BC'] + ['#BS']
DEEPEST = 100
CHUNK = 1 << 16


class Lines:
    """Lines gathered and written in pieces."""

    def __init__(self):
        self.out = sys.stdout.buffer
        self.lines = []
        self.bytes = 0
        self.size = 0

    def put(self, line):
        self.lines.append(line)
        self.size += len(line) + 1
        if self.size >= CHUNK:
            self.flush()

    def written(self):
        return self.bytes + self.size

    def flush(self):
        text = ''.join(line + '\n' for line in self.lines).encode()
        self.out.write(text)
        self.bytes += len(text)
        self.lines, self.size = [], 0


class Numbers:
    """The numbers of one numbering: mostly rising, with gaps, some of which are filled later."""

    def __init__(self, chance, first):
        self.chance = chance
        self.next = first
        self.left_out = []

    def new(self):
        roll = self.chance()
        if roll < 0.02 and self.left_out:
            return self.left_out.pop(int(self.chance() * len(self.left_out)))
        number = self.next
        step = 1
        if roll > 0.999:
            step = 1000 + int(self.chance() * 4000)
        elif roll > 0.92:
            step = 2 + int(self.chance() * 8)
        self.next += step
        if step > 1 and len(self.left_out) < 256:
            self.left_out.extend(range(number + 1, number + min(step, 10)))
        return number


def pick(chance, of):
    return of[int(chance() * len(of))]


def near_end(chance, of, width):
    """One of the last `width`."""
    return of[-1 - int(chance() * min(width, len(of)))]


def lines(size, seed):
    chance = random.Random(seed).random
    out = Lines()
    out.put('2.0.0')
    name_numbers, level_numbers, tree_numbers = (Numbers(chance, first) for first in (1, 1, 0))
    names, levels = [], [(0, 0)]
    trees = []                  # (number, depth)
    binders = []                # the last ones: tag, domain, body
    for text in BINDER_NAMES:
        names.append(name_numbers.new())
        out.put(f'{names[-1]} #NS 0 {text}')

    def leaf(line):
        trees.append((tree_numbers.new(), 0))
        out.put(f'{trees[-1][0]} {line}')
        return trees[-1]

    def binder(tag, domain, body):
        number = tree_numbers.new()
        name = pick(chance, names[:len(BINDER_NAMES)]) if chance() < 0.8 else near_end(chance, names, 2000)
        tree = (number, 1 + max(domain[1], body[1]))
        out.put(f'{number} {tag} {pick(chance, INFOS)} {name} {domain[0]} {body[0]}')
        trees.append(tree)
        return tree

    while out.written() < size:
        for _ in range(1 + int(chance() * 3)):
            parent = near_end(chance, names, 500) if chance() < 0.9 else 0
            number = name_numbers.new()
            if chance() < 0.15:
                out.put(f'{number} #NI {parent} {int(chance() * 100)}')
            else:
                word = pick(chance, WORDS)
                if chance() < 0.5:
                    word += f'_{int(chance() * 2000)}'
                out.put(f'{number} #NS {parent} {word}')
            names.append(number)
        if chance() < 0.1:
            below = pick(chance, levels)
            if below[1] < 30:
                levels.append((level_numbers.new(), below[1] + 1))
                out.put(f'{levels[-1][0]} #US {below[0]}')
        group = [leaf(f'#EV {int(chance() ** 2 * 200)}')]
        if chance() < 0.3:
            group.append(leaf(f'#ES {pick(chance, levels)[0]}'))
        for _ in range(15 + int(chance() * 45)):
            roll = chance()
            if roll < 0.5:
                domain = pick(chance, group)
            elif roll < 0.85:
                domain = near_end(chance, trees, 20000)
            else:
                domain = pick(chance, trees)
            body = group[-1] if chance() < 0.7 else pick(chance, group)
            if domain[1] >= DEEPEST:
                domain = group[0]
            if body[1] >= DEEPEST:
                body = group[0]
            tag = '#EL' if chance() < 0.45 else '#EP'
            if binders and chance() < 0.02:
                tag, domain, body = pick(chance, binders)
            elif len(binders) < 1000:
                binders.append((tag, domain, body))
            else:
                binders[int(chance() * 1000)] = (tag, domain, body)
            group.append(binder(tag, domain, body))
    out.flush()


def theorems(units, seed):
    """Each states `A → A` or `A → B` for statements A and B of earlier ones; the first is `(p : Prop) → p → p`."""
    chance = random.Random(seed).random
    out = Lines()
    for line in ('2.0.0', '1 #NS 0 p', '2 #NS 0 h', '3 #NS 0 Thm', '0 #ES 0', '1 #EV 0', '2 #EV 1', '3 #EP #BD 2 1 2',
                 '4 #EP #BD 1 0 3', '5 #EL #BD 2 1 1', '6 #EL #BD 1 0 5'):
        out.put(line)
    small = [(4, 6, 1)]         # statement, proof, size
    for unit in range(units):
        name = unit + 4
        stated, proof = 7 + 2 * unit, 8 + 2 * unit
        domain, body = pick(chance, small), pick(chance, small)
        out.put(f'{name} #NS 3 t{unit}')
        if chance() < 0.3:
            body = domain
            under = 1
        else:
            under = body[1]
        out.put(f'{stated} #EP #BD 2 {domain[0]} {body[0]}')
        out.put(f'{proof} #EL #BD 2 {domain[0]} {under}')
        out.put(f'#THM {name} {stated} {proof}')
        size = domain[2] + body[2]
        if size <= 8 and len(small) < 20000:
            small.append((stated, proof, size))
    out.flush()


def small(units, _seed):
    """Each states `P → P`, where P is `(p : Prop) → p → p`."""
    out = Lines()
    for line in ('2.0.0', '1 #NS 0 p', '2 #NS 0 h', '3 #NS 0 Thm', '0 #ES 0', '1 #EV 0', '2 #EV 1', '3 #EP #BD 2 1 2',
                 '4 #EP #BD 1 0 3'):
        out.put(line)
    for unit in range(units):
        name, stated, proof = unit + 4, 5 + 2 * unit, 6 + 2 * unit
        out.put(f'{name} #NS 3 t{unit}')
        out.put(f'{stated} #EP #BD 2 4 4')
        out.put(f'{proof} #EL #BD 2 4 1')
        out.put(f'#THM {name} {stated} {proof}')
    out.flush()


def chain(pis, _seed):
    """Its questions are 6 for each Pi and 3 more; of the 6 three are asked for the first time."""
    out = Lines()
    for line in ('2.0.0', '1 #NS 0 chain', '0 #ES 0'):
        out.put(line)
    for k in range(1, pis + 1):
        out.put(f'{k} #EP #BD 0 0 {k - 1}')
    out.put(f'#AX 1 {pis}')
    out.flush()


def main():
    words = sys.argv[1:]
    makers = {'lines': lines, 'theorems': theorems, 'small': small, 'chain': chain}
    known = bool(words) and words[0] in makers
    if not known or len(words) not in (2, 3) or not all(word.isdecimal() for word in words[1:]):
        sys.exit(__doc__)
    seed = int(words[2]) if len(words) == 3 else 1
    makers[words[0]](int(words[1]), seed)


if __name__ == '__main__':
    main()
