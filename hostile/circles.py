#!/usr/bin/env python3
"""Files of definitions that ask each other in circles, by terms that do not grow: each has to end at once.

usage: circles.py PROGRAM [FILES [SEED]]
       circles.py --write SEED

Each of FILES files (300), by seeds from SEED (0) on, has from one to six definitions of propositions, each of which names
others of them: bare, under a lambda that is applied, in a let, as a field of a pair or its subject, and as the major premise
of a recursor; behind them stand axioms, theorems and definitions that compare them. A file that takes more than 0.1 s of
processor time is told, and then the status is 1. With --write the file of a seed is written to standard output.

Where terms grow no question is asked twice, and nothing ends but the budget: types that are such definitions let the level
of a sort grow, and an argument more each time a term. No file here has these.
"""
import os
import random
import resource
import subprocess
import sys

from lines import Lines

LIMIT = 0.1         # seconds of processor time


class Circle(Lines):
    """A file with a structure of two propositions, its recursor, and definitions that name one another."""

    def __init__(self, seed):
        super().__init__()
        self.chance = random.Random(seed)
        self.pair()
        self.base = self.axiom('p', self.prop)
        self.names = [self.name(f'd{number}') for number in range(self.chance.randint(1, 6))]
        self.members = [self.constant(name) for name in self.names]
        for name in self.names:
            self.state('#DEF', name, self.prop, self.term_of(3), self.chance.choice(['A', 'R 1', 'R 2', 'O']))
        for number in range(self.chance.randint(1, 4)):
            self.ask(number)

    def pair(self):
        """The structure, its constructor and its recursor."""
        self.structure = self.name('Pair')
        make, recursor = self.name('mk', self.structure), self.name('rec', self.structure)
        self.state('#IND', self.structure, self.type, 0, 0, 0, 0, 1, self.structure, 1, make)
        pair = self.constant(self.structure)
        self.state('#CTOR', make, self.pi(self.prop, self.pi(self.prop, pair)), self.structure, 0, 0, 2)
        self.make = self.constant(make)
        parameter = self.name('u')
        motive = self.pi(pair, self.sort(self.level(f'#UP {parameter}')))
        made = self.apply(self.make, self.variable(1), self.variable(0))
        minor = self.pi(self.prop, self.pi(self.prop, self.apply(self.variable(2), made)))
        whole = self.pi(pair, self.apply(self.variable(2), self.variable(0)))
        stated = self.pi(motive, self.pi(minor, whole))
        fields = self.apply(self.variable(2), self.variable(1), self.variable(0))
        value = self.lambda_(self.prop, self.lambda_(self.prop, fields))
        rule = self.rule(f'#RR {make} 2 {self.lambda_(motive, self.lambda_(minor, value))}')
        self.state('#REC', recursor, stated, 1, self.structure, 0, 0, 1, 1, 1, rule, 0, parameter)
        self.recursor = self.constant(recursor, [self.one])

    def leaf(self):
        return self.chance.choice(self.members if self.chance.random() < 0.85 else [self.base, self.prop])

    def field_of(self, subject):
        return self.term(f'#EJ {self.structure} {self.chance.randrange(2)} {subject}')

    def cases_on(self, major):
        motive = self.lambda_(self.constant(self.structure), self.type)
        minor = self.lambda_(self.prop, self.lambda_(self.prop, self.variable(self.chance.randrange(2))))
        return self.apply(self.recursor, motive, minor, major)

    def let_in(self, value, body):
        return self.term(f'#EZ 0 {self.prop} {value} {body}')

    def term_of(self, depth):
        """A term with so many forms around a definition, at most."""
        if depth == 0 or self.chance.random() < 0.2:
            return self.leaf()
        inner = self.term_of(depth - 1)
        forms = [
            lambda: self.apply(self.lambda_(self.prop, self.variable(0)), inner),
            lambda: self.apply(self.lambda_(self.prop, inner), self.leaf()),
            lambda: self.let_in(inner, self.variable(0)),
            lambda: self.let_in(self.leaf(), inner),
            lambda: self.apply(self.make, inner, self.leaf()),
            lambda: self.field_of(inner),
            lambda: self.field_of(self.apply(self.make, inner, self.leaf())),
            lambda: self.cases_on(inner),
            lambda: self.cases_on(self.apply(self.make, inner, self.leaf())),
            lambda: self.pi(inner, self.leaf()),
            lambda: self.pi(self.leaf(), inner),
            lambda: self.lambda_(self.leaf(), inner),
        ]
        return self.chance.choice(forms)()

    def ask(self, number):
        """A unit that compares them."""
        first = self.term_of(2)
        if self.chance.random() < 0.5:
            self.theorem(f't{number}', first, self.axiom(f'h{number}', self.term_of(2)))
        else:
            self.definition(f'e{number}', first, self.term_of(2))


def seconds(program, data):
    """The processor time that a check of the file takes, which is cut off at two seconds."""
    def bounded():
        resource.setrlimit(resource.RLIMIT_CPU, (2, 2))

    before = os.times()
    subprocess.run([program, 'check'], input=data, stdout=subprocess.DEVNULL, stderr=subprocess.DEVNULL,
                   preexec_fn=bounded)
    after = os.times()
    return after.children_user + after.children_system - before.children_user - before.children_system


def main():
    words = sys.argv[1:]
    if len(words) == 2 and words[0] == '--write':
        sys.stdout.buffer.write(Circle(int(words[1])).bytes())
        return 0
    if not words or len(words) > 3 or words[0].startswith('-'):
        sys.exit(__doc__)
    files = int(words[1]) if len(words) > 1 else 300
    first = int(words[2]) if len(words) > 2 else 0
    slow = 0
    for seed in range(first, first + files):
        taken = seconds(words[0], Circle(seed).bytes())
        if taken > LIMIT:
            slow += 1
            print(f'seed {seed}: {taken:.2f} s')
    print(f'{files} files, {slow} of them slow')
    return 1 if slow else 0


if __name__ == '__main__':
    sys.exit(main())
