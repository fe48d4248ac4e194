#!/usr/bin/env python3
"""Measures `session` beside `check` over the same declarations, and prints processor time, clock and their ratios.

usage: session.py PROGRAM [RUNS [TEXTS]]      5 runs of 2,000 texts if not given
       session.py --write FOLDER [TEXTS]      the two inputs alone, as FOLDER/export and FOLDER/texts

Each text is an export of its own, whose numberings begin anew: three blocks with their recursors (equality, natural
numbers, lists), addition, and six theorems of equality and of addition, one by the other. Texts name their declarations
apart and use nothing of each other, so all say yes in any order. `check` reads the same declarations, in the same order,
in one export with one numbering, where each different term has one line.

Each command has its least processor time (user and system) and its least clock of RUNS runs, taken in turn. Of each run it
is looked at whether all declarations say yes; and with one worker `session` must write what `check` does, but for its lines
of submissions. Needs GNU's `time`, as a program that this script started itself would be charged with the script's memory.
"""
import os
import subprocess
import sys
import tempfile
import time

from terms import TYPE, Block, Constant, Constructor, File, Local, Sort, apply, equality, lambdas, nat, pis

ONE = ('#US', 0)
DECLARATIONS = 10
MOST_PROCESSOR, MOST_CLOCK = 1.5, 0.45


class Text:
    """The declarations of the text of this number."""

    def __init__(self, file, number):
        self.file = file
        self.equal, self.natural, self.list = (f'{name}{number}' for name in ('Eq', 'Nat', 'List'))
        self.type = self.of_natural()

    # ---- What its terms are made of

    def of_natural(self, *name):
        return Constant((self.natural, *name), ())

    def of_equal(self, level, *name):
        return Constant((self.equal, *name), (level,))

    def is_equal(self, left, right):
        return apply(self.of_equal(ONE), self.type, left, right)

    def reflexive(self, value):
        return apply(self.of_equal(ONE, 'refl'), self.type, value)

    def along(self, level, carrier, left, motive, value, right, equation):
        """What the recursor of equality gives, to a proposition."""
        return apply(Constant((self.equal, 'rec'), (0, level)), carrier, left, motive, value, right, equation)

    def by_induction(self, level, motive, zero, successor, number):
        return apply(Constant((self.natural, 'rec'), (level,)), motive, zero, successor, number)

    def successor(self, number):
        return apply(self.of_natural('succ'), number)

    def sum(self, left, right):
        return apply(self.of_natural('plus'), left, right)

    def number(self, name):
        return Local(name, self.type)

    # ---- Its declarations

    def state(self):
        self.file.block(equality(self.equal))
        self.file.block(nat(self.natural))
        self.lists()
        self.symmetry()
        self.transitivity()
        self.congruence()
        self.addition()
        self.zero_on_the_left()
        self.successor_on_the_left()
        self.commutativity()

    def lists(self):
        element = Local('α', Sort(('#US', 'u')))
        block = Block(Sort(('#US', 'u')), ('u',), [element])
        more = Constructor('cons', Local('head', element), block.recursive('tail', self.list))
        self.file.block(block.with_type(self.list, [], Constructor('nil'), more))

    def general(self):
        """A type, and how its elements are equal."""
        carrier = Local('α', Sort('u'))
        return carrier, lambda left, right: apply(self.of_equal('u'), carrier, left, right)

    def symmetry(self):
        carrier, equal = self.general()
        left, right, other = (Local(name, carrier) for name in 'abc')
        given, again = Local('h', equal(left, right)), Local('h', equal(left, other))
        binders = [carrier, left, right, given]
        proof = self.along('u', carrier, left, lambdas([other, again], equal(other, left)),
                           apply(self.of_equal('u', 'refl'), carrier, left), right, given)
        self.file.theorem((self.equal, 'symm'), pis(binders, equal(right, left)), lambdas(binders, proof), ('u',))

    def transitivity(self):
        carrier, equal = self.general()
        left, middle, right, other = (Local(name, carrier) for name in 'abcd')
        first, second = Local('h', equal(left, middle)), Local('g', equal(middle, right))
        again = Local('g', equal(middle, other))
        binders = [carrier, left, middle, right, first, second]
        proof = self.along('u', carrier, middle, lambdas([other, again], equal(left, other)), first, right, second)
        self.file.theorem((self.equal, 'trans'), pis(binders, equal(left, right)), lambdas(binders, proof), ('u',))

    def congruence(self):
        function = Local('f', pis([self.number('n')], self.type))
        left, right, other = map(self.number, 'abc')
        given, again = Local('h', self.is_equal(left, right)), Local('h', self.is_equal(left, other))
        at = lambda value: apply(function, value)
        binders = [function, left, right, given]
        proof = self.along(ONE, self.type, left, lambdas([other, again], self.is_equal(at(left), at(other))),
                           self.reflexive(at(left)), right, given)
        self.file.theorem((self.equal, 'congr'), pis(binders, self.is_equal(at(left), at(right))), lambdas(binders, proof))

    def under_successor(self, left, right, equation):
        return apply(Constant((self.equal, 'congr'), ()), self.of_natural('succ'), left, right, equation)

    def turned(self, left, right, equation):
        return apply(self.of_equal(ONE, 'symm'), self.type, left, right, equation)

    def addition(self):
        left, right, before, result = (self.number(name) for name in ('n', 'm', 'k', 'r'))
        value = self.by_induction(ONE, lambdas([before], self.type), left,
                                  lambdas([before, result], self.successor(result)), right)
        self.file.definition((self.natural, 'plus'), pis([left, right], self.type), lambdas([left, right], value),
                             hint='R 1')

    def inductive_proof(self, name, parameters, claim, zero, successor):
        """A theorem by induction on its last number: `successor` proves a claim by the one before."""
        number, any_number, before = (self.number('m') for _ in range(3))
        known = Local('ih', claim(before))
        proof = self.by_induction(0, lambdas([any_number], claim(any_number)), zero,
                                  lambdas([before, known], successor(before, known)), number)
        binders = [*parameters, number]
        self.file.theorem((self.natural, name), pis(binders, claim(number)), lambdas(binders, proof))

    def zero_on_the_left(self):
        zero = self.of_natural('zero')
        self.inductive_proof('zero_plus', [], lambda m: self.is_equal(self.sum(zero, m), m), self.reflexive(zero),
                             lambda m, known: self.under_successor(self.sum(zero, m), m, known))

    def successor_on_the_left(self):
        n = self.number('n')
        sides = lambda m: (self.sum(self.successor(n), m), self.successor(self.sum(n, m)))
        self.inductive_proof('succ_plus', [n], lambda m: self.is_equal(*sides(m)), self.reflexive(self.successor(n)),
                             lambda m, known: self.under_successor(*sides(m), known))

    def commutativity(self):
        n, zero = self.number('n'), self.of_natural('zero')
        claim = lambda m: self.is_equal(self.sum(n, m), self.sum(m, n))
        at_zero = self.turned(self.sum(zero, n), n, apply(self.of_natural('zero_plus'), n))

        def at_successor(m, known):
            middle, last = self.successor(self.sum(m, n)), self.sum(self.successor(m), n)
            first = self.under_successor(self.sum(n, m), self.sum(m, n), known)
            second = self.turned(last, middle, apply(self.of_natural('succ_plus'), m, n))
            return apply(self.of_equal(ONE, 'trans'), self.type, self.sum(n, self.successor(m)), middle, last, first, second)

        self.inductive_proof('plus_comm', [n], claim, at_zero, at_successor)


def write_inputs(folder, texts):
    whole = File()
    with open(f'{folder}/texts', 'wb') as out:
        for number in range(texts):
            if number > 0:
                out.write(b'#GO\n')
            own = File()
            Text(own, number).state()
            own.write(out)
            Text(whole, number).state()
    with open(f'{folder}/export', 'wb') as out:
        whole.write(out)


def run(command, path, folder):
    """(processor time, clock, peak memory in bytes, status, output)"""
    told = f'{folder}/told'
    with open(path, 'rb') as file:
        begin = time.monotonic()
        ran = subprocess.run(['/usr/bin/time', '-q', '-f', '%U %S %M', '-o', told, *command], stdin=file,
                             stdout=subprocess.PIPE, stderr=subprocess.DEVNULL)
        clock = time.monotonic() - begin
    with open(told) as file:
        user, system, held = file.read().split()
    return float(user) + float(system), clock, int(held) * 1024, ran.returncode, ran.stdout


def without_submissions(text):
    return b''.join(line for line in text.splitlines(keepends=True) if not line.startswith(b'submission '))


def measure(program, folder, texts, runs):
    commands = [('check', ['check'], 'export'), ('session, 1 worker', ['session', '--workers', '1'], 'texts'),
                ('session, 4 workers', ['session', '--workers', '4'], 'texts')]
    units = texts * DECLARATIONS
    last = b'units %d yes %d no 0 memory 0\n' % (units, units)
    processor, clock, memory, plain = {}, {}, {}, None
    for _ in range(runs):
        for name, words, input_ in commands:
            took, passed, held, status, text = run([program, *words], f'{folder}/{input_}', folder)
            if status != 0 or not text.endswith(last):
                sys.exit(f'{name}: status {status}: {text[-200:]!r}, and not {last!r}')
            if name == 'check':
                plain = text
            elif name == 'session, 1 worker' and without_submissions(text) != plain:
                sys.exit(f'{name}: it does not write what `check` does')
            processor[name] = min(took, processor.get(name, took))
            clock[name] = min(passed, clock.get(name, passed))
            memory[name] = max(held, memory.get(name, held))
    return [(name, processor[name], clock[name], memory[name]) for name, _, _ in commands]


def main():
    words = sys.argv[1:]
    is_writing = words[:1] == ['--write']
    numbers = words[2 if is_writing else 1:]
    if len(words) < 1 + is_writing or len(numbers) > 2 - is_writing or not all(word.isdecimal() for word in numbers):
        sys.exit(__doc__)
    texts = int(numbers[1 - is_writing]) if len(numbers) > 1 - is_writing else 2000
    if is_writing:
        return write_inputs(words[1], texts)
    runs = int(numbers[0]) if numbers else 5
    with tempfile.TemporaryDirectory() as folder:
        write_inputs(folder, texts)
        size, whole = (os.path.getsize(f'{folder}/{name}') / 1e6 for name in ('texts', 'export'))
        print(f'{texts} texts of {DECLARATIONS} declarations, {size:.1f} MB; as one export {whole:.1f} MB; {runs} runs each')
        rows = measure(os.path.abspath(words[0]), folder, texts, runs)
    print(f'{"":20} {"processor":>10} {"clock":>8} {"MB":>6}')
    for name, processor, clock, memory in rows:
        print(f'{name:20} {processor:9.2f}s {clock:7.2f}s {memory / 1e6:6.0f}')
    check, one, four = rows
    print(f'processor time with one worker, times that of check: {one[1] / check[1]:.2f} (wanted: {MOST_PROCESSOR} at most)')
    print(f'clock with four workers, times that with one: {four[2] / one[2]:.2f} (wanted: {MOST_CLOCK} at most)')
    print(f'processor time with four workers, times that with one: {four[1] / one[1]:.2f}')


if __name__ == '__main__':
    main()
