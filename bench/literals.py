#!/usr/bin/env python3
"""Writes a file of arithmetic on number literals to standard output. The same number gives the same bytes.

usage: literals.py COUNT     so many units, of six shapes in turn, each of which rests on a computed result

First come Nat and Bool with their recursors, addition, multiplication and the test of equality by recursion, and that
equality is decided, proved by induction. The literals have about 100 bits; no result reaches 2^128.
"""
import random
import sys

from terms import (PROP, TYPE, Block, Constructor, File, Local, Number, Sort, apply, constant, equality, lambdas, nat,
                   pis)

NAT, BOOL, FALSE, TRUE = constant('Nat'), constant('Bool'), constant('Bool.false'), constant('Bool.true')
ZERO = constant('Nat.zero')
ONE = '#US', 0


def call(name, *arguments):
    return apply(constant(name), *arguments)


def succ(n):
    return call('Nat.succ', n)


def is_equal(n, m):
    return call('Nat.beq', n, m)


def equal(type_, left, right):
    return apply(constant('Eq', ONE), type_, left, right)


def refl(type_, term):
    return apply(constant('Eq.refl', ONE), type_, term)


def arrow(*types):
    return pis([Local('a', type_) for type_ in types[:-1]], types[-1])


def variables(names, type_):
    return [Local(name, type_) for name in names.split()]


def by_nat(level, motive, zero, step, n):
    """The recursor of Nat, whose motive takes a Local to a term."""
    t = Local('t', NAT)
    return apply(constant('Nat.rec', level), lambdas([t], motive(t)), zero, step, n)


def by_bool(level, motive, false, true, b):
    t = Local('t', BOOL)
    return apply(constant('Bool.rec', level), lambdas([t], motive(t)), false, true, b)


def carry(type_, left, motive, proof, right, equation):
    """From a proof of the motive at the left side of an equation one at its right side."""
    x = Local('x', type_)
    e = Local('e', equal(type_, left, x))
    return apply(constant('Eq.rec', 0, ONE), type_, left, lambdas([x, e], motive(x)), proof, right, equation)


# ---- What stands before the units

def blocks(file):
    file.block(nat())
    file.block(Block(TYPE).with_type('Bool', [], Constructor('false'), Constructor('true')))
    file.block(equality())
    file.block(Block(PROP).with_type('False', []))
    p = Local('p', PROP)
    file.definition(('Not',), arrow(PROP, PROP), lambdas([p], arrow(p, constant('False'))))
    decidable = Block(TYPE, (), [p])
    file.block(decidable.with_type('Decidable', [], Constructor('isFalse', Local('h', call('Not', p))),
                                   Constructor('isTrue', Local('h', p))))


def operations(file):
    """The definitions by recursion that the operations on literals go by."""
    n, m, before, result = variables('n m n result', NAT)
    binary = arrow(NAT, NAT, NAT)
    add = by_nat(ONE, lambda _: NAT, n, lambdas([before, result], succ(result)), m)
    file.definition(('Nat', 'add'), binary, lambdas([n, m], add), hint='R 1')
    mul = by_nat(ONE, lambda _: NAT, ZERO, lambdas([before, result], call('Nat.add', result, n)), m)
    file.definition(('Nat', 'mul'), binary, lambdas([n, m], mul), hint='R 2')
    rest, test = Local('rest', BOOL), Local('test', arrow(NAT, BOOL))
    at_zero = by_nat(ONE, lambda _: BOOL, TRUE, lambdas([before, rest], FALSE), m)
    at_succ = by_nat(ONE, lambda _: BOOL, FALSE, lambdas([result, rest], apply(test, result)), m)
    beq = by_nat(ONE, lambda _: test.type, lambdas([m], at_zero), lambdas([before, test, m], at_succ), n)
    file.definition(('Nat', 'beq'), arrow(NAT, NAT, BOOL), lambdas([n], beq), hint='R 1')


def laws(file):
    """What the test of equality says is so."""
    p, clash = Local('p', PROP), Local('h', equal(BOOL, FALSE, TRUE))
    proof = Local('x', p)
    absurd = carry(BOOL, FALSE, lambda b: by_bool(ONE, lambda _: PROP, arrow(p, p), p, b), lambdas([proof], proof),
                   TRUE, clash)
    file.theorem(('Bool', 'absurd'), pis([p, clash], p), lambdas([p, clash], absurd))

    n, m = variables('n m', NAT)
    ih = Local('ih', equal(BOOL, is_equal(n, n), TRUE))
    itself = by_nat(0, lambda t: equal(BOOL, is_equal(t, t), TRUE), refl(BOOL, TRUE), lambdas([n, ih], ih), m)
    file.theorem(('Nat', 'beq_self'), pis([m], equal(BOOL, is_equal(m, m), TRUE)), lambdas([m], itself))

    same = Local('h', equal(BOOL, is_equal(n, m), TRUE))
    file.theorem(('Nat', 'eq_of_beq_eq_true'), pis([n, m, same], equal(NAT, n, m)), eq_of_beq())

    differ, equation = Local('h', equal(BOOL, is_equal(n, m), FALSE)), Local('e', equal(NAT, n, m))
    itself = Local('h', equal(BOOL, is_equal(n, n), FALSE))
    false_is_true = carry(BOOL, is_equal(n, n), lambda b: equal(BOOL, b, TRUE), call('Nat.beq_self', n), FALSE, itself)
    at_itself = lambdas([itself], call('Bool.absurd', constant('False'), false_is_true))
    at_other = carry(NAT, n, lambda t: arrow(equal(BOOL, is_equal(n, t), FALSE), constant('False')), at_itself, m,
                     equation)
    file.theorem(('Nat', 'ne_of_beq_eq_false'), pis([n, m, differ], call('Not', equal(NAT, n, m))),
                 lambdas([n, m, differ, equation], apply(at_other, differ)))


def eq_of_beq():
    """Equal numbers are equal, by induction on the first and cases of the second."""
    n, m = variables('n m', NAT)

    def goal(left, right):
        return arrow(equal(BOOL, is_equal(left, right), TRUE), equal(NAT, left, right))

    def for_all(left):
        right = Local('m', NAT)
        return pis([right], goal(left, right))

    def by_cases(left, zero, successor):
        """The step has a hypothesis of its own, which nothing needs."""
        unused = Local('ih', goal(left, m))
        right = Local('t', NAT)
        return lambdas([right], by_nat(0, lambda t: goal(left, t), zero, lambdas([m, unused], successor), right))

    def impossible(left, right):
        clash = Local('h', equal(BOOL, FALSE, TRUE))
        return lambdas([clash], call('Bool.absurd', equal(NAT, left, right), clash))

    ih, same = Local('ih', for_all(n)), Local('h', equal(BOOL, is_equal(n, m), TRUE))
    one_more = carry(NAT, n, lambda t: equal(NAT, succ(n), succ(t)), refl(NAT, succ(n)), m, apply(ih, m, same))
    at_zero = by_cases(ZERO, lambdas([Local('h', equal(BOOL, TRUE, TRUE))], refl(NAT, ZERO)), impossible(ZERO, succ(m)))
    at_succ = by_cases(succ(n), impossible(succ(n), ZERO), lambdas([same], one_more))
    first = Local('n', NAT)
    return lambdas([first], by_nat(0, for_all, at_zero, lambdas([n, ih], at_succ), first))


def decisions(file):
    """Equality of numbers is decidable, and what is decided is so."""
    n, m = variables('n m', NAT)
    p = equal(NAT, n, m)
    decided = call('Decidable', p)
    test = is_equal(n, m)
    differ, same = Local('h', equal(BOOL, test, FALSE)), Local('h', equal(BOOL, test, TRUE))
    dec_eq = by_bool(ONE, lambda b: arrow(equal(BOOL, test, b), decided),
                     lambdas([differ], call('Decidable.isFalse', p, call('Nat.ne_of_beq_eq_false', n, m, differ))),
                     lambdas([same], call('Decidable.isTrue', p, call('Nat.eq_of_beq_eq_true', n, m, same))), test)
    file.definition(('Nat', 'decEq'), pis([n, m], decided), lambdas([n, m], apply(dec_eq, refl(BOOL, test))),
                    hint='R 2')

    p = Local('p', PROP)
    d, no, yes = Local('d', call('Decidable', p)), Local('h', call('Not', p)), Local('h', p)

    def cases(level, motive, is_false, is_true):
        t = Local('t', d.type)
        return apply(constant('Decidable.rec', level), p, lambdas([t], motive(t)), lambdas([no], is_false),
                     lambdas([yes], is_true), d)

    file.definition(('Decidable', 'decide'), pis([p, d], BOOL),
                    lambdas([p, d], cases(ONE, lambda _: BOOL, FALSE, TRUE)), hint='R 1')
    decided = Local('h', equal(BOOL, call('Decidable.decide', p, d), TRUE))
    clash, unused = Local('h', equal(BOOL, FALSE, TRUE)), Local('h', equal(BOOL, TRUE, TRUE))
    of_decide = cases(0, lambda t: arrow(equal(BOOL, call('Decidable.decide', p, t), TRUE), p),
                      lambdas([clash], call('Bool.absurd', p, clash)), lambdas([unused], yes))
    file.theorem(('of_decide_eq_true',), pis([p, d, decided], p), lambdas([p, d], of_decide))


def rows(file):
    """A family of types over numbers, each with a value."""
    n = Local('n', NAT)
    file.axiom(('Row',), arrow(NAT, TYPE))
    file.axiom(('row',), pis([n], call('Row', n)))


# ---- The units

class Units:
    def __init__(self, file):
        self.file = file
        self.random = random.Random(1)

    def bits(self, width):
        """A number of just so many bits."""
        return self.random.getrandbits(width) | 1 << (width - 1)

    def sum(self):
        """Two numbers added, and the result."""
        a, b = self.bits(100), self.bits(100)
        return call('Nat.add', Number(a), Number(b)), a + b

    def product(self):
        a, b = self.bits(100), self.bits(27)
        return call('Nat.mul', Number(a), Number(b)), a * b

    def by_refl(self, name, type_, left, right):
        self.file.theorem(name, equal(type_, left, right), refl(type_, right))

    def added(self, name):
        term, result = self.sum()
        self.by_refl(name, NAT, term, Number(result))

    def multiplied(self, name):
        term, result = self.product()
        self.by_refl(name, NAT, term, Number(result))

    def equal(self, name):
        term, result = self.sum()
        self.by_refl(name, BOOL, is_equal(term, Number(result)), TRUE)

    def different(self, name):
        term, result = self.product()
        self.by_refl(name, BOOL, is_equal(Number(result + 1), term), FALSE)

    def typed(self, name):
        """A value whose type is stated at the computation, and known at the result."""
        term, result = self.sum()
        self.file.definition(name, call('Row', term), call('row', Number(result)))

    def decided(self, name):
        term, result = self.product()
        stated, test = equal(NAT, term, Number(result)), call('Nat.decEq', term, Number(result))
        self.file.theorem(name, stated, call('of_decide_eq_true', stated, test, refl(BOOL, TRUE)))


def main():
    if len(sys.argv) != 2 or not sys.argv[1].isdecimal():
        sys.exit(__doc__)
    file = File()
    for state in blocks, operations, laws, decisions, rows:
        state(file)
    units = Units(file)
    shapes = [units.added, units.multiplied, units.equal, units.different, units.typed, units.decided]
    for number in range(int(sys.argv[1])):
        shapes[number % len(shapes)]((f't{number}',))
    file.write(sys.stdout.buffer)


if __name__ == '__main__':
    main()
