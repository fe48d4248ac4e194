#!/usr/bin/env python3
"""Writes definitions that unfold to standard output. The same number gives the same bytes.

usage: unfolding.py DEPTH     so many definitions, each the one before, and a theorem by every tenth

Over an axiom P the definition d(k) is d(k-1), and d(0) is P. A theorem takes a proof of P and gives it as one of d(k).
"""
import sys

from terms import PROP, File, Local, constant, lambdas, pis


def main():
    if len(sys.argv) != 2:
        sys.exit(__doc__)
    file = File()
    file.axiom(('P',), PROP)
    last, proof = constant('P'), Local('h', constant('P'))
    for number in range(int(sys.argv[1])):
        file.definition((f'd{number}',), PROP, last, hint=f'R {number}')
        last = constant(f'd{number}')
        if number % 10 == 9:
            file.theorem((f't{number}',), pis([proof], last), lambdas([proof], proof))
    file.write(sys.stdout.buffer)


if __name__ == '__main__':
    main()
