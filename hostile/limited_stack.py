#!/usr/bin/env python3
"""Finds the least stack with which the program answers as ever, over each input.

usage: limited_stack.py PROGRAM

The limit is that of `ulimit -s`, in steps of 4 KiB, and the environment is empty, since it stands on the stack too. Among
the inputs are deep ones: what is read is to make no difference. The status is 1 where some input needs more than 160 KiB.
"""
import glob
import os
import resource
import subprocess
import sys

import families
from inputs import HERE, INPUTS

DEEP = [(families.pis, 100000), (families.lambdas, 100000), (families.arguments, 100000), (families.nested_arguments, 100000),
        (families.lets, 100000), (families.successors, 100000), (families.maxima, 100000), (families.components, 100000),
        (families.dependent_lambdas, 20000), (families.lets_mentioned, 5000),
        (families.dependent_arguments, 20000), (families.fields_alone, 10000),
        (families.enumeration, 100), (families.enumeration, 600), (families.nested, 500), (families.mutual, 200),
        (families.doubled_unequal, 50), (families.spaces, 1 << 25)]
MOST = 160


def run(program, words, data, kibibytes):
    def limited():
        if kibibytes:
            resource.setrlimit(resource.RLIMIT_STACK, (kibibytes << 10, kibibytes << 10))
    ran = subprocess.run([program, *words], input=data, stdout=subprocess.PIPE, stderr=subprocess.DEVNULL, env={},
                         preexec_fn=limited, timeout=120)
    return ran.returncode, ran.stdout


def least(program, words, data):
    good = run(program, words, data, None)
    kibibytes = 1024
    while kibibytes > 4 and run(program, words, data, kibibytes // 2) == good:
        kibibytes //= 2
    low = kibibytes // 2
    while kibibytes - low > 4:
        middle = (low + kibibytes) // 2
        if run(program, words, data, middle) == good:
            kibibytes = middle
        else:
            low = middle
    return kibibytes


def main():
    if len(sys.argv) != 2:
        sys.exit(__doc__)
    program, found = os.path.abspath(sys.argv[1]), {}
    inputs = INPUTS[4:] + [(f'{family.__name__} {number}', ['check'], family(number)) for family, number in DEEP]
    for path in sorted(glob.glob(f'{HERE}/../examples/*.export') + glob.glob(f'{HERE}/../examples/*/*.export')):
        with open(path, 'rb') as file:
            inputs.append((os.path.basename(path), ['check'], file.read()))
    for name, words, data in inputs:
        found[name] = least(program, words, data)
    for kibibytes in sorted(set(found.values())):
        names = [name for name in found if found[name] == kibibytes]
        print(f'{kibibytes} KiB: {len(names)} inputs, as {", ".join(names[:6])}')
    sys.exit(1 if max(found.values()) > MOST else 0)


main()
