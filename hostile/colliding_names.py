#!/usr/bin/env python3
"""Writes names that were made to have one hash, and no unit that needs them, to standard output.

usage: colliding_names.py [NAMES [SEED]]    so many names, at most 500000, and else 60000

Each is the name of nothing with one number more. The store's hash of that is the number, mixed with what is the same of
all, times a constant, the halves of the product joined. The low 22 bits of that are 0 for each number that is chosen
here, so that all belong into one bucket of a table of up to 2^22 slots, as long as the table takes no seed. To find them
needs no search. The product's low half ends in 22 zeros where the mixed number does, and the bits 64 to 85 of the
product of v * 2^22 and the constant are 0 where the low half of v times the constant is below 2^42. Such v below 2^42
are the points of a lattice in a square, and two short vectors of it give them.

With SEED 1 the names have one hash under the seed that a table takes next, and many under the first one. Behind them stand
600 that have one under the first seed, so that the table takes another one with all of them in it.
"""
import sys

FACTOR = 0x9E3779B97F4A7C15
OTHER = 0xD6E8FEB86659FD93
WORD = 1 << 64
EQUAL = 22
SIDE = 1 << (64 - EQUAL)


def folded(a, b):
    product = a * b
    return product % WORD ^ product // WORD


def shortest():
    """Two short vectors (v, the low half of v times the factor, as a signed number)."""
    a, b = (0, WORD), (1, FACTOR)
    while True:
        if a[0] ** 2 + a[1] ** 2 < b[0] ** 2 + b[1] ** 2:
            a, b = b, a
        size = b[0] ** 2 + b[1] ** 2
        times = (2 * (a[0] * b[0] + a[1] * b[1]) + size) // (2 * size)
        if times == 0:
            return a, b
        a = (a[0] - times * b[0], a[1] - times * b[1])


def chosen(count):
    """So many numbers whose product with the factor ends in zeros when its halves are joined."""
    (a, c), (b, d) = shortest()
    reach = 2 * SIDE // int(abs(a * d - b * c) ** 0.5)
    found = []
    for i in range(-reach, reach + 1):
        for j in range(-reach, reach + 1):
            v, low = i * a + j * b, i * c + j * d
            if 0 < v < SIDE and 0 <= low < SIDE:
                x = v << EQUAL
                if folded(x, FACTOR) % (1 << EQUAL) == 0:
                    found.append(x)
                    if len(found) == count:
                        return found
    return found


def spread(seed):
    """What a seed puts into a hash."""
    return folded(seed, 0x2545F4914F6CDD1D)


def mixed(seed):
    """The hash of a name with one more number, before that number is mixed in."""
    return folded(FACTOR ^ spread(seed), 2 << 32 ^ OTHER ^ spread(seed))


def main():
    count = int(sys.argv[1]) if len(sys.argv) > 1 else 60000
    seed = int(sys.argv[2]) if len(sys.argv) > 2 else 0
    found = chosen(count)
    if len(found) < count:
        sys.exit(f'only {len(found)} were found')
    numbers = [x ^ mixed(seed) for x in found]
    if seed:
        numbers += [x ^ mixed(0) for x in found[:600]]
    lines = [f'{i} #NI 0 {x}' for i, x in enumerate(numbers, 1)]
    lines.append('0 #ES 0\n#AX 1 0')
    print('\n'.join(lines))


main()
