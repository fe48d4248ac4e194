#!/usr/bin/env python3
"""Alters files with derivations, and compares what the program and another one say of each altered file.

usage: altered_traces.py PROGRAM OTHER FILE.. [--each N] [--seed S] [--keep FOLDER]

OTHER is one word of the command line, which may have words of its own, as `python3 checker.py`; both are called with the
word `replay`. Each FILE is altered in each of the ways below N times (20), at places that the seed (0) chooses. Output and
status have to be the same, so also the line at which a section is at fault. Where they differ it is told, and the altered
file is kept in the folder, if one is given. The status is 1 where one differs.
"""
import argparse
import os
import random
import shlex
import subprocess
import sys

TYPING = ['T-Sort', 'T-Local', 'T-Const', 'T-App', 'T-Let', 'T-Lit', 'T-Str', 'T-Proj', 'T-Lam', 'T-Pi']
REDUCTION = ['R-Trans', 'R-Head', 'R-Beta', 'R-Zeta', 'R-Delta', 'R-Proj', 'R-Major', 'R-K', 'R-Struct', 'R-Lift', 'R-Ind',
             'R-Op', 'R-Iota']
CONVERSION = ['E-Reduce', 'E-Sort', 'E-Const', 'E-App', 'E-Proj', 'E-Lam', 'E-Pi', 'E-Eta', 'E-StructL', 'E-StructR',
              'E-Unit', 'E-Proof', 'E-Zero', 'E-Succ', 'E-StrL', 'E-StrR']
FAMILIES = {'#TY': TYPING, '#RD': REDUCTION, '#CV': CONVERSION}
WITH_FIELD = {'T-Lam', 'T-Pi', 'E-Lam', 'E-Pi', 'R-Iota'}
TREES = {'#EV', '#ES', '#EC', '#EA', '#EL', '#EP', '#EZ', '#EJ', '#ELN', '#ELS', '#EF'}
LEVELS = {'#US', '#UM', '#UIM', '#UP'}


class File:
    """The lines of a file, as lists of fields, and where those of each kind stand."""

    def __init__(self, lines):
        self.lines = lines
        self.trace = next((i for i, line in enumerate(lines) if line[:1] == ['#TR']), len(lines))
        self.trees = [line[0] for line in lines if tag(line) in TREES]
        self.steps = [i for i, line in enumerate(lines) if tag(line) in FAMILIES]
        self.ends = [i for i, line in enumerate(lines) if tag(line) == '#OK']

    def places(self, *tags, behind=True):
        begin, end = (self.trace, len(self.lines)) if behind else (0, self.trace)
        return [i for i in range(begin, end) if tag(self.lines[i]) in tags]

    def earlier(self, place):
        """The numbers of the lines of the same section before a line."""
        numbers = []
        for line in reversed(self.lines[:place]):
            if tag(line) == '#AT':
                break
            if tag(line) in FAMILIES:
                numbers.append(line[0])
        return numbers


def tag(line):
    return next((field for field in line[:2] if field.startswith('#')), '')


def first_premise(line):
    return 1 if tag(line) == '#OK' else 5 + (line[2] in WITH_FIELD)


def other_of(rng, choices, old):
    """One of these that is not the old one."""
    rest = [x for x in choices if x != old]
    return rng.choice(rest) if rest else old


def change(lines, place, field, value):
    lines[place][field] = value


# Each way alters the lines in place, or answers False where there is no place for it.

def drop_line(rng, file, lines):
    if not file.steps:
        return False
    del lines[rng.choice(file.steps)]


def swap_lines(rng, file, lines):
    near = [i for i in file.steps if i + 1 < len(lines)]
    if not near:
        return False
    i = rng.choice(near)
    lines[i], lines[i + 1] = lines[i + 1], lines[i]


def repeat_line(rng, file, lines):
    if not file.steps:
        return False
    i = rng.choice(file.steps)
    lines.insert(i + 1, list(lines[i]))


def other_rule(rng, file, lines):
    if not file.steps:
        return False
    i = rng.choice(file.steps)
    change(lines, i, 2, other_of(rng, FAMILIES[tag(lines[i])], lines[i][2]))


def tree_at(field):
    def way(rng, file, lines):
        if not file.steps:
            return False
        i = rng.choice(file.steps)
        change(lines, i, field, other_of(rng, file.trees, lines[i][field]))
    return way


def swap_trees(rng, file, lines):
    if not file.steps:
        return False
    line = lines[rng.choice(file.steps)]
    line[3], line[4] = line[4], line[3]


def other_local(rng, file, lines):
    found = [i for i in file.steps if lines[i][2] in WITH_FIELD - {'R-Iota'}]
    if not found:
        return False
    i = rng.choice(found)
    locals_ = [lines[j][0] for j in file.places('#EF')]
    change(lines, i, 5, other_of(rng, locals_ or file.trees, lines[i][5]))


def other_place(rng, file, lines):
    found = [i for i in file.steps if lines[i][2] == 'R-Iota']
    if not found:
        return False
    i = rng.choice(found)
    change(lines, i, 5, str(rng.choice([0, 1, 2, 3, 2 ** 40])))


def premised(file, lines, least, ends):
    return [i for i in (file.ends if ends else file.steps) if len(lines[i]) - first_premise(lines[i]) >= least]


def other_premise(ends):
    def way(rng, file, lines):
        found = premised(file, lines, 1, ends)
        if not found:
            return False
        i = rng.choice(found)
        field = rng.randrange(first_premise(lines[i]), len(lines[i]))
        change(lines, i, field, other_of(rng, file.earlier(i), lines[i][field]))
    return way


def drop_premise(ends):
    def way(rng, file, lines):
        found = premised(file, lines, 1, ends)
        if not found:
            return False
        i = rng.choice(found)
        del lines[i][rng.randrange(first_premise(lines[i]), len(lines[i]))]
    return way


def more_premise(ends):
    def way(rng, file, lines):
        found = [i for i in premised(file, lines, 0, ends) if file.earlier(i)]
        if not found:
            return False
        i = rng.choice(found)
        lines[i].insert(rng.randrange(first_premise(lines[i]), len(lines[i]) + 1), rng.choice(file.earlier(i)))
    return way


def turn_premises(ends):
    def way(rng, file, lines):
        found = premised(file, lines, 2, ends)
        if not found:
            return False
        line = lines[rng.choice(found)]
        a, b = rng.sample(range(first_premise(line), len(line)), 2)
        line[a], line[b] = line[b], line[a]
    return way


def no_premises(rng, file, lines):
    found = premised(file, lines, 1, False)
    if not found:
        return False
    line = lines[rng.choice(found)]
    del line[first_premise(line):]


def other_unit(rng, file, lines):
    found = file.places('#AT')
    if not found:
        return False
    i = rng.choice(found)
    change(lines, i, 1, str(max(0, int(lines[i][1]) + rng.choice([-1, 1, 2]))))


def other_number(rng, file, lines):
    """The number of a Local, or its type."""
    found = file.places('#EF')
    if not found:
        return False
    i = rng.choice(found)
    if rng.random() < 0.5:
        change(lines, i, 2, str(max(0, int(lines[i][2]) + rng.choice([-1, 1, 7]))))
    else:
        change(lines, i, 3, other_of(rng, file.trees, lines[i][3]))


def other_part(behind):
    """A part of an application, a binder or a let, or the level of a sort."""
    def way(rng, file, lines):
        found = file.places('#EA', '#EL', '#EP', '#EZ', '#ES', behind=behind)
        if not found:
            return False
        i = rng.choice(found)
        line = lines[i]
        if tag(line) == '#ES':
            change(lines, i, 2, other_of(rng, ['0'] + [x[0] for x in lines if tag(x) in LEVELS], line[2]))
        else:
            field = len(line) - 1 - rng.randrange(2)
            change(lines, i, field, other_of(rng, file.trees, line[field]))
    return way


def other_level(rng, file, lines):
    found = file.places(*LEVELS)
    if not found:
        return False
    line = lines[rng.choice(found)]
    field = rng.randrange(2, len(line))
    line[field] = str(max(0, int(line[field]) + rng.choice([-1, 1])))


def other_declaration(rng, file, lines):
    """The type or the value of a declaration, so that its section is of another one."""
    found = file.places('#AX', '#DEF', '#THM', '#OPAQ', behind=False)
    if not found:
        return False
    line = lines[rng.choice(found)]
    field = 2 if tag(line) == '#AX' else rng.choice([2, 3])
    line[field] = other_of(rng, file.trees, line[field])


def drop_declaration(rng, file, lines):
    found = file.places('#AX', '#DEF', '#THM', '#OPAQ', '#QUOT', behind=False)
    if not found:
        return False
    del lines[rng.choice(found)]


def early_end(rng, file, lines):
    """A section ends a line before it did."""
    found = [i for i in file.ends if i - 1 > file.trace]
    if not found:
        return False
    i = rng.choice(found)
    lines[i - 1], lines[i] = lines[i], lines[i - 1]


def drop_structure(rng, file, lines):
    found = file.places('#TR', '#AT', '#OK')
    if not found:
        return False
    del lines[rng.choice(found)]


WAYS = {
    'a line less': drop_line, 'two lines turned': swap_lines, 'a line twice': repeat_line, 'another rule': other_rule,
    'another left tree': tree_at(3), 'another right tree': tree_at(4), 'the trees turned': swap_trees,
    'another Local': other_local, 'another place of a rule': other_place, 'another premise': other_premise(False),
    'a premise less': drop_premise(False), 'a premise more': more_premise(False), 'two premises turned': turn_premises(False),
    'no premises': no_premises, 'another part': other_premise(True), 'a part less': drop_premise(True),
    'a part more': more_premise(True), 'two parts turned': turn_premises(True), 'another unit': other_unit,
    'a Local changed': other_number, 'a tree changed behind #TR': other_part(True), 'a tree changed before #TR': other_part(False),
    'a level changed': other_level, 'a declaration changed': other_declaration, 'a declaration less': drop_declaration,
    'a section ends early': early_end, 'no #TR, #AT or #OK': drop_structure,
}


def run(words, data):
    ran = subprocess.run([*words, 'replay'], input=data, stdout=subprocess.PIPE, stderr=subprocess.DEVNULL, timeout=300)
    return ran.returncode, ran.stdout.decode(errors='replace')


def first_difference(one, other):
    for a, b in zip(one.splitlines() + ['(no line)'], other.splitlines() + ['(no line)']):
        if a != b:
            return f'{a!r}, not {b!r}'
    return 'the status'


def main():
    parser = argparse.ArgumentParser(usage=__doc__)
    parser.add_argument('program')
    parser.add_argument('other')
    parser.add_argument('files', nargs='+')
    parser.add_argument('--each', type=int, default=20)
    parser.add_argument('--seed', type=int, default=0)
    parser.add_argument('--keep')
    given = parser.parse_args()
    program, other = shlex.split(given.program), shlex.split(given.other)
    rng = random.Random(given.seed)
    texts = [[line.split(' ') for line in open(name).read().split('\n') if line] for name in given.files]
    differ = 0
    for name, way in WAYS.items():
        statuses, tried, bad = {}, 0, 0
        for text in texts:
            for _ in range(given.each):
                lines = [list(line) for line in text]
                if way(rng, File(text), lines) is False:
                    break
                data = ''.join(' '.join(line) + '\n' for line in lines).encode()
                ours, theirs = run(program, data), run(other, data)
                tried += 1
                statuses[theirs[0]] = statuses.get(theirs[0], 0) + 1
                if ours != theirs:
                    bad += 1
                    print(f'{name}: status {ours[0]}, not {theirs[0]}: {first_difference(ours[1], theirs[1])}')
                    if given.keep:
                        os.makedirs(given.keep, exist_ok=True)
                        path = os.path.join(given.keep, f'{differ + bad}.export')
                        with open(path, 'wb') as file:
                            file.write(data)
        differ += bad
        told = ', '.join(f'{count} of status {status}' for status, count in sorted(statuses.items()))
        print(f'{name}: {tried} files ({told}), {bad} differ', flush=True)
    print(f'{differ} differ')
    sys.exit(1 if differ else 0)


if __name__ == '__main__':
    main()
