"""What a run may come to where memory is wanting: shared by the scripts of this folder."""
import re


def verdicts(text):
    """The verdict lines with what stands behind each, and the last line; None where it is no such text."""
    lines = text.decode(errors='replace').splitlines()
    if not lines or not re.fullmatch(r'units \d+ yes \d+ no \d+ memory \d+', lines[-1]):
        return None
    units = []
    for line in lines[:-1]:
        if not line.startswith('  '):
            units.append([line])
        elif units:
            units[-1].append(line)
        else:
            return None
    return units, lines[-1]


def fault(good, status, text):
    """Why this is no answer where memory may be wanting, or None. `good` is status and text with ample memory."""
    if (status, text) == good:
        return None
    if status == 6:
        return 'status 6, but something was written' if text else None
    there, wanted = verdicts(text), verdicts(good[1])
    if there is None or wanted is None:
        return f'status {status}, and the text is none'
    if not wanted[0]:
        return trial_fault(status, there[1], wanted[1])
    if len(there[0]) != len(wanted[0]):
        return 'another number of units'
    for one, other in zip(there[0], wanted[0]):
        if one == other:
            continue
        name = other[0].split(' ', 1)[1]
        axioms = [line for line in other[1:] if line.startswith('  axiom ')]
        if one != [f'no {name}', '  why memory', *axioms]:
            return f'{one[0]!r} for {other[0]!r}'
    count = lambda word: sum(unit[0].startswith(word) for unit in there[0])
    memory = sum(unit[1:2] == ['  why memory'] for unit in there[0])
    return last_line(status, there[1], f'units {len(there[0])} yes {count("yes ")} no {count("no ") - memory} memory {memory}')


def kind(good, status, text):
    """Which of the three kinds of answers it is."""
    return 'as ever' if (status, text) == good else 'status 6' if status == 6 else 'memory lines'


def counted(kinds):
    """How many of each kind, in words."""
    return ', '.join(f'{each} {kinds.count(each)}' for each in ('status 6', 'memory lines', 'as ever'))


def last_line(status, there, due):
    """Why this is not the last line that is due, or the status is not that of it, or None."""
    if there != due:
        return f'a last line {there!r}'
    _, _, no, memory = (int(word) for word in there.split()[1::2])
    wanted = 1 if no else 9 if memory else 0
    return None if status == wanted else f'status {status}, due is {wanted}'


def trial_fault(status, there, good):
    """The same of a trial, which tells its last line alone: its units are as many, and each says yes or memory."""
    units, yes, no, memory = (int(word) for word in there.split()[1::2])
    return last_line(status, there, f'units {good.split()[1]} yes {units - memory} no 0 memory {memory}')
