"""The inputs that the scripts of this folder run over: a name, words, and what is read."""
import os

HERE = os.path.dirname(os.path.abspath(__file__))


def example(name):
    with open(f'{HERE}/../examples/{name}.export', 'rb') as file:
        return file.read()


def doubling(times):
    """A theorem whose type doubles so many times: each Pi goes from the one before to the one before."""
    lines = ['1 #NS 0 p', '2 #NS 0 t', '0 #ES 0', '#AX 1 0', '1 #EC 1']
    last = 1
    for _ in range(times):
        lines.append(f'{last + 1} #EP #BD 0 {last} {last}')
        last += 1
    # from the doubled one to itself, by the function that gives its argument
    lines += [f'{last + 1} #EP #BD 0 {last} {last}', f'{last + 2} #EV 0', f'{last + 3} #EL #BD 0 {last} {last + 2}',
              f'#THM 2 {last + 1} {last + 3}']
    return ('\n'.join(lines) + '\n').encode()


INPUTS = [
    ('identity', ['check'], example('identity')),
    ('doubling Pis', ['check'], doubling(60)),
    ('blocks', ['check'], example('blocks')),
    ('nested blocks', ['check'], example('nested')),
    ('trial of 100 units', ['trial', '--units', '100', '--seed', '7'], b''),
]
