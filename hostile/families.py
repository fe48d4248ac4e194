#!/usr/bin/env python3
"""Families of files that try a checker's time and memory. Each takes a number n, and gives the bytes of a file.

usage: families.py FAMILY N     writes such a file to standard output

The largest number that `attacks.py` tries stands in the table at the end. It makes a file of at most some tens of
megabytes, and is smaller where the lines themselves are quadratic in n (each `#IND` line of a block has the list of all its
types, each rule of an enumeration's recursor has all its minor premises), or where the program's time is not linear.
"""
import sys

from doubled import (
    doubled_pis, doubled_arguments, doubled_lets, doubled_unequal, doubled_variable, doubled_fields, doubled_parameter)
from lines import Lines


# ---- Deep terms

def pis(n):
    """An axiom whose type has n binders."""
    f = Lines()
    body = f.prop
    for _ in range(n):
        body = f.pi(f.prop, body)
    f.axiom('a', body)
    return f.bytes()


def lambdas(n):
    """A definition by n binders, which gives the first of them."""
    f = Lines()
    body, type_ = f.variable(n - 1), f.prop
    for _ in range(n):
        body, type_ = f.lambda_(f.prop, body), f.pi(f.prop, type_)
    f.definition('d', type_, body)
    return f.bytes()


def dependent_lambdas(n):
    """The same where the first binder is a type and each other one has it: the domains are n variables."""
    f = Lines()
    body, type_ = f.variable(n - 1), f.variable(n)
    domains = [f.variable(index) for index in range(n)]
    for index in reversed(range(n)):
        body, type_ = f.lambda_(domains[index], body), f.pi(domains[index], type_)
    f.definition('d', f.pi(f.type, type_), f.lambda_(f.type, body))
    return f.bytes()


def binders_mentioned(n):
    """A Pi and a function of n binders whose ends mention them all."""
    f = Lines()
    p, h = f.axiom('p', f.prop), f.axiom('h', f.pi(f.prop, f.pi(f.prop, f.prop)))
    stated, value, type_ = p, p, f.prop
    for index in range(n):
        stated = value = f.apply(h, f.variable(index), value)
    for _ in range(n):
        stated, value, type_ = f.pi(f.prop, stated), f.lambda_(f.prop, value), f.pi(f.prop, type_)
    f.axiom('a', stated)
    f.definition('d', type_, value)
    return f.bytes()


def arguments(n):
    """A constant with n binders, at n arguments."""
    f = Lines()
    body = f.prop
    for _ in range(n):
        body = f.pi(f.prop, body)
    p, g = f.axiom('p', f.prop), f.axiom('g', body)
    f.definition('d', f.prop, f.apply(g, *[p] * n))
    return f.bytes()


def nested_arguments(n):
    """f (f (.. p)), n deep."""
    f = Lines()
    p, g = f.axiom('p', f.prop), f.axiom('g', f.pi(f.prop, f.prop))
    for _ in range(n):
        p = f.apply(g, p)
    f.definition('d', f.prop, p)
    return f.bytes()


def dependent_arguments(n):
    """f p .. p, where the type of f mentions all its n arguments at its end."""
    f = Lines()
    p, h = f.axiom('p', f.prop), f.axiom('h', f.pi(f.prop, f.pi(f.prop, f.prop)))
    stated = proved = p
    for index in range(n):
        stated, proved = f.apply(h, f.variable(index), stated), f.apply(h, p, proved)
    for _ in range(n):
        stated = f.pi(f.prop, stated)
    f.definition('d', proved, f.apply(f.axiom('f', stated), *[p] * n))
    return f.bytes()


def different_arguments(n):
    """n theorems f p .. p, each of its own p, where the type of f mentions all 400 arguments."""
    f = Lines()
    h = f.axiom('h', f.pi(f.prop, f.pi(f.prop, f.prop)))
    last = stated = f.axiom('last', f.prop)
    for index in range(400):
        stated = f.apply(h, f.variable(index), stated)
    for _ in range(400):
        stated = f.pi(f.prop, stated)
    function = f.axiom('f', stated)
    for index in range(n):
        p, proved = f.axiom(f'p{index}', f.prop), last
        for _ in range(400):
            proved = f.apply(h, p, proved)
        f.theorem(f't{index}', proved, f.apply(function, *[p] * 400))
    return f.bytes()


def begun_alike(f, n):
    """p, h, f at its first n arguments, and what is told of two terms and a proof of h of them."""
    p, h = f.axiom('p', f.prop), f.axiom('h', f.pi(f.prop, f.pi(f.prop, f.prop)))
    stated = f.apply(h, f.variable(n + 20), f.variable(20))
    for _ in range(n + 21):
        stated = f.pi(f.prop, stated)
    begun = f.apply(f.axiom('f', stated), *[p] * n)
    proved = f.pi(f.apply(h, f.variable(1), f.variable(0)), f.prop)
    told = f.axiom('g', f.pi(f.prop, f.pi(f.prop, proved)))
    return p, h, begun, told


def arguments_alike(n):
    """n terms f p .. p q p .. p, which begin alike and differ twenty arguments before their end."""
    f = Lines()
    p, _, begun, told = begun_alike(f, n)
    q, ends = p, []
    for _ in range(n):
        q = f.pi(p, q)
        ends.append(f.apply(told, p, q, f.apply(begun, q, *[p] * 20)))
    stated = f.prop
    for end in reversed(ends):
        stated = f.pi(end, stated)
    f.axiom('a', stated)
    return f.bytes()


def alike_in_units(n):
    """The same in n axioms, one for each term."""
    f = Lines()
    p, h, begun, told = begun_alike(f, n)
    q = p
    for index in range(n):
        q = f.apply(h, p, q)
        f.axiom(f'a{index}', f.apply(told, p, q, f.apply(begun, q, *[p] * 20)))
    return f.bytes()


def dependent_alike(n):
    """The same in one axiom, where the type of the next argument mentions the first n of them."""
    f = Lines()
    p, h = f.axiom('p', f.prop), f.axiom('h', f.pi(f.prop, f.pi(f.prop, f.prop)))
    stated = proved = p
    for index in range(n):
        stated, proved = f.apply(h, f.variable(index), stated), f.apply(h, p, proved)
    ending = f.prop
    for _ in range(21):
        ending = f.pi(f.prop, ending)
    stated = f.pi(stated, ending)
    for _ in range(n):
        stated = f.pi(f.prop, stated)
    begun = f.apply(f.axiom('f', stated), *[p] * n, f.axiom('k', proved))
    q, ends = p, []
    for _ in range(n):
        q = f.apply(h, p, q)
        ends.append(f.apply(begun, q, *[p] * 20))
    stated = f.prop
    for end in reversed(ends):
        stated = f.pi(end, stated)
    f.axiom('a', stated)
    return f.bytes()


def beta(n):
    """(fun x1 .. xn => x1) p .. p : p is proved of the value by computing it."""
    f = Lines()
    p = f.axiom('p', f.prop)
    h = f.axiom('h', p)
    body = f.variable(n - 1)
    for _ in range(n):
        body = f.lambda_(f.prop, body)
    f.theorem('t', f.apply(body, *[p] * n), h)
    return f.bytes()


def lets(n):
    """let x1 := p; let x2 := x1; ..; the last one."""
    f = Lines()
    p = f.axiom('p', f.prop)
    last = f.variable(0)
    body = last
    for index in range(n):
        body = f.term(f'#EZ 0 {f.prop} {last if index < n - 1 else p} {body}')
    f.definition('d', f.prop, body)
    return f.bytes()


def lets_mentioned(n):
    """let x1 := p; let x2 := p; ..; h x1 (h x2 (.. p)), which mentions all of them."""
    f = Lines()
    p, h = f.axiom('p', f.prop), f.axiom('h', f.pi(f.prop, f.pi(f.prop, f.prop)))
    body = p
    for index in range(n):
        body = f.apply(h, f.variable(index), body)
    for _ in range(n):
        body = f.term(f'#EZ 0 {f.prop} {p} {body}')
    f.definition('d', f.prop, body)
    return f.bytes()


def let_values(n):
    """let x := (let x := (.. p)), n deep."""
    f = Lines()
    p, last = f.axiom('p', f.prop), f.variable(0)
    for _ in range(n):
        p = f.term(f'#EZ 0 {f.prop} {p} {last}')
    f.definition('d', f.prop, p)
    return f.bytes()


def projections(n):
    """x.1.1. .. 1, n deep, where x is of no structure: refused at the innermost."""
    f = Lines()
    name = f.name('S')
    x = f.axiom('x', f.prop)
    for _ in range(n):
        x = f.term(f'#EJ {name} 0 {x}')
    f.definition('d', f.prop, x)
    return f.bytes()


# ---- Levels and names

def successors(n):
    """def d : Sort (max n+1 0) := Sort n."""
    f = Lines()
    level = 0
    for _ in range(n):
        level = f.level(f'#US {level}')
    above = f.level(f'#UM {f.level(f"#US {level}")} 0')
    f.definition('d', f.sort(above), f.sort(level))
    return f.bytes()


def maxima(n):
    """The greatest of u and itself, n deep, beside u."""
    f = Lines()
    u = f.name('u')
    bottom = level = f.level(f'#UP {u}')
    for _ in range(n):
        level = f.level(f'#UM {level} {bottom}')
    f.definition('d', f.sort(f.level(f'#US {bottom}')), f.sort(level), [u])
    return f.bytes()


def shared_levels(n):
    """l(k+1) = max l(k) (succ l(k)), n deep, beside the same with its sides exchanged."""
    f = Lines()
    u = f.name('u')
    left = right = f.level(f'#UP {u}')
    for _ in range(n):
        left = f.level(f'#UM {left} {f.level(f"#US {left}")}')
        right = f.level(f'#UM {f.level(f"#US {right}")} {right}')
    f.definition('d', f.sort(f.level(f'#US {right}')), f.sort(left), [u])
    return f.bytes()


def shared_imax(n):
    """l(k+1) = imax l(k) (max l(k) v), n deep, beside the same with its sides exchanged."""
    f = Lines()
    u, v = f.name('u'), f.name('v')
    left = right = f.level(f'#UP {u}')
    other = f.level(f'#UP {v}')
    for _ in range(n):
        left = f.level(f'#UIM {left} {f.level(f"#UM {left} {other}")}')
        right = f.level(f'#UIM {right} {f.level(f"#UM {other} {right}")}')
    f.definition('d', f.sort(f.level(f'#US {right}')), f.sort(left), [u, v])
    return f.bytes()


def wide_levels(n):
    """n definitions that compare two levels of 20 parameters inside right sides of imax."""
    f = Lines()
    words = [f.name(f'u{number}') for number in range(20)]
    parameters = [f.level(f'#UP {word}') for word in words]

    def nest(levels):
        level = levels[-1]
        for each in reversed(levels[:-1]):
            level = f.level(f'#UIM {each} {level}')
        return level
    for number in range(n):
        turn = number % 20
        turned = parameters[turn:] + parameters[:turn]
        plain = nest(turned)
        beside = f.level(f'#UM {plain} {nest([turned[-1], turned[-1]])}')
        f.definition(f'd{number}', f.sort(f.level(f'#US {beside}')), f.sort(plain), words)
    return f.bytes()


def wide_cycles(n):
    """n definitions that compare max (imax u1 u2) .. (imax u20 u1), which is the greatest of all 20, with just that."""
    f = Lines()
    words = [f.name(f'u{number}') for number in range(20)]
    parameters = [f.level(f'#UP {word}') for word in words]

    def greatest(levels):
        level = levels[0]
        for each in levels[1:]:
            level = f.level(f'#UM {level} {each}')
        return level
    for number in range(n):
        turned = parameters[number % 20:] + parameters[:number % 20]
        cycle = greatest([f.level(f'#UIM {one} {next_one}') for one, next_one in zip(turned, turned[1:] + turned[:1])])
        f.definition(f'd{number}', f.sort(f.level(f'#US {greatest(turned)}')), f.sort(cycle), words)
    return f.bytes()


def wide_left(n):
    """n definitions that compare imax (.. (imax u1 u2) ..) u20 with the same over max u1 u1."""
    f = Lines()
    words = [f.name(f'u{number}') for number in range(20)]
    parameters = [f.level(f'#UP {word}') for word in words]

    def nest(level, levels):
        for each in levels:
            level = f.level(f'#UIM {level} {each}')
        return level
    for number in range(n):
        first, *others = parameters[number % 20:] + parameters[:number % 20]
        twice = nest(f.level(f'#UM {first} {first}'), others)
        f.definition(f'd{number}', f.sort(f.level(f'#US {twice}')), f.sort(nest(first, others)), words)
    return f.bytes()


def components(n):
    """An axiom whose name has n components."""
    f = Lines()
    name = 0
    for number in range(n):
        name = f.name('a', name) if number % 2 else f.made(0, f'#NI {name} 7')
    f.state('#AX', name, f.prop)
    return f.bytes()


def long_names(n):
    """n / 100 axioms below one name of n bytes: the text is n / 100 times as long."""
    f = Lines()
    below = f.name('a' * n)
    for number in range(n // 100):
        f.state('#AX', f.name(str(number), below), f.prop)
    return f.bytes()


def parameters(n):
    """A constant with n level parameters, at n levels."""
    f = Lines()
    words = [f.name(f'u{number}') for number in range(n)]
    levels = [f.level(f'#UP {word}') for word in words]
    c = f.name('c')
    f.state('#AX', c, f.prop, *words)
    f.definition('d', f.prop, f.constant(c, levels), words)
    return f.bytes()


def deep_levels(n):
    """A constant with n level parameters, at n levels, each the successor of the one before."""
    f = Lines()
    words = [f.name(f'u{number}') for number in range(n)]
    c = f.name('c')
    f.state('#AX', c, f.prop, *words)
    level, levels = 0, []
    for _ in range(n):
        level = f.level(f'#US {level}')
        levels.append(level)
    f.definition('d', f.prop, f.constant(c, levels))
    return f.bytes()


def greatest_parameter(n):
    """def d : Sort (succ (max u1 (max u2 ..))) := Sort (max .. u2 u1), of n parameters."""
    f = Lines()
    words = [f.name(f'u{number}') for number in range(n)]
    levels = [f.level(f'#UP {word}') for word in words]
    left, right = levels[0], levels[-1]
    for level in levels[1:]:
        left = f.level(f'#UM {left} {level}')
    for level in reversed(levels[:-1]):
        right = f.level(f'#UM {level} {right}')
    f.definition('d', f.sort(f.level(f'#US {left}')), f.sort(right), words)
    return f.bytes()


# ---- Blocks

def constructors(n):
    """An enumeration of n constructors, without a recursor."""
    f = Lines()
    name = f.name('T')
    made = [f.name(f'c{number}', name) for number in range(n)]
    f.state('#IND', name, f.type, 0, 0, 0, 0, 1, name, n, *made)
    type_ = f.constant(name)
    for number, each in enumerate(made):
        f.state('#CTOR', each, type_, name, number, 0, 0)
    return f.bytes()


def enumeration(n):
    """The same with its recursor: each rule has all minor premises, so the file is quadratic in n."""
    f = Lines()
    name, u = f.name('T'), f.name('u')
    made = [f.name(f'c{number}', name) for number in range(n)]
    f.state('#IND', name, f.type, 0, 0, 0, 0, 1, name, n, *made)
    type_, universe = f.constant(name), f.sort(f.level(f'#UP {u}'))
    for number, each in enumerate(made):
        f.state('#CTOR', each, type_, name, number, 0, 0)
    values = [f.constant(each) for each in made]
    motive = f.pi(type_, universe)
    minors = [f.apply(f.variable(number), values[number]) for number in range(n)]
    body = f.pi(type_, f.apply(f.variable(n + 1), f.variable(0)))
    for minor in reversed(minors):
        body = f.pi(minor, body)
    stated = f.pi(motive, body)
    rules = []
    for number, each in enumerate(made):
        value = f.variable(n - 1 - number)
        for minor in reversed(minors):
            value = f.lambda_(minor, value)
        rules.append(f.rule(f'#RR {each} 0 {f.lambda_(motive, value)}'))
    f.state('#REC', f.name('rec', name), stated, 1, name, 0, 0, 1, n, n, *rules, 0, u)
    return f.bytes()


def fields_alone(n):
    """A structure of n fields that are propositions, without a recursor."""
    f = Lines()
    name = f.name('S')
    make = f.name('mk', name)
    f.state('#IND', name, f.type, 0, 0, 0, 0, 1, name, 1, make)
    stated = f.constant(name)
    for _ in range(n):
        stated = f.pi(f.prop, stated)
    f.state('#CTOR', make, stated, name, 0, 0, n)
    return f.bytes()


def type_parameters(n):
    """A type with n parameters, and a constructor with the last one as its field, without a recursor."""
    f = Lines()
    name = f.name('T')
    make = f.name('mk', name)
    type_, built = f.type, f.constant(name)
    variables = [f.variable(index) for index in range(n + 1)]
    for variable in reversed(variables[1:]):
        built = f.apply(built, variable)
    stated = f.pi(variables[0], built)
    for _ in range(n):
        type_, stated = f.pi(f.prop, type_), f.pi(f.prop, stated)
    f.state('#IND', name, type_, 0, 0, n, 0, 1, name, 1, make)
    f.state('#CTOR', make, stated, name, 0, n, 1)
    return f.bytes()


def indices(n):
    """A type with n indices, and a constructor at n times one value, without a recursor."""
    f = Lines()
    p = f.axiom('p', f.prop)
    name = f.name('T')
    make = f.name('mk', name)
    type_ = f.type
    for _ in range(n):
        type_ = f.pi(f.prop, type_)
    f.state('#IND', name, type_, 0, 0, 0, n, 1, name, 1, make)
    f.state('#CTOR', make, f.apply(f.constant(name), *[p] * n), name, 0, 0, 0)
    return f.bytes()


def field_projections(n):
    """A structure of n fields that are propositions, and each of its projections."""
    f = Lines()
    name = f.name('S')
    make = f.name('mk', name)
    f.state('#IND', name, f.type, 0, 0, 0, 0, 1, name, 1, make)
    type_ = stated = f.constant(name)
    for _ in range(n):
        stated = f.pi(f.prop, stated)
    f.state('#CTOR', make, stated, name, 0, 0, n)
    x, to = f.variable(0), f.pi(type_, f.prop)
    for number in range(n):
        f.definition(f'p{number}', to, f.lambda_(type_, f.term(f'#EJ {name} {number} {x}')))
    return f.bytes()


def parameters_in_turn(n):
    """A type with two parameters and n constructors, whose fields are of these in turn, without a recursor."""
    f = Lines()
    name = f.name('T')
    made = [f.name(f'c{number}', name) for number in range(n)]
    f.state('#IND', name, f.pi(f.type, f.pi(f.type, f.type)), 0, 0, 2, 0, 1, name, n, *made)
    built = f.apply(f.constant(name), f.variable(2), f.variable(1))
    for number, each in enumerate(made):
        stated = f.pi(f.type, f.pi(f.type, f.pi(f.variable(number % 2), built)))
        f.state('#CTOR', each, stated, name, number, 2, 1)
    return f.bytes()


def fields_in_turn(n):
    """A structure with two parameters and n fields, which are of the one and the other in turn, without a recursor."""
    f = Lines()
    name = f.name('S')
    make = f.name('mk', name)
    f.state('#IND', name, f.pi(f.type, f.pi(f.type, f.type)), 0, 0, 2, 0, 1, name, 1, make)
    stated = f.apply(f.constant(name), f.variable(n + 1), f.variable(n))
    for index in reversed(range(n)):
        stated = f.pi(f.variable(index + index % 2), stated)
    f.state('#CTOR', make, f.pi(f.type, f.pi(f.type, stated)), name, 0, 2, n)
    return f.bytes()


def fields(n):
    """A structure of n fields that are propositions, with its recursor."""
    f = Lines()
    name, u = f.name('S'), f.name('u')
    make = f.name('mk', name)
    f.state('#IND', name, f.type, 0, 0, 0, 0, 1, name, 1, make)
    type_, universe = f.constant(name), f.sort(f.level(f'#UP {u}'))
    stated = type_
    for _ in range(n):
        stated = f.pi(f.prop, stated)
    f.state('#CTOR', make, stated, name, 0, 0, n)
    variables = [f.variable(index) for index in range(n + 2)]
    built = f.apply(f.constant(make), *reversed(variables[:n]))
    minor = f.apply(variables[n], built)
    value = f.apply(variables[n], *reversed(variables[:n]))
    for _ in range(n):
        minor, value = f.pi(f.prop, minor), f.lambda_(f.prop, value)
    motive = f.pi(type_, universe)
    rec = f.pi(motive, f.pi(minor, f.pi(type_, f.apply(variables[2], variables[0]))))
    rule = f.rule(f'#RR {make} {n} {f.lambda_(motive, f.lambda_(minor, value))}')
    f.state('#REC', f.name('rec', name), rec, 1, name, 0, 0, 1, 1, 1, rule, 0, u)
    return f.bytes()


def dependent_fields(n):
    """A structure of a type and n fields of that type, without a recursor."""
    f = Lines()
    two = f.sort(f.level(f'#US {f.one}'))
    name = f.name('S')
    make = f.name('mk', name)
    f.state('#IND', name, two, 0, 0, 0, 0, 1, name, 1, make)
    stated = f.constant(name)
    for index in reversed(range(n)):
        stated = f.pi(f.variable(index), stated)
    f.state('#CTOR', make, f.pi(f.type, stated), name, 0, 0, n + 1)
    return f.bytes()


def mutual(n):
    """n mutual types, each with a constructor over the next one: each line has the list of all of them."""
    f = Lines()
    names = [f.name(f'T{number}') for number in range(n)]
    made = [f.name('mk', name) for name in names]
    constants = [f.constant(name) for name in names]
    for name, each in zip(names, made):
        f.state('#IND', name, f.type, 1, 0, 0, 0, n, *names, 1, each)
    for number, (name, each) in enumerate(zip(names, made)):
        f.state('#CTOR', each, f.pi(constants[(number + 1) % n], constants[number]), name, 0, 0, 1)
    return f.bytes()


def blocks(n):
    """n blocks of a type with two constructors, of which one is recursive."""
    f = Lines()
    for number in range(n):
        name = f.name(f'N{number}')
        zero, successor = f.name('zero', name), f.name('succ', name)
        type_ = f.constant(name)
        f.state('#IND', name, f.type, 1, 0, 0, 0, 1, name, 2, zero, successor)
        f.state('#CTOR', zero, type_, name, 0, 0, 0)
        f.state('#CTOR', successor, f.pi(type_, type_), name, 1, 0, 1)
    return f.bytes()


def nested(n):
    """L (L (.. T)) n deep in a field, for a list L: n auxiliary types."""
    f = Lines()
    u = f.name('u')
    up = f.level(f'#UP {u}')
    sort = f.sort(f.level(f'#US {up}'))
    name, nil, cons = f.name('L'), f.name('nil'), f.name('cons')
    v0, v1 = f.variable(0), f.variable(1)
    lists = f.constant(name, [up])
    f.state('#IND', name, f.pi(sort, sort), 1, 0, 1, 0, 1, name, 2, nil, cons, u)
    f.state('#CTOR', nil, f.pi(sort, f.apply(lists, v0)), name, 0, 1, 0, u)
    stated = f.pi(sort, f.pi(v0, f.pi(f.apply(lists, v1), f.apply(lists, f.variable(2)))))
    f.state('#CTOR', cons, stated, name, 1, 1, 2, u)
    tree, make = f.name('T'), f.name('mk')
    f.state('#IND', tree, f.type, 1, 1, 0, 0, 1, tree, 1, make)
    here, field = f.constant(name, [0]), f.constant(tree)
    result = field
    for _ in range(n):
        field = f.apply(here, field)
    f.state('#CTOR', make, f.pi(field, result), tree, 0, 0, 1)
    return f.bytes()


# ---- Many units

def axioms(n):
    """n axioms."""
    f = Lines()
    for number in range(n):
        f.state('#AX', f.name(f'a{number}'), f.prop)
    return f.bytes()


def theorems(n):
    """n theorems, each proved by the one before."""
    f = Lines()
    p = f.axiom('p', f.prop)
    stated = f.pi(p, p)
    proof = f.lambda_(p, f.variable(0))
    for number in range(n):
        name = f.name(f't{number}')
        f.state('#THM', name, stated, proof)
        proof = f.constant(name)
    return f.bytes()


def refused(n):
    """n theorems, each refused."""
    f = Lines()
    p = f.axiom('p', f.prop)
    stated = f.pi(p, p)
    for number in range(n):
        f.theorem(f't{number}', stated, stated)
    return f.bytes()


def unfolding(n):
    """A chain of n definitions, and a proof that has to unfold all of them."""
    f = Lines()
    p = f.axiom('p', f.prop)
    h = f.axiom('h', p)
    for number in range(n):
        name = f.name(f'd{number}')
        f.state('#DEF', name, f.prop, p, 'R', number)
        p = f.constant(name)
    f.theorem('t', p, h)
    return f.bytes()


def many_axioms(n):
    """n axioms of p and n theorems, each by another one of them: each has one axiom line more than p's."""
    f = Lines()
    p = f.axiom('p', f.prop)
    for number in range(n):
        f.theorem(f't{number}', p, f.axiom(f'a{number}', p))
    return f.bytes()


def gathered_axioms(n):
    """A theorem that rests on n axioms, and n / 100 theorems by it: each has n lines of axioms."""
    f = Lines()
    p = f.axiom('p', f.prop)
    g = f.axiom('g', f.pi(p, f.pi(p, p)))
    proof = f.axiom('a', p)
    for number in range(n):
        proof = f.apply(g, f.axiom(f'a{number}', p), proof)
    f.theorem('all', p, proof)
    proof = f.constant(f.next[0] - 1)
    for number in range(n // 100):
        f.theorem(f't{number}', p, proof)
    return f.bytes()


def arrows(f, p, n):
    """p -> .. -> p, with n binders."""
    stated = p
    for _ in range(n):
        stated = f.pi(p, stated)
    return stated


def axioms_of_one_type(n):
    """n axioms of one type of n binders."""
    f = Lines()
    stated = arrows(f, f.axiom('p', f.prop), n)
    for number in range(n):
        f.axiom(f'a{number}', stated)
    return f.bytes()


def uses_of_one_constant(n):
    """n theorems by one axiom whose type has n binders."""
    f = Lines()
    stated = arrows(f, f.axiom('p', f.prop), n)
    proof = f.axiom('a', stated)
    for number in range(n):
        f.theorem(f't{number}', stated, proof)
    return f.bytes()


def heavy_and_light(n):
    """n theorems by an axiom whose type has n binders, and eighty small ones behind each."""
    f = Lines()
    p = f.axiom('p', f.prop)
    stated = arrows(f, p, n)
    proof, held = f.axiom('a', stated), f.axiom('h', p)
    for number in range(n):
        f.theorem(f't{number}', stated, proof)
        for light in range(80):
            f.theorem(f's{number}.{light}', p, held)
    return f.bytes()


def uses_of_five_constants(n):
    """n theorems by five axioms in turn, whose types have n binders each."""
    f = Lines()
    uses = []
    for index in range(5):
        stated = arrows(f, f.axiom(f'p{index}', f.prop), n)
        uses.append((stated, f.axiom(f'a{index}', stated)))
    for number in range(n):
        stated, proof = uses[number % 5]
        f.theorem(f't{number}', stated, proof)
    return f.bytes()


# ---- Bytes

def blank_lines(n):
    """n blank lines."""
    return b'\n' * n


def spaces(n):
    """One line of n spaces."""
    return b' ' * n


def digits(n):
    """A number literal of n digits, read and then refused."""
    f = Lines()
    f.definition('d', f.prop, f.term('#ELN ' + '9' * n))
    return f.bytes()


def characters(n):
    """A text literal of n characters."""
    f = Lines()
    f.definition('d', f.prop, f.term('#ELS' + ' 61' * n))
    return f.bytes()


FAMILIES = [
    (pis, 10 ** 6), (lambdas, 10 ** 6), (dependent_lambdas, 10 ** 6),
    (binders_mentioned, 10 ** 5), (arguments, 10 ** 6), (nested_arguments, 10 ** 6),
    (dependent_arguments, 10 ** 5), (different_arguments, 400), (arguments_alike, 4000),
    (alike_in_units, 10 ** 4), (dependent_alike, 10 ** 4),
    (beta, 10 ** 6), (lets, 10 ** 6), (lets_mentioned, 10 ** 5), (let_values, 10 ** 6), (projections, 10 ** 6),
    (successors, 10 ** 6), (maxima, 10 ** 6), (shared_levels, 10 ** 5), (shared_imax, 10 ** 5), (wide_levels, 16),
    (wide_cycles, 16), (wide_left, 16),
    (components, 10 ** 6), (long_names, 10 ** 5), (parameters, 10 ** 5), (deep_levels, 10 ** 5),
    (greatest_parameter, 10 ** 4),
    (constructors, 10 ** 5), (enumeration, 1000), (fields_alone, 10 ** 5), (fields, 1000), (dependent_fields, 10 ** 5),
    (parameters_in_turn, 10 ** 5), (fields_in_turn, 10 ** 5), (field_projections, 10 ** 4), (type_parameters, 1000),
    (indices, 10 ** 5), (mutual, 2000), (blocks, 10 ** 5), (nested, 1000),
    (axioms, 10 ** 6), (theorems, 10 ** 6), (refused, 10 ** 6), (unfolding, 10 ** 5), (many_axioms, 10 ** 5),
    (gathered_axioms, 10 ** 4), (axioms_of_one_type, 10 ** 5), (uses_of_one_constant, 10 ** 5),
    (uses_of_five_constants, 2 * 10 ** 4), (heavy_and_light, 10 ** 4),
    (doubled_pis, 4000), (doubled_arguments, 4000), (doubled_lets, 4000), (doubled_unequal, 4000), (doubled_variable, 4000),
    (doubled_fields, 4000), (doubled_parameter, 4000),
    (blank_lines, 10 ** 7), (spaces, 10 ** 7), (digits, 10 ** 7), (characters, 10 ** 6),
]


if __name__ == '__main__':
    made = {family.__name__: family for family, _ in FAMILIES}
    if len(sys.argv) != 3 or sys.argv[1] not in made:
        sys.exit(f'{__doc__}\nfamilies: {" ".join(made)}')
    sys.stdout.buffer.write(made[sys.argv[1]](int(sys.argv[2])))
