"""Families of files whose trees are exponential in the depth of their lines: of a number n the bytes of a file."""
from lines import Lines


def doubled_pis(n):
    """n types that double 90 times, each over another axiom."""
    f = Lines()
    for number in range(n):
        body = f.axiom(f'p{number}', f.prop)
        for _ in range(90):
            body = f.pi(body, body)
        f.axiom(f'a{number}', body)
    return f.bytes()


def doubled_arguments(n):
    """n values g x x, where x is such a value, 90 deep."""
    f = Lines()
    g = f.axiom('g', f.pi(f.prop, f.pi(f.prop, f.prop)))
    for number in range(n):
        value = f.axiom(f'p{number}', f.prop)
        for _ in range(90):
            value = f.apply(g, value, value)
        f.definition(f'd{number}', f.prop, value)
    return f.bytes()


def doubled_lets(n):
    """n times let x1 := g x0 x0; let x2 := g x1 x1; .., 30 deep."""
    f = Lines()
    g = f.axiom('g', f.pi(f.prop, f.pi(f.prop, f.prop)))
    last = f.variable(0)
    both = f.apply(g, last, last)
    for number in range(n):
        p = f.axiom(f'p{number}', f.prop)
        body = last
        for _ in range(30):
            body = f.term(f'#EZ 0 {f.prop} {both} {body}')
        f.definition(f'd{number}', f.prop, f.term(f'#EZ 0 {f.prop} {p} {body}'))
    return f.bytes()


def doubled_unequal(n):
    """n proofs of Q x for Q y, where x and y double 60 times from two values that are equal by unfolding."""
    f = Lines()
    g = f.axiom('g', f.pi(f.prop, f.pi(f.prop, f.prop)))
    q = f.axiom('Q', f.pi(f.prop, f.prop))
    for number in range(n):
        left = f.axiom(f'p{number}', f.prop)
        name = f.name(f'e{number}')
        f.state('#DEF', name, f.prop, left, 'A')
        right = f.constant(name)
        for _ in range(60):
            left, right = f.apply(g, left, left), f.apply(g, right, right)
        h = f.axiom(f'h{number}', f.apply(q, left))
        f.theorem(f't{number}', f.apply(q, right), h)
    return f.bytes()


def doubled_variable(n):
    """n functions (fun x => g (..) (..)), doubled 60 times from the variable, at an argument."""
    f = Lines()
    g = f.axiom('g', f.pi(f.prop, f.pi(f.prop, f.prop)))
    q = f.axiom('Q', f.pi(f.prop, f.prop))
    value = f.variable(0)
    for _ in range(60):
        value = f.apply(g, value, value)
    function = f.lambda_(f.prop, value)
    for number in range(n):
        p = f.axiom(f'p{number}', f.prop)
        h = f.axiom(f'h{number}', f.apply(q, f.apply(function, p)))
        for _ in range(60):
            p = f.apply(g, p, p)
        f.theorem(f't{number}', f.apply(q, p), h)
    return f.bytes()


def doubled_fields(n):
    """n blocks with a field that doubles 90 times over an axiom."""
    f = Lines()
    for number in range(n):
        body = f.axiom(f'p{number}', f.prop)
        for _ in range(90):
            body = f.pi(body, body)
        name = f.name(f'T{number}')
        make = f.name('mk', name)
        type_ = f.constant(name)
        f.state('#IND', name, f.type, 1, 0, 0, 0, 1, name, 1, make)
        f.state('#CTOR', make, f.pi(f.pi(body, type_), type_), name, 0, 0, 1)
    return f.bytes()


def doubled_parameter(n):
    """n blocks over a proposition, with a field that doubles 60 times from it, under a variable."""
    f = Lines()
    for number in range(n):
        name = f.name(f'T{number}')
        make = f.name('mk', name)
        g = f.axiom(f'g{number}', f.pi(f.prop, f.pi(f.prop, f.prop)))
        value = f.variable(0)
        for _ in range(60):
            value = f.apply(g, value, value)
        constant = f.constant(name)
        f.state('#IND', name, f.pi(f.prop, f.type), 1, 0, 1, 0, 1, name, 1, make)
        stated = f.pi(f.prop, f.pi(value, f.apply(constant, f.variable(1))))
        f.state('#CTOR', make, stated, name, 0, 1, 1)
    return f.bytes()
