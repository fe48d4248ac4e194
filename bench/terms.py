"""Terms, blocks of inductive types with their recursors, and the lines that state them: what the generators share."""
from collections import namedtuple

# ---- Terms. A variable is the Local that its binder binds; its index is found where its line is made.

Sort = namedtuple('Sort', 'level')                  # a level is 0, a parameter's name, or ('#US', l), ('#UM', l, l)
Constant = namedtuple('Constant', 'name levels')    # a name is the tuple of its components
Application = namedtuple('Application', 'function argument')
Projection = namedtuple('Projection', 'structure field subject')
Number = namedtuple('Number', 'value')
Binder = namedtuple('Binder', 'tag local body')
PROP, TYPE = Sort(0), Sort(('#US', 0))


class Local:
    """A variable. In `recursive` a field of a type of its own block has (binders, that type's name, indices)."""

    def __init__(self, name, type_, info='#BD', recursive=None):
        self.name, self.type, self.info, self.recursive = name, type_, info, recursive


def constant(name, *levels):
    return Constant(tuple(name.split('.')), levels)


def apply(function, *arguments):
    for argument in arguments:
        function = Application(function, argument)
    return function


def bind(tag, binders, body):
    for local in reversed(binders):
        body = Binder(tag, local, body)
    return body


def pis(binders, body):
    return bind('#EP', binders, body)


def lambdas(binders, body):
    return bind('#EL', binders, body)


def at_recursive(tag, field, heads):
    """What a recursor has for a recursive field: the head of its type, at the field's indices and the field."""
    under, type_name, indices = field.recursive
    return bind(tag, under, apply(heads[type_name], *indices, apply(field, *under)))


# ---- Blocks

Type = namedtuple('Type', 'name indices constructors')


class Constructor:
    def __init__(self, name, *fields, indices=()):
        self.name, self.fields, self.indices = name, list(fields), indices
        self.recursive = [field for field in fields if field.recursive]


class Block:
    """Types with their constructors over common parameters. `large` is whether recursors go to every Sort."""

    def __init__(self, sort, levels=(), parameters=(), large=True, k=0):
        self.sort, self.levels, self.parameters = sort, levels, list(parameters)
        self.large, self.k, self.types = large, k, []

    def with_type(self, name, indices, *constructors):
        """The block with one type more."""
        self.types.append(Type(name, indices, constructors))
        return self

    def constructors(self):
        return [(type_, each) for type_ in self.types for each in type_.constructors]

    def applied(self, *name, to=()):
        """A type or a constructor at the parameters and what follows."""
        return apply(Constant(name, self.levels), *self.parameters, *to)

    def recursive(self, name, type_name, *indices, under=()):
        """A field of that type of the block, or of functions to it from what is in `under`."""
        return Local(name, pis(under, self.applied(type_name, to=indices)), recursive=(under, type_name, indices))

    def recursors(self):
        """For each type its recursor: (level parameters, type, rules' values, how many minor premises)."""
        universe = 'u_1' if 'u' in self.levels else 'u'
        levels = (universe, *self.levels) if self.large else self.levels
        target = Sort(universe) if self.large else PROP
        majors = {type_.name: Local('t', self.applied(type_.name, to=type_.indices)) for type_ in self.types}
        motives = {type_.name: Local('motive' if len(self.types) == 1 else f'motive_{number}',
                                     pis([*type_.indices, majors[type_.name]], target), '#BI')
                   for number, type_ in enumerate(self.types, 1)}
        minors = {each: self.minor_premise(type_, each, motives) for type_, each in self.constructors()}
        before = [*self.parameters, *motives.values(), *minors.values()]
        recursors = {type_.name: apply(Constant((type_.name, 'rec'), levels), *before) for type_ in self.types}
        for name, indices, constructors in self.types:
            values = []
            for each in constructors:
                below = [at_recursive('#EL', field, recursors) for field in each.recursive]
                values.append(lambdas(before + each.fields, apply(minors[each], *each.fields, *below)))
            result = apply(motives[name], *indices, majors[name])
            yield levels, pis([*before, *indices, majors[name]], result), values, len(minors)

    def minor_premise(self, type_, constructor, motives):
        fields = constructor.fields
        hypotheses = [Local(field.name + '_ih', at_recursive('#EP', field, motives)) for field in constructor.recursive]
        built = self.applied(type_.name, constructor.name, to=fields)
        result = apply(motives[type_.name], *constructor.indices, built)
        return Local(constructor.name, pis(fields + hypotheses, result))


def nat(name='Nat'):
    block = Block(TYPE)
    return block.with_type(name, [], Constructor('zero'), Constructor('succ', block.recursive('n', name)))


def equality(name='Eq'):
    carrier = Local('α', Sort('u'), '#BI')
    left = Local('a', carrier)
    block = Block(PROP, ('u',), [carrier, left], k=1)
    return block.with_type(name, [Local('a', carrier)], Constructor('refl', indices=[left]))


# ---- Lines

NAME, LEVEL, TREE, RULE = range(4)      # the numberings; a declaration is in none


class Statements:
    """What states names, levels, terms and declarations. Whoever inherits gives `line`, and `anonymous` and `zero`.

    `line(numbering, tag, *fields, binder=())` is the line of these fields. Two that differ only in how the binder is
    called are one, as they are one tree.
    """

    def name(self, *name):
        return self.line(NAME, '#NS', self.name(*name[:-1]), name[-1]) if name else self.anonymous

    def level(self, level):
        if level == 0:
            return self.zero
        if isinstance(level, str):
            return self.line(LEVEL, '#UP', self.name(level))
        return self.line(LEVEL, level[0], *map(self.level, level[1:]))

    def tree(self, term, scope=()):
        if isinstance(term, Local):
            return self.line(TREE, '#EV', len(scope) - 1 - scope.index(term))
        if isinstance(term, Sort):
            return self.line(TREE, '#ES', self.level(term.level))
        if isinstance(term, Constant):
            return self.line(TREE, '#EC', self.name(*term.name), *map(self.level, term.levels))
        if isinstance(term, Application):
            return self.line(TREE, '#EA', self.tree(term.function, scope), self.tree(term.argument, scope))
        if isinstance(term, Projection):
            return self.line(TREE, '#EJ', self.name(*term.structure), term.field, self.tree(term.subject, scope))
        if isinstance(term, Number):
            return self.line(TREE, '#ELN', term.value)
        binder = term.local.info, self.name(term.local.name)
        domain, body = self.tree(term.local.type, scope), self.tree(term.body, (*scope, term.local))
        return self.line(TREE, term.tag, domain, body, binder=binder)

    def declaration(self, tag, name, type_, levels, *fields):
        self.line(None, tag, self.name(*name), self.tree(type_), *fields, *map(self.name, levels))

    def axiom(self, name, type_, levels=()):
        self.declaration('#AX', name, type_, levels)

    def definition(self, name, type_, value, levels=(), hint='A'):
        self.declaration('#DEF', name, type_, levels, self.tree(value), *hint.split())

    def theorem(self, name, type_, proof, levels=()):
        self.declaration('#THM', name, type_, levels, self.tree(proof))

    def block(self, block):
        family = len(block.types), *[self.name(type_.name) for type_ in block.types]
        for type_ in block.types:
            self.type_line(block, type_, family)
        for type_, constructor in block.constructors():
            self.constructor_line(block, type_, constructor)
        for type_, recursor in zip(block.types, block.recursors()):
            self.recursor_line(block, type_, family, *recursor)

    def type_line(self, block, type_, family):
        names = [self.name(type_.name, each.name) for each in type_.constructors]
        is_recursive = int(any(each.recursive for _, each in block.constructors()))
        self.declaration('#IND', (type_.name,), pis(block.parameters + type_.indices, block.sort), block.levels,
                         is_recursive, 0, len(block.parameters), len(type_.indices), *family, len(names), *names)

    def constructor_line(self, block, type_, each):
        stated = pis(block.parameters + each.fields, block.applied(type_.name, to=each.indices))
        self.declaration('#CTOR', (type_.name, each.name), stated, block.levels, self.name(type_.name),
                         type_.constructors.index(each), len(block.parameters), len(each.fields))

    def recursor_line(self, block, type_, family, levels, stated, values, minors):
        rules = [self.line(RULE, '#RR', self.name(type_.name, each.name), len(each.fields), self.tree(value))
                 for each, value in zip(type_.constructors, values)]
        self.declaration('#REC', (type_.name, 'rec'), stated, levels, *family, len(block.parameters),
                         len(type_.indices), len(block.types), minors, len(rules), *rules, block.k)


class File(Statements):
    """The lines of a file, each written where what it states is first needed."""
    anonymous = zero = 0

    def __init__(self):
        self.numbers, self.next_numbers, self.lines = {}, [1, 1, 0, 0], ['2.0.0']

    def line(self, numbering, tag, *fields, binder=()):
        """The number of the line."""
        number = self.numbers.get((numbering, tag, *fields))
        if number is None:
            text = ' '.join(map(str, (tag, *binder, *fields)))
            if numbering is not None:
                number = self.next_numbers[numbering]
                self.next_numbers[numbering] += 1
                self.numbers[numbering, tag, *fields] = number
                text = f'{number} {text}'
            self.lines.append(text)
        return number

    def write(self, out):
        out.write(''.join(line + '\n' for line in self.lines).encode())
