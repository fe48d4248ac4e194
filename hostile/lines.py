"""A file that grows line by line."""


class Lines:
    """A file that grows line by line. What stands for a name, a level or a term is its number."""

    def __init__(self):
        self.lines, self.next = [], [1, 1, 0, 0]
        self.prop = self.term('#ES 0')
        self.one = self.level('#US 0')
        self.type = self.term(f'#ES {self.one}')

    def made(self, numbering, text):
        number = self.next[numbering]
        self.next[numbering] += 1
        self.lines.append(f'{number} {text}')
        return number

    def name(self, text, below=0):
        return self.made(0, f'#NS {below} {text}')

    def level(self, text):
        return self.made(1, text)

    def term(self, text):
        return self.made(2, text)

    def rule(self, text):
        return self.made(3, text)

    def variable(self, index):
        return self.term(f'#EV {index}')

    def sort(self, level):
        return self.term(f'#ES {level}')

    def pi(self, domain, body):
        return self.term(f'#EP #BD 0 {domain} {body}')

    def lambda_(self, domain, body):
        return self.term(f'#EL #BD 0 {domain} {body}')

    def apply(self, function, *arguments):
        for argument in arguments:
            function = self.term(f'#EA {function} {argument}')
        return function

    def constant(self, name, levels=()):
        return self.term(' '.join(map(str, ['#EC', name, *levels])))

    def state(self, *fields):
        self.lines.append(' '.join(map(str, fields)))

    def axiom(self, text, type_, levels=()):
        """The constant of a new axiom."""
        name = self.name(text)
        self.state('#AX', name, type_, *levels)
        return self.constant(name)

    def definition(self, text, type_, value, levels=()):
        self.state('#DEF', self.name(text), type_, value, 'A', *levels)

    def theorem(self, text, type_, proof):
        self.state('#THM', self.name(text), type_, proof)

    def bytes(self):
        return ('\n'.join(self.lines) + '\n').encode()
