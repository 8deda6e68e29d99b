"""Documents and stylesheets by chance, as lines of PYX, for `tools/fuzz`. Most of them are good, and have a result."""
from lib.documents import SHEET

NAMES = ['a', 'b', 'c', 'item', 'p:a', 'q:b', 'é']
TEXTS = [
    'x', '1', '2', '10', '-3', ' ', r'\n', r'\t x', 'é', '\U0001F600', r'\\', '<&>"', ']]>', '{', '}', 'one two', '']
STRANGE_TEXTS = ['1.5', '9007199254740992', r'\q', '\ufffd']
DECLARATIONS = ['Axmlns:p urn:p', 'Axmlns:q urn:q']
GLOBALS = ['v', 'w', 'p:v']
AXES = ['child', 'descendant', 'parent', 'ancestor', 'following-sibling', 'preceding-sibling', 'following', 'preceding',
        'attribute', 'namespace', 'self', 'descendant-or-self', 'ancestor-or-self']
TESTS = NAMES + ['*', '*', 'p:*', 'node()', 'text()', 'comment()', 'processing-instruction()',
                 "processing-instruction('t')"]
PATHS = [
    '.', '..', '@*', '*', '//*', '/', 'a', 'a/b', '//item', '@a', 'text()', '../*', 'node()', '//text()', '*[2]',
    '/*/*']

# The functions of XPath 1.0 and XSLT 1.0 that xt has, with what each takes: n nodes, v any value, s and S a string (S may
# be left out), N nodes or nothing, i a number, k the name of a key, f the name of something.
FUNCTIONS = [
    ('last', ''), ('position', ''), ('count', 'n'), ('id', 'v'), ('local-name', 'N'), ('namespace-uri', 'N'),
    ('name', 'N'), ('string', 'S'), ('concat', 'ss'), ('concat', 'sss'), ('starts-with', 'ss'), ('contains', 'ss'),
    ('substring-before', 'ss'), ('substring-after', 'ss'), ('substring', 'si'), ('substring', 'sii'),
    ('string-length', 'S'), ('normalize-space', 'S'), ('translate', 'sss'), ('boolean', 'v'), ('not', 'v'),
    ('true', ''), ('false', ''), ('lang', 's'), ('number', 'S'), ('sum', 'n'), ('floor', 'i'), ('ceiling', 'i'),
    ('round', 'i'), ('key', 'kv'), ('current', ''), ('generate-id', 'N'), ('system-property', 'f'),
    ('element-available', 'f'), ('function-available', 'f'), ('unparsed-entity-uri', 's')]
UNKNOWN_FUNCTIONS = [
    "document('x')", "format-number(1, '0')", 'count()', 'lower-case(.)', 'p:f()', "count('a')", '.[', '$none']


class Growing:
    """Makes documents and stylesheets by chance."""

    def __init__(self, chance):
        self.chance = chance
        self.pick = chance.choice
        # The variables in scope, and how many local ones were made.
        self.scope = []
        self.made_variables = 0

    def may(self, percent):
        return self.chance.random() * 100 < percent

    def any_of(self, *makers):
        return self.pick(makers)()

    def perhaps(self, value, percent=50):
        return value if self.may(percent) else None

    def text(self):
        return self.pick(TEXTS if self.may(97) else STRANGE_TEXTS)

    # ---- Documents

    def nodes(self, depth):
        """Siblings: elements, texts, comments and processing instructions."""
        return [line for _ in range(self.chance.randint(0, 4)) for line in self.node(depth)]

    def node(self, depth):
        if depth > 0 and self.may(55):
            return self.element(depth - 1)
        if self.may(80):
            return ['-' + self.text()]
        return [self.pick(['C a comment', 'C', '?t x', '?t']) if self.may(95) else '?p:t x']

    def element(self, depth, declarations=()):
        name = self.pick(NAMES[:4] if self.may(80) else NAMES)
        attributes = {self.pick(NAMES): self.text() for _ in range(self.chance.randint(0, 2))}
        if self.may(4):
            name_of_one = self.pick(['xml:space', 'xml:lang', 'xmlns', 'xmlns:q', 'xmlns:r'])
            attributes[name_of_one] = self.pick(['preserve', 'default', 'en', 'urn:p'])
        lines = [f'A{key} {value}' for key, value in attributes.items()]
        return [f'({name}', *declarations, *lines, *self.nodes(depth), f'){name}']

    def document(self):
        around = ['C at the top'] if self.may(10) else []
        return around + self.element(self.chance.randint(1, 5), DECLARATIONS if self.may(97) else ()) + around

    # ---- Expressions and patterns

    def expression(self, depth=2):
        """An expression of any kind."""
        if self.may(1):
            return self.pick(UNKNOWN_FUNCTIONS)
        return self.pick([self.node_set, self.string, self.number, self.truth])(depth)

    def variable_or(self, other):
        return '$' + self.pick(self.scope) if self.scope and self.may(50) else other

    def string(self, depth):
        if depth == 0:
            return self.pick(["''", "'x'", '"1"', "'é'", "'a'", '.', 'name()', self.variable_or("'a b'")])
        make = self.pick([self.call, self.node_set, lambda depth: f'string({self.expression(depth)})'])
        return make(depth - 1)

    def number(self, depth):
        if depth == 0:
            return self.pick(['0', '1', '2', '10', '007', 'position()', 'last()', 'count(*)', 'string-length()', '-1',
                              '9007199254740991'])
        operator = self.pick(['+', '-', '*', 'mod', '+', '-'] if self.may(97) else ['div'])
        one, other = self.number(depth - 1), self.number(depth - 1)
        return self.pick([f'{one} {operator} {other}', f'-{one}', f'({one})', f'count({self.node_set(depth - 1)})'])

    def truth(self, depth):
        if depth == 0:
            return self.pick(['true()', 'false()', '*', '@a', '.', "'x'"])
        operator = self.pick(['or', 'and', '=', '!=', '<', '<=', '>', '>='])
        return f'{self.expression(depth - 1)} {operator} {self.expression(depth - 1)}'

    def node_set(self, depth):
        if depth == 0:
            return self.pick(PATHS)
        return self.any_of(
            lambda: self.pick(PATHS), lambda: self.steps(depth - 1), lambda: self.steps(depth - 1),
            lambda: f'{self.node_set(depth - 1)} | {self.node_set(depth - 1)}',
            lambda: f"key('k', {self.string(0)})",
            lambda: f'({self.node_set(depth - 1)})[{self.expression(depth - 1)}]/{self.relative(0)}')

    def step(self, depth):
        if self.may(10):
            return self.pick(['.', '..'])
        axis = self.pick(['', '', '', '@'] if self.may(70) else [name + '::' for name in AXES])
        predicate = f'[{self.expression(depth)}]' if self.may(25) else ''
        return axis + self.pick(TESTS) + predicate

    def relative(self, depth):
        return self.pick(['/', '/', '//']).join(self.step(depth) for _ in range(self.chance.randint(1, 3)))

    def steps(self, depth):
        return self.pick(['', '', '', '/', '//', './/']) + self.relative(depth)

    def call(self, depth):
        name, kinds = self.pick(FUNCTIONS)
        makers = {'n': self.node_set, 'N': self.node_set, 'v': self.expression, 's': self.string, 'S': self.string,
                  'i': self.number, 'k': lambda _: "'k'",
                  'f': lambda _: self.pick(["'xsl:version'", "'xsl:if'", "'count'", "'p:x'"])}
        left_out = kinds in ('N', 'S') and self.may(40)
        return f'{name}({", ".join([] if left_out else [makers[kind](depth) for kind in kinds])})'

    def without_scope(self, make):
        """Makes something where no variable may stand."""
        scope, self.scope = self.scope, []
        made = make()
        self.scope = scope
        return made

    def pattern(self):
        patterns = [self.without_scope(self.one_pattern) for _ in range(2 if self.may(10) else 1)]
        return ' | '.join(patterns)

    def one_pattern(self):
        if self.may(30):
            return self.pick(['/', '*', 'node()', 'a', '@*', 'text()', "key('k', '1')", "id('x')"])
        tests = [self.pick(TESTS) for _ in range(self.chance.randint(1, 2))]
        tests[-1] = self.pick(['', '', '', '@', 'child::', 'attribute::']) + tests[-1]
        condition = self.pick(['1', 'last()', '@a', 'position() > 1', 'text()', self.truth(1)])
        predicate = f'[{condition}]' if self.may(25) else ''
        return self.pick(['', '', '', '/', '//']) + self.pick(['/', '//']).join(tests) + predicate

    def template(self):
        """A value template."""
        if self.may(40):
            return self.pick(['x', 'a', '1', '{{'])
        return '{' + self.expression(1) + '}' + self.pick(['', 'x', '}}'])

    # ---- Instructions

    def made(self, name, attributes, content=()):
        """An element of XSLT, with those of its attributes that are there."""
        lines = [f'A{key} {value}' for key, value in attributes.items() if value is not None]
        return [f'(xsl:{name}', *lines, *content, f')xsl:{name}']

    def body(self, depth):
        """Instructions, in a scope of their own."""
        known = len(self.scope)
        lines = [line for _ in range(self.chance.randint(0, 3)) for line in self.instruction(depth - 1)]
        del self.scope[known:]
        return lines

    def instruction(self, depth):
        simple = [self.value_of, self.a_text, self.numbering, lambda: self.made('copy-of', {'select': self.expression()})]
        if depth <= 0:
            return self.any_of(*simple)
        return self.any_of(
            *simple, self.apply, self.apply, self.call_template, lambda: self.for_each(depth), lambda: self.choose(depth),
            lambda: self.making(depth), lambda: self.making(depth), lambda: self.literal_element(depth),
            lambda: self.literal_element(depth), lambda: self.local(depth),
            lambda: self.made('if', {'test': self.expression()}, self.body(depth)),
            lambda: self.made('copy', {'use-attribute-sets': self.perhaps('s', 10)}, self.body(depth)),
            lambda: self.rare(depth))

    def rare(self, depth):
        terminate = self.perhaps(self.pick(['no', 'no', 'yes']), 30)
        return self.any_of(lambda: self.made('apply-imports', {}), lambda: self.made('fallback', {}, self.body(depth)),
                           lambda: self.made('message', {'terminate': terminate}, self.body(depth)))

    def value_of(self):
        return self.made('value-of', {'select': self.expression()})

    def a_text(self):
        line = ['-' + self.text()]
        return line if self.may(70) else self.made('text', {'disable-output-escaping': self.perhaps('yes', 20)}, line)

    def numbering(self):
        groups = self.may(20)
        return self.made('number', {
            'value': self.perhaps(self.number(1)), 'level': self.perhaps(self.pick(['single', 'multiple', 'any']), 40),
            'count': self.perhaps(self.pattern(), 30), 'from': self.perhaps(self.pattern(), 20),
            'format': self.perhaps(self.pick(['1', 'a', 'A', 'i', 'I', '001', '(1.a)', '{name()}', '1.1'])),
            'grouping-separator': ',' if groups else None, 'grouping-size': '3' if groups else None})

    def sorts(self):
        if self.may(70):
            return []
        return self.made('sort', {
            'select': self.perhaps(self.expression(1)), 'data-type': self.perhaps(self.pick(['text', 'number']), 40),
            'order': self.perhaps(self.pick(['ascending', 'descending'] if self.may(97) else ['{name()}']), 40)})

    def passed(self):
        return self.made('with-param', {'name': self.pick(GLOBALS), 'select': self.expression(1)}) if self.may(30) else []

    def apply(self):
        select = self.perhaps(self.pick(['*', 'node()', '@*', '*/*', 'text()', '*[2]', 'a | b']))
        return self.made('apply-templates', {'select': select, 'mode': self.perhaps(self.pick(['m', 'p:m']), 20)},
                         self.sorts() + self.passed())

    def call_template(self):
        return self.made('call-template', {'name': self.pick(['t', 'u']) if self.may(98) else 'none'}, self.passed())

    def for_each(self, depth):
        return self.made('for-each', {'select': self.node_set(1)}, self.sorts() + self.body(depth - 1))

    def choose(self, depth):
        otherwise = self.made('otherwise', {}, self.body(depth)) if self.may(50) else []
        return self.made('choose', {}, self.made('when', {'test': self.expression()}, self.body(depth)) + otherwise)

    def making(self, depth):
        kind = self.pick(['element', 'attribute', 'attribute', 'comment', 'processing-instruction'])
        named = {} if kind == 'comment' else {'name': self.template() if self.may(30) else self.pick(['a', 'b', 'p:a'])}
        spaced = {'namespace': self.perhaps(self.template(), 20)} if kind in ('element', 'attribute') else {}
        if kind == 'processing-instruction':
            named = {'name': self.pick(['t', 't', 't', self.template()])}
        return self.made(kind, {**named, **spaced}, self.body(depth))

    def literal_element(self, depth):
        name = self.pick(NAMES)
        attributes = [f'A{key} {self.template()}' for key in self.chance.sample(NAMES, self.chance.randint(0, 2))]
        used = ['Axsl:use-attribute-sets s'] if self.may(5) else []
        return [f'({name}', *attributes, *used, *self.body(depth), f'){name}']

    def local(self, depth):
        """A local variable, which is in scope behind it."""
        self.made_variables += 1
        name = f'x{self.made_variables}'
        lines = self.variable(name, depth)
        self.scope.append(name)
        return lines

    def variable(self, name, depth, kind='variable'):
        if self.may(60):
            return self.made(kind, {'name': name, 'select': self.expression()})
        return self.made(kind, {'name': name}, self.body(depth))

    # ---- Stylesheets

    def rule(self):
        known = list(self.scope)
        parameters = self.variable(self.pick(GLOBALS), 1, 'param') if self.may(20) else []
        lines = self.made('template', {
            'match': self.pattern(), 'mode': self.perhaps(self.pick(['m', 'p:m']), 10),
            'priority': self.perhaps(self.pick(['1', '-1', '0.5', '.25']), 20)}, parameters + self.body(3))
        self.scope = known
        return lines

    def declaration(self):
        return self.any_of(
            lambda: self.made('key', {'name': 'k', 'match': self.pattern(), 'use': self.pick(['.', '@a', 'name()', '*'])}),
            lambda: self.made('strip-space', {'elements': self.pick(['*', 'a b', 'p:*'])}),
            lambda: self.made('preserve-space', {'elements': self.pick(['*', 'a', 'p:a'])}),
            lambda: self.made('output', {'method': self.pick(['xml', 'text', 'html'])}),
            lambda: self.made('namespace-alias', {'stylesheet-prefix': 'p', 'result-prefix': self.pick(['q', 'xsl'])}))

    def shared(self):
        """What rules name: variables and parameters at the top, named templates, and an attribute set."""
        lines = []
        for name in GLOBALS:
            lines += self.variable(name, 2, self.pick(['variable', 'param']))
            self.scope.append(name)
        for name in ('t', 'u'):
            lines += self.made('template', {'name': name}, self.variable(self.pick(GLOBALS), 1, 'param') + self.value_of())
        return lines + self.made('attribute-set', {'name': 's'}, self.made('attribute', {'name': 'a'}, self.a_text()))

    def module(self, parts, links=()):
        inner = [line for _ in range(parts) for line in (self.rule() if self.may(75) else self.declaration())]
        return [*SHEET, *(DECLARATIONS if self.may(98) else ()), *links, *inner]

    def stylesheet(self, names=()):
        """A principal module, which imports and includes modules of these names, and their lines by their names."""
        self.scope, self.made_variables = [], 0
        links = [line for name in names if self.may(80)
                 for line in self.made(self.pick(['import', 'import', 'include']), {'href': name})]
        shared = self.shared() if self.may(97) else []
        modules = {name: self.module(self.chance.randint(0, 4)) + [')xsl:stylesheet'] for name in names}
        return {'main': self.module(self.chance.randint(1, 6), links) + shared + [')xsl:stylesheet'], **modules}
