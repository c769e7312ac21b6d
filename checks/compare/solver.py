"""Whether some values fit a row of conditions, as a Python text: finds them by the equations."""


def names_in(tree):
    """The names that a tree uses."""
    if tree and tree[0] == 'name':
        return {tree[1][0]}
    found = set()
    for part in tree:
        if isinstance(part, (tuple, list)):
            found |= names_in(part)
    return found


def flat(binders, conditions):
    """The binders and conditions with those of conjunctions and inner `some` beside them."""
    variables, facts = [], []
    for name, kind in binders:
        (variables if is_data(kind) else facts).append((name, kind))
    facts = [kind for _, kind in facts] + list(conditions)
    plain = []
    while facts:
        fact = facts.pop(0)
        if fact[0] == 'op' and fact[1] == '×':
            facts[:0] = [fact[2], fact[3]]
        elif fact[0] == 'some':
            inner, rest = flat(fact[1], [fact[2]])
            variables += inner
            facts[:0] = rest
        else:
            plain.append(fact)
    return variables, plain


DATA = ('ℕ', 'Bool', 'T', 'A', 'X', 'Control', 'History', 'View', 'Call', 'Reply', 'Option',
        'List', 'Listeners', 'Pair', 'Kind', 'Cursors', 'Places', 'Effect')


def is_data(kind):
    """Whether a type has values of its own, and is no condition."""
    head = kind[1] if kind[0] == 'apply' else kind
    if head[0] == 'name' and head[1][-1] in DATA:
        return True
    return kind[0] == 'op' and kind[1] == '→' and kind[3] == ('name', ('Bool',))


def kind_name(kind):
    """The type's name, as the domains have it."""
    head = kind[1] if kind[0] == 'apply' else kind
    name = head[1][-1] if head[0] == 'name' else 'function'
    return f'List {kind_name(kind[2][0])}' if name == 'List' else name


def is_some(tree):
    """Whether a tree is `Some` of something."""
    return tree[0] == 'apply' and tree[1] == ('name', ('Some',))


class Search:
    """The clauses of one search, while they are written."""

    def __init__(self, compiler, variables, facts, scope):
        """`variables` are those that have to be found."""
        self.compiler = compiler
        self.open = dict(variables)
        self.facts = facts
        self.scope = scope
        self.clauses = []

    def bind(self, name, source):
        """The variable takes each of the values of a source."""
        self.scope[name] = self.compiler.new_name()
        self.clauses.append(f'for {self.scope[name]} in {source}')
        del self.open[name]

    def known(self, tree):
        """Whether a tree uses no variable that is still to be found."""
        return not names_in(tree) & set(self.open)

    def check_known(self):
        """Checks a condition whose variables are all found."""
        for fact in self.facts:
            if self.known(fact):
                self.clauses.append('if ' + self.compiler.value(fact, self.scope))
                self.facts.remove(fact)
                return True
        return False

    def match_equation(self):
        """Finds variables by an equation with a pattern."""
        for fact in self.facts:
            if fact[0] == 'op' and fact[1] == '≡':
                for value, pattern in ((fact[2], fact[3]), (fact[3], fact[2])):
                    if self.known(value) and self.is_pattern(pattern):
                        self.take_apart(value, pattern)
                        return True
        return False

    def is_pattern(self, tree):
        """Whether a tree is built of variants, pairs and variables."""
        if tree[0] == 'name':
            return tree[1][0] in self.open or self.compiler.constructor(tree[1]) is not None
        if tree[0] == 'pair':
            return self.is_pattern(tree[1]) and self.is_pattern(tree[2])
        return (tree[0] == 'apply' and tree[1][0] == 'name'
                and self.compiler.constructor(tree[1][1]) is not None
                and all(self.is_pattern(part) or self.known(part) for part in tree[2]))

    def take_apart(self, value, pattern):
        """The parts of a value, for the variables of a pattern; the equation is checked after."""
        name, tests, names = self.compiler.new_name(), [], {}
        self.clauses.append(f'for {name} in ({self.compiler.value(value, self.scope)},)')
        self.compiler.pattern(self.blanked(pattern), name, tests, names)
        self.clauses += ['if ' + test for test in tests]
        for variable, part in names.items():
            if variable in self.open:
                self.bind(variable, f'({part},)')

    def blanked(self, tree):
        """The pattern with a blank for each part that is known already."""
        if tree[0] == 'name' and tree[1][0] in self.open:
            return tree
        if tree[0] == 'pair':
            return ('pair', self.blanked(tree[1]), self.blanked(tree[2]))
        if tree[0] == 'apply' and not self.known(tree):
            return ('apply', tree[1], [self.blanked(part) for part in tree[2]])
        return ('name', ('_',))

    def look_up(self):
        """Finds a key or an index by a look-up."""
        for fact in self.facts:
            if fact[0] == 'op' and fact[1] == '≡':
                for tree, other in ((fact[2], fact[3]), (fact[3], fact[2])):
                    if self.is_look_up(tree) and is_some(other):
                        name, source = tree[2][1][1][0], tree[2][0]
                        text = self.compiler.value(source, self.scope)
                        self.bind(name, SOURCES[tree[1][1][0]].format(text))
                        return True
        return False

    def is_look_up(self, tree):
        """Whether a tree looks up a variable in what is known."""
        return (tree[0] == 'apply' and tree[1][0] == 'name' and tree[1][1][0] in SOURCES
                and len(tree[2]) == 2 and self.known(tree[2][0])
                and tree[2][1][0] == 'name' and tree[2][1][1][0] in self.open
                and len(tree[2][1][1]) == 1)

    def text(self):
        """The whole search."""
        while self.open or self.facts:
            if self.check_known() or self.match_equation() or self.look_up():
                continue
            name, kind = next(iter(self.open.items()))
            self.bind(name, f'domain({kind_name(kind)!r})')
        clauses = ' '.join(self.clauses)
        return f'any(True for _ in (0,) {clauses})'


SOURCES = {'get': 'list({})', 'cursor_of': "list({}['cursors'])", 'slice_get': 'range(len({}))'}


def exists(compiler, binders, conditions, scope):
    """Whether some values of the binders fit the conditions."""
    variables, facts = flat(binders, conditions)
    return Search(compiler, variables, facts, dict(scope)).text()
