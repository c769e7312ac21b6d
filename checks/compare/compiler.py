"""Turns definitions into Python functions."""

from library import FUNCTIONS, OPERATORS, Function, call, project
from solver import exists

CONSTRUCTORS = {'Some': 1, 'None': 0, 'Ok': 1, 'Err': 1, 'Ready': 1, 'Pending': 0}


def parts_of(tree):
    """The head of a use of a function, and its arguments."""
    return (tree[1], tree[2]) if tree[0] == 'apply' else (tree, [])


class Compiler:
    """Python's text of one file's definitions."""

    def __init__(self, files, file, variants):
        """`files` are all files by name; `variants` the enums of the sources."""
        self.files = files
        self.file = file
        self.variants = variants
        self.group = []
        self.fresh = 0

    def new_name(self):
        """A name of Python that nothing else has."""
        self.fresh += 1
        return f'_{self.fresh}'

    def owner(self, file, name):
        """The definition that a name of a file means, or the name of a library's function."""
        if name in file.definitions:
            return file.definitions[name]
        if name not in file.imports:
            return name if name in FUNCTIONS else self.anywhere(name)
        module, name = file.imports[name]
        last = module.split('.')[-1]
        if '.bcast_model.specs.' in module and last in self.files:
            return self.owner(self.files[last], name)
        return f'{last}.{name}' if last in ('FinMap', 'FinSet') else name

    def anywhere(self, name):
        """The definition that any file has under a name, as a wrong edit may bring one."""
        for file in self.files.values():
            if name in file.definitions:
                return file.definitions[name]
        return name

    def constructor(self, parts):
        """(variant, how many values it holds), if the name is one's."""
        if len(parts) == 1 and parts[0] in CONSTRUCTORS:
            return parts[0], CONSTRUCTORS[parts[0]]
        if len(parts) == 2 and parts[0] in self.file.aliases:
            path = self.file.aliases[parts[0]].split('.')
            if path[-1] == 'TheVariants':
                return parts[1], self.variants.get(path[-2], CONSTRUCTORS)[parts[1]]
        return None

    def value(self, tree, scope):
        """Python's text of an expression; `scope` says what each variable is called."""
        return getattr(self, 'value_' + tree[0])(tree, scope)

    def value_number(self, tree, scope):
        """A number."""
        return str(tree[1])

    def value_text(self, tree, scope):
        """A text."""
        return repr(tree[1])

    def value_nil(self, tree, scope):
        """The empty list."""
        return '()'

    def value_name(self, tree, scope):
        """A variable, with its fields, or a function without arguments."""
        return self.value_apply(('apply', tree, []), scope)

    def value_apply(self, tree, scope):
        """A function at its arguments."""
        head, arguments = tree[1], [self.value(part, scope) for part in tree[2]]
        if head[0] != 'name':
            return self.called(self.value(head, scope), arguments)
        parts = head[1]
        if parts[0] in scope:
            return self.called(self.fields(scope[parts[0]], parts[1:]), arguments)
        held = self.constructor(parts)
        if held:
            return self.built(held, arguments)
        name = '.'.join(parts)
        if parts[0] in self.file.aliases:
            name = self.file.aliases[parts[0]].split('.')[-1] + '.' + parts[1]
        owner = self.owner(self.file, name)
        if isinstance(owner, str):
            if owner not in FUNCTIONS:
                return f'unknown({owner!r})'
            return self.applied(f'FUNCTIONS[{owner!r}][1]', FUNCTIONS[owner][0], arguments)
        if owner.file is self.file and owner.group and owner.group == self.group:
            arguments = [scope[parameter] for parameter in self.group] + arguments
        return self.applied(python_name(owner), owner.arity(), arguments)

    def called(self, function, arguments):
        """A function value at arguments."""
        return f'call({", ".join([function] + arguments)})' if arguments else function

    def built(self, held, arguments):
        """A variant with its values, or as a function that takes them."""
        variant, count = held
        if len(arguments) == count:
            return '(' + ', '.join([repr(variant)] + arguments) + ',)'
        some = ''.join(argument + ', ' for argument in arguments)
        return f'Function(lambda *held: ({variant!r},) + held, {count}, ({some}))'

    def applied(self, function, arity, arguments):
        """A known function at as many arguments as it takes, or at fewer or more."""
        if len(arguments) < arity:
            held = ''.join(argument + ', ' for argument in arguments)
            return f'Function({function}, {arity}, ({held}))'
        first = f'{function}({", ".join(arguments[:arity])})'
        return self.called(first, arguments[arity:])

    def fields(self, value, names):
        """A value's field of a field."""
        for name in names:
            value = f'project({value}, {name!r})' if name.isdigit() else f'{value}[{name!r}]'
        return value

    def value_project(self, tree, scope):
        """A field of what stands in parentheses."""
        return self.fields(self.value(tree[1], scope), tree[2])

    def value_op(self, tree, scope):
        """An operator between two values."""
        left, right = self.value(tree[2], scope), self.value(tree[3], scope)
        return OPERATORS[tree[1]].format(left, right)

    def value_pair(self, tree, scope):
        """A pair."""
        return f"('Pair', {self.value(tree[1], scope)}, {self.value(tree[2], scope)})"

    def value_if(self, tree, scope):
        """A choice."""
        test, yes, no = (self.value(part, scope) for part in tree[1:])
        return f'({yes} if {test} else {no})'

    def value_let(self, tree, scope):
        """A value with a name."""
        name = self.new_name()
        body = self.value(tree[3], {**scope, tree[1]: name})
        return f'(lambda {name}: {body})({self.value(tree[2], scope)})'

    def value_lambda(self, tree, scope):
        """A function without a name."""
        names = [self.new_name() for _ in tree[1]]
        body = self.value(tree[2], {**scope, **dict(zip(tree[1], names))})
        return f'Function(lambda {", ".join(names)}: {body}, {len(names)})'

    def value_record(self, tree, scope):
        """A record, or one with some fields changed."""
        fields = ''.join(f'{name!r}: {self.value(value, scope)}, ' for name, value in tree[2])
        base = f'**{self.value(tree[1], scope)}, ' if tree[1] else ''
        return '{' + base + fields + '}'

    def value_some(self, tree, scope):
        """Whether some values are so."""
        return exists(self, tree[1], [tree[2]], scope)

    def value_all(self, tree, scope):
        """Whether all values are so: none is against it."""
        parts, rest = [], tree[2]
        while rest[0] == 'op' and rest[1] == '→':
            parts.append(rest[2])
            rest = rest[3]
        return f'(not {exists(self, tree[1], parts + [("not", rest)], scope)})'

    def value_not(self, tree, scope):
        """What isn't so."""
        return f'(not {self.value(tree[1], scope)})'

    def pattern(self, tree, value, tests, names):
        """Adds the tests that a value must pass, and the names that its parts get."""
        head, arguments = parts_of(tree)
        held = self.constructor(head[1]) if head[0] == 'name' else None
        if held:
            tests.append(f'{value}[0] == {held[0]!r}')
            for index, part in enumerate(arguments):
                self.pattern(part, f'{value}[{index + 1}]', tests, names)
        elif tree[0] == 'name' and tree[1][0] in ('true', 'false'):
            tests.append(f'{value} is {tree[1][0].capitalize()}')
        elif tree[0] == 'name':
            names[tree[1][0]] = value
        elif tree[0] == 'nil':
            tests.append(f'not {value}')
        elif tree[0] == 'number':
            tests.append(f'{value} == {tree[1]}')
        elif tree[0] == 'pair':
            self.pattern(tree[1], f'{value}[1]', tests, names)
            self.pattern(tree[2], f'{value}[2]', tests, names)
        elif tree[0] == 'op' and tree[1] == '∷':
            tests.append(value)
            self.pattern(tree[2], f'{value}[0]', tests, names)
            self.pattern(tree[3], f'{value}[1:]', tests, names)
        else:
            raise SyntaxError(f'no pattern: {tree}')

    def definition(self, definition):
        """Python's text of a definition."""
        self.group = definition.group
        scope = {name: f'_g{index}' for index, name in enumerate(definition.group)}
        if definition.record:
            parameters, fields = definition.record
            scope.update((name, f'_a{index}') for index, name in enumerate(parameters))
            lines = ['    return ' + exists(self, fields, [], scope)]
        else:
            parameters, lines = definition.equations[0][0], []
            for patterns, body in definition.equations:
                lines.append(self.equation(patterns, body, scope))
            lines.append('    raise LookupError("no equation fits")')
        names = list(scope.values())[:len(definition.group)]
        names += [f'_a{index}' for index in range(len(parameters))]
        return f'def {python_name(definition)}({", ".join(names)}):\n' + '\n'.join(lines) + '\n'

    def equation(self, patterns, body, scope):
        """Python's text of an equation."""
        tests, names = [], {}
        for index, tree in enumerate(patterns):
            self.pattern(tree, f'_a{index}', tests, names)
        text = 'return ' + self.value(body, {**scope, **names})
        return f'    if {" and ".join(tests)}:\n        {text}' if tests else f'    {text}'


def python_name(definition):
    """What a definition is called in Python."""
    return f'{definition.file.name}__{definition.name}'.replace('×', 'x').replace('-', '_')


def unknown(name):
    """A name that has no meaning here was asked for its value."""
    raise NotImplementedError(f'{name} is not evaluated')


class Definitions:
    """The definitions of a folder as Python functions."""

    def __init__(self, files, variants):
        """`domains`: the values of each type for quantifiers without an equation."""
        self.files = files
        self.domains = {}
        self.known = {}
        self.space = {'call': call, 'Function': Function, 'project': project,
                      'FUNCTIONS': FUNCTIONS, 'unknown': unknown, 'domain': self.domain}
        self.variants = variants
        for file in files.values():
            for definition in file.definitions.values():
                self.replace(definition)

    def replace(self, definition):
        """Takes this form of a definition in place of the one that was there."""
        compiler = Compiler(self.files, definition.file, self.variants)
        exec(compiler.definition(definition), self.space)
        self.known.clear()
        if definition.name == 'next':
            name = python_name(definition)
            self.space[name] = self.remembered(self.space[name])

    def remembered(self, function):
        """The function, which keeps what it returned for the very same arguments."""
        def again(*arguments):
            """What it returned before, or returns now."""
            key = tuple(id(argument) for argument in arguments)
            if key not in self.known:
                if len(self.known) > 400:
                    self.known.clear()
                self.known[key] = arguments, function(*arguments)
            return self.known[key][1]
        return again

    def domain(self, kind):
        """The values that a variable of this type goes through."""
        if kind not in self.domains:
            raise NotImplementedError(f'all values of {kind}')
        return self.domains[kind]

    def named(self, name):
        """The function of this name, or None."""
        for file in self.files.values():
            if name in file.definitions:
                definition = file.definitions[name]
                return Function(self.space[python_name(definition)], definition.arity())
        return None
