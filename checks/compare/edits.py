"""Wrong edits of definitions: each changes one place of one equation or field."""

from solver import is_data

SAME_TYPE = [('first', 'floor'), ('senders', 'inactive'), ('closed', 'overflow', 'await_active'),
             ('capacity', 'room'), ('front', 'end')]
VARIANTS = {'unsent': ('Full', 'Closed', 'Inactive'), 'unread': ('Empty', 'Closed'),
            'handle': ('Memory', 'TooMany', 'Gone'), 'kind': ('Stream', 'Future')}
FUNCTIONS = [('min', 'max'), ('take', 'drop'), ('consume', 'abandon'), ('true', 'false'),
             ('stream_of', 'future_of'), ('place_answered', 'place_ended'),
             ('pair_answered', 'pair_ended'), ('pair_waits', 'pair_answered'),
             ('told_ids', 'untold_ids'), ('tell_receivers', 'tell_a_sender'),
             ('nat_lt', 'nat_le'), ('insert', 'remove_instead'), ('offer', 'refuse_instead'),
             ('close', 'closing'), ('future_reply', 'stream_reply')]
OPERATORS = {'<': ('≤',), '≤': ('<',), '+': ('-',), '-': ('+',), '&&': ('||',), '||': ('&&',),
             '×': ('⊎',), '⊎': ('×',), '→': ('×',), '↔': ('→',), '==': (), '≡': ()}
CONNECTIVES = ('&&', '||', '×', '⊎', '→', '+', '-', '++')


def others_in(groups, name):
    """The other names of the groups that have this one."""
    return [other for group in groups if name in group for other in group
            if other != name and not other.endswith('_instead')]


def changes(tree):
    """Each tree with one change, and what was changed."""
    kind = tree[0] if isinstance(tree, tuple) and tree else ''
    own = {'op': operator_changes, 'name': name_changes, 'if': choice_changes,
           'number': number_changes, 'record': record_changes, 'apply': use_changes,
           'project': project_changes}.get(kind)
    if own:
        yield from own(tree)
    if isinstance(tree, (tuple, list)) and kind not in ('name', 'number', 'text', 'lambda_names'):
        for index, part in enumerate(tree):
            if isinstance(part, (tuple, list)) and not is_type(tree, index):
                for new in changes(part):
                    yield type(tree)(list(tree[:index]) + [new] + list(tree[index + 1:]))


def is_type(tree, index):
    """Whether this part of a tree is a list of binders, or names alone."""
    return tree and tree[0] in ('all', 'some', 'lambda') and index == 1


def operator_changes(tree):
    """Another operator, or one side alone."""
    _, symbol, left, right = tree
    for other in OPERATORS.get(symbol, ()):
        yield ('op', other, left, right)
    if symbol in CONNECTIVES:
        yield left
        if symbol != '-':
            yield right
    if symbol in ('==', '<', '≤') or (symbol == '≡' and right[0] == 'name'
                                      and right[1][0] in ('true', 'false')):
        yield ('not', tree)
    if symbol in ('-', '<', '≤'):
        yield ('op', symbol, right, left)


def name_changes(tree):
    """Another field, variant or function of the same type."""
    parts = tree[1]
    for index, part in enumerate(parts):
        if index > 0:
            for other in others_in(SAME_TYPE, part):
                yield ('name', parts[:index] + (other,) + parts[index + 1:])
    if len(parts) == 2:
        for other in others_in([VARIANTS.get(parts[0], ())], parts[1]):
            yield ('name', (parts[0], other))
    if len(parts) == 1:
        for other in others_in(FUNCTIONS, parts[0]):
            yield ('name', (other,))
    if parts[-1] in ('closed', 'overflow', 'await_active') and len(parts) > 1:
        yield ('not', tree)
    if parts[-1] in ('end', 'front', 'told', 'capacity', 'senders', 'inactive') and len(parts) > 1:
        yield ('op', '+', tree, ('number', 1))


def project_changes(tree):
    """Another field of the same type."""
    for other in others_in(SAME_TYPE, tree[2][-1]):
        yield ('project', tree[1], tree[2][:-1] + (other,))


def choice_changes(tree):
    """The branches the other way round, or one of them alone."""
    _, test, yes, no = tree
    yield ('if', test, no, yes)
    yield yes
    yield no


def number_changes(tree):
    """A number that is off by one."""
    yield ('number', tree[1] + 1)
    if tree[1] > 0:
        yield ('number', tree[1] - 1)


def record_changes(tree):
    """A field that keeps its old value."""
    _, base, fields = tree
    for index in range(len(fields)):
        if base is not None:
            yield ('record', base, fields[:index] + fields[index + 1:])


KEPT = ('tell_all', 'tell_receivers', 'tell_a_sender', 'close', 'closing', 'close_if_deserted',
        'not')
LAST_KEPT = ('with_cursor', 'pair_ended', 'place_ended', 'without_receiver', 'place_waits',
             'pair_waits', 'pair_answered', 'place_answered', 'with_place')


def use_changes(tree):
    """A function that does nothing, or that gets two arguments the other way round."""
    _, head, arguments = tree
    name = head[1][-1] if head[0] == 'name' else ''
    if name in KEPT and len(arguments) == 1:
        yield arguments[0]
    if name in LAST_KEPT and len(arguments) > 1:
        yield arguments[0]
    if name in ('tell', 'consume', 'abandon', 'wait_again', 'join') and len(arguments) > 1:
        yield arguments[-1]
    if name in ('nat_lt', 'max_instead'):
        yield ('apply', head, arguments[::-1])


def edits_of(definition):
    """Each wrong edit of a definition: (a text that names it, the edited definition's parts)."""
    if definition.record:
        parameters, fields = definition.record
        if all(is_data(kind) for _, kind in fields):
            return
        for index, (name, kind) in enumerate(fields):
            if len(fields) > 1 and kind[0] != 'name':
                yield f'field {name} left out', (parameters, fields[:index] + fields[index + 1:])
            for new in changes(kind):
                yield (f'field {name}: {show(new)}',
                       (parameters, fields[:index] + [(name, new)] + fields[index + 1:]))
        return
    for index, (patterns, body) in enumerate(definition.equations):
        before, after = definition.equations[:index], definition.equations[index + 1:]
        title = ' '.join(show(pattern) for pattern in patterns)
        for new in changes(body):
            yield f'{title} = {show(new)}', before + [(patterns, new)] + after
        if after and all(is_variable(part) for part in after[-1][0]):
            yield f'{title} left out', before + after


def is_variable(pattern):
    """Whether a pattern fits everything."""
    return (pattern[0] == 'name' and len(pattern[1]) == 1
            and pattern[1][0] not in ('None', 'true', 'false'))


def show(tree):
    """A tree as a text."""
    kind = tree[0]
    if kind == 'name':
        return '.'.join(tree[1])
    if kind in ('number', 'text'):
        return str(tree[1])
    if kind == 'nil':
        return '[]'
    if kind == 'op':
        return f'({show(tree[2])} {tree[1]} {show(tree[3])})'
    if kind == 'apply':
        return '(' + ' '.join(show(part) for part in [tree[1]] + tree[2]) + ')'
    if kind == 'pair':
        return f'({show(tree[1])}, {show(tree[2])})'
    if kind == 'not':
        return f'(not {show(tree[1])})'
    if kind == 'if':
        return 'if {} then {} else {}'.format(*(show(part) for part in tree[1:]))
    if kind == 'let':
        return f'let {tree[1]} = {show(tree[2])} in {show(tree[3])}'
    if kind == 'lambda':
        return f'λ {" ".join(tree[1])}. {show(tree[2])}'
    if kind == 'project':
        return f'{show(tree[1])}.{".".join(tree[2])}'
    if kind == 'record':
        fields = '; '.join(f'{name} = {show(value)}' for name, value in tree[2])
        return 'record ' + (show(tree[1]) + ' ' if tree[1] else '') + '{ ' + fields + ' }'
    names = ' '.join(name for name, _ in tree[1])
    return f'({kind} {names}) {show(tree[2])}'
