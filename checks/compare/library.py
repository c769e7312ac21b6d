"""What the functions of the kit's libraries mean, on finite values.

Lists are Python tuples, maps and records dicts, sets frozensets; a value of an enum is a tuple
whose first entry is the variant's name, and so is a pair.
"""

NONE = ('None',)


class Function:
    """A function value that has got some of its arguments."""

    def __init__(self, body, arity, arguments=()):
        """`body` takes `arity` arguments."""
        self.body = body
        self.arity = arity
        self.arguments = arguments


def call(function, *arguments):
    """A function value at these arguments."""
    if not isinstance(function, Function):
        raise TypeError(f'no function: {function}')
    arguments = function.arguments + arguments
    if len(arguments) < function.arity:
        return Function(function.body, function.arity, arguments)
    value = function.body(*arguments[:function.arity])
    rest = arguments[function.arity:]
    return call(value, *rest) if rest else value


def project(value, name):
    """The part of a pair, or the field of a record, that has this name."""
    if isinstance(value, tuple):
        return value[int(name) + 1]
    return value[name]


def some(value):
    """`Some value`."""
    return ('Some', value)


def found_in(mapping, key):
    """What a map has under a key."""
    return some(mapping[key]) if key in mapping else NONE


def entry_of(items, index):
    """The entry of a list at an index."""
    return some(items[index]) if 0 <= index < len(items) else NONE


def without_key(mapping, key):
    """A map without a key."""
    return {other: value for other, value in mapping.items() if other != key}


def is_rising(items):
    """Whether each number is greater than the one before it."""
    return all(low < high for low, high in zip(items, items[1:]))


def folded(function, start, items):
    """A list's fold from the left."""
    for item in items:
        start = call(function, start, item)
    return start


# each function with how many arguments it takes
FUNCTIONS = {
    'true': (0, lambda: True),
    'false': (0, lambda: False),
    'tt': (0, lambda: ('Unit',)),
    '⊤': (0, lambda: True),
    '⊥': (0, lambda: False),
    'Unit': (0, lambda: True),
    'None': (0, lambda: NONE),
    'Some': (1, some),
    'Ok': (1, lambda value: ('Ok', value)),
    'Err': (1, lambda value: ('Err', value)),
    'alloc_error': (0, lambda: ('AllocError',)),
    'not': (1, lambda value: not value),
    'nat_lt': (2, lambda left, right: left < right),
    'nat_le': (2, lambda left, right: left <= right),
    'nat_eq': (2, lambda left, right: left == right),
    'IsTrue': (1, lambda value: value is True),
    'IsFalse': (1, lambda value: value is False),
    'min': (2, min),
    'max': (2, max),
    'pred': (1, lambda number: max(0, number - 1)),
    'suc': (1, lambda number: number + 1),
    'length': (1, len),
    'take': (2, lambda count, items: items[:count]),
    'drop': (2, lambda count, items: items[count:]),
    'replicate': (2, lambda count, item: (item,) * count),
    'map': (2, lambda function, items: tuple(call(function, item) for item in items)),
    'filter': (2, lambda test, items: tuple(item for item in items if call(test, item))),
    'fold': (3, folded),
    'reverse': (1, lambda items: items[::-1]),
    'slice_get': (2, entry_of),
    'range_with_len': (2, lambda start, count: tuple(range(start, start + count))),
    'is_some': (1, lambda option: option[0] == 'Some'),
    'is_none': (1, lambda option: option[0] == 'None'),
    'IsSome': (1, lambda option: option[0] == 'Some'),
    'IsNone': (1, lambda option: option[0] == 'None'),
    'is_ok': (1, lambda result: result[0] == 'Ok'),
    'is_err': (1, lambda result: result[0] == 'Err'),
    'IsOk': (1, lambda result: result[0] == 'Ok'),
    'IsErr': (1, lambda result: result[0] == 'Err'),
    'ok_or': (2, lambda option, error: ('Ok', option[1]) if option[0] == 'Some'
              else ('Err', error)),
    'unwrap_or': (2, lambda option, other: option[1] if option[0] == 'Some' else other),
    'option_map': (2, lambda function, option: some(call(function, option[1]))
                   if option[0] == 'Some' else option),
    'option_map_or': (3, lambda function, option, other: call(function, option[1])
                      if option[0] == 'Some' else other),
    'IsSomeAnd': (2, lambda option, test: option[0] == 'Some' and call(test, option[1])),
    'IfSome': (2, lambda option, test: option[0] == 'None' or call(test, option[1])),
    'AllByRecursion': (2, lambda test, items: all(call(test, item) for item in items)),
    'All': (2, lambda test, items: all(call(test, item) for item in items)),
    'Any': (2, lambda test, items: any(call(test, item) for item in items)),
    'AllZip': (3, lambda test, left, right: len(left) == len(right) and all(
        call(test, one, other) for one, other in zip(left, right))),
    'Contains': (2, lambda items, item: item in items),
    'IsStrictlyIncreasing': (1, is_rising),
    'codes': (1, lambda text: tuple(text.encode())),
    'decimal': (1, lambda number: tuple(str(number).encode())),
    'FinMap.empty': (0, dict),
    'FinMap.get': (2, found_in),
    'FinMap.insert': (3, lambda mapping, key, value: {**mapping, key: value}),
    'FinMap.remove': (2, without_key),
    'FinMap.len': (1, len),
    'FinMap.values': (1, lambda mapping: tuple(mapping[key] for key in sorted(mapping))),
    'FinMap.keys': (1, lambda mapping: tuple(sorted(mapping))),
    'FinSet.empty': (0, frozenset),
    'FinSet.contains': (2, lambda items, item: item in items),
    'FinSet.insert': (2, lambda items, item: items | {item}),
    'FinSet.remove': (2, lambda items, item: items - {item}),
    'FinSet.len': (1, len),
    'ghosts.eq': (2, lambda left, right: left == right),
}

OPERATORS = {
    '≡': '({} == {})', '==': '({} == {})', '≢': '({} != {})', '<': '({} < {})',
    '≤': '({} <= {})', '&&': '({} and {})', '||': '({} or {})', '×': '({} and {})',
    '⊎': '({} or {})', '→': '(not {} or {})', '↔': '({} == {})', '++': '({} + {})',
    '∷': '(({},) + {})', '+': '({} + {})', '-': 'max(0, {} - {})', '*': '({} * {})',
    '^': '({} ** {})',
}
