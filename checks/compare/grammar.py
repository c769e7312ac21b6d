"""Reads one expression of a specification file into a tree of tuples.

The nodes: ('name', parts), ('number', n), ('text', s), ('nil',), ('apply', head, arguments),
('op', symbol, left, right), ('lambda', names, body), ('let', name, value, body),
('if', test, yes, no), ('record', base or None, fields), ('pair', left, right),
('project', value, parts), ('all', binders, body), ('some', binders, body).
A binder is (name, type).
"""

import re

WORD = re.compile(r'"[^"]*"|\[\]|[(){};,]|[^\s(){};,"]+')
LEVELS = [('→', 'right'), ('↔', 'left'), ('⊎', 'right'), ('×', 'right'), ('||', 'right'),
          ('&&', 'right'), (('≡', '==', '<', '≤', '≢'), 'left'), (('++', '∷'), 'right'),
          (('+', '-'), 'left'), (('*', '/', '%'), 'left'), ('^', 'right')]
SYMBOLS = {symbol for level, _ in LEVELS for symbol in level if level} | {'||', '&&'}
STOPS = SYMBOLS | {')', '}', ';', ',', '=', ':', 'then', 'else', 'in', 'where', '.'}


def words_of(text):
    """The words of a text, `λ x.` apart from its dot and comments left out."""
    words = []
    for line in text.split('\n'):
        for word in WORD.findall(line.split('--')[0]):
            if word.startswith('λ') and len(word) > 1:
                words.append('λ')
                word = word[1:]
            if word.endswith('.') and len(word) > 1:
                words.extend([word[:-1], '.'])
            else:
                words.append(word)
    return words


class Expression:
    """A reader over a list of words."""

    def __init__(self, words):
        """Starts at the first word."""
        self.words = words
        self.at = 0

    def peek(self, ahead=0):
        """The word at this distance, or an empty one past the end."""
        index = self.at + ahead
        return self.words[index] if index < len(self.words) else ''

    def take(self, wanted=None):
        """The next word, which must be the wanted one if there is one."""
        word = self.peek()
        if wanted is not None and word != wanted:
            raise SyntaxError(f'{wanted} wanted, {word} found in {" ".join(self.words)}')
        self.at += 1
        return word

    def whole(self):
        """The expression that all words make up."""
        tree = self.expression(0)
        if self.at != len(self.words):
            raise SyntaxError(f'{self.peek()} left over in {" ".join(self.words)}')
        return tree

    def expression(self, level):
        """An expression whose operators bind at least as tightly as the level."""
        if level == len(LEVELS):
            return self.application()
        symbols, side = LEVELS[level]
        symbols = (symbols,) if isinstance(symbols, str) else symbols
        if level == 0 and self.at_binder():
            return self.quantified()
        left = self.expression(level + 1)
        while self.peek() in symbols:
            symbol = self.take()
            if self.at_binder() and symbol in ('→', '×', '⊎'):
                return ('op', symbol, left, self.quantified())
            right = self.expression(level if side == 'right' else level + 1)
            left = ('op', symbol, left, right)
        return left

    def at_binder(self):
        """Whether a group (name .. : type) comes next."""
        ahead = 1
        if self.peek() not in ('(', '{'):
            return False
        while self.peek(ahead) not in STOPS and self.peek(ahead) not in ('(', '{', ''):
            ahead += 1
        return ahead > 1 and self.peek(ahead) == ':'

    def binders(self):
        """The groups (name .. : type) that come next; those in braces count for nothing."""
        found = []
        while self.at_binder():
            opening, names = self.take(), []
            while self.peek() != ':':
                names.append(self.take())
            self.take(':')
            kind = self.expression(0)
            self.take(')' if opening == '(' else '}')
            if opening == '(':
                found.extend((name, kind) for name in names)
        return found

    def quantified(self):
        """For all values of the binders, or for some."""
        found = self.binders()
        symbol = self.take()
        if symbol not in ('→', '×'):
            raise SyntaxError(f'{symbol} after a binder')
        if symbol == '→':
            return ('all', found, self.expression(0))
        body = self.quantified() if self.at_binder() else self.expression(3)
        return ('some', found, body)

    def application(self):
        """A head and its arguments; arguments in braces count for nothing."""
        word = self.peek()
        if word == 'λ':
            return self.function()
        if word in ('let', 'if'):
            return self.choice(self.take())
        head, arguments = self.atom(), []
        while self.peek() and self.peek() not in STOPS:
            if self.peek() == '{':
                self.skip_braces()
            elif self.peek() == 'λ':
                arguments.append(self.function())
            else:
                arguments.append(self.atom())
        return ('apply', head, arguments) if arguments else head

    def function(self):
        """A function without a name."""
        self.take('λ')
        names = []
        while self.peek() != '.':
            names.append(self.take())
        self.take('.')
        return ('lambda', names, self.expression(0))

    def choice(self, word):
        """`let` or `if`."""
        if word == 'let':
            name = self.take()
            self.take('=')
            value = self.expression(0)
            self.take('in')
            return ('let', name, value, self.expression(0))
        test = self.expression(0)
        self.take('then')
        yes = self.expression(0)
        self.take('else')
        return ('if', test, yes, self.expression(0))

    def skip_braces(self):
        """An argument in braces."""
        depth = 0
        while True:
            word = self.take()
            depth += {'{': 1, '}': -1}.get(word, 0)
            if depth == 0:
                return

    def atom(self):
        """A name, a number, a text, a record, or what stands in parentheses."""
        word = self.take()
        if word == '(':
            tree = self.expression(0)
            while self.peek() == ',':
                self.take()
                tree = ('pair', tree, self.expression(0))
            self.take(')')
        elif word == 'record':
            tree = self.record()
        elif word == '[]':
            tree = ('nil',)
        elif word.startswith('"'):
            tree = ('text', word[1:-1])
        elif word.isdigit():
            tree = ('number', int(word))
        else:
            tree = ('name', tuple(word.split('.')))
        if self.peek().startswith('.') and len(self.peek()) > 1:
            tree = ('project', tree, tuple(self.take()[1:].split('.')))
        return tree

    def record(self):
        """A new record, or one like another but for some fields."""
        base = None if self.peek() == '{' else self.atom()
        self.take('{')
        fields = []
        while self.peek() != '}':
            name = self.take()
            self.take('=')
            fields.append((name, self.expression(0)))
            if self.peek() == ';':
                self.take()
        self.take('}')
        return ('record', base, fields)


def parse(text):
    """The tree of a text."""
    return Expression(words_of(text)).whole()


def parse_arguments(words):
    """The trees of a row of atoms, as the patterns of an equation."""
    reader, trees = Expression(words), []
    while reader.peek():
        if reader.peek() == '{':
            reader.skip_braces()
        else:
            trees.append(reader.atom())
    return trees
