"""Reads the files of a folder of specifications into definitions."""

import re
from pathlib import Path

from grammar import Expression, parse, parse_arguments, words_of


class Definition:
    """A function by its equations, or a record by its fields."""

    def __init__(self, file, name, group):
        """`group` is the list of explicit parameters of the modules that it is in."""
        self.file = file
        self.name = name
        self.group = group
        self.equations = []
        self.record = None

    def arity(self):
        """How many arguments it takes, those of its modules first."""
        own = len(self.record[0]) if self.record else len(self.equations[0][0])
        return len(self.group) + own


class File:
    """The definitions of one file, and what its names mean that come from others."""

    def __init__(self, name):
        """An empty file."""
        self.name = name
        self.definitions = {}
        self.imports = {}
        self.aliases = {}


def pieces_of(text):
    """The declarations: (indent, text), where deeper lines go on with the one above."""
    pieces = []
    for line in text.split('\n'):
        bare = line.split('--')[0].rstrip()
        if bare:
            pieces.append((len(bare) - len(bare.lstrip()), bare.strip()))
    return pieces


def read_use(file, line):
    """Notes the names that a `use` line brings."""
    path = re.sub(r'^(pub )?use ', '', line)
    named = re.match(r'(.*)\.\{(.*)\}$', path)
    if named:
        module = named.group(1)
        for name in named.group(2).split(', '):
            name, _, other = name.partition(' as ')
            file.imports[other or name] = (module, name)
    elif ' as ' in path:
        module, alias = path.split(' as ')
        file.aliases[alias] = module


def read_file(path):
    """One file."""
    file, pieces = File(path.stem), pieces_of(path.read_text())
    groups, at = [(-1, [])], 0
    while at < len(pieces):
        indent, line = pieces[at]
        last = at + 1
        while groups[-1][0] >= indent:
            groups.pop()
        if line.startswith('module '):
            while not line.endswith('where'):
                line += ' ' + pieces[last][1]
                last += 1
            reader = Expression(words_of(line)[2:])
            names = [name for name, _ in reader.binders()]
            groups.append((indent, groups[-1][1] + names))
        else:
            while last < len(pieces) and (pieces[last][0] > indent or pieces[last][1][0] == '}'):
                last += 1
            read_declaration(file, pieces[at:last], groups[-1][1])
        at = last
    return file


def read_declaration(file, lines, group):
    """A use, a signature, an equation or a record."""
    line = lines[0][1]
    if re.match(r'(pub )?use ', line):
        read_use(file, line)
    elif re.match(r'(pub )?record ', line):
        read_record(file, lines, group)
    elif line.startswith('abbrev '):
        name = line.split(' : ')[0].split()[-1]
        file.definitions[name] = Definition(file, name, group)
    elif not re.match(r'(pub )?mod ', line):
        read_equation(file, '\n'.join(text for _, text in lines))


def read_equation(file, text):
    """An equation of a function whose signature came before."""
    words = words_of(text)
    depth, at = 0, 0
    while words[at] != '=' or depth:
        depth += {'(': 1, '{': 1, ')': -1, '}': -1}.get(words[at], 0)
        at += 1
    patterns = parse_arguments(words[1:at])
    body = Expression(words[at + 1:]).whole()
    file.definitions[words[0]].equations.append((patterns, body))


def read_record(file, lines, group):
    """A record: its explicit parameters, and its fields with their types."""
    header, at = lines[0][1], 1
    while not header.endswith('where'):
        header += ' ' + lines[at][1]
        at += 1
    words = words_of(header)
    start = words.index('record') + 2
    parameters = Expression(words[start:]).binders()
    fields, body = [], lines[at:]
    for indent, line in body:
        if re.match(r'(pub )?\w+ :', line) and indent == body[0][0]:
            fields.append(line)
        else:
            fields[-1] += '\n' + line
    definition = Definition(file, words[start - 1], group)
    typed = []
    for field in fields:
        name, kind = field.split(' : ', 1)
        typed.append((name.split()[-1], parse(kind)))
    definition.record = ([name for name, _ in parameters], typed)
    file.definitions[definition.name] = definition


def read_folder(folder):
    """All files of a folder, by name; how things are stored is left out."""
    return {path.stem: read_file(path) for path in sorted(Path(folder).glob('*.antt'))
            if path.stem not in ('Lib', 'Words', 'Encodings')}


ENUM = re.compile(r'pub enum (\w+)(?:<\w+>)? \{(.*?)\n\}', re.S)


def variants_of(folder):
    """The variants of the enums of a crate's sources: {enum: {variant: how many values}}."""
    found = {}
    for path in sorted(Path(folder).glob('*.rt')):
        for name, body in ENUM.findall(path.read_text()):
            variants = re.findall(r'^    (\w+)(?:\((.*)\))?,$', body, re.M)
            found[name] = {variant: count_of(held) for variant, held in variants}
    return found


def count_of(held):
    """How many types a list of them names."""
    depth, count = 0, 1 if held else 0
    for letter in held:
        depth += {'<': 1, '(': 1, '>': -1, ')': -1}.get(letter, 0)
        count += letter == ',' and depth == 0
    return count
