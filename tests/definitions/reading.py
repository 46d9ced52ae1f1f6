"""Reads antt: a file to its items, an item to tokens, tokens to trees. What the trees mean is not said here."""
import re
from dataclasses import dataclass

from trees import Apply, Infix, Lambda, Let, Name, Number, Project, Record, Text


class NotKnown(Exception):
    """A form of antt that this tool does not know, with its file and line."""

    def __init__(self, file, line, what):
        super().__init__(f'{file}:{line}: {what}')


@dataclass(frozen=True)
class Token:
    kind: str       # number, text, name, mark, dot or end
    text: str
    line: int
    tight: bool     # no space stands before it


@dataclass(frozen=True)
class Item:
    """What begins in the first column, with the indented lines below it."""
    file: str
    line: int
    tokens: tuple


# ---- tokens

TOKEN = re.compile(r'''
    (?P<space>\s+|--[^\n]*)
  | (?P<text>"(?:[^"\\\n]|\\.)*")
  | (?P<number>(?:0x[0-9a-fA-F]+|[0-9]+)(?![^\s(){}.;,]))
  | «(?P<quoted>[^»\n]*)»
  | (?P<mark>[(){};,])
  | (?P<dot>\.)
  | (?P<name>[^\s(){}.;,"«»]+)
''', re.VERBOSE)


def tokens_of(text, file, line):
    """The tokens of a text whose first line has this number."""
    found, at = [], 0
    while at < len(text):
        match = TOKEN.match(text, at)
        if not match:
            raise NotKnown(file, line, f'no token begins with {text[at:at + 20]!r}')
        if match.lastgroup != 'space':
            kind = 'name' if match.lastgroup == 'quoted' else match.lastgroup
            tight = at > 0 and not text[at - 1].isspace()
            found.append(Token(kind, match[match.lastgroup], line, tight))
        line += match[0].count('\n')
        at = match.end()
    return tuple(found)


def items_of(path, file):
    """The items of a file, in their order; `file` is how messages name it."""
    blocks = []
    for number, line in enumerate(path.read_text(encoding='utf-8').split('\n'), 1):
        if not line.strip() or line.startswith('--'):
            line = ''
        if line and not line[0].isspace():
            blocks.append((number, [line]))
        elif blocks:
            blocks[-1][1].append(line)
        elif line:
            raise NotKnown(file, number, 'an indented line that belongs to nothing')
    return [Item(file, number, tokens_of('\n'.join(lines), file, number)) for number, lines in blocks]


# ---- expressions

# How tightly the library's operators bind, and to which side they associate.
PRECEDENCE = {
    '^': (75, 'right'), '*': (70, 'left'), '/': (70, 'left'), '%': (70, 'left'), '∷': (67, 'right'),
    '+': (65, 'left'), '-': (65, 'left'), '++': (65, 'left'), '&&': (35, 'left'), '||': (30, 'left'),
    '+ℤ': (6, 'left'), '-ℤ': (6, 'left'),
}
ENDS = {')', '}', ';', ',', '=', ':', 'in', 'where'}
ESCAPES = {r'\n': '\n', r'\\': '\\', r'\"': '"'}


class Reader:
    """Reads the trees of one item. `precedence` has the operators, the declared ones too."""

    def __init__(self, item, precedence):
        self.item, self.precedence, self.at = item, precedence, 0

    def ahead(self, further=0):
        place = self.at + further
        if place < len(self.item.tokens):
            return self.item.tokens[place]
        return Token('end', '', self.item.tokens[-1].line, False)

    def next(self):
        token = self.ahead()
        self.at += 1
        return token

    def refuse(self, what):
        token = self.ahead()
        raise NotKnown(self.item.file, token.line, f'{what} at {token.text or "the end of the item"!r}')

    def expect(self, text):
        if self.ahead().text != text or self.ahead().kind == 'text':
            self.refuse(f'{text!r} is expected')
        return self.next()

    def identifier(self):
        if self.ahead().kind not in ('name', 'number'):
            self.refuse('a name is expected')
        return self.next().text

    def clause(self):
        """`left = right`, to the end of the item."""
        left = self.expression()
        self.expect('=')
        right = self.expression()
        if self.ahead().kind != 'end':
            self.refuse('a form that is not known')
        return left, right

    def expression(self, least=0):
        left = self.application()
        while self.ahead().kind == 'name' and self.precedence.get(self.ahead().text, (-1,))[0] >= least:
            operator = self.next()
            strength, side = self.precedence[operator.text]
            right = self.expression(strength + 1 if side == 'left' else strength)
            left = Infix(operator.line, operator.text, left, right)
        return left

    def application(self):
        """A head with its arguments."""
        head, arguments = self.tight(self.atom()), []
        while not self.is_end():
            arguments.append(self.tight(self.atom()))
        return Apply(head.line, head, tuple(arguments)) if arguments else head

    def is_end(self):
        token = self.ahead()
        return token.kind == 'end' or token.kind != 'text' and (token.text in ENDS or token.text in self.precedence)

    def tight(self, tree):
        """A projection stands at what it is of, with no space; it binds tighter than an application."""
        while self.ahead().kind == 'dot' and self.ahead().tight and self.ahead(1).tight:
            line = self.next().line
            tree = Project(line, tree, self.identifier())
        return tree

    def atom(self):
        token = self.ahead()
        forms = {'(': self.parenthesis, 'record': self.record, 'λ': self.function, 'let': self.let}
        if token.kind == 'number':
            return Number(token.line, int(self.next().text, 0))
        if token.kind == 'text':
            return Text(token.line, self.text())
        if token.text in forms:
            return forms[token.text]()
        if token.kind == 'name' and token.text not in ENDS and token.text not in self.precedence:
            return Name(token.line, self.next().text)
        self.refuse('a form that is not known')

    def text(self):
        written = self.ahead().text[1:-1]
        for escape in re.findall(r'\\.', written):
            if escape not in ESCAPES:
                self.refuse(f'the escape {escape} is not known')
        self.next()
        return re.sub(r'\\.', lambda match: ESCAPES[match[0]], written)

    def parenthesis(self):
        self.expect('(')
        tree = self.expression()
        self.expect(')')
        return tree

    def record(self):
        line = self.expect('record').line
        self.expect('{')
        fields = []
        while self.ahead().text != '}':
            name = self.identifier()
            self.expect('=')
            fields.append((name, self.expression()))
            if self.ahead().text != '}':
                self.expect(';')
        self.expect('}')
        return Record(line, tuple(fields))

    def function(self):
        """`λ x y. e`, with or without types: `λ (x : T). e`."""
        line = self.expect('λ').line
        names = []
        while self.ahead().kind != 'dot':
            typed = self.ahead().text == '('
            if typed:
                self.next()
            names.append(self.identifier())
            if typed:
                self.expect(':')
                self.skip_type(')')
                self.expect(')')
        self.next()
        return Lambda(line, tuple(names), self.expression())

    def let(self):
        line = self.expect('let').line
        name = self.identifier()
        if self.ahead().text == ':':
            self.skip_type('=')
        self.expect('=')
        value = self.expression()
        self.expect('in')
        return Let(line, name, value, self.expression())

    def skip_type(self, end):
        """Types are checked by antt itself: none is looked at here."""
        depth = 0
        while depth or self.ahead().text != end:
            if self.ahead().kind == 'end':
                self.refuse(f'{end!r} is expected')
            depth += {'(': 1, '{': 1, ')': -1, '}': -1}.get(self.next().text, 0)
