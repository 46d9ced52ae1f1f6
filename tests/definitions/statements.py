"""Translates the statements of the crates above the rules, with the definitions, and asks them at single instances.

A statement is a record whose rows are types: equations and comparisons, with what they presuppose. Its rows become functions that
say true or false, by the text that is proved. What a row is said of, `(v : ℕ) (m : Machine) → ..`, is given with the instance. What is
said within of each number, `(b : ℕ) → ..`, is tried for a range of numbers that holds all that an instance has, the places of its
memories and its blocks; what is said of some descriptor, for all four.
"""
import re
from dataclasses import dataclass
from pathlib import Path

from declared import kind_of, read_crates
from entries import call
from reading import NotKnown, Reader
from translate import FunctionWriter, loaded
from trees import Infix, Name

# The crates that have statements, with those that they speak of.
CRATES = {
    'demands': ('ground', 'rules', 'demands'),
    'worked': ('ground', 'rules', 'demands', 'worked'),
    'bench': ('ground', 'rules', 'bench'),
}

# What types are made of: how tightly each binds, to which side, and its truth in Python.
RELATIONS = {
    '→': (1, 'right', '(not {} or {})'),
    '×': (2, 'right', '({} and {})'),
    '≡': (4, 'left', '({} == {})'),
    '≢': (4, 'left', '({} != {})'),
    '<': (50, 'left', '({} < {})'),
    '≤': (50, 'left', '({} <= {})'),
}
EQUATIONS = {'≡', '≢', '<', '≤'}

# The functions of a run or a machine that are asked again and again, of the same one.
REMEMBERED = {'begun', 'after', 'act', 'handed', 'standing'}

# What is tried where something is said of each or some: places up to Send RAM's length and the addresses of all blocks; one call of
# each kind; the four descriptors, by the definitions.
THINGS = {
    'ℕ': sorted({*range(1025), *range(0, 8192, 32)}),
    'Call': [call(kind, 0, 0, [], []) for kind in range(6)],
    'DescriptorIndex': None,
}


@dataclass(frozen=True)
class Quantifier:
    """`(x : T) → e`, for each; `(x : T) × e`, for some."""
    line: int
    name: str
    type: str
    every: bool
    body: object


# ---- reading

class StatementReader(Reader):
    """Reads types as well, where they are statements."""

    def __init__(self, item, precedence):
        super().__init__(item, {**precedence, **{sign: (strength, side) for sign, (strength, side, _) in RELATIONS.items()}})

    def is_end(self):
        return self.ahead().text == 'pub' or super().is_end()

    def is_binder(self):
        """`(x y : T)` comes."""
        further = 1
        while self.ahead(further).kind == 'name' and self.ahead(further).text != ':':
            further += 1
        return self.ahead().text == '(' and further > 1 and self.ahead(further).text == ':'

    def binder(self):
        """Its names, each with the type."""
        self.expect('(')
        names = []
        while self.ahead().text != ':':
            names.append(self.identifier())
        self.expect(':')
        begin = self.at
        self.skip_type(')')
        of = ' '.join(token.text for token in self.item.tokens[begin:self.at])
        self.expect(')')
        return [(name, of) for name in names]

    def parenthesis(self):
        if not self.is_binder():
            return super().parenthesis()
        line, bound = self.ahead().line, []
        while self.is_binder():
            bound += self.binder()
        every = self.ahead().text == '→'
        self.expect('→' if every else '×')
        body = self.expression()
        for name, of in reversed(bound):
            body = Quantifier(line, name, of, every, body)
        return body

    def atom(self):
        """`Unit {0}` is what always holds."""
        if self.ahead().text != 'Unit':
            return super().atom()
        line = self.next().line
        for text in '{0}':
            self.expect(text)
        return Name(line, 'true')

    def statement(self):
        """`pub record R (x : T) .. : Type 0 where`, and its rows `pub name : type`."""
        while self.next().text != 'record':
            pass
        name, parameters, rows = self.identifier(), [], []
        while self.is_binder():
            parameters += [bound for bound, _ in self.binder()]
        self.skip_type('where')
        self.expect('where')
        while self.ahead().kind != 'end':
            self.expect('pub')
            row = self.identifier()
            self.expect(':')
            rows.append((row, self.expression()))
        return name, parameters, rows


def read_statements(declared):
    """Every record that says something becomes a function of its parameters; a row of one without any, a function of what it is said
    of. By row, `Record.row`, the names and types of that."""
    said_of = {}
    for module in declared.modules:
        for item in module.items:
            if kind_of(item) == 'record' and EQUATIONS & {token.text for token in item.tokens}:
                name, parameters, rows = declared.reader(item, declared.precedence).statement()
                add(declared, name, module, item, parameters, all_of(rows))
                for row, tree in rows if not parameters else ():
                    bound, body = opened(tree)
                    add(declared, f'{name}.{row}', module, item, [of for of, _ in bound], body)
                    said_of[f'{name}.{row}'] = bound
    return said_of


def add(declared, name, module, item, parameters, tree):
    declared.add_function(name, module, item.line)
    declared.functions[name].clauses.append((tuple(Name(item.line, parameter) for parameter in parameters), tree))


def all_of(rows):
    """All rows at once. A row that is a thing, and no truth, is there for some such thing: those below it are said of that."""
    whole = Name(0, 'true')
    for name, tree in reversed(rows):
        is_thing = isinstance(tree, Name) and tree.name in THINGS
        whole = Quantifier(tree.line, name, tree.name, False, whole) if is_thing else Infix(tree.line, '×', tree, whole)
    return whole


def opened(tree):
    """What a row is said of, and the rest."""
    bound = []
    while isinstance(tree, Quantifier) and tree.every:
        bound.append((tree.name, tree.type))
        tree = tree.body
    return bound, tree


# ---- translating

class StatementWriter(FunctionWriter):
    """Writes functions to Type as functions to a truth."""

    def written(self):
        text = super().written()
        return f'@remembered\n{text}' if self.name in REMEMBERED else text

    def value(self, tree, scope):
        if not isinstance(tree, Quantifier):
            return super().value(tree, scope)
        inner = self.bind(scope, tree.name)
        return f'{"all" if tree.every else "any"}({self.value(tree.body, inner)} for {inner[tree.name]} in tried({tree.type!r}))'

    def infix(self, tree, scope):
        if tree.operator not in RELATIONS:
            return super().infix(tree, scope)
        return RELATIONS[tree.operator][2].format(self.value(tree.left, scope), self.value(tree.right, scope))

    def match_name(self, tree, on, tests, binds):
        """A single capital is a variable: what is said at each moment."""
        if isinstance(tree, Name) and len(tree.name) == 1 and tree.name.isupper():
            binds.append((tree.name, on))
        else:
            super().match_name(tree, on, tests, binds)


def remembered(function):
    """The function, working out its answer once for the same arguments. They are kept, so that no others get their identities."""
    known = {}

    def answer(*arguments):
        key = tuple(map(id, arguments))
        if key not in known:
            known[key] = arguments, function(*arguments)
        return known[key][1]
    return answer


# ---- asking

class Statements:
    """The statements of a crate, over the definitions under the folder `crates`."""

    def __init__(self, crates, crate):
        declared = read_crates(crates, CRATES[crate], StatementReader)
        self.said_of = read_statements(declared)
        self.names = loaded(declared, StatementWriter, remembered=remembered, tried=self.tried)
        self.contracts = contracts(crates, crate)

    def tried(self, of):
        """What is tried of a type."""
        if of not in THINGS:
            raise NotKnown('the statements', 0, f'each or some of the type {of}')
        return [self.names['descriptor'](number) for number in range(4)] if of == 'DescriptorIndex' else THINGS[of]

    def rows(self, asked):
        """The rows of `contract`, or the one of `contract.row`."""
        contract, _, row = asked.partition('.')
        record = self.contracts[contract]
        rows = [name for name in self.said_of if name.startswith(f'{record}.') and row in ('', name.partition('.')[2])]
        if not rows:
            raise NotKnown(record, 0, f'there is no row {row}')
        return rows

    def holds(self, asked, instance):
        """Whether the rows asked for hold at an instance: by name, what they are said of."""
        return all(self.row_holds(row, instance) for row in self.rows(asked))

    def row_holds(self, row, instance):
        bound = self.said_of[row]
        missing = [(name, of) for name, of in bound if name not in instance]
        if len(missing) > 1:
            raise NotKnown(row, 0, f'the instance does not say {", ".join(name for name, _ in missing)}')
        values = self.tried(missing[0][1]) if missing else [None]
        return all(self.names[row](*(instance.get(name, value) for name, _ in bound)) for value in values)


def contracts(crates, crate):
    """By contract, the function that carries it, the statement's name."""
    source = (Path(crates) / crate / 'src' / 'lib.rt').read_text(encoding='utf-8')
    return dict(re.findall(r'pub fn (\w+)\(\)\s+ensures \{ (\w+) \}', source))


def crate_of(crates, contract):
    """The crate that has a contract, or None."""
    return next((crate for crate in CRATES if contract in contracts(crates, crate)), None)
