"""Translates the definitions of the crates ground and rules from antt to Python, and loads them.

Only the part of antt that the definitions use is known. Whatever else is met is refused with its file and line; nothing is
skipped in silence. All arguments are evaluated before a call, except of choices, && and ||: the definitions are total, so that
changes no result.
"""
import functools
import keyword
import sys
from types import SimpleNamespace

import library
from declared import read_crates
from reading import NotKnown
from trees import Apply, Infix, Lambda, Let, Name, Number, Project, Record, Text

sys.setrecursionlimit(20000)

# Patterns of truths, numbers and lists: the test; and for those with an argument, what the argument stands at.
PLAIN_PATTERNS = {'true': '{}', 'false': 'not {}', 'zero': '{} == 0', '[]': '{} == []'}
NUMBER_PATTERNS = {'suc': ('{} > 0', '({} - 1)'), 'pos': ('{} >= 0', '{}'), 'negsuc': ('{} < 0', '(-1 - {})')}


def load(crates):
    """The definitions under the folder `crates`: Python functions by their antt names. A constant is a function of nothing."""
    return loaded(read_crates(crates), FunctionWriter)


def loaded(declared, writer, **more):
    """What is declared, written by a writer, as Python functions by their antt names; `more` is what else the writer's text calls."""
    names = [name for name in declared.functions if name not in library.NATIVE]
    source = '\n'.join(writer(declared, name).written() for name in names)
    space = {python_name(name): function for name, (_, function) in library.FUNCTIONS.items()}
    space.update(cut_off=library.cut_off, Fields=SimpleNamespace, once=functools.cache, **more)
    exec(compile(source, 'the definitions', 'exec'), space)
    return {name: space[python_name(name)] for name in names}


# ---- names

def spelled(name):
    """A name in letters that Python takes."""
    return ''.join(letter if letter.isascii() and letter.isalnum() else f'_{ord(letter):x}_' for letter in name)


def python_name(name):
    return 'antt_' + spelled(name)


def operator_name(sign):
    """An operator as a function: a ring stands where each of the two goes."""
    return f'◌{sign}◌'


def field_name(name):
    """Fields keep their names where Python lets them: the tests look into records."""
    return name if name.isidentifier() and name.isascii() and not keyword.iskeyword(name) else 'field_' + spelled(name)


def curried(arity, arguments, build):
    """A call: with too few arguments a function of the others, with more than enough the result applied to the rest."""
    if len(arguments) < arity:
        given = [f'given{i}' for i in range(len(arguments))]
        missing = [f'missing{i}' for i in range(arity - len(arguments))]
        waiting = ''.join(f'lambda {name}: ' for name in missing) + build(given + missing)
        return f'(lambda {", ".join(given)}: {waiting})({", ".join(arguments)})' if given else f'({waiting})'
    return build(arguments[:arity]) + ''.join(f'({argument})' for argument in arguments[arity:])


def choice(declared, function):
    """The form of a function that only picks one of its arguments by a truth, or None: it must look at no more than that one."""
    branches = {}
    for patterns, body in function.clauses:
        names = [pattern.name if isinstance(pattern, Name) else None for pattern in patterns]
        fixed = [name for name in names[1:] if name is None or name in PLAIN_PATTERNS or name in declared.types_with]
        if fixed or names[:1] not in (['true'], ['false']) or not isinstance(body, Name) or body.name not in names[1:]:
            return None
        branches.setdefault(names[0], names.index(body.name))
    if len(branches) != 2:
        return None
    return f'({{{branches["true"]}}} if {{0}} else {{{branches["false"]}}})'


class FunctionWriter:
    """Writes one function. A scope has the Python names of the antt names that are bound where an expression stands."""

    def __init__(self, declared, name):
        self.declared, self.name = declared, name
        self.function = declared.functions[name]
        self.bound = 0

    def refuse(self, tree, what):
        raise NotKnown(self.function.module.file, tree.line, what)

    def bind(self, scope, name):
        """The scope with a name more, under a Python name that no other binding has."""
        self.bound += 1
        return {**scope, name: f'{spelled(name)}_{self.bound}'}

    def written(self):
        """The Python text of the function: its clauses are tried in their order. A constant is computed once."""
        parameters = [f'given{i}' for i in range(self.function.arity)]
        lines = [] if parameters else ['@once']
        lines.append(f'def {python_name(self.name)}({", ".join(parameters)}):')
        for patterns, body in self.function.clauses:
            tests, binds = [], []
            for pattern, parameter in zip(patterns, parameters):
                self.match(pattern, parameter, tests, binds)
            lines.append(f'    if {" and ".join(tests) or "True"}:')
            lines += ['        ' + line for line in self.body(binds, body)]
        lines.append(f'    raise ValueError({"no clause fits: " + self.name!r})')
        return '\n'.join(lines)

    def body(self, binds, tree):
        """The statements of a clause: its variables, the lets it begins with, and what it returns."""
        scope, lines = {}, []
        for name, value in binds:
            scope = self.bind(scope, name)
            lines.append(f'{scope[name]} = {value}')
        while isinstance(tree, Let):
            value = self.value(tree.value, scope)
            scope = self.bind(scope, tree.name)
            lines.append(f'{scope[tree.name]} = {value}')
            tree = tree.body
        return lines + [f'return {self.value(tree, scope)}']

    # ---- patterns

    def match(self, tree, on, tests, binds):
        """The tests that a pattern makes on a Python expression, and the names that it binds."""
        if isinstance(tree, Number):
            tests.append(f'{on} == {tree.value}')
        elif isinstance(tree, Infix) and tree.operator == '∷':
            tests.append(f'{on} != []')
            self.match(tree.left, f'{on}[0]', tests, binds)
            self.match(tree.right, f'{on}[1:]', tests, binds)
        elif isinstance(tree, Infix):
            self.match_constructor(tree, operator_name(tree.operator), (tree.left, tree.right), on, tests, binds)
        elif isinstance(tree, (Name, Project)):
            self.match_name(tree, on, tests, binds)
        elif isinstance(tree, Apply) and isinstance(tree.head, Name) and tree.head.name in NUMBER_PATTERNS:
            self.match_number(tree, on, tests, binds)
        elif isinstance(tree, Apply):
            self.match_constructor(tree, tree.head, tree.arguments, on, tests, binds)
        else:
            self.refuse(tree, 'a pattern that is not known')

    def match_name(self, tree, on, tests, binds):
        """A constructor without arguments where the module has one of this name in reach, else a variable."""
        name = tree.name if isinstance(tree, Name) else None
        if name in PLAIN_PATTERNS:
            tests.append(PLAIN_PATTERNS[name].format(on))
        elif name is None or name in self.declared.types_with and name in self.function.module.names:
            self.match_constructor(tree, tree, (), on, tests, binds)
        elif name[0].isupper():
            self.refuse(tree, f'{name} is no variable, and no constructor that is imported by its name')
        elif name != '_':
            binds.append((name, on))

    def match_number(self, tree, on, tests, binds):
        """`suc n`, `pos n`, `negsuc n`."""
        test, inner = NUMBER_PATTERNS[tree.head.name]
        if len(tree.arguments) != 1:
            self.refuse(tree, f'{tree.head.name} has one argument')
        tests.append(test.format(on))
        self.match(tree.arguments[0], inner.format(on), tests, binds)

    def match_constructor(self, tree, head, arguments, on, tests, binds):
        """A constructor with all its arguments: a row of its name and them."""
        head = Name(tree.line, head) if isinstance(head, str) else head
        constructor = self.constructor(head)
        if constructor is None or self.declared.constructors[constructor] != len(arguments):
            self.refuse(tree, 'a pattern that is no constructor with all its arguments')
        tests.append(f'{on}[0] == {constructor!r}')
        for place, argument in enumerate(arguments, 1):
            self.match(argument, f'{on}[{place}]', tests, binds)

    def constructor(self, tree):
        """The constructor that a tree names, 'Enum.Variant', or None. A name that two types have must say which."""
        if isinstance(tree, Project) and isinstance(tree.of, Name):
            full = f'{tree.of.name}.{tree.field}'
            return full if full in self.declared.constructors else None
        if isinstance(tree, Name) and tree.name in self.declared.types_with:
            types = self.declared.types_with[tree.name]
            if len(types) > 1:
                self.refuse(tree, f'{tree.name} is of {" and of ".join(types)}: say which')
            return f'{types[0]}.{tree.name}'
        return None

    # ---- expressions

    def value(self, tree, scope):
        """The Python expression of a tree."""
        if isinstance(tree, Number):
            return str(tree.value)
        if isinstance(tree, Text):
            return repr(tree.value)
        if isinstance(tree, Record):
            return 'Fields(' + ', '.join(f'{field_name(name)}={self.value(of, scope)}' for name, of in tree.fields) + ')'
        if isinstance(tree, Infix):
            return self.infix(tree, scope)
        if isinstance(tree, Lambda):
            return self.abstraction(tree, scope)
        if isinstance(tree, Let):
            inner = self.bind(scope, tree.name)
            return f'(lambda {inner[tree.name]}: {self.value(tree.body, inner)})({self.value(tree.value, scope)})'
        if isinstance(tree, Apply):
            return self.call(tree.head, [self.value(argument, scope) for argument in tree.arguments], scope)
        return self.call(tree, [], scope)

    def infix(self, tree, scope):
        """An operator; a row of ∷ is a single list."""
        if tree.operator != '∷':
            operands = [self.value(tree.left, scope), self.value(tree.right, scope)]
            return self.call(Name(tree.line, operator_name(tree.operator)), operands, scope)
        elements = []
        while isinstance(tree, Infix) and tree.operator == '∷':
            elements.append(self.value(tree.left, scope))
            tree = tree.right
        rest = self.value(tree, scope)
        return f'[{", ".join(elements)}]' if rest == '[]' else f'[{", ".join(elements)}, *{rest}]'

    def abstraction(self, tree, scope):
        for name in tree.names:
            scope = self.bind(scope, name)
        return '(' + ''.join(f'lambda {scope[name]}: ' for name in tree.names) + self.value(tree.body, scope) + ')'

    def call(self, head, arguments, scope):
        """A head applied to Python expressions: what is bound first, then what the crates and the library have."""
        name = head.name if isinstance(head, Name) else None
        if name in scope:
            return curried(0, arguments, lambda _: scope[name])
        if name in self.declared.functions or name in library.FUNCTIONS or name in library.FORMS:
            arity, form = self.form(name)
            return curried(arity, arguments, lambda given: form.format(*given))
        constructor = self.constructor(head)
        if constructor:
            arity = self.declared.constructors[constructor]
            return curried(arity, arguments, lambda given: f'({", ".join([repr(constructor), *given])},)')
        if name:
            self.refuse(head, f'the name {name} is not known')
        value = f'{self.value(head.of, scope)}.{field_name(head.field)}' if isinstance(head, Project) else self.value(head, scope)
        return curried(0, arguments, lambda _: value)

    def form(self, name):
        """How many arguments a function has, and the Python text of a call with places for them."""
        if name in library.FORMS:
            return library.FORMS[name]
        if name in library.FUNCTIONS:
            arity = library.FUNCTIONS[name][0]
        else:
            arity = self.declared.functions[name].arity
            chosen = choice(self.declared, self.declared.functions[name])
            if chosen:
                return arity, chosen
        return arity, f'{python_name(name)}({", ".join(["{}"] * arity)})'
