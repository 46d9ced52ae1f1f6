"""What the crates declare: constructors of enums and data, operators, and functions with their clauses."""
import re
from dataclasses import dataclass, field
from pathlib import Path

from library import CONSTRUCTORS, FORMS, FUNCTIONS, NATIVE
from reading import PRECEDENCE, NotKnown, Reader, items_of
from trees import Apply, Name

# The crates of the definitions, and the modules of a crate that are not translated: lists of modules, names handed on.
CRATES = ('ground', 'rules')
NO_DEFINITIONS = {'Lib', 'Types'}


@dataclass
class Module:
    """A file of definitions. `names` are those it imports or declares."""
    file: str
    items: list
    names: set = field(default_factory=set)


@dataclass
class Function:
    """A function with its clauses, each a pair: the patterns, the body."""
    module: Module
    line: int
    clauses: list = field(default_factory=list)

    @property
    def arity(self):
        return len(self.clauses[0][0])


class Declared:
    """All that is declared in the crates. `reader` reads the clauses."""

    def __init__(self, reader):
        self.reader = reader
        self.modules = []
        self.constructors = {}      # 'Enum.Variant' -> how many arguments
        self.types_with = {}        # 'Variant' -> the enums and data types that have it
        self.functions = {}
        self.precedence = dict(PRECEDENCE)
        for of, variants in CONSTRUCTORS.items():
            for name, arity in variants.items():
                self.add_constructor(of, name, arity)

    def add_constructor(self, of, name, arity):
        self.constructors[f'{of}.{name}'] = arity
        self.types_with.setdefault(name, []).append(of)

    def add_function(self, name, module, line):
        if name in self.functions or name in self.types_with or (name in FUNCTIONS or name in FORMS) and name not in NATIVE:
            raise NotKnown(module.file, line, f'{name} is declared twice')
        self.functions[name] = Function(module, line)


# ---- enums of the code

def read_enums(declared, path, file):
    """Every `pub enum` of a source file: its variants are constructors in antt."""
    source = re.sub(r'//[^\n]*', '', path.read_text(encoding='utf-8'))
    for match in re.finditer(r'\bpub\s+enum\s+(\w+)\s*\{([^{}]*)([{}])', source):
        enum, body, end = match.groups()
        line = source[:match.start()].count('\n') + 1
        if end == '{':
            raise NotKnown(file, line, f'a variant of {enum} with named fields')
        for variant in split_at_commas(body):
            parts = re.fullmatch(r'(\w+)\s*(?:\((.*)\)|= \w+)?', variant, re.DOTALL)
            if not parts:
                raise NotKnown(file, line, f'a variant of {enum}: {variant!r}')
            declared.add_constructor(enum, parts[1], len(split_at_commas(parts[2] or '')))


def split_at_commas(text):
    """The parts between commas that stand in no bracket; an empty last part is none."""
    parts, depth = [''], 0
    for letter in text:
        depth += (letter in '([<') - (letter in ')]>')
        if letter == ',' and depth == 0:
            parts.append('')
        else:
            parts[-1] += letter
    return [part.strip() for part in parts if part.strip()]


# ---- antt

def read_names(module, item):
    """The names that a `use` line brings, or a declaration makes."""
    texts = [token.text for token in item.tokens]
    if 'use' in texts[:2]:
        if '{' in texts:
            module.names.update(texts[texts.index('{') + 1:])
    elif 'data' in texts[:2]:
        module.names.update(texts)


def read_data(declared, item):
    """`pub data D : Type 0 where`, then a line `name : A → B → D` for each constructor."""
    texts = [token.text for token in item.tokens]
    if 'where' not in texts or '{' in texts:
        raise NotKnown(item.file, item.line, 'a data type without constructors or with implicit arguments')
    data, body = texts[texts.index('data') + 1], texts[texts.index('where') + 1:]
    depth, arities = 0, {}
    for text, after in zip(body, body[1:] + ['']):
        depth += (text == '(') - (text == ')')
        if depth == 0 and after == ':':
            name, arities[text] = text, 0
        elif depth == 0 and text == '→':
            arities[name] += 1
    for name, arity in arities.items():
        declared.add_constructor(data, name, arity)


def read_operator(declared, item):
    """`infixl 50 ◌▸◌`."""
    parts = re.fullmatch(r'infix([lr]) (\d+) ◌([^◌\s]+)◌', ' '.join(token.text for token in item.tokens))
    if not parts:
        raise NotKnown(item.file, item.line, 'an operator that is not between two things, or that has no side')
    declared.precedence[parts[3]] = (int(parts[2]), {'l': 'left', 'r': 'right'}[parts[1]])


def read_clause(declared, module, item):
    """`f p q = e`, below the signature of f."""
    left, body = declared.reader(item, declared.precedence).clause()
    head, patterns = (left.head, left.arguments) if isinstance(left, Apply) else (left, ())
    if not isinstance(head, Name) or head.name not in declared.functions:
        raise NotKnown(item.file, item.line, 'a clause without a signature')
    function = declared.functions[head.name]
    if function.module is not module or function.clauses and len(patterns) != function.arity:
        raise NotKnown(item.file, item.line, f'a clause that does not fit the others of {head.name}')
    function.clauses.append((patterns, body))


def kind_of(item):
    """What an item is: use, mod, record, data, an operator, unfolding, a signature or a clause."""
    texts = [token.text for token in item.tokens]
    while texts[0] in ('pub', 'abbrev', 'unfoldable'):
        texts = texts[1:]
    if texts[0] in ('use', 'mod', 'record', 'data', 'unfolding', 'infixl', 'infixr', 'infix'):
        return texts[0]
    return 'signature' if texts[1:2] == [':'] else 'clause'


def name_of(item):
    """The name that a signature is of."""
    return next(before.text for before, token in zip(item.tokens, item.tokens[1:]) if token.text == ':')


def read_crates(crates, names=CRATES, reader=Reader):
    """Reads these crates: first what is declared, then the clauses, since these are read by it."""
    declared = Declared(reader)
    for crate in names:
        for path in sorted((Path(crates) / crate / 'src').glob('**/*.rt')):
            read_enums(declared, path, f'{crate}/src/{path.name}')
        for path in sorted((Path(crates) / crate / 'specs').glob('*.antt')):
            if path.stem not in NO_DEFINITIONS:
                file = f'{crate}/specs/{path.name}'
                declared.modules.append(Module(file, items_of(path, file)))
    for module in declared.modules:
        for item in module.items:
            read_names(module, item)
            kind = kind_of(item)
            if kind == 'data':
                read_data(declared, item)
            elif kind.startswith('infix'):
                read_operator(declared, item)
    for module in declared.modules:
        read_functions(declared, module)
    return declared


def read_functions(declared, module):
    """The signatures of a module, then its clauses; each signature has some."""
    for item in module.items:
        if kind_of(item) == 'signature':
            declared.add_function(name_of(item), module, item.line)
    for item in module.items:
        if kind_of(item) == 'clause':
            read_clause(declared, module, item)
    for name, function in declared.functions.items():
        if function.module is module and not function.clauses:
            raise NotKnown(module.file, function.line, f'{name} has no clause')
