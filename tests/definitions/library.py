"""What antt's library names mean, in Python.

Naturals and integers are Python's numbers, truths are its truths, lists are its lists and are never changed in place.
A function that is handed over takes its arguments one by one: f(x)(y).
"""


def cut_off(a, b):
    """Subtraction of naturals."""
    return a - b if a > b else 0


def get(xs, i, default):
    return xs[i] if i < len(xs) else default


def put(xs, i, x):
    return xs[:i] + [x] + xs[i + 1:] if i < len(xs) else xs


def puts(xs, i, new):
    """A run of stores; those past the end change nothing."""
    return xs[:i] + new[:len(xs) - i] + xs[i + len(new):] if i < len(xs) else xs


def fold_left(f, start, xs):
    for x in xs:
        start = f(start)(x)
    return start


def ascii_codes(text):
    return list(text.encode('ascii'))


# By name: how many arguments, and the function of them.
FUNCTIONS = {
    'length': (1, len),
    'get_or': (3, get),
    'set': (3, put),
    'sets': (3, puts),
    'take': (2, lambda n, xs: xs[:n]),
    'drop': (2, lambda n, xs: xs[n:]),
    'replicate': (2, lambda n, x: [x] * n),
    'map': (2, lambda f, xs: [f(x) for x in xs]),
    'foldl': (3, fold_left),
    'eqb': (2, lambda a, b: a == b),
    'ltb': (2, lambda a, b: a < b),
    'leb': (2, lambda a, b: a <= b),
    'not': (1, lambda a: not a),
    'min': (2, min),
    'bit_xor': (2, lambda a, b: a ^ b),
    'nat_abs': (1, abs),
    'ascii': (1, ascii_codes),
}

# The constructors of its types that the definitions use: how many arguments.
CONSTRUCTORS = {
    'Option': {'Some': 1, 'None': 0},
    'Result': {'Ok': 1, 'Err': 1},
}

# Written in antt as well, by means that are not translated: the function above stands for its clauses.
NATIVE = {'ascii'}

# Forms that are no calls in Python: how many arguments, and the Python text. Choices look at one branch only.
FORMS = {
    'true': (0, 'True'),
    'false': (0, 'False'),
    'zero': (0, '0'),
    '[]': (0, '[]'),
    'suc': (1, '({} + 1)'),
    'pos': (1, '{}'),
    'negsuc': (1, '(-1 - {})'),
    'cond': (3, '({1} if {0} else {2})'),
    '◌+◌': (2, '({} + {})'),
    '◌-◌': (2, 'cut_off({}, {})'),
    '◌*◌': (2, '({} * {})'),
    '◌/◌': (2, '({} // {})'),
    '◌%◌': (2, '({} % {})'),
    '◌^◌': (2, '({} ** {})'),
    '◌∷◌': (2, '[{}, *{}]'),
    '◌++◌': (2, '({} + {})'),
    '◌&&◌': (2, '({} and {})'),
    '◌||◌': (2, '({} or {})'),
    '◌+ℤ◌': (2, '({} + {})'),
    '◌-ℤ◌': (2, '({} - {})'),
}
