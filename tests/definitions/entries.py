"""The names by which the tests enter the definitions, and the shapes of what they hand over. A renaming there is followed here."""
import functools
from types import SimpleNamespace

from translate import load

# The order of the saved state's numbers in a raw case; a queue's two numbers are named after it.
SAVED = ('pcsr0', 'inthi', 'intlo', 'slots', 'taken', 'faulted', 'sendpointer', 'receivepointer',
         'nqr.place', 'nqr.length', 'aqr.place', 'aqr.length', 'nbqr.place', 'nbqr.length', 'lastsender')

# The fields of a machine that are memories, by the names that they have in tests/hand.
MEMORIES = {'send': 'send', 'receive': 'receive', 'data': 'bytes', 'notices': 'notices'}


class Missing(Exception):
    """A definition by which the tests enter is not there."""


class Definitions:
    """The definitions, loaded from the folder of the crates."""

    def __init__(self, crates):
        names = load(crates)
        try:
            self.perform = names['perform']
            self.first_machine = names['first_machine']
            self.kind_of = names['kind_of']
            self.call_of = names['call_of']
            self.line_of = names['line_of']
            self.station = names['station']
        except KeyError as name:
            raise Missing(f'{crates} has no definition {name}') from name


def call(kind, first, second, packet, room):
    """A call by the number of its kind."""
    calls = {
        1: ('Call.writes', first, second),
        2: ('Call.reads', first),
        3: ('Call.receives', packet),
        4: ('Call.sends', first == 1, packet),
        5: ('Call.takes', first, room),
    }
    return calls.get(kind, ('Call.unknown',))


def lent_room(call, count):
    """The send or take with another room, of zeros."""
    *rest, _ = call
    return (*rest, [0] * count)


def machine(saved, send, receive, data, notices):
    """A machine of the saved state's fifteen numbers and the four memories."""
    return SimpleNamespace(saved=saved_state(saved), send=send, receive=receive, bytes=data, notices=notices)


def saved_state(numbers):
    """The saved state of its numbers in the order of SAVED."""
    state = SimpleNamespace(nqr=SimpleNamespace(), aqr=SimpleNamespace(), nbqr=SimpleNamespace())
    for name, number in zip(SAVED, numbers):
        set_number(state, name, number)
    return state


def set_number(state, name, number):
    *queue, last = name.split('.')
    setattr(getattr(state, queue[0]) if queue else state, last, number)


def saved_numbers(state):
    """The numbers of a saved state in the order of SAVED."""
    return [functools.reduce(getattr, name.split('.'), state) for name in SAVED]


# ---- a machine from outside

def altered(machine, what, name, numbers):
    """Another machine, with a number or words set, or a memory resized: what is cut off is lost, what is new is zero."""
    if name in SAVED:
        state = dict(zip(SAVED, saved_numbers(machine.saved)))
        state[name] = numbers[0]
        return SimpleNamespace(**{**vars(machine), 'saved': saved_state(state.values())})
    memory = list(getattr(machine, name))
    if what == 'set':
        memory[numbers[0]] = numbers[1]
    elif what == 'fill':
        for at in range(numbers[0], numbers[0] + numbers[1]):
            memory[at] = numbers[2]
    else:
        memory = (memory + [0] * numbers[0])[:numbers[0]]
    return SimpleNamespace(**{**vars(machine), name: memory})
