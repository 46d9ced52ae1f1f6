"""Reads the streams written by hand; tests/hand/README.md says how they are written."""
import struct
from collections import namedtuple

from entries import MEMORIES, SAVED
from vectors import KINDS, RECORD, Malformed, Record, record_of

# A change of the machine from outside: 'set', 'fill' or 'resize', a number of the saved state or a memory, and numbers.
Alteration = namedtuple('Alteration', 'place what name numbers')

# How many numbers each takes for a memory.
ALTERATIONS = {'set': 2, 'fill': 3, 'resize': 1}

# A word, or a byte of data memory, that is looked at.
Sight = namedtuple('Sight', 'place memory at expected')

# What the room lent with the record before holds.
Room = namedtuple('Room', 'place expected')


def hand_steps(path):
    """The steps of a file: records with their lines, alterations, sights and rooms. # begins a comment."""
    steps = []
    for number, text in enumerate(path.read_text(encoding='utf-8').splitlines(), 1):
        text = text.split('#')[0].strip()
        if not text:
            continue
        try:
            if steps and isinstance(steps[-1], Record) and len(steps[-1].data) < RECORD:
                raise ValueError('only the last record can be torn')
            steps.append(step_of(f'line {number}', text))
        except (KeyError, ValueError, TypeError, struct.error) as error:
            raise Malformed(f'{path.name}:{number}: {text!r} is no step: {error}') from error
    return steps


def step_of(place, text):
    """A step of its text: what stands before `->`, and what is expected after it."""
    written, _, expected = text.partition('->')
    word, *rest = written.split()
    if bool(expected) == (word in ALTERATIONS):
        raise ValueError('records and sights have an answer after ->, alterations have none')
    if word in ALTERATIONS:
        return alteration(place, word, *rest)
    if word == 'see':
        name, at = rest
        return Sight(place, MEMORIES[name], int(at, 0), int(expected, 16))
    if word == 'room' and not rest:
        return Room(place, bytes_by_hand(expected.split()))
    lent = None
    if word in ('send', 'take') and 'into' in rest:
        number, _, count = rest
        rest, lent = [number], int(count)
    kind, data = record_by_hand(word, *rest)
    return Record(place, data, f'{kind} {expected.strip()}\n'.encode(), lent)


def alteration(place, what, name, *numbers):
    """`set NAME NUMBER` of the saved state, `set MEMORY PLACE NUMBER`, `fill MEMORY PLACE COUNT NUMBER`, `resize MEMORY COUNT`."""
    numbers = [int(number, 0) for number in numbers]
    if what == 'set' and name in SAVED and len(numbers) == 1:
        return Alteration(place, what, name, numbers)
    if len(numbers) != ALTERATIONS[what]:
        raise ValueError(f'{what} {name} with {len(numbers)} numbers is not known')
    return Alteration(place, what, MEMORIES[name], numbers)


def record_by_hand(word, *rest):
    """The kind that is printed for a record written by hand, and the record's bytes."""
    if word == 'torn':
        return 0, torn_record(*rest)
    if word == 'record':
        return whole_record(bytes_by_hand(rest))
    if word == 'receive':
        return KINDS[word], record_of(KINDS[word], packet=bytes_by_hand(rest))
    numbers = [int(number, 0) for number in rest]
    if word == 'kind':
        return numbers[0], record_of(*numbers)
    if len(numbers) != (2 if word == 'write' else 1) or word not in KINDS:
        raise ValueError(f'{word} with {len(numbers)} numbers is not known')
    return KINDS[word], record_of(KINDS[word], *numbers)


def whole_record(data):
    """The kind and the bytes of a record that is given by its bytes."""
    if len(data) != RECORD:
        raise ValueError(f'a record has {RECORD} bytes, not {len(data)}')
    return data[0], data


def torn_record(count):
    """The first bytes of a record that would be a read."""
    if not 0 < int(count) < RECORD:
        raise ValueError(f'a torn record has 1 to {RECORD - 1} bytes')
    return record_of(KINDS['read'])[:int(count)]


def bytes_by_hand(parts):
    """Bytes in hexadecimal digits, `00070000`, or some that stand there many times, `00*20`."""
    octets = b''
    for part in parts:
        digits, _, times = part.partition('*')
        octets += bytes.fromhex(digits) * int(times or 1)
    return octets
