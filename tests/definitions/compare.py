"""Answers a test from the definitions, compares every byte, and says the first difference in plain words."""
import struct
from contextlib import contextmanager
from itertools import zip_longest

import entries
from hand import Alteration, Room, Sight, hand_steps
from vectors import KINDS, Record, all_tests, in_words, raw_cases, record_in_words, station_records

# The parts of a raw answer that are no single numbers, and those of them that are bytes.
MEMORIES = ('send RAM', 'receive RAM', 'data memory', 'notice memory', 'packet buffer', 'notice room')
OCTETS = ('data memory', 'packet buffer')


class Difference(Exception):
    """Where the definitions and the expected answer part."""

    def __init__(self, place, words):
        super().__init__(f'{place}: {words}')
        self.place = place


@contextmanager
def answering(place):
    """Definitions that give no answer, or a number that is no word or byte, differ as well."""
    try:
        yield
    except (ArithmeticError, LookupError, RecursionError, ValueError, struct.error) as error:
        raise Difference(place, f'the definitions give no answer: {error}') from error


def check(definitions, name):
    """Runs a test by its name; how much was compared, in words. Raises Difference at the first."""
    kind, path = all_tests()[name]
    if kind == 'raw':
        return check_raw(definitions, raw_cases(path))
    if kind == 'station':
        return check_steps(definitions, station_records(path))
    steps = hand_steps(path)
    compared = check_steps(definitions, steps)
    if all(isinstance(step, Record) and step.lent is None for step in steps):
        check_whole(definitions, steps)
    return compared


def check_steps(definitions, steps):
    """Each step in turn, on the machine that the one before it left."""
    kind, machine, room = 0, definitions.first_machine(), []
    for step in steps:
        if isinstance(step, Alteration):
            with answering(step.place):
                machine = entries.altered(machine, step.what, step.name, step.numbers)
        elif isinstance(step, Sight):
            check_sight(step, machine)
        elif isinstance(step, Room):
            check_room(step, kind, room)
        else:
            outcome = check_record(definitions, step, machine)
            kind, machine, room = step.data[0], outcome.machine, outcome.room
    return f'{len(steps)} lines'


def check_whole(definitions, records):
    """The whole stream at once, by the definition of the station program itself: too slow for the long ones."""
    with answering('the whole stream'):
        said = bytes(definitions.station(list(b''.join(record.data for record in records))))
    for record, line in zip_longest(records, said.splitlines(keepends=True)):
        if not record or line != record.line:
            raise Difference(record.place if record else 'the end', f'as a whole stream, the definitions say {line}')


def check_sight(sight, machine):
    """A word or byte that no line shows."""
    with answering(sight.place):
        number = getattr(machine, sight.memory)[sight.at]
    if number != sight.expected:
        raise Difference(sight.place, f'place {sight.at} of {sight.memory} is 0x{number:08X}, expected is 0x{sight.expected:08X}')


def check_room(step, kind, room):
    """All bytes of a send's packet room, or of a take's notice room, whose words are big-endian."""
    with answering(step.place):
        said = struct.pack(f'>{len(room)}I', *room) if kind == KINDS['take'] else bytes(room)
    if said != step.expected:
        raise Difference(step.place, f'the room holds {said.hex(" ", 4)}')


def check_record(definitions, record, machine):
    """The line of a record; what it comes to."""
    with answering(record.place):
        outcome, line = answered_record(definitions, list(record.data), machine, record.lent)
    if line != record.line:
        said, expected = (text.decode('ascii', 'replace').rstrip('\n') for text in (line, record.line))
        raise Difference(record.place, f'{record_in_words(record.data)}: the definitions say "{said}", expected is "{expected}"')
    return outcome


def answered_record(definitions, data, machine, lent):
    """What a record comes to, and its line."""
    call = definitions.call_of(data)
    if lent is not None:
        call = entries.lent_room(call, lent)
    outcome = definitions.perform(call, machine)
    word_bytes([outcome.value, *entries.saved_numbers(outcome.machine.saved)])  # a number beyond 32 bits is no answer
    return outcome, bytes(definitions.line_of(definitions.kind_of(data), outcome.reply, outcome.value, outcome.interrupts))


def check_raw(definitions, cases):
    """Each case by itself: the answer, the saved state, every memory and room after the call."""
    for case in cases:
        call = entries.call(case.kind, case.first, case.second, case.packet, case.room)
        before = entries.machine(case.saved, case.send, case.receive, case.data, case.notices)
        with answering(f'case {case.number}'):
            said = answer_parts(case, definitions.perform(call, before))
        if b''.join(data for _, data in said) != case.expected:
            words = in_words(case.kind, case.first, case.second, bytes(case.packet))
            raise Difference(f'case {case.number}', f'{words}: {first_part(said, case.expected)}')
    return f'{len(cases)} cases'


def answer_parts(case, outcome):
    """The parts of a raw answer in their order, each a name and its bytes: one number, or a memory."""
    machine = outcome.machine
    numbers = [('reply', outcome.reply), ('value', outcome.value), ('interrupts', outcome.interrupts)]
    numbers += zip(entries.SAVED, entries.saved_numbers(machine.saved))
    packet = outcome.room if case.kind == 4 else case.packet
    room = outcome.room if case.kind == 5 else case.room
    memories = [word_bytes(machine.send), word_bytes(machine.receive), padded_bytes(machine.bytes),
                word_bytes(machine.notices), padded_bytes(packet), word_bytes(room)]
    return [(name, word_bytes([number])) for name, number in numbers] + list(zip(MEMORIES, memories))


def word_bytes(numbers):
    if any(number >= 2 ** 32 for number in numbers):
        raise ValueError(f'{max(numbers)} has more than 32 bits')
    return struct.pack(f'<{len(numbers)}I', *numbers)


def padded_bytes(octets):
    return bytes(octets) + bytes(-len(octets) % 4)


def first_part(said, expected):
    """The first part that differs, in plain words."""
    for name, data in said:
        other, expected = expected[:len(data)], expected[len(data):]
        for at in range(0, len(data), 4):
            if data[at:at + 4] != other[at:at + 4]:
                return f'{place_in(name, at)} is {shown(name, data, at)}, expected is {shown(name, other, at)}'
    return 'a memory has another length than expected'


def place_in(name, at):
    if name not in MEMORIES:
        return name
    return f'byte {at} of the {name} and on' if name in OCTETS else f'word {at // 4} of the {name}'


def shown(name, data, at):
    """Four bytes of a part: bytes as they stand, a word as a number."""
    four = data[at:at + 4]
    return four.hex(' ') if name in OCTETS or len(four) < 4 else f'0x{struct.unpack("<I", four)[0]:08X}'
