"""Finds the tests, and reads the station streams and raw cases of tests/vectors; hand.py reads those of tests/hand."""
import gzip
import struct
from collections import namedtuple
from pathlib import Path

from entries import SAVED

TESTS = Path(__file__).resolve().parent.parent
RECORD = 192        # bytes of a record of the station program
PACKET = 168        # bytes of packet in it
CASE_HEAD = 4 * (3 + 6 + len(SAVED))        # bytes of a raw case before its memories: the call, the sizes, the saved state
ANSWER_HEAD = 4 * (3 + len(SAVED))          # and of an answer: reply, value and interrupts, the saved state
KINDS = {'write': 1, 'read': 2, 'receive': 3, 'send': 4, 'take': 5}

# A record with the line that is expected of it. `place` says where it stands: its number, or the line of a hand-made file. `lent` is how
# long a room is lent to a send or take, None where it is the station's.
Record = namedtuple('Record', 'place data line lent', defaults=[None])

# A raw case: kind and two numbers, the saved state, four memories, packet and notice room; and the bytes expected after it.
Case = namedtuple('Case', 'number kind first second saved send receive data notices packet room expected')


class Malformed(Exception):
    """A test file that cannot be read."""


def all_tests():
    """By name, the kind of each test and its file: the quick ones first."""
    found = [(path.stem, 'hand', path) for path in sorted((TESTS / 'hand').glob('**/*.txt'))]
    for kind in ('raw', 'station'):
        found += [(path.name.removesuffix('.in.gz'), kind, path) for path in sorted((TESTS / 'vectors').glob(f'{kind}-*.in.gz'))]
    tests = {name: (kind, path) for name, kind, path in found}
    if len(tests) != len(found):
        raise Malformed('two tests have the same name')
    return tests


def answers_of(path):
    """The file with the answers to an input."""
    return path.with_name(path.name.replace('.in.gz', '.out' if path.name.startswith('station-') else '.out.gz'))


def contents(path):
    """What a file of the vectors holds, unpacked."""
    return gzip.decompress(path.read_bytes()) if path.suffix == '.gz' else path.read_bytes()


def put(path, data):
    """Writes such a file; the same data give the same bytes each time."""
    path.write_bytes(gzip.compress(data, mtime=0) if path.suffix == '.gz' else data)


# ---- station streams

def station_records(path):
    """The records of a stream, each with its line. A torn last record is a record too."""
    stream = contents(path)
    lines = contents(answers_of(path)).splitlines(keepends=True)
    records = [stream[at:at + RECORD] for at in range(0, len(stream), RECORD)]
    if len(records) != len(lines):
        raise Malformed(f'{path.name}: {len(records)} records, but {len(lines)} lines are expected')
    return [Record(f'record {number}', data, line) for number, (data, line) in enumerate(zip(records, lines), 1)]


def record_of(kind, first=0, second=0, packet=b''):
    """A record: "kind, 3 zero bytes, two numbers of 4 bytes, length of 4, 168 bytes of packet, 8 zero"."""
    return struct.pack('>B3xIII168s8x', kind, first, second, len(packet), packet)


def record_in_words(data):
    """A record in the words of a hand-made file."""
    if len(data) < RECORD:
        return f'torn {len(data)}'
    kind, first, second, length = struct.unpack('>B3xIII', data[:16])
    return in_words(kind, first, second, data[16:16 + min(length, PACKET)])


def in_words(kind, first, second, packet):
    """A call in words."""
    words = {
        1: f'write 0x{first:03X} 0x{second:08X}',
        2: f'read 0x{first:03X}',
        3: f'receive {packet.hex()}',
        4: f'send {first}',
        5: f'take {first}',
    }
    return words.get(kind, f'kind {kind}')


# ---- raw cases

def words(data):
    return list(struct.unpack(f'<{len(data) // 4}I', data))


def padded(count):
    return count + -count % 4


def part_sizes(counts):
    """How many bytes each memory and room takes, of the six sizes of a case."""
    return [4 * counts[0], 4 * counts[1], padded(counts[2]), 4 * counts[3], padded(counts[4]), 4 * counts[5]]


def raw_cases(path):
    """The cases of a raw file, each with the bytes expected after it. A truncated last case is ignored, as the format says."""
    stream, answers = contents(path), contents(answers_of(path))
    cases, at, answered = [], 0, 0
    while at + CASE_HEAD <= len(stream):
        kind, first, second, *rest = words(stream[at:at + CASE_HEAD])
        counts, saved = rest[:6], rest[6:]
        sizes = part_sizes(counts)
        if at + CASE_HEAD + sum(sizes) > len(stream):
            break
        parts = parts_of(stream[at + CASE_HEAD:at + CASE_HEAD + sum(sizes)], sizes)
        expected = answers[answered:answered + ANSWER_HEAD + sum(sizes)]
        cases.append(Case(len(cases) + 1, kind, first, second, saved, words(parts[0]), words(parts[1]), list(parts[2][:counts[2]]),
                          words(parts[3]), list(parts[4][:counts[4]]), words(parts[5]), expected))
        at, answered = at + CASE_HEAD + sum(sizes), answered + len(expected)
    if answered != len(answers):
        raise Malformed(f'{path.name}: the answers go on after the last case')
    return cases


def parts_of(data, sizes):
    """The data cut into parts of these sizes."""
    parts = []
    for size in sizes:
        parts.append(data[:size])
        data = data[size:]
    return parts
