"""Records and the station's lines in plain words."""
import gzip
import random

from forms import likely_records
from packets import packet
from tool import HERE, RECORD, ROOT, expect, expect_lines, record, right, scratch

DOUBT = 'the calls before lead to another answer'
# What is not said where a right station answers from its start.
NEVER = DOUBT, 'document 01 has no', 'no clause of it', 'not known', 'by document 01', 'may have no room'


def explain(records, lines):
    with scratch() as folder:
        open(f'{folder}/a.bin', 'wb').write(records)
        open(f'{folder}/a.lines', 'wb').write(lines)
        return right('explain', f'{folder}/a.bin', f'{folder}/a.lines').decode()


# Records and lines that do not fit, and what is said.
MISFITS = [
    ('more records than lines', record(2) + record(9), b'2 done 00000000 0\n', '''\
There are 2 records and 1 lines; a station prints a line for each record.
record 1: read PCSR0 (0x000)
  2 done 00000000 0
    reset 0, enable 0, incarnation 0, node 0
record 2: kind 9, which is no call
  no line
'''),
    ('more lines than records', b'', b'9 no-register 00000000 0\n', '''\
There are 0 records and 1 lines; a station prints a line for each record.
line 1 without a record: 9 no-register 00000000 0
'''),
    ('another kind, and the pointer is not known then', record(1, 0x80, 0x148) + record(2, 0x84), b'2 done 00000000 0\n2 done 00000001 0\n', '''\
record 1: write 0x00000148 to receive_pointer (0x080)
  2 done 00000000 0
    this line is for kind 2, the record is of kind 1
record 2: read receive_word (0x084): a word of Receive RAM, its pointer is not known
  2 done 00000001 0
    1
'''),
    ('a reply that the call does not have', record(2), b'2 quiet 00000000 1\n', '''\
record 1: read PCSR0 (0x000)
  2 quiet 00000000 1
    document 01 has no such reply for this call
    by document 01 a refusal's value and interrupts are 0
    interrupt 1: AQR is no longer empty, int_hi is on
'''),
    ('a notice of which nothing is known', record(9) + record(5, 0) + record(5, 1), b'8 done 00000000 0\n5 done 00052000 0\n5 done 00050070 0\n', '''\
record 1: kind 9, which is no call
  8 done 00000000 0
    this line is for kind 8, the record is of kind 9
record 2: take the oldest notice of list 0
  5 done 00052000 0
    as a message or ack: slot 5, src_node 512; as a fault: slot 5, status 0x2000
record 3: take the oldest notice of list 1
  5 done 00050070 0
    a message or ack: slot 5, src_node 7
'''),
]


ON = 'write PCSR0 0x40030009', '1 done 00000000 0'
SLOT = [ON, ('write slot_count 1', '1 done 00000000 0'), ('write receive_pointer 4', '1 done 00000000 0'),
        ('write receive_word_step 256', '1 done 00000000 0'), ('write receive_word 0x00008000', '1 done 00000000 0')]
# Right, but for its last word.
BODY = 'receive ' + packet((0x00090000, 0x00000070, 0x03000000, 0), payload=b'abcd')[:-4].hex()
# Records with their lines, and the words said last.
SAID = [
    ([('write PCSR1 0', '1 done 00000000 0')], 'int_hi and int_lo are off'),
    ([('write PCSR1 0x40000000', '1 done 00000000 0')], 'int_lo is off, int_hi stays'),
    ([('write PCSR1 0x60000000', '1 done 00000000 0')], 'nothing changes: a write clears int_hi or int_lo where its bit is 0'),
    ([('write NBQR 0x1fe0', '1 bad-value 00000000 0')], 'the next word of block 0x1fe0 is not 0: another block follows it on a list'),
    (SLOT + [(BODY + '00000000', '3 fault 00000200 0')], 'status 0x0200: the body check is wrong'),
    (SLOT + [(BODY + '00000001', '3 fault 00000200 0')], 'status 0x0200: the body check is wrong, or the padding behind it is not 0'),
    ([ON, ('receive ' + '00' * 20, '3 fault 00000400 0')], 'status 0x0400: the header check is wrong'),
    ([ON, ('receive ' + '00' * 12 + '08' + '00' * 27, '3 no-packet 00000000 0')],
     'the length 40 is none of a packet with the meta flag: 36, or 44 to 168'),
    ([ON, ('receive ' + '00' * 22, '3 no-packet 00000000 0')], 'the length 22 is no multiple of 4'),
    ([('take 5', '5 full 00000000 0')], '256 blocks wait in NBQR, the most'),
    ([('write NBQR 0x20', '1 full 00000000 0')], '256 blocks wait in NBQR, the most'),
    ([('send ready', '4 short 00000000 0')], 'the room lent for it is too short; a station lends enough'),
    ([('kind 7', '7 sizes 00000000 0')], "a memory has another size; a station's have the largest"),
    ([('read 0', '2 unsound 00000000 0')], 'the saved state is not sound; no calls lead there'),
    # A line of another kind: the pointer is not known then.
    ([('read 0', '1 done 00000000 0'), ('write receive_word 1', '1 read-only 00000000 0')], 'the word that was reached cannot be written'),
]
META = 'receive packet dst=9 incarnation=3 meta=1,2,3,4 payload=00112233', '3 done 00000000 0'
ACKED = 'receive packet dst=9 incarnation=3 use_size', '3 done 00000000 0'
# Longer ones, and all that is said last: no doubt among it.
ALL_SAID = [
    (SLOT + [META, ('read receive_page+0x2C', '2 done 00000004 0')], ['4']),
    (SLOT + [META, ('write receive_word 0x00008000', '1 done 00000000 0'), ('read receive_page+0x2C', '2 done 00000000 0')], ['0']),
    (SLOT + [('write receive_word 0x0000a000', '1 done 00000000 0')] + [ACKED] * 256 + [(ACKED[0], '3 stalled 00000000 0')],
     ['the message would be complete', 'AQR is full, and the slot asks for an ack']),
]
# Byte addresses at the borders of both RAMs, and what stands there.
PLACES = [
    ('send', 0x0FC, 'descriptor 3 word 15 (unused)'), ('send', 0x100, 'DIO word at byte 0x100'), ('send', 0xFFC, 'DIO word at byte 0xffc'),
    ('receive', 0x0FFC, 'slot 63 word 15 (unused)'), ('receive', 0x1000, 'head of list 0'), ('receive', 0x11FC, 'token word of list 63'),
    ('receive', 0x1200, 'place 0 of NQR'), ('receive', 0x15FC, 'place 255 of NQR'), ('receive', 0x1600, 'place 0 of AQR'),
    ('receive', 0x19FC, 'place 255 of AQR'), ('receive', 0x1A00, 'place 0 of NBQR'), ('receive', 0x1DFC, 'place 255 of NBQR'),
    ('receive', 0x1E00, "reader's place of list 0"), ('receive', 0x1EFC, "reader's place of list 63"),
    ('receive', 0x1F00, 'Receive RAM word 1984, in the rest'), ('receive', 0x1FFC, 'Receive RAM word 2047, in the rest'),
]


def said():
    """Single sentences, and the names of places."""
    cases = SAID + [([(f'write {ram}_pointer {byte}', '1 done 00000000 0')], f'it points at {name}') for ram, byte, name in PLACES]
    for steps, expected in cases + ALL_SAID:
        records = right('write', '-', given='\n'.join(text for text, _ in steps).encode())
        found = explain(records, '\n'.join(line for _, line in steps).encode())
        after = [line.strip() for line in found[found.rindex(steps[-1][1]):].splitlines()[1:]]
        # Short streams raise doubts, since what would lead to the answer is left out.
        expect(f'said of {steps[-1]}', expected, after if isinstance(expected, list) else after[0])
    return f'{len(cases) + len(ALL_SAID)} sentences'


def explained():
    """The kept texts, and what does not fit."""
    for name in ('sample', 'longer'):
        records = right('write', HERE / f'{name}.txt')
        found = explain(records, (HERE / f'{name}.lines').read_bytes())
        expect_lines(f'{name}.explained', (HERE / f'{name}.explained').read_text(), found)
    for what, records, lines, expected in MISFITS:
        expect_lines(what, expected, explain(records, lines))
    return f'2 streams, {len(MISFITS)} misfits'


WORDS = ('done sizes unsound no-register read-only active bad-value off short no-packet empty full quiet stalled fabric fault').split()


def any_lines():
    """Lines that no station would print for these records are explained too, as many as there are."""
    count = 0
    for seed in range(40):
        chance = random.Random(seed)
        records = likely_records(seed)
        kinds = [records[at] if at + RECORD <= len(records) else 0 for at in range(0, len(records), RECORD)]
        lines = [f'{kind} {chance.choice(WORDS + ["done"] * 20)} {chance.choice([0, 1, chance.randrange(1 << 32)]):08x} {chance.randrange(8)}'
                 for kind in kinds]
        found = explain(records, '\n'.join(lines).encode())
        heads = sum(line.startswith('record ') for line in found.splitlines())
        expect(f'records explained, seed {seed}', len(kinds), heads)
        count += heads
    return f'{count} records'


def doubted():
    """What explain keeps track of agrees with every answer of the vectors, and a changed answer is noticed."""
    streams = sorted((ROOT / 'tests/vectors').glob('station-*.in.gz'))
    for path in streams:
        lines = path.with_name(path.name.replace('.in.gz', '.out')).read_bytes()
        found = explain(gzip.decompress(path.read_bytes()), lines)
        expect(f'doubts of {path.name}', [], [line for line in found.splitlines() if any(words in line for words in NEVER)])
    longer = right('write', HERE / 'longer.txt')
    lines = (HERE / 'longer.lines').read_text()
    changes = [
        ('2 done ffffff54 0', '2 done ffffff55 0', '0xffffff54'),
        ('3 fault 00000400 4', '3 fault 00000080 4', 'a fault of status 0x0400'),
        ('3 fault 00001000 0', '3 done 00000000 0', 'a fault of status 0x1000'),
        ('3 done 00000000 3', '3 fault 00000200 0', 'no step of receipt fails'),
        ('4 done 00000044 4', '4 done 00000048 4', 'a packet of 68 bytes'),
        ('4 done 00000014 0', '4 quiet 00000000 0', 'descriptor 1 is active'),
        ('4 quiet 00000000 0', '4 done 00000014 0', 'no descriptor is active'),
        ('5 done 00050070 0', '5 empty 00000000 0', 'list 3 has a notice'),
        ('1 read-only 00000000 0\n1 bad-value 00000000 0\n1 bad-value', '1 done 00000000 0\n1 bad-value 00000000 0\n1 bad-value', 'read-only'),
        ('3 stalled 00000000 0', '3 fault 00002000 0', 'stalled'),
        ('3 fault 00002000 0', '3 stalled 00000000 0', 'what it needs has room'),
        ('1 done 00000000 0\n1 active', '1 bad-value 00000000 0\n1 active', 'done'),
        ('1 bad-value 00000000 0\n1 done 00000000 0\n1 active', '1 done 00000000 0\n1 done 00000000 0\n1 active', 'bad-value'),
        ('5 done 00052000 0', '5 full 00000000 0', '0 blocks wait in NBQR'),
        ('5 done 00064000 0', '5 done 00052000 0', 'word 0 is 0x00064000'),
        ('5 empty 00000000 0', '5 done 00000000 0', 'list 3 has no notice'),
    ]
    for line, other, expected in changes:
        expect(f'{line!r} is there', True, line in lines)
        found = explain(longer, lines.replace(line, other, 1).encode())
        expect(f'{other!r} for {line!r}', True, f'{DOUBT}: {expected}\n' in found)
    return f'{len(streams)} streams without doubt, {len(changes)} changed answers doubted'
