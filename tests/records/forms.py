"""Record files as text: every byte comes back, and each form of a line gives the record it should."""
import gzip
import random

from tool import RECORD, ROOT, expect, expect_lines, record, right, scratch


def round_trips():
    """Of the vectors' streams, and of bytes from fixed seeds."""
    files = [gzip.decompress(path.read_bytes()) for path in sorted((ROOT / 'tests/vectors').glob('station-*.in.gz'))]
    expect('there are streams in tests/vectors', True, len(files) > 0)
    streams = len(files)
    files += [random_bytes(seed) for seed in range(40)] + [likely_records(seed) for seed in range(20)]
    for place, file in enumerate(files):
        text = right('read', '-', given=file)
        expect(f'lines for file {place}', -(-len(file) // RECORD), len(text.splitlines()))
        back = right('write', '-', given=text)
        if back != file:
            at = next((i for i, pair in enumerate(zip(back, file)) if pair[0] != pair[1]), min(len(back), len(file)))
            line = text.decode().splitlines()[at // RECORD]
            expect(f'file {place} at byte {at % RECORD} of record {at // RECORD + 1}, whose text is {line!r}', file[at:at + 8], back[at:at + 8])
    return f'{streams} streams and {len(files) - streams} files from seeds come back'


def random_bytes(seed):
    """Of any length, torn or not."""
    chance = random.Random(seed)
    return chance.randbytes(chance.choice([0, 1, 15, 16, 17, 191, 192, 193, 383, chance.randrange(20000)]))


def likely_records(seed):
    """Records whose parts are often 0, small or at a border."""
    chance = random.Random(1000 + seed)

    def number():
        return chance.choice([0, 0, 1, 4, 0x1C, 0x84, 0x114, 0x3FC, 167, 168, 169, 0xFFFFFFFF, chance.randrange(1 << 32)])

    def some(count):
        return chance.choice([b'', b'', chance.randbytes(count), chance.randbytes(chance.randrange(count + 1))])

    file = b''.join(
        record(chance.randrange(8), number(), number(), number(), some(168), some(3), some(8)) for _ in range(chance.randrange(200)))
    return file + chance.choice([b'', file[:chance.randrange(RECORD)]])


# Each a text, and the bytes that it stands for.
TEXTS = [
    ('', b''),
    ('# a comment\n\n   \n', b''),
    ('write 0x000 0x40030007', record(1, 0, 0x40030007)),
    ('  write PCSR0 1073938439   # the same', record(1, 0, 0x40030007)),
    ('write pcsr0 0X40030007\r\nread AQR\r\n', record(1, 0, 0x40030007) + record(2, 0x18)),
    ('read 0x004', record(2, 4)),
    ('read 4294967295', record(2, 0xFFFFFFFF)),
    ('receive 00112233 44 55', record(3, length=6, packet=bytes.fromhex('001122334455'))),
    ('receive nothing', record(3)),
    ('receive AB length=300', record(3, length=300, packet=b'\xab')),
    ('receive ab after=cd', record(3, length=1, packet=b'\xab\xcd')),
    ('receive ab length=2 after=cd first=1 second=2', record(3, 1, 2, length=2, packet=b'\xab\xcd')),
    ('receive one.bin', record(3, length=3, packet=b'\x01\x02\x03')),
    ('receive "one two#.bin"', record(3, length=1, packet=b'\x04')),
    ('receive ./cafe', record(3, length=1, packet=b'\x05')),
    ('receive cafe', record(3, length=2, packet=b'\xca\xfe')),
    ('receive two.hex', record(3, length=3, packet=b'\x06\x07\x08')),
    ('send ready', record(4, 1)),
    ('send waiting', record(4, 0)),
    ('send 2', record(4, 2)),
    ('take 3', record(5, 3)),
    ('take 3 second=9 length=168 packet=01', record(5, 3, 9, 168, b'\x01')),
    ('kind 9', record(9)),
    ('kind 255 first=1 second=0x2 length=3 packet=04 filler=050607 tail=08090a0b0c0d0e0f',
     record(255, 1, 2, 3, b'\x04', b'\x05\x06\x07', bytes(range(8, 16)))),
    ('kind 2 first=4', record(2, 4)),
    ('read NQR\ntorn 02 0000\n# the end', record(2, 0x14) + b'\x02\0\0'),
]
FILES = {'one.bin': b'\x01\x02\x03', 'one two#.bin': b'\x04', 'cafe': b'\x05', 'two.hex': b'06 07\n08\n'}
NAMES = {
    'PCSR0': 0x000, 'PCSR1': 0x004, 'NLHR': 0x008, 'slot_count': 0x00C, 'NQR': 0x014, 'AQR': 0x018, 'NBQR': 0x01C,
    'packets_taken': 0x020, 'packets_faulted': 0x024, 'send_pointer': 0x040, 'send_word': 0x044, 'send_word_step': 0x048,
    'receive_pointer': 0x080, 'receive_word': 0x084, 'receive_word_step': 0x088, 'descriptor0.msg_address': 0x100,
    'descriptor0.control0': 0x10C, 'descriptor0.control1': 0x114, 'descriptor1.status2': 0x158, 'descriptor3.word15': 0x1FC,
    'send_page+0x00': 0x200, 'send_page+0xFC': 0x2FC, 'receive_page+0x04': 0x304, '0x010': 0x010, '0x001': 0x001, '0x400': 0x400,
}


def texts():
    """Each form of a line, and each name of a register both ways."""
    with scratch() as folder:
        for name, content in FILES.items():
            open(f'{folder}/{name}', 'wb').write(content)
        for text, expected in TEXTS:
            open(f'{folder}/a.txt', 'w', newline='').write(text)
            # From another folder: a packet's file is looked for where the text stands.
            expect(f'{text!r}', expected, right('write', f'{folder}/a.txt', folder='/'))
    for name, number in NAMES.items():
        expect(f'the register {name}', record(2, number), right('write', '-', given=f'read {name}'.encode()))
        expect(f'the text of register {number:#x}', f'read {name}\n', right('read', '-', given=record(2, number)).decode())
    torn = right('read', '-', given=record(4, 1) + b'\x03\0\0\0\0').decode()
    expect_lines('a torn record', 'send ready\ntorn 03000000 00 # the last record is torn: 5 of 192 bytes\n', torn)
    return f'{len(TEXTS)} texts and {len(NAMES)} registers'
