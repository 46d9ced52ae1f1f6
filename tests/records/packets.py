"""Packets made by `records packet`, against document 01 word by word."""
from tool import expect, record, right, scratch


def crc(data):
    """Document 01: "CRC-16, polynomial 0x1021, start 0xFFFF, unreflected, no final exclusive-or"."""
    rest = 0xFFFF
    for byte in data:
        for bit in range(7, -1, -1):
            top = (rest >> 15) ^ (byte >> bit & 1)
            rest = (rest << 1 & 0xFFFF) ^ (0x1021 if top else 0)
    return rest


def packet(words, metadata=(), payload=b''):
    """The bytes of a packet with these words 0 to 3."""
    header = b''.join(word.to_bytes(4, 'big') for word in words)
    metadata = b''.join(word.to_bytes(4, 'big') for word in metadata)
    body = payload + crc(payload).to_bytes(2, 'big') + b'\0\0' if payload else b''
    return header + crc(header + metadata).to_bytes(2, 'big') + b'\0\0' + metadata + body


BENCH = (0x00090000, 0x00050070, 0x83000000, 0x0000012C)
PAYLOAD = bytes(range(128))
MADE = [
    # The bench set: "node 7 to node 9 slot 5", "use_msg_size, incarnation 3", size 300.
    ('dst=9 slot=5 src=7 incarnation=3 offset=0 size=300 use_size', packet(BENCH)),
    (f'dst=9 slot=5 src=7 incarnation=3 offset=0 size=300 use_size payload={PAYLOAD.hex()}', packet(BENCH, payload=PAYLOAD)),
    ('', packet((0, 0, 0, 0))),
    ('dst=4095 slot=65535 src=4095 incarnation=15 offset=16777215 size=16777215 use_size use_offset',
     packet((0x0FFF0000, 0xFFFFFFF0, 0xCFFFFFFF, 0x00FFFFFF))),
    ('use_offset', packet((0, 0, 0x40000000, 0))),
    ('ack incarnation=3', packet((0, 0, 0x23000000, 0))),
    ('meta=1,2,3,4 meta_len=2 payload=00112233', packet((0, 0, 0, 0x0A000000), (1, 2, 3, 4), bytes.fromhex('00112233'))),
    ('meta=0xffffffff,7', packet((0, 0, 0, 0x0A000000), (0xFFFFFFFF, 7, 0, 0))),
    ('meta_len=0 meta=1,2,3,4', packet((0, 0, 0, 0x08000000), (1, 2, 3, 4))),
    ('payload=part.bin', packet((0, 0, 0, 0), payload=b'abcd')),
]


def packets():
    expect('the check of 123456789', 0x29B1, crc(b'123456789'))
    with scratch() as folder:
        open(f'{folder}/part.bin', 'wb').write(b'abcd')
        for words, expected in MADE:
            digits = right('packet', *words.split(), folder=folder)
            expect(f'records packet {words}', expected, bytes.fromhex(digits.decode()))
            open(f'{folder}/made.hex', 'wb').write(digits)
            of_packet = record(3, length=len(expected), packet=expected)
            for line in (f'receive {digits.decode()}', 'receive made.hex', f'receive packet {words}'):
                open(f'{folder}/a.txt', 'w').write(line)
                expect(f'{line!r}', of_packet, right('write', f'{folder}/a.txt'))
    return f'{len(MADE)} packets'
