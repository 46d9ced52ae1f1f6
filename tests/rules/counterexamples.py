"""Instances of the statements above the rules: each holds with the rules as they are, and fails with the changes that name it.

What a statement is said of stands here by the name that it has there: c a call, m a machine, v the value of a reset and r the run
after it, f a packet's fields, s a packet, w a word, d a descriptor, i and v a slot, h a header, bytes a packet. Calls are written as in tests/hand, machines are altered as in tests/hand/states.
"""
import sys
from pathlib import Path
from types import SimpleNamespace

sys.path.append(str(Path(__file__).resolve().parents[1] / 'definitions'))
import entries  # noqa: E402
from hand import alteration, bytes_by_hand  # noqa: E402
from vectors import KINDS  # noqa: E402


# ---- how they are written

def octets(text):
    """Bytes in hexadecimal digits."""
    return list(bytes_by_hand(text.split()))


def call(text):
    """A call, with a room of zeros where one is lent; `kind 9` is none that is known."""
    word, rest = text.split(' ', 1)
    if word == 'receive':
        return entries.call(KINDS[word], 0, 0, octets(rest), [])
    numbers = [int(number, 0) for number in rest.split()] + [0]
    return entries.call(KINDS.get(word, 0), *numbers[:2], [0] * 168, [0] * 8)


def run(*texts):
    """The run of these calls; `outside BYTES` is data memory written from outside."""
    events = ('Run.start',)
    for text in texts:
        outside = text.startswith('outside ')
        event = ('Event.outside', octets(text.partition(' ')[2])) if outside else ('Event.calls', call(text))
        events = ('Run.◌▸◌', events, event)
    return events


def machine(*texts):
    """A machine after a reset as node 7 of incarnation 3 with enable, with 300 bytes of ones and seven blocks; then altered."""
    saved = dict.fromkeys(entries.SAVED, 0)
    saved.update(pcsr0=0x40030007, lastsender=3)
    made = entries.machine(saved.values(), [0] * 1024, [0] * 2048, [1] * 300, [0] * 64)
    for text in texts:
        altered = alteration('', *text.split())
        made = entries.altered(made, altered.what, altered.name, altered.numbers)
    return made


def after_reset(*texts, v=0xC0030007):
    """A reset of such a machine, and the run after it."""
    return {'v': v, 'm': machine(), 'r': run(*texts)}


def descriptor(control0=0, control1=0):
    """A descriptor that has no other words."""
    return SimpleNamespace(msgaddress=0, address0=0, address1=0, control0=control0, bytestogo=0, control1=control1, status2=0,
                           metadata=SimpleNamespace(a=0, b=0, c=0, d=0))


def fields(metaflag=False, metalen=0, payload=()):
    """A packet's fields, of node 9 to slot 5 of node 7."""
    return SimpleNamespace(fabtop=0, dstnode=7, fablow=0, dstslot=5, srcnode=9, usemsgsize=False, usemsgoffset=False, ackpkt=False,
                           incarnation=3, offset=0, metaflag=metaflag, metalen=metalen, msgsize=0,
                           metadata=SimpleNamespace(a=0, b=0, c=0, d=0), payload=list(payload))


def slot(msgsize, msgoffset):
    """A slot that has no other words."""
    return SimpleNamespace(base=0, size=0, noteandflags=0, bytestogo=0, msgsize=msgsize, msgoffset=msgoffset, acknote=0, metaword=0,
                           metadata=SimpleNamespace(a=0, b=0, c=0, d=0), lock=0, mark=0, namea=0, nameb=0)


# The header of a packet of node 9 to slot 5 of node 7, with msg_size 8.
HEADER = SimpleNamespace(address0=0x00070000, address1=0x00050090, control0=0x03000000, control1=8)


# ---- parts of them

def active(control0, size, control1):
    """Descriptor 1 to node 9, with so many bytes to go: its words 1, 3, 4 and 5."""
    return ('set send 17 0x00090000', f'set send 19 {control0}', f'set send 20 {size}', f'set send 21 {control1}')


# Block 32 becomes the head of list 0, at word 1024 of Receive RAM.
HEAD = ('write 0x080 0x1000', 'write 0x084 32')

# A packet of zeros fails its header check: a fault is posted on list 0.
FAULT = 'receive 00*20'

# Slot 0 is valid with ack_note_index 64, a list that is none, and the slot count is 1.
SLOT = ('write 0x00C 1', 'write 0x080 0', 'write 0x084 0', 'write 0x080 24', 'write 0x084 0x00400000', 'write 0x080 8',
        'write 0x084 0x8000')

# ---- the instances

INSTANCES = {
    # Demand 1.
    'an unknown call': {'c': call('kind 9'), 'm': machine()},
    'a take of list 64': {'c': call('take 64'), 'm': machine()},
    'a send without fabric': {'c': call('send 0'), 'm': machine(*active(0x03000000, 256, 0x10000100))},

    # Demand 2: what an active descriptor forms, and a send writes.
    'a plain message': {'m': machine(*active(0x03000000, 256, 0x10000100))},
    'a message with metadata': {'m': machine(*active(0x03000000, 256, 0x1C000100), 'set send 24 5')},
    'a message with the reserved bit': {'m': machine(*active(0x13000000, 256, 0x10000100))},
    'a send': {'m': machine(*active(0x03000000, 256, 0x10000100)), 'ready': True, 'room': [0] * 168},

    # Demand 2: fields that 01 allows.
    'fields with meta_len 4': {'f': fields(metaflag=True, metalen=4)},
    'fields with 128 bytes': {'f': fields(payload=[1] * 128)},

    # Demand 2: packets with right checks, of node 9 to slot 5 of node 7.
    'a packet with word 1 ending in 1': {'s': octets('00070000 00050091 03000000 00000000 54890000')},
    'a packet with the reserved bit': {'s': octets('00070000 00050090 13000000 00000000 821e0000')},
    'a packet with word 3 beginning with 1': {'s': octets('00070000 00050090 03000000 10000000 a40d0000')},
    'a packet with word 4 ending in 1': {'s': octets('00070000 00050090 03000000 00000000 bfaa0001')},
    'a packet with its last word ending in 1': {'s': octets('00070000 00050090 03000000 00000000 bfaa0000 01020304 89c30001')},
    'a packet with meta_len 5': {'s': octets('00070000 00050090 03000000 0d000000 c47b0000 00000001 00000002 00000003 00000004')},
    'a packet with meta_len 1 and no flag': {'s': octets('00070000 00050090 03000000 01000000 c91e0000')},
    'an ack with payload': {'s': octets('00070000 00050090 23000000 00000000 c4c20000 01020304 89c30000')},
    # Slot 5 is valid and has 300 bytes; the body check should end in 3.
    'a wrong body check': {
        'm': machine('set slots 64', 'set receive 81 300', 'set receive 82 0x8000'),
        's': octets('00070000 00050090 03000000 00000000 bfaa0000 01020304 89c20000')},

    # Demand 2: the counts.
    'four faults': after_reset(*HEAD, 'write 0x01C 64', *(FAULT, 'take 0') * 4),

    # Demand 3: three blocks, filled, stalled for want of a block, taken, and filled again.
    'a list filled and read': after_reset(
        *HEAD, 'write 0x01C 64', 'write 0x01C 96', 'write 0x080 0x1000', 'write 0x084 128', 'outside 02*300',
        FAULT, FAULT, FAULT, 'take 0', FAULT, 'take 0', 'take 0', 'take 0', FAULT),
    # List 64 would have its head where NQR begins: the token 1 stands there once a fault was posted. Then an ack comes.
    'an ack to list 64': after_reset(
        *HEAD, 'write 0x080 0x1004', 'write 0x084 3', 'write 0x01C 64', 'write 0x01C 96', FAULT, *SLOT,
        'receive 00070000 00000090 23000000 00000000 4dcc0000'),

    # Replies 13 and 14.
    'a reset': after_reset(),
    'block 32 handed over 257 times': after_reset(*['write 0x01C 32'] * 257),
    'NBQR once round': after_reset(*HEAD, 'write 0x01C 64', *(FAULT, 'take 0') * 256),
    # control0 with incarnation 15 and the last offset: 256 bytes more carry into the reserved bit.
    'a message beyond the last offset': after_reset(
        'write 0x10C 0x0FFFFFFC', 'write 0x114 0x10000100', 'send 1'),
    'the last word of Receive RAM read': after_reset('write 0x080 8188', 'read 0x088'),

    # The words' widths.
    'bit 11': {'w': 0x00000800},
    'bit 1': {'w': 0x00000002},
    'bit 30': {'w': 0x40000000},
    'use_msg_offset': {'d': descriptor(control0=0x40000000)},
    'meta_cnt 1': {'d': descriptor(control1=0x01000000)},
    'a slot with msg_size 8 and msg_offset 4': {'i': SimpleNamespace(field_0=5), 'h': HEADER, 'v': slot(msgsize=8, msgoffset=4)},
    'a header with msg_size 8': {'i': SimpleNamespace(field_0=5), 'h': HEADER},
    'a packet whose word 4 is 0x00018000': {'bytes': octets('00070000 00050090 03000000 00000000 00018000')},
}
