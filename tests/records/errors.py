"""Every error: its message with file and line, a non-zero exit, and no output at all."""
from tool import expect, record, run, scratch

NUMBER = 'expected a number of 32 bits, decimal or hexadecimal with 0x'
FIELDS = 'expected dst=, slot=, src=, incarnation=, offset=, size=, use_size, use_offset, ack, meta=, meta_len= or payload='

# A line, and what is said of it.
LINES = [
    ('wriet 0 0', '"wriet"; expected write, read, receive, send, take, kind or torn'),
    ('write PCSR0', 'write with "PCSR0"; expected a register and a value'),
    ('write', 'write with nothing; expected a register and a value'),
    ('write 0 1 2', 'write with "0 1 2"; expected a register and a value'),
    ('write PCSR9 1', '"PCSR9" is no register; expected a name like PCSR0, NBQR, receive_word or descriptor0.control1, or a number like 0x01C'),
    ('write PCSR0 seven', f'the value is "seven"; {NUMBER}'),
    ('write PCSR0 0x100000000', f'the value is "0x100000000"; {NUMBER}'),
    ('write PCSR0 -1', f'the value is "-1"; {NUMBER}'),
    ('write PCSR0 +1', f'the value is "+1"; {NUMBER}'),
    ('write PCSR0 0x', f'the value is "0x"; {NUMBER}'),
    ('read', 'read with nothing; expected a register'),
    ('read 0 0', 'read with "0 0"; expected a register'),
    ('send', 'send with nothing; expected ready or waiting (the fabric), or the first number'),
    ('send now', 'send with "now"; expected ready or waiting (the fabric), or the first number'),
    ('take', "take with nothing; expected a list's number"),
    ('take first', f'the list is "first"; {NUMBER}'),
    ('kind', 'kind with nothing; expected a number from 0 to 255'),
    ('kind 256', 'the kind is 256; expected at most 255'),
    ('receive', 'receive with nothing; expected a file, hexadecimal digits, packet and its fields, or nothing'),
    ('receive 001', 'the packet has 3 hexadecimal digits; expected two for each byte'),
    ('receive no.bin', 'the packet is the file "no.bin": No such file or directory (os error 2); expected a file, or hexadecimal digits without 0x'),
    ('receive 00 no.bin', 'the packet has "no.bin"; expected hexadecimal digits, or the name of one file'),
    ('receive bad.hex', 'the file "bad.hex" has \'x\'; expected hexadecimal digits'),
    ('receive long.bin',
     'the packet has 169 bytes; expected at most 168, which a record holds (length=169 after a shorter one says that it is longer)'),
    ('receive "one.bin', 'a quotation mark without its second; expected another on the line'),
    ('receive 00 after=' + '00' * 168, 'after has 168 bytes; expected at most 167'),
    ('receive 00 packet=00', 'the setting "packet" does not stand here; expected one of first=, second=, length=, after=, filler=, tail='),
    ('write 0 0 second=1', 'the setting "second" does not stand here; expected one of length=, packet=, filler=, tail='),
    ('read 0 length=1 length=2', 'length= stands twice; expected it once'),
    ('read 0 length=1 7', '"7" after a setting; expected settings alone (name=value) to the end'),
    ('read 0 length=x', f'length is "x"; {NUMBER}'),
    ('read 0 packet=0g', "packet has 'g'; expected hexadecimal digits"),
    ('read 0 packet=' + '00' * 169, 'packet has 169 bytes; expected at most 168'),
    ('read 0 filler=0102', 'filler has 2 bytes; expected 3'),
    ('read 0 tail=0102', 'tail has 2 bytes; expected 8'),
    ('torn', 'the torn record has 0 bytes; expected 1 to 191'),
    ('torn ' + '00' * 192, 'the torn record has 192 bytes; expected 1 to 191'),
    ('torn zz', "the torn record has 'z'; expected hexadecimal digits"),
    ('torn 00\nread 0', 'a record after the torn one of line 3; expected nothing, since only the last record can be torn'),
    ('receive packet dts=9', f'"dts=9" in a packet; {FIELDS}'),
]

# The words of `records packet`, and what is said of them.
PACKETS = [
    ('dst', f'"dst" in a packet; {FIELDS}'),
    ('ack=1', f'"ack=1" in a packet; {FIELDS}'),
    ('dst=4096', 'dst is 4096; expected at most 4095'),
    ('slot=65536', 'slot is 65536; expected at most 65535'),
    ('src=0x1000', 'src is 0x1000; expected at most 4095'),
    ('incarnation=16', 'incarnation is 16; expected at most 15'),
    ('offset=16777216', 'offset is 16777216; expected at most 16777215'),
    ('size=16777216', 'size is 16777216; expected at most 16777215'),
    ('size=many', f'size is "many"; {NUMBER}'),
    ('dst=1 dst=2', 'dst stands twice; expected it once'),
    ('meta=1,2,3,4,5', 'meta has 5 words; expected 1 to 4'),
    ('meta=1,,2', f'a word of meta is ""; {NUMBER}'),
    ('meta=1 meta_len=5', 'meta_len is 5; expected at most 4'),
    ('meta_len=1', 'meta_len without meta; expected 0, or meta= beside it'),
    ('payload=001122', 'the payload has 3 bytes; expected a multiple of 4, at most 128'),
    ('payload=' + '00' * 132, 'the payload has 132 bytes; expected a multiple of 4, at most 128'),
    ('ack payload=00112233', 'an ack with meta or payload; expected an ack of 20 bytes'),
    ('ack meta=1', 'an ack with meta or payload; expected an ack of 20 bytes'),
]

FORM = 'expected kind, word, value as 8 lowercase hex digits, and interrupts, like `2 done 40030007 0`'
# A line that no station prints, and what is said of it.
ANSWERS = [
    ('2 done 40030007', 'not four words'),
    ('2  done 40030007 0', 'not four words'),
    ('', 'not four words'),
    ('256 done 40030007 0', 'no kind from 0 to 255'),
    ('+2 done 40030007 0', 'no kind from 0 to 255'),
    ('02 done 40030007 0', 'no kind from 0 to 255'),
    ('2 Done 40030007 0', "no word of document 01's table"),
    ('2 done 4003000A 0', 'no value'),
    ('2 done 4003007 0', 'no value'),
    ('2 done 40030007 8', 'no sum of interrupts from 0 to 7'),
    ('2 done 40030007 +0', 'no sum of interrupts from 0 to 7'),
]


def errors():
    with scratch() as folder:
        for name, content in (('long.bin', b'\0' * 169), ('bad.hex', b'0x00'), ('a.bin', record(2)), ('one.bin', b'\0')):
            open(f'{folder}/{name}', 'wb').write(content)
        for line, said in LINES:
            # The line in error is the last, and what stands before it is right.
            text = f'# first\nread PCSR0\n{line}\n'
            refused(folder, text.encode(), ('write', 'a.txt'), f'a.txt:{text.count(chr(10))}: {said}')
        # Record files, given where a text is expected: one that is no UTF-8, one that is.
        for content in (b'\xff\xfe', record(1, 0x01C, 0x20)):
            refused(folder, b'read 0\n' + content, ('write', 'a.txt'),
                    'a.txt:2: bytes that are no text; expected lines of records (is this a record file? `records read` reads those)')
        refused(folder, record(2), ('explain', 'a.bin', 'a.txt'),
                "a.txt:1: bytes that are no text; expected the station's lines (is this a record file? It stands before them)")
        for line, said in ANSWERS:
            refused(folder, f'2 done 00000000 0\n{line}\n'.encode(), ('explain', 'a.bin', 'a.txt'), f'a.txt:2: {said} in "{line}"; {FORM}')
        for words, said in PACKETS:
            refused(folder, b'', ('packet', *words.split()), f'records packet: {said}')
        for words in (('write', 'no.txt'), ('read', 'no.txt'), ('explain', 'no.txt', 'a.txt'), ('explain', 'a.bin', 'no.txt')):
            open(f'{folder}/a.txt', 'w').close()
            missing = 'no.txt: No such file or directory (os error 2); expected a file that can be read'
            expect(f'records {words}', (1, b'', missing + '\n'), run(*words, folder=folder))
    usage()
    return f'{len(LINES) + len(ANSWERS) + len(PACKETS) + len(COMMANDS) + 7} messages'


def refused(folder, text, words, said):
    open(f'{folder}/a.txt', 'wb').write(text)
    expect(f'records {" ".join(words)} for {text!r}', (1, b'', said + '\n'), run(*words, folder=folder))


# The words of a command line that is none, and what is said first.
COMMANDS = [
    ((), 'records without a command'),
    (('wirte', 'a'), '"wirte" is no command'),
    (('write',), 'records write with 0 files'),
    (('read', 'a.bin', 'b.bin'), 'records read with 2 files'),
    (('explain', 'a.bin'), 'records explain with 1 file'),
]


def usage():
    for words, said in COMMANDS:
        code, output, error = run(*words)
        expect(f'records {words}', (1, b'', True), (code, output, error.startswith(f'{said}; expected one of\nrecords write FILE.txt')))
