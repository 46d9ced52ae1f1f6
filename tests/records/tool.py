"""The tool under test, and what every test needs."""
import subprocess
import tempfile
from pathlib import Path

HERE = Path(__file__).resolve().parent
ROOT = HERE.parent.parent
TOOL = ROOT / 'tools/records'
RECORDS = TOOL / 'target/release/records'
RECORD = 192


class Failure(Exception):
    """Says what was expected and what came."""


def build():
    subprocess.run(['cargo', 'build', '--release', '--quiet', '--offline'], cwd=TOOL, check=True)


def run(*words, given=b'', folder=None):
    """Exit code, standard output, standard error."""
    done = subprocess.run([RECORDS, *words], input=given, capture_output=True, cwd=folder)
    return done.returncode, done.stdout, done.stderr.decode()


def right(*words, given=b'', folder=None):
    """The output of a run that must succeed."""
    code, output, said = run(*words, given=given, folder=folder)
    expect(f'records {" ".join(map(str, words))}', (0, ''), (code, said))
    return output


def expect(what, expected, found):
    if found != expected:
        raise Failure(f'{what}\n  expected {expected!r}\n  found    {found!r}')


def expect_lines(what, expected, found):
    """The first line that differs."""
    expected, found = expected.splitlines(), found.splitlines()
    for number, (own, other) in enumerate(zip(expected, found), 1):
        expect(f'{what}, line {number}', own, other)
    expect(f'{what}, number of lines', len(expected), len(found))


def record(kind, first=0, second=0, length=0, packet=b'', filler=b'', tail=b''):
    """A record of document 01: "kind, 3 zero bytes, two numbers of 4 bytes, length of 4, 168 bytes of packet, 8 zero"."""
    numbers = b''.join(number.to_bytes(4, 'big') for number in (first, second, length))
    return bytes([kind]) + filler.ljust(3, b'\0') + numbers + packet.ljust(168, b'\0') + tail.ljust(8, b'\0')


def scratch():
    return tempfile.TemporaryDirectory()
