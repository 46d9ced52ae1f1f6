"""The oracle, the independent program in oracle/: builds it, asks it, and puts its answers beside an input as those of the vectors stand."""
import subprocess

from vectors import TESTS, answers_of, put

FOLDER = TESTS.parent / 'oracle'


def build():
    """Builds it by cargo."""
    subprocess.run(['cargo', 'build', '--release', '--quiet'], cwd=FOLDER, check=True)


def oracle(*words, given=b''):
    """What the oracle writes."""
    return subprocess.run([FOLDER / 'target/release/oracle', *words], input=given, capture_output=True, check=True).stdout


def answered(kind, name, stream, folder):
    """The stream in a folder, with the oracle's answers beside it; its path."""
    path = folder / f'{name}.in.gz'
    put(path, stream)
    put(answers_of(path), oracle(kind, given=stream))
    return path
