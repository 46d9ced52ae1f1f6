"""Changes of the definitions: how they are written down, made in a copy, and tried."""
import multiprocessing
import os
import sys
from collections import namedtuple
from concurrent.futures import ProcessPoolExecutor

# A change: in a file of the crates each `old` becomes its `new`. `refuser` says what has to refuse it, '' where nothing is named.
Change = namedtuple('Change', 'name file refuser places')
Place = namedtuple('Place', 'old new')

# What became of it: whether it was noticed, and where, or why not.
Result = namedtuple('Result', 'noticed words')


def read_changes(path, names):
    """The changes of a text, or those named: a file's name, perhaps with `, refused by ..`, and indented below it `name: old => new`,
    a line for each place of the change; # begins a comment, and \\n in a text begins the next line of the file."""
    changes, file, refuser = {}, None, None
    for line in path.read_text(encoding='utf-8').splitlines():
        if line.startswith(' '):
            name, words = line.strip().split(': ', 1)
            change = changes.setdefault(name, Change(name, file, refuser, []))
            if (change.file, change.refuser) != (file, refuser):
                sys.exit(f'{path.name}: {name} stands under two heads')
            change.places.append(Place(*words.split(' => ')))
        elif line and not line.startswith('#'):
            file, _, refuser = line.partition(', refused by ')
    unknown = set(names) - set(changes)
    if unknown:
        sys.exit(f'no such change: {", ".join(sorted(unknown))}')
    return [change for name, change in changes.items() if not names or name in names]


def made(change, crates):
    """Makes the change in a copy of the crates; None, or the result where it does not fit."""
    file = crates / change.file
    text = file.read_text(encoding='utf-8') if file.exists() else ''
    for place in change.places:
        old, new = (words.replace(r'\n', '\n') for words in place)
        if text.count(old) != 1:
            return Result(False, f'DOES NOT FIT: {place.old} stands there {text.count(old)} times')
        text = text.replace(old, new)
    file.write_text(text, encoding='utf-8')
    return None


def try_all(changes, tried, heading='noticed at', width=28):
    """Tries the changes on every core that this process may use; a line for each; 0 if all were noticed, else 1."""
    noticed = 0
    print(f'{"change":28} {heading:{width}} what was changed', flush=True)
    with ProcessPoolExecutor(len(os.sched_getaffinity(0)), mp_context=multiprocessing.get_context('fork')) as pool:
        for change, result in zip(changes, pool.map(tried, changes)):
            noticed += result.noticed
            places = '; '.join(f'{place.old}  =>  {place.new}' for place in change.places)
            print(f'{change.name:28} {result.words:{width}} {change.file}: {places}', flush=True)
    print(f'{len(changes)} changes, {noticed} noticed')
    return 0 if noticed == len(changes) else 1
