"""The example of tools/records/README.md, typed as it stands."""
import os
import subprocess

from tool import RECORDS, TOOL, expect_lines, scratch


def readme():
    """The first indented block is typed; the second is what it prints."""
    blocks, inside = [], False
    for line in (TOOL / 'README.md').read_text().splitlines():
        indented = line.startswith('    ')
        if indented and not inside:
            blocks.append([])
        inside = indented or (inside and not line)
        if inside:
            blocks[-1].append(line[4:])
    typed, printed = ('\n'.join(block).rstrip('\n') for block in blocks[1:3])
    path = f'{RECORDS.parent}{os.pathsep}{os.environ["PATH"]}'
    with scratch() as folder:
        done = subprocess.run(['bash', '-euc', typed], cwd=folder, env={**os.environ, 'PATH': path}, capture_output=True, text=True)
    expect_lines('the example', printed, done.stdout + done.stderr)
    return 'its example works'
