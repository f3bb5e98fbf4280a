"""Runs the examples of README.md and docs/OAB.md: each line that starts with `$` is run by sh, in the order of the
page, from the top of the repository, and what it prints must be the lines that follow it.

Run from the top: python3 tests/examples_run.py. It needs what `make` builds. Ends with "N examples, 0 differ".
"""

import re
import subprocess
import sys
from pathlib import Path

TOP = Path(__file__).resolve().parent.parent


def examples(page):
    """The commands of a page's indented blocks, each with the lines that it is to print."""
    found = []
    for line in (TOP / page).read_text().splitlines():
        if line.startswith('    $ '):
            found.append((line[6:], []))
        elif line.startswith('    ') and found and found[-1] is not None:
            found[-1][1].append(line[4:])
        elif found and found[-1] is not None:
            found.append(None)
    return [one for one in found if one]


def main():
    differ, count = 0, 0
    for page in ('README.md', 'docs/OAB.md'):
        for command, want in examples(page):
            got = subprocess.run(['sh', '-c', command], cwd=TOP, stdout=subprocess.PIPE, stderr=subprocess.STDOUT,
                                 stdin=subprocess.DEVNULL)
            lines = got.stdout.decode().splitlines()
            count += 1
            if lines != want:
                differ += 1
                print(f'differs: {page}: {command}\n  wanted {want}\n  got {lines}')
    named = set(re.findall(r'^\| `oab (\w+)', (TOP / 'docs/OAB.md').read_text(), re.M))
    shown = {command.split()[1] for command, _ in examples('docs/OAB.md') if command.startswith('bin/oab ')}
    for command in sorted(named - shown):
        differ += 1
        print(f'docs/OAB.md has no example of {command}')
    print(f'{count} examples, {differ} differ')
    sys.exit(1 if differ else 0)


if __name__ == '__main__':
    main()
