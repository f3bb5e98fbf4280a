"""Random octets as books, as words and as files for apply, through the command: none may crash, hang, leave a file
behind or change a book that it refuses. What is printed is always safe for a terminal.

Run from the top: python3 tests/random_runs.py [RUNS [SEED]]. It takes the command that OAB names, or builds the one
with sanitizers (make SANITIZE=1). Seeds are fixed. Ends with "N random runs, 0 wrong".
"""

import os
import random
import subprocess
import sys
import tempfile
from collections import Counter
from pathlib import Path

import oab_tools
from oab_tools import TOP

import make
from model import books, imports, indexes, oab, reasons, sheets, spelling
from model.names import NAMES
from oab_apply import line_of
from oab_spelling import is_safe

COMMANDS = ('check', 'list', 'columns', 'show', 'get', 'find', 'why', 'export', 'import', 'index', 'set', 'clear',
            'insert', 'delete', 'extract', 'apply')
OPTIONS = ('-o', '-q', '-n', '-e', '-h', '-i', '-t', '--index', '--like', '--flags', '--json', '--names', '--raw',
           '--help', '--version', '--', '-qn', '-o')
FLAGS = ('0', 'key', '0,1', '3,index key', '')
OCTETS = {'--raw', 'extract', 'export', '-'}  # with these the output may be octets


def some_octets(rng, most):
    return bytes(rng.choice((0, 1, 9, 10, 13, 32, 0x5C, 0x7F, 0x80, 0xFF, rng.randrange(256)))
                 for _ in range(rng.randrange(most)))


def some_book(rng):
    """A good book, a damaged one, or any octets; and its table where it is good."""
    table = books.some_table(rng, most=4)
    if rng.random() < 0.3:
        table = reasons.with_lists(rng, table)
    elif rng.random() < 0.3:
        table = sheets.spiced(rng, table)
    what = rng.randrange(4)
    if what == 0:
        return some_octets(rng, 200), None
    octets = books.octets_of(table)
    return (octets, table) if what > 1 else (books.random_damage(octets, rng), None)


def some_index(rng, octets, table):
    """The book's own index, of either kind, a damaged one, or any octets."""
    if table is None or rng.random() < 0.2:
        return some_octets(rng, 40)
    index = rng.choice((indexes.own, indexes.own, indexes.old))(octets)
    return index if rng.random() < 0.6 else books.random_damage(index, rng)


def some_word(rng, table):
    """Any word without a slash, so that nothing outside the folder is named."""
    tags = [tag for tag, _ in (table[0] + table[1] if table else [])] + [0x3001001F]
    return rng.choice((
        lambda: 'book', lambda: 'record', lambda: 'lines', lambda: 'saved', lambda: 'sheet', lambda: '-', lambda: 'out',
        lambda: 'header',
        lambda: str(rng.randrange(4)),
        lambda: f'{rng.choice(tags):08X}', lambda: f'{rng.choice(tags):08X}', lambda: rng.choice(list(NAMES.values())),
        lambda: rng.choice(OPTIONS),
        lambda: str(rng.choice((2**32, 2**64 - 1, 2**64, 10**30))), lambda: 'yes', lambda: '00FF', lambda: 'a\\x41\\\\',
        lambda: bytes(o for o in some_octets(rng, 12) if o not in (0, 0x2F))))()


def some_words(rng, table):
    """A command line that often makes sense."""
    tag = rng.choice([tag for tag, _ in table[1]]) if table and table[1] else 0x3001001F
    kind = oab.type_of(tag)
    value = spelling.words(kind, books.some_value(rng, kind))
    through = rng.choice(([], ['--index', 'saved']))
    chosen = sheets.some_choice(rng, table, rng.choice((0, 0.5))) if table else [tag]
    right = {'show': [*through, 'book', '0', *['header'] * (not through)], 'get': [*through, 'book', '0', f'{tag:08X}'],
             'find': ['book', '--', rng.choice(value)[:3]],
             'why': ['book', rng.choice(('0', 'header')), f'{tag ^ rng.choice((0, 0, 1, 0x10000)):08X}'],
             'export': ['-t', ','.join(f'{one:08X}' for one in chosen), 'book'],
             'import': ['--like', 'book', *rng.choice(([], [], ['--flags', rng.choice(FLAGS)])),
                        '-o', rng.choice(('out', 'out', '-', 'book')), 'sheet'],
             'set': ['book', '0', f'{tag:08X}', '--', *value],
             'clear': ['book', '0', f'{tag:08X}'], 'insert': ['book', '0', 'record'], 'delete': ['book', '0'],
             'extract': ['book', '0'],
             'apply': ['book', 'lines']}
    command = rng.choice(COMMANDS)
    words = [command, *right.get(command, ['book'])]
    for _ in range(rng.choice((0, 0, 0, 0, 1, 1, 2, 4))):
        at = rng.randrange(len(words) + 1)
        if rng.random() < 0.5 and at < len(words):
            words[at] = some_word(rng, table)
        else:
            words.insert(at, some_word(rng, table))
    return words


def some_lines(rng, table):
    if table is None or rng.random() < 0.3:
        return some_octets(rng, 120)
    lines = [line for line in (line_of(make.some_correction(rng, table, 0.2)) for _ in range(rng.randrange(6))) if line]
    text = bytearray(b'\n'.join(lines))
    for _ in range(rng.choice((0, 0, 1, 3))):
        if text:
            text[rng.randrange(len(text))] = rng.randrange(256)
    return bytes(text)


def some_sheet(rng, table):
    """A sheet of the book's own columns, another one, a damaged one, or any octets."""
    what = rng.randrange(5)
    text = imports.some_import(rng)[0]
    if table and what in (0, 1):
        chosen = sheets.some_choice(rng, table)
        text = oab.make_sheet(books.octets_of(table), chosen) if chosen else text
    if what == 4:
        return some_octets(rng, 60)
    return imports.damaged(rng, text) if what in (1, 2) else text


def one_run(rng, folder, answers):
    """None, or what is wrong."""
    octets, table = some_book(rng)
    files = {'book': octets, 'lines': some_lines(rng, table),
             'record': rng.choice((some_octets(rng, 60), oab.record_octets(table[3][0]) if table else b'')),
             'saved': some_index(rng, octets, table), 'sheet': some_sheet(rng, table)}
    for path in folder.iterdir():
        path.unlink()
    for name, content in files.items():
        (folder / name).write_bytes(content)
    words = some_words(rng, table)
    got = subprocess.run([oab_tools.program, *words], cwd=folder, input=rng.choice(list(files.values())),
                         capture_output=True, timeout=60)
    answers[got.returncode] += 1
    said = (words, got.returncode, got.stderr[-2000:])
    if got.returncode not in (0, 1, 2, 3) or b'Sanitizer' in got.stderr or b'runtime error' in got.stderr:
        return 'crashed', *said
    lines = not OCTETS.intersection(word for word in words if isinstance(word, str))
    if not is_safe(got.stderr) or lines and not is_safe(got.stdout):
        return 'unsafe', *said
    if any(path.name.startswith('.oab') for path in folder.iterdir()):
        return 'a file is left behind', *said
    now = (folder / 'book').read_bytes()
    if '-o' not in words and now != octets and (got.returncode or oab.judge(now)[0] != 'good'):
        return 'refused and changed, or a bad book is saved', *said
    return None


def main():
    count = int(sys.argv[1]) if len(sys.argv) > 1 else 300
    rng = random.Random(int(sys.argv[2]) if len(sys.argv) > 2 else 1515)
    if 'OAB' not in os.environ:
        subprocess.run(['make', '-s', 'SANITIZE=1'], cwd=TOP, check=True)
        os.environ['OAB'] = str(TOP / 'target/sanitized/oab')
    oab_tools.build()
    answers, wrong = Counter(), 0
    with tempfile.TemporaryDirectory() as folder:
        for _ in range(count):
            fault = one_run(rng, Path(folder), answers)
            if fault:
                wrong += 1
                print(*fault)
    print(f'{count} random runs, {wrong} wrong; exit status {dict(sorted(answers.items()))}')
    sys.exit(1 if wrong else 0)


if __name__ == '__main__':
    main()
