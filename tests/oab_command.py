"""Runs the command `oab` and holds it to the model: what it prints of books, what it saves, which words it refuses.

Run from the top: python3 tests/oab_command.py. It builds the command first (make), or takes the one that OAB names.
Ends with "N runs, 0 differ". Files: oab_files.py and oab_load.py; spelling: oab_spelling.py; apply: oab_apply.py; why:
oab_why.py; export: oab_export.py; import: oab_import.py.
"""

import json
import os
import random
import re

import oab_tools
from oab_tools import TOP, content, differs, run, says

import make
from model import books, oab, spelling
from model.names import NAMES

FLAGS = {0: '', 1: ' index', 2: ' key', 3: ' index key'}


# ---------------------------------------------------------------- what is printed

def column_lines(table, name):
    return ''.join(f'{kind} {i} {name(tag)} {spelling.TYPE_WORDS[oab.type_of(tag)]}{FLAGS[bits & 3]}\n'
                   for kind, columns in (('header', table[0]), ('address', table[1]))
                   for i, (tag, bits) in enumerate(columns))


def hex_tag(tag):
    return f'{tag:08X}'


def shown(record, columns, row, name=hex_tag):
    """What `show` prints of a record."""
    lines = b''
    for (tag, _), value in zip(columns, row):
        front = f'{record}\t{name(tag)}\t{spelling.TYPE_WORDS[oab.type_of(tag)]}\t'.encode()
        if value is not None:
            lines += b''.join(front + one + b'\n' for one in spelling.words(oab.type_of(tag), value))
    return lines


def shown_objects(record, columns, row):
    return [{'record': record, 'tag': hex_tag(tag), 'name': NAMES.get(tag),
             'type': spelling.TYPE_WORDS[oab.type_of(tag)],
             'value': spelling.in_json(oab.type_of(tag), value)}
            for (tag, _), value in zip(columns, row) if value is not None]


def objects(got):
    return got[0], [json.loads(line) for line in got[1].decode().splitlines()]


def listed_objects(octets):
    """What `list --json` says, from the model's listing."""
    lines = [line.split() for line in oab.listing(octets).splitlines()]
    numbers = [int(n) for n in lines[0][1:]]
    found = [dict(zip(('octets', 'header_columns', 'address_columns', 'records'), numbers))]
    for word, *rest in lines[1:]:
        record = 'header' if word == 'header' else int(rest.pop(0))
        found.append({'record': record, **dict(zip(('place', 'size', 'values'), map(int, rest)))})
    return found


def of_book(path, octets, table):
    """check, list and columns of one book, good or not."""
    answer = oab.judge(octets)
    count = f'{len(table[3])} record' + ('' if len(table[3]) == 1 else 's')
    says('check', path, answer, run('check', path), f'{path}: good, {len(octets)} octets, {count}\n'.encode())
    says('check -q', path, answer, run('check', '-q', path), b'')
    says('list', path, answer, run('list', path), oab.listing(octets).encode())
    says('list -', '-', answer, run('list', '-', stdin=octets), oab.listing(octets).encode())
    says('columns', path, answer, run('columns', path), column_lines(table, hex_tag).encode())
    named = column_lines(table, lambda tag: NAMES.get(tag, hex_tag(tag))).encode()
    says('columns --names', path, answer, run('columns', path, '--names'), named)
    status, found = objects(run('check', '--json', path))
    if answer[0] == 'good':
        differs('list --json', (0, listed_objects(octets)), objects(run('list', '--json', path)))
        want = (0, [{'book': str(path), 'good': True, 'octets': len(octets), 'records': len(table[3])}])
    else:
        words = run('check', path)[2].decode().split(': ', 3)[3].rstrip('\n')
        want = (1, [{'book': str(path), 'good': False, 'refusal': answer[1], 'place': answer[2], 'words': words}])
    differs('check --json', want, (status, found))


def of_records(path, octets, table):
    """show, get and extract of the header record and the last one."""
    answer = oab.judge(octets)
    last = len(table[3]) - 1
    head, tail = ('header', table[0], table[2]), (last, table[1], table[3][last])
    says('show', path, answer, run('show', path, 'header', last), shown(*head) + shown(*tail))
    if answer[0] == 'good':
        differs('show --json', (0, shown_objects(*head) + shown_objects(*tail)),
                objects(run('show', '--json', path, 'header', last)))
        differs('extract', (0, oab.record_octets(table[3][last])), run('extract', path, last)[:2])
        differs('extract header', (0, oab.record_octets(table[2])), run('extract', path, 'header')[:2])
    for record, columns, row in (head, tail):
        for (tag, _), value in list(zip(columns, row))[:6]:
            done = b'' if value is None else spelling.lines(oab.type_of(tag), value)
            says('get', path, answer, run('get', path, record, hex_tag(tag)), done)
            says('get --raw', path, answer, run('get', '--raw', path, record, f'0x{tag:08x}'), value or b'')


def reading(folder):
    rng = random.Random(909)
    for name in ('small', 'sample'):
        book = TOP / 'examples' / f'{name}.book'
        differs('list', (0, (TOP / 'examples' / f'{name}.listing').read_bytes()), run('list', book)[:2])
    for number in range(60):
        table = books.some_table(rng, records=rng.choice((1, 2, 3)))
        octets = books.octets_of(table)
        if number % 3 == 2:
            made = books.faulty(table, rng, rng.choice(books.FAULTS))
            octets = made[0] if made else octets
        path = folder / f'book {number}'
        path.write_bytes(octets)
        of_book(path, octets, table)
        of_records(path, octets, table)


def names(folder):
    """Every name of MS-OXOAB's tables stands for its tag, in either case, with PidTag or without."""
    for tag, name in NAMES.items():
        kind = oab.type_of(tag)
        value = books.some_value(random.Random(tag), kind)
        book = folder / 'named'
        book.write_bytes(oab.write_book([], [(tag, 0)], [], [[value]]))
        for word in (name, name.lower(), 'PidTag' + name, f'{tag:08x}'):
            differs(('get', word), (0, spelling.lines(kind, value)), run('get', book, 0, word)[:2])
        differs('show --names', (0, shown(0, [(tag, 0)], [value], NAMES.get)), run('show', '--names', book, 0)[:2])
        differs('columns --json', (0, [{'table': 'address', 'column': 0, 'tag': hex_tag(tag), 'name': name,
                                        'type': spelling.TYPE_WORDS[kind], 'index': False, 'key': False}]),
                objects(run('columns', '--json', book)))


# ---------------------------------------------------------------- what is saved

def correction_words(rng, payload, path, folder):
    """The command's words for a correction of make.py's stream, and its standard input."""
    what, first, rest = payload[0], make.least(payload[1:5]), payload[5:]
    record = 'header' if first == make.HEADER_RECORD else str(first)
    if what == 1:
        tag, value = make.least(rest[:4]), rest[4:]
        kind = oab.type_of(tag)
        if kind in oab.TYPES and oab.walk(kind, value) == len(value) and rng.random() < 0.7:
            return ['set', path, record, hex_tag(tag), '--', *spelling.words(kind, value)], b''
        return ['set', path, record, hex_tag(tag), '--raw'], value
    if what == 2:
        return ['clear', path, record, hex_tag(make.least(rest))], b''
    if what == 3:
        (folder / 'record').write_bytes(rest)
        return ['insert', path, first, folder / 'record'], b''
    return ['delete', path, first], b''


def correcting(folder):
    rng = random.Random(910)
    path, other = folder / 'corrected', folder / 'other'
    for number in range(120):
        table = books.some_table(rng, header=rng.choice((0, 1, 3)), address=rng.choice((1, 2, 3, 8, 9)),
                                 records=rng.choice((1, 2, 3)), most=4)
        octets = books.octets_of(table)
        path.write_bytes(octets)
        payload = make.some_correction(rng, table, rng.choice((0, 0, 0.6)))
        words, stdin = correction_words(rng, payload, path, folder)
        stream = make.CorrectingStream()
        stream.buffer, stream.length = bytearray(octets) + bytes(len(payload) + 1), len(octets)
        answer = stream.call(payload)
        want = bytes(stream.buffer[:answer[1]]) if answer[0] == 'done' else octets
        old = os.stat(path)
        says('-n', path, answer, run('-n', *words, stdin=stdin), b'')
        differs('-n saves nothing', (octets, old.st_ino), (path.read_bytes(), os.stat(path).st_ino))
        if number % 4 == 3:                    # elsewhere: the book itself stays
            other.unlink(missing_ok=True)
            says(words[:1], path, answer, run('-o', other, *words, stdin=stdin), b'')
            differs('-o', (octets, want if answer[0] == 'done' else None), (path.read_bytes(), content(other)))
            says('-o -', path, answer, run('-o', '-', *words, stdin=stdin), want if answer[0] == 'done' else b'')
        else:
            says(words[:1], path, answer, run(*words, stdin=stdin), b'')
            differs('saved', want, path.read_bytes())
            if answer[0] == 'refused' or want == octets:
                differs('untouched', old.st_ino, os.stat(path).st_ino)
        differs('nothing left beside', [], [p.name for p in folder.iterdir() if '.' in p.name])


# ---------------------------------------------------------------- words at fault

def usage(folder):
    """Exit status 2, nothing on standard output, and the word at fault named on standard error."""
    small = folder / 'small'
    small.write_bytes(books.small_book())
    missing = folder / 'missing'
    for at_fault, words in (
            ('usage', ()), ('nothing', ('nothing',)), ('check', ('check',)), ('list', ('list',)),
            ('get', ('get', small, 0)),
            ('x', ('get', small, 'x', '3001001F')), ('3001', ('get', small, 0, '3001')),
            ('3001001FF', ('get', small, 0, '3001001FF')),
            ('NoName', ('get', small, 0, 'NoName')), ('set', ('set', small, 0, '3001001F')),
            ('b', ('set', small, 0, '3001001F', 'a', 'b')),
            ('x', ('set', small, 0, '80030003', 'x')), ('x', ('set', small, 0, '80031003', '1', '2', 'x')),
            ('4294967296', ('set', small, 0, '80030003', '4294967296')),
            ('maybe', ('set', small, 0, '8003000B', 'maybe')),
            ('ABC', ('set', small, 0, '80031102', 'AB', 'ABC')), ('-1', ('delete', small, '-1')),
            ('-x', ('delete', '-x', small, 0)),
            ('--nothing', ('check', '--nothing', small)), ('-n', ('check', '-n', small)),
            ('-e', ('set', '-e', small, 0, '3001001F', 'a')),
            ('-o', ('delete', small, 0, '-o')), ('-o', ('-o', missing, 'delete', small, 0, '-o', missing)),
            ('c', ('list', small, 'c')),
            (missing, ('check', missing)), (folder, ('list', folder)), (missing, ('insert', small, 0, missing)),
            ('a', ('set', '--raw', small, 0, '3001001F', 'a')),
            ('--raw', ('get', '--raw', '--json', small, 0, '3001001F')),
            ('standard input', ('delete', '-', 0)), (r'a\b', ('set', small, 0, '3001001F', r'a\b'))):
        got = run(*words)
        front = 'usage: oab ' if at_fault == 'usage' else f'oab: {at_fault}: '
        named = got[2].startswith(front.encode())
        differs((at_fault, words, got[2][:80]), (2, b'', True), (*got[:2], named))
    differs('still the book', books.small_book(), content(small))


def refusals_in_words(folder):
    """15 says whether record or column is missing; an absent value is no refusal; -e makes it 3."""
    small = folder / 'small'
    small.write_bytes(books.small_book())
    for words, tail in ((('get', small, 1, '3001001F'), 'there is no record 1: the book has 1 record, from 0 on'),
                        (('get', small, 0, '30010003'), 'there is no column 30010003 in the address table'),
                        (('clear', small, 'header', '3001001F'), 'there is no column 3001001F in the header table'),
                        (('set', small, 9, '3001001F', 'a'), 'there is no record 9: the book has 1 record, from 0 on'),
                        (('delete', small, 1), 'there is no record 1: the book has 1 record, from 0 on'),
                        (('show', small, 0, 7), 'there is no record 7: the book has 1 record, from 0 on'),
                        (('extract', small, 2), 'there is no record 2: the book has 1 record, from 0 on')):
        differs(words, (1, b'', f'oab: {small}: refused 15 at 0: {tail}\n'.encode()), run(*words))
    absent = ('get', small, 0, 'DisplayName')
    differs('absent', (0, b'', f'oab: {small}: absent\n'.encode()), run(*absent))
    differs('absent, -e', (3, b''), run(*absent, '-e')[:2])
    differs('absent, -q', (0, b'', b''), run('-q', *absent))
    differs('absent, -eq', (3, b'', b''), run('-eq', *absent))
    differs('two books, one bad', 1, run('check', small, '-', stdin=b'x')[0])
    differs('a missing one counts more', 2, run('check', '-', folder / 'missing', stdin=b'x')[0])


def anywhere(folder):
    """Options stand anywhere before --; what follows is data."""
    small, out = folder / 'small', folder / 'out'
    small.write_bytes(books.small_book())
    want = oab.write_book(*books.SMALL_TABLE[:3], [[b'b@c\0', b'Q\0', books.SMALL_TABLE[3][0][2]]])
    for words in (('set', small, 0, '3001001F', 'Q', '-o', out), ('-o', out, 'set', small, 0, '3001001F', 'Q'),
                  ('set', '-o', out, small, '-q', 0, '3001001F', 'Q'),
                  ('set', small, 0, '-o', out, '3001001F', '--', 'Q')):
        out.unlink(missing_ok=True)
        differs(words, (0, b'', b'', books.small_book(), want), (*run(*words), content(small), content(out)))
    for value in ('-o', '--raw', '-5', '--', '-'):
        run('set', '-o', out, small, 0, '3001001F', '--', value)
        differs(('data', value), (0, value.encode() + b'\n'), run('get', out, 0, '3001001F')[:2])


def helping(folder):
    for words in ((), ('check',), ('list',), ('columns',), ('show',), ('get',), ('find',), ('why',), ('export',),
                  ('import',), ('index',), ('set',), ('clear',), ('insert',), ('delete',), ('extract',), ('apply',)):
        for option in ('--help', '-h'):
            got = run(*words, option)
            differs((words, option), (0, True, b''), (got[0], got[1].startswith(b'usage: oab '), got[2]))
    header = (TOP / 'include/windtrellis.h').read_text()
    number = int(header.split('#define WT_VERSION ')[1].split('u')[0])
    own = f'{number // 10000}.{number // 100 % 100}.{number % 100}'
    differs('--version', (0, f'oab {own}, library {own}\n'.encode(), b''), run('--version'))


def told_alike(folder):
    """The help, the man page, the completion and docs/OAB.md tell of the same commands, options and names."""
    page = (TOP / 'oab/oab.1').read_text().replace('\\-', '-')
    completion, manual = (TOP / 'oab/completion.bash').read_text(), (TOP / 'docs/OAB.md').read_text()
    commands = re.findall(r'^  oab (\w+) ', run('--help')[1].decode(), re.M)
    differs('commands of the completion', commands, re.search(r'_oab_commands="(.*)"', completion)[1].split())
    differs('commands of the man page', commands, re.findall(r'^\.B oab (\w+)$', page, re.M))
    differs('commands of docs/OAB.md', commands, re.findall(r'^\| `oab (\w+) ', manual, re.M))
    differs('names of the completion', list(NAMES.values()), re.search(r'_oab_names="([^"]*)"', completion)[1].split())
    differs('names of the man page', [(hex_tag(tag), name) for tag, name in NAMES.items()],
            re.findall(r'^([0-9A-F]{8}) (\w+)$', page, re.M))
    for command in commands:
        options = set(re.findall(r'^  (--?\w+) ', run(command, '--help')[1].decode(), re.M))
        where = re.findall(r'^\| `(--?\w+)[^|]*\| ([^|]*) \|', manual, re.M)
        told = {option for option, of in where if of == 'all' or f'`{command}`' in of}
        differs(('options in docs/OAB.md', command), options, told)
        line = rf'^    (?:\w+ \| )*{command}(?: \| \w+)*\) options="?([^";]*)"? ;;'
        told = set(re.search(line, completion, re.M)[1].replace('$all', '-o -q').split())
        differs(('options in the completion', command), options, told)


if __name__ == '__main__':
    oab_tools.main(reading, names, correcting, usage, refusals_in_words, anywhere, helping, told_alike)
