"""The one spelling: what `get` prints, `set` and `apply` take back as the same octets, for all octets and types; and
nothing that is printed can steer a terminal.

Run from the top: python3 tests/oab_spelling.py. Ends with "N runs, 0 differ".
"""

import json
import os
import pty
import subprocess
import sys
import unicodedata

import oab_tools
from oab_tools import content, differs, run

from model import books, oab, spelling

TAGS = {kind: 0x80000000 | number << 16 | kind for number, kind in enumerate(oab.TYPES)}


def book_of(values):
    """A book with one record: a column a type, those that are named have a value."""
    return oab.write_book([], [(tag, 0) for tag in TAGS.values()], [], [[values.get(kind) for kind in TAGS]])


def list_of(values):
    return oab.encode_number(len(values)) + b''.join(values)


def binary(octets):
    return oab.encode_number(len(octets)) + octets


def all_values():
    """Encodings of each type, together of every octet that may stand in it."""
    octets = bytes(range(1, 256))
    singles = [bytes([octet]) for octet in octets]
    texts = [chr(point).encode() + b'\0' for point in [*range(1, 0x500), *range(0x2000, 0x2100),
                                                       *books.BOUNDARY_POINTS]]
    numbers = [oab.encode_number(number) for number in books.BOUNDARY_NUMBERS]
    for number in numbers:
        yield oab.NUMBER, number
    for truth in (b'\0', b'\1'):
        yield oab.YES_OR_NO, truth
    for one in [*singles, octets, b'CONTOSO\\ann', b'\\x41', b'\\\\', b' a ', b'-o', b'\xE9']:
        yield oab.NARROW, one + b'\0'
        yield oab.OBJECT, one + b'\0'
    for one in ['CONTOSO\\ann', '\\x41', '\\\\', ' a ', '-o', '\t', '\n', '\r\n', '\x1b[2J', '\x85', '\u202e', 'Zoë',
                '"', "'", '#']:
        yield oab.TEXT, one.encode() + b'\0'
    for one in [*(bytes([octet]) for octet in range(256)), bytes(range(256)), bytes(1)]:
        yield oab.BINARY, binary(one)
    yield 0x1003, list_of(numbers)
    yield 0x101E, list_of([one + b'\0' for one in singles])
    yield 0x101F, list_of(texts)
    yield 0x1102, list_of([binary(bytes([octet])) for octet in range(256)] + [binary(bytes(range(256)))])


def back_and_forth(folder):
    """Printed from one book, set in another one that has no values."""
    full, empty, out = folder / 'full', folder / 'empty', folder / 'out'
    empty.write_bytes(book_of({}))
    for kind, value in all_values():
        full.write_bytes(book_of({kind: value}))
        tag = f'{TAGS[kind]:08X}'
        got = run('get', full, 0, tag)
        differs(('printed', kind), (0, spelling.lines(kind, value), b''), got)
        words = got[1].split(b'\n')[:-1]
        differs(('set back', kind, value[:20]), (0, full.read_bytes()),
                (run('set', '-o', out, empty, 0, tag, '--', *words)[0], content(out)))
        line = b'set 0 %s ' % tag.encode() + b'\t'.join(words)
        differs(('applied', kind, value[:20]), (0, full.read_bytes()),
                (run('apply', '-o', out, empty, stdin=line)[0], content(out)))
        got = run('get', '--json', full, 0, tag)
        differs(('--json', kind), (0, spelling.in_json(kind, value)),
                (got[0], json.loads(got[1] or b'{}').get('value')))


def every_character(folder):
    """All characters that Python's tables know, in one text: printed as decided, and taken back. Those without a
    category there may be format characters of a later Unicode."""
    full, empty, out = folder / 'full', folder / 'empty', folder / 'out'
    known = [chr(point) for point in range(1, 0x110000) if unicodedata.category(chr(point)) not in ('Cn', 'Cs')]
    value = ''.join(known).encode() + b'\0'
    full.write_bytes(book_of({oab.TEXT: value}))
    empty.write_bytes(book_of({}))
    tag = f'{TAGS[oab.TEXT]:08X}'
    got = run('get', full, 0, tag)
    differs('every character', True, (0, spelling.lines(oab.TEXT, value)) == got[:2])
    (folder / 'line').write_bytes(b'set 0 %s %s' % (tag.encode(), got[1]))
    differs('and back', (0, True), (run('apply', '-o', out, empty, folder / 'line')[0],
                                    content(out) == full.read_bytes()))


def spelled_wrong(folder):
    small = folder / 'small'
    small.write_bytes(books.small_book())
    for word in ('\\', 'a\\', '\\a', '\\x', '\\x4', '\\xG1', '\\x4G', '\\X41', '\\u0041', 'CONTOSO\\ann', 'a\\x00b',
                 '\\x00'):
        for command in (('set', small, 0, '3001001F', '--', word), ('set', small, 0, '800F101F', 'a', '--', word)):
            got = run(*command)
            differs(('spelled wrong', word), (2, b'', True),
                    (*got[:2], got[2].startswith(b'oab: ' + word.encode() + b': ')))
        got = run('apply', small, stdin=b'set 0 3001001F ' + word.encode())
        differs(('in a line', word), (2, True),
                (got[0], got[2].startswith(b'oab: standard input: line 1: ' + word.encode() + b': ')))
    for word in (b'\xff', b'\xc3', b'\xed\xa0\x80'):
        differs(('no UTF-8', word), 1, run('set', small, 0, '3001001F', word)[0])
    differs('still the book', books.small_book(), content(small))


STEERING = '\x1b[2J\x07\x85\x9b31m\u202e\u2066\u200f\u2028\ufeff\U000e0041'


def is_safe(octets):
    return not any(spelling.is_unsafe(character) and character not in '\n\t' for character in octets.decode())


def steering(folder):
    """Names of files, values and words with steering characters: nothing of it comes out."""
    book = folder / ('book' + STEERING.replace('/', ''))
    book.write_bytes(book_of({oab.TEXT: STEERING.encode() + b'\0', oab.NARROW: b'\x1b\x9b2J\0'}))
    text = f'{TAGS[oab.TEXT]:08X}'
    for words in (('check', book), ('check', '--json', book), ('show', book, 0), ('show', '--json', book, 0),
                  ('get', book, 0, text),
                  ('get', book, 9, text), ('get', book, 0, STEERING), ('get', str(book) + 'x', 0, text), (STEERING,),
                  ('-' + STEERING,),
                  ('set', book, 0, f'{TAGS[oab.NUMBER]:08X}', STEERING), ('delete', book, STEERING),
                  ('delete', '-n', book, 0)):
        got = run(*words)
        differs(('safe', words), (True, True, True), (is_safe(got[1]), is_safe(got[2]), b'\\x1B' in got[1] + got[2]))
    got = run('apply', book, stdin=STEERING.encode())
    differs('a line', (2, True), (got[0], is_safe(got[2])))


def on_a_terminal(words):
    """What a terminal gets of the command, and the status."""
    master, slave = pty.openpty()
    child = subprocess.Popen([oab_tools.program, *map(str, words)], stdout=slave, stderr=subprocess.PIPE,
                             stdin=subprocess.DEVNULL)
    os.close(slave)
    said = child.communicate()[1]
    try:
        seen = os.read(master, 65536)
    except OSError:
        seen = b''
    os.close(master)
    return child.returncode, seen, said


def octets_and_terminals(folder):
    """Octets never go to a terminal; lines do."""
    small = folder / 'small'
    small.write_bytes(books.small_book())
    for words in (('extract', small, 0), ('get', '--raw', small, 0, '39FE001F'),
                  ('set', '-o', '-', small, 0, '3001001F', 'Q')):
        status, seen, said = on_a_terminal(words)
        differs(('no octets', words), (2, b'', True),
                (status, seen, said.startswith(b'oab: standard output: is a terminal')))
    differs('lines', (0, b'b@c\r\n'), on_a_terminal(('get', small, 0, '39FE001F'))[:2])


if __name__ == '__main__':
    oab_tools.main(back_and_forth, every_character, spelled_wrong, steering, octets_and_terminals)
