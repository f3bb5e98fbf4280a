"""The command `apply`: many corrections, all of them or none, saved once; errors name the line.

Run from the top: python3 tests/oab_apply.py. Ends with "N runs, 0 differ". What the lines make is held to the model.
"""

import os
import random

import oab_tools
from oab_tools import content, differs, run

import make
from model import books, oab, spelling


def line_of(payload):
    """A correction of make.py's stream as a line, or None: no line inserts a record, or has a broken encoding."""
    what, first, rest = payload[0], make.least(payload[1:5]), payload[5:]
    record = b'header' if first == make.HEADER_RECORD else b'%d' % first
    if what == 3:
        return None
    if what == 4:
        return b'delete %d' % first
    tag, value = make.least(rest[:4]), rest[4:]
    if what == 2:
        return b'clear %s %08X' % (record, tag)
    kind = oab.type_of(tag)
    if kind not in oab.TYPES or oab.walk(kind, value) != len(value):
        return None
    return b'set %s %08x ' % (record, tag) + b'\t'.join(spelling.words(kind, value))


def lines_for(rng, table, wrong):
    """Some lines, what the model makes of them all, and the first that it refuses: (number, refusal) or None."""
    stream = make.CorrectingStream()
    octets = books.octets_of(table)
    stream.buffer, stream.length = bytearray(octets) + bytes(4096), len(octets)
    lines, refused = [], None
    while len(lines) < 8:
        payload = make.some_correction(rng, oab.table_of(bytes(stream.buffer[:stream.length])), wrong)
        line = line_of(payload)
        if line is None:
            continue
        lines.append(line)
        if refused is None:
            answer = stream.call(payload)
            if answer[0] == 'refused':
                refused = (len(lines), answer)
    return lines, bytes(stream.buffer[:stream.length]), refused


def against_model(folder):
    rng = random.Random(911)
    book, file = folder / 'book', folder / 'lines'
    for number in range(120):
        table = books.some_table(rng, header=2, address=rng.choice((2, 3, 9)), records=6, most=4, junk=False)
        octets = books.octets_of(table)
        book.write_bytes(octets)
        lines, made, refused = lines_for(rng, table, rng.choice((0, 0, 0.1)))
        end = rng.choice((b'\n', b'\r\n'))
        text = rng.choice((b'', b'\xef\xbb\xbf')) + end.join(lines) + rng.choice((b'', end))
        file.write_bytes(text)
        words, stdin = rng.choice(((('apply', book, file), b''), (('apply', book), text), (('apply', book, '-'), text)))
        name = file if file in words else 'standard input'
        old = os.stat(book)
        got = run('-n', *words, stdin=stdin)
        differs('-n', (1 if refused else 0, b'', octets), (*got[:2], content(book)))
        got = run(*words, stdin=stdin)
        if refused is None:
            differs(('applied', lines), (0, b'', b'', made), (*got, content(book)))
        else:
            at, answer = refused
            said = f'oab: {name}: line {at}: refused {answer[1]} at {answer[2]}: '.encode()
            differs(('refused', lines), (1, b'', True, octets), (*got[:2], got[2].startswith(said), content(book)))
        if refused or made == octets:
            differs('untouched', old.st_ino, os.stat(book).st_ino)
        differs('nothing left beside', ['book', 'lines'], sorted(p.name for p in folder.iterdir()))


def forms(folder):
    """Comments, empty lines, blanks, names, lists by tabs; spaces of a value are kept."""
    book = folder / 'book'
    book.write_bytes(books.small_book())
    text = b'\n'.join((b'# a comment', b'', b'  \t', b'set 0 DisplayName  two spaces  ',
                       b'\tset  0\t AddressBookProxyAddresses\tSMTP:a b\tsmtp:c\\x09d',
                       b'set header 6800001F #not a comment', b'clear 0  DisplayName ',
                       b'set\t0\tDisplayName\t  kept '))
    want = oab.write_book(*books.SMALL_TABLE[:2], [b'#not a comment\0'],
                          [[b'b@c\0', b'  kept \0', b'\x02SMTP:a b\0smtp:c\td\0']])
    differs('forms', (0, b'', b'', want), (*run('apply', book, stdin=text), content(book)))
    old = os.stat(book).st_ino
    for nothing in (b'', b'\n', b'# nothing\n', b'clear 0 DisplayName\nset 0 DisplayName   kept '):
        differs(('nothing changes', nothing), (0, b'', b'', want, old),
                (*run('apply', book, stdin=nothing), content(book), os.stat(book).st_ino))


def faults(folder):
    """Exit status 2, the line and the word named, the book as it was."""
    book = folder / 'book'
    book.write_bytes(books.small_book())
    good = b'set 0 DisplayName Q\n'
    for line, fault in ((b'insert 0 x', 'insert: '), (b'set', 'the record is missing'),
                        (b'set 0', 'the tag is missing'),
                        (b'set 0 DisplayName', 'the value is missing'), (b'set x DisplayName a', 'x: '),
                        (b'set 0 300 a', '300: '),
                        (b'clear 0', 'the tag is missing'), (b'clear 0 DisplayName a', 'a: '),
                        (b'delete', 'the record is missing'),
                        (b'delete header', 'header: '), (b'delete 0 1', '1: '), (b'delete -1', '-1: '),
                        (b'set 0 80031003 1\t2\tx', 'x: '),
                        (b'set 0 DisplayName a\tb', 'b: '), (b'set 0 DisplayName a\0b', 'has an octet 00'),
                        (b'SET 0 DisplayName a', 'SET: ')):
        got = run('apply', book, stdin=good + b'#\n' + line + b'\n' + good)
        said = f'oab: standard input: line 3: {fault}'.encode()
        differs((line, got[2]), (2, b'', True, books.small_book()), (*got[:2], got[2].startswith(said), content(book)))
    for words in (('apply',), ('apply', book, 'a', 'b'), ('apply', book, folder / 'missing'),
                  ('apply', folder / 'missing'), ('apply', '-', '-')):
        differs(words, (2, b''), run(*words)[:2])
    book.write_bytes(b'no book at all')
    got = run('apply', book, stdin=good)
    differs('a bad book is named itself', (1, True), (got[0], got[2].startswith(oab_tools.refusal(book, 3, 0))))


def elsewhere(folder):
    """-o, and a book from standard input."""
    book, out = folder / 'book', folder / 'out'
    book.write_bytes(books.small_book())
    lines = folder / 'lines'
    lines.write_bytes(b'set 0 DisplayName Q')
    want = oab.write_book(*books.SMALL_TABLE[:3], [[b'b@c\0', b'Q\0', books.SMALL_TABLE[3][0][2]]])
    differs('-o', (0, want, books.small_book()), (run('apply', book, lines, '-o', out)[0], content(out), content(book)))
    differs('-o -', (0, want), run('apply', '-', lines, '-o', '-', stdin=books.small_book())[:2])
    differs('-n says so', (0, b'', f'oab: {book}: would be saved: 78 octets become 80\n'.encode()),
            run('apply', '-n', book, lines))
    differs('-n -q', (0, b'', b''), run('apply', '-nq', book, lines))
    differs('-n -o', (0, b'', f'oab: {out}: would be saved: 80 octets\n'.encode()),
            run('apply', '-n', book, lines, '-o', out))
    differs('-n, nothing', (0, b'', f'oab: {book}: nothing would change\n'.encode()), run('apply', '-n', book, '-'))


if __name__ == '__main__':
    oab_tools.main(against_model, forms, faults, elsewhere)
