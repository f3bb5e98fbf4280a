"""The command `export`: the sheet on standard output and in a file, its refusals and their words, held to the model.

Run from the top: python3 tests/oab_export.py. What is expected comes from the model (tests/model) and from request 101
(document 02); the words from docs/OAB.md. Ends with "N runs, 0 differ".
"""

import os
import pty
import random
import subprocess

import oab_tools
from oab_tools import TOP, content, differs, refusal, run, says

from model import books, oab, sheets, spelling
from model.names import NAMES


def hex_tag(tag):
    return f'{tag:08X}'


def by_name(tag):
    return NAMES.get(tag, hex_tag(tag))


def list_of(tags, name=hex_tag):
    return ','.join(name(tag) for tag in tags)


def words_of(table, tags, answer):
    """What a refusal of the choice says behind its number and place."""
    columns = [tag for tag, _ in table[1]]
    if answer[1] == 15:
        return f'there is no column {hex_tag(next(tag for tag in tags if tag not in columns))} in the address table'
    for tag in tags:
        if oab.type_of(tag) not in oab.EXPORTED:
            kind = spelling.TYPE_WORDS[oab.type_of(tag)]
            return f'column {hex_tag(tag)} can\'t be exported: its type is {kind}'
    if len(tags) > 16:
        return f'{len(tags)} columns are chosen, and at most 16 can be'
    twice = next(tag for i, tag in enumerate(tags) if tag in tags[:i])
    return f'column {hex_tag(twice)} is chosen twice'


def one_sheet(book, octets, table, tags, out):
    """On standard output, from standard input, and in a file; a refusal leaves the file, and says what is wrong."""
    answer = oab.sheet(octets, tags, 1 << 30)
    sheet = answer[1] if answer[0] == 'made' else b''
    words = ('export', '-t', list_of(tags), book)
    got = run(*words)
    says(words, book, answer, got, sheet)
    says((words, '-'), '-', answer, run('export', '-t', list_of(tags), '-', stdin=octets), sheet)
    out.write_bytes(b'old')
    saved = run(*words, '-o', out)
    says((words, '-o'), book, answer, saved, b'')
    differs((words, 'the file'), sheet or b'old', content(out))
    differs((words, 'still the book'), octets, content(book))
    if answer[0] == 'made':
        differs((words, 'nothing is said'), (b'', b''), (got[2], saved[2]))
    elif answer[1] in (15, 18):
        tail = words_of(table, tags, answer).encode() + b'\n'
        differs((words, 'in words'), refusal(book, *answer[1:]) + tail, got[2])


# ---------------------------------------------------------------- books

def on_purpose(folder):
    """The books that were made for it: every sheet, and some of the refusals, as they are known by hand."""
    book, out = folder / 'a book', folder / 'sheet.csv'
    for made in sheets.chosen():
        book.write_bytes(made.book)
        for i, (tags, want) in enumerate(made.asked):
            if not tags or (i % 7 and len(made.asked) > 9):
                continue
            says(('export', tags), book, want, run('export', '-t', list_of(tags), book),
                 want[1] if want[0] == 'made' else b'')
        tags = next(tags for tags, _ in made.asked if tags)
        one_sheet(book, made.book, made.table, tags, out)


def at_random(folder):
    """Good and damaged books, choices with something wrong or nothing."""
    rng = random.Random(1011)
    book, out = folder / 'book', folder / 'out'
    for number in range(90):
        table = sheets.spiced(rng, books.some_table(rng, records=rng.choice((1, 2, 3, 5))))
        octets = books.octets_of(table)
        if number % 5 == 3:
            made = books.faulty(table, rng, rng.choice(books.FAULTS))
            octets = made[0] if made else octets
        elif number % 5 == 4:
            octets = books.random_damage(octets, rng)
        book.write_bytes(octets)
        for wrong in (0, 0.6):
            one_sheet(book, octets, table, sheets.some_choice(rng, table, wrong) or [0], out)


def large(folder):
    """65,535 records; a sheet that is longer than its book."""
    book, out = folder / 'book', folder / 'out'
    octets = books.octets_of(([], [(sheets.NAME, 0), (sheets.NUMBER, 0)], [],
                              [[b'%d\0' % k, oab.encode_number(k)] for k in range(65_535)]))
    book.write_bytes(octets)
    want = b'3001001F,39000003\r\n' + b''.join(b'%d,%d\r\n' % (k, k) for k in range(65_535))
    differs('65,535 records', (0, want, b''), run('export', '-t', '3001001F,39000003', book))
    quotes = books.octets_of(([], [(sheets.NAME, 0)], [], [[b'"' * 300_000 + b'\0']]))
    book.write_bytes(quotes)
    want = b'3001001F\r\n' + b'"' * 600_002 + b'\r\n'
    differs('quotes', (0, b'', b''), run('export', '-t', 'DisplayName', '-o', out, book))
    differs('longer than its book', (True, want), (len(want) > len(quotes), content(out)))


# ---------------------------------------------------------------- words and files

def tags_in_words(folder):
    """Names and hex digits, lists and several -t, options anywhere; the examples' columns by every name."""
    book = TOP / 'examples/mailroom.book'
    octets = book.read_bytes()
    columns = [tag for tag, _ in books.MAILROOM_TABLE[1]][:5]
    want = (0, oab.make_sheet(octets, columns), b'')
    names, digits = list_of(columns, by_name), list_of(columns)
    for words in (('export', '-t', names, book), ('export', book, '-t', digits),
                  ('-t', digits.lower(), 'export', book), ('export', '-q', '-t', names.upper(), book),
                  ('export', '-t', '0x' + digits.replace(',', ',0x'), book),
                  ('export', '-t', 'PidTag' + names.replace(',', ',pidtag'), book),
                  ('export', '-t', list_of(columns[:2]), '-t', list_of(columns[2:], by_name), '--', book),
                  ('export', *(word for tag in columns for word in ('-t', by_name(tag))), book),
                  ('export', '-o', '-', '-t', names, book)):
        differs(words, want, run(*words))
    for name in ('desk', 'sample', 'manager', 'small'):
        path = TOP / 'examples' / f'{name}.book'
        own = [tag for tag, _ in oab.table_of(path.read_bytes())[1] if oab.type_of(tag) in oab.EXPORTED]
        for tags in (own, own[::-1]):
            differs(name, (0, oab.make_sheet(path.read_bytes(), tags), b''),
                    run('export', '-t', list_of(tags, by_name), path))


def refused_in_words(folder):
    """15 and 18 name the tag at fault, also with -q; the book's own refusal comes first."""
    book = folder / 'book'
    octets = books.octets_of(books.MAILROOM_TABLE)
    book.write_bytes(octets)
    wide = books.octets_of(([], [((0x4000 + i) << 16 | 3, 0) for i in range(17)], [], [[None] * 17]))
    for words, number, tail in (
            ('Surname', 15, 'there is no column 3A11001F in the address table'),
            ('SmtpAddress,DisplayName,3001001E', 15, 'there is no column 3001001E in the address table'),
            ('800F101F,SmtpAddress,SmtpAddress,6800001F', 15, 'there is no column 6800001F in the address table'),
            ('SmtpAddress,AddressBookProxyAddresses', 18, "column 800F101F can't be exported: its type is texts"),
            ('SmtpAddress,DisplayName,SmtpAddress', 18, 'column 39FE001F is chosen twice'),
            ('800F101F,800F101F', 18, "column 800F101F can't be exported: its type is texts")):
        want = f'oab: {book}: refused {number} at 0: {tail}\n'.encode()
        for quiet in ((), ('-q',)):
            differs(words, (1, b'', want), run(*quiet, 'export', '-t', words, book))
    for words in ('Surname', '800F101F', 'SmtpAddress,SmtpAddress'):
        got = run('export', '-t', words, '-', stdin=octets[:-1])
        differs(words, (1, b'', True), (*got[:2], got[2].startswith(refusal('-', *oab.judge(octets[:-1])[1:]))))
    got = run('export', '-t', ','.join(f'{0x4000 + i:04X}0003' for i in range(17)), '-', stdin=wide)
    differs('17', (1, b'', b'oab: -: refused 18 at 0: 17 columns are chosen, and at most 16 can be\n'), got)


def saved(folder):
    """-o: a new file is private, an old one keeps its mode, links are followed, the book itself is spared."""
    book, out, link = folder / 'book', folder / 'out', folder / 'link'
    octets = books.octets_of(books.MAILROOM_TABLE)
    book.write_bytes(octets)
    link.symlink_to(out)
    sheet = oab.make_sheet(octets, [sheets.NARROW])
    words = ('export', '-t', 'EmailAddress', book)
    differs('a new file', (0, b'', b'', sheet, 0o600 & ~umask()),
            (*run(*words, '-o', out), content(out), out.stat().st_mode & 0o777))
    out.write_bytes(b'old')
    out.chmod(0o664)
    differs('an old file, by a link', (0, b'', b'', sheet, 0o664),
            (*run(*words, '-o', link), content(out), out.stat().st_mode & 0o777))
    for name in (book, folder / 'hard', folder / 'soft'):
        if name.name == 'hard':
            os.link(book, name)
        elif name.name == 'soft':
            name.symlink_to(book)
        got = run(*words, '-o', name)
        differs(('the book itself', name.name), (2, b'', f'oab: {name}: is the book itself\n'.encode(), octets),
                (*got, content(book)))
    differs('no folder', (2, b''), run(*words, '-o', folder / 'none/out')[:2])
    with open('/dev/full', 'w') as full:
        got = subprocess.run([oab_tools.program, *map(str, words)], stdout=full, stderr=subprocess.PIPE)
        differs('a full disk', (2, True), (got.returncode, got.stderr.startswith(b'oab: standard output: ')))
    differs('nothing is left behind', sorted(['book', 'hard', 'link', 'out', 'soft']),
            sorted(path.name for path in folder.iterdir()))


def umask():
    mask = os.umask(0)
    os.umask(mask)
    return mask


def terminal(folder):
    """Octets are never written to a terminal."""
    if not oab_tools.is_native(oab_tools.program):
        return
    ours, theirs = pty.openpty()
    got = subprocess.run([oab_tools.program, 'export', '-t', 'SmtpAddress', TOP / 'examples/mailroom.book'],
                         stdout=theirs, stderr=subprocess.PIPE)
    differs('a terminal', (2, True), (got.returncode, b'standard output: is a terminal' in got.stderr))
    os.close(theirs)
    os.close(ours)


def wrong_words(folder):
    """Exit status 2, nothing on standard output, and the word at fault named."""
    book, missing = folder / 'book', folder / 'missing'
    book.write_bytes(books.octets_of(books.MAILROOM_TABLE))
    for at_fault, words in (
            ('export', ()), ('export', ('-t', 'DisplayName')), ('export', (book,)), ('-t', (book, '-t')),
            ('b', ('-t', 'DisplayName', book, 'b')), ('NoName', ('-t', 'NoName', book)),
            ('3001001', ('-t', 'DisplayName,3001001', book)), ('3001001FF', ('-t', '3001001FF', book)),
            (' DisplayName', ('-t', 'SmtpAddress, DisplayName', book)),
            ('-t', ('-t', '', book)), ('-t', ('-t', ',', book)), ('-t', ('-t', 'DisplayName,', book)),
            ('-t', ('-t', ',DisplayName', book)), ('-t', ('-t', 'DisplayName,,SmtpAddress', book)),
            ('-t', ('-t', 'DisplayName', '-t', '', book)), (missing, ('-t', 'DisplayName', missing)),
            (folder, ('-t', 'DisplayName', folder)), ('NoName', ('-t', 'NoName', missing)),
            ('-n', ('-n', '-t', 'DisplayName', book)), ('-e', ('-e', '-t', 'DisplayName', book)),
            ('--json', ('--json', '-t', 'DisplayName', book)), ('--names', ('--names', '-t', 'DisplayName', book)),
            ('--raw', ('--raw', '-t', 'DisplayName', book)),
            ('--index FILE', ('--index', book, '-t', 'DisplayName', book)),
            ('-o', ('-t', 'DisplayName', book, '-o', missing, '-o', missing))):
        got = run('export', *words)
        differs((words, got[2][:120]), (2, b'', True), (*got[:2], got[2].startswith(f'oab: {at_fault}: '.encode())))
    got = run('find', '-t', 'DisplayName', '-t', 'DisplayName', book, 'a')
    differs('find takes one', (2, b'', b'oab: -t: is given twice\n'), got)
    differs('nothing is saved', False, missing.exists())


if __name__ == '__main__':
    oab_tools.main(on_purpose, at_random, large, tags_in_words, refused_in_words, saved, terminal, wrong_words)
