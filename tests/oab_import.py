"""The command `import`: the book from a sheet, in a file and on standard output, its refusals and their words, held to
the model.

Run from the top: python3 tests/oab_import.py. What is expected comes from the model (tests/model) and from request 106
(document 02); the words from docs/OAB.md. Ends with "N runs, 0 differ".
"""

import os
import pty
import random
import re
import subprocess

import oab_tools
from oab_tools import TOP, content, differs, refusal, run, says

from model import books, imports, oab, sheets

ROOM = 1 << 20


def tags_in(text):
    """The tags of the first line, none where it isn't one."""
    try:
        return oab.read_first_line(text)[0]
    except oab.Refusal:
        return []


def expected(text, like, flags=None):
    """The model's answer: header table and header record of the book, and its flags where none are given."""
    header, address, header_row, _ = oab.table_of(like)
    if flags is None:
        flags = [dict(address).get(tag, 0) for tag in tags_in(text)]
    return oab.from_sheet(text, flags, [tag for tag, _ in header], [bits for _, bits in header],
                          oab.record_octets(header_row), ROOM)


def where(text, place):
    """Line and column of an octet, and behind the first line the number of its field and its tag."""
    line, column = 1 + text.count(b'\n', 0, place), place - text.rfind(b'\n', 0, place)
    tags = tags_in(text)
    if not tags or place < text.index(b'\n') + 1:
        return f'line {line}, column {column}: '
    at, field = text.index(b'\n') + 1, 0
    while (ended := oab.ENDED.match(text, at)) and ended.end() <= place and ended[2] != b'\r':
        at = ended.end()
        field = 0 if ended[2] != b',' else field + 1
    return f'line {line}, column {column}, in field {field + 1} ({tags[field]:08X}): '


def one_import(folder, text, like, flags=None, spelled=()):
    """From a file and from standard input, to a file and to standard output; a refusal leaves the file."""
    book, sheet, new = folder / 'a book', folder / 'a sheet', folder / 'new'
    book.write_bytes(like)
    sheet.write_bytes(text)
    answer = expected(text, like, flags)
    made = answer[1] if answer[0] == 'made' else b''
    words = ('import', '--like', book, *spelled)
    new.write_bytes(b'old')
    got = run(*words, '-o', new, sheet)
    says((words, text[:60]), sheet, answer, got, b'')
    differs((words, text[:60], 'the file'), made or b'old', content(new))
    says((words, '-'), '-', answer, run(*words, '-', '-o', '-', stdin=text), made)
    differs((words, 'still there'), (like, text), (content(book), content(sheet)))
    if answer[0] == 'made':
        differs((words, 'nothing is said'), b'', got[2])
    elif answer[1] == 20:
        want = refusal(sheet, 20, answer[2]) + where(text, answer[2]).encode()
        differs((words, text[:80], got[2]), True, got[2].startswith(want) and len(got[2]) > len(want) + 5)


# ---------------------------------------------------------------- sheets

def like_of(each):
    """A book with the header table and header record of an import, where they are good, and its columns."""
    columns = list(zip(tags_in(each.text), each.flags)) if len(tags_in(each.text)) == len(each.flags) else []
    columns = [(tag, bits) for tag, bits in dict(columns).items() if oab.type_of(tag) in oab.TYPES]
    try:
        oab.offered_record(each.record, [(tag, 0) for tag in each.heads])
    except oab.Refusal:
        return None
    header = list(zip(each.heads, each.header_flags))
    row = [None if s is None else each.record[s[0]:s[1]]
           for s in oab.read_record(each.record, 0, header, keys_bind=False).stretches]
    value = {0x0003: b'\1', 0x000B: b'\1', 0x001E: b'a\0', 0x001F: b'a\0', 0x000D: b'a\0', 0x0102: b'\1a',
             0x1003: b'\1\1', 0x101E: b'\1a\0', 0x101F: b'\1a\0', 0x1102: b'\1\1a'}
    book = books.octets_of((header, columns, row, [[value[oab.type_of(tag)] for tag, _ in columns]]))
    return book if oab.judge(book)[0] == 'good' else None


def on_purpose(folder):
    """The imports that were made by hand, with the flags of a book that has the columns; every third of those refused
    with 20."""
    for i, each in enumerate(imports.on_purpose()):
        like = like_of(each)
        if like and (each.answer[0] == 'made' and i % 2 or i % 3 == 0):
            one_import(folder, each.text, like)


def at_random(folder):
    """Random sheets in random spellings, whole and damaged; flags of the book, or given in words and numbers."""
    rng = random.Random(1061)
    names = {0: '0', 1: 'index', 2: 'key', 3: 'index key'}
    for number in range(160):
        given = imports.some_import(rng)
        if number % 2:
            given = imports.some_damage(rng, given)
        each = imports.Import(given[0], given[1], ('refused', 0, 0), given[2:4], given[4])
        like = like_of(each) or books.small_book()
        one_import(folder, each.text, like)
        flags = [bits & 3 if rng.random() < 0.7 else bits for bits in each.flags] or [0]
        spelled = ','.join(rng.choice((names.get(bits, str(bits)), str(bits), hex(bits))) for bits in flags)
        one_import(folder, each.text, like, flags, ('--flags', spelled))


def back(folder):
    """export and import: the same octets, but for unused flag bits; other columns than the book's have no flags."""
    rng = random.Random(1062)
    book, sheet, new = folder / 'book', folder / 'sheet', folder / 'new'
    for _ in range(60):
        header, columns = books.some_columns(rng, rng.choice((0, 1, 3)), True), imports.some_columns(rng, 16)
        columns = list(dict(columns).items())
        table = (header, columns, books.some_row(rng, header, False),
                 [books.some_row(rng, columns, True) for _ in range(rng.choice((1, 2, 5)))])
        octets = books.octets_of(sheets.spiced(rng, table))
        book.write_bytes(octets)
        differs('export', 0, run('export', '-t', ','.join(f'{tag:08X}' for tag, _ in columns), '-o', sheet, book)[0])
        differs('import', (0, b'', b''), run('import', '--like', book, '-o', new, sheet))
        differs('back', oab.write_book(*oab.table_of(octets)), content(new))
    text = b'3001001F,3002001F\r\na,b\r\n'
    like = books.octets_of(([], [(0x3002001F, 1), (0x3001001F, 2)], [], [[None, b'x\0']]))
    one_import(folder, text, like)
    differs('by the whole tag', [(0x3001001F, 2), (0x3002001F, 1)], oab.table_of(content(folder / 'new'))[1])
    one_import(folder, b'3001001E\r\na\r\n', like)
    differs('another type has none', [(0x3001001E, 0)], oab.table_of(content(folder / 'new'))[1])


def large(folder):
    """65,535 lines and one more; a sheet that is longer than its book."""
    book, sheet, new = folder / 'book', folder / 'sheet', folder / 'new'
    like = books.octets_of(([], [(sheets.NAME, 2)], [], [[b'a\0']]))
    book.write_bytes(like)
    head, lines = b'3001001F\r\n', [b'%d\r\n' % k for k in range(65_536)]
    sheet.write_bytes(head + b''.join(lines[:-1]))
    differs('65,535 lines', (0, b'', b''), run('import', '--like', book, '-o', new, sheet))
    rows = [b'%d\0' % k for k in range(65_535)]
    want = b''.join(oab.four(5 + len(row)) + b'\x80' + row for row in rows)
    differs('and their records', (True, 65_535), (content(new)[36:] == want, oab.word(content(new), 8)))
    sheet.write_bytes(head + b''.join(lines))
    differs('65,536 lines', (1, b'', refusal(sheet, 16, 0) + b'line 65537: a book has at most 65,535 records\n'),
            run('import', '--like', book, '-o', new, sheet))
    sheet.write_bytes(head + b'"' + b'""' * 300_000 + b'"\r\n')
    differs('quotes', (0, b'', b''), run('import', '--like', book, '-o', new, sheet))
    differs('half as long', True, content(new)[36:] == oab.four(300_006) + b'\x80' + b'"' * 300_000 + b'\0')


# ---------------------------------------------------------------- words

FAULTS = (
    (b'', 'line 1, column 1: the text ends inside the first line'),
    (b'3001001F', 'line 1, column 9: the text ends inside the first line'),
    (b'3001001f\r\n', 'line 1, column 8: the hex digits of a tag are upper-case'),
    (b'"3001001f"\r\n', 'line 1, column 9: the hex digits of a tag are upper-case'),
    (b'3001001Fa\r\n', 'line 1, column 9: the first line has 1 to 16 tags of eight hex digits, parted by commas'),
    (b'\xEF\xBB\xBF3001001F\r\n', 'line 1, column 1: a sheet has no byte order mark in front'),
    (b'SmtpAddress\r\n', 'line 1, column 1: the first line has 1 to 16 tags of eight hex digits, parted by commas'),
    (b'3001001F\na\n', 'line 1, column 9: a line ends in CR LF'),
    (b'3001001F\ra', 'line 1, column 10: a line ends in CR LF'),
    (b','.join([b'3001001F'] * 17), 'line 1, column 144: a sheet has at most 16 columns'),
    (b'3001001F\r\na', 'line 2, column 2, in field 1 (3001001F): the text ends before its last line\'s CR LF'),
    (b'3001001F\r\na\r', 'line 2, column 3, in field 1 (3001001F): the text ends behind a CR'),
    (b'3001001F\r\na\rb', 'line 2, column 3, in field 1 (3001001F): LF is due behind CR'),
    (b'3001001F\r\na\n', 'line 2, column 2, in field 1 (3001001F): a line ends in CR LF'),
    (b'3001001F\r\n"a\r\n', 'line 3, column 1, in field 1 (3001001F): the text ends inside quotes'),
    (b'3001001F\r\n"a\r\nb"c\r\n',
     'line 3, column 3, in field 1 (3001001F): a closing quote isn\'t the end of its field'),
    (b'3001001F\r\na"b\r\n',
     'line 2, column 2, in field 1 (3001001F): a field with a quote in it stands in quotes, and the quote twice'),
    (b'3001001F,39000003\r\na\r\n', 'line 2, column 2, in field 1 (3001001F): the line has too few fields'),
    (b'3001001F,39000003\r\na,1,\r\n', 'line 2, column 4, in field 2 (39000003): the line has a field too many'),
    (b'3001001F,39000003\r\na,1\r\n,-1\r\n',
     'line 3, column 2, in field 2 (39000003): a number is decimal digits alone'),
    (b'39000003\r\n"01"\r\n', 'line 2, column 3, in field 1 (39000003): a number has no leading zero'),
    (b'39000003\r\n4294967295\r\n4294967296\r\n',
     'line 3, column 1, in field 1 (39000003): the number is over 4,294,967,295'),
    (b'3A40000B,39000003\r\n1,"4294967296"\r\n',
     'line 2, column 3, in field 2 (39000003): the number is over 4,294,967,295'),
    (b'3A40000B\r\nyes\r\n', 'line 2, column 1, in field 1 (3A40000B): a boolean is 0 or 1'),
    (b'3A40000B\r\n11\r\n', 'line 2, column 2, in field 1 (3A40000B): a boolean is 0 or 1'),
    (b'3003001E\r\na\0\r\n', 'line 2, column 2, in field 1 (3003001E): text holds no zero octet'),
    (b'3001001F\r\n\xFF\r\n', 'line 2, column 1, in field 1 (3001001F): the text isn\'t UTF-8'),
    (b'3003001E,3001001F\r\n\xFF,"a\xFF"\r\n', 'line 2, column 3, in field 2 (3001001F): the text isn\'t UTF-8'),
)


def refused_in_words(folder):
    """Each cause of 20 in its words; 15, 18, 7 and 16 name the column or the line at fault."""
    book = folder / 'book'
    like = books.octets_of(([], [(0x39FE001F, 2), (sheets.NAME, 0)], [], [[b'a\0', None]]))
    book.write_bytes(like)
    words = ('import', '--like', book, '-o', folder / 'new', '-')
    for text, said in FAULTS:
        place = expected(text, like)
        want = refusal('-', 20, place[2]) + said.encode() + b'\n'
        for quiet in ((), ('-q',)):
            differs((text, quiet), (1, b'', want), run(*quiet, *words, stdin=text))
    for text, flags, answer, said in (
            (b'3001001F\r\na\r\n', '0,0', (15, 0), 'the sheet has 1 column, and --flags has 2'),
            (b'3001001F,39000003\r\na,\r\n', 'key', (15, 0), 'the sheet has 2 columns, and --flags has 1'),
            (b'3001001F,800F101F\r\na,\r\n', None, (18, 0),
             'column 800F101F can\'t come from a sheet: its type is texts'),
            (b'3001000D\r\n\0', None, (18, 0), 'column 3001000D can\'t come from a sheet: its type is object'),
            (b'30010005\r\n', None, (18, 0), 'column 30010005 can\'t come from a sheet: its type is unknown'),
            (b'3001001F,39000003,3001001F\r\n,,\r\n', None, (7, 130), 'column 3001001F stands twice in the first line'),
            (b'3001001F\r\n', None, (16, 0),
             'the sheet has no line behind the first, and a book has a record or more'),
            (b'39FE001F\r\na\r\n\r\n', None, (16, 0), 'line 3: the key column 39FE001F has no value'),
            (b'3001001F,39FE001F\r\n"a\r\n",b\r\n,""\r\n', None, (16, 0),
             'line 4: the key column 39FE001F has no value')):
        spelled = ('--flags', flags) if flags else ()
        differs((text, flags), (1, b'', refusal('-', *answer) + said.encode() + b'\n'),
                run(*words, *spelled, stdin=text))
    differs('nothing is saved', False, (folder / 'new').exists())


def like_is_judged(folder):
    """The other book's own refusal comes first, under its name."""
    book, sheet, new = folder / 'book', folder / 'sheet', folder / 'new'
    sheet.write_bytes(b'no sheet')
    rng = random.Random(1063)
    for fault in books.FAULTS:
        made = books.faulty(books.some_table(rng), rng, fault)
        if made:
            book.write_bytes(made[0])
            got = run('import', '--like', book, '-o', new, sheet)
            differs(fault.__name__, (1, b'', True), (*got[:2], got[2].startswith(refusal(book, *made[1]))))
    differs('nothing is saved', False, new.exists())


# ---------------------------------------------------------------- files

def saved(folder):
    """-o: a new file is private, an old one keeps its mode; the book itself may be it, the sheet may not."""
    book, sheet, new = folder / 'book', folder / 'sheet', folder / 'new'
    like = books.octets_of(books.MAILROOM_TABLE)
    text = b'39FE001F\r\na@b\r\n'
    book.write_bytes(like)
    sheet.write_bytes(text)
    want = expected(text, like)[1]
    words = ('import', '--like', book, sheet)
    said = f'oab: {new}: would be saved: {len(want)} octets\n'.encode()
    differs('-n', (0, b'', said, False), (*run(*words, '-n', '-o', new), new.exists()))
    differs('-nq', (0, b'', b''), run(*words, '-nq', '-o', new))
    mask = os.umask(0)
    os.umask(mask)
    differs('a new file', (0, b'', b'', want, 0o600 & ~mask),
            (*run(*words, '-o', new), content(new), new.stat().st_mode & 0o777))
    new.write_bytes(b'old')
    new.chmod(0o664)
    differs('an old file', (0, b'', b'', want, 0o664),
            (*run(*words, '-o', new), content(new), new.stat().st_mode & 0o777))
    soft = folder / 'soft'
    soft.symlink_to(sheet)
    for name in (sheet, soft):
        differs(('the sheet itself', name.name), (2, b'', f'oab: {name}: is the sheet itself\n'.encode(), text),
                (*run(*words, '-o', name), content(sheet)))
    differs('the book itself', (0, b'', b'', want), (*run(*words, '-o', book), content(book)))
    differs('from standard input', (0, want, b''), run('import', '--like', '-', '-o', '-', sheet, stdin=like))
    differs('no folder', (2, b''), run(*words, '-o', folder / 'none/new')[:2])
    with open('/dev/full', 'w') as full:
        got = subprocess.run([oab_tools.program, *map(str, words), '-o', '-'], stdout=full, stderr=subprocess.PIPE)
        differs('a full disk', (2, True), (got.returncode, got.stderr.startswith(b'oab: standard output: ')))
    differs('nothing is left behind', ['book', 'new', 'sheet', 'soft'], sorted(path.name for path in folder.iterdir()))


def terminal(folder):
    """Octets are never written to a terminal."""
    if not oab_tools.is_native(oab_tools.program):
        return
    ours, theirs = pty.openpty()
    got = subprocess.run([oab_tools.program, 'import', '--like', TOP / 'examples/mailroom.book', '-o', '-', '-'],
                         input=b'39FE001F\r\na@b\r\n', stdout=theirs, stderr=subprocess.PIPE)
    differs('a terminal', (2, True), (got.returncode, b'standard output: is a terminal' in got.stderr))
    os.close(theirs)
    os.close(ours)


def wrong_words(folder):
    """Exit status 2, nothing on standard output, and the word at fault named."""
    book, sheet, missing, new = (folder / name for name in ('book', 'sheet', 'missing', 'new'))
    book.write_bytes(books.octets_of(books.MAILROOM_TABLE))
    sheet.write_bytes(b'39FE001F\r\na@b\r\n')
    good = ('--like', book, '-o', new)
    for at_fault, words in (
            ('import', ()), ('import', (sheet,)), ('import', ('--like', book, sheet)), ('import', ('-o', new, sheet)),
            ('import', good), ('b', (*good, sheet, 'b')), ('--like', (sheet, '-o', new, '--like')),
            ('--flags', (*good, sheet, '--flags')), ('--like', (*good, sheet, '--like', book)),
            ('--flags', (*good, sheet, '--flags', '0', '--flags', '0')), ('-o', (*good, sheet, '-o', new)),
            ('--flags', (*good, sheet, '--flags', '')), ('--flags', (*good, sheet, '--flags', ',')),
            ('--flags', (*good, sheet, '--flags', '0,')), ('--flags', (*good, sheet, '--flags', 'keys')),
            ('--flags', (*good, sheet, '--flags', '4294967296')), ('--flags', (*good, sheet, '--flags', '-1')),
            ('--flags', (*good, sheet, '--flags', 'index  key')), ('--flags', (*good, sheet, '--flags', 'key ')),
            ('--flags', (*good, missing, '--flags', 'a')), (missing, (*good, missing)), (folder, (*good, folder)),
            (missing, ('--like', missing, '-o', new, sheet)), (folder, ('--like', folder, '-o', new, sheet)),
            ('import', ('--like', '-', '-o', new, '-')), ('-t TAG', (*good, sheet, '-t', 'DisplayName')),
            ('--json', (*good, sheet, '--json')), ('--raw', (*good, sheet, '--raw')), ('-e', (*good, sheet, '-e')),
            ('--names', (*good, sheet, '--names')), ('--index FILE', (*good, sheet, '--index', book))):
        got = run('import', *words)
        differs((words, got[2][:120]), (2, b'', True), (*got[:2], got[2].startswith(f'oab: {at_fault}: '.encode())))
    for option in ('--like', '--flags'):
        got = run('export', '-t', 'DisplayName', book, option, book)
        named = re.match(rb'oab: ' + option.encode() + rb' \w+: is no option of export', got[2])
        differs(option, (2, b'', True), (*got[:2], named is not None))
    differs('nothing is saved', False, new.exists())


if __name__ == '__main__':
    oab_tools.main(on_purpose, at_random, back, large, refused_in_words, like_is_judged, saved, terminal, wrong_words)
