"""Checks the model against fixed facts. Run from the top: python3 tests/check_model.py

What: assertions only; the last line says that all hold. Why: the model is the measure of
the tests, so it is itself measured by things that were not made with it: the sample file
of document 000, document 01's own cases, other programs for serial and UTF-8, and faults
put into books on purpose, whose refusals are known before anything is judged.
"""

import csv
import io
import itertools
import random
import sys
import zlib

sys.dont_write_bytecode = True

import make
from model import books, imports, indexes, oab, reasons, sheets


def check_serial():
    assert oab.serial(b'123456789') == 0x340BC6D9
    assert oab.serial(b'') == 0xFFFFFFFF
    sample = books.sample_book()
    assert oab.serial(sample[12:]) == 0x7FC0DAF7 == oab.word(sample, 4)
    rng = random.Random(1)
    for length in range(300):
        octets = rng.randbytes(length)
        assert oab.serial(octets) == zlib.crc32(octets) ^ 0xFFFFFFFF


def check_document_cases():
    for value, code in ((127, '7F'), (128, '8180'), (256, '820001'), (65_536, '83000001'), (16_777_216, '8400000001')):
        assert oab.encode_number(value) == bytes.fromhex(code)
        assert oab.number_at(bytes.fromhex(code)) == (value, len(code) // 2)
    for code in ('80', '817F', '828000', '85', ''):
        assert oab.number_at(bytes.fromhex(code)) is None
    assert oab.walk(0x0102, bytes.fromhex('0522F8FF0022')) == 6
    for code, end in (('EDA08000', None), ('F48FBFBF00', 5), ('F490808000', None), ('00', None)):
        assert oab.walk(0x001F, bytes.fromhex(code)) == end
    assert oab.walk(0x001E, b'\0') is None
    assert [oab.presence_octets(n) for n in (0, 8, 9)] == [0, 1, 2]
    assert oab.record_octets([]) == b'\x04\0\0\0'
    small = books.small_book()
    assert small == oab.write_book(*books.SMALL_TABLE)
    assert oab.judge(small) == ('good', 78, [(0x6800001F, 0)], [(0x39FE001F, 2), (0x3001001F, 1), (0x800F101F, 1)], 1, 56, 63)
    assert oab.listing(small) == 'book 78 1 3 1\nheader 56 7 1\nrecord 0 63 15 2\n'
    assert oab.listing(bytes(65_536)) == 'refused 3 0\n' and oab.listing(bytes(65_537)) == 'refused 17 0\n'
    assert oab.lookup(small, 0, 0x800F101F) == ('at', 72, 78) and oab.lookup(small, 0, 0x3001001F) == ('absent',)
    assert oab.lookup(small, None, 0x6800001F) == ('at', 61, 63) and oab.lookup(small, 1, 0x39FE001F) == ('refused', 15, 0)
    buffer = bytearray(small + b'\xA5' * 3)
    assert oab.set_value(buffer, 78, 0, 0x3001001F, b'\x51\0') == ('done', 80)
    assert buffer[63:] == bytes.fromhex('11000000 E0 62406300 5100 027800797A00 A5')
    assert oab.clear_value(buffer, 80, 0, 0x3001001F) == ('done', 78)
    assert buffer == small + b'\0\0\xA5'


def check_numbers():
    """A part is taken exactly when it begins with the encoding of the value given."""
    parts = [bytes([a, b]) for a in range(256) for b in range(256)]
    edge = (0, 1, 0x7F, 0x80, 0xFF)
    parts += [bytes([a, b, c, d, e]) for a in (0x7F, 0x80, 0x81, 0x82, 0x83, 0x84, 0x85) for b in edge for c in edge for d in edge for e in edge]
    codes = set()
    for value in list(range(70_000)) + list(books.BOUNDARY_NUMBERS):
        code = oab.encode_number(value)
        assert oab.number_at(code) == (value, len(code)) and oab.number_at(code + b'\x99') == (value, len(code))
        assert all(oab.number_at(code[:cut]) is None for cut in range(len(code)))
        codes.add(code)
    for part in parts:
        got = oab.number_at(part)
        if got is not None:
            assert part[:got[1]] == oab.encode_number(got[0])
        else:
            assert all(part[:width] not in codes for width in range(1, 6))


def python_takes(octets):
    try:
        octets.decode('utf-8', 'strict')
        return True
    except UnicodeDecodeError:
        return False


def check_utf8():
    rng = random.Random(2)
    edge = bytes(sorted(set(make.FIRST_OCTETS + make.NEXT_OCTETS)))
    strings = [bytes([a]) for a in range(256)] + [bytes([a, b]) for a in range(256) for b in range(256)]
    strings += [bytes([a, b, c]) for a in edge for b in edge for c in edge]
    strings += [bytes([a, b, c, d]) for a in edge for b in edge for c in make.NEXT_OCTETS for d in make.NEXT_OCTETS]
    for _ in range(3000):
        text = books.some_text(rng, 12)
        strings += [text, text[:-1], text + rng.choice(books.BAD_TEXTS), books.random_damage(text, rng)]
    for octets in strings:
        assert oab.utf8_ok(octets) == python_takes(octets), octets.hex()
    for bad in books.BAD_TEXTS:
        assert not python_takes(bad)


def check_books():
    """Good books are judged good, read back as their tables, and are written again."""
    rng = random.Random(3)
    tables = [books.some_table(rng) for _ in range(400)] + list(make.wide_tables(rng, 2)) + list(make.long_tables(rng))
    for table in tables:
        header, address, header_row, rows = table
        book = books.octets_of(table)
        plain = [(tag, flags & 3) for tag, flags in header], [(tag, flags & 3) for tag, flags in address]
        verdict = oab.judge(book)
        first = 24 + 8 * (len(header) + len(address))
        assert verdict == ('good', len(book)) + plain + (len(rows), first, first + len(oab.record_octets(header_row)))
        assert oab.table_of(book) == plain + (header_row, rows)
        again = oab.write_book(*oab.table_of(book))
        clean = bytearray(book)
        for row in range(len(header) + len(address)):
            at = 24 + 8 * row + (4 if row >= len(header) else 0)
            clean[at:at + 4] = oab.four(oab.word(book, at) & 3)
        assert again == books.mended(clean)
        for record, row in [(None, header_row)] + list(enumerate(rows))[:4]:
            for (tag, _), value in zip(header if record is None else address, row):
                if len(book) > 5000 or rng.random() < 0.9:
                    continue
                got = oab.lookup(book, record, tag)
                assert got == ('absent',) if value is None else book[got[1]:got[2]] == value


def check_refusals():
    """A fault put in on purpose brings the refusal it is known to bring."""
    rng = random.Random(4)
    for fault in books.FAULTS:
        for _ in range(80):
            made = books.faulty(books.some_table(rng), rng, fault)
            if made is not None:
                assert oab.judge(made[0]) == ('refused',) + made[1], fault.__name__
    for _ in range(25):
        table = books.some_table(rng)
        book = books.octets_of(table)
        for length in range(0, len(book), 3):
            assert oab.judge(book[:length]) == ('refused',) + books.cut_refusal(table, length)
    for book, expected in itertools.chain(books.decision_books(), books.proxy_books()):
        verdict = oab.judge(book)
        assert verdict[0] == 'good' if expected is None else verdict == ('refused',) + expected
    assert oab.judge(bytes(oab.LIMIT + 1)) == ('refused', 1, 0)
    assert oab.judge(bytes(oab.LIMIT)) == ('refused', 3, 0)


# A book laid down by hand, with 00 for the four octets of the serial. Header table: 6800001F, 68051003. Address table:
# 39FE001F (key), 3001001F, 3A08001E, 3A08101F, 3A1C001F, 3A23001F, 8C9E0102, 8CD8000D, 68051003, 3A19001F.
REASONS_HEX = '''
20 00 00 00 00 00 00 00 02 00 00 00 6C 00 00 00
02 00 00 00 1F 00 00 68 00 00 00 00 03 10 05 68 00 00 00 00
0A 00 00 00 1F 00 FE 39 02 00 00 00 1F 00 01 30 00 00 00 00 1E 00 08 3A 00 00 00 00 1F 10 08 3A 00 00 00 00
1F 00 1C 3A 00 00 00 00 1F 00 23 3A 00 00 00 00 02 01 9E 8C 00 00 00 00 0D 00 D8 8C 00 00 00 00
03 10 05 68 00 00 00 00 1F 00 19 3A 00 00 00 00
0B 00 00 00 40 01 84 1F 00 00 68
1A 00 00 00 80 80 61 40 62 00 03 84 02 01 9E 8C 84 1E 00 1C 3A 84 1F 00 19 3A
0A 00 00 00 80 00 63 40 64 00
'''


def check_reasons():
    """By hand, from document 02, reading 26 and 2.9.2.2.1: rows of the header table from 20 on, those of the address
    table behind it; presence octets behind a record's size."""
    small, sample = books.small_book(), books.sample_book()
    book = books.mended(bytes.fromhex(REASONS_HEX))
    assert len(book) == 167 and oab.judge(book)[4:] == (2, 120, 131)
    for asked, record, tag, answer in (
            (small, 0, 0x3001001F, ('not-listed', 67)), (small, 0, 0x3001001E, ('other-type', 0x3001001F, 40)),
            (small, 0, 0x800F101E, ('other-type', 0x800F101F, 48)), (small, 0, 0x3A11001F, ('no-column',)),
            (small, 0, 0x39FE001F, ('refused', 18, 0)), (small, 1, 0x3001001F, ('refused', 15, 0)),
            (small, None, 0x6800001E, ('other-type', 0x6800001F, 20)), (small, None, 0x3001001F, ('no-column',)),
            (small, None, 0x6800001F, ('refused', 18, 0)), (small, 0, 0x6800001F, ('no-column',)),
            (sample, 0, 0x68051003, ('not-listed', 174)), (sample, 1, 0x68051003, ('not-listed', 302)),
            (sample, 1, 0x39FE001E, ('other-type', 0x39FE001F, 64)), (sample, 0, 0x68010003, ('no-column',)),
            (sample, None, 0x6804001F, ('other-type', 0x6804001E, 28)), (sample, 2, 0x68051003, ('refused', 15, 0)),
            (book, None, 0x6800001F, ('listed', 124)), (book, None, 0x68051003, ('refused', 18, 0)),
            (book, 0, 0x3001001F, ('not-listed', 135)), (book, 0, 0x8C9E0102, ('listed', 135)),
            (book, 0, 0x3A1C001F, ('not-listed', 135)), (book, 0, 0x3A1C001E, ('other-type', 0x3A1C001F, 72)),
            (book, 0, 0x8CD8000D, ('not-listed', 135)), (book, 0, 0x3A19001F, ('listed', 136)),
            (book, 0, 0x3A08001F, ('other-type', 0x3A08001E, 56)), (book, 0, 0x3A08101F, ('not-listed', 135)),
            (book, 0, 0x3A080005, ('other-type', 0x3A08001E, 56)),
            (book, 0, 0x68050003, ('other-type', 0x68051003, 104)),
            (book, 1, 0x8C9E0102, ('not-listed', 161)), (book, 1, 0x3A19001F, ('not-listed', 162)),
            (book, 1, 0x68051003, ('not-listed', 162)), (book, 2, 0x39FE001F, ('refused', 15, 0)),
            (book, 2, 0, ('refused', 15, 0)), (book[:-1], 2, 0, ('refused', 8, 157)),
            (book[:-1], 0, 0x39FE001F, ('refused', 8, 157)), (bytes.fromhex(REASONS_HEX), 2, 0, ('refused', 14, 4))):
        assert oab.why(asked, record, tag) == answer, (record, hex(tag), answer)
    for made in reasons.asked():
        for record, tag, answer in made.questions:
            assert oab.why(made.book, record, tag) == answer, (made.table, record, hex(tag), answer)


def check_reasons_and_lookups():
    """Present, absent and unknown are what the lookup says."""
    rng = random.Random(6)
    for _ in range(150):
        table = reasons.with_lists(rng, books.some_table(rng, most=4))
        book = books.octets_of(table)
        for record in (None, 0, len(table[3]) - 1):
            for tag in rng.sample(reasons.tags_near(rng, table), 3):
                kind = oab.why(book, record, tag)
                found = oab.lookup(book, record, tag)[0]
                want = {'at': ('refused',), 'absent': ('listed', 'not-listed'), 'refused': ('other-type', 'no-column')}
                assert kind[0] in want[found]


def check_indexes():
    """By hand, from document 02: count, length, serial, 20 and 4, and the places that the books' listings have; an old
    one: 16 and no width, places of three octets."""
    for book, places in ((books.small_book(), (0x3F,)), (books.sample_book(), (0xAA, 0x12A))):
        front = oab.four(book[8]) + len(book).to_bytes(4, 'little') + book[4:8]
        new = front + b'\x14\0\0\0\x04\0\0\0' + b''.join(bytes((p % 256, p // 256, 0, 0)) for p in places)
        old = front + b'\x10\0\0\0' + b''.join(bytes((p % 256, p // 256, 0)) for p in places)
        assert oab.make_index(book, len(new)) == ('made', new)
        assert oab.make_index(book, len(new) - 1) == ('refused', 17, 0)
        for index in (new, old):
            for k, place in enumerate(places):
                assert oab.index_entry(book, index, k) == ('at', place)
                for tag, _ in oab.table_of(book)[1]:
                    assert oab.lookup_indexed(book, index, k, tag) == oab.lookup(book, k, tag)
            last = book[8] - 1
            assert oab.lookup_indexed(book, index, book[8], 0x39FE001F) == ('refused', 15, 0)
            assert oab.lookup_indexed(book, index[:-1], 0, 0x39FE001F) == ('refused', 19, 0)
            assert oab.lookup_indexed(book, index[:-1] + b'\xFF', last, 0x39FE001F) == ('refused', 19, 0)


def check_old_limit():
    """An old index beside a book as long as it is for, and one octet longer; the limit lowered for the while."""
    limit = oab.OLD_LIMIT
    book = books.small_book()
    new, old = indexes.own(book), indexes.old(book)
    try:
        oab.OLD_LIMIT = len(book)
        assert oab.index_entry(book, old, 0) == oab.index_entry(book, new, 0) == ('at', 0x3F)
        oab.OLD_LIMIT = len(book) - 1
        assert oab.index_entry(book, old, 0) == ('refused', 19, 0)
        assert oab.index_entry(book, new, 0) == ('at', 0x3F)
    finally:
        oab.OLD_LIMIT = limit


def check_sheets():
    """By hand, from document 02 and RFC 4180; then every choice whose sheet or refusal is known by how it was made."""
    small, sample, room = books.small_book(), books.sample_book(), books.octets_of(books.MAILROOM_TABLE)
    unit = '/o=example/ou=Exchange Administrative Group (FYDIBOHF23SPDLT)/cn=Recipients/cn='
    for book, tags, sheet in (
            (small, [0x39FE001F, 0x3001001F], '39FE001F,3001001F\r\nb@c,\r\n'),
            (small, [0x3001001F], '3001001F\r\n\r\n'),
            (sample, [0x0FFE0003, 0x39FE001F, 0x39000003, 0x3003001E], '0FFE0003,39FE001F,39000003,3003001E\r\n'
             f'6,LisaM@example.com,0,{unit}Lisa Miller\r\n6,Administrator@example.com,0,{unit}Administrator\r\n'),
            (room, [0x3A40000B, 0x3001001F, 0x39000003], '3A40000B,3001001F,39000003\r\n1,"Miller, Lisa",0\r\n'
             '0,"Joe ""Lee"" Ray",256\r\n,"Front\r\ndesk",4294967295\r\n,,\r\n')):
        assert oab.sheet(book, tags, len(sheet)) == ('made', sheet.encode())
        assert oab.sheet_length(book, tags) == ('made', len(sheet))
        assert oab.sheet(book, tags, len(sheet) - 1) == ('refused', 17, 0)
        for damaged in (book[:-1], books.mended(book[:8] + b'\0\0\0\0' + book[12:])):
            for choice in (tags, [], [0], tags + tags):
                assert oab.sheet(damaged, choice, 0) == oab.sheet_length(damaged, choice) == oab.judge(damaged)
    for tags, number in (([], 18), ([0x800F101F], 18), ([0x39FE001F] * 2, 18), ([0x39FE001F] * 17, 18), ([0], 15),
                         ([0x800F101F, 0], 15), ([0, 0], 15), ([0x39FE001F] * 16 + [0x6800001F], 15)):
        assert oab.sheet(small, tags, 0) == oab.sheet_length(small, tags) == ('refused', number, 0)
    for made in sheets.chosen():
        for tags, answer in made.asked:
            assert oab.sheet(made.book, tags, 1 << 20) == answer, (made.table, tags)


def check_sheets_by_csv():
    """Python's csv reads the fields back, and writes the same text. (It has no octets, so each is one character; one
    empty field alone it reads as no field, and writes in quotes.)"""
    rng = random.Random(7)
    tables = [made.table for made in sheets.chosen()] + [books.MAILROOM_TABLE]
    tables += [sheets.spiced(rng, books.some_table(rng)) for _ in range(300)]
    for table in tables:
        tags = sheets.some_choice(rng, table)
        if not tags:
            continue
        text = oab.make_sheet(books.octets_of(table), tags).decode('latin-1')
        want = [[field.decode('latin-1') for field in line] for line in sheets.cells(table, tags)]
        lines = csv.reader(io.StringIO(text, newline=''), strict=True)
        assert [line or [''] for line in lines] == want
        if all(line != [''] for line in want):
            made = io.StringIO(newline='')
            csv.writer(made).writerows(want)
            assert made.getvalue() == text


def check_sheets_differ():
    """No two different choices of values give the same text: all tables of few values, and of strings of marks."""
    strings = [None] + [bytes(s) + b'\0' for n in (1, 2) for s in itertools.product(b',"\r\na', repeat=n)]
    numbers = [None] + [oab.encode_number(n) for n in (0, 1, 10, 11, 100)]
    for columns, values in (([sheets.NAME], [strings]), ([sheets.NAME, sheets.NARROW], [strings, strings]),
                            ([sheets.NUMBER, sheets.TRUTH], [numbers, [None, b'\0', b'\1']])):
        rows = list(itertools.product(*values))
        lines = {oab.sheet_line([oab.sheet_field(tag, v) for tag, v in zip(columns, row)]) for row in rows}
        assert len(lines) == len(rows)
    small = list(itertools.product(strings[:12], repeat=1)) + list(itertools.product(strings[:12], repeat=2))
    texts = {b''.join(oab.sheet_line([oab.sheet_field(sheets.NAME, v)]) for v in rows) for rows in small}
    assert len(texts) == len(small)


def check_imports():
    """Every import whose book or refusal is known by how it was made; a book in any room from one octet short on."""
    for each in imports.on_purpose():
        got = oab.from_sheet(*each.given(), each.room)
        assert got == each.answer, (each.given(), each.room, each.answer, got)
        if got[0] == 'made' and each.room < 400:
            assert oab.judge(got[1])[0] == 'good'
            assert oab.from_sheet(*each.given(), len(got[1]) - 1) == ('refused', 17, 0)
            assert oab.from_sheet(*each.given(), len(got[1]) + 5) == got


def check_imports_back():
    """A book of columns that can be exported comes back with equal octets, but for unused flag bits, which are zero."""
    rng = random.Random(8)
    tables = [made.table for made in sheets.chosen()] + [books.MAILROOM_TABLE, books.DESK_TABLE]
    tables += [sheets.spiced(rng, books.some_table(rng)) for _ in range(300)]
    for header, address, header_row, rows in tables:
        tags = [tag for tag, _ in address]
        choice = sheets.some_choice(rng, (header, address, header_row, rows))
        if not choice:
            continue
        columns = [(tag, dict(address)[tag]) for tag in choice]
        picked = [[row[tags.index(tag)] for tag in choice] for row in rows]
        book = books.octets_of((header, columns, header_row, picked))
        record = oab.read_book(book).header_record
        got = oab.from_sheet(oab.make_sheet(book, choice), [flags for _, flags in columns], [tag for tag, _ in header],
                             [flags for _, flags in header], book[record.place:record.place + record.size], len(book))
        at, clean = 24, bytearray(book)
        for count in (len(header), len(columns)):
            for row in range(count):
                clean[at + 8 * row:at + 8 * row + 4] = bytes([book[at + 8 * row] & 3, 0, 0, 0])
            at += 8 * count + 4
        assert got == ('made', books.mended(clean))


def check_imports_by_csv():
    """What Python's csv reads in a text is what the book from it holds."""
    rng = random.Random(9)
    made = 0
    while made < 600:
        given = imports.some_import(rng)
        answer = oab.from_sheet(*given, 4000)
        if answer[0] != 'made':
            continue
        made += 1
        lines = csv.reader(io.StringIO(given[0].decode('latin-1'), newline=''), strict=True)
        found = [[field.encode('latin-1') for field in line] or [b''] for line in lines]
        table = oab.table_of(answer[1])
        assert found == sheets.cells(table, [tag for tag, _ in table[1]])


# Types, an alphabet, and how long the texts are that are tried behind the first line.
SMALL_ALPHABETS = (([0x3001001E], b'a,"\r\n\0', 5), ([0x30010003], b'012,"\r\n', 4), ([0x3001000B], b'012,"\r\n', 4),
                   ([0x3001001E, 0x30020003], b'01",\r\n', 5), ([0x30010003, 0x3002000B], b'01",\r\n', 5),
                   ([0x3001000B, 0x3002001E, 0x3003000B], b'1",\r\n', 6))


def strings_of(pieces, most):
    """All that the pieces make, one behind the other, in at most so many octets."""
    found, longest = {b''}, {b''}
    while longest:
        longest = {front + piece for front in longest for piece in pieces if len(front + piece) <= most}
        found |= longest
    return found


def every_field(tag, alphabet, most):
    """All spellings of all fields of a type, from the letters of an alphabet, in at most so many octets."""
    letters = {bytes([octet]) for octet in alphabet} - {b'\0'}
    if tag & 0xFFFF == 0x001E:
        plain = strings_of(letters - {b',', b'"', b'\r', b'\n'}, most)
        quoted = strings_of(letters - {b'"'} | {b'""'}, most - 2)
    elif tag & 0xFFFF == 0x0003:
        digits = strings_of({letter for letter in letters if letter.isdigit()}, most)
        plain = quoted = {text for text in digits if text in (b'', b'0') or text[:1] != b'0'}
    else:
        plain = quoted = {b'', b'0', b'1'}
    return {field for field in plain | {b'"' + text + b'"' for text in quoted} if len(field) <= most}


def every_text(tags, alphabet, most):
    """All texts of lines of at most so many octets."""
    lines = {b''}
    for i, tag in enumerate(tags):
        end, rest = (b'\r\n', 2) if i + 1 == len(tags) else (b',', len(tags) - i + 1)
        fields = every_field(tag, alphabet, most - i - rest)
        lines = {front + field + end for front in lines for field in fields if len(front + field) + rest <= most}
    return strings_of(lines, most)


def check_imports_all():
    """Every text of a few letters behind the first line: 20 at the first octet with which no sheet begins, else at the
    end, by the set of all beginnings of all short sheets. A quote, the commas and CR LF are enough to end any line."""
    for tags, alphabet, most in SMALL_ALPHABETS:
        texts = every_text(tags, alphabet, most + len(tags) + 2)
        begins = {text[:n] for text in texts for n in range(len(text) + 1)}
        head = b','.join(b'%08X' % tag for tag in tags) + b'\r\n'
        for n in range(most + 1):
            for letters in itertools.product(alphabet, repeat=n):
                text = bytes(letters)
                got = oab.from_sheet(head + text, [0] * len(tags), [], [], b'\x04\0\0\0', 400)
                if text in texts:
                    assert got[0] == 'made' or (text == b'' and got == ('refused', 16, 0))
                    continue
                place = next((p for p in range(n) if text[:p + 1] not in begins), n)
                assert got == ('refused', 20, len(head) + place), (head + text, got)


def check_imports_first_lines():
    """Every octet in every place of some first lines: what may stand there is known by the line's form."""
    digit = set(b'0123456789ABCDEF')
    one, quoted = [digit] * 8, [{0x22}] + [digit] * 8 + [{0x22}]
    for parts in ((one,), (quoted,), (one, quoted), (quoted, one), (one,) * 15, (one,) * 16, (quoted,) * 16):
        allowed, line = [], b''
        for i, part in enumerate(parts):
            sets = list(part)
            sets[0] = digit | {0x22}
            allowed += sets + [{0x2C, 0x0D} if i < 15 else {0x0D}]
            line += b''.join(bytes([min(octets - {0x22} or octets)]) for octets in part) + b','
        line = line[:-1] + b'\r\n'
        allowed += [{0x0A}]
        assert len(allowed) == len(line)
        for at, may in enumerate(allowed):
            assert oab.from_sheet(line[:at], [], [], [], b'', 0) == ('refused', 20, at)
            for octet in range(256):
                answer = oab.from_sheet(line[:at] + bytes([octet]), [], [], [], b'', 0)
                whole = at + 1 == len(line) and octet in may
                assert answer == (('refused', 15, 0) if whole else ('refused', 20, at + (octet in may)))


def check_imports_at_limits():
    """16 and 17 told by the call, the limits lowered for the while: 32 octets of tables, 4 of a header record, then 5
    and the string with its 00 for each line."""
    limit, records = oab.LIMIT, oab.MOST_RECORDS
    text = b'3001001F\r\nab\r\ncdef\r\n'                  # ends at 36, opened 41, given 44, opened 49, given 54
    try:
        for oab.LIMIT, room, answer in ((54, 54, 'made'), (54, 99, 'made'), (54, 53, 17), (53, 99, 16), (53, 53, 16),
                                        (53, 54, 16), (53, 52, 16), (53, 49, 16), (53, 48, 17), (49, 49, 16),
                                        (48, 48, 16), (48, 44, 16), (48, 43, 17), (43, 43, 16), (43, 41, 16),
                                        (43, 40, 17), (40, 40, 16), (40, 36, 16), (40, 35, 17), (35, 35, 16),
                                        (35, 32, 16), (35, 31, 17)):
            got = oab.from_sheet(text, [0], [], [], b'\x04\0\0\0', room)
            assert got[0] == 'made' if answer == 'made' else got == ('refused', answer, 0), (oab.LIMIT, room, got)
        oab.LIMIT, oab.MOST_RECORDS = limit, 2
        for lines, room, answer in ((2, 48, 'made'), (3, 53, 16), (3, 48, 16), (3, 47, 17), (4, 99, 16), (2, 47, 17)):
            got = oab.from_sheet(b'3001001F\r\n' + b'a\r\n' * lines, [2], [], [], b'\x04\0\0\0', room + 2)
            assert got[0] == 'made' if answer == 'made' else got == ('refused', answer, 0), (lines, room, got)
        # The third line's text is at fault, or its key is missing: 20 comes first, 16 for the opening before the key.
        text = b'3001001F\r\na\r\na\r\n'
        assert oab.from_sheet(text + b'\xFF\r\n', [2], [], [], b'\x04\0\0\0', 99) == ('refused', 20, 16)
        assert oab.from_sheet(text + b'\r\n', [2], [], [], b'\x04\0\0\0', 99) == ('refused', 16, 0)
    finally:
        oab.LIMIT, oab.MOST_RECORDS = limit, records


def check_writing():
    """The calls lay down the same octets as the book written at once."""
    rng = random.Random(5)
    stream = make.WritingStream()
    for _ in range(150):
        table = books.some_table(rng)
        book = oab.write_book(*table)
        assert stream.play(len(book) + 1, make.book_calls(table)) == ('done', len(book))
        assert stream.buffer == book + b'\xA5'
        before = sum(often for (_, answer), often in stream.answers.items() if answer == 17)
        stream.play(len(book) - 1, make.book_calls(table))                 # one octet short: some call has no room
        assert sum(often for (_, answer), often in stream.answers.items() if answer == 17) > before


def check_count_limit():
    """65,535 address records are taken, the next is 16; too many for a stream, so shown here."""
    whole = oab.write_book([], [], [], [[] for _ in range(65_535)])
    assert oab.judge(whole)[:5] == ('good', len(whole), [], [], 65_535)
    buffer = bytearray(whole + bytes(8))
    assert oab.insert_record(buffer, len(whole), 0, b'\x04\0\0\0') == ('refused', 16, 0)
    assert oab.insert_record(buffer, len(whole), 65_536, b'\x04\0\0\0') == ('refused', 15, 0)
    assert oab.insert_record(buffer, len(whole), 65_535, b'\x05\0\0\0') == ('refused', 18, 0)
    assert oab.delete_record(buffer, len(whole), 65_534) == ('done', len(whole) - 4)
    writing = oab.Writing()
    buffer = bytearray(len(whole))
    writing.begin([], [], [], [], buffer)
    for _ in range(65_536):
        assert writing.open()[0] == 'done' and writing.close()[0] == 'done'
    assert writing.open() == ('refused', 16, 0)                            # 16 before 17: there is no room either
    assert writing.finish() == ('done', len(whole)) and buffer == whole


def check_length_limit():
    """16 for the length, with the limit lowered for the while of the check."""
    limit, oab.LIMIT = oab.LIMIT, 78
    try:
        small = books.small_book()
        buffer = bytearray(small + bytes(20))
        assert oab.set_value(buffer, 78, 0, 0x3001001F, b'\x51\0') == ('refused', 16, 0)
        assert oab.set_value(bytearray(small), 78, 0, 0x3001001F, b'\x51\0') == ('refused', 16, 0)
        assert oab.insert_record(buffer, 78, 1, b'\x07\0\0\0\x80a\0') == ('refused', 16, 0)
        assert oab.judge(small + b'\0') == ('refused', 1, 0)
        stream = make.WritingStream()
        assert stream.play(98, make.book_calls(books.SMALL_TABLE)) == ('done', 78)
        oab.LIMIT = 77
        assert stream.play(98, make.book_calls(books.SMALL_TABLE)[:-2]) == ('refused', 16, 0)
        assert stream.play(77, make.book_calls(books.SMALL_TABLE)[:-2]) == ('refused', 16, 0)
    finally:
        oab.LIMIT = limit


if __name__ == '__main__':
    for check in (check_serial, check_document_cases, check_numbers, check_utf8, check_books, check_refusals,
                  check_reasons, check_reasons_and_lookups, check_indexes, check_old_limit, check_sheets,
                  check_sheets_by_csv, check_sheets_differ, check_imports, check_imports_back, check_imports_by_csv,
                  check_imports_all, check_imports_first_lines, check_imports_at_limits, check_writing,
                  check_count_limit, check_length_limit):
        check()
    print('the model holds')
