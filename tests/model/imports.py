"""Sheets that come back as books (request 106), each with its book or its refusal.

What: texts written by hand with the book that they are to give, texts with one octet at fault and its place, every
refusal in its order; then sheets of random tables in random spellings, and damage to them. Each answer on purpose is
what request 106 (document 02) and reading 27 ask for, known before the model is asked. Why here: the stored cases, the
calls for C programs and the command take them from one place.
"""

from . import books, oab, sheets
from .sheets import MAIL, NAME, NARROW, NUMBER, TRUTH

A = b'3001001F\r\n'            # the first line of one column of text
N = b'3003001E\r\n'            # of one narrow column
D = b'39000003\r\n'            # of one column of numbers
B = b'3A40000B\r\n'            # of one column of booleans
AD = b'3001001F,39000003\r\n'
DA = b'39000003,3001001F\r\n'


class Import:
    """A text and all that is handed over with it, and the answer as the model's `from_sheet` gives it."""

    def __init__(self, text, flags, answer, header=((), ()), record=b'\x04\0\0\0', room=None):
        self.text, self.flags, self.answer = text, list(flags), answer
        self.heads, self.header_flags = list(header[0]), list(header[1])
        self.record = record
        self.room = (len(answer[1]) if answer[0] == 'made' else 44) if room is None else room

    def given(self):
        """The arguments but the room."""
        return self.text, self.flags, self.heads, self.header_flags, self.record

    def in_room(self, room, answer=None):
        return Import(self.text, self.flags, answer or self.answer, (self.heads, self.header_flags), self.record, room)


def book_of(columns, *rows):
    """A book with an empty header record; a row's values are encodings, None is absent."""
    return oab.write_book([], columns, [], [list(row) for row in rows])


def made(text, columns, *rows):
    return Import(text, [flags for _, flags in columns], ('made', book_of(columns, *rows)))


def wrong(marked, columns=1, **more):
    """20 at the place of the one mark ^, which stands in no text: in front of the octet at fault, or at the end."""
    text = marked if isinstance(marked, bytes) else marked.encode('latin-1')
    assert text.count(b'^') == 1
    return Import(text.replace(b'^', b''), [0] * columns, ('refused', 20, text.index(b'^')), **more)


def refused(number, text, flags, place=0, **more):
    return Import(text, flags, ('refused', number, place), **more)


# ---------------------------------------------------------------- taken

def by_octets():
    """Whole books written out: two columns, key and index, an absent value; a header record with a value. The serial is
    worked out by the model's own check."""
    yield Import(AD + b'Ann,128\r\n,0\r\n', [1, 0], ('made', books.mended(bytes.fromhex(
        '20000000 00000000 02000000 1C000000 00000000 02000000 1F000130 01000000 03000039 00000000'
        '04000000 0B000000 C0 416E6E00 8180 06000000 40 00'))))
    yield Import(b'39FE001F\r\nb@c\r\n', [2], ('made', books.mended(bytes.fromhex(
        '20000000 00000000 01000000 1C000000 01000000 1F000068 00000000 01000000 1F00FE39 02000000'
        '07000000 80 4100 09000000 80 62406300'))), ([0x6800001F], [0]), bytes.fromhex('07000000804100'))
    yield Import(B + b'1\r\n', [0xFFFFFFFD], ('made', books.mended(bytes.fromhex(
        '20000000 00000000 01000000 14000000 00000000 01000000 0B00403A 01000000 04000000 06000000 80 01'))))


def exported():
    """Every sheet of the export's own cases, with just those columns in that order."""
    for each in sheets.chosen():
        header, address, header_row, rows = each.table
        tags = [tag for tag, _ in address]
        for choice, answer in each.asked:
            if answer[0] != 'made':
                continue
            columns = [(tag, dict(address)[tag]) for tag in choice]
            picked = [[row[tags.index(tag)] for tag in choice] for row in rows]
            book = oab.write_book(header, columns, header_row, picked)
            yield Import(answer[1], [flags for _, flags in columns], ('made', book),
                         ([tag for tag, _ in header], [flags for _, flags in header]), oab.record_octets(header_row))


def spellings():
    """Quotes that weren't needed, empty fields in quotes, tags in quotes; every number and boolean in quotes, too."""
    absent, name = [None], [b'a\0']
    for text, tag, row in (
            (A + b'"a"\r\n', NAME, name), (A + b'""\r\n', NAME, absent), (A + b'\r\n', NAME, absent),
            (b'"3001001F"\r\na\r\n', NAME, name), (b'"3001001F"\r\n""\r\n', NAME, absent),
            (D + b'"5"\r\n', NUMBER, [b'\5']), (D + b'""\r\n', NUMBER, absent), (D + b'"0"\r\n', NUMBER, [b'\0']),
            (D + b'\r\n', NUMBER, absent), (B + b'"0"\r\n', TRUTH, [b'\0']), (B + b'"1"\r\n', TRUTH, [b'\1']),
            (B + b'""\r\n', TRUTH, absent), (B + b'\r\n', TRUTH, absent), (N + b'"\xFF"\r\n', NARROW, [b'\xFF\0']),
            (N + b'""\r\n', NARROW, absent), (A + b'" "\r\n', NAME, [b' \0']), (A + b'"a,b"\r\n', NAME, [b'a,b\0']),
            (A + b'""""\r\n', NAME, [b'"\0']), (A + b'""""""\r\n', NAME, [b'""\0']), (A + b'"\r"\r\n', NAME, [b'\r\0']),
            (A + b'"\n"\r\n', NAME, [b'\n\0']), (A + b'"\r\n"\r\n', NAME, [b'\r\n\0']),
            (A + b'"\n\r"\r\n', NAME, [b'\n\r\0']), (A + b'"a""b"\r\n', NAME, [b'a"b\0']),
            (A + b'"""a"\r\n', NAME, [b'"a\0']), (A + b'"a"""\r\n', NAME, [b'a"\0']),
            (A + b'"\r\n\r\n"\r\n', NAME, [b'\r\n\r\n\0']), (A + b'"0"\r\n', NAME, [b'0\0']),
            (A + b'007\r\n', NAME, [b'007\0']), (A + b'\xEF\xBB\xBFa\r\n', NAME, [b'\xEF\xBB\xBFa\0'])):
        yield made(text, [(tag, 0)], row)
    for number, field in sheets.NUMBERS:
        yield made(D + b'"' + field + b'"\r\n', [(NUMBER, 0)], [oab.encode_number(number)])
    for text, field in sheets.strings(NARROW):
        if field[:1] != b'"':
            yield made(N + b'"' + field + b'"\r\n', [(NARROW, 0)], [text + b'\0'])
    columns = [(NAME, 0), (NUMBER, 0), (TRUTH, 0)]
    for text in (b'a,5,1', b'"a",5,1', b'a,"5",1', b'a,5,"1"', b'"a","5","1"'):
        for head in (b'3001001F,39000003,3A40000B', b'"3001001F",39000003,"3A40000B"',
                     b'"3001001F","39000003","3A40000B"'):
            yield made(head + b'\r\n' + text + b'\r\n', columns, [b'a\0', b'\5', b'\1'])
    for text in (b',,', b'"",,', b',"",', b',,""', b'"","",""'):
        yield made(b'3001001F,39000003,3A40000B\r\n' + text + b'\r\n', columns, [None] * 3)


def lines():
    """Many lines, empty ones among them; lines inside quotes; sixteen columns; unused flag bits."""
    yield made(A + b'\r\n\r\n\r\n', [(NAME, 0)], [None], [None], [None])
    yield made(A + b'a\r\n\r\nb\r\n', [(NAME, 1)], [b'a\0'], [None], [b'b\0'])
    yield made(A + b'"a\r\nb"\r\n"\r\n"\r\nc\r\n', [(NAME, 2)], [b'a\r\nb\0'], [b'\r\n\0'], [b'c\0'])
    yield made(AD + b'a,1\r\n,\r\nb,\r\n,2\r\n', [(NAME, 0), (NUMBER, 0)], [b'a\0', b'\1'], [None, None],
               [b'b\0', None], [None, b'\2'])
    tags = [(0x4000 + i) << 16 | (0x1F, 0x1E, 3, 0xB)[i % 4] for i in range(16)]
    head = b','.join(b'%08X' % tag for tag in tags) + b'\r\n'
    line = b','.join((b'""""', b'"\xFF"', b'10000', b'"1"') * 4) + b'\r\n'
    row = [b'"\0', b'\xFF\0', b'\x82\x10\x27', b'\1'] * 4
    yield made(head + line + b',' * 15 + b'\r\n' + line, [(tag, 2 * (tag >> 16 == 0x5000)) for tag in tags], row,
               [None] * 16, row)
    for count in (7, 8, 9, 15):
        columns = [(tag, 1) for tag in tags[:count]]
        yield made(b','.join(b'%08X' % tag for tag, _ in columns) + b'\r\n' + b',' * (count - 1) + b'\r\n', columns,
                   [None] * count)
    for bits in (0, 1, 3, 4, 0x80000000, 0xFFFFFFFC, 0xFFFFFFFF):
        yield Import(A + b'a\r\n', [bits], ('made', book_of([(NAME, bits & 3)], [b'a\0'])))
        yield Import(A + b'a\r\n', [bits], ('made', oab.write_book([(NAME, bits & 3)], [(NAME, bits & 3)], [None],
                                                                  [[b'a\0']])), ([NAME], [bits]), b'\5\0\0\0\0')


def header_records():
    """Header tables of all ten types, each value present and absent, keys that don't bind there, lists by elements."""
    tags = [0x68000000 | kind for kind in oab.TYPES]
    values = [b'\x81\x80', b'\1', b'/o=a\0', b'\xFF\0', b'b\0', b'\x03\0\1\2', b'\x02\x05\x82\0\1', b'\x02a\0\xFF\0',
              b'\x03a\0b\0c\0', b'\x02\x01\0\x02ab']
    rows = [values, [None] * 10, values[:5] + [None] * 5, [None] * 5 + values[5:]]
    rows += [[value if i == k else None for i, value in enumerate(values)] for k in range(10)]
    for row in rows:
        for bits in (0, 3):
            columns = [(tag, bits) for tag in tags]
            yield Import(D + b'7\r\n', [2], ('made', oab.write_book(columns, [(NUMBER, 2)], row, [[b'\7']])),
                         (tags, [bits] * 10), oab.record_octets(row))
    many = [(0x4000 + i) << 16 | 0xB for i in range(128)]
    for count in (1, 7, 8, 9, 127, 128):
        row = [b'\1' if i % 3 else None for i in range(count)]
        yield Import(D + b'7\r\n', [0], ('made', oab.write_book([(tag, 0) for tag in many[:count]], [(NUMBER, 0)], row,
                                                               [[b'\7']])), (many[:count], [0] * count),
                     oab.record_octets(row))


def taken():
    for part in (by_octets, exported, spellings, lines, header_records):
        yield from part()


# ---------------------------------------------------------------- 20

def first_lines():
    """What no first line could have there, or the text's end."""
    for text in ('^', '3^', '3001001^', '3001001F^', '3001001F\r^', '"^', '"3^', '"3001001F^', '"3001001F"^',
                 '"3001001F"\r^', '3001001F,^', '3001001F,3^', '3001001F,"^', '3001001F,39000003^',
                 '3001001F,39000003\r^', '"3001001F","39000003"^',
                 # an octet that can't stand there
                 '^\r\n', '^\n', '^,3001001F\r\n', '^ 3001001F\r\n', '^G001001F\r\n', '^\xEF\xBB\xBF3001001F\r\n',
                 '^\0', 'D^isplayName\r\n', '"^"\r\n', '"^\r\n', '"^,', '"^""\r\n',
                 '3001001^f\r\na\r\n', '3^a40000B\r\n', '"3001001^f"\r\n', '3001001F,3900000^b\r\n', '0^x3001001F\r\n',
                 '3001001^\r\n', '3001001^,39000003\r\n', '3001001F^0\r\n', '3001001F^ \r\n', '3001001F^;39000003\r\n',
                 '3001001F^\na\r\n', '3001001F\r^\r\n', '3001001F\r^a\r\n', '3001001F^"\r\n', '3001^"001F"\r\n',
                 '"3001001F^\r\n', '"3001001F^,39000003"\r\n', '"3001001F^0"\r\n', '"3001001^"\r\n', '"3001001F"^"\r\n',
                 '"3001001F"^a\r\n', '"3001001F"^ ,', '"3001001F"^\n', '3001001F,^\r\n',
                 '3001001F,^,39000003\r\n', '3001001F,^ 39000003\r\n',
                 '3001001F,39000003,^\r\n', '3001001F^\t', '3001001^\x80\r\n', '3001001F^\0\r\n',
                 '^sep=,', '3001001^@\r\n', '3001001^/\r\n', '3001001^:\r\n', '3001001^`\r\n', '30010^\xB01F'):
        yield wrong(text)
    tags = [f'{0x4000 + i:04X}001F' for i in range(17)]
    for quote in ('', '"'):
        every = [quote + one + quote for one in tags]
        yield wrong(','.join(every[:16]) + '^,' + every[16] + '\r\n', 17)
        yield wrong(','.join(every[:16]) + '^,', 16)
        yield wrong(','.join(every[:16]) + '^', 16)
        yield wrong(','.join(every[:16]) + '\r^', 16)
        yield wrong(','.join(every[:15]) + ',^\r\n', 15)
        yield wrong(','.join(['3001001F'] * 16) + '^,3001001F', 16)


def later_lines():
    """What no line could have there: octets of each type, too few and too many fields, the last CR LF missing."""
    a, n, d, b = A.decode(), N.decode(), D.decode(), B.decode()
    for text in (
            # the text's end
            'a^', 'a\r^', '\r^', '"^', '"a^', '"a"^', '"a"\r^', '"a""^', '""^', 'a\r\nb^', 'a\r\n"b\r\n^', '"\r\n^',
            # text behind a closing quote, a quote in a plain field
            '"a"^b\r\n', '"a"^ \r\n', '""^a\r\n', '"a"^\0', '"a"^\n', 'a^"b"\r\n', 'a^"\r\n', ' ^"a"\r\n', 'a^""\r\n',
            '"a""b"^c\r\n', '""""^a\r\n',
            # a lone CR, a lone LF, a zero octet
            'a^\n', '^\n', 'a\r^a\r\n', '\r^\r\n', 'a\r^\r\n', '\r\n^\n', 'a\r\n^\n', 'a\r\nb^\nc\r\n', '"a"\r^"\r\n',
            '^\0\r\n', 'a^\0b\r\n', '"^\0"\r\n', '"a^\0"\r\n', '"a""^\0"\r\n', 'a\r^\0',
            # too many fields
            'a^,\r\n', '^,\r\n', 'a^,b\r\n', '""^,\r\n', '"a"^,b\r\n', 'a\r\nb^,c\r\n'):
        yield wrong(a + text)
        yield wrong(n + text)
    for text in ('1^', '12^', '1\r^', '^-1\r\n', '^+1\r\n', '^ 1\r\n', '1^ \r\n', '1^.0\r\n', '1^,\r\n', '^a\r\n',
                 '^\n', '0^1\r\n', '0^0\r\n', '0^x10\r\n', '1^e3\r\n', '1^\n', '1^\0\r\n', '^\0', '1^"\r\n', '"^',
                 '"1^', '"1"^', '"1"\r^', '"^ 1"\r\n', '"1^ "\r\n', '"0^1"\r\n', '"1"^"\r\n', '""^"\r\n', '"1"^1\r\n',
                 '""^1\r\n', '"1^\r\n', '"1^,', '"^,"\r\n', '"^\r\n"\r\n', '"1^\0', '1\r^1', '^\xB2\r\n', '^/\r\n',
                 '^:\r\n',
                 '0\r\n0^0', '0^5\r\n', '^,'):
        yield wrong(d + text)
    for text in ('1^', '0\r^', '^2\r\n', '^-\r\n', '0^1\r\n', '1^1\r\n', '1^0\r\n', '0^0\r\n', '^yes\r\n', '^TRUE\r\n',
                 '^\n', '^ 1\r\n', '1^ \r\n', '1^,\r\n', '1^"\r\n', '"^', '"1^', '"^2"\r\n', '"1^1"\r\n', '"0^0"\r\n',
                 '"1"^"\r\n', '""^"\r\n', '"1"^1\r\n', '""^1\r\n', '"1^\r\n', '^\0', '"^\0"', '1\r^\r', '^/\r\n'):
        yield wrong(b + text)
    for text in ('a^\r\n', '^\r\n', '"a"^\r\n', '""^\r\n', 'a,1^,\r\n', ',^,\r\n', ',1^,1\r\n', 'a,^b\r\n', 'a,0^1\r\n',
                 'a^', 'a,^', 'a,1^', ',\r^', 'a,1\r\nb^', 'a,1\r\n^\r\n', 'a,1\r\nb^\r\n',
                 'a,1\r\n,^,', '"a,1\r\n^', 'a,"^\r\n', 'a,"1"^"', 'a,1\r\n,\r\nb,2\r\n,3^,'):
        yield wrong(AD.decode() + text, 2)


LARGE = (b'4294967296', b'4294967297', b'4294967300', b'5000000000', b'9999999999', b'10000000000', b'42949672950',
         b'18446744073709551616', b'1' + b'0' * 40)


def large_numbers():
    """4,294,967,296 and more: at the field's start, its quote where it has one, once the field has ended."""
    for digits in LARGE:
        for quote in (b'', b'"'):
            field = quote + digits + quote
            yield wrong(D + b'^' + field + b'\r\n')
            yield wrong(D + b'^' + field + b'\r')                # the CR has been met
            yield wrong(D + b'^' + field + b'\ra')
            yield wrong(D + field + b'^')                        # it hasn't: the text's end
            yield wrong(D + quote + digits + b'^')
            yield wrong(D + field + b'^,\r\n')                   # a comma that can't stand there ends nothing
            yield wrong(D + field + b'^\n')
            yield wrong(D + quote + digits + b'^a' + quote + b'\r\n')
            yield wrong(DA + b'^' + field + b',a\r\n', 2)
            yield wrong(DA + b'^' + field + b',', 2)             # the comma has been met
            yield wrong(DA + b'^' + field + b',\0', 2)
            yield wrong(DA + field + b'^\r\n', 2)                # a field too few: the CR can't stand there
            yield wrong(AD + b'a,1\r\n"b",^' + field + b'\r\n', 2)
            yield wrong(AD + b'a,^' + field + b'\r\nb"', 2)


def wrong_texts():
    """No UTF-8 in a 001F column: at the field's start, once it has ended; the same octets are taken in 001E."""
    for octets in (b'\x80', b'\xFF', b'a\xC3', b'\xC0\x80', b'\xED\xA0\x80', b'\xF4\x90\x80\x80', b'\xE2\x82', b'\xC3(',
                   b'\xF0\x9F\x98', 'é'.encode() + b'\xA9'):
        for field in (octets, b'"' + octets + b'"'):
            yield wrong(A + b'^' + field + b'\r\n')
            yield wrong(A + b'^' + field + b'\r')
            yield wrong(A + b'^' + field + b'\r\r')
            yield wrong(A + field + b'^')
            yield wrong(A + field + b'^,\r\n')
            yield wrong(A + field + b'^\n')
            yield wrong(AD + b'^' + field + b',1\r\n', 2)
            yield wrong(AD + b'^' + field + b',', 2)
            yield wrong(AD + b'^' + field + b',x', 2)
            yield wrong(DA + b'1,^' + field + b'\r\n', 2)
            yield wrong(DA + b'4294967295,^' + field + b'\r\n4294967296,\r\n', 2)
            yield made(N + field + b'\r\n', [(NARROW, 0)], [octets + b'\0'])
        yield wrong(A + octets + b'^\0\r\n')
        yield wrong(A + octets + b'^"\r\n')
    # A character cut by a mark that ends the field, and one that a doubled quote parts.
    yield wrong(b'3001001F,3002001F\r\n^\xC3,\xA9\r\n', 2)
    yield wrong(A + b'^"\xC3""\xA9"\r\n')
    yield wrong(A + b'^"\xC3\r\n"\r\n')


def first_met():
    """Two faults: the one that is met first, from left to right."""
    yield wrong(D + b'^4294967296\r\n4294967297\r\n')
    yield wrong(D + b'^4294967296\r\nx\r\n')
    yield wrong(D + b'^x\r\n4294967296\r\n')
    yield wrong(DA + b'^4294967296,\xFF\r\n', 2)
    yield wrong(AD + b'^\xFF,4294967296\r\n', 2)
    yield wrong(AD + b'^"\xFF",x\r\n', 2)
    yield wrong(AD + b'\xFF^\r\n', 2)
    yield wrong(AD + b'a,4294967296^,\r\n', 2)
    yield wrong(AD + b'a,^4294967296\r', 2)
    yield wrong(A + b'"\xFF^\0"\r\n')
    yield wrong(A + b'"\xFF"^a\r\n')
    yield wrong(A + b'^\xFF\r\n\0')


def faults():
    for part in (first_lines, later_lines, large_numbers, wrong_texts, first_met):
        yield from part()


# ---------------------------------------------------------------- the others, and which comes first

def numbers_that_differ():
    """15: flags and tags differ in number; behind the first line's 20, before everything else."""
    for text, tags in ((A + b'a\r\n', 1), (AD + b'a,1\r\n', 2), (A, 1), (A + b'\0', 1), (b'3001000D\r\n', 1),
                       (b'30010005,30010005\r\n', 2), (A + b'\xFF\r\n', 1), (D + b'4294967296\r\n', 1)):
        for flags in (0, 1, 2, 3, 16, 17, 128, 192):
            if flags != tags:
                yield refused(15, text, [0] * flags, room=0)
                yield refused(15, text, [3] * flags, header=([0], [0, 0]), record=b'')
    for flags in (0, 2, 3):
        yield wrong(b'3001001^f\r\n', flags, header=([0], []), record=b'', room=0)
        yield wrong(b'^', flags, room=0)


def types_not_exported():
    """18: any tag of another type; behind 15, before 20 for the lines. 000D is none that is exported."""
    other = [kind for kind in oab.TYPES if kind not in oab.EXPORTED] + [0, 1, 2, 4, 5, 0xC, 0x20, 0x101, 0x1F00, 0xFFFF]
    for kind in other:
        tag = b'3001%04X' % kind
        for head, count in ((tag, 1), (b'"' + tag + b'"', 1), (b'3002001F,' + tag, 2), (tag + b',3002001F', 2)):
            yield refused(18, head + b'\r\n' + b',' * (count - 1) + b'\r\n', [0] * count, room=0)
        yield refused(18, tag + b'\r\n\0', [0])
        yield refused(18, tag + b',' + tag + b'\r\n', [0, 0], header=([0], []), record=b'')
        yield refused(15, tag + b'\r\n\r\n', [])
        yield wrong(tag + b'^\n', 1)
    sixteen = b','.join(b'%04X001F' % (0x4000 + i) for i in range(15))
    yield refused(18, sixteen + b',30010102\r\n', [0] * 16)


def tables():
    """begin's own: 15 for the header table, 5, 6, 7 with the row's number, the address table's 7 from 128 on, 17; all
    behind every 20."""
    text, twice = A + b'a\r\n', b'3001001F,3001001F\r\na,b\r\n'
    many = [(0x4000 + i) << 16 | 3 for i in range(192)]
    for flags in ([], [0, 0], [0] * 192):
        yield refused(15, text, [0], header=([NAME], flags), room=0)
        yield refused(15, twice, [0, 0], header=([NAME], flags))
        yield wrong(A + b'a^', header=([NAME], flags))
    for count in (129, 130, 192):
        yield refused(5, text, [0], 128, header=(many[:count], [0] * count), room=0)
        yield refused(5, twice, [0, 0], 128, header=(many[:1] * count, [0] * count), record=b'')
        yield wrong(A + b'^\0', header=(many[:count], [0] * count))
    for row in (0, 1, 2, 127):
        for tag, number in ((0x30010005, 6), (0, 6), (many[0], 7)):
            if number == 7 and row == 0:
                continue
            heads = many[:row] + [tag] + many[row + 1:128]
            yield refused(number, text, [0], row, header=(heads, [0] * len(heads)), room=0)
            yield refused(number, twice, [0, 0], row, header=(heads, [0] * len(heads)), record=b'')
    yield refused(6, text, [0], 1, header=([NAME, 0, NAME], [0] * 3))
    yield refused(7, text, [0], 1, header=([NAME, NAME, 0], [0] * 3))
    for head, place in ((b'3001001F,3001001F', 129), (b'"3001001F",3001001F', 129),
                        (b'3001001F,39000003,3001001F', 130), (b'39000003,3001001F,3001001F', 130),
                        (b','.join(b'%04X001F' % (0x4000 + i % 15) for i in range(16)), 143),
                        (b','.join([b'3001001F'] * 16), 129)):
        count = head.count(b',') + 1
        yield refused(7, head + b'\r\n' + b',' * (count - 1) + b'\r\n', [0] * count, place, room=0)
        yield refused(7, head + b'\r\n', [2] * count, place, record=b'')
        yield wrong(head + b'\r\n' + b',' * (count - 1) + b'^\0', count)
    # Equal upper halves are two columns; a tag may be in both tables.
    yield made(b'3001001F,3001001E\r\na,\xFF\r\n', [(NAME, 0), (0x3001001E, 0)], [b'a\0', b'\xFF\0'])
    yield Import(text, [2], ('made', oab.write_book([(NAME, 2)], [(NAME, 2)], [None], [[b'a\0']])), ([NAME], [2]),
                 b'\5\0\0\0\0')


BAD_RECORDS = (
    # by the header table of one text column: too short, a size that isn't its length, octets behind it
    b'', b'\x04', b'\x05\0\0', b'\x04\0\0\0', b'\x04\0\0\0\0', b'\x05\0\0\0', b'\x06\0\0\0\0', b'\x05\0\0\0\0\0',
    b'\x05\0\0\x01\0', b'\xFF\xFF\xFF\xFF\0', b'\x07\0\0\0\x80a\0\0', b'\x07\0\0\0\x80a', b'\x08\0\0\0\x80a\0',
    # spare bits, a value that breaks its form or passes the end, octets left
    b'\x05\0\0\0\x01', b'\x05\0\0\0\x40', b'\x07\0\0\0\xC0a\0', b'\x05\0\0\0\x80', b'\x06\0\0\0\x80\0',
    b'\x06\0\0\0\x80a', b'\x07\0\0\0\x80\xFF\0', b'\x07\0\0\0\x80ab', b'\x08\0\0\0\x80a\0b', b'\x08\0\0\0\x80a\0\0',
    b'\x06\0\0\0\0a')


def bad_header_records():
    """18 behind begin's, its 17 among them, and before the record's opening."""
    for record in BAD_RECORDS:
        given = Import(MAIL_LINE, [2], ('refused', 18, 0), ([0x6800001F], [3]), record)
        for room in (40, 41, 44, 45, 100):               # the tables take 40, the record's opening five more
            yield given.in_room(room)
        for room in (0, 39):
            yield given.in_room(room, ('refused', 17, 0))
        yield refused(18, A, [0], header=([0x6800001F], [0]), record=record)              # no lines: not yet 16
        yield refused(18, A + b'\r\n', [2], header=([0x6800001F], [0]), record=record)    # nor a missing key
        yield refused(7, b'3001001F,3001001F\r\n', [0, 0], 129, header=([0x6800001F], [0]), record=record)
    for record in (b'', b'\x05\0\0\0\0', b'\x04\0\0', b'\x04\0\0\0\0', b'\x03\0\0\0', b'\x05\0\0\0'):
        yield refused(18, A + b'a\r\n', [0], record=record)                               # a table of no columns
    lists = [0x68051003, 0x6806101F, 0x68071102, 0x68080102]
    good = [b'\x01\5', b'\x01a\0', b'\x01\x01b', b'\x01c']
    for i, bad in ((0, b'\0'), (0, b'\x02\5'), (1, b'\0'), (1, b'\x01\xFF\0'), (2, b'\x01\0'), (3, b'\0'),
                   (3, b'\x09c')):
        row = good[:i] + [bad] + good[i + 1:]
        yield refused(18, A + b'a\r\n', [0], header=(lists, [0] * 4), record=oab.record_octets(row),
                      room=80)


MAIL_LINE = b'39FE001F\r\nb@c\r\n'


def rules_and_room():
    """16 and 17 call by call: a missing key at a line's close, no line at the finish; each against a room that is too
    short before it or behind it."""
    # Tables 32, header record 4, then for each line its opening of 5 and its value.
    for lines, rooms in ((b'', ((0, 17), (31, 17), (32, 17), (35, 17), (36, 16), (37, 16), (99, 16))),
                         (b'\r\n', ((0, 17), (36, 17), (40, 17), (41, 16), (42, 16), (99, 16))),
                         (b'a\r\n\r\nb\r\n', ((0, 17), (41, 17), (42, 17), (43, 17), (47, 17), (48, 16), (90, 16))),
                         (b'\r\n\r\nb\r\n', ((40, 17), (41, 16), (46, 16))),
                         (b'\r\nabcdefghij\r\n', ((40, 17), (41, 16), (50, 16)))):
        for room, number in rooms:
            yield refused(number, A + lines, [2], room=room)
    for flags in (0, 1):                                 # no key: an absent value is no fault
        yield made(A + b'\r\n', [(NAME, flags)], [None])
    two = [(NAME, 0), (NUMBER, 2)]
    yield made(AD + b',1\r\n', two, [None, b'\1'])
    for room, number in ((40, 17), (44, 17), (49, 17), (50, 17), (51, 16), (80, 16)):
        yield refused(number, AD + b'a,\r\n', [0, 2], room=room)
    # Every room for a book with a list in its header record.
    row = [b'\x02x\0yz\0']
    whole = Import(AD + b'a,300\r\n"",\r\n', [0, 1], ('made', oab.write_book(
        [(0x800F101F, 0)], [(NAME, 0), (NUMBER, 1)], row, [[b'a\0', b'\x82\x2C\1'], [None, None]])),
        ([0x800F101F], [0]), oab.record_octets(row))
    for room in range(whole.room + 4):
        yield whole.in_room(room, None if room >= whole.room else ('refused', 17, 0))
    # 15, 18, 20, 5, 6, 7 whatever the room is.
    yield wrong(A + b'a^', room=0)
    yield refused(15, A, [], room=0)
    yield refused(18, b'3001000D\r\n', [0], room=0)


def refusals():
    for part in (numbers_that_differ, types_not_exported, tables, bad_header_records, rules_and_room):
        yield from part()


def on_purpose():
    """Every import of the above."""
    for part in (taken, faults, refusals):
        yield from part()


# ---------------------------------------------------------------- at random

def some_field(rng, tag, value):
    """A value's field, at times in quotes that aren't needed."""
    field = oab.sheet_field(tag, value)
    return b'"' + field + b'"' if field[:1] != b'"' and rng.random() < 0.25 else field


def some_tag_field(rng, tag):
    return (b'"%08X"' if rng.random() < 0.15 else b'%08X') % tag


def some_columns(rng, most):
    """Columns that can be exported; now and then one twice."""
    count = rng.choice((1, 1, 2, 2, 3, 4, most))
    tags = [(0x3000 + rng.randrange(60)) << 16 | rng.choice(oab.EXPORTED) for _ in range(count)]
    if rng.random() < 0.95:
        tags = list(dict.fromkeys(tags))
    return [(tag, rng.choice((0, 0, 0, 1, 2, 3, 0xFFFFFFFC))) for tag in tags]


def some_import(rng, most_records=3, most=16):
    """The arguments but the room: a random table's sheet in a random spelling, with its own flags and header record."""
    columns = some_columns(rng, most)
    header = books.some_columns(rng, rng.choice((0, 0, 0, 1, 2, 3)), False)
    table = (header, columns, books.some_row(rng, header, False, most=3),
             [books.some_row(rng, columns, rng.random() < 0.95, most=3)
              for _ in range(rng.randint(1, most_records) if rng.random() < 0.96 else 0)])
    if rng.random() < 0.6:
        table = sheets.spiced(rng, table, 4)
    tags = [tag for tag, _ in columns]
    text = oab.sheet_line([some_tag_field(rng, tag) for tag in tags])
    for row in table[3]:
        text += oab.sheet_line([some_field(rng, tag, value) for tag, value in zip(tags, row)])
    return (text, [flags for _, flags in columns], [tag for tag, _ in header], [flags for _, flags in header],
            oab.record_octets(table[2]))


ALPHABET = [b'"', b'"', b',', b',', b'\r', b'\n', b'\r\n', b'0', b'1', b'7', b'9', b'A', b'F', b'f', b'a', b' ', b'\0',
            b'\x7F', b'\x80', b'\xC3', b'\xFF', b'""', 'é'.encode(), b'4294967296']


def damaged(rng, text, start=0):
    """Octets changed, taken out, put in or doubled, and the end cut off, behind `start` octets that stay."""
    octets = bytearray(text)
    for _ in range(rng.choice((1, 1, 1, 2, 3))):
        at = rng.randint(min(start, len(octets)), len(octets))
        what = rng.randrange(6)
        if what == 0:
            octets[at:at + 1] = rng.choice(ALPHABET)
        elif what == 1:
            del octets[at:at + 1]
        elif what in (2, 3):
            octets[at:at] = rng.choice(ALPHABET)
        elif what == 4:
            octets[at:at] = octets[at:at + rng.randrange(6)]
        elif rng.random() < 0.5:
            del octets[at:]
    return bytes(octets)


def some_damage(rng, given):
    """One of the arguments spoilt: the text, mostly behind its first line; the flags, the header table, the record."""
    text, flags, heads, header_flags, record = given
    what = rng.randrange(10)
    if what < 6:
        text = damaged(rng, text, 0 if what == 0 else len(text.partition(b'\r\n')[0]) + 2)
    elif what == 6:
        flags = flags[1:] if rng.random() < 0.5 else flags + [0]
    elif what == 7:
        heads = heads + [rng.choice(heads + [0, 0x68000005, 0x68000003])]
        header_flags = header_flags + [0] * rng.choice((0, 1, 1))
    elif what == 8:
        record = books.random_damage(record, rng)
    else:
        flags = [rng.choice((bits, 2, 0)) for bits in flags]
    return text, flags, heads, header_flags, record
