"""Books made to be exported (request 101), each choice of columns with its sheet or its refusal.

What: tables of strings, numbers and booleans whose fields are written here by hand, choices that are refused, and
random tables and choices. Each answer on purpose is what request 101 (document 02), RFC 4180 and reading 23 ask for,
known before the model is asked. Why here: the stored cases, the calls for C programs and the command take them from one
place.
"""

import itertools

from . import books, oab

NAME, MAIL, NARROW = 0x3001001F, 0x39FE001F, 0x3003001E
NUMBER, TRUTH = 0x39000003, 0x3A40000B


class Chosen:
    """A book and what is exported of it: (tags, answer), the answer as the model's `sheet` gives it where there is
    room."""

    def __init__(self, header, address, header_row, rows):
        self.table = (header, address, header_row, rows)
        self.book = books.octets_of(self.table)
        self.asked = []

    def gives(self, tags, *lines):
        """The lines without their CR LF."""
        self.asked.append((list(tags), ('made', b''.join(line + b'\r\n' for line in lines))))
        return self

    def unknown(self, *tags):
        self.asked.append((list(tags), ('refused', 15, 0)))
        return self

    def unfit(self, *tags):
        self.asked.append((list(tags), ('refused', 18, 0)))
        return self


def plain(tags):
    """Columns without flags."""
    return [(tag, 0) for tag in tags]


# ---------------------------------------------------------------- fields

# Strings that stand as they are; those of UTF-8 may stand in either type.
AS_THEY_ARE = [
    b'a', b'Ann', b' ', b' a', b'a ', b'  two  blanks  ', b'\t', b'\ta\t', b"'", b'`', b'\\', b';', b':', b'=1+2',
    b'-1', b'+1', b'@a', b'0', b'00', b'1', b'#', b'!', b'+', b'-', b'.', b'a;b', b'\x01', b'\x08', b'\x0B', b'\x0C',
    b'\x0E', b'\x1A', b'\x1B[0m', b'\x1F', b'\x7F', 'é'.encode(), 'Ångström'.encode(), '€'.encode(),
    '漢字'.encode(), '😀'.encode(), '\uFEFFa'.encode(), '\u2028'.encode(), '\x85'.encode(), '\uFFFE'.encode(),
    '，“”＂'.encode(), 'Ĭ¢'.encode(), '\u010A\u010D'.encode(), '\U0010FFFF'.encode(),
]
# Strings that are quoted, and their fields.
QUOTED = [
    (b',', b'","'), (b'a,b', b'"a,b"'), (b',a', b'",a"'), (b'a,', b'"a,"'), (b',,', b'",,"'),
    (b'"', b'""""'), (b'""', b'""""""'), (b'"""', b'""""""""'), (b'"a"', b'"""a"""'), (b'a"b', b'"a""b"'),
    (b'"a', b'"""a"'), (b'a"', b'"a"""'), (b'","', b'""","""'), (b'a""b', b'"a""""b"'),
    (b'\r', b'"\r"'), (b'\n', b'"\n"'), (b'\r\n', b'"\r\n"'), (b'\n\r', b'"\n\r"'), (b'a\nb', b'"a\nb"'),
    (b'a\rb', b'"a\rb"'), (b'\na', b'"\na"'), (b'a\r', b'"a\r"'), (b'a\r\nb', b'"a\r\nb"'),
    (b'Miller, Lisa', b'"Miller, Lisa"'), (b'Lisa "L" Miller', b'"Lisa ""L"" Miller"'),
    (b' , ', b'" , "'), (b'\t"\t', b'"\t""\t"'), ('é,ü'.encode(), '"é,ü"'.encode()),
    ('“"”'.encode(), '"“""”"'.encode()), ('😀\n😀'.encode(), '"😀\n😀"'.encode()),
]
# In narrow strings alone: octets that are no UTF-8, among them those that are a mark with its top bit set.
NARROW_AS_THEY_ARE = [b'\x80', b'\xFF', b'\xAC', b'\xA2', b'\x8D', b'\x8A', b'J\xFCrg', b'\xC3', b'\xED\xA0\x80',
                      b'\xC0\x80']
NARROW_QUOTED = [(b'\xFC,\xE9', b'"\xFC,\xE9"'), (b'\xA2"\xA2', b'"\xA2""\xA2"'), (b'\x8D\r\x8A\n', b'"\x8D\r\x8A\n"')]

# Numbers in one, two, three, four and five octets, and their fields.
NUMBERS = [(0, b'0'), (1, b'1'), (9, b'9'), (10, b'10'), (11, b'11'), (99, b'99'), (100, b'100'), (101, b'101'),
           (127, b'127'), (128, b'128'), (199, b'199'), (200, b'200'), (255, b'255'), (256, b'256'), (999, b'999'),
           (1000, b'1000'), (9999, b'9999'), (10000, b'10000'), (65535, b'65535'), (65536, b'65536'),
           (99999, b'99999'), (100000, b'100000'), (999999, b'999999'), (1000000, b'1000000'),
           (9999999, b'9999999'), (10000000, b'10000000'), (16777215, b'16777215'), (16777216, b'16777216'),
           (99999999, b'99999999'), (100000000, b'100000000'), (999999999, b'999999999'), (1000000000, b'1000000000'),
           (2147483647, b'2147483647'), (2147483648, b'2147483648'), (4294967294, b'4294967294'),
           (4294967295, b'4294967295')]


def strings(tag):
    """The strings of a type, each with its field."""
    every = [(text, text) for text in AS_THEY_ARE] + QUOTED
    return every + ([(text, text) for text in NARROW_AS_THEY_ARE] + NARROW_QUOTED if tag == NARROW else [])


def fields():
    """All strings, numbers and booleans, a record each, in a column of its own; and each single octet."""
    for tag, head in ((NAME, b'3001001F'), (NARROW, b'3003001E')):
        every = strings(tag)
        made = Chosen([], [(tag, 0)], [], [[text + b'\0'] for text, _ in every])
        yield made.gives([tag], head, *(field for _, field in every))
    octets = [bytes([octet]) for octet in range(1, 256)]
    marked = {b',': b'","', b'"': b'""""', b'\r': b'"\r"', b'\n': b'"\n"'}
    yield (Chosen([], [(NARROW, 0)], [], [[octet + b'\0'] for octet in octets])
           .gives([NARROW], b'3003001E', *(marked.get(octet, octet) for octet in octets)))
    whole = b''.join(octets)
    yield (Chosen([], [(NARROW, 2)], [], [[whole + b'\0']])
           .gives([NARROW], b'3003001E', b'"' + whole[:34] + whole[33:] + b'"'))
    yield (Chosen([], [(NUMBER, 0)], [], [[oab.encode_number(number)] for number, _ in NUMBERS])
           .gives([NUMBER], b'39000003', *(field for _, field in NUMBERS)))
    yield (Chosen([], [(TRUTH, 0)], [], [[b'\0'], [b'\1'], [None], [b'\1']])
           .gives([TRUTH], b'3A40000B', b'0', b'1', b'', b'1'))


def single_fields():
    """One record, one field, so that the room can be tried around it."""
    for tag, head, value, field in (
            (NAME, b'3001001F', b'a\0', b'a'), (NAME, b'3001001F', b'"\0', b'""""'),
            (NAME, b'3001001F', b'a,b\0', b'"a,b"'), (NARROW, b'3003001E', b'\xFF\r\0', b'"\xFF\r"'),
            (NARROW, b'3003001E', b'\n\0', b'"\n"'), (NAME, b'3001001F', None, b''), (NUMBER, b'39000003', b'\0', b'0'),
            (NUMBER, b'39000003', b'\x84\xFF\xFF\xFF\xFF', b'4294967295'), (NUMBER, b'39000003', None, b''),
            (TRUTH, b'3A40000B', b'\1', b'1'), (TRUTH, b'3A40000B', None, b'')):
        yield Chosen([], [(tag, 0)], [], [[value]]).gives([tag], head, field)


# ---------------------------------------------------------------- lines

def absent():
    """Every pattern of absent values in three columns; one column alone, absent: an empty line."""
    columns, values, fields = plain([NAME, NUMBER, TRUTH]), [b'x,y\0', b'\x81\x80', b'\1'], [b'"x,y"', b'128', b'1']
    patterns = list(itertools.product((False, True), repeat=3))
    rows = [[value if there else None for value, there in zip(values, pattern)] for pattern in patterns]
    lines = [[field if there else b'' for field, there in zip(fields, pattern)] for pattern in patterns]
    made = Chosen([], columns, [], rows)
    made.gives([NAME, NUMBER, TRUTH], b'3001001F,39000003,3A40000B', *(b','.join(line) for line in lines))
    made.gives([TRUTH, NUMBER, NAME], b'3A40000B,39000003,3001001F', *(b','.join(line[::-1]) for line in lines))
    for i, head in enumerate((b'3001001F', b'39000003', b'3A40000B')):
        made.gives([columns[i][0]], head, *(line[i] for line in lines))
    yield made
    yield (Chosen(plain([NAME]), columns, [b'header\0'], [[None, None, None]])
           .gives([NAME], b'3001001F', b'').gives([NAME, TRUTH], b'3001001F,3A40000B', b','))


def orders():
    """Every choice of some of four columns, in every order, of a book with columns of other types between them."""
    tags = [NARROW, 0x8005000D, MAIL, 0x800F101F, NUMBER, 0x8C9E0102, TRUTH]
    heads = {NARROW: b'3003001E', MAIL: b'39FE001F', NUMBER: b'39000003', TRUTH: b'3A40000B'}
    rows = [[b'\xFF"\0', b'/o=a\0', b'a@b\0', b'\x01x\0', b'\x05', b'\x02,"', b'\1'],
            [None, b',\0', b'c,d\0', None, None, b'\x01\n', b'\0'],
            [b'n\0', None, None, b'\x02"\0,\0', b'\x81\xFF', None, None]]
    lines = [{NARROW: b'"\xFF"""', MAIL: b'a@b', NUMBER: b'5', TRUTH: b'1'},
             {NARROW: b'', MAIL: b'"c,d"', NUMBER: b'', TRUTH: b'0'},
             {NARROW: b'n', MAIL: b'', NUMBER: b'255', TRUTH: b''}]
    made = Chosen([], plain(tags), [], rows)
    for count in (1, 2, 3, 4):
        for choice in itertools.permutations((NARROW, MAIL, NUMBER, TRUTH), count):
            made.gives(choice, b','.join(heads[tag] for tag in choice),
                       *(b','.join(line[tag] for tag in choice) for line in lines))
    yield made


def wide():
    """Sixteen columns, all of a table or some of 128; tags at both ends of their range; hex digits of every sort."""
    every = [(0x4000 + i) << 16 | kind for i, kind in enumerate((0x1F, 0x1E, 3, 0xB) * 32)]
    values = {0x1F: b'"\0', 0x1E: b'\xFF\0', 3: b'\x82\x10\x27', 0xB: b'\1'}
    fields = {0x1F: b'""""', 0x1E: b'\xFF', 3: b'10000', 0xB: b'1'}
    for columns in (every[:16], every[:17], every):
        row = [values[tag & 0xFFFF] for tag in columns]
        made = Chosen([], plain(columns), [], [row, [None] * len(columns)])
        for choice in (columns[:16], columns[-16:], columns[15::-1], columns[::len(columns) // 16][:16]):
            line = b','.join(fields[tag & 0xFFFF] for tag in choice)
            made.gives(choice, ','.join(f'{tag:08X}' for tag in choice).encode(), line, b',' * 15)
        yield made.unfit(*columns[:17]) if len(columns) > 16 else made
    odd = [0x0000001E, 0xFFFF001F, 0x01230003, 0x89AB000B, 0xCDEF001E, 0x00000003, 0x0000000B, 0x0000001F]
    yield (Chosen([], plain(odd), [], [[b'a\0', b'b\0', b'\x07', b'\0', b'c\0', b'\x08', b'\1', b'd\0']])
           .gives(odd, b'0000001E,FFFF001F,01230003,89AB000B,CDEF001E,00000003,0000000B,0000001F', b'a,b,7,0,c,8,1,d'))


def flags():
    """Keys, the name index and unused flag bits play no part; nor does the header record."""
    for bits in (0, 1, 2, 3, 0xFFFFFFFC, 0xFFFFFFFF):
        yield (Chosen([(NAME, bits), (NUMBER, bits)], [(NAME, bits), (MAIL, 0)], [b'head\0', None], [[b'a\0', None]])
               .gives([NAME, MAIL], b'3001001F,39FE001F', b'a,').unknown(NUMBER).unknown(NAME, NUMBER))


# ---------------------------------------------------------------- refused

def types():
    """All ten types of one property: the four are exported, each of the others is 18, in any place of the choice."""
    tags = [0x3A000000 | kind for kind in oab.TYPES]
    values = [b'\x05', b'\x01', b'/o=a\0', b'a\0', b'b\0', b'\x01\0']
    values += [b'\x01\x05', b'\x01a\0', b'\x01b\0', b'\x01\x01\0']
    fields = {3: b'5', 0xB: b'1', 0x1E: b'a', 0x1F: b'b'}
    for row in (values, [None] * 10):
        made = Chosen([], plain(tags), [], [row])
        for tag in tags:
            kind = tag & 0xFFFF
            if kind in fields:
                made.gives([tag], b'%08X' % tag, fields[kind] if row is values else b'')
            else:
                made.unfit(tag).unfit(tags[0], tag).unfit(tag, tags[0]).unfit(tags[3], tag, tags[4]).unfit(tag, tag)
        # The same property under a type that isn't there, or is none.
        for kind in (0, 1, 2, 4, 5, 0xC, 0x20, 0x101, 0x1F00, 0x8003, 0xFFFF):
            made.unknown(0x3A000000 | kind).unknown(tags[3], 0x3A000000 | kind)
        yield made


def unknown():
    """15: not in the address table, by the whole tag, whatever else is wrong with the choice."""
    columns = [NAME, NARROW, 0x8005000D, 0x800F101F]
    row = [b'a\0', b'b\0', None, None]
    made = Chosen(plain([0x6800001F, NUMBER, NAME]), plain(columns), [b'h\0', b'\1', b'n\0'], [row])
    others = [0x6800001F, NUMBER, 0x3001001E, 0x3003001F, 0x3002001F, 0xB001001F, 0x1F003001, 0, 0xFFFFFFFF, 0x3001000B,
              0x3001000D, 0x8005001E, 0x800F001F]
    for tag in others:
        made.unknown(tag).unknown(tag, NAME).unknown(NAME, tag).unknown(NAME, tag, NARROW)
        made.unknown(tag, tag).unknown(0x8005000D, tag).unknown(tag, 0x800F101F).unknown(NAME, NAME, tag)
        made.unknown(*[NAME] * 16, tag).unknown(tag, *[NAME] * 16).unknown(*[NAME] * 20, tag, *[NARROW] * 20)
    yield made.unknown(*[0] * 17).unknown(*[0] * 63).gives([NARROW, NAME], b'3003001E,3001001F', b'b,a')
    yield Chosen(plain([NAME]), [], [None], [[]]).unknown(NAME).unknown(0).unfit()


def unfit():
    """18: none, over sixteen, twice, another type; also several of these at once."""
    every = [(0x4000 + i) << 16 | (0x1F, 0x1E, 3, 0xB)[i % 4] for i in range(63)]
    made = Chosen([], plain(every), [], [[None] * 63]).unfit()
    for count in (17, 18, 32, 33, 62, 63):
        made.unfit(*every[:count]).unfit(*every[:count][::-1])
    for first, second in itertools.combinations(range(16), 2):
        if second - first in (1, 2, 8, 15):
            choice = every[:16]
            choice[second] = choice[first]
            made.unfit(*choice)
    made.unfit(*every[:16], every[0]).unfit(*every[:16], every[15]).unfit(*[every[1]] * 17)
    for tag in every[:4]:
        made.unfit(tag, tag).unfit(tag, every[9], tag).unfit(every[9], tag, tag).unfit(tag, tag, tag)
    yield made
    # Equal upper halves, and equal types, are no tag chosen twice.
    alike = [0x30010003, 0x3001000B, 0x3001001E, 0x3001001F]
    yield (Chosen([], plain(alike), [], [[b'\x07', b'\0', b'n\0', b't\0']])
           .gives(alike, b'30010003,3001000B,3001001E,3001001F', b'7,0,n,t')
           .gives(alike[::-1], b'3001001F,3001001E,3001000B,30010003', b't,n,0,7').unfit(*alike, alike[0]))


def chosen():
    """Every book of the above."""
    for part in (fields, single_fields, absent, orders, wide, flags, types, unknown, unfit):
        yield from part()


# ---------------------------------------------------------------- for other readers

def cells(table, tags):
    """What another program is to find in the sheet of a table, line by line: the tags, then the values themselves."""
    columns = [tag for tag, _ in table[1]]
    found = [[b'%08X' % tag for tag in tags]]
    for row in table[3]:
        line = []
        for tag in tags:
            value, kind = row[columns.index(tag)], oab.type_of(tag)
            if value is None:
                line.append(b'')
            elif kind == oab.NUMBER:
                line.append(str(oab.number_at(value)[0]).encode())
            else:
                line.append(value[:-1] if kind in oab.STRINGS else {b'\0': b'0', b'\1': b'1'}[value])
        found.append(line)
    return found


# ---------------------------------------------------------------- at random

def some_string(rng, kind, most=8):
    """A string that often holds marks, blanks and octets near them."""
    parts = [b',', b'"', b'\r', b'\n', b'\r\n', b'""', b' ', b'\t', b'a', b'Miller', b';', b'-', b'!', b'#']
    parts += ['é'.encode(), '，'.encode()]
    if kind != oab.TEXT:
        parts += [bytes([octet]) for octet in (0x80, 0x8A, 0x8D, 0xA2, 0xAC, 0xFF)]
    return b''.join(rng.choice(parts) for _ in range(rng.randint(1, most)))


def spiced(rng, table, most=8):
    """The table with marks in some of its strings, and numbers of every number of digits."""
    def other(tag, value):
        kind = oab.type_of(tag)
        if value is None or rng.random() < 0.4:
            return value
        if kind in oab.STRINGS:
            return some_string(rng, kind, most) + b'\0'
        return oab.encode_number(rng.choice(NUMBERS)[0]) if kind == oab.NUMBER else value

    rows = [[other(tag, value) for (tag, _), value in zip(table[1], row)] for row in table[3]]
    return table[0], table[1], table[2], rows


def some_choice(rng, table, wrong=0.0):
    """Some columns that can be exported, in any order; with the chance `wrong` something is wrong with them."""
    tags = [tag for tag, _ in table[1]]
    fit = [tag for tag in tags if oab.type_of(tag) in oab.EXPORTED]
    choice = rng.sample(fit, rng.randint(min(1, len(fit)), min(len(fit), rng.choice((1, 2, 4, 16)))))
    while rng.random() < wrong:
        extra = [tag for tag, _ in table[0]] + [tag ^ bit for tag in tags for bit in (1, 0x10000)] + choice
        what = rng.randrange(4)
        if what == 0 and extra:
            choice.insert(rng.randrange(len(choice) + 1), rng.choice(extra))
        elif what == 1 and tags:
            choice.insert(rng.randrange(len(choice) + 1), rng.choice(tags))
        elif what == 2:
            choice = (choice or [0]) * rng.choice((0, 2, 18))
        else:
            choice.insert(rng.randrange(len(choice) + 1), rng.getrandbits(32))
    return choice[:63]
