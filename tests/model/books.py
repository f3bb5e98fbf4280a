"""Makers of books for the tests: good ones in many shapes, and damaged ones.

What: two fixed books (the small book of document 01 and the sample file of document 000,
section 3.3), random tables and values, and drafts, which are books in loose parts, so
that one part can be spoilt before they are put together. Why: a fault put in on purpose
says by itself which number and place must come back; the self-check compares that with
the model's judge. Everything follows from the seed of the Random handed in.
"""

from model import oab

# ---------------------------------------------------------------- fixed books

SMALL_TABLE = (
    [(0x6800001F, 0)],
    [(0x39FE001F, 2), (0x3001001F, 1), (0x800F101F, 1)],
    [b'A\0'],
    [[b'b@c\0', None, b'\x02x\0yz\0']],
)

# A manager column, type 000D (2.6), in both tables: a key that binds in the address records alone.
MANAGER = 0x8005000D
MANAGER_TABLE = (
    [(0x6800001F, 0), (MANAGER, 2)],
    [(0x39FE001F, 2), (MANAGER, 2), (0x3001001F, 0)],
    [b'House\0', b'/o=house/cn=kit\0'],
    [[b'ann@house.example\0', b'/o=house/cn=eve\0', b'Ann\0'],
     [b'eve@house.example\0', b'/o=house/cn=J\xFCrg\0', None]],
)

# A help desk's book (request 105): a mobile telephone under a type that nobody asks for, a photo that was left out and
# is listed as truncated, an address that just isn't there.
DESK_TABLE = (
    [(0x6800001F, 0)],
    [(0x3003001E, 2), (0x39FE001F, 0), (0x3001001F, 1), (0x3A1C001E, 0), (0x8C9E0102, 0), (0x68051003, 0)],
    [b'House\0'],
    [[b'/o=house/cn=ann\0', b'ann@house.example\0', b'Ann\0', b'555 0100\0', None, b'\x01\x84\x02\x01\x9E\x8C'],
     [b'/o=house/cn=eve\0', None, b'Eve\0', None, None, None]],
)

# A mailroom's book (request 101): names that hold commas, quotes and a line's end, numbers, booleans, values left out.
MAILROOM_TABLE = (
    [(0x6800001F, 0)],
    [(0x39FE001F, 2), (0x3001001F, 1), (0x3003001E, 0), (0x39000003, 0), (0x3A40000B, 0), (0x800F101F, 0)],
    [b'Mailroom\0'],
    [[b'lisa@house.example\0', b'Miller, Lisa\0', b'/o=house/cn=lisa\0', b'\0', b'\x01',
      b'\x01SMTP:lisa@house.example\0'],
     [b'joe@house.example\0', b'Joe "Lee" Ray\0', None, b'\x82\0\x01', b'\0', None],
     [b'desk@house.example\0', b'Front\r\ndesk\0', b'/o=house/cn=J\xFCrg\0', b'\x84\xFF\xFF\xFF\xFF', None, None],
     [b'post@house.example\0', None, None, None, None, None]],
)

# Document 01, "A whole small book", with 00 for the four octets of the serial.
SMALL_HEX = '''
20 00 00 00 00 00 00 00 01 00 00 00
2C 00 00 00 01 00 00 00 1F 00 00 68 00 00 00 00 03 00 00 00 1F 00 FE 39 02 00 00 00
1F 00 01 30 01 00 00 00 1F 10 0F 80 01 00 00 00
07 00 00 00 80 41 00
0F 00 00 00 A0 62 40 63 00 02 78 00 79 7A 00
'''

# Document 000, section 3.3, as printed there (serial 7FC0DAF7 included).
SAMPLE_HEX = '''
20 00 00 00 f7 da c0 7f 02 00 00 00
5c 00 00 00
04 00 00 00
1f 00 00 68 00 00 00 00
1e 00 04 68 00 00 00 00
03 00 01 68 00 00 00 00
1e 00 02 68 00 00 00 00
06 00 00 00
1e 00 03 30 02 00 00 00
1f 00 fe 39 02 00 00 00
1f 00 01 30 01 00 00 00
03 00 fe 0f 00 00 00 00
03 00 00 39 00 00 00 00
03 10 05 68 00 00 00 00
42 00 00 00 f0
5c 47 6c 6f 62 61 6c 20 41 64 64 72 65 73 73 20 4c 69 73 74 00
2f 00
06
64 34 66 32 34 34 61 38 2d 61 38 65 63 2d 34 34 32 61 2d 38 37 61 33 2d
35 32 33 36 66 38 32 63 61 62 64 63 00
80 00 00 00 f8
2f 6f 3d 65 78 61 6d 70 6c 65 2f 6f 75 3d 45 78 63 68 61 6e 67 65 20 41
64 6d 69 6e 69 73 74 72 61 74 69 76 65 20 47 72 6f 75 70 20 28 46 59 44
49 42 4f 48 46 32 33 53 50 44 4c 54 29 2f 63 6e 3d 52 65 63 69 70 69 65
6e 74 73 2f 63 6e 3d 4c 69 73 61 20 4d 69 6c 6c 65 72 00
4c 69 73 61 4d 40 65 78 61 6d 70 6c 65 2e 63 6f 6d 00
4c 69 73 61 20 4d 69 6c 6c 65 72 00
06
00
8c 00 00 00 f8
2f 6f 3d 65 78 61 6d 70 6c 65 2f 6f 75 3d 45 78 63 68 61 6e 67 65 20 41
64 6d 69 6e 69 73 74 72 61 74 69 76 65 20 47 72 6f 75 70 20 28 46 59 44
49 42 4f 48 46 32 33 53 50 44 4c 54 29 2f 63 6e 3d 52 65 63 69 70 69 65
6e 74 73 2f 63 6e 3d 41 64 6d 69 6e 69 73 74 72 61 74 6f 72 00
41 64 6d 69 6e 69 73 74 72 61 74 6f 72 40 65 78 61 6d 70 6c 65 2e 63 6f 6d 00
41 64 6d 69 6e 69 73 74 72 61 74 6f 72 00
06
00
'''


def mended(book):
    """The same octets with the serial that belongs to them."""
    if len(book) < oab.HEADER:
        return bytes(book)
    return bytes(book[:4]) + oab.four(oab.serial(book[12:])) + bytes(book[8:])


def small_book():
    return mended(bytes.fromhex(SMALL_HEX))


def sample_book():
    return bytes.fromhex(SAMPLE_HEX)


# ---------------------------------------------------------------- random values

BOUNDARY_NUMBERS = (0, 1, 126, 127, 128, 129, 254, 255, 256, 257, 65534, 65535, 65536, 65537,
                    (1 << 24) - 2, (1 << 24) - 1, 1 << 24, (1 << 24) + 1, (1 << 24) + 2,
                    (1 << 31) - 1, 1 << 31, (1 << 32) - 2, (1 << 32) - 1)

BOUNDARY_POINTS = (0x01, 0x0A, 0x22, 0x2C, 0x41, 0x7F, 0x80, 0x7FF, 0x800, 0xFFF, 0x1000, 0xD7FF, 0xE000,
                   0xFEFF, 0xFFFD, 0xFFFE, 0xFFFF, 0x10000, 0x3FFFF, 0x40000, 0xFFFFF, 0x100000, 0x10FFFF)

PLAIN = 'abcdefghijklmnopqrstuvwxyz'


def some_number(rng):
    if rng.random() < 0.5:
        return rng.choice(BOUNDARY_NUMBERS)
    return rng.getrandbits(rng.choice((7, 8, 16, 24, 32)))


def some_text(rng, most=6):
    """Non-empty UTF-8 without 00, often with characters of several octets."""
    if rng.random() < 0.4:
        return ''.join(rng.choice(PLAIN) for _ in range(rng.randint(1, most))).encode()
    return ''.join(chr(rng.choice(BOUNDARY_POINTS)) for _ in range(rng.randint(1, most))).encode()


def some_narrow(rng, most=6):
    return bytes(rng.randint(1, 255) for _ in range(rng.randint(1, most)))


def some_binary(rng, most=6):
    return bytes(rng.choice((0, 1, 0x7F, 0x80, 0xFF, rng.randint(0, 255))) for _ in range(rng.randint(1, most)))


def some_value(rng, type_code, most=6):
    """The encoding of a random good value."""
    if type_code == oab.NUMBER:
        return oab.encode_number(some_number(rng))
    if type_code == oab.YES_OR_NO:
        return bytes([rng.randint(0, 1)])
    if type_code in (oab.OBJECT, oab.NARROW):
        return some_narrow(rng, most) + b'\0'
    if type_code == oab.TEXT:
        return some_text(rng, most) + b'\0'
    if type_code == oab.BINARY:
        octets = some_binary(rng, most)
        return oab.encode_number(len(octets)) + octets
    count = rng.choice((1, 1, 2, 3, 5))
    return oab.encode_number(count) + b''.join(some_value(rng, oab.ELEMENT[type_code], most) for _ in range(count))


# Numbers that are broken whatever follows them.
BAD_NUMBERS = (b'\x80', b'\x85', b'\xC0', b'\xFF', b'\x81\x00', b'\x81\x7F', b'\x82\x80\x00', b'\x82\x00\x00',
               b'\x83\xFF\xFF\x00', b'\x83\x00\x01\x00', b'\x84\x00\x00\x01\x00', b'\x84\xFF\xFF\xFF\x00')

# Octets that are no UTF-8, whatever stands around them.
BAD_TEXTS = (b'\x80', b'\xBF', b'\xC0\x80', b'\xC1\xBF', b'\xC2', b'\xC2\x41', b'\xDF\xC0', b'\xE0\x9F\xBF', b'\xE0\xA0',
             b'\xE1\x80', b'\xE1\x80\x41', b'\xED\xA0\x80', b'\xED\xBF\xBF', b'\xEF\xBF', b'\xF0\x8F\xBF\xBF',
             b'\xF0\x90\x80', b'\xF1\x80\x80\xC0', b'\xF4\x90\x80\x80', b'\xF5\x80\x80\x80', b'\xF8\x88\x80\x80\x80',
             b'\xFE', b'\xFF')


def broken_single(rng, type_code):
    if type_code == oab.NUMBER:
        return rng.choice(BAD_NUMBERS)
    if type_code == oab.YES_OR_NO:
        return bytes([rng.choice((2, 3, 0x7F, 0x80, 0x81, 0xFF))])
    if type_code in (oab.OBJECT, oab.NARROW):
        return b'\0'
    if type_code == oab.TEXT:
        if rng.random() < 0.2:
            return b'\0'
        around = (b'', b'a', some_text(rng, 3))
        return rng.choice(around) + rng.choice(BAD_TEXTS) + rng.choice((b'', b'z')) + b'\0'
    return rng.choice(BAD_NUMBERS + (b'\0',))  # 0102


def broken_at(rng, type_code):
    """Octets that break the form of the type at the front, whatever follows them, and where they are at fault."""
    if type_code not in oab.TYPES:             # an earlier fault spoilt the type
        return b'\0', 0
    if type_code not in oab.ELEMENT:
        return broken_single(rng, type_code), 0
    if rng.random() < 0.3:                     # the count is wrong
        return rng.choice(BAD_NUMBERS + (b'\0',)), 0
    element = oab.ELEMENT[type_code]
    count = rng.randint(1, 4)
    good = b''.join(some_value(rng, element, 3) for _ in range(rng.randrange(count)))
    front = oab.encode_number(count) + good
    return front + broken_single(rng, element), len(front)


def broken_value(rng, type_code):
    return broken_at(rng, type_code)[0]


def cut_at(rng, type_code):
    """Octets with which a record ends too soon: the value passes its end; and where it is at fault."""
    if type_code == oab.YES_OR_NO or type_code not in oab.TYPES:
        return b'', 0
    if type_code in oab.STRINGS:
        return rng.choice((b'', b'a', b'abc')), 0
    if type_code == oab.NUMBER:
        return rng.choice((b'', b'\x81', b'\x82\x05', b'\x83\x01\x01', b'\x84\x01\x01\x01')), 0
    if type_code == oab.BINARY:
        return rng.choice((b'', b'\x01', b'\x05abcd', b'\x81\x80abc', b'\x84\xFF\xFF\xFF\xFFa')), 0
    elements = [some_value(rng, oab.ELEMENT[type_code], 3) for _ in range(rng.choice((1, 1, 2, 3)))]
    parts = [oab.encode_number(len(elements))] + elements
    whole = b''.join(parts)
    end = rng.randrange(len(whole))
    starts = [sum(len(part) for part in parts[:i]) for i in range(len(parts))]
    return whole[:end], max(start for start in starts if start <= end)


def cut_value(rng, type_code):
    return cut_at(rng, type_code)[0]


# ---------------------------------------------------------------- random tables

COLUMN_COUNTS = (0, 1, 2, 3, 5, 7, 8, 9, 15, 16, 17)
WIDE_COUNTS = (126, 127, 128)


def some_columns(rng, count, junk):
    """Unlike tags; upper halves from a small store, so that some share theirs.

    Junk: the 30 unused flag bits may be non-zero.
    """
    halves = (0x3001, 0x3003, 0x39FE, 0x3A00, 0x6800, 0x6805, 0x8009, 0x800F, 0x0000, 0xFFFF)
    store = [half << 16 | t for half in halves for t in oab.TYPES]
    if count > 60:
        store += [half << 16 | t for half in range(0x4000, 0x4008) for t in oab.TYPES]
    columns = []
    for tag in rng.sample(store, count):
        flags = rng.choice((0, 0, 0, 1, 2, 3))
        if junk and rng.random() < 0.5:
            flags |= rng.getrandbits(30) << 2
        columns.append((tag, flags))
    return columns


def some_row(rng, columns, keys_bind, chance=0.5, most=6):
    row = []
    for tag, flags in columns:
        bound = keys_bind and flags & oab.KEY
        row.append(some_value(rng, oab.type_of(tag), most) if bound or rng.random() < chance else None)
    return row


def some_table(rng, header=None, address=None, records=None, junk=None, most=6):
    """A random table: header columns, address columns, header row, rows."""
    header = rng.choice(COLUMN_COUNTS) if header is None else header
    address = rng.choice(COLUMN_COUNTS) if address is None else address
    records = rng.choice((1, 1, 2, 3, 4)) if records is None else records
    junk = rng.random() < 0.3 if junk is None else junk
    header_columns = some_columns(rng, header, junk)
    address_columns = some_columns(rng, address, junk)
    chance = rng.choice((0.1, 0.5, 0.5, 0.9, 1.0))
    if max(header, address) > 60:
        chance = rng.choice((0.05, 0.2))
    header_row = some_row(rng, header_columns, False, chance, most)
    rows = [some_row(rng, address_columns, True, chance, most) for _ in range(records)]
    return header_columns, address_columns, header_row, rows


# ---------------------------------------------------------------- drafts

class RecordDraft:
    """A record in loose parts; size None means: whatever it takes."""

    def __init__(self, row):
        self.size = None
        self.presence = bytearray(oab.presence_of(row))
        self.values = [[i, value] for i, value in enumerate(row) if value is not None]
        self.left = b''

    def octets(self):
        body = bytes(self.presence) + b''.join(value for _, value in self.values) + self.left
        return oab.four(4 + len(body) if self.size is None else self.size) + body


class Draft:
    """A book in loose parts. Build puts them together and notes where they stand."""

    def __init__(self, table):
        header_columns, address_columns, header_row, rows = table
        self.version = oab.VERSION
        self.count = None
        self.metadata_size = None
        self.columns = ([list(c) for c in header_columns], [list(c) for c in address_columns])
        self.column_counts = [None, None]
        self.records = [RecordDraft(row) for row in [header_row] + rows]    # the header record first
        self.tail = b''
        self.serial_error = 0

    def build(self):
        tables = b''
        self.table_places = []
        for columns, count in zip(self.columns, self.column_counts):
            self.table_places.append(16 + len(tables))
            tables += oab.four(len(columns) if count is None else count)
            tables += b''.join(oab.four(tag) + oab.four(flags) for tag, flags in columns)
        size = 4 + len(tables) if self.metadata_size is None else self.metadata_size
        body = oab.four(size) + tables
        self.record_places = []
        for record in self.records:
            self.record_places.append(12 + len(body))
            body += record.octets()
        self.end = 12 + len(body)
        body += self.tail
        count = len(self.records) - 1 if self.count is None else self.count
        serial = oab.serial(body) ^ self.serial_error
        return oab.four(self.version) + oab.four(serial) + oab.four(count) + body

    def tag_place(self, table, row):
        return self.table_places[table] + 4 + 8 * row

    def presence_place(self, record, column):
        return self.record_places[record] + 4 + column // 8

    def value_place(self, record, position):
        """Where the value at that position among the values present stands."""
        draft = self.records[record]
        return (self.record_places[record] + 4 + len(draft.presence)
                + sum(len(value) for _, value in draft.values[:position]))


def octets_of(table):
    """The book of a table, unused flag bits as they are."""
    return Draft(table).build()


# ---------------------------------------------------------------- faults
# Each fault spoils one thing in a draft and gives back a function that says, once the
# draft is built, which refusal that alone must bring; None: it can't be put in here.

def fault_version(draft, rng):
    draft.version = rng.choice((0, 7, 0x1F, 0x21, 0x120, 0x2000, 0x200000, 0x20000020, 0xFFFFFFFF))
    return lambda: (3, 0)


def fault_count_none_or_over(draft, rng):
    draft.count = rng.choice((0, 65536, 65537, 0x10001, 0x1000000, 0xFFFFFFFF))
    return lambda: (13, 8)


def fault_count_more(draft, rng):
    draft.count = len(draft.records) - 1 + rng.choice((1, 1, 2, 100))
    return lambda: (13, 8)


def fault_count_less(draft, rng):
    if len(draft.records) < 3:
        return None
    draft.count = rng.randint(1, len(draft.records) - 2)
    return lambda: (13, draft.record_places[1 + draft.count])


def fault_no_records(draft, rng):
    """The book ends where the header record or an address record is due."""
    if draft.count is None:
        draft.count = len(draft.records) - 1
    del draft.records[rng.randrange(len(draft.records)):]
    return lambda: (13, 8)


def fault_metadata_size(draft, rng):
    right = 12 + 8 * (len(draft.columns[0]) + len(draft.columns[1]))
    draft.metadata_size = rng.choice((0, right - 1, right + 1, right + 8, right - 8, right - 4, right + 256, 0xFFFFFFFF))
    return lambda: (4, 12)


def fault_columns_over(draft, rng):
    table = rng.randrange(2)
    draft.column_counts[table] = rng.choice((129, 130, 255, 256, 65536, 0x80000000, 0xFFFFFFFF))
    return lambda: (5, draft.table_places[table])


def fault_type(draft, rng):
    table = rng.randrange(2)
    if not draft.columns[table]:
        return None
    row = rng.randrange(len(draft.columns[table]))
    bad = rng.choice((0, 1, 2, 4, 5, 0x0A, 0x0C, 0x0E, 0x1D, 0x20, 0x40, 0x48, 0x101, 0x103, 0x1002, 0x1004,
                      0x100B, 0x100D, 0x101D, 0x1020, 0x1101, 0x1103, 0x0300, 0x1F00, 0x8003, 0x301F, 0xFFFF))
    draft.columns[table][row][0] = draft.columns[table][row][0] & 0xFFFF0000 | bad
    return lambda: (6, draft.tag_place(table, row))


def fault_repeat(draft, rng):
    table = rng.randrange(2)
    if len(draft.columns[table]) < 2:
        return None
    earlier, later = sorted(rng.sample(range(len(draft.columns[table])), 2))
    draft.columns[table][later][0] = draft.columns[table][earlier][0]
    return lambda: (7, draft.tag_place(table, later))


def some_record(draft, rng):
    return rng.choice((0, 1, len(draft.records) - 1, rng.randrange(len(draft.records)))) % len(draft.records)


def fault_size_small(draft, rng):
    record = some_record(draft, rng)
    least = 4 + len(draft.records[record].presence)
    draft.records[record].size = rng.choice((0, 1, 3, least - 1))
    return lambda: (8, draft.record_places[record])


def fault_size_past(draft, rng):
    record = some_record(draft, rng)
    draft.build()
    left = draft.end - draft.record_places[record]
    draft.records[record].size = rng.choice((left + 1, left + 2, left + 256, 0x7FFFFFFF, 0x80000000, 0xFFFFFFFF))
    return lambda: (8, draft.record_places[record])


def fault_spare(draft, rng):
    record = some_record(draft, rng)
    count = len(draft.columns[0 if record == 0 else 1])
    if count % 8 == 0:
        return None
    draft.records[record].presence[-1] |= 1 << rng.randrange(8 - count % 8)
    return lambda: (9, draft.record_places[record] + 4 + count // 8)


def fault_key(draft, rng):
    """One key or several are taken out of an address record; the lowest is answered."""
    if len(draft.records) < 2:
        return None
    record = 1 + rng.randrange(len(draft.records) - 1)
    parts = draft.records[record]
    present = [i for i, _ in parts.values]
    keys = [i for i, (_, flags) in enumerate(draft.columns[1]) if flags & oab.KEY and i in present]
    if not keys:
        return None
    gone = rng.sample(keys, rng.randint(1, len(keys)))
    parts.values = [value for value in parts.values if value[0] not in gone]
    for i in gone:
        parts.presence[i // 8] &= ~(0x80 >> i % 8)
    return lambda: (10, draft.presence_place(record, min(gone)))


def fault_value(draft, rng):
    record = some_record(draft, rng)
    parts = draft.records[record]
    if not parts.values:
        return None
    position = rng.randrange(len(parts.values))
    column = parts.values[position][0]
    tag = draft.columns[0 if record == 0 else 1][column][0]
    parts.values[position][1], inside = broken_at(rng, oab.type_of(tag))
    return lambda: (11, draft.value_place(record, position) + inside)


def fault_value_cut(draft, rng):
    """The last value present passes the record's end (often not the book's)."""
    record = some_record(draft, rng)
    parts = draft.records[record]
    if not parts.values:
        return None
    column = parts.values[-1][0]
    tag = draft.columns[0 if record == 0 else 1][column][0]
    parts.values[-1][1], inside = cut_at(rng, oab.type_of(tag))
    return lambda: (11, draft.value_place(record, len(parts.values) - 1) + inside)


def fault_left(draft, rng):
    record = some_record(draft, rng)
    parts = draft.records[record]
    parts.left = rng.choice((b'\0', b'\0\0', b'a\0', b'\x05', b'\xFF' * 5, b'\x04\0\0\0'))
    return lambda: (12, draft.value_place(record, len(parts.values)))


def fault_tail(draft, rng):
    draft.tail = rng.choice((b'\0', b'a', b'\x04\0\0', b'\x04\0\0\0', b'\0' * 4, b'\xFF' * 9, draft.records[-1].octets()))
    return lambda: (13, draft.end)


def fault_serial(draft, rng):
    draft.serial_error = rng.choice((1, 0x80, 0x100, 0x10000, 0x80000000, 0xFFFFFFFF, 1 << rng.randrange(32)))
    return lambda: (14, 4)


FAULTS = (fault_version, fault_count_none_or_over, fault_count_more, fault_count_less, fault_no_records,
          fault_metadata_size, fault_columns_over, fault_type, fault_repeat, fault_size_small, fault_size_past,
          fault_spare, fault_key, fault_value, fault_value_cut, fault_left, fault_tail, fault_serial)


def faulty(table, rng, fault):
    """A book with that one fault and the refusal it must bring, or None."""
    draft = Draft(table)
    says = fault(draft, rng)
    if says is None:
        return None
    book = draft.build()
    return book, says()


def twice_faulty(table, rng):
    """A book with two faults (the model says which comes first), or None."""
    draft = Draft(table)
    first, second = rng.sample(FAULTS, 2)
    if first is fault_no_records:              # the others need the records it takes away
        first, second = second, first
    if first(draft, rng) is None or second(draft, rng) is None:
        return None
    return draft.build()


# ---------------------------------------------------------------- damage at octets

def truncations(book):
    """Every shorter beginning of the book."""
    return [book[:length] for length in range(len(book))]


def cut_refusal(table, length):
    """What a good book cut to that length must bring: 2 or 13 where it ends in the header,
    the metadata or a size field, else 8 at the record that is cut."""
    draft = Draft(table)
    draft.build()
    if length < 12:
        return (2, 0)
    if length < draft.record_places[0]:
        return (2, length - length % 4)
    if length in draft.record_places:
        return (13, 8)
    place = max(p for p in draft.record_places if p <= length)
    return (2, place) if length < place + 4 else (8, place)


def octet_changes(book, rng, each):
    """Every octet of the book changed to `each` other values, a few of them fixed."""
    for at, old in enumerate(book):
        fixed = [old ^ 1, old ^ 0x80, (old + 1) % 256, (old - 1) % 256, 0, 0xFF]
        values = []
        for value in fixed + [rng.randint(0, 255) for _ in range(20)]:
            if value != old and value not in values:
                values.append(value)
        for value in values[:each]:
            yield book[:at] + bytes([value]) + book[at + 1:]


def random_damage(book, rng):
    """One to three random changes: an octet, a run, octets taken out or put in."""
    octets = bytearray(book)
    for _ in range(rng.choice((1, 1, 2, 3))):
        at = rng.randrange(len(octets))
        what = rng.randrange(5)
        if what == 0:
            octets[at] = rng.randint(0, 255)
        elif what == 1:
            octets[at] ^= 1 << rng.randrange(8)
        elif what == 2:
            del octets[at:at + rng.randint(1, 4)]
        elif what == 3:
            octets[at:at] = bytes(rng.choice((0, 1, 0x7F, 0x80, 0xFF)) for _ in range(rng.randint(1, 4)))
        else:
            octets[at] = rng.choice((0, 1, 0x7F, 0x80, 0x81, 0x84, 0xFF))
        if not octets:
            octets = bytearray(b'\0')
    return bytes(octets)


# ---------------------------------------------------------------- the decisions

def decision_books():
    """Books that tell the choices apart, each with its refusal (None: it is good)."""
    text = (0x3001001F, 0)

    def book(header, address, header_row, rows, change=None):
        draft = Draft((header, address, header_row, rows))
        if change is not None:
            change(draft)
        return draft.build()

    # Decision 1: in a column both fields' 2 come before 6 and 7.
    bad_type = book([], [text, (0x30030005, 0)], [], [[None, None]])
    repeated = book([], [text, text], [], [[None, None]])
    for cut in range(32, 40):
        yield bad_type[:cut], (2, 32 if cut < 36 else 36)
        yield repeated[:cut], (2, 32 if cut < 36 else 36)
    yield bad_type[:40], (6, 32)
    yield repeated[:40], (7, 32)
    # The first decision: equal elements are taken.
    yield book([], [(0x68051003, 0), (0x800F101F, 0)], [], [[b'\x02\x05\x05', b'\x02a\0a\0']]), None
    yield book([], [(0x8009101E, 0), (0x80091102, 0)], [], [[b'\x02a\0A\0', b'\x02\x01a\x01a']]), None
    # Decisions 3 and 4: no octet left where a record is due is 13 at 8, one to three are 2 there;
    # a book that ends in the header or the metadata is 2.
    empty = book([], [], [], [[], []])
    assert len(empty) == 36
    for cut in range(36):
        if cut < 12:
            yield empty[:cut], (2, 0)
        elif cut < 24:
            yield empty[:cut], (2, cut - cut % 4)
        else:
            yield empty[:cut], (13, 8) if cut % 4 == 0 else (2, cut - cut % 4)
        if cut >= 12:
            yield mended(empty[:cut]), (2, cut - cut % 4) if cut < 24 or cut % 4 else (13, 8)
    yield empty, None
    # Decision 5: number 4 after every column, before the missing records; also with empty tables.
    for size in (0, 11, 13, 20, 0xFFFFFFFF):
        def wrong_size(draft, size=size):
            draft.metadata_size = size
        yield book([], [], [], [[]], wrong_size), (4, 12)
        yield book([], [], [], [[]], wrong_size)[:24], (4, 12)
        yield book([text], [text, (0x30010000, 0)], [None], [[None, None]], wrong_size), (6, 40)
        yield book([text], [text, text], [None], [[None, None]], wrong_size), (7, 40)
        yield book([text], [text, text], [None], [[None, None]], wrong_size)[:47], (2, 44)
    # Decision 6: a value with no octet left starts at the record's end, or at the book's.
    yield book([], [text], [], [[b'']]), (11, 41)
    yield book([], [text], [], [[b''], [b'a\0']]), (11, 41)
    yield book([], [(0x3A00000B, 0), text], [], [[b'\x01', b'']]), (11, 50)
    # Decision 7: with 8 or 16 columns, or none, no bit is spare.
    for count in (8, 16):
        columns = [((0x3A00 + i) << 16 | oab.YES_OR_NO, 2) for i in range(count)]
        yield book([], columns, [], [[b'\x01'] * count]), None
    # Decision 8: byte order mark, noncharacters and control characters are taken.
    for point in (0xFEFF, 0xFFFE, 0xFFFF, 0xFDD0, 0x1FFFF, 0x10FFFF, 1, 0x7F, 0x85):
        yield book([], [text], [], [[chr(point).encode() + b'\0']]), None
    yield book([], [(0x3003001E, 0)], [], [[b'\x80\xFF\xC0\x01\0']]), None
    # Request 102 (decision 9): a 000D value has the form of 001E, as a key too; in the header table a key is not due.
    yield octets_of(MANAGER_TABLE), None
    for flags in (0, 2):
        manager = (MANAGER, flags)
        for value in (b'a\0', b'/o=house/cn=eve\0', b'\x80\xFF\xC0\x01\0', bytes(range(1, 256)) + b'\0'):
            yield book([manager], [manager], [value], [[value], [value]]), None
        yield book([], [manager], [], [[None]]), (10, 40) if flags else None
        yield book([manager], [(MANAGER, 1)], [None], [[None]]), None
        # Empty; unterminated; past the record's end, where the next record's size has a 00.
        for value in (b'\0', b'a', b'', b'/o=house/cn=eve'):
            yield book([], [manager], [], [[value]]), (11, 41)
            yield book([], [manager], [], [[value], [b'a\0']]), (11, 41)
            yield book([], [manager], [], [[b'a\0'], [value]]), (11, 48)
            yield book([manager], [], [value], [[]]), (11, 37)
            yield book([manager], [manager], [value], [[b'a\0']]), (11, 45)
        # It ends behind its 00: another value may stand there, octets left over may not.
        yield book([], [manager, text], [], [[b'a\0', b'b\0']]), None
        yield book([], [manager, text], [], [[b'a\0', b'\0']]), (11, 51)
        yield book([], [manager], [], [[b'a\0b\0']]), (12, 43)
    # Keys in the header table bind nothing; the same tag in both tables; unused flag bits.
    yield book([(0x3001001F, 3)], [(0x3001001F, 2)], [None], [[b'a\0']]), None
    yield book([(0x3001001F, 0xFFFFFFFF)], [(0x3001001F, 0xFFFFFFFD)], [None], [[None]]), None
    yield book([(0x3001001F, 0)], [(0x3001001F, 0xFFFFFFFE)], [None], [[None]]), (10, 49)
    # The order: version, count, tables, 9 before 10 before 11 before 12, what follows before 14.
    for version, count, expected in ((0x21, 0, (3, 0)), (0x20, 0, (13, 8)), (0x20, 65_535, (2, 12)), (0x20, 65_536, (13, 8))):
        yield oab.four(version) + bytes(4) + oab.four(count), expected
    two_keys = [(0x3001001F, 2), (0x3003001E, 2)]
    for presence, values, left, expected in (
            (0x01, b'', b'', (9, 48)), (0x81, b'\0', b'x', (9, 48)), (0x00, b'', b'x', (10, 48)), (0x40, b'\0', b'x', (10, 48)),
            (0xC0, b'\xFF\0a\0', b'x', (11, 49)), (0xC0, b'a\0\0', b'x', (11, 51)), (0xC0, b'a\0b\0', b'x', (12, 53))):
        draft = Draft(([], two_keys, [], [[b'a\0', b'b\0']]))
        draft.records[1].presence[0] = presence
        draft.records[1].values = [[0, values]]
        draft.records[1].left = left
        for serial_error in (0, 1):
            draft.serial_error = serial_error
            yield draft.build(), expected
    spoilt = Draft(([], two_keys, [], [[b'a\0', b'b\0']]))
    spoilt.serial_error = 1
    yield spoilt.build(), (14, 4)
    spoilt.tail = b'\0'
    yield spoilt.build(), (13, 53)


# ---------------------------------------------------------------- request 109

# For each list type good elements of unlike lengths, and octets that are no element whatever follows them.
ELEMENTS = {
    0x1003: ((b'\x05', b'\x81\x80', b'\x83\0\0\x01'), (b'\x80', b'\x81\x7F', b'\x82\x80\0', b'\x85\x01')),
    0x101E: ((b'a\0', b'\xFFbc\0', b'd@e\0'), (b'\0',)),
    0x101F: ((b'a\0', 'ü@b\0'.encode(), b'SMTP:c@d\0'), (b'\0', b'\xC3\0', b'ab\xFF\0', b'\xED\xA0\x80\0')),
    0x1102: ((b'\x01\0', b'\x03abc', b'\x02\xFF\0'), (b'\0', b'\x80', b'\x81\x01a')),
}
# An element that lacks its end. The octets behind a record, the next one's size, would end all but the number.
UNENDED = {0x1003: b'\x81', 0x101E: b'ab', 0x101F: b'ab', 0x1102: b'\x03ab'}


def whole_list(type_code):
    return b'\x03' + b''.join(ELEMENTS[type_code][0])


def faulty_lists(type_code):
    """Lists at fault, each with the place in it: every element in turn (broken, missing, past the end), the count."""
    good, broken = ELEMENTS[type_code]
    behind_count = whole_list(type_code)[1:]
    for i in range(3):
        front = b'\x03' + b''.join(good[:i])
        for bad in broken:
            yield front + bad + b''.join(good[i + 1:]), len(front)
        yield front, len(front)
        yield front + UNENDED[type_code], len(front)
    yield b'\x81\x80' + good[0] * 127 + broken[0], 2 + 127 * len(good[0])
    yield b'\x81\x80' + good[0] * 127, 2 + 127 * len(good[0])
    yield b'\x04' + behind_count, 1 + len(behind_count)
    yield b'\x84\xFF\xFF\xFF\xFF' + behind_count, 5 + len(behind_count)
    for count in (b'\0', b'\x80', b'\x81\x7F', b'\x82\x03\0', b'\x85'):
        yield count + behind_count, 0
    for cut in (b'', b'\x81', b'\x84\x03\0'):
        yield cut, 0


def proxy_books():
    """Lists at fault in an address record, behind another value and in the header record, each book with its refusal
    (None: it is good)."""
    # Decision 6: a count that says more than there is, and an element of 1102 at its length.
    yield octets_of(([], [(0x800F101F, 0)], [], [[b'\x03a\0b\0']])), (11, 41 + 5)
    yield octets_of(([], [(0x800F1102, 0)], [], [[b'\x02\x01a\x03b']])), (11, 41 + 3)
    for type_code, (good, broken) in ELEMENTS.items():
        column, whole = (0x800F << 16 | type_code, 0), whole_list(type_code)
        for value, inside in [(whole, None)] + list(faulty_lists(type_code)):
            for table, first in (
                    (([], [column], [], [[value], [whole]]), 41),
                    (([], [column], [], [[whole], [value]]), 41 + len(whole) + 5),
                    (([], [(0x3001001F, 2), column], [], [[b'key\0', value]]), 53),
                    (([column], [column], [value], [[whole]]), 45)):
                yield octets_of(table), None if inside is None else (11, first + inside)
        # The first of two lists at fault is answered; octets behind the last element are none of the list's.
        both = [column, (0x8009 << 16 | type_code, 0)]
        yield octets_of(([], both, [], [[b'\x02' + good[0] + broken[0], b'\0']])), (11, 50 + len(good[0]))
        yield octets_of(([], both, [], [[b'\x01' + good[0], b'\0']])), (11, 50 + len(good[0]))
        yield octets_of(([], [column], [], [[b'\x01' + good[0] + broken[0]]])), (12, 42 + len(good[0]))
