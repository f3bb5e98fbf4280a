"""A plain model of version 4 books (uncompressed full details files).

What: judging a book, looking values up or saying why there is none, listing, exporting,
writing and correcting one, a book from a sheet, all on byte strings. Why: the expected output of the tests comes from
here and never from the code under test. The model is written from document 01 (the scope),
document 000 (sections 2.9 to 2.9.6.9) and docs/DECISIONS.md, as straight down from their
words as possible; speed plays no part. "Decision N" below is its number there.
"""

import re

LIMIT = 268_435_456       # most octets of a book (request 111)
MOST_COLUMNS = 128        # most columns of a table
MOST_RECORDS = 65_535     # most address records of a book
VERSION = 0x20
HEADER = 12               # octets of the header
KEY = 2                   # flag bit 1: the column is a key

NUMBER, YES_OR_NO, OBJECT, NARROW, TEXT, BINARY = 0x0003, 0x000B, 0x000D, 0x001E, 0x001F, 0x0102
# The four list types and the type of their elements.
ELEMENT = {0x1003: NUMBER, 0x101E: NARROW, 0x101F: TEXT, 0x1102: BINARY}
# 000D, a reference to another entry, has the form of 001E (2.9.6.3, request 102).
STRINGS = (OBJECT, NARROW, TEXT)
TYPES = (NUMBER, YES_OR_NO, OBJECT, NARROW, TEXT, BINARY, 0x1003, 0x101E, 0x101F, 0x1102)


class Refusal(Exception):
    """A refusal on its way out: its number and its place."""

    def __init__(self, number, place):
        super().__init__(number, place)
        self.number = number
        self.place = place

    def answer(self):
        return ('refused', self.number, self.place)


# ---------------------------------------------------------------- ground

def serial(octets):
    """Cyclic check: start FFFFFFFF, lowest bit of each octet first, no last step."""
    state = 0xFFFFFFFF
    for octet in octets:
        state ^= octet
        for _ in range(8):
            state = (state >> 1) ^ 0xEDB88320 if state & 1 else state >> 1
    return state


def word(octets, at, width=4):
    """The number in `width` octets from `at`, least first."""
    assert at + width <= len(octets)
    return int.from_bytes(octets[at:at + width], 'little')


def four(number):
    return number.to_bytes(4, 'little')


def type_of(tag):
    return tag & 0xFFFF


def number_at(part):
    """The whole number at the front of the part: (value, width), or None."""
    if len(part) == 0:
        return None
    first = part[0]
    if first <= 0x7F:
        return (first, 1)
    if first not in (0x81, 0x82, 0x83, 0x84):
        return None
    count = first - 0x80
    if len(part) < 1 + count:
        return None
    if part[count] == 0:                       # padded: fewer octets hold it
        return None
    if count == 1 and part[1] < 0x80:          # 81 is followed by at least 80
        return None
    return (int.from_bytes(part[1:1 + count], 'little'), 1 + count)


def encode_number(value):
    assert 0 <= value <= 0xFFFFFFFF
    if value <= 127:
        return bytes([value])
    for count in (1, 2, 3, 4):
        if value < 1 << (8 * count):
            return bytes([0x80 + count]) + value.to_bytes(count, 'little')


# RFC 3629, section 4: the allowed first octet and the octets behind it.
TAIL = (0x80, 0xBF)
UTF8_ROWS = (
    ((0x00, 0x7F),),
    ((0xC2, 0xDF), TAIL),
    ((0xE0, 0xE0), (0xA0, 0xBF), TAIL),
    ((0xE1, 0xEC), TAIL, TAIL),
    ((0xED, 0xED), (0x80, 0x9F), TAIL),
    ((0xEE, 0xEF), TAIL, TAIL),
    ((0xF0, 0xF0), (0x90, 0xBF), TAIL, TAIL),
    ((0xF1, 0xF3), TAIL, TAIL, TAIL),
    ((0xF4, 0xF4), (0x80, 0x8F), TAIL, TAIL),
)


def utf8_ok(octets):
    at = 0
    while at < len(octets):
        for row in UTF8_ROWS:
            char = octets[at:at + len(row)]
            if len(char) == len(row) and all(low <= o <= high for o, (low, high) in zip(char, row)):
                at += len(row)
                break
        else:
            return False
    return True


def walk(type_code, part):
    """The end of the value of that type at the front of the part, or None.

    The value may not pass the part's end. The type is one of the ten.
    """
    assert type_code in TYPES
    if type_code == NUMBER:
        got = number_at(part)
        return None if got is None else got[1]
    if type_code == YES_OR_NO:
        return 1 if len(part) >= 1 and part[0] in (0, 1) else None
    if type_code in STRINGS:
        zero = bytes(part).find(0)
        if zero < 1:                           # no final 00, or nothing before it
            return None
        if type_code == TEXT and not utf8_ok(part[:zero]):
            return None
        return zero + 1
    got = number_at(part)                      # a length or a count
    if got is None or got[0] == 0:
        return None
    value, at = got
    if type_code == BINARY:
        return at + value if at + value <= len(part) else None
    for _ in range(value):
        width = walk(ELEMENT[type_code], part[at:])
        if width is None:
            return None
        at += width
    return at


def fault(type_code, part):
    """Where the value at the front of the part, which breaks its form, is at fault (request 109):
    a list at its count if that is wrong, else at the first element at fault; a single value at its start."""
    count = number_at(part) if type_code in ELEMENT else None
    if count is None or count[0] == 0:
        return 0
    at = count[1]
    width = walk(ELEMENT[type_code], part[at:])
    while width is not None:                   # one of the elements is at fault, or the value weren't
        at += width
        width = walk(ELEMENT[type_code], part[at:])
    return at


# ---------------------------------------------------------------- presence

def presence_octets(columns):
    """How many presence octets that many columns take."""
    return (columns + 7) // 8


def bit_of(presence, column):
    """Column 0 is the top bit of the first octet; a bit past the octets is 0."""
    at = column // 8
    return at < len(presence) and presence[at] >> (7 - column % 8) & 1 == 1


def spare_bit_set(presence, columns):
    """Is one of the bits behind the last column, in its octet, 1? (Decision 7.)"""
    at = columns // 8
    if columns % 8 == 0 or at >= len(presence):
        return False
    return presence[at] & (0xFF >> columns % 8) != 0


def with_bit(presence, column):
    octets = bytearray(presence)
    if column // 8 < len(octets):
        octets[column // 8] |= 0x80 >> column % 8
    return bytes(octets)


def presence_of(row):
    presence = bytes(presence_octets(len(row)))
    for i, value in enumerate(row):
        if value is not None:
            presence = with_bit(presence, i)
    return presence


def record_octets(row):
    """A record: size (itself counted), presence, the values in column order."""
    body = presence_of(row) + b''.join(value for value in row if value is not None)
    return four(4 + len(body)) + body


# ---------------------------------------------------------------- judging

class Record:
    """A judged record: its place, its size, and for each column None or (start, end)."""

    def __init__(self, place, size, stretches):
        self.place = place
        self.size = size
        self.stretches = stretches

    def present(self):
        return sum(stretch is not None for stretch in self.stretches)


class Book:
    """What reading a good book gives: columns are (tag, flags & 3)."""

    def __init__(self, header_columns, address_columns, header_record, records):
        self.header_columns = header_columns
        self.address_columns = address_columns
        self.header_record = header_record
        self.records = records


def read_field(book, at):
    """A 4-octet metadata or size field; number 2 at its start where the book ends in it."""
    if at + 4 > len(book):
        raise Refusal(2, at)
    return word(book, at)


def read_table(book, at):
    """A table from its count field on: its columns and where it ends."""
    count = read_field(book, at)
    if count > MOST_COLUMNS:
        raise Refusal(5, at)
    at += 4
    columns = []
    for _ in range(count):
        tag = read_field(book, at)
        flags = read_field(book, at + 4)       # decision 1: both 2s, then 6, then 7
        if type_of(tag) not in TYPES:
            raise Refusal(6, at)
        if tag in [earlier for earlier, _ in columns]:
            raise Refusal(7, at)
        columns.append((tag, flags & 3))
        at += 8
    return columns, at


def read_record(book, at, columns, keys_bind):
    """The record at `at`: 2, 8, 9, 10, the values in order (11), 12."""
    size = read_field(book, at)
    octets = presence_octets(len(columns))
    first = at + 4 + octets
    end = at + size
    if size < 4 + octets or end > len(book):
        raise Refusal(8, at)
    presence = book[at + 4:first]
    if spare_bit_set(presence, len(columns)):
        raise Refusal(9, first - 1)
    if keys_bind:
        for i, (_, flags) in enumerate(columns):
            if flags & KEY and not bit_of(presence, i):
                raise Refusal(10, at + 4 + i // 8)
    stretches = []
    value = first
    for i, (tag, _) in enumerate(columns):
        if not bit_of(presence, i):
            stretches.append(None)
            continue
        width = walk(type_of(tag), book[value:end])
        if width is None:
            raise Refusal(11, value + fault(type_of(tag), book[value:end]))
        stretches.append((value, value + width))
        value += width
    if value != end:
        raise Refusal(12, value)
    return Record(at, size, stretches)


def read_tables(book):
    """The header and the metadata in the published order: the count, both tables and where they end."""
    if len(book) > LIMIT:
        raise Refusal(1, 0)
    if len(book) < HEADER:
        raise Refusal(2, 0)
    if word(book, 0) != VERSION:
        raise Refusal(3, 0)
    count = word(book, 8)
    if count == 0 or count > MOST_RECORDS:
        raise Refusal(13, 8)
    size = read_field(book, 12)
    header_columns, at = read_table(book, 16)
    address_columns, at = read_table(book, at)
    if size != 12 + 8 * (len(header_columns) + len(address_columns)):
        raise Refusal(4, 12)
    return count, header_columns, address_columns, at


def read_book(book):
    """The whole book in the published order; raises the refusal."""
    count, header_columns, address_columns, at = read_tables(book)
    if at == len(book):                        # decision 3: a missing record comes before 2
        raise Refusal(13, 8)
    header_record = read_record(book, at, header_columns, keys_bind=False)
    at += header_record.size
    records = []
    for _ in range(count):
        if at == len(book):
            raise Refusal(13, 8)
        record = read_record(book, at, address_columns, keys_bind=True)
        records.append(record)
        at += record.size
    if at != len(book):
        raise Refusal(13, at)
    if word(book, 4) != serial(book[HEADER:]):
        raise Refusal(14, 4)
    return Book(header_columns, address_columns, header_record, records)


def judge(book):
    try:
        got = read_book(book)
    except Refusal as refusal:
        return refusal.answer()
    return ('good', len(book), got.header_columns, got.address_columns, len(got.records),
            got.header_record.place, got.records[0].place)


def record_named(got, record):
    """The table and the record that are named (None: the header record), else 15."""
    if record is None:
        return got.header_columns, got.header_record
    if record < len(got.records):
        return got.address_columns, got.records[record]
    raise Refusal(15, 0)


def find(got, record, tag):
    """The record and the column that are named, else 15."""
    columns, where = record_named(got, record)
    tags = [column_tag for column_tag, _ in columns]
    if tag not in tags:
        raise Refusal(15, 0)
    return columns, where, tags.index(tag)


def lookup(book, record, tag):
    try:
        _, where, column = find(read_book(book), record, tag)
    except Refusal as refusal:
        return refusal.answer()
    stretch = where.stretches[column]
    return ('absent',) if stretch is None else ('at',) + stretch


# ---------------------------------------------------------------- why there is no value (request 105)

TRUNCATED = 0x68051003    # the truncated properties (2.9.2.2.1): a list of whole tags


def numbers_in(value):
    """The numbers of a list of type 1003, from its encoding."""
    count, at = number_at(value)
    found = []
    for _ in range(count):
        number, width = number_at(value[at:])
        found.append(number)
        at += width
    return found


def truncated(book, columns, where):
    """The tags that the record itself lists; none where that column is missing or absent."""
    for (tag, _), stretch in zip(columns, where.stretches):
        if tag == TRUNCATED and stretch is not None:
            return numbers_in(book[stretch[0]:stretch[1]])
    return []


def why(book, record, tag):
    """Why the record has no value under the whole tag: ('other-type', tag, place of its row), ('no-column',),
    ('listed', place of the presence octet), ('not-listed', that place) or a refusal."""
    try:
        got = read_book(book)
        columns, where = record_named(got, record)
        tags = [column_tag for column_tag, _ in columns]
        if tag in tags and where.stretches[tags.index(tag)] is not None:
            raise Refusal(18, 0)
    except Refusal as refusal:
        return refusal.answer()
    if tag in tags:
        listed = tag in truncated(book, columns, where)
        return ('listed' if listed else 'not-listed', where.place + 4 + tags.index(tag) // 8)
    first_row = 20 if record is None else 20 + 8 * len(got.header_columns) + 4
    for i, other in enumerate(tags):
        if other >> 16 == tag >> 16:
            return ('other-type', other, first_row + 8 * i)
    return ('no-column',)


# ------------------------------------------- a saved index (requests 103 and 111, decisions 41 to 47, 51 to 53)

INDEX_OFFSET = 20         # where the starts begin: behind five fields of four octets
INDEX_WIDTH = 4           # octets of a start, and the fifth field
OLD_OFFSET = 16           # an old index: four fields, starts of three octets
OLD_WIDTH = 3
OLD_LIMIT = 16_777_216    # most octets of a book that an old index is for


def make_index(book, room):
    """The octets of a good book's index: count, length, serial, offset and width, then each start; 17 comes last."""
    try:
        got = read_book(book)
    except Refusal as refusal:
        return refusal.answer()
    index = four(len(got.records)) + four(len(book)) + four(word(book, 4)) + four(INDEX_OFFSET) + four(INDEX_WIDTH)
    index += b''.join(record.place.to_bytes(INDEX_WIDTH, 'little') for record in got.records)
    return ('made', index) if len(index) <= room else ('refused', 17, 0)


def width_of(book, index):
    """The width of the entries, by the kind of the index; 19 for a kind that isn't known or isn't for the book."""
    offset = word(index, 12)
    if offset == OLD_OFFSET:
        if len(book) > OLD_LIMIT:
            raise Refusal(19, 0)
        return OLD_WIDTH
    if offset != INDEX_OFFSET or len(index) < INDEX_OFFSET or word(index, 16) != INDEX_WIDTH:
        raise Refusal(19, 0)
    return INDEX_WIDTH


def beside(book, index, k):
    """The table refusals, 19 for an index that isn't the book's, 15 for the record: the columns, and the entry."""
    count, _, columns, _ = read_tables(book)
    if len(index) < OLD_OFFSET:
        raise Refusal(19, 0)
    width = width_of(book, index)
    if [word(index, at) for at in (0, 4, 8)] != [count, len(book), word(book, 4)]:
        raise Refusal(19, 0)
    offset = word(index, 12)
    if len(index) != offset + width * count:
        raise Refusal(19, 0)
    if k >= count:
        raise Refusal(15, 0)
    return columns, word(index, offset + width * k, width)


def index_entry(book, index, k):
    try:
        _, start = beside(book, index, k)
        if start >= len(book):
            raise Refusal(19, 0)
    except Refusal as refusal:
        return refusal.answer()
    return ('at', start)


def lookup_indexed(book, index, k, tag):
    """15 for the column, 19 for an entry outside the book, the record's own; then the value."""
    try:
        columns, start = beside(book, index, k)
        tags = [column_tag for column_tag, _ in columns]
        if tag not in tags:
            raise Refusal(15, 0)
        if start >= len(book):
            raise Refusal(19, 0)
        stretch = read_record(book, start, columns, keys_bind=True).stretches[tags.index(tag)]
    except Refusal as refusal:
        return refusal.answer()
    return ('absent',) if stretch is None else ('at',) + stretch


# ---------------------------------------------------------------- the listing

def listing(book):
    """What the listing program prints."""
    if len(book) > 65_536:                     # decision 10: 17 before the book is judged
        return 'refused 17 0\n'
    try:
        got = read_book(book)
    except Refusal as refusal:
        return f'refused {refusal.number} {refusal.place}\n'
    lines = [f'book {len(book)} {len(got.header_columns)} {len(got.address_columns)} {len(got.records)}']
    head = got.header_record
    lines.append(f'header {head.place} {head.size} {head.present()}')
    for number, record in enumerate(got.records):
        lines.append(f'record {number} {record.place} {record.size} {record.present()}')
    return ''.join(line + '\n' for line in lines)


def table_of(book):
    """The table of a good book: both column lists, the header row and the rows."""
    got = read_book(book)

    def row(record):
        return [None if s is None else bytes(book[s[0]:s[1]]) for s in record.stretches]

    return got.header_columns, got.address_columns, row(got.header_record), [row(r) for r in got.records]


# ---------------------------------------------------------------- a sheet (request 101, RFC 4180)

EXPORTED = (NUMBER, YES_OR_NO, NARROW, TEXT)
MOST_CHOSEN = 16


def sheet_field(tag, value):
    """The text of a value, from its encoding; None is absent."""
    if value is None:
        return b''
    if type_of(tag) == NUMBER:
        return b'%d' % number_at(value)[0]
    if type_of(tag) == YES_OR_NO:
        return b'%d' % value[0]
    text = value[:-1]
    if any(octet in b',"\r\n' for octet in text):
        return b'"' + text.replace(b'"', b'""') + b'"'
    return text


def sheet_line(fields):
    return b','.join(fields) + b'\r\n'


def make_sheet(book, tags):
    """The whole text; the book's refusals, 15 for any unknown tag, 18 for the choice (reading 23)."""
    columns = [tag for tag, _ in read_book(book).address_columns]
    if any(tag not in columns for tag in tags):
        raise Refusal(15, 0)
    if any(type_of(tag) not in EXPORTED for tag in tags):
        raise Refusal(18, 0)
    if not 1 <= len(tags) <= MOST_CHOSEN or len(set(tags)) < len(tags):
        raise Refusal(18, 0)
    text = sheet_line([b'%08X' % tag for tag in tags])
    for row in table_of(book)[3]:
        text += sheet_line([sheet_field(tag, row[columns.index(tag)]) for tag in tags])
    return text


def sheet_length(book, tags):
    try:
        return ('made', len(make_sheet(book, tags)))
    except Refusal as refusal:
        return refusal.answer()


def sheet(book, tags, room):
    """The octets of the sheet; 17 comes last."""
    try:
        text = make_sheet(book, tags)
    except Refusal as refusal:
        return refusal.answer()
    return ('made', text) if len(text) <= room else ('refused', 17, 0)


# ---------------------------------------------------------------- laying a book down

def table_octets(columns):
    rows = b''.join(four(tag) + four(flags & 3) for tag, flags in columns)
    return four(len(columns)) + rows


def metadata_octets(header_columns, address_columns):
    tables = table_octets(header_columns) + table_octets(address_columns)
    return four(4 + len(tables)) + tables


def write_book(header_columns, address_columns, header_row, rows):
    """The book of a table; a row holds for each column None or the value's encoding."""
    body = metadata_octets(header_columns, address_columns)
    body += record_octets(header_row)
    body += b''.join(record_octets(row) for row in rows)
    return four(VERSION) + four(serial(body)) + four(len(rows)) + body


# ---------------------------------------------------------------- writing

class Writing:
    """A writing in progress. Each call answers ('done', written length) or a refusal.

    A refused call changes neither the buffer nor the state, a refused begin neither.
    """

    def __init__(self):
        self.columns = None        # the two tables, header table first; None before begin
        self.buffer = None         # the bytearray lent at begin
        self.written = 0           # octets written so far
        self.closed = 0            # records closed, the header record among them
        self.record = None         # the open record's place, or None
        self.next = 0              # lowest column of the open record that may still be given
        self.element = None        # the element type of the list begun last
        self.left = 0              # elements that list still lacks
        self.finished = False

    # The calls; each is its checks in the published order, then what it writes.

    def begin(self, header_tags, header_flags, address_tags, address_flags, buffer):
        try:
            return self._begin(header_tags, header_flags, address_tags, address_flags, buffer)
        except Refusal as refusal:
            return refusal.answer()

    def open(self):
        return self._call(self._open)

    def number(self, tag, value):
        return self._call(self._value, tag, 'number', value)

    def yes_or_no(self, tag, value):
        return self._call(self._value, tag, 'yes or no', value)

    def octets(self, tag, value):
        return self._call(self._value, tag, 'octets', value)

    def list(self, tag, count):
        return self._call(self._list, tag, count)

    def element_number(self, value):
        return self._call(self._element, 'number', value)

    def element_octets(self, value):
        return self._call(self._element, 'octets', value)

    def close(self):
        return self._call(self._close)

    def finish(self):
        return self._call(self._finish)

    # Their insides.

    def _call(self, call, *arguments):
        try:
            if self.finished or self.written > len(self.buffer):
                raise Refusal(15, 0)
            call(*arguments)
        except Refusal as refusal:
            return refusal.answer()
        return ('done', self.written)

    def _begin(self, header_tags, header_flags, address_tags, address_flags, buffer):
        if len(header_tags) != len(header_flags) or len(address_tags) != len(address_flags):
            raise Refusal(15, 0)
        for tags, first in ((header_tags, 0), (address_tags, 128)):
            if len(tags) > MOST_COLUMNS:
                raise Refusal(5, first + 128)
            for i, tag in enumerate(tags):
                if type_of(tag) not in TYPES:
                    raise Refusal(6, first + i)
                if tag in tags[:i]:
                    raise Refusal(7, first + i)
        header_columns = [(tag, flags & 3) for tag, flags in zip(header_tags, header_flags)]
        address_columns = [(tag, flags & 3) for tag, flags in zip(address_tags, address_flags)]
        octets = four(VERSION) + four(0) + four(0) + metadata_octets(header_columns, address_columns)
        if len(octets) > len(buffer):
            raise Refusal(17, 0)
        self.__init__()
        self.columns = (header_columns, address_columns)
        self.buffer = buffer
        self._append(octets)
        return ('done', self.written)

    def _append(self, octets):
        self.buffer[self.written:self.written + len(octets)] = octets
        self.written += len(octets)

    def _table(self):
        """The table of the record that is open or would be opened next."""
        return self.columns[0] if self.closed == 0 else self.columns[1]

    def _room(self, count):
        """16 where that many octets more pass the limit, 17 where they don't fit."""
        if self.written + count > LIMIT:
            raise Refusal(16, 0)
        if self.written + count > len(self.buffer):
            raise Refusal(17, 0)

    def _open(self):
        if self.record is not None:
            raise Refusal(15, 0)
        if self.closed == 1 + MOST_RECORDS:    # the header record and 65,535 address records
            raise Refusal(16, 0)
        octets = bytes(4 + presence_octets(len(self._table())))
        self._room(len(octets))
        self.record, self.next = self.written, 0
        self._append(octets)

    def _column(self, tag):
        """The column that may take a value now, else 15."""
        if self.record is None or self.left > 0:
            raise Refusal(15, 0)
        tags = [column_tag for column_tag, _ in self._table()]
        if tag not in tags or tags.index(tag) < self.next:
            raise Refusal(15, 0)
        return tags.index(tag)

    def _give(self, column, octets):
        self._room(len(octets))
        self._append(octets)
        self.buffer[self.record + 4 + column // 8] |= 0x80 >> column % 8
        self.next = column + 1

    def _value(self, tag, kind, value):
        column = self._column(tag)
        self._give(column, encoding(type_of(tag), kind, value))

    def _list(self, tag, count):
        column = self._column(tag)
        if type_of(tag) not in ELEMENT or count == 0:
            raise Refusal(18, 0)
        self._give(column, encode_number(count))
        self.element, self.left = ELEMENT[type_of(tag)], count

    def _element(self, kind, value):
        if self.record is None or self.left == 0:
            raise Refusal(15, 0)
        octets = encoding(self.element, kind, value)
        self._room(len(octets))
        self._append(octets)
        self.left -= 1

    def _close(self):
        if self.record is None or self.left > 0:
            raise Refusal(15, 0)
        if self.closed > 0:
            columns = self.columns[1]
            presence = self.buffer[self.record + 4:self.record + 4 + presence_octets(len(columns))]
            for i, (_, flags) in enumerate(columns):
                if flags & KEY and not bit_of(presence, i):
                    raise Refusal(16, 0)
        self.buffer[self.record:self.record + 4] = four(self.written - self.record)
        self.record = None
        self.closed += 1

    def _finish(self):
        if self.record is not None or self.closed == 0:
            raise Refusal(15, 0)
        if self.closed == 1:
            raise Refusal(16, 0)
        self.buffer[8:12] = four(self.closed - 1)
        self.buffer[4:8] = four(serial(self.buffer[HEADER:self.written]))
        self.finished = True


def encoding(type_code, kind, value):
    """A value handed over by kind, encoded for a column or element of that type, else 18."""
    if type_code == NUMBER and kind == 'number':
        return encode_number(value)
    if type_code == YES_OR_NO and kind == 'yes or no':
        return bytes([1 if value else 0])
    if type_code in STRINGS and kind == 'octets':
        octets = bytes(value) + b'\0'
    elif type_code == BINARY and kind == 'octets' and len(value) <= 0xFFFFFFFF:
        octets = encode_number(len(value)) + bytes(value)
    else:
        raise Refusal(18, 0)
    if walk(type_code, octets) != len(octets):  # empty, a 00 inside, or no UTF-8
        raise Refusal(18, 0)
    return octets


# ---------------------------------------------------------------- the sheet comes back (request 106, reading 27)

class Part:
    """A part of a text by two patterns: what it is as a whole, and what its beginnings are, the empty one among them.
    A text is a beginning of one part behind another where it begins the first, or is all of it and a beginning of the
    second; so beginnings are made along with the wholes, and no text is ever read octet by octet."""

    def __init__(self, whole, beginning):
        self.whole, self.beginning = whole, beginning

    def all_of(self, text):
        return re.fullmatch(self.whole, text) is not None

    def fault(self, text):
        """The least p at which the text up to and with octet p can't begin this part, else the text's end. What stands
        in front of a beginning's end is a beginning, too, so p is found by halves."""
        low, high = 0, len(text)
        while low < high:
            middle = (low + high) // 2
            if re.fullmatch(self.beginning, text[:middle + 1]):
                low = middle + 1
            else:
                high = middle
        return low


def some(octets, least, most):
    """From least to most octets of a set of octets, most None: any number."""
    most = '' if most is None else most
    return Part(b'[%b]{%d,%b}' % (octets, least, str(most).encode()), b'[%b]{0,%b}' % (octets, str(most).encode()))


def either(*parts):
    return Part(b'(?:%b)' % b'|'.join(part.whole for part in parts),
                b'(?:%b)' % b'|'.join(part.beginning for part in parts))


def behind(first, *rest):
    """One part behind another."""
    if not rest:
        return first
    second = behind(*rest)
    return Part(first.whole + second.whole, b'(?:%b|%b%b)' % (first.beginning, first.whole, second.beginning))


def repeated(part):
    return Part(b'(?:%b)*' % part.whole, b'(?:%b)*%b' % (part.whole, part.beginning))


COMMA, QUOTE, END = some(b',', 1, 1), some(b'"', 1, 1), behind(some(b'\\r', 1, 1), some(b'\\n', 1, 1))
DIGITS = either(some(b'0', 0, 1), behind(some(b'1-9', 1, 1), some(b'0-9', 0, None)))
TRUTH = some(b'01', 0, 1)
CHARACTERS = some(b'^",\\r\\n\\0', 0, None)
IN_QUOTES = repeated(either(some(b'^"\\0', 1, 1), behind(QUOTE, QUOTE)))


def spelled(plain, quoted):
    return either(plain, behind(QUOTE, quoted, QUOTE))


FIELD = {NUMBER: spelled(DIGITS, DIGITS), YES_OR_NO: spelled(TRUTH, TRUTH), NARROW: spelled(CHARACTERS, IN_QUOTES)}
FIELD[TEXT] = FIELD[NARROW]
TAG = spelled(some(b'0-9A-F', 8, 8), some(b'0-9A-F', 8, 8))


def first_line(most):
    """1 to `most` tags, and the line's end."""
    return behind(TAG, END if most == 1 else either(END, behind(COMMA, first_line(most - 1))))


FIRST_LINE = first_line(MOST_CHOSEN)
# A field that has ended, and what ended it; the CR alone where the text goes on wrongly, or not at all.
ENDED = re.compile(rb'("(?:[^"]|"")*"|[^",\r\n]*)(,|\r\n?)')


def lines_of(tags):
    """The lines behind the first: a field for each tag."""
    parts = [FIELD[type_of(tags[0])]]
    for tag in tags[1:]:
        parts += [COMMA, FIELD[type_of(tag)]]
    return repeated(behind(*parts, END))


def unquoted(field):
    return field[1:-1].replace(b'""', b'"') if field[:1] == b'"' else field


def value_of(tag, content, place):
    """What a field holds, to be given to the writer; None is absent."""
    if content == b'':
        return None
    if type_of(tag) == NUMBER:
        if len(content) > 10 or int(content) > 0xFFFFFFFF:
            raise Refusal(20, place)
        return int(content)
    if type_of(tag) == YES_OR_NO:
        return content == b'1'
    if type_of(tag) == TEXT and not utf8_ok(content):
        raise Refusal(20, place)
    return content


def read_first_line(text):
    """The tags, and where the line ends."""
    line = re.match(FIRST_LINE.whole, text)
    if not line:
        raise Refusal(20, FIRST_LINE.fault(text))
    return [int(unquoted(field), 16) for field in line[0][:-2].split(b',')], line.end()


def read_lines(text, at, tags):
    """The values of the lines from `at` on. Those of the fields that have ended are looked at up to the octet at fault,
    so the first fault that is met is told."""
    lines = lines_of(tags)
    end = at + lines.fault(text[at:])
    good, start, values = text[:end], at, []
    while field := ENDED.match(good, at):
        values.append(value_of(tags[len(values) % len(tags)], unquoted(field[1]), at))
        at = field.end()
    if not lines.all_of(text[start:]):
        raise Refusal(20, end)
    return [values[i:i + len(tags)] for i in range(0, len(values), len(tags))]


def done(answer):
    if answer[0] == 'refused':
        raise Refusal(*answer[1:])


def give(writing, tag, value):
    """A value by its kind."""
    kind = type_of(tag)
    call = {NUMBER: writing.number, YES_OR_NO: writing.yes_or_no}.get(kind, writing.octets)
    done(call(tag, value))


def give_list(writing, tag, value):
    """A list by its count and then each element, from its encoding."""
    count, at = number_at(value)
    done(writing.list(tag, count))
    kind = ELEMENT[type_of(tag)]
    for _ in range(count):
        element = value[at:at + walk(kind, value[at:])]
        at += len(element)
        done(writing.element_number(number_at(element)[0]) if kind == NUMBER
             else writing.element_octets(single(kind, element)))


def single(kind, value):
    """What is handed over for a single value, from its encoding."""
    if kind == NUMBER:
        return number_at(value)[0]
    if kind == YES_OR_NO:
        return value == b'\1'
    return value[number_at(value)[1]:] if kind == BINARY else value[:-1]


def give_header(writing, heads, record):
    """The header record, one good record to its last octet or 18, given value by value."""
    columns = [(tag, 0) for tag in heads]
    offered_record(record, columns)
    done(writing.open())
    for tag, stretch in zip(heads, read_record(record, 0, columns, keys_bind=False).stretches):
        if stretch is not None:
            value = record[stretch[0]:stretch[1]]
            if type_of(tag) in ELEMENT:
                give_list(writing, tag, value)
            else:
                give(writing, tag, single(type_of(tag), value))
    done(writing.close())


def from_sheet(text, flags, heads, header_flags, record, room):
    """The book of a sheet's text, with flags for its columns, a header table and a header record: ('made', octets)."""
    try:
        tags, at = read_first_line(text)
        if len(flags) != len(tags):
            raise Refusal(15, 0)
        if any(type_of(tag) not in EXPORTED for tag in tags):
            raise Refusal(18, 0)
        rows = read_lines(text, at, tags)
        writing, buffer = Writing(), bytearray(room)
        done(writing.begin(heads, header_flags, tags, flags, buffer))
        give_header(writing, heads, record)
        for row in rows:
            done(writing.open())
            for tag, value in zip(tags, row):
                if value is not None:
                    give(writing, tag, value)
            done(writing.close())
        done(writing.finish())
    except Refusal as refusal:
        return refusal.answer()
    return ('made', bytes(buffer[:writing.written]))


# ---------------------------------------------------------------- correcting

def book_under_correction(buffer, length):
    """15 for the stated length, then the book's own refusals."""
    if length > len(buffer):
        raise Refusal(15, 0)
    return read_book(bytes(buffer[:length]))


def corrected(buffer, length, at, end, octets, count):
    """Put `octets` in the place of the book's octets at..end, then count and serial.

    16 for the limit and 17 for the room come first. Octets from the new length up to the
    old become zero; those past both stay.
    """
    new_length = length - (end - at) + len(octets)
    if new_length > LIMIT:
        raise Refusal(16, 0)
    if new_length > len(buffer):
        raise Refusal(17, 0)
    book = bytearray(buffer[:at]) + octets + buffer[end:length]
    book[8:12] = four(count)
    book[4:8] = four(serial(book[HEADER:]))
    buffer[:new_length] = book
    for i in range(new_length, length):
        buffer[i] = 0
    return ('done', new_length)


def row_with(buffer, where, column, value):
    """The octets of a record once one column holds `value` (None: nothing)."""
    row = [None if s is None else bytes(buffer[s[0]:s[1]]) for s in where.stretches]
    row[column] = value
    return record_octets(row)


def set_value(buffer, length, record, tag, encoding):
    try:
        got = book_under_correction(buffer, length)
        _, where, column = find(got, record, tag)
        if walk(type_of(tag), encoding) != len(encoding):
            raise Refusal(18, 0)
        octets = row_with(buffer, where, column, bytes(encoding))
        return corrected(buffer, length, where.place, where.place + where.size, octets, len(got.records))
    except Refusal as refusal:
        return refusal.answer()


def clear_value(buffer, length, record, tag):
    try:
        got = book_under_correction(buffer, length)
        columns, where, column = find(got, record, tag)
        if record is not None and columns[column][1] & KEY:
            raise Refusal(16, 0)
        octets = row_with(buffer, where, column, None)
        return corrected(buffer, length, where.place, where.place + where.size, octets, len(got.records))
    except Refusal as refusal:
        return refusal.answer()


def insert_record(buffer, length, k, record):
    try:
        got = book_under_correction(buffer, length)
        if k > len(got.records):
            raise Refusal(15, 0)
        record = bytes(record)
        offered_record(record, got.address_columns)
        if len(got.records) == MOST_RECORDS:
            raise Refusal(16, 0)
        at = length if k == len(got.records) else got.records[k].place
        return corrected(buffer, length, at, at, record, len(got.records) + 1)
    except Refusal as refusal:
        return refusal.answer()


def offered_record(record, columns):
    """8, 9, 11, 12, or more or fewer octets than one record: 18; then a missing key: 16."""
    try:
        read_record(record, 0, columns, keys_bind=False)
    except Refusal:
        raise Refusal(18, 0) from None
    if word(record, 0) != len(record):
        raise Refusal(18, 0)
    for i, (_, flags) in enumerate(columns):
        if flags & KEY and not bit_of(record[4:4 + presence_octets(len(columns))], i):
            raise Refusal(16, 0)


def delete_record(buffer, length, k):
    try:
        got = book_under_correction(buffer, length)
        if k >= len(got.records):
            raise Refusal(15, 0)
        if len(got.records) == 1:
            raise Refusal(16, 0)
        where = got.records[k]
        return corrected(buffer, length, where.place, where.place + where.size, b'', len(got.records) - 1)
    except Refusal as refusal:
        return refusal.answer()
