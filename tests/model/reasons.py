"""Books made to ask why a value is missing (request 105), each with its questions and their answers.

What: tables in which a column is missing, stands under another type or in the other table only, or whose value is
absent and listed or not among the record's truncated properties (2.9.2.2.1). Each answer is what request 105 (document
02) and reading 26 ask for, by where the parts were put, known before the model is asked. Why here: the stored cases,
the calls for C programs and the command take them from one place.
"""

import itertools

from . import books, oab

PHONE = 0x3A08001F
FAX = 0x3A23001F
TRUNCATED = (oab.TRUNCATED, 0)


class Asked:
    """A book and what is asked of it: (record, tag, answer), record None for the header record."""

    def __init__(self, header, address, header_row, rows):
        self.table = (header, address, header_row, rows)
        self.draft = books.Draft(self.table)
        self.book = self.draft.build()
        self.questions = []

    def _ask(self, record, tag, *answer):
        self.questions.append((record, tag, answer))
        return self

    def other_type(self, record, tag, column):
        table = 0 if record is None else 1
        return self._ask(record, tag, 'other-type', self.table[table][column][0], self.draft.tag_place(table, column))

    def no_column(self, record, tag):
        return self._ask(record, tag, 'no-column')

    def absent(self, record, tag, column, listed):
        place = self.draft.presence_place(0 if record is None else 1 + record, column)
        return self._ask(record, tag, 'listed' if listed else 'not-listed', place)

    def present(self, record, tag):
        return self._ask(record, tag, 'refused', 18, 0)

    def no_record(self, record, tag):
        return self._ask(record, tag, 'refused', 15, 0)


def list_of(tags):
    return oab.encode_number(len(tags)) + b''.join(oab.encode_number(tag) for tag in tags)


# ---------------------------------------------------------------- listed, or not

def lists(tag):
    """Lists of truncated properties, each with whether the whole tag is among them."""
    half, kind = tag & 0xFFFF0000, tag & 0xFFFF
    others = [half | other for other in oab.TYPES + (0, 5) if other != kind]
    widths = [0, 1, 127, 128, 255, 256, 65_535, 65_536, 0xFFFFFF, 0x1000000, 0xFFFFFFFF]
    for right in ([tag], [tag, tag], [FAX, tag], [tag, FAX], [FAX, tag, 0x3001001F], widths + [tag], others + [tag],
                  [7] * 127 + [tag], [7] * 199 + [tag, 8]):
        yield right, True
    for wrong in ([FAX], [0xFFFFFFFF], [0], [oab.TRUNCATED], widths, others, [half], [kind], [tag >> 16],
                  [half >> 16 | kind << 16], [int.from_bytes(oab.four(tag), 'big')], [tag - 1, tag + 1],
                  [tag ^ 0x10000], [tag ^ 0x80000000], [7] * 128):
        yield wrong, False


def listed(tag, tags, is_listed, first):
    """Only one of three records has the list, the header record or one of two others; the list's column stands before
    the asked one or behind it."""
    columns = [TRUNCATED, (tag, 0)] if first else [(tag, 0), TRUNCATED]
    asked = 1 if first else 0
    for holder in (None, 0, 1):
        rows = {record: [None, None] for record in (None, 0, 1)}
        rows[holder][1 - asked] = list_of(tags)
        made = Asked(columns, columns, rows[None], [rows[0], rows[1]])
        for record in (None, 0, 1):
            made.absent(record, tag, asked, is_listed and record == holder)
        yield made


def listings():
    for tags, is_listed in lists(PHONE):
        yield from listed(PHONE, tags, is_listed, True)
        yield from listed(PHONE, tags, is_listed, False)
    # Whole tags of every width: one octet, three, four and five.
    for tag in (0x00000003, 0x0000001F, 0x00000102, 0x00001003, 0x0001001F, 0x00FF1102, 0x0100001E, 0xFFFF1102):
        for tags, is_listed in (([tag], True), ([FAX, tag, FAX], True), ([FAX], False), ([tag ^ 0x10000], False)):
            yield from listed(tag, tags, is_listed, True)


def lists_elsewhere():
    """No such column; one like it; one in the other table; a value that is there although it is listed."""
    phone, one = (PHONE, 0), list_of([PHONE])
    yield Asked([phone], [phone], [None], [[None]]).absent(None, PHONE, 0, False).absent(0, PHONE, 0, False)
    yield (Asked([TRUNCATED, phone], [phone], [one, None], [[None]])
           .absent(None, PHONE, 1, True).absent(0, PHONE, 0, False))
    yield (Asked([phone], [TRUNCATED, phone], [None], [[one, None]])
           .absent(None, PHONE, 0, False).absent(0, PHONE, 1, True))
    for like in (0x68061003, 0x68041003, 0xE8051003):
        yield Asked([], [(like, 0), phone], [], [[one, None]]).absent(0, PHONE, 1, False)
    number = oab.encode_number(PHONE)
    like = [(0x68050003, 0), (0x68051102, 0), phone]
    made = Asked(like, like, [number, b'\x01\x05' + number, None], [[number, b'\x01\x05' + number, None]])
    for record in (None, 0):
        made.absent(record, PHONE, 2, False).other_type(record, oab.TRUNCATED, 0)
    yield made
    both = [phone, TRUNCATED]
    yield Asked(both, both, [b'1\0', one], [[b'2\0', one]]).present(None, PHONE).present(0, PHONE)


def the_list_itself():
    """The truncated properties' own column is asked for, as any other is."""
    own, other = oab.TRUNCATED, 0x6805001F
    for before in ([], [(PHONE, 0)]):
        columns, at = before + [TRUNCATED], len(before)
        row, lists_itself = [None] * at + [None], [None] * at + [list_of([own])]
        yield (Asked(columns, columns, row, [lists_itself, row]).absent(None, own, at, False).present(0, own)
               .absent(1, own, at, False).other_type(None, other, at).other_type(0, other, at))
        yield Asked(columns, before, lists_itself, [[None] * at]).present(None, own).no_column(0, own)
    yield Asked([], [(other, 0)], [], [[None]]).other_type(0, own, 0).no_column(None, own)


def keys():
    """A key of an address record is there; in the header record it binds nothing, and may be absent."""
    for flags in (2, 3):
        columns = [(PHONE, flags), TRUNCATED]
        for tags in ([PHONE], [FAX], None):
            listing = None if tags is None else list_of(tags)
            yield (Asked(columns, columns, [None, listing], [[b'1\0', listing]]).present(0, PHONE)
                   .absent(None, PHONE, 0, tags == [PHONE]))
        yield Asked(columns, columns, [b'1\0', None], [[b'2\0', None]]).present(None, PHONE).present(0, PHONE)


# ---------------------------------------------------------------- no column of the whole tag

def other_types():
    """The first of several in the table's order, whatever their values; none of a half that is only near."""
    mail = 0x39FE0000
    three = (mail | 0x101E, mail | 0x001E, mail | 0x0102)
    for order in itertools.permutations(three):
        columns = [(0x3001001F, 0)] + [(tag, 0) for tag in order]
        row = [None] + [books.ELEMENTS[0x101E][0][0] if tag & 0xFFFF == 0x001E else None for tag in order]
        made = Asked(columns, columns, [None] * 4, [row])
        for record, kind in itertools.product((None, 0), (0x001F, 0x101F, 0x0003, 0, 5, 0x000C, 0xFFFF)):
            made.other_type(record, mail | kind, 1)
        for near in (0x39FD001F, 0x39FF001F, 0xB9FE001F, 0x391F001F, 0x001F39FE, 0, 0x0000001E, 0xFFFFFFFF, FAX):
            made.no_column(0, near).no_column(None, near)
        yield made
    # Listed or not: what has no column is not absent.
    for tags in ([mail | 0x001F], [mail | 0x001E, FAX]):
        yield (Asked([], [(mail | 0x001E, 0), TRUNCATED], [], [[None, list_of(tags)]])
               .other_type(0, mail | 0x001F, 0).no_column(0, FAX).absent(0, mail | 0x001E, 0, tags[0] == mail | 0x001E))


def whole_beside_other():
    """The whole tag and another type of it: the whole tag's own value is what counts, wherever the other stands."""
    whole, other = 0x39FE001F, 0x39FE001E
    for columns in ([(whole, 0), (other, 0), TRUNCATED], [(other, 0), (whole, 0), TRUNCATED]):
        at = columns.index((whole, 0))
        absent, present = [b'a\0', b'a\0', None], [None, None, None]
        absent[at], present[at] = None, b'b\0'
        lists_whole, lists_other = absent[:2] + [list_of([whole])], absent[:2] + [list_of([other])]
        yield (Asked(columns, columns, absent, [absent, present, lists_whole, lists_other])
               .absent(None, whole, at, False).absent(0, whole, at, False).present(1, whole)
               .absent(2, whole, at, True).absent(3, whole, at, False)
               .present(0, other).absent(1, other, 1 - at, False).other_type(0, 0x39FE0102, 0))


def other_table():
    """A column of the other table doesn't count, neither by its whole tag nor by its upper half."""
    whole, other = 0x39FE001F, 0x39FE001E
    for there in (whole, other):
        yield (Asked([(there, 0)], [(PHONE, 0)], [b'a\0'], [[None]])
               .no_column(0, whole).no_column(0, other).no_column(None, PHONE))
        yield (Asked([(PHONE, 0)], [(there, 0)], [None], [[b'a\0']])
               .no_column(None, whole).no_column(None, other).no_column(0, FAX))
    yield (Asked([(FAX, 0), (other, 0)], [(0x39FE101F, 0), (PHONE, 0), (other, 0)], [None] * 2, [[None] * 3])
           .other_type(None, whole, 1).other_type(0, whole, 0).absent(0, other, 2, False))
    for tag in (0, PHONE, oab.TRUNCATED, 0xFFFFFFFF):
        yield Asked([], [], [], [[]]).no_column(None, tag).no_column(0, tag).no_record(1, tag)


# ---------------------------------------------------------------- places, types, refusals

def wide():
    """Rows and presence octets at every sort of number, with few and many columns in front; a list among them."""
    def columns(half, count, at):
        return [TRUNCATED if i == at else ((half + i) << 16 | oab.TEXT, 0) for i in range(count)]

    for header, address in ((0, 8), (1, 9), (7, 10), (8, 16), (9, 17), (17, 1), (128, 128), (3, 128), (128, 2)):
        for first in (True, False):
            tables = [columns(half, n, 0 if first else n - 1) for half, n in ((0x4000, header), (0x5000, address))]
            tags = [[tag for tag, _ in table] for table in tables]
            few = [[tag for tag in own if tag & 0x10000] for own in tags]
            rows = [[list_of(few[i]) if tag == oab.TRUNCATED and few[i] else None for tag in tags[i]] for i in (0, 1)]
            made = Asked(*tables, rows[0], [rows[1], [None] * address])
            for record, own, some in ((None, tags[0], few[0]), (0, tags[1], few[1]), (1, tags[1], [])):
                for i, tag in enumerate(own):
                    if i in (0, 1, 6, 7, 8, 9, 15, 16, 63, 64, 126, 127) and tag != oab.TRUNCATED:
                        made.absent(record, tag, i, tag in some).other_type(record, tag ^ 1, i)
            yield made.no_column(0, 0x4100001F).no_record(2, tags[1][-1])


def every_type():
    """All ten types of one upper half: each absent, listed and present."""
    columns = [(0x3A00 << 16 | kind, 0) for kind in oab.TYPES] + [TRUNCATED]
    values = [b'\x05', b'\x01', b'/o=a\0', b'a\0', b'b\0', b'\x01\0']
    values += [b'\x01\x05', b'\x01a\0', b'\x01b\0', b'\x01\x01\0', None]
    for i, (tag, _) in enumerate(columns[:-1]):
        lists_it = [None] * 10 + [list_of([tag])]
        made = Asked(columns, columns, lists_it, [[None] * 11, lists_it, values])
        made.absent(None, tag, i, True).absent(0, tag, i, False).absent(1, tag, i, True).present(2, tag)
        yield made.other_type(0, 0x3A000000, 0).other_type(None, 0x3A00FFFF, 0)


def refused():
    """15 for the record comes before everything that the tag could bring."""
    for count in (1, 2):
        made = Asked([(PHONE, 0)], [(PHONE, 0), (FAX, 0)], [None], [[b'1\0', None]] * count)
        for record in (count, count + 1, 65_535, 65_536, 0x7FFFFFFF, 0xFFFFFFFE):
            for tag in (PHONE, FAX, 0, 0x3A08001E, oab.TRUNCATED):
                made.no_record(record, tag)
        yield made.present(count - 1, PHONE).absent(count - 1, FAX, 1, False).absent(None, PHONE, 0, False)


def asked():
    """Every book of the above."""
    for part in (listings, lists_elsewhere, the_list_itself, keys, other_types, whole_beside_other, other_table, wide,
                 every_type, refused):
        yield from part()


# ---------------------------------------------------------------- at random

def with_lists(rng, table):
    """The table with a column of truncated properties in one or both of its own tables: the lists hold some of that
    table's tags, and others."""
    header, address, header_row, rows = list(table[0]), list(table[1]), list(table[2]), [list(row) for row in table[3]]
    for columns, own in ((header, [header_row]), (address, rows)):
        tags = [tag for tag, _ in columns]
        if len(tags) == oab.MOST_COLUMNS or oab.TRUNCATED in tags or rng.random() < 0.2:
            continue
        at = rng.randrange(len(tags) + 1)
        columns.insert(at, TRUNCATED)
        for row in own:
            some = [tag for tag in tags if rng.random() < 0.4]
            some += [tag for tag in (PHONE, 0, 0xFFFFFFFF, *(tag ^ 1 for tag in tags)) if rng.random() < 0.1]
            row.insert(at, list_of(rng.sample(some, len(some))) if some else None)
    return header, address, header_row, rows


def tags_near(rng, table):
    """Tags of both tables, the same under other types, and some that nobody has."""
    tags = [tag for tag, _ in table[0] + table[1]]
    return tags + [tag & 0xFFFF0000 | rng.choice(oab.TYPES + (0, 0xFFFF)) for tag in tags] + [0, oab.TRUNCATED, PHONE]
