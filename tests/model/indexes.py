"""Octets that are lent as a saved index, and books under a right index whose records are damaged.

What: for a book its own index, of the new and of the old kind, every sort of wrong one, indexes with an entry changed,
and records spoilt on purpose; each with the answer that requests 103 and 111 (document 02) and readings 25 and 32 ask
for, known before the model is asked. Why here: the stored cases, the calls for C programs and the command take them
from one place.
"""

from . import books, oab


def own(book):
    """The index of a good book."""
    kind, index = oab.make_index(book, len(book) + 1000)
    assert kind == 'made'
    return index


def old(book):
    """The same as it was made before request 111: four fields, and starts of three octets."""
    places = [record.place for record in oab.read_book(book).records]
    return own(book)[:12] + oab.four(16) + b''.join(place.to_bytes(3, 'little') for place in places)


def front(index):
    """How many octets stand in front of the starts."""
    return oab.word(index, 12)


def width(index):
    """How many octets a start takes."""
    return 3 if front(index) == 16 else 4


def start(index, k):
    return oab.word(index, front(index) + width(index) * k, width(index))


def damaged(index):
    """Cut, too long, a field of the header changed: 19."""
    behind, long = front(index), width(index)
    for n in (1, 15, behind - 1, behind, len(index) - long, len(index) - 1):
        yield index[:n]
    for tail in (b'\0', index[-1:], index[-long:], bytes(long)):
        yield index + tail
    for at in range(behind):                                                # every octet of a field
        for bit in (0x01, 0x80):
            yield index[:at] + bytes([index[at] ^ bit]) + index[at + 1:]
    for offset in (0, 12, 15, 16, 17, 19, 20, 21, 24, 0x10000010, 0x10000014, 0xFFFFFFFF):
        if offset != behind:
            yield index[:12] + oab.four(offset) + index[16:]
    yield index[:4] + index[8:12] + index[4:8] + index[12:]                 # length and serial exchanged
    count = oab.word(index, 0)
    yield oab.four(count + 1) + index[4:] + index[-long:]                   # an entry more, and its count
    if count > 1:
        yield oab.four(count - 1) + index[4:-long]
    yield index[::-1]


def unknown(book):
    """Neither kind, though all else is right: other widths with their entries, an offset with the other's entries."""
    index, before = own(book), old(book)
    starts = [start(index, k) for k in range(oab.word(index, 0))]
    for long in (2, 3, 5, 8):
        entries = b''.join((place % 256 ** long).to_bytes(long, 'little') for place in starts)
        yield index[:16] + oab.four(long) + entries
        yield index[:16] + oab.four(4) + entries
    for said in (0, 1, 3, 5, 0x104, 0x04000000, 0xFFFFFFFF):
        yield index[:16] + oab.four(said) + index[20:]
    yield before[:12] + oab.four(16) + index[20:]                           # offset 16, entries of four octets
    yield before[:12] + oab.four(20) + before[16:]                          # offset 20, and no width
    yield before[:12] + oab.four(16) + oab.four(3) + before[16:]            # offset 16, and a width


def wrong(book, other):
    """Each index is answered 19 at 0; `other` is another good book."""
    yield b''
    yield from damaged(own(book))
    yield from damaged(old(book))
    yield from unknown(book)
    if own(other) != own(book):
        yield own(other)                                                    # foreign
        yield old(other)


def with_entry(index, k, start):
    at = front(index) + width(index) * k
    return index[:at] + start.to_bytes(width(index), 'little') + index[at + width(index):]


def outside(book, index):
    """Starts that no record of the book can have: 19 once record and column are found."""
    starts = (len(book), len(book) + 1, 0xFFFFFE, 0xFFFFFF)
    if width(index) == 4:                       # the fourth octet counts
        starts += tuple(start(index, 0) + (octet << 24) for octet in (1, 0x10, 0x80)) + (0xFFFFFFFF,)
    return starts


def near_end(book):
    """Starts at which the book ends inside the size field: 2 there."""
    return tuple(len(book) - n for n in (1, 2, 3) if n < len(book))


def spoilt(table, k):
    """(book, refusal): record k of the table's book spoilt, and nothing else, under the index of the good book."""
    book = books.octets_of(table)
    columns = table[1]
    record = oab.read_book(book).records[k]
    at, room = record.place, oab.presence_octets(len(columns))
    first = at + 4 + room
    present = [i for i, stretch in enumerate(record.stretches) if stretch]

    def put(place, octets):
        return book[:place] + bytes(octets) + book[place + len(octets):]

    for size in {0, 3, 3 + room}:
        yield put(at, oab.four(size)), (8, at)
    for size in (len(book) - at + 1, 0x7FFFFFFF, 0xFFFFFFFF):
        yield put(at, oab.four(size)), (8, at)
    for bit in range(len(columns) % 8 or 8, 8):
        yield put(first - 1, [book[first - 1] | 0x80 >> bit]), (9, first - 1)
    for i in present:
        place = at + 4 + i // 8
        gone = put(place, [book[place] & ~(0x80 >> i % 8)])
        if columns[i][1] & oab.KEY:
            yield gone, (10, place)
        elif i == present[-1]:
            yield gone, (12, record.stretches[i][0])
    for i in present:
        start, end = record.stretches[i]
        kind = oab.type_of(columns[i][0])
        if kind == oab.YES_OR_NO:
            yield put(start, b'\x02'), (11, start)
        elif kind == oab.TEXT:
            yield put(start, b'\xFF'), (11, start)
        elif kind in oab.STRINGS and i == present[-1]:
            yield put(end - 1, b'a'), (11, start)
        elif kind in oab.ELEMENT:
            yield put(start, b'\x00'), (11, start)
