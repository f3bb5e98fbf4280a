"""Books of any length up to the limit, their indexes and their sheets, laid down by hand.

What: a good book of exactly as many octets as asked for, with the places of its records, the same book with another
first address, its index of either kind and its sheet; books of one long string and of sixteen columns. Why beside the
model: the model judges octet by octet and would take minutes over 256 MiB. Here the form is known by construction
(documents 000 and 01), and the serial is zlib's check with its last step undone, which check_model.py holds to the
model's own.
"""

import zlib

from . import oab

COLUMNS = [(0x39FE001F, 2), (0x3001001F, 0)]
FRONT = bytes(12) + oab.metadata_octets([], COLUMNS) + oab.record_octets([])


def sealed(octets, count):
    """The octets with version, serial and count in front of them."""
    octets[0:4], octets[8:12] = oab.four(32), oab.four(count)
    octets[4:8] = oab.four(zlib.crc32(memoryview(octets)[12:]) ^ 0xFFFFFFFF)
    return octets


def book(size, most=60_000):
    """A good book of `size` octets and the places of its records, some `most` at the most; the last is filled up."""
    long = max(300, size // most)
    filler = b'x' * (long + 100)
    octets, places = bytearray(FRONT), []
    while size - len(octets) > 2 * long + 1000:
        k = len(places)
        places.append(len(octets))
        octets += oab.record_octets([b'%06d@example\0' % k, filler[:long - 100 + k % 200] + b'\0'])
    places.append(len(octets))
    octets += oab.record_octets([b'last\0', b'y' * (size - len(octets) - 11) + b'\0'])
    assert len(octets) == size
    return sealed(octets, len(places)), places


def with_first(octets, places, address):
    """The book with another address in its first record."""
    name = octets[octets.index(0, places[0] + 5) + 1:places[1]]
    row = oab.record_octets([address + b'\0', bytes(name)])
    return sealed(octets[:places[0]] + row + octets[places[1]:], len(places))


def sheet(octets, places, tags):
    """By document 02, of the columns above: no value of the book above holds a mark, and none is absent."""
    lines = [b','.join(b'%08X' % tag for tag in tags)]
    for place in places:
        first = octets.index(0, place + 5)
        values = {COLUMNS[0][0]: octets[place + 5:first], COLUMNS[1][0]: octets[first + 1:octets.index(0, first + 1)]}
        lines.append(b','.join(values[tag] for tag in tags))
    return b''.join(line + b'\r\n' for line in lines)


def one_string(size, octet):
    """A good book of `size` octets whose one record has a name of nothing but that octet; and how many there are."""
    octets = bytearray(FRONT)
    count = size - len(octets) - 8
    octets += oab.record_octets([b'a\0', octet * count + b'\0'])
    assert len(octets) == size
    return sealed(octets, 1), count


def sixteen(size):
    """A good book of at most `size` octets with sixteen columns, 65,535 equal records; and its sheet."""
    tags = [(0x3A00 + i) << 16 | (0x1F, 0x1E)[i % 2] for i in range(16)]
    octets = bytearray(12) + oab.metadata_octets([], [(tag, 0) for tag in tags]) + oab.record_octets([])
    long = ((size - len(octets)) // oab.MOST_RECORDS - 6 - 16) // 16
    values = [bytes([0x41 + i]) * (long - i % 3) + b'\0' for i in range(16)]
    octets += oab.record_octets(values) * oab.MOST_RECORDS
    assert len(octets) <= size
    line = b','.join(value[:-1] for value in values) + b'\r\n'
    head = b','.join(b'%08X' % tag for tag in tags) + b'\r\n'
    return sealed(octets, oab.MOST_RECORDS), tags, head + line * oab.MOST_RECORDS


def index(octets, places):
    """By document 02: count, length, serial, offset 20, width 4, then the starts in four octets."""
    front = oab.four(len(places)) + oab.four(len(octets)) + bytes(octets[4:8]) + oab.four(20) + oab.four(4)
    return front + b''.join(place.to_bytes(4, 'little') for place in places)


def old_index(octets, places):
    """As before request 111: offset 16, no width, the starts in three octets, cut where they don't fit."""
    front = oab.four(len(places)) + oab.four(len(octets)) + bytes(octets[4:8]) + oab.four(16)
    return front + b''.join(place.to_bytes(4, 'little')[:3] for place in places)
