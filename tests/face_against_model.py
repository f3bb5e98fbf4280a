"""Drives the C face (include/windtrellis.h) beside the model and compares every answer, every number and every octet.

Run from the top: python3 tests/face_against_model.py [SEED]. The library is that of `make shared`; where the
environment says LIBRARY='a.o b.o ..', it is one linked of these objects, as for a machine that the kit doesn't compile
for. The calls are those of make.py's streams made anew with other seeds: judging and columns, lookups, reasons,
indexes, sheets, books from sheets, writings, corrections; then serials of any octets. Each is made on the model and on
the library, from the same octets.
Writings also get another buffer between the calls: larger, smaller, elsewhere. Ends with "N calls, 0 differ".
"""

import ctypes
import os
import random
import re
import subprocess
import sys
from pathlib import Path

sys.dont_write_bytecode = True

import make
from model import books, imports, indexes, oab, reasons, sheets

TOP = Path(__file__).resolve().parent.parent
SHIM = 0xA5A5A5A5A5A5A5A5       # what the numbers of a struct are before a call
HEADER = (1 << 64) - 1

calls = 0
differ = 0


def load():
    objects = os.environ.get('LIBRARY', '').split()
    if not objects:
        subprocess.run(['make', '-s', 'shared'], cwd=TOP, check=True)
        return ctypes.CDLL(str(TOP / 'target/oab/libwindtrellis.so'))
    linked = TOP / 'target/linked/libwindtrellis.so'
    linked.parent.mkdir(parents=True, exist_ok=True)
    subprocess.run(['cc', '-shared', '-o', linked, *objects], check=True)
    return ctypes.CDLL(str(linked))


# ---- the structs of the header

class Numbers(ctypes.Structure):
    """A struct of 64-bit numbers, each SHIM until a call says otherwise."""

    def __init__(self):
        super().__init__()
        size = ctypes.sizeof(self)
        ctypes.memmove(ctypes.addressof(self), SHIM.to_bytes(8, 'little') * (size // 8), size)

    def list(self):
        return list((ctypes.c_uint64 * (ctypes.sizeof(self) // 8)).from_buffer_copy(self))


def fields(*names):
    return [(name, ctypes.c_uint64) for name in names]


class Judged(Numbers):
    _fields_ = fields('place', 'length', 'count', 'header', 'first', 'header_columns', 'address_columns')


class Counted(Numbers):
    _fields_ = fields('place', 'count')


class Found(Numbers):
    _fields_ = fields('place', 'present', 'start', 'end')


class Reason(Numbers):
    _fields_ = fields('place', 'reason', 'shown', 'tag')


class Length(Numbers):
    _fields_ = fields('place', 'length')


class Start(Numbers):
    _fields_ = fields('place', 'start')


class Writing(Numbers):
    _fields_ = fields('place', 'written') + [('rest', ctypes.c_uint64 * 8)]


def octets(data):
    return (ctypes.c_uint8 * max(len(data), 1)).from_buffer_copy(bytes(data) or b'\0'), ctypes.c_size_t(len(data))


def words(numbers):
    return (ctypes.c_uint32 * max(len(numbers), 1))(*numbers), ctypes.c_size_t(len(numbers))


def refused(struct, place):
    """Where a call is refused, every number behind the place is 0."""
    return [place] + [0] * (len(struct.list()) - 1)


def found(out, want):
    """A lookup's answer in numbers."""
    if want[0] == 'at':
        return 0, [0, 1, want[1], want[2]]
    return (0, [0, 0, 0, 0]) if want[0] == 'absent' else (want[1], refused(out, want[2]))


def reasoned(out, want):
    """A reason in numbers."""
    if want[0] == 'refused':
        return want[1], refused(out, want[2])
    if want[0] == 'other-type':
        return 0, [0, 1, want[2], want[1]]
    return 0, [0, 2, 0, 0] if want[0] == 'no-column' else [0, 3 if want[0] == 'listed' else 4, want[1], 0]


def compare(what, want, got):
    global calls, differ
    calls += 1
    if want != got:
        differ += 1
        if differ <= 10:
            print('differs:', what, 'model', want, 'library', got)


def named(record):
    return ctypes.c_uint64(HEADER if record is None else record)


class Face:
    def __init__(self, library):
        self.lib = library
        library.wt_serial.restype = library.wt_version.restype = ctypes.c_uint32

    def version(self):
        header = (TOP / 'include/windtrellis.h').read_text()
        compare('version', int(re.search(r'#define WT_VERSION (\d+)u', header)[1]), self.lib.wt_version())

    def judge(self, book):
        want = oab.judge(book)
        out = Judged()
        answer = self.lib.wt_judge(*octets(book), ctypes.byref(out))
        if want[0] == 'good':
            _, length, header, address, count, place, first = want
            compare('judge', (0, [0, length, count, place, first, len(header), len(address)]), (answer, out.list()))
        else:
            compare('judge', (want[1], refused(out, want[2])), (answer, out.list()))
        for table in (0, 1):
            self.columns(book, want, table)

    def columns(self, book, want, table):
        tags, flags = words([7] * 128)[0], words([8] * 128)[0]
        out = Counted()
        answer = self.lib.wt_columns(*octets(book), ctypes.c_uint32(table * 5), tags, flags, ctypes.byref(out))
        if want[0] == 'good':
            columns = want[2 + table]
            rest = [0] * (128 - len(columns))
            model = (0, [0, len(columns)], [t for t, _ in columns] + rest, [f & 3 for _, f in columns] + rest)
        else:
            model = (want[1], refused(out, want[2]), [7] * 128, [8] * 128)
        compare('columns', model, (answer, out.list(), list(tags), list(flags)))

    def lookup(self, book, record, tag):
        want = oab.lookup(book, record, tag)
        out = Found()
        answer = self.lib.wt_lookup(*octets(book), named(record), ctypes.c_uint32(tag), ctypes.byref(out))
        compare(('lookup', record, tag), found(out, want), (answer, out.list()))

    def why(self, book, record, tag):
        want = oab.why(book, record, tag)
        out = Reason()
        answer = self.lib.wt_why(*octets(book), named(record), ctypes.c_uint32(tag), ctypes.byref(out))
        compare(('why', record, tag), reasoned(out, want), (answer, out.list()))
        return want

    def ask(self, book, record, tag):
        """Both ways, as make.py's stream does."""
        self.lookup(book, record, tag)
        self.why(book, record, tag)

    def serial(self, data):
        compare(('serial', len(data)), oab.serial(data), self.lib.wt_serial(*octets(data)))


# ---- indexes: make.py's stream, each call made on the library, too

class FaceIndex(make.IndexStream):
    def __init__(self, library):
        super().__init__()
        self.lib = library

    def add(self, payload, line):
        """Nothing is stored, so books of any length may come."""

    def make(self, book, room):
        want = super().make(book, room)
        lent, size = octets(b'\xA5' * room)
        out = Length()
        answer = self.lib.wt_index(*octets(book), lent, size, ctypes.byref(out))
        made = want[1] if want[0] == 'made' else b''
        model = (0, [0, len(made)]) if made else (want[1], refused(out, want[2]))
        after = made + b'\xA5' * (room - len(made))
        compare(('index', room), model + (after,), (answer, out.list(), bytes(lent)[:room]))
        return want

    def entry(self, book, index, k):
        want = super().entry(book, index, k) if k < 1 << 32 else oab.index_entry(book, index, k)
        out = Start()
        answer = self.lib.wt_index_entry(*octets(book), *octets(index), ctypes.c_uint64(k), ctypes.byref(out))
        model = (0, [0, want[1]]) if want[0] == 'at' else (want[1], refused(out, want[2]))
        compare(('entry', k), model, (answer, out.list()))
        return want

    def ask(self, book, index, k, tag):
        want = super().ask(book, index, k, tag) if k < 1 << 32 else oab.lookup_indexed(book, index, k, tag)
        out = Found()
        answer = self.lib.wt_lookup_indexed(*octets(book), *octets(index), ctypes.c_uint64(k), ctypes.c_uint32(tag),
                                            ctypes.byref(out))
        compare(('indexed', k, tag), found(out, want), (answer, out.list()))
        return want


def read_indexed(stream, rng):
    """Own, wrong and damaged indexes, damaged books, records by numbers of 64 bits."""
    for table in (oab.table_of(books.small_book()), oab.table_of(books.sample_book()), books.MANAGER_TABLE):
        make.index_own(stream, rng, table)
        make.index_wrong(stream, rng, table, books.octets_of(books.some_table(rng)))
        make.index_spoilt(stream, rng, table)
    make.index_tables(stream, rng)
    for _ in range(150):
        table = books.some_table(rng, records=rng.choice((1, 2, 3, 4)))
        book = books.octets_of(table)
        index = indexes.own(book)
        make.index_own(stream, rng, table)
        if rng.random() < 0.5:
            book = books.random_damage(book, rng)
        if rng.random() < 0.5:
            index = books.random_damage(index, rng)
        tags = [tag for tag, _ in table[1]] + [0]
        for k in (0, len(table[3]) - 1, len(table[3]), 1 << 32, (1 << 32) + 1, HEADER - 1, HEADER):
            stream.entry(book, index, k)
            for tag in rng.sample(tags, min(3, len(tags))):
                stream.ask(book, index, k, tag)
    book = books.small_book()
    long = book + bytes(oab.LIMIT + 1 - len(book))
    stream.entry(long, indexes.own(book), 0)
    stream.ask(long, indexes.own(book), 0, 0)


# ---- sheets: make.py's stream, each call made on the library, too

class FaceSheet(make.SheetStream):
    most_given = 1 << 20

    def __init__(self, library):
        super().__init__()
        self.lib = library

    def add(self, payload, line):
        """Nothing is stored, so books and choices of any length may come."""

    def length(self, book, tags):
        want = super().length(book, tags)
        out = Length()
        answer = self.lib.wt_sheet_length(*octets(book), *words(tags), ctypes.byref(out))
        model = (0, [0, want[1]]) if want[0] == 'made' else (want[1], refused(out, want[2]))
        compare(('sheet length', tags), model, (answer, out.list()))
        return want

    def export(self, book, tags, room):
        want = super().export(book, tags, room)
        lent, size = octets(b'\xA5' * room)
        out = Length()
        answer = self.lib.wt_sheet(*octets(book), *words(tags), lent, size, ctypes.byref(out))
        made = want[1] if want[0] == 'made' else b''
        model = (0, [0, len(made)]) if made else (want[1], refused(out, want[2]))
        after = made + b'\xA5' * (room - len(made))
        compare(('sheet', tags, room), model + (after,), (answer, out.list(), bytes(lent)[:room]))
        return want


    def back(self, text, flags, heads, header_flags, record, room):
        want = super().back(text, flags, heads, header_flags, record, room)
        lent, size = octets(b'\xA5' * room)
        out = Length()
        answer = self.lib.wt_from_sheet(*octets(text), *words(flags), *words(heads), *words(header_flags),
                                        *octets(record), lent, size, ctypes.byref(out))
        made = want[1] if want[0] == 'made' else b''
        model = (0, [0, len(made)]) if made else (want[1], refused(out, want[2]))
        after = made + b'\xA5' * (room - len(made))
        compare(('from sheet', text[:80], flags[:9], room), model + (after,), (answer, out.list(), bytes(lent)[:room]))
        return want


def export(stream, rng):
    """make.py's sheets; choices of up to some hundred tags, octets that are no book, a book that is too long."""
    make.sheet_purpose(stream)
    make.sheet_every_room(stream)
    make.sheet_random(stream, rng, 250)
    make.sheet_damaged(stream, rng)
    make.sheet_long(stream)
    for table in make.wide_tables(rng, 2):
        book, tags = books.octets_of(table), [tag for tag, _ in table[1]] or [0]
        for choice in (tags, tags * 3, tags[:16], tags[:17], tags[::-1][:5], tags + [0], [tags[-1]] * 300):
            answer = stream.length(book, choice)
            stream.export(book, choice, answer[1] + rng.randrange(-1, 3) if answer[0] == 'made' else 50)
    for length in (0, 1, 11, 12, 100):
        for choice in ([], [0], [rng.getrandbits(32)] * 20):
            stream.length(rng.randbytes(length), choice)
            stream.export(rng.randbytes(length), choice, 9)
    small = books.small_book()
    for choice in ([sheets.MAIL], [], [0]):
        stream.export(small + bytes(oab.LIMIT + 1 - len(small)), choice, 100)


def bring_back(stream, rng):
    """make.py's imports; several damages at once, more lines, thousands of flags or header columns, any octets."""
    make.import_purpose(stream)
    make.import_random(stream, rng, 4000, False)
    make.import_random(stream, rng, 400, True)
    make.import_long(stream)
    for _ in range(1500):
        given = imports.some_import(rng, rng.choice((3, 20)))
        for _ in range(rng.choice((0, 1, 1, 2, 3))):
            given = imports.some_damage(rng, given)
        for room in (2000, rng.randrange(300)):
            stream.back(*given, room)
    for count in (129, 193, 5000):
        for text in (imports.A + b'a\r\n', b'', b'3001001F,3001001F\r\n,\r\n'):
            stream.back(text, [0] * count, [], [], b'', 50)
            stream.back(text, [0], list(range(count)), [0] * count, b'', 50)
            stream.back(text, [0, 0], [3] * count, [0] * (count - 1), b'', 50)
    for length in (0, 1, 9, 10, 100):
        stream.back(rng.randbytes(length), [0], [], [], rng.randbytes(4), 60)
        stream.back(imports.A + rng.randbytes(length), [0], [], [], b'\x04\0\0\0', 300)


# ---- writings: make.py's stream, each call made on the library, too

class FaceWriting(make.WritingStream):
    def __init__(self, library):
        super().__init__()
        self.lib = library
        self.new(0)

    def new(self, length):
        super().new(length)
        self.state = Writing()
        self.lent = octets(self.buffer)[0]
        self.left = b''                         # the written octets, where the buffer is too short for them

    def move(self, length):
        """Another buffer for the library, too, with the written octets that the library left."""
        if self.state.written <= len(self.buffer):
            self.left = bytes(self.lent)[:self.state.written]
        super().move(length)
        self.lent = octets((self.left + b'\x5A' * length)[:length])[0]

    def spoil(self, length):
        super().spoil(length)
        self.state.written = length

    def call(self, payload):
        before = self.state.list()
        answer = super().call(payload)
        number = self.perform_on_library(payload[0], payload[1:])
        got = (number, self.state.place, self.state.written, bytes(self.lent)[:len(self.buffer)])
        if answer[0] == 'done':
            compare(payload[:9], (0, 0, answer[1], bytes(self.buffer)), got)
        else:
            want = (answer[1], answer[2], before[1], bytes(self.buffer)) + tuple(before[2:])
            compare(payload[:9], want, got + tuple(self.state.rest))
        return answer

    def perform_on_library(self, what, rest):
        state, buffer = ctypes.byref(self.state), (self.lent, ctypes.c_size_t(len(self.buffer)))
        if what == 1:
            every = [make.least(rest[at:at + 4]) for at in range(4, len(rest), 4)]
            parts, at = [], 0
            for count in rest[:4]:
                parts += words(every[at:at + count])
                at += count
            return self.lib.wt_begin(state, *parts, *buffer)
        tag = ctypes.c_uint32(make.least(rest[:4]))
        number = ctypes.c_uint32(make.least(rest[4:8]))
        if what == 2:
            return self.lib.wt_open(state, *buffer)
        if what == 3:
            return self.lib.wt_give_number(state, *buffer, tag, number)
        if what == 4:
            return self.lib.wt_give_truth(state, *buffer, tag, ctypes.c_uint32(rest[4] * 77))
        if what == 5:
            return self.lib.wt_give_octets(state, *buffer, tag, *octets(rest[4:]))
        if what == 6:
            return self.lib.wt_give_list(state, *buffer, tag, number)
        if what == 7:
            return self.lib.wt_add_number(state, *buffer, tag)
        if what == 8:
            return self.lib.wt_add_octets(state, *buffer, *octets(rest))
        return self.lib.wt_close(state, *buffer) if what == 9 else self.lib.wt_finish(state, *buffer)


class FaceCorrecting(make.CorrectingStream):
    def __init__(self, library):
        super().__init__()
        self.lib = library

    def call(self, payload):
        lent, room = octets(self.buffer)
        length = ctypes.c_uint64(self.length)
        what, first, rest = payload[0], make.least(payload[1:5]), payload[5:]
        record = named(None if first == make.HEADER_RECORD else first)
        tag = ctypes.c_uint32(make.least(rest[:4]))
        out = Length()
        if what == 1:
            number = self.lib.wt_set(lent, room, length, record, tag, *octets(rest[4:]), ctypes.byref(out))
        elif what == 2:
            number = self.lib.wt_clear(lent, room, length, record, tag, ctypes.byref(out))
        elif what == 3:
            number = self.lib.wt_insert(lent, room, length, ctypes.c_uint64(first), *octets(rest), ctypes.byref(out))
        else:
            number = self.lib.wt_delete(lent, room, length, ctypes.c_uint64(first), ctypes.byref(out))
        answer = super().call(payload)
        want = (0, [0, answer[1]]) if answer[0] == 'done' else (answer[1], refused(out, answer[2]))
        compare(payload[:9], want + (bytes(self.buffer),), (number, out.list(), bytes(lent)[:len(self.buffer)]))
        return answer


def read(face, rng):
    for _ in range(300):
        table = books.some_table(rng, records=rng.choice((1, 2, 3, 4)))
        book = books.octets_of(table)
        if rng.random() < 0.3:
            made = books.faulty(table, rng, rng.choice(books.FAULTS))
            book = made[0] if made else book
        elif rng.random() < 0.2:
            book = books.random_damage(book, rng)
        face.judge(book)
        tags = [tag for tag, _ in table[0] + table[1]] + [0]
        for record in (None, 0, len(table[3]) - 1, len(table[3]), HEADER - 1):
            for tag in rng.sample(tags, min(3, len(tags))) + [rng.choice(tags) ^ 0x10000]:
                face.ask(book, record, tag)
    for length in range(0, 80):
        face.judge(books.small_book()[:length])


def give_reasons(face, rng):
    """make.py's questions; records by numbers of 64 bits, tags of all sorts, octets that are no book."""
    make.lookup_reasons(face, rng)
    make.lookup_damaged(face, rng)
    for table in (books.DESK_TABLE, books.MANAGER_TABLE, *make.wide_tables(rng, 1)):
        make.lookup_all(face, rng, table, 0.5)
    for _ in range(150):
        table = reasons.with_lists(rng, books.some_table(rng, records=rng.choice((1, 2, 3, 4))))
        book = books.octets_of(table)
        if rng.random() < 0.3:
            book = books.random_damage(book, rng)
        tags = reasons.tags_near(rng, table) + [rng.getrandbits(32)]
        for record in (None, 0, len(table[3]) - 1, len(table[3]), 1 << 32, (1 << 32) - 1, 1 << 63, HEADER - 1):
            for tag in rng.sample(tags, 3):
                face.why(book, record, tag)
    for length in (0, 1, 11, 12, 100):
        for record in (None, 0, 1):
            face.why(rng.randbytes(length), record, rng.getrandbits(32))
    small = books.small_book()
    for book in books.truncations(small) + [small + bytes(oab.LIMIT + 1 - len(small))]:
        face.why(book, 0, 0x3001001F)


def passed_over(stream):
    """A state that no calls leave and that isn't out of turn is taken as it is (decision 13): next column 1."""
    columns = [(0x30010003, 0), (0x30020003, 0)]
    stream.play(200, [make.begin_call(columns, columns), make.OPEN])
    stream.writing.next = 1
    stream.state.rest[4] = 1
    for tag, _ in columns:
        stream.call(b'\x03' + oab.four(tag) + oab.four(5))
    stream.call(make.CLOSE)


def serials(face, rng):
    """The library takes short runs octet by octet and long ones by words of eight, up to seven octets left over."""
    for length in list(range(301)) + [1000, 4099, 65536, 100003]:
        face.serial(rng.randbytes(length))


def main():
    seed = int(sys.argv[1]) if len(sys.argv) > 1 else 808
    rng = random.Random(seed)
    library = load()
    face = Face(library)
    face.version()
    read(face, rng)
    give_reasons(face, rng)
    read_indexed(FaceIndex(library), rng)
    export(FaceSheet(library), rng)
    bring_back(FaceSheet(library), rng)
    stream = FaceWriting(library)
    make.writing_begins(stream, rng)
    make.writing_refusals(stream, rng)
    make.writing_keys(stream, rng)
    passed_over(stream)
    for _ in range(100):
        table = books.some_table(rng, header=rng.randrange(6), address=rng.choice((0, 1, 2, 5, 8, 9)), most=4)
        stream.play(len(oab.write_book(*table)) + rng.choice((-1, 0, 0, 9)), make.book_calls(table))
    for _ in range(100):
        table = books.some_table(rng, header=rng.randrange(6), address=rng.choice((0, 1, 2, 5, 8, 9)), most=4)
        make.writing_moves(stream, rng, table)
    stream = FaceCorrecting(library)
    make.correcting_small(stream)
    make.correcting_chains(stream, rng)
    make.correcting_damaged(stream, rng)
    serials(face, rng)
    print(f'{calls} calls, {differ} differ')
    return 1 if differ else 0


if __name__ == '__main__':
    sys.exit(main())
