"""The calls for C programs at the limits of length: a book of 268,435,456 octets is judged, looked up in, asked why
there is no value, exported, made from its sheet, written and corrected, and with one octet more each call has its
published refusal and changes nothing. An old index is read beside 16,777,216 octets and not beside one more.

Run from the top: python3 tests/face_at_limit.py. The library is that of face_against_model.py. What is expected is by
hand (tests/model/large.py), since the model would take minutes. Ends with "N calls, 0 differ".
"""

import ctypes
import sys

sys.dont_write_bytecode = True

import face_against_model as face
from face_against_model import Found, Judged, Length, Reason, Start, Writing, compare, octets, refused, words
from model import large, oab

SMTP, NAME = (tag for tag, _ in large.COLUMNS)
OLD_LIMIT = 16_777_216


def u64(number):
    return ctypes.c_uint64(number)


def lent(data):
    """A bytearray lent where it stands: no copy."""
    return (ctypes.c_uint8 * len(data)).from_buffer(data), ctypes.c_size_t(len(data))


def judged(lib, book, places, refusal):
    out = Judged()
    answer = lib.wt_judge(*lent(book), ctypes.byref(out))
    want = refused(out, refusal[1]) if refusal else [0, len(book), len(places), 40, places[0], 0, 2]
    compare(('judge', len(book)), (refusal[0] if refusal else 0, want), (answer, out.list()))


def looked(lib, book, index, k, start, refusal):
    """The entry and the value of the address, through an index."""
    out, found = Start(), Found()
    number, place = refusal or (0, 0)
    answer = lib.wt_index_entry(*lent(book), *octets(index), u64(k), ctypes.byref(out))
    compare(('entry', len(book), k), (number, [place, 0 if refusal else start]), (answer, out.list()))
    answer = lib.wt_lookup_indexed(*lent(book), *octets(index), u64(k), ctypes.c_uint32(SMTP), ctypes.byref(found))
    end = 0 if refusal else book.index(0, start + 5) + 1
    want = refused(found, place) if refusal else [0, 1, start + 5, end]
    compare(('indexed', len(book), k), (number, want), (answer, found.list()))


def reasoned(lib, book, k, refusal):
    """The address under another type, in row 0 of the address table; under none; and where it is."""
    for tag, number, want in ((SMTP ^ 1, 0, [0, 1, 24, SMTP]), (0, 0, [0, 2, 0, 0]), (SMTP, 18, [0, 0, 0, 0])):
        out = Reason()
        answer = lib.wt_why(*lent(book), u64(k), ctypes.c_uint32(tag), ctypes.byref(out))
        want = (refusal[0], refused(out, refusal[1])) if refusal else (number, want)
        compare(('why', len(book), k, tag), want, (answer, out.list()))


def read(lib):
    for size in (OLD_LIMIT, OLD_LIMIT + 1, oab.LIMIT, oab.LIMIT + 1):
        book, places = large.book(size)
        refusal = (1, 0) if size > oab.LIMIT else None
        judged(lib, book, places, refusal)
        made, out = bytearray(b'\xA5' * (20 + 4 * len(places))), Length()
        answer = lib.wt_index(*lent(book), *lent(made), ctypes.byref(out))
        want = made if refusal else large.index(book, places)
        numbers = refused(out, 0) if refusal else [0, len(made)]
        compare(('index', size), (1 if refusal else 0, numbers, True), (answer, out.list(), made == want))
        last = len(places) - 1
        for k in (0, last // 2, last):
            looked(lib, book, large.index(book, places), k, places[k], refusal)
            old = refusal or ((19, 0) if size > OLD_LIMIT else None)
            looked(lib, book, large.old_index(book, places), k, places[k], old)
        reasoned(lib, book, last, refusal)


def exported(lib, book, tags, sheet, refusal, rooms=(0, 9, -1)):
    """The length, then the sheet in exactly its octets, in some more and in one less, which is 17."""
    number, place = refusal or (0, 0)
    out = Length()
    answer = lib.wt_sheet_length(*lent(book), *words(tags), ctypes.byref(out))
    compare(('sheet length', len(book), len(tags)), (number, [place, 0 if refusal else len(sheet)]),
            (answer, out.list()))
    for more in rooms:
        text, out = bytearray(b'\xA5') * (len(sheet) + more), Length()
        short = not refusal and more < 0
        answer = lib.wt_sheet(*lent(book), *words(tags), *lent(text), ctypes.byref(out))
        numbers = [0, len(sheet)] if not refusal and not short else refused(out, place)
        done = numbers[1]
        same = text.startswith(sheet) if done else True
        behind = text.count(b'\xA5', done) == len(text) - done
        compare(('sheet', len(book), len(tags), more), (17 if short else number, numbers, True, True),
                (answer, out.list(), same, behind))


def export(lib):
    """Some columns of many records; sixteen columns of 65,535 records; quotes, whose sheet is twice as long as the
    book."""
    for size in (OLD_LIMIT, oab.LIMIT, oab.LIMIT + 1):
        book, places = large.book(size)
        refusal = (1, 0) if size > oab.LIMIT else None
        exported(lib, book, [SMTP], large.sheet(book, places, [SMTP]), refusal)
        if size != oab.LIMIT:
            exported(lib, book, [NAME, SMTP], large.sheet(book, places, [NAME, SMTP]), refusal)
        for tags, number in (([0, SMTP, SMTP], 15), ([SMTP] * 17, 18), ([], 18), ([NAME, NAME], 18)):
            text, out = bytearray(b'\xA5' * 64), Length()
            answer = lib.wt_sheet(*lent(book), *words(tags), *lent(text), ctypes.byref(out))
            compare(('sheet', size, tags), (refusal[0] if refusal else number, [0, 0], True),
                    (answer, out.list(), text == b'\xA5' * 64))
    exported(lib, *large.sixteen(oab.LIMIT), None, (9, -1))
    book, count = large.one_string(oab.LIMIT, b'"')
    exported(lib, book, [NAME], b'3001001F\r\n"' + b'""' * count + b'"\r\n', None, (0, -1))


def brought_back(lib, what, text, flags, answer, room):
    """A book from a sheet, with no header columns: the book's octets, or a refusal that leaves every octet."""
    buffer, out = bytearray(b'\xA5') * room, Length()
    got = lib.wt_from_sheet(*lent(text), *words(flags), *words([]), *words([]), *octets(b'\x04\0\0\0'), *lent(buffer),
                            ctypes.byref(out))
    number, place = answer if isinstance(answer, tuple) else (0, 0)
    done = 0 if number else len(answer)
    same = not done or memoryview(buffer)[:done] == answer
    behind = buffer.count(b'\xA5', done) == room - done
    compare((what, room, number), (number, [place, done], True, True), (got, out.list(), same, behind))


def bring_back(lib):
    """Sheets of books at the limit, and one octet or one line more. 16 and 17 are told by the call: a single value that
    passes both the limit and the room is 16; a value that passes the room alone is 17, whatever follows it."""
    tags = b'39FE001F,3001001F\r\n'
    book, count = large.one_string(oab.LIMIT, b'n')
    text = bytearray(tags + b'a,' + b'n' * count + b'\r\n')
    for room, answer in ((oab.LIMIT, book), (oab.LIMIT + 9, book), (oab.LIMIT - 1, (17, 0)), (100, (17, 0))):
        brought_back(lib, 'at the limit', text, [2, 0], answer, room)
    text[-4] = 0xFF
    brought_back(lib, 'no UTF-8 at the end', text, [2, 0], (20, len(tags) + 2), 100)
    text[-4:] = b'nnn\r\n'
    for room in (oab.LIMIT + 9, oab.LIMIT, oab.LIMIT - 1, 100):       # written up to the name in each of these rooms
        brought_back(lib, 'one octet more', text, [2, 0], (16, 0), room)
    brought_back(lib, 'the value before it', text, [2, 0], (17, 0), len(large.FRONT) + 6)
    text[-2:] = b'\r'
    brought_back(lib, 'no end', text, [2, 0], (20, len(text)), 100)
    text = bytearray(tags + b'a,' + b'm' * 1000 + b'\r\nb,' + b'n' * count + b'\r\n')
    brought_back(lib, 'no room in the line before', text, [2, 0], (17, 0), 500)
    brought_back(lib, 'room for the line before', text, [2, 0], (16, 0), 5000)
    del text
    book, count = large.one_string(oab.LIMIT, b'"')
    brought_back(lib, 'quotes', bytearray(tags + b'a,"' + b'""' * count + b'"\r\n'), [2, 0], book, oab.LIMIT)
    book, places = large.book(oab.LIMIT)
    brought_back(lib, 'many', bytearray(large.sheet(book, places, [SMTP, NAME])), [2, 0], book, oab.LIMIT)
    book, _, sheet = large.sixteen(oab.LIMIT)
    brought_back(lib, 'sixteen columns', bytearray(sheet), [0] * 16, book, oab.LIMIT)


def many_lines(lib):
    """65,535 lines are taken, the next is 16 when its record is opened; a room that ends before is 17."""
    head, line = b'3001001F\r\n', b'a\r\n'
    book = bytearray(12) + oab.metadata_octets([], [(NAME, 2)]) + oab.record_octets([])
    book += oab.record_octets([b'a\0']) * 65_535
    large.sealed(book, 65_535)
    length = len(book)
    for lines, last, room, answer in (
            (65_535, b'', length, book), (65_535, b'', length + 50, book), (65_535, b'', length - 1, (17, 0)),
            (65_536, b'', length + 50, (16, 0)), (65_536, b'', length, (16, 0)), (65_536, b'', length - 1, (17, 0)),
            (70_000, b'', length, (16, 0)), (65_535, b'\r\n', length, (16, 0)), (65_534, b'\r\n', length, (16, 0)),
            (65_534, b'\r\n', length - 3, (17, 0)), (65_535, b'\xFF\r\n', length, (20, 196_615)),
            (65_535, b'a', length, (20, 196_616))):
        brought_back(lib, (lines, last), bytearray(head + line * lines + last), [2], answer, room)


def correct(lib, call, book, length, words_of, refusal, want):
    """One correction in a buffer of its own; a refused one leaves every octet."""
    buffer, out = bytearray(book), Length()
    answer = call(*lent(buffer), u64(length), *words_of, ctypes.byref(out))
    number, place = refusal or (0, 0)
    numbers = refused(out, place) if refusal else [0, len(want)]
    same = buffer[:len(want)] == want if not refusal else buffer == book
    compare((call.__name__, length, number), (number, numbers, True), (answer, out.list(), same))


def corrections(lib):
    """At the limit a value that is longer, and a record more, break the rule on length: 16 before 17. Shorter ones and
    as long ones are done."""
    book, places = large.book(oab.LIMIT)
    tag, length = ctypes.c_uint32(SMTP), len(book)
    longer, shorter = octets(b'0000000@example\0'), octets(b'a\0')
    for room in (0, 1, 64):
        correct(lib, lib.wt_set, book + bytes(room), length, (u64(0), tag, *longer), (16, 0), None)
        correct(lib, lib.wt_insert, book + bytes(room), length, (u64(1), *octets(book[places[0]:places[1]])), (16, 0),
                None)
    correct(lib, lib.wt_set, book, length, (u64(0), tag, *shorter), None, large.with_first(book, places, b'a'))
    correct(lib, lib.wt_set, book, length, (u64(0), tag, *octets(b'999999@example\0')), None,
            large.with_first(book, places, b'999999@example'))
    correct(lib, lib.wt_set, book + b'\0', length + 1, (u64(0), tag, *shorter), (1, 0), None)


def written(lib):
    """One record whose name fills the book up to the limit; a name one octet longer is 16, and the state stays."""
    front = len(large.FRONT)
    for over in (0, 1):
        name = b'n' * (oab.LIMIT + over - front - 4 - 1 - 2 - 1)
        buffer, state = bytearray(oab.LIMIT + 8), Writing()
        out = lent(buffer)

        def step(call, *arguments, want=0):
            before = state.list()[1:], bytes(buffer) if want else None
            answer = call(ctypes.byref(state), *arguments)
            kept = want == 0 or (state.list()[1:], bytes(buffer)) == before
            compare((call.__name__, over), (want, True), (answer, kept))

        step(lib.wt_begin, *words([]), *words([]), *words([SMTP, NAME]), *words([2, 0]), *out)
        step(lib.wt_open, *out)
        step(lib.wt_close, *out)
        step(lib.wt_open, *out)
        step(lib.wt_give_octets, *out, ctypes.c_uint32(SMTP), *octets(b'a'))
        step(lib.wt_give_octets, *out, ctypes.c_uint32(NAME), *octets(name), want=16 if over else 0)
        if over:
            continue
        step(lib.wt_close, *out)
        step(lib.wt_finish, *out)
        book = bytearray(large.FRONT) + oab.record_octets([b'a\0', name + b'\0'])
        compare('written', (oab.LIMIT, True), (state.written, large.sealed(book, 1) == buffer[:state.written]))


def main():
    lib = face.load()
    read(lib)
    export(lib)
    bring_back(lib)
    many_lines(lib)
    corrections(lib)
    written(lib)
    print(f'{face.calls} calls at the limits of length, {face.differ} differ')
    return 1 if face.differ else 0


if __name__ == '__main__':
    sys.exit(main())
