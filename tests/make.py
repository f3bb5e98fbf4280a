"""Writes the test streams and the examples. Run from the top: python3 tests/make.py

What: for each test program a file `stdin` (the cases) and a file `stdout` (what the
program must print), and the example books with their listings. Why here: all expected
output is worked out by the model in tests/model, never by the code under test.

A stream is a sequence of cases: a 4-octet little-endian length L (at most 65,535), then L
octets of payload. Numbers in payloads are little-endian. The first octet of a payload says
what is asked, save in judge_cases, where the payload is a book. Text is decimal; hex is
upper-case, two digits an octet. Every line ends in LF. All randomness has fixed seeds, so
two runs give the same files.
"""

import itertools
import random
import sys
from collections import Counter
from pathlib import Path

sys.dont_write_bytecode = True

from model import books, imports, indexes, oab, reasons, sheets

TOP = Path(__file__).resolve().parent.parent
HEADER_RECORD = 0xFFFFFFFF      # stands for the header record where a record is named


def two(number):
    return number.to_bytes(2, 'little')


def eight(number):
    return number.to_bytes(8, 'little')


def least(octets):
    return int.from_bytes(octets, 'little')


def hex_of(octets):
    return bytes(octets).hex().upper() or '-'


class Stream:
    """The cases of one test program and the lines that answer them."""

    def __init__(self, name):
        self.name = name
        self.cases = []
        self.lines = []

    def add(self, payload, line):
        assert len(payload) <= 65_535
        self.cases.append(oab.four(len(payload)) + payload)
        self.lines.append(line + '\n')

    def save(self, most_in, most_out):
        cases, lines = b''.join(self.cases), ''.join(self.lines).encode()
        assert len(cases) < most_in and len(lines) < most_out, (self.name, len(cases), len(lines))
        folder = TOP / 'crates' / self.name
        folder.mkdir(parents=True, exist_ok=True)
        (folder / 'stdin').write_bytes(cases)
        (folder / 'stdout').write_bytes(lines)
        print(f'{self.name}: {len(self.cases)} cases, stdin {len(cases)}, stdout {len(lines)}', file=sys.stderr)


# ---------------------------------------------------------------- ground_cases

def ground_line(payload):
    """The line that answers one ground case.

    1 whole number read: part                   "number VALUE WIDTH" or "broken"
    2 whole number written: 4 n                 hex
    3 value: 2 type, part                       "ends WIDTH", "broken PLACE" or "unknown"
    4 serial: octets                            decimal
    5 presence octets: 2 n                      how many n columns take
    6 presence: 2 n, octets                     "BITS clear|spare ONES"
    7 set bit: 2 i, octets                      hex
    8 word read: 1 width, 2 at, octets          decimal; octets past the end are 0, width over 8 gives 0
    9 word written: 1 width, 2 at, 8 value, octets     hex
    10 move: 2 at, 2 end, 2 to, octets          hex
    11 clear: 2 a, 2 e, octets                  hex
    12 copy: 2 at, 2 n, n source, octets        hex
    13 record with no values: 2 n               hex
    14 UTF-8 many: 1 k, k prefix                255 characters: is prefix, b, 00 taken as 001F, b from 1 to 255
    9 to 12 change nothing where a part named passes the end; "-" is the hex of nothing.
    """
    what, rest = payload[0], payload[1:]
    if what == 1:
        got = oab.number_at(rest)
        return 'broken' if got is None else f'number {got[0]} {got[1]}'
    if what == 2:
        return hex_of(oab.encode_number(least(rest)))
    if what == 3:
        type_code, part = least(rest[:2]), rest[2:]
        if type_code not in oab.TYPES:
            return 'unknown'
        end = oab.walk(type_code, part)
        return f'broken {oab.fault(type_code, part)}' if end is None else f'ends {end}'
    if what == 4:
        return str(oab.serial(rest))
    if what == 5:
        return str(oab.presence_octets(least(rest)))
    if what == 6:
        n, octets = least(rest[:2]), rest[2:]
        bits = ['1' if oab.bit_of(octets, i) else '0' for i in range(n)]
        spare = 'spare' if oab.spare_bit_set(octets, n) else 'clear'
        return f'{"".join(bits) or "-"} {spare} {bits.count("1")}'
    if what == 7:
        return hex_of(oab.with_bit(rest[2:], least(rest[:2])))
    if what == 8:
        width, at, octets = rest[0], least(rest[1:3]), rest[3:]
        return str(least(octets[at:at + width]) if width <= 8 else 0)
    if what == 9:
        width, at, value, octets = rest[0], least(rest[1:3]), rest[3:11], bytearray(rest[11:])
        if at + width <= len(octets):
            octets[at:at + width] = (value + bytes(256))[:width]
        return hex_of(octets)
    if what == 10:
        at, end, to, octets = least(rest[:2]), least(rest[2:4]), least(rest[4:6]), bytearray(rest[6:])
        if at <= end <= len(octets) and to + (end - at) <= len(octets):
            octets[to:to + (end - at)] = bytes(octets[at:end])
        return hex_of(octets)
    if what == 11:
        a, e, octets = least(rest[:2]), least(rest[2:4]), bytearray(rest[4:])
        if a <= e <= len(octets):
            octets[a:e] = bytes(e - a)
        return hex_of(octets)
    if what == 12:
        at, n = least(rest[:2]), least(rest[2:4])
        source, octets = rest[4:4 + n], bytearray(rest[4 + n:])
        if at + n <= len(octets):
            octets[at:at + n] = source
        return hex_of(octets)
    if what == 13:
        return hex_of(oab.record_octets([None] * least(rest)))
    if what == 14:
        prefix = rest[1:1 + rest[0]]
        taken = ''
        for b in range(1, 256):
            text = prefix + bytes([b, 0])
            taken += '1' if oab.walk(oab.TEXT, text) == len(text) else '0'
        return taken
    raise ValueError(what)


FIRST_OCTETS = bytes.fromhex('01 41 7F 80 8F 90 9F A0 BF C0 C1 C2 DF E0 E1 EC ED EE EF F0 F1 F3 F4 F5 FF')
NEXT_OCTETS = bytes.fromhex('01 7F 80 8F 90 9F A0 BF C0 C2 E0 FF')


def ground_numbers(add, rng):
    around = set(books.BOUNDARY_NUMBERS) | set(range(300)) | {(1 << 31) - 1, 1 << 31}
    around |= {rng.getrandbits(width) for width in (8, 12, 16, 20, 24, 28, 32) for _ in range(10)}
    for n in sorted(around):
        add(2, oab.four(n))
        code = oab.encode_number(n)
        add(1, code)
        add(1, code + b'\0')
        add(1, code + b'\x81\x80')
        for cut in range(len(code)):
            add(1, code[:cut])
        for width in (1, 2, 3, 4):             # every padded or too narrow form
            if n < 1 << 8 * width:
                add(1, bytes([0x80 + width]) + n.to_bytes(width, 'little'))
                add(1, bytes([0x80 + width]) + n.to_bytes(width, 'little') + b'\x55')
    for first in list(range(0x80, 0x100)):     # 80, 85 to FF, and 81 to 84 with nothing right behind
        add(1, bytes([first]))
        add(1, bytes([first, 0x80, 0x01, 0x01, 0x01, 0x01, 0x01]))
        add(1, bytes([first, 0xFF, 0xFF, 0xFF, 0xFF, 0xFF, 0xFF, 0xFF, 0xFF, 0xFF]))
        add(1, bytes([first]) + bytes(6))
    for second in range(256):
        add(1, bytes([0x81, second]))
        add(1, bytes([0x82, 0x00, second]))
        add(1, bytes([0x83, 0xFF, 0x00, second]))
        add(1, bytes([0x84, 0x00, 0xFF, 0x00, second]))


def ground_values(add, rng):
    # Document 01's own cases.
    for text in ('EDA08000', 'F48FBFBF00', 'F490808000', '00'):
        add(3, two(0x001F) + bytes.fromhex(text))
    add(3, two(0x001E) + b'\0')
    add(3, two(0x0102) + bytes.fromhex('0522F8FF0022'))
    for code in range(0, 0x130):               # every type code near the ten, and some far away
        add(3, two(code) + b'\x01a\0')
    for code in list(range(0x0FF8, 0x1028)) + [0x1101, 0x1102, 0x1103, 0x2003, 0x8003, 0xFFFF, 0x0300, 0x0310]:
        add(3, two(code) + b'\x01\x01a\0')
    for code in oab.TYPES:
        add(3, two(code))
        for octet in range(256):
            add(3, two(code) + bytes([octet]))
            add(3, two(code) + bytes([octet, 0]))
            add(3, two(code) + bytes([octet, 1, 0x41, 0, 0x42, 0]))
        for _ in range(60):
            add(3, two(code) + books.broken_value(rng, code))
            add(3, two(code) + books.broken_value(rng, code) + b'a\0')
            add(3, two(code) + books.cut_value(rng, code))
            value = books.some_value(rng, code, 9)
            add(3, two(code) + value)
            add(3, two(code) + value[:-1])
            add(3, two(code) + value + rng.choice((b'\0', b'a', b'\x80', value)))
            add(3, two(code) + value[:rng.randrange(len(value))])
    for length in (127, 128, 129, 255, 256, 257, 300):   # lengths and counts of two and three octets
        octets = bytes(i % 251 + 1 for i in range(length))
        for count in (length - 1, length, length + 1):
            add(3, two(0x0102) + oab.encode_number(count) + octets)
            add(3, two(0x1003) + oab.encode_number(count) + bytes(i % 128 for i in range(length)))
            add(3, two(0x101E) + oab.encode_number(count) + b'a\0' * length)
            add(3, two(0x101F) + oab.encode_number(count) + b'a\0' * length)
            add(3, two(0x1102) + oab.encode_number(count) + b'\x01\0' * length)
        add(3, two(0x001E) + octets + b'\0')
        add(3, two(0x001E) + octets)
        add(3, two(0x001F) + ('é' * length).encode() + b'\0')
        add(3, two(0x001F) + ('é' * length).encode())
    for value in (0x7FFFFFFF, 0x80000000, 0xFFFFFFFF, 0xFFFFFFFE, 65536, 1 << 24):
        for code in (0x0102, 0x1003, 0x101E, 0x101F, 0x1102):
            add(3, two(code) + oab.encode_number(value) + b'a\0' * 20)
            add(3, two(code) + b'\x02' + oab.encode_number(value) + b'a\0' * 20)
    for code, element in oab.ELEMENT.items():  # a broken element first, in the middle, last
        for count in (1, 2, 3, 4, 7):
            good = [books.some_value(rng, element, 4) for _ in range(count)]
            add(3, two(code) + oab.encode_number(count) + b''.join(good))
            add(3, two(code) + oab.encode_number(count + 1) + b''.join(good))
            add(3, two(code) + oab.encode_number(count - 1) + b''.join(good))
            for bad in range(count):
                for _ in range(4):
                    parts = list(good)
                    parts[bad] = books.broken_value(rng, element)
                    add(3, two(code) + oab.encode_number(count) + b''.join(parts))
                    add(3, two(code) + oab.encode_number(count) + b''.join(parts) + b'a\0')


def ground_text(add, rng):
    add(14, bytes([0]))                        # one octet, all of them
    for first in range(256):                   # two octets, all of them
        add(14, bytes([1, first]))
    for first in FIRST_OCTETS:                 # three octets around every boundary
        for second in NEXT_OCTETS:
            add(14, bytes([2, first, second]))
    for first in bytes.fromhex('41 C2 E0 E1 ED EF F0 F1 F3 F4 F5 F8 FF'):
        for second in bytes.fromhex('7F 80 8F 90 9F A0 BF C0'):
            for third in bytes.fromhex('41 7F 80 BF C0'):
                add(14, bytes([3, first, second, third]))
    for prefix in ('F8888080', 'F4808080', 'F48FBFBF', 'F0908080', 'C280C280', 'E0A080C3', 'EFBBBF41', 'ED9FBFED',
                   'FC8480808080', 'F09F98', 'E282AC', 'EFBFBE', 'EFBFBF', 'EFB790', 'F3A0818D', '41424344'):
        octets = bytes.fromhex(prefix)
        add(14, bytes([len(octets)]) + octets)
    for point in list(books.BOUNDARY_POINTS) + [rng.randrange(1, 0xD800) for _ in range(20)]:
        char = chr(point).encode()
        for around in (b'', b'a', 'é'.encode()):
            for cut in range(len(char) + 1):
                add(3, two(0x001F) + around + char[:cut] + b'\0')
                add(3, two(0x001F) + around + char[:cut] + b'z\0')
                add(3, two(0x001F) + around + char[:cut])
            add(3, two(0x001F) + around + char + char + b'\0\0')
    for bad in books.BAD_TEXTS:
        for front in (b'', b'abc', '漢字'.encode()):
            for back in (b'', b'abc', '漢字'.encode()):
                add(3, two(0x001F) + front + bad + back + b'\0')
                add(3, two(0x001E) + front + bad + back + b'\0')


def ground_octets(add, rng):
    add(4, b'123456789')
    add(4, b'')
    for length in list(range(1, 40)) + [64, 100, 255, 256, 257]:
        add(4, bytes(length))
        add(4, b'\xFF' * length)
        add(4, rng.randbytes(length))
        add(4, rng.randbytes(length))
    for octet in range(256):
        add(4, bytes([octet]))
    for n in list(range(0, 300)) + [1000, 32767, 32768, 65528, 65529, 65535]:
        add(5, two(n))
    for n in range(0, 129):
        full = oab.presence_octets(n)
        add(13, two(n))
        for octets in (bytes(full), b'\xFF' * full, rng.randbytes(full), rng.randbytes(full + 1), rng.randbytes(full // 2)):
            add(6, two(n) + octets)
        if n % 8:
            for bit in range(8 - n % 8):       # each spare bit by itself
                add(6, two(n) + bytes(full - 1) + bytes([1 << bit]))
        add(6, two(n) + bytes(full - 1) + bytes([0xFF << 8 - n % 8 & 0xFF]) if n % 8 else two(n) + b'\xFF')
    for i in list(range(0, 34)) + [126, 127, 128, 129, 135, 136, 65535]:
        for octets in (b'', bytes(1), bytes(4), bytes(16), b'\xFF' * 4, rng.randbytes(16), rng.randbytes(17)):
            add(7, two(i) + octets)
    for width in list(range(0, 10)) + [16, 255]:
        for length in (0, 1, 3, 4, 7, 8, 9, 12, 20):
            octets = rng.randbytes(length)
            for at in sorted({0, 1, 2, max(0, length - width), max(0, length - width) + 1, length, length + 1, 65535}):
                add(8, bytes([width]) + two(at) + octets)
                value = rng.choice((rng.getrandbits(64), rng.getrandbits(32), 0, (1 << 64) - 1))
                add(9, bytes([width]) + two(at) + eight(value) + octets)
    for length in (0, 1, 2, 5, 8):             # every move, clear and copy of short parts, one step past too
        octets = bytes(range(0x10, 0x10 + length))
        for at in range(length + 2):
            for end in range(length + 2):
                add(11, two(at) + two(end) + octets)
                for to in range(length + 2):
                    if length < 8 or rng.random() < 0.5:
                        add(10, two(at) + two(end) + two(to) + octets)
            for n in range(length + 2):
                add(12, two(at) + two(n) + bytes(0xA0 + i for i in range(n)) + octets)
    for _ in range(200):                       # longer ones, both directions, with overlap
        octets = rng.randbytes(rng.randint(20, 60))
        at, end = sorted((rng.randrange(len(octets) + 1), rng.randrange(len(octets) + 1)))
        to = rng.choice((rng.randrange(len(octets) - (end - at) + 1), max(0, at - rng.randint(1, 9)), at + rng.randint(1, 9)))
        add(10, two(at) + two(end) + two(to) + octets)
    for named in (65535, 65534, 32768):        # sums that pass sixteen bits
        add(10, two(named) + two(named) + two(0) + b'abc')
        add(10, two(0) + two(3) + two(named) + b'abc')
        add(10, two(named) + two(0) + two(0) + b'abc')
        add(11, two(named) + two(named) + b'abc')
        add(11, two(0) + two(named) + b'abc')
        add(12, two(named) + two(2) + b'xy' + b'abc')


def ground_counts(add, rng):
    for octet in range(256):                   # every octet: whole, as the last of any columns, and behind them
        add(6, two(8) + bytes([octet]))
        add(6, two(8 + octet % 8) + bytes([octet, octet, 0xFF]))
        add(6, two(1 + octet // 2) + bytes([octet] * 17))
    for n in (129, 136, 200, 255, 256, 300):   # more columns than a table has, and more than the octets stand for
        for length in (0, 1, n // 8, n // 8 + 1, 40):
            add(6, two(n) + rng.randbytes(length))


def make_ground():
    stream = Stream('ground_cases')
    rng = random.Random(101)
    seen = set()

    def add(what, rest):
        payload = bytes([what]) + rest
        if payload not in seen:
            seen.add(payload)
            stream.add(payload, ground_line(payload))

    ground_numbers(add, rng)
    ground_values(add, rng)
    ground_text(add, rng)
    ground_octets(add, rng)
    ground_counts(add, rng)
    stream.save(600_000, 1_000_000)


# ---------------------------------------------------------------- judge_cases

def judge_line(book):
    """"good LENGTH COUNT HEADERPLACE FIRSTPLACE H tag/flags .. A tag/flags .." or "refused N P"."""
    verdict = oab.judge(book)
    if verdict[0] == 'refused':
        return f'refused {verdict[1]} {verdict[2]}'
    _, length, header, address, count, header_place, first_place = verdict
    words = ['good', str(length), str(count), str(header_place), str(first_place)]
    words += ['H'] + [f'{tag:08X}/{flags}' for tag, flags in header]
    words += ['A'] + [f'{tag:08X}/{flags}' for tag, flags in address]
    return ' '.join(words)


def wide_tables(rng, times):
    """Tables at and near the greatest width."""
    for _ in range(times):
        for header, address in ((0, 128), (128, 0), (127, 3), (1, 127), (128, 128), (9, 126)):
            yield books.some_table(rng, header, address, records=rng.choice((1, 2)), most=3)


def long_tables(rng):
    """Long values, many records, and a book of the greatest length a case can hold."""
    binary = b'\x82\x2C\x01' + rng.randbytes(300)
    text = ('ö' * 130).encode() + b'\0'
    many = b'\x81\xC8' + b''.join(oab.encode_number(n * 1000) for n in range(200))
    yield [], [(0x30010102, 2), (0x3001001F, 0), (0x68051003, 0)], [], [[binary, text, many], [binary, None, many]]
    yield [], [], [], [[] for _ in range(700)]
    yield [], [(0x3A00000B, 3)], [], [[bytes([i % 2])] for i in range(1000)]
    whole = 65_535 - (12 + 12 + 8 + 4 + 5 + 4)
    yield [], [(0x8C9E0102, 0)], [], [[oab.encode_number(whole) + bytes(i * 7 % 256 for i in range(whole))]]


def judged_books():
    """The books of judge_cases, in order."""
    rng = random.Random(202)
    small = books.small_book()
    yield books.sample_book()
    yield small
    yield b''
    yield from books.truncations(small)
    for book in books.truncations(small):      # cut, and mended: the same refusals, whatever the serial
        if len(book) >= 56:
            yield books.mended(book)
    for book in books.octet_changes(small, rng, 6):
        yield book
        yield books.mended(book)
    for tail in (b'\0', b'\x04\0\0\0', small):
        yield small + tail
        yield books.mended(small + tail)
    for book, expected in itertools.chain(books.decision_books(), books.proxy_books()):
        assert oab.judge(book)[:3] == ('refused',) + expected if expected else oab.judge(book)[0] == 'good', (book, expected)
        yield book
    # Every number of columns from 0 to 18 in either table.
    for count in range(19):
        for header, address in ((count, rng.randrange(6)), (rng.randrange(6), count)):
            yield books.octets_of(books.some_table(rng, header, address, records=1, most=4))
    for _ in range(450):
        table = books.some_table(rng, records=rng.choice((1, 1, 2, 3)), most=4)
        yield books.octets_of(table)
        if rng.random() < 0.3:
            yield oab.write_book(*table)
    for table in wide_tables(rng, 5):
        yield books.octets_of(table)
    for table in long_tables(rng):
        yield books.octets_of(table)
    # One fault at a time; the serial is right, so that nothing hides it.
    for fault in books.FAULTS:
        for _ in range(60):
            made = books.faulty(books.some_table(rng, most=4), rng, fault)
            if made is not None:
                book, expected = made
                assert oab.judge(book) == ('refused',) + expected, (fault.__name__, oab.judge(book), expected)
                yield book
    for fault in (books.fault_key, books.fault_spare):                     # in presence octets behind the first
        for address in (9, 15, 17, 25, 33) * 6:
            made = books.faulty(books.some_table(rng, 1, address, records=1, most=2), rng, fault)
            if made is not None:
                assert oab.judge(made[0]) == ('refused',) + made[1], fault.__name__
                yield made[0]
    for table in wide_tables(rng, 2):          # the same in wide tables
        for fault in rng.sample(books.FAULTS, 6):
            made = books.faulty(table, rng, fault)
            if made is not None:
                assert oab.judge(made[0]) == ('refused',) + made[1], fault.__name__
                yield made[0]
    # 129 columns really there, in either table.
    for header, address in ((129, 1), (1, 129)):
        table = books.some_table(rng, header, address, records=1, most=2)
        yield books.octets_of(table)
    for _ in range(700):                       # two faults at once: which comes first?
        book = books.twice_faulty(books.some_table(rng, most=4), rng)
        if book is not None:
            yield book
            if rng.random() < 0.3:
                yield book[:rng.randrange(len(book))]
    for _ in range(500):
        book = books.octets_of(books.some_table(rng, records=rng.choice((1, 2, 3)), most=4))
        spoilt = books.random_damage(book, rng)
        yield spoilt if rng.random() < 0.25 else books.mended(spoilt)
    for _ in range(30):                        # cut anywhere; the places are known
        table = books.some_table(rng, most=4)
        book = books.octets_of(table)
        for length in rng.sample(range(len(book)), 6):
            assert oab.judge(book[:length]) == ('refused',) + books.cut_refusal(table, length)
            yield book[:length]
    for length in (1, 4, 11, 12, 13, 100):     # no book at all
        yield bytes(length)
        yield b'\xFF' * length
        yield rng.randbytes(length)


def make_judge():
    stream = Stream('judge_cases')
    often, places = Counter(), {}
    seen = set()
    for book in judged_books():
        if book in seen:
            continue
        seen.add(book)
        line = judge_line(book)
        stream.add(book, line)
        number = line.split()[1] if line.startswith('refused') else 'good'
        often[number] += 1
        places.setdefault(number, set()).add(line.split()[2])
    print('judge_cases: answer, how often, at how many places', file=sys.stderr)
    for number in sorted(often, key=lambda n: (n == 'good', len(n), n)):
        print(f'  {number:>4} {often[number]:6} {len(places[number]) if number != "good" else "-":>6}', file=sys.stderr)
    stream.save(1_500_000, 1_000_000)


# ---------------------------------------------------------------- lookup_cases

class LookupStream(Stream):
    """Values, and why there are none, asked of the model as the cases are added.

    Payload, first octet (record FFFFFFFF: the header record):
      0 a book                                   "book"
      1 4 record, 4 tag: the value               "at START END HEX", "absent" or "refused N P"
      2 4 record, 4 tag: why there is none       "other-type TAG PLACE", "no-column", "listed PLACE",
                                                 "not-listed PLACE" or "refused N P"
    """

    def __init__(self):
        super().__init__('lookup_cases')
        self.book = None
        self.answers = Counter()

    def lend(self, book):
        if book != self.book:
            self.book = book
            self.add(b'\0' + book, 'book')

    def count(self, call, answer):
        self.answers[f'{call} {answer[0]}' + (f' {answer[1]}' if answer[0] == 'refused' else '')] += 1

    def question(self, call, record, tag, line):
        self.add(call + oab.four(HEADER_RECORD if record is None else record) + oab.four(tag), line)

    def look(self, book, record, tag):
        self.lend(book)
        answer = oab.lookup(book, record, tag)
        line = ' '.join(str(word) for word in answer)
        if answer[0] == 'at':
            line += ' ' + hex_of(book[answer[1]:answer[2]])
        self.count('look', answer)
        self.question(b'\1', record, tag, line)
        return answer

    def why(self, book, record, tag):
        self.lend(book)
        answer = oab.why(book, record, tag)
        self.count('why', answer)
        self.question(b'\2', record, tag, ' '.join(str(word) for word in answer))
        return answer

    def ask(self, book, record, tag):
        """Both ways."""
        self.look(book, record, tag)
        self.why(book, record, tag)


def lookup_all(stream, rng, table, share):
    """A share of the columns of every record, tags that nobody has, tags of the other table; records that aren't."""
    header, address, _, rows = table
    book = books.octets_of(table)
    tags = [tag for tag, _ in header + address]
    others = [0, 0x0000001F, 0xFFFFFFFF, 0x39FE0000, 0x6800001E]
    others += [tag & 0xFFFF0000 | rng.choice(oab.TYPES) for tag in tags[:12]] + [tag ^ 0x10000 for tag in tags[:4]]
    for record in [None] + list(range(len(rows))):
        for tag, _ in header if record is None else address:
            if rng.random() < share:
                stream.ask(book, record, tag)
        for tag in rng.sample(others, min(4, len(others))) + rng.sample(tags, min(3, len(tags))):
            stream.ask(book, record, tag)
    for record in (len(rows), len(rows) + 1, 65_535, 0x7FFFFFFF, 0xFFFFFFFE):
        stream.ask(book, record, rng.choice(tags + [0]))


def lookup_damaged(stream, rng):
    """Damaged books: their refusal comes before 15 and 18."""
    for fault in books.FAULTS:
        for _ in range(6):
            table = books.some_table(rng, most=4)
            made = books.faulty(table, rng, fault)
            if made is None:
                continue
            tags = [tag for tag, _ in table[0] + table[1]] + [0]
            for record in (None, 0, 7):
                stream.ask(made[0], record, rng.choice(tags))
    for book, _ in list(books.proxy_books())[::7]:                         # request 109: the element at fault
        for record in (None, 0, 1):
            stream.ask(book, record, oab.word(book, 24))
    small = books.small_book()
    for book in rng.sample(list(books.octet_changes(small, rng, 3)), 60) + rng.sample(books.truncations(small), 20):
        stream.ask(book, 0, 0x39FE001F)
        stream.ask(book, None, 0x6800001F)


def lookup_reasons(stream, rng):
    """Request 105: every reason on purpose; truncated properties at random; a list at fault before 15 and 18."""
    for made in reasons.asked():
        for record, tag, answer in made.questions:
            assert stream.why(made.book, record, tag) == answer
    for _ in range(100):
        table = reasons.with_lists(rng, books.some_table(rng, records=rng.choice((1, 2, 3)), most=4))
        tags = reasons.tags_near(rng, table)
        for record in [None] + list(range(len(table[3]))):
            for tag in rng.sample(tags, min(8, len(tags))):
                stream.why(books.octets_of(table), record, tag)
    for fault in books.FAULTS:
        for _ in range(3):
            table = reasons.with_lists(rng, books.some_table(rng, most=4))
            made = books.faulty(table, rng, fault)
            if made is not None:
                for record in (None, 0, len(table[3]), 0xFFFFFFFE):
                    tag = rng.choice(reasons.tags_near(rng, table))
                    assert stream.why(made[0], record, tag) == ('refused',) + made[1]
    for value, inside in books.faulty_lists(0x1003):
        book = books.octets_of(([], [(reasons.PHONE, 0), reasons.TRUNCATED], [], [[None, value]]))
        for record, tag in ((0, reasons.PHONE), (0, oab.TRUNCATED), (1, reasons.PHONE), (None, 0)):
            assert stream.why(book, record, tag) == ('refused', 11, 49 + inside)


def make_lookup():
    stream = LookupStream()
    rng = random.Random(303)
    for book in (books.small_book(), books.sample_book()):
        lookup_all(stream, rng, oab.table_of(book), 1.0)
    for table in (books.MANAGER_TABLE, books.DESK_TABLE):
        lookup_all(stream, rng, table, 1.0)
    for tag in (books.MANAGER, 0x8005001E, 0x8005001F):
        for record in (None, 0, 1, 2):
            stream.ask(books.octets_of(books.MANAGER_TABLE), record, tag)
    for _ in range(170):
        lookup_all(stream, rng, books.some_table(rng, records=rng.choice((1, 2, 3, 4))), 0.8)
    for table in wide_tables(rng, 2):
        lookup_all(stream, rng, table, 0.3)
    binary, text = oab.encode_number(1000) + rng.randbytes(1000), 'ö'.encode() * 200 + b'\0'
    columns = [(0x30010102, 2), (0x3001001F, 0), (0x68051003, 0)]
    lookup_all(stream, rng, ([], columns, [], [[binary, text, None]] * 2), 1.0)
    lookup_damaged(stream, rng)
    lookup_reasons(stream, rng)
    print('lookup_cases:', dict(sorted(stream.answers.items())), file=sys.stderr)
    stream.save(1_000_000, 1_000_000)


# ---------------------------------------------------------------- index_cases

class IndexStream(Stream):
    """A saved index, asked of the model as the cases are added.

    Payload, first octet:
      0 a book                                   "book"
      1 octets, lent as its index                "index"
      2 4 room: the book's index, made in as     "made LENGTH SERIAL" or "refused N P SERIAL", the serial of
        many octets A5                           all of them
      3 4 k: the entry of record k               "at START" or "refused N P"
      4 4 k, 4 tag: a value through the index    "at START END HEX", "absent" or "refused N P"
    """

    def __init__(self):
        super().__init__('index_cases')
        self.book = self.index = b''
        self.answers = Counter()

    def lend(self, book, index):
        if book != self.book:
            self.book = book
            self.add(b'\0' + book, 'book')
        if index != self.index:
            self.index = index
            self.add(b'\1' + index, 'index')

    def count(self, call, answer):
        self.answers[f'{call} {answer[0]}' + (f' {answer[1]}' if answer[0] == 'refused' else '')] += 1

    def make(self, book, room):
        self.lend(book, self.index)
        answer = oab.make_index(book, room)
        made = answer[1] if answer[0] == 'made' else b''
        after = made + b'\xA5' * (room - len(made))
        words = ('made', len(made)) if made else answer
        self.count('make', answer)
        self.add(b'\2' + oab.four(room), ' '.join(str(word) for word in words + (oab.serial(after),)))
        return answer

    def entry(self, book, index, k):
        self.lend(book, index)
        answer = oab.index_entry(book, index, k)
        self.count('entry', answer)
        self.add(b'\3' + oab.four(k), ' '.join(str(word) for word in answer))
        return answer

    def ask(self, book, index, k, tag):
        self.lend(book, index)
        answer = oab.lookup_indexed(book, index, k, tag)
        line = ' '.join(str(word) for word in answer)
        if answer[0] == 'at':
            line += ' ' + hex_of(book[answer[1]:answer[2]])
        self.count('look', answer)
        self.add(b'\4' + oab.four(k) + oab.four(tag), line)
        return answer


def index_own(stream, rng, table):
    """A book and its own index: made where there is room; through it or an old one every lookup is the full one."""
    book = books.octets_of(table)
    index, before = indexes.own(book), indexes.old(book)
    for room in (len(index), len(index) - 1, len(index) + 7, 0, rng.randrange(len(index))):
        assert stream.make(book, room)[0] == ('made' if len(index) <= room else 'refused')
    tags = [tag for tag, _ in table[1]]
    others = [0, 0xFFFFFFFF] + [tag ^ 0x10000 for tag in tags[:2]] + [tag for tag, _ in table[0]][:2]
    for k in list(range(len(table[3]))) + [len(table[3]), 65_535, 0xFFFFFFFF]:
        for lent, asked in ((index, rng.sample(tags, min(4, len(tags))) + others), (before, tags[:3] + others[:1])):
            assert stream.entry(book, lent, k)[0] == ('at' if k < len(table[3]) else 'refused')
            for tag in asked:
                assert stream.ask(book, lent, k, tag) == oab.lookup(book, k, tag)


def index_wrong(stream, rng, table, other):
    """Every wrong index, before 15; entries outside the book, behind 15; entries of other records."""
    book = books.octets_of(table)
    count = len(table[3])
    tags = [tag for tag, _ in table[1]]
    tag = tags[0] if tags else 0
    for bad in indexes.wrong(book, other):
        for k, asked in ((0, tag), (count, 0)):
            assert stream.ask(book, bad, k, asked) == ('refused', 19, 0)
        assert stream.entry(book, bad, rng.choice((0, count))) == ('refused', 19, 0)
    for k in range(count):
        index_entries(stream, rng, book, indexes.own(book), k, tags)
        index_entries(stream, rng, book, indexes.old(book), k, tags)


def index_entries(stream, rng, book, index, k, tags):
    """Entry k of a right index changed: outside the book, near its end, inside it."""
    tag, count = tags[0] if tags else 0, oab.word(book, 8)
    for start in indexes.outside(book, index):
        bad = indexes.with_entry(index, k, start)
        assert stream.entry(book, bad, k) == ('refused', 19, 0)
        assert stream.ask(book, bad, k, tag) == ('refused', 19 if tags else 15, 0)
        assert stream.ask(book, bad, k, 0) == ('refused', 15, 0)
        assert stream.ask(book, bad, count, tag) == ('refused', 15, 0)
    for start in indexes.near_end(book):
        bad = indexes.with_entry(index, k, start)
        assert stream.entry(book, bad, k) == ('at', start)
        assert stream.ask(book, bad, k, tag) == (('refused', 2, start) if tags else ('refused', 15, 0))
    for start in rng.sample(range(len(book)), 3):                           # inside: whatever stands there
        bad = indexes.with_entry(index, k, start)
        stream.entry(book, bad, k)
        for asked in tags[:3]:
            stream.ask(book, bad, k, asked)


def index_spoilt(stream, rng, table):
    """A record spoilt under a right index: its own refusal, and the other records as they were."""
    kinds = [kind(books.octets_of(table)) for kind in (indexes.own, indexes.old)]
    tags = [tag for tag, _ in table[1]]
    for k in range(len(table[3])):
        for number, (book, refusal) in enumerate(indexes.spoilt(table, k)):
            index = kinds[number % 2]
            assert stream.ask(book, index, k, rng.choice(tags)) == ('refused',) + refusal
            assert stream.entry(book, index, k) == ('at', indexes.start(index, k))
            assert stream.ask(book, index, k, 0) == ('refused', 15, 0)
            for i in range(len(table[3])):
                if i != k:
                    asked = rng.choice(tags)
                    assert stream.ask(book, index, i, asked) == oab.lookup(books.octets_of(table), i, asked)


def index_exchanged(stream, table):
    """The starts of two records exchanged: whose value that is nobody promises (decision 44)."""
    book = books.octets_of(table)
    places = [record.place for record in oab.read_book(book).records]
    for kind in (indexes.own, indexes.old):
        index = indexes.with_entry(indexes.with_entry(kind(book), 0, places[1]), 1, places[0])
        for k in (0, 1):
            assert stream.entry(book, index, k) == ('at', places[1 - k])
            for tag, _ in table[1]:
                assert stream.ask(book, index, k, tag) == oab.lookup(book, 1 - k, tag)


def index_tables(stream, rng):
    """Damaged books beside the index of the good one: the table refusals come first, the maker's are the book's."""
    for fault in books.FAULTS:
        for _ in range(6):
            table = books.some_table(rng, most=4)
            made = books.faulty(table, rng, fault)
            if made is None:
                continue
            good, (book, refusal) = books.octets_of(table), made
            assert stream.make(book, rng.choice((0, 65_000))) == ('refused',) + refusal
            tag = rng.choice([tag for tag, _ in table[1]] + [0])
            for index in (indexes.own(good), indexes.own(good)[:-1], indexes.old(good)):
                for k in (0, len(table[3])):
                    stream.ask(book, index, k, tag)
                    stream.entry(book, index, k)
    for book in books.truncations(books.small_book()):
        stream.ask(book, indexes.own(books.small_book()), 0, 0x39FE001F)


def make_index():
    stream = IndexStream()
    rng = random.Random(404)
    small, sample = (oab.table_of(book) for book in (books.small_book(), books.sample_book()))
    for table in (small, sample, books.MANAGER_TABLE):
        index_own(stream, rng, table)
        index_wrong(stream, rng, table, books.sample_book() if table is small else books.small_book())
        index_spoilt(stream, rng, table)
    index_exchanged(stream, sample)
    for _ in range(60):
        table = books.some_table(rng, records=rng.choice((1, 2, 3, 5)), most=4)
        index_own(stream, rng, table)
    for _ in range(8):
        table = books.some_table(rng, address=rng.choice((0, 1, 3, 9)), records=rng.choice((1, 2)), most=3)
        index_wrong(stream, rng, table, books.small_book())
    for _ in range(25):
        table = books.some_table(rng, address=rng.choice((1, 2, 5, 8, 9)), records=rng.choice((1, 2, 3)), most=3)
        index_spoilt(stream, rng, table)
    for table in wide_tables(rng, 1):
        index_own(stream, rng, table)
    index_tables(stream, rng)
    print('index_cases:', dict(sorted(stream.answers.items())), file=sys.stderr)
    stream.save(1_000_000, 1_000_000)


# ---------------------------------------------------------------- sheet_cases

class SheetStream(Stream):
    """Sheets of a book, and books from sheets, asked of the model as the cases are added.

    Payload, first octet:
      0 a book                                   "book"
      1 tags of 4: the length of the sheet       "made LENGTH" or "refused N P"
      2 4 room, tags of 4: the sheet, written    the same, a blank, and the hex of all of them
        in as many octets A5
      3 4 each: room, number of header tags, of header flags, of flags, octets of the header
        record; then all of those in this order, 4 octets a tag or flags, at most 192 of each;
        then the text: the book from it, written in as many octets A5    as 2, with the book's length
    """

    most_given = 192

    def __init__(self):
        super().__init__('sheet_cases')
        self.book = None
        self.answers = Counter()

    def lend(self, book):
        if book != self.book:
            self.book = book
            self.add(b'\0' + book, 'book')

    def count(self, call, answer):
        self.answers[f'{call} {answer[0]}' + (f' {answer[1]}' if answer[0] == 'refused' else '')] += 1

    def length(self, book, tags):
        self.lend(book)
        answer = oab.sheet_length(book, tags)
        self.count('length', answer)
        self.add(b'\1' + b''.join(oab.four(tag) for tag in tags), ' '.join(str(word) for word in answer))
        return answer

    def export(self, book, tags, room):
        self.lend(book)
        answer = oab.sheet(book, tags, room)
        made = answer[1] if answer[0] == 'made' else b''
        after = made + b'\xA5' * (room - len(made))
        words = ('made', len(made)) if made else answer
        self.count('export', answer)
        self.add(b'\2' + oab.four(room) + b''.join(oab.four(tag) for tag in tags),
                 ' '.join(str(word) for word in words) + ' ' + hex_of(after))
        return answer


    def back(self, text, flags, heads, header_flags, record, room):
        """A book from a sheet's text."""
        assert max(len(flags), len(heads), len(header_flags)) <= self.most_given
        answer = oab.from_sheet(text, flags, heads, header_flags, record, room)
        made = answer[1] if answer[0] == 'made' else b''
        words = ('made', len(made)) if made else answer
        self.count('import', answer)
        payload = b'\3' + b''.join(oab.four(n) for n in (room, len(heads), len(header_flags), len(flags), len(record)))
        payload += b''.join(oab.four(n) for n in heads + header_flags + flags) + record + text
        self.add(payload, ' '.join(str(word) for word in words) + ' ' + hex_of(made + b'\xA5' * (room - len(made))))
        return answer


def sheet_rooms(stream, book, tags, rooms):
    """A sheet that can be made: its length, and as many octets of room more or less as are asked for."""
    length = stream.length(book, tags)[1]
    for more in rooms:
        if length + more >= 0:
            answer = stream.export(book, tags, length + more)
            assert answer[0] == 'made' if more >= 0 else answer == ('refused', 17, 0)


def sheet_purpose(stream):
    """Every sheet whose lines are known by hand, and every choice that is refused: 15 and 18 come before 17."""
    for made in sheets.chosen():
        for i, (tags, want) in enumerate(made.asked):
            if want[0] == 'refused':
                assert stream.length(made.book, tags) == want
                assert stream.export(made.book, tags, (0, 1, 30)[i % 3]) == want
                continue
            sheet_rooms(stream, made.book, tags, (0,) if len(want[1]) > 120 else (0, -1, (1, 7, -len(want[1]))[i % 3]))
            assert oab.sheet(made.book, tags, len(want[1])) == want


def sheet_every_room(stream):
    """Every room from none to three octets more than are needed."""
    for made in sheets.single_fields():
        for tags, want in made.asked:
            for room in range(len(want[1]) + 4):
                assert stream.export(made.book, tags, room) == (want if room >= len(want[1]) else ('refused', 17, 0))


def sheet_random(stream, rng, times):
    """Random choices of random books: in any order, with something wrong or nothing."""
    for number in range(times):
        table = books.some_table(rng, header=rng.choice((0, 1, 3)), records=rng.choice((1, 2, 3, 4)), most=4)
        table = sheets.spiced(rng, table, 5)
        book = books.octets_of(table)
        if number % 6 == 5:
            book = books.random_damage(book, rng)
        for wrong in (0, 0, 0.6):
            tags = sheets.some_choice(rng, table, wrong)
            answer = stream.length(book, tags)
            if answer[0] == 'made':
                sheet_rooms(stream, book, tags, rng.choice(((0,), (0, -1), (1, -1), (5, -answer[1]), (-2, -7, 0))))
            else:
                assert stream.export(book, tags, rng.choice((0, 3, 20))) == answer


def sheet_damaged(stream, rng):
    """Damaged books: their own refusal comes before everything that the choice or the room could bring."""
    for fault in books.FAULTS:
        for _ in range(5):
            table = books.some_table(rng, address=rng.choice((1, 2, 3, 9)), most=3)
            made = books.faulty(table, rng, fault)
            if made is None:
                continue
            tags = [tag for tag, _ in table[1]]
            for choice in (sheets.some_choice(rng, table), [], [0], tags[:1] * 2, tags, [tags[0]] * 17):
                assert stream.length(made[0], choice) == ('refused',) + made[1]
                assert stream.export(made[0], choice, rng.choice((0, 9))) == ('refused',) + made[1]
    for book, refusal in list(books.proxy_books())[::9]:                   # request 109: the element at fault
        if refusal:
            assert stream.export(book, [0], 0) == ('refused',) + refusal
    for book in books.truncations(books.small_book()):
        stream.export(book, [sheets.MAIL], 4)
    for book in rng.sample(list(books.octet_changes(books.small_book(), rng, 3)), 100):
        stream.export(book, [sheets.MAIL, sheets.NAME], rng.choice((0, 40)))


def sheet_long(stream):
    """Many records, and strings whose quotes make the sheet longer than its book; few of them, since all octets of the
    room are printed."""
    many = books.octets_of(([], [(0x3A00000B, 3), (0x39000003, 0)], [],
                            [[bytes([i % 2]), oab.encode_number(i * 251)] for i in range(1000)]))
    for tags in ([0x3A00000B], [0x39000003], [0x39000003, 0x3A00000B]):
        sheet_rooms(stream, many, tags, (0,))
    quotes = books.octets_of(([], [(sheets.NAME, 0), (sheets.NARROW, 2)], [], [[b'"' * 5000 + b'\0', b'n\0']] * 2))
    sheet_rooms(stream, quotes, [sheets.NAME], (0, -1))
    sheet_rooms(stream, quotes, [sheets.NARROW, sheets.NAME], (-20_000,))
    whole = books.octets_of(([], [(sheets.NAME, 0)], [], [[b'x' * 65_000 + b'\0']]))
    assert stream.length(whole, [sheets.NAME]) == ('made', 65_012)
    assert stream.export(whole, [sheets.NAME], 65_536)[0] == 'made'
    none = books.octets_of(([], [(sheets.NAME, 0)], [], [[None]] * 3000))
    sheet_rooms(stream, none, [sheets.NAME], (0,))


def import_purpose(stream):
    """Every import whose book or refusal is known by hand; a book also in one octet less and in some more."""
    for i, each in enumerate(imports.on_purpose()):
        assert stream.back(*each.given(), each.room) == each.answer
        if each.answer[0] == 'made' and each.room < 90 and i % 3 == 0:
            assert stream.back(*each.given(), len(each.answer[1]) - 1) == ('refused', 17, 0)
            assert stream.back(*each.given(), len(each.answer[1]) + i % 7) == each.answer


def import_random(stream, rng, times, wide):
    """Random sheets in random spellings, two of three spoilt; rooms around what the book takes."""
    for number in range(times):
        given = imports.some_import(rng, rng.choice((1, 1, 2, 3)), rng.choice((4, 16)) if wide else 4)
        if number % 3:
            given = imports.some_damage(rng, given)
        answer = oab.from_sheet(*given, 1 << 16)
        if answer[0] != 'made':
            stream.back(*given, rng.choice((0, 9, 33, 60) if answer[1] != 16 else (40, 90, 150)))
            continue
        length = len(answer[1])
        if length > 400:
            continue
        stream.back(*given, length + rng.choice((0, 0, 0, 0, 0, 1, 5, -1, -7, -rng.randrange(length))))


def import_long(stream):
    """Many lines, a long string and long digits; few of them, since all octets of the room are printed."""
    lines = b'39000003,3A00000B\r\n' + b''.join(b'%d,%d\r\n' % (i * 251, i % 2) for i in range(600))
    assert stream.back(lines, [2, 3], [], [], b'\x04\0\0\0', 6000)[0] == 'made'
    assert stream.back(lines, [2, 3], [], [], b'\x04\0\0\0', 3000) == ('refused', 17, 0)
    text = b'3001001F\r\n"' + b'""' * 6000 + b'"\r\n'
    assert stream.back(text, [0], [], [], b'\x04\0\0\0', 6042)[0] == 'made'
    assert stream.back(text[:-1], [0], [], [], b'\x04\0\0\0', 9) == ('refused', 20, len(text) - 1)
    assert stream.back(text[:-3] + b'\xFF' + text[-3:], [0], [], [], b'\x04\0\0\0', 9) == ('refused', 20, 10)
    digits = b'39000003\r\n1' + b'0' * 60_000 + b'\r\n'
    assert stream.back(digits, [0], [], [], b'\x04\0\0\0', 9) == ('refused', 20, 10)
    head = oab.record_octets([b'\x82\xE8\x03' + b'a\0' * 1000])
    assert stream.back(lines[:24], [0, 0], [0x6800101E], [0], head, 2100)[0] == 'made'


def make_sheets():
    stream = SheetStream()
    rng = random.Random(606)
    for table in (oab.table_of(books.small_book()), oab.table_of(books.sample_book()), books.MANAGER_TABLE,
                  books.DESK_TABLE, books.MAILROOM_TABLE):
        for _ in range(6):
            sheet_rooms(stream, books.octets_of(table), sheets.some_choice(rng, table), (0, -1, 1))
    sheet_purpose(stream)
    sheet_every_room(stream)
    sheet_random(stream, rng, 300)
    for table in wide_tables(rng, 1):
        if table[1]:
            for wrong in (0, 0, 0.6):
                stream.export(books.octets_of(table), sheets.some_choice(rng, table, wrong), 400)
    sheet_damaged(stream, rng)
    sheet_long(stream)
    import_purpose(stream)
    import_random(stream, rng, 1800, False)
    import_random(stream, rng, 120, True)
    import_long(stream)
    print('sheet_cases:', dict(sorted(stream.answers.items())), file=sys.stderr)
    stream.save(1_000_000, 1_000_000)


# ---------------------------------------------------------------- writing_cases

class WritingStream(Stream):
    """Calls of a writing in progress, played on the model as they are added.

    Payload, first octet:
      0 a new buffer: 2 octets length, every octet A5        "buffer LENGTH SERIAL"
      1 begin: 1 octet each: number of header tags, header flags, address tags, address
        flags; then all of those in this order, 4 octets each
      2 open
      3 number: 4 tag, 4 value
      4 yes or no: 4 tag, 1 octet (0 or 1)
      5 octets: 4 tag, the octets
      6 list: 4 tag, 4 count
      7 element number: 4 value
      8 element octets: the octets
      9 close
      10 finish
      11 the state's written length becomes 4 octets (always over the buffer)   "length VALUE SERIAL"
      12 another buffer: 2 octets length, the written octets as far as it holds them, behind them
        every octet 5A; the state stays                      "buffer LENGTH SERIAL"
    Calls 1 to 10 print "done LENGTH SERIAL" or "refused N P SERIAL"; SERIAL is always the
    serial of the whole buffer, after the call. A refused call leaves the state as it was, a
    refused begin too. After call 0 there is no state until a begin is taken: the stream
    makes no call other than 0 and 1 there.
    """

    def __init__(self):
        super().__init__('writing_cases')
        self.buffer = bytearray()
        self.writing = oab.Writing()
        self.written = b''                     # the written octets, where the buffer is too short for them
        self.answers = Counter()

    def new(self, length):
        self.buffer = bytearray(b'\xA5' * length)
        self.writing = oab.Writing()
        self.add(b'\0' + two(length), f'buffer {length} {oab.serial(self.buffer)}')

    def spoil(self, length):
        assert length > len(self.buffer)
        self.writing.written = length
        self.add(b'\x0B' + oab.four(length), f'length {length} {oab.serial(self.buffer)}')

    def move(self, length):
        if self.writing.written <= len(self.buffer):
            self.written = bytes(self.buffer[:self.writing.written])
        self.buffer = bytearray((self.written + b'\x5A' * length)[:length])
        if self.writing.buffer is not None:    # a begin was taken
            self.writing.buffer = self.buffer
        self.add(b'\x0C' + two(length), f'buffer {length} {oab.serial(self.buffer)}')

    def call(self, payload):
        """Make the call on the model and add it with its answer."""
        before = bytes(self.buffer)
        answer = self.perform(payload[0], payload[1:])
        if answer[0] == 'refused':
            assert before == self.buffer
        self.answers[(payload[0], answer[0] if answer[0] == 'done' else answer[1])] += 1
        self.add(payload, ' '.join(str(word) for word in answer + (oab.serial(self.buffer),)))
        return answer

    def perform(self, what, rest):
        w = self.writing
        if what == 1:
            numbers = [least(rest[at:at + 4]) for at in range(4, len(rest), 4)]
            parts, at = [], 0
            for count in rest[:4]:
                parts.append(numbers[at:at + count])
                at += count
            return w.begin(*parts, self.buffer)
        assert w.buffer is self.buffer         # a begin was taken on this buffer
        if what == 2:
            return w.open()
        if what == 3:
            return w.number(least(rest[:4]), least(rest[4:]))
        if what == 4:
            return w.yes_or_no(least(rest[:4]), rest[4] == 1)
        if what == 5:
            return w.octets(least(rest[:4]), rest[4:])
        if what == 6:
            return w.list(least(rest[:4]), least(rest[4:]))
        if what == 7:
            return w.element_number(least(rest))
        if what == 8:
            return w.element_octets(rest)
        if what == 9:
            return w.close()
        assert what == 10
        return w.finish()

    def play(self, length, calls):
        """A new buffer and these calls; given up where the begin is refused."""
        self.new(length)
        answer = None
        for number, payload in enumerate(calls):
            answer = self.call(payload)
            if number == 0 and answer[0] == 'refused':
                break
        return answer


OPEN, CLOSE, FINISH = b'\x02', b'\x09', b'\x0A'


def begin_call(header, address, header_flags=None, address_flags=None):
    """A begin; columns are (tag, flags), or tags and flags are given apart."""
    parts = [[tag for tag, _ in header], [flags for _, flags in header] if header_flags is None else header_flags,
             [tag for tag, _ in address], [flags for _, flags in address] if address_flags is None else address_flags]
    return (b'\x01' + bytes(len(part) for part in parts)
            + b''.join(oab.four(number) for part in parts for number in part))


def element_call(type_code, value):
    """The element call that hands over one encoded value."""
    if type_code == oab.NUMBER:
        return b'\x07' + oab.four(oab.number_at(value)[0])
    if type_code == oab.BINARY:
        return b'\x08' + value[oab.number_at(value)[1]:]
    return b'\x08' + value[:-1]


def value_calls(tag, value):
    """The calls that hand over one encoded value of a column."""
    type_code, name = oab.type_of(tag), oab.four(tag)
    if type_code == oab.YES_OR_NO:
        return [b'\x04' + name + value]
    if type_code not in oab.ELEMENT:
        call = element_call(type_code, value)
        return [(b'\x03' if call[0] == 7 else b'\x05') + name + call[1:]]
    count, at = oab.number_at(value)
    calls = [b'\x06' + name + oab.four(count)]
    for _ in range(count):
        width = oab.walk(oab.ELEMENT[type_code], value[at:])
        calls.append(element_call(oab.ELEMENT[type_code], value[at:at + width]))
        at += width
    return calls


def record_calls(columns, row):
    calls = [OPEN]
    for (tag, _), value in zip(columns, row):
        if value is not None:
            calls += value_calls(tag, value)
    return calls + [CLOSE]


def book_calls(table):
    """All calls that write the book of a table."""
    header, address, header_row, rows = table
    calls = [begin_call(header, address)] + record_calls(header, header_row)
    for row in rows:
        calls += record_calls(address, row)
    return calls + [FINISH]


def some_call(rng, tags):
    """A call that may be right or wrong in any way (no begin)."""
    tag = oab.four(rng.choice(tags) ^ rng.choice((0,) * 12 + (1, 0x10000)))
    octets = rng.choice((b'', b'a', b'ab\0c', b'\0', b'\xFF', 'é'.encode(), b'\xED\xA0\x80', b'abc', bytes(4)))
    return rng.choice((
        OPEN, CLOSE, FINISH,
        b'\x03' + tag + oab.four(books.some_number(rng)),
        b'\x04' + tag + bytes([rng.randint(0, 1)]),
        b'\x05' + tag + octets,
        b'\x06' + tag + oab.four(rng.choice((0, 1, 2, 3, 128, 0xFFFFFFFF))),
        b'\x07' + oab.four(books.some_number(rng)),
        b'\x08' + octets,
    ))


def writing_begins(stream, rng):
    """Begin: 15, 5, 6, 7, 17 by themselves and together."""
    def columns(count, first=0x3001):
        return [((first + i) << 16 | oab.TYPES[i % 10], i % 4) for i in range(count)]

    stream.new(2200)
    for header, address in ((0, 0), (1, 0), (0, 1), (128, 0), (0, 128), (128, 128), (127, 128)):
        stream.call(begin_call(columns(header), columns(address)))
    for header, address in ((129, 0), (0, 129), (129, 129), (130, 1), (1, 130), (255, 0), (0, 255), (128, 129)):
        stream.call(begin_call(columns(header), columns(address)))
    few = columns(3)
    for counts in ((2, 3, 3, 3), (3, 2, 3, 3), (3, 3, 2, 3), (3, 3, 3, 2), (0, 1, 0, 0), (1, 0, 0, 0), (0, 0, 0, 1), (0, 0, 1, 0),
                   (129, 128, 1, 1), (1, 1, 129, 130), (129, 129, 1, 0), (2, 3, 129, 129), (3, 2, 2, 3)):
        parts = [[c[j % 2] for c in columns(n)] for j, n in enumerate(counts)]
        stream.call(begin_call([(t, 0) for t in parts[0]], [(t, 0) for t in parts[2]], parts[1], parts[3]))
    stream.call(OPEN)                          # the refused begins left the state of the last one taken
    for table in range(2):
        for count in (1, 2, 8, 128):
            for row in sorted({0, 1, count // 2, count - 1}):
                if row >= count:
                    continue
                bad = columns(count)
                bad[row] = (bad[row][0] & 0xFFFF0000 | rng.choice((0, 5, 0x1E00, 0x100B, 0x1000, 0x301F, 0xFFFF)), 1)
                stream.call(begin_call(bad, few) if table == 0 else begin_call(few, bad))
                stream.call(begin_call(bad, bad))
                if row > 0:
                    bad = columns(count)
                    bad[row] = (bad[rng.randrange(row)][0], 3)
                    stream.call(begin_call(bad, few) if table == 0 else begin_call(few, bad))
                    stream.call(begin_call(bad, columns(129)))
                    spoilt = list(bad)         # 6 and 7 in one table: row by row
                    other = rng.randrange(count)
                    if other != row:
                        spoilt[other] = (spoilt[other][0] & 0xFFFF0000 | 5, 0)
                        stream.call(begin_call(spoilt, few) if table == 0 else begin_call(few, spoilt))
    stream.call(begin_call([(0x30010005, 0), (0x30010005, 0)], []))        # 6 before 7, first row first
    stream.call(begin_call(few, few))                                      # the tables may share tags
    stream.call(begin_call([(0x3001001E, 0), (0x3001001F, 0)], [(0x3001101F, 0xFFFFFFFF), (0x30010003, 0xFFFFFFFC)]))
    for header, address in ((0, 0), (1, 0), (0, 1), (2, 3), (9, 8)):       # room exact, one short, one more
        need = 24 + 8 * (header + address)
        for length in sorted({0, 1, 11, 12, 23, need - 8, need - 1, need, need + 1}):
            stream.new(length)
            stream.call(begin_call(columns(header), columns(address)))
            stream.call(begin_call([(0x30010005, 0)], []))                 # 6 before 17
            stream.call(begin_call(columns(129), []))                      # 5 before 17
            if stream.writing.buffer is stream.buffer:
                stream.call(OPEN)


def writing_refusals(stream, rng):
    """Each refusal of each call at each stage of a short book with every type."""
    columns = [(0x3000_0000 + (i << 16) | t, 0) for i, t in enumerate(oab.TYPES)]
    tags = [tag for tag, _ in columns]
    number, yes, obj, narrow, text, binary = (oab.four(tag) for tag in tags[:6])
    lists = [oab.four(tag) for tag in tags[6:]]
    octets = (b'', b'a', b'abc', b'\0', b'a\0', b'\0a', b'a\0b', b'\xFF', b'\x80', 'é'.encode(), '😀'.encode(), b'\xED\xA0\x80',
              b'\xF4\x8F\xBF\xBF', b'\xF4\x90\x80\x80', b'\xC0\x80', b'\xE0\xA0', b'x' * 127, b'x' * 128, b'x' * 256)
    singles = [b'\x03' + name + oab.four(n) for name in map(oab.four, tags) for n in (0, 127, 128, 0xFFFFFFFF)]
    singles += [b'\x04' + name + bytes([n]) for name in map(oab.four, tags) for n in (0, 1)]
    singles += [b'\x05' + name + value for name in map(oab.four, tags) for value in octets]
    singles += [b'\x06' + name + oab.four(n) for name in map(oab.four, tags) for n in (0, 1, 2)]
    for call in singles:                       # every single value into every column, alone in a record
        stream.play(150 + len(call), [begin_call([], columns), OPEN, CLOSE, OPEN, call, CLOSE, FINISH])
    for n in books.BOUNDARY_NUMBERS:           # numbers and counts at every width
        stream.play(140, [begin_call(columns, []), OPEN, b'\x03' + number + oab.four(n), b'\x06' + lists[0] + oab.four(n),
                          b'\x07' + oab.four(n), b'\x07' + oab.four(0), CLOSE])
    elements = [b'\x07' + oab.four(n) for n in (0, 300)] + [b'\x08' + value for value in octets]
    for name in lists:                         # every element into every list
        for call in elements:
            stream.play(160 + len(call), [begin_call([], columns), OPEN, CLOSE, OPEN, b'\x06' + name + oab.four(2),
                                          call, CLOSE, call, call, CLOSE, FINISH])
    # Every call at every stage: before, within, between and behind records, inside a list, after the finish.
    every = [OPEN, CLOSE, FINISH, b'\x03' + number + oab.four(5), b'\x04' + yes + b'\1', b'\x05' + obj + b'a',
             b'\x05' + narrow + b'a', b'\x05' + text + b'a', b'\x05' + binary + b'a', b'\x06' + lists[0] + oab.four(1),
             b'\x06' + lists[2] + oab.four(0), b'\x07' + oab.four(5), b'\x08' + b'a', b'\x05' + oab.four(0x77770102) + b'a',
             b'\x05' + oab.four(tags[3] ^ 1) + b'', b'\x03' + text + oab.four(0), begin_call([(5, 0)], [])]
    stages = [[], [OPEN], [OPEN, CLOSE], [OPEN, CLOSE, OPEN], [OPEN, CLOSE, OPEN, b'\x05' + text + b'a'],
              [OPEN, b'\x06' + lists[0] + oab.four(2)], [OPEN, b'\x06' + lists[1] + oab.four(2), b'\x08b'],
              [OPEN, CLOSE, OPEN, b'\x06' + lists[3] + oab.four(1)], [OPEN, CLOSE, OPEN, b'\x06' + lists[3] + oab.four(1), b'\x08b'],
              [OPEN, CLOSE, OPEN, CLOSE], [OPEN, CLOSE, OPEN, CLOSE, OPEN], [OPEN, CLOSE, OPEN, CLOSE, FINISH]]
    for stage in stages:
        for room in (300, 200):
            for call in every:
                stream.play(room, [begin_call(columns, columns)] + stage + [call, call, FINISH])
    for stage in stages:                       # the state's written length over the buffer: 15 for every call
        for over in (1, 1000, 0xFFFFFFFF - 250):
            stream.play(250, [begin_call(columns, columns)] + stage)
            stream.spoil(250 + over)
            for call in rng.sample(every[:-1], 6):
                stream.call(call)
            stream.call(every[-1])
            stream.call(begin_call([], columns))                           # begin is never out of turn
            stream.call(OPEN)
    # Several refusals at once: 15, 18, 16, 17.
    passed = begin_call([], [(tags[0], 2), (tags[3], 2), (tags[6], 2)])
    body = [OPEN, CLOSE, OPEN, b'\x05' + narrow + b'a']
    for room in (24 + 24 + 4 + 7, 100):
        stream.play(room, [passed] + body + [
            b'\x03' + number + oab.four(1),    # passed
            b'\x05' + number + b'',            # passed, and of another kind
            b'\x06' + number + oab.four(0),
            b'\x05' + narrow + b'',            # passed: the same column again
            b'\x06' + lists[0] + oab.four(0),  # 18, and no room
            CLOSE,                             # 16: two keys missing
            b'\x06' + lists[0] + oab.four(3),
            b'\x08' + b'a', b'\x07' + oab.four(1), CLOSE, FINISH, b'\x06' + lists[0] + oab.four(1)])


def writing_keys(stream, rng):
    """Keys missing at the close of a record; the header record has none that bind."""
    for count in (1, 2, 7, 8, 9, 17, 128):
        columns = [((0x3001 + i) << 16 | 3, 2 if rng.random() < 0.4 or i == count - 1 else 0) for i in range(count)]
        keys = [tag for tag, flags in columns if flags & 2]
        everything = [b'\x03' + oab.four(tag) + oab.four(1) for tag in keys]
        for missing in sorted({0, len(keys) - 1, len(keys) // 2}):
            some = everything[:missing] + everything[missing + 1:]
            stream.play(24 + 16 * count + 200, [begin_call(columns, columns), OPEN, CLOSE, OPEN] + some
                        + [CLOSE, everything[missing], CLOSE, OPEN, FINISH])
            stream.play(24 + 16 * count + 400, [begin_call(columns, columns), OPEN] + some + [CLOSE, OPEN] + everything
                        + [CLOSE, FINISH, CLOSE])


def writing_managers(stream):
    """Request 102: a 000D value is handed over as octets, without the 00, and by no other call; as a key it is due."""
    tag = oab.four(books.MANAGER)
    wrong = [b'\x03' + tag + oab.four(1), b'\x04' + tag + b'\x01', b'\x06' + tag + oab.four(1), b'\x05' + tag,
             b'\x05' + tag + b'\0', b'\x05' + tag + b'a\0', b'\x05' + tag + b'a\0b']
    for value in (b'a', b'/o=house/cn=eve', bytes(range(1, 256))):
        table = ([(books.MANAGER, 2)], [(books.MANAGER, 2), (0x39FE001F, 0)], [value + b'\0'],
                 [[value + b'\0', b'a@b\0'], [value + b'\0', None]])
        book, calls = oab.write_book(*table), book_calls(table)
        assert stream.play(len(book), calls) == ('done', len(book)) and stream.buffer == book
        stream.play(len(book) - 1, calls)
        mixed, opened = [], 0
        for call in calls:                     # each wrong one is 18; a close in front of the key is 16
            opened += call == OPEN
            if call.startswith(b'\x05' + tag):
                mixed += wrong + [CLOSE] * (opened > 1)
            mixed.append(call)
        assert stream.play(len(book), mixed) == ('done', len(book)) and stream.buffer == book
    stream.play(100, [begin_call([], [(books.MANAGER, 2)]), OPEN, CLOSE, OPEN, CLOSE, b'\x05' + tag + b'a', CLOSE,
                      FINISH])


def grown(stream, rng, call):
    """The call, made again in a larger buffer after each 17."""
    answer = stream.call(call)
    while answer[:2] == ('refused', 17):
        stream.move(len(stream.buffer) + rng.choice((1, 2, 5, 30)))
        answer = stream.call(call)
    return answer


def writing_moves(stream, rng, table):
    """A book whose buffer grows, moves and shrinks between the calls, once below what is written."""
    calls = book_calls(table)
    stream.new(rng.choice((0, 23, 24, 60)))
    for call in calls:
        written = stream.writing.written
        if rng.random() < 0.5:
            stream.move(written + rng.choice((0, 0, 1, 7, 100)))
        if written and rng.random() < 0.1:
            stream.move(rng.randrange(written))
            assert stream.call(OPEN) == ('refused', 15, 0)
            stream.move(written)
        answer = grown(stream, rng, call)
        assert answer[0] == 'done'
    book = oab.write_book(*table)
    assert answer == ('done', len(book)) and stream.buffer[:len(book)] == book


def make_writing():
    stream = WritingStream()
    rng = random.Random(404)
    small = book_calls(books.SMALL_TABLE)
    answer = stream.play(78, small)            # document 01's small book, in exactly its room
    assert answer == ('done', 78) and stream.buffer == books.small_book()
    assert stream.play(438, book_calls(oab.table_of(books.sample_book()))) == ('done', 438)
    assert stream.buffer == books.sample_book()
    for length in range(0, 84):                # every buffer size around every need
        stream.play(length, small)
    writing_begins(stream, rng)
    writing_refusals(stream, rng)
    writing_keys(stream, rng)
    writing_managers(stream)
    for _ in range(120):                       # whole books: exact room, one short, some more
        table = books.some_table(rng, header=rng.randrange(6), address=rng.choice((0, 1, 2, 5, 8, 9)), most=4)
        book, calls = oab.write_book(*table), book_calls(table)
        room = rng.choice((0, 0, 1, 20))
        assert stream.play(len(book) + room, calls) == ('done', len(book))
        assert stream.buffer == book + b'\xA5' * room
        if rng.random() < 0.5:
            stream.play(rng.randint(24, len(book)), calls)
    for table in list(wide_tables(rng, 1)) + [books.some_table(rng, 16, 17, 3)]:
        book = oab.write_book(*table)
        assert stream.play(len(book), book_calls(table)) == ('done', len(book)) and stream.buffer == book
    moved = random.Random(405)
    writing_moves(stream, moved, books.SMALL_TABLE)
    for _ in range(20):
        writing_moves(stream, moved, books.some_table(moved, moved.randrange(6), moved.choice((0, 1, 5, 9)), 3))
    for _ in range(110):                       # right calls with wrong ones between them
        table = books.some_table(rng, header=rng.randrange(4), address=rng.choice((1, 2, 5, 8, 9)), most=4)
        tags = [tag for tag, _ in table[0] + table[1]]
        calls = book_calls(table)
        mixed = calls[:1]
        for call in calls[1:]:
            while rng.random() < 0.35:
                mixed.append(begin_call([(0x30010005, 0)], []) if rng.random() < 0.05 else some_call(rng, tags))
            mixed.append(call)
        mixed += [some_call(rng, tags) for _ in range(3)]
        stream.play(len(oab.write_book(*table)) + rng.choice((0, 5, 100)), mixed)
    for _ in range(60):                        # a second begin in the middle: old octets lie behind it
        first, second = (books.some_table(rng, header=rng.randrange(3), address=rng.choice((1, 2, 9)), most=3) for _ in range(2))
        calls = book_calls(first)
        stream.play(max(len(oab.write_book(*first)), len(oab.write_book(*second))), calls[:rng.randint(1, len(calls))])
        if rng.random() < 0.5:
            stream.spoil(len(stream.buffer) + rng.choice((1, 70_000)))
        for call in book_calls(second):
            answer = stream.call(call)
        assert stream.buffer.startswith(oab.write_book(*second))
    totals = Counter()
    for (_, answer), often in stream.answers.items():
        totals[answer] += often
    print('writing_cases:', dict(sorted(totals.items(), key=str)), file=sys.stderr)
    stream.save(1_000_000, 1_000_000)


# ---------------------------------------------------------------- correcting_cases

class CorrectingStream(Stream):
    """Corrections, played on the model as they are added.

    Payload, first octet:
      0 a new buffer: 2 octets room, then octets: the buffer is those octets and room octets
        A5, the stated length the number of octets           "buffer STATED SERIAL"
      1 set: 4 record (FFFFFFFF: the header record), 4 tag, the encoding
      2 clear: 4 record, 4 tag
      3 insert: 4 k, the record's octets
      4 delete: 4 k
      5 the stated length becomes 4 octets                   "length STATED SERIAL"
    Calls 1 to 4 print "done LENGTH SERIAL" or "refused N P SERIAL"; SERIAL is always the
    serial of the whole buffer, after the call. After an accepted correction the stated
    length is the new length.
    """

    def __init__(self):
        super().__init__('correcting_cases')
        self.buffer = bytearray()
        self.length = 0
        self.answers = Counter()

    def new(self, octets, room):
        self.buffer = bytearray(octets) + b'\xA5' * room
        self.length = len(octets)
        self.add(b'\0' + two(room) + octets, f'buffer {self.length} {oab.serial(self.buffer)}')

    def state(self, length):
        self.length = length
        self.add(b'\x05' + oab.four(length), f'length {length} {oab.serial(self.buffer)}')

    def call(self, payload):
        before, old = bytes(self.buffer), self.length
        what, first, rest = payload[0], least(payload[1:5]), payload[5:]
        record = None if first == HEADER_RECORD else first
        if what == 1:
            answer = oab.set_value(self.buffer, self.length, record, least(rest[:4]), rest[4:])
        elif what == 2:
            answer = oab.clear_value(self.buffer, self.length, record, least(rest))
        elif what == 3:
            answer = oab.insert_record(self.buffer, self.length, first, rest)
        else:
            answer = oab.delete_record(self.buffer, self.length, first)
        assert len(before) == len(self.buffer)
        if answer[0] == 'refused':
            assert before == self.buffer
        else:
            self.length = answer[1]
            assert not any(self.buffer[self.length:old])
            assert self.buffer[max(old, self.length):] == before[max(old, self.length):]
            assert oab.judge(bytes(self.buffer[:self.length]))[0] == 'good'
        self.answers[(what, answer[0] if answer[0] == 'done' else answer[1])] += 1
        self.add(payload, ' '.join(str(word) for word in answer + (oab.serial(self.buffer),)))
        return answer


def set_call(record, tag, encoding):
    return b'\x01' + oab.four(record) + oab.four(tag) + encoding


def clear_call(record, tag):
    return b'\x02' + oab.four(record) + oab.four(tag)


def insert_call(k, octets):
    return b'\x03' + oab.four(k) + octets


def delete_call(k):
    return b'\x04' + oab.four(k)


def correct_table(table, payload):
    """The table after an accepted correction: demand 3's other side."""
    header, address, header_row, rows = table
    header_row, rows = list(header_row), [list(row) for row in rows]
    what, first, rest = payload[0], least(payload[1:5]), payload[5:]
    if what in (1, 2):
        columns, row = (header, header_row) if first == HEADER_RECORD else (address, rows[first])
        column = [tag for tag, _ in columns].index(least(rest[:4]))
        row[column] = rest[4:] if what == 1 else None
    elif what == 3:
        row, at = [], 4 + oab.presence_octets(len(address))
        for i, (tag, _) in enumerate(address):
            if not oab.bit_of(rest[4:], i):
                row.append(None)
                continue
            width = oab.walk(oab.type_of(tag), rest[at:])
            row.append(rest[at:at + width])
            at += width
        rows.insert(first, row)
    else:
        del rows[first]
    return header, address, header_row, rows


def wrong_encoding(rng, type_code):
    """An offered value that breaks its form: cut, with octets behind, broken, of another type."""
    good = books.some_value(rng, type_code, 4)
    return rng.choice((b'', good[:-1], good + b'\0', good + good, books.broken_value(rng, type_code),
                       books.cut_value(rng, type_code)))


def wrong_record(rng, address):
    """An offered record that breaks its form, or lacks a key, or both."""
    parts = books.RecordDraft(books.some_row(rng, address, True, most=4))
    what = rng.randrange(9)
    if what == 0:
        return parts.octets()[:rng.randrange(len(parts.octets()))]
    if what == 1:
        parts.left = rng.choice((b'\0', b'a\0', b'\xFF' * 5))
    elif what == 2:
        parts.size = len(parts.octets()) + rng.choice((-1, 1, 2, 256, -2)) & 0xFFFFFFFF
    elif what == 3:
        return parts.octets() + rng.choice((b'\0', b'\x04\0\0\0', parts.octets()))
    elif what == 4 and len(address) % 8:
        parts.presence[-1] |= 1
    elif what == 5 and parts.values:
        at = rng.randrange(len(parts.values))
        parts.values[at][1] = books.broken_value(rng, oab.type_of(address[parts.values[at][0]][0]))
    elif what == 6 and parts.values:
        parts.values[-1][1] = books.cut_value(rng, oab.type_of(address[parts.values[-1][0]][0]))
    else:                                      # a key is missing; perhaps a later value is broken too
        keys = [i for i, _ in parts.values if address[i][1] & oab.KEY]
        if keys:
            gone = rng.choice(keys)
            parts.values = [value for value in parts.values if value[0] != gone]
            parts.presence[gone // 8] &= ~(0x80 >> gone % 8)
            if parts.values and rng.random() < 0.3:
                last = parts.values[-1]
                last[1] = books.broken_value(rng, oab.type_of(address[last[0]][0]))
    return parts.octets()


def some_correction(rng, table, wrong):
    """A correction of that table; the chance that something about it is wrong is `wrong`."""
    header, address, header_row, rows = table
    count = len(rows)
    what = rng.choice((1, 1, 1, 2, 2, 3, 3, 4))
    k = rng.choice((0, count // 2, count - 1))
    if what == 4:
        return delete_call(rng.choice((count, count + 1, 65_535, 0xFFFFFFFF)) if rng.random() < wrong else k)
    if what == 3:
        octets = oab.record_octets(books.some_row(rng, address, True, most=4))
        if rng.random() < wrong:
            octets = wrong_record(rng, address)
        k = rng.choice((0, k, count))
        if rng.random() < wrong / 3:
            k = rng.choice((count + 1, 65_536, 0xFFFFFFFF))
        return insert_call(k, octets)
    record = HEADER_RECORD if rng.random() < 0.3 else k
    columns = header if record == HEADER_RECORD else address
    if rng.random() < wrong / 3:
        record = rng.choice((count, 65_535, 0xFFFFFFFE))
    unlike = [tag ^ 0x10000 for tag, _ in columns] + [tag for tag, _ in header + address] + [0, 0x3001001F]
    tag = rng.choice(unlike)
    if columns and rng.random() >= wrong / 3:
        tag = columns[rng.choice((0, len(columns) - 1, rng.randrange(len(columns))))][0]
    if what == 2:
        return clear_call(record, tag)
    type_code = oab.type_of(tag)
    if type_code not in oab.TYPES:
        return set_call(record, tag, rng.choice((b'', b'a\0', b'\x01')))
    encoding = wrong_encoding(rng, type_code) if rng.random() < wrong else books.some_value(rng, type_code, rng.choice((1, 4, 12)))
    return set_call(record, tag, encoding)


def correcting_small(stream):
    """Document 01's own case, then every correction of the small book with every room near the need."""
    small = books.small_book()
    stream.new(small, 2)
    assert stream.call(set_call(0, 0x3001001F, b'\x51\0')) == ('done', 80)
    assert stream.buffer[63:80] == bytes.fromhex('11 00 00 00 E0 62 40 63 00 51 00 02 78 00 79 7A 00')
    row = [b'b@c\0', None, b'\x02x\0yz\0']
    encodings = (b'', b'\0', b'Q\0', b'abcdefg\0', b'Q', b'Q\0\0', b'\xFF\0', b'b@c\0', b'A\0', b'\x02x\0yz\0', b'\x01x\0', b'\0x\0',
                 b'\x03a\0b\0c\0')
    calls = [set_call(record, tag, encoding) for record in (HEADER_RECORD, 0, 1)
             for tag in (0x6800001F, 0x39FE001F, 0x3001001F, 0x800F101F, 0x3001001E) for encoding in encodings]
    calls += [clear_call(record, tag) for record in (HEADER_RECORD, 0, 1)
              for tag in (0x6800001F, 0x39FE001F, 0x3001001F, 0x800F101F, 0x3001001E)]
    records = [oab.record_octets(r) for r in (row, [b'a\0', None, None], [b'a\0', b'b\0', b'\x01c\0'], [None, b'b\0', None])]
    records += [b'', b'\x04\0\0\0', b'\x05\0\0\0\x80', b'\x05\0\0\0\0', b'\x07\0\0\0\x90a\0', b'\x07\0\0\0\x80a\0\0', b'\x08\0\0\0\x80a\0\0',
                b'\x07\0\0\0\x80a', b'\x06\0\0\0\x80a', b'\x06\0\0\0\x80\0', b'\x07\0\0\0\x50\xFF\0', b'\x04\0\0', b'\x07\0\0\0\x40\xFF\0']
    calls += [insert_call(k, octets) for k in (0, 1, 2) for octets in records]
    calls += [delete_call(k) for k in (0, 1)]
    stream.new(small, 0)
    for call in calls:
        answer = probe(bytearray(small + bytes(100)), len(small), call)
        rooms = (0,)
        if answer[0] == 'done' and answer[1] > len(small):
            more = answer[1] - len(small)
            rooms = sorted({0, more - 1, more, more + 1})
        for room in rooms:
            if room or stream.buffer != small:  # else the last call changed nothing
                stream.new(small, room)
            stream.call(call)
    for length in [*range(0, 78, 3), 77, 79, 80, 84, 90, 91, 1000, 16_777_217, oab.LIMIT, oab.LIMIT + 1, 0xFFFFFFFF]:
        stream.new(small, 12)                  # the stated length: over the buffer 15, else the book's refusal
        stream.state(length)
        for call in (calls[0], set_call(0, 0x3001001F, b'Q\0'), clear_call(0, 0x3001001F), insert_call(0, records[1]), delete_call(0)):
            stream.call(call)
        stream.state(78)
        stream.call(set_call(0, 0x3001001F, b'Q\0'))


def correcting_managers(stream):
    """Request 102: what a set of a 000D value takes and what it refuses, in both kinds of record; records with one."""
    book = books.octets_of(books.MANAGER_TABLE)
    values = (b'a\0', b'/o=house/cn=george\0', b'\x80\xFF\0', b'', b'\0', b'a', b'/o=house', b'a\0\0', b'a\0b\0',
              b'\x01')
    calls = [set_call(record, books.MANAGER, value) for record in (HEADER_RECORD, 0, 1, 2) for value in values]
    calls += [clear_call(record, books.MANAGER) for record in (HEADER_RECORD, 0, 1, 2)]
    calls += [set_call(0, books.MANAGER & ~0xFFFF | other, b'a\0') for other in (oab.NARROW, oab.TEXT)]
    rows = [[b'a@b\0', value, b'George\0'] for value in values[:3]] + [[b'a@b\0', None, None]]
    calls += [insert_call(1, oab.record_octets(row)) for row in rows]
    calls += [insert_call(1, books.RecordDraft([b'a@b\0', value, None]).octets()) for value in values[3:]]
    calls += [delete_call(1)]
    for call in calls:
        stream.new(book, 80)
        if stream.call(call)[0] == 'done':
            table = correct_table(books.MANAGER_TABLE, call)
            assert stream.buffer[:stream.length] == oab.write_book(*table)
    more = len(b'george') - len(b'J\xFCrg')
    for room in (more - 1, more):
        stream.new(book, room)
        answer = stream.call(set_call(1, books.MANAGER, b'/o=house/cn=george\0'))
        assert answer == (('done', len(book) + more) if room == more else ('refused', 17, 0))


def correcting_proxies(stream):
    """Request 109: a list at fault that is offered is 18 at 0, wherever its fault is; one in the book is 11 at it."""
    for type_code in books.ELEMENTS:
        tag, whole = 0x800F << 16 | type_code, books.whole_list(type_code)
        stream.new(books.octets_of(([(tag, 0)], [(tag, 0)], [whole], [[whole], [None]])), 40)
        for value, inside in books.faulty_lists(type_code):
            for record in (HEADER_RECORD, 1):
                assert stream.call(set_call(record, tag, value)) == ('refused', 18, 0)
            assert stream.call(insert_call(1, books.RecordDraft([value]).octets())) == ('refused', 18, 0)
        for value, inside in list(books.faulty_lists(type_code))[::3]:
            stream.new(books.octets_of(([], [(tag, 0)], [], [[whole], [value]])), 40)
            for call in (set_call(0, tag, whole), clear_call(1, tag), insert_call(0, b''), delete_call(1)):
                assert stream.call(call) == ('refused', 11, 41 + len(whole) + 5 + inside)


def probe(buffer, length, payload):
    """The answer to a correction on a buffer of its own."""
    stream = CorrectingStream()
    stream.buffer, stream.length = buffer, length
    return stream.call(payload)


def correcting_chains(stream, rng):
    """Chains of corrections, each result compared with a fresh layout of the corrected table."""
    for number in range(320):
        wide = number % 20 == 19
        table = books.some_table(rng, header=rng.choice((0, 1, 3)), address=127 if wide else rng.choice((0, 1, 2, 3, 7, 8, 9)),
                                 records=rng.choice((1, 2, 3, 5)), most=4)
        room = rng.choice((0, 5, 30, 100, 300))
        stream.new(books.octets_of(table), room)
        for _ in range(rng.randint(6, 14)):
            payload = some_correction(rng, table, rng.choice((0, 0, 0.5)))
            if rng.random() < 0.03:
                right = stream.length
                stream.state(rng.choice((len(stream.buffer) + 1, right - 1, 0, 0xFFFFFFFF)))
                stream.call(payload)
                stream.state(right)
            if stream.call(payload)[0] == 'done':
                table = correct_table(table, payload)
                assert stream.buffer[:stream.length] == books.octets_of(table)
                plain = [[(tag, flags & 3) for tag, flags in columns] for columns in table[:2]]
                if plain == [list(columns) for columns in table[:2]]:
                    assert stream.buffer[:stream.length] == oab.write_book(*table)


def correcting_rooms(stream, rng):
    """Corrections that grow the book, with exactly the room, one octet less and one more."""
    for _ in range(90):
        table = books.some_table(rng, header=rng.choice((0, 1, 3)), address=rng.choice((1, 2, 3, 8, 9)), most=4)
        book = books.octets_of(table)
        payload = some_correction(rng, table, 0)
        answer = probe(bytearray(book + bytes(400)), len(book), payload)
        more = answer[1] - len(book) if answer[0] == 'done' else 0
        for room in (more - 1, more, more + 1):
            if room >= 0:
                stream.new(book, room)
                assert stream.call(payload) == (('refused', 17, 0) if answer[0] == 'done' and room < more else answer)


def correcting_damaged(stream, rng):
    """Damaged books: their own refusal comes before everything but 15 for the stated length."""
    for fault in books.FAULTS:
        for _ in range(4):
            table = books.some_table(rng, header=rng.choice((1, 3)), address=rng.choice((2, 3, 9)), most=4)
            made = books.faulty(table, rng, fault)
            if made is None:
                continue
            stream.new(made[0], rng.choice((0, 40)))
            for _ in range(3):
                assert stream.call(some_correction(rng, table, 0.5)) == ('refused',) + made[1]
            stream.state(len(stream.buffer) + 1)
            assert stream.call(some_correction(rng, table, 0.5)) == ('refused', 15, 0)


def make_correcting():
    stream = CorrectingStream()
    rng = random.Random(505)
    correcting_small(stream)
    correcting_managers(stream)
    correcting_proxies(stream)
    correcting_chains(stream, rng)
    correcting_rooms(stream, rng)
    correcting_damaged(stream, rng)
    totals = Counter()
    for (_, answer), often in stream.answers.items():
        totals[answer] += often
    print('correcting_cases:', dict(sorted(totals.items(), key=str)), file=sys.stderr)
    stream.save(1_000_000, 1_000_000)


# ---------------------------------------------------------------- examples

def make_examples():
    folder = TOP / 'examples'
    folder.mkdir(parents=True, exist_ok=True)
    for name, book in (('small', books.small_book()), ('sample', books.sample_book()),
                       ('manager', books.octets_of(books.MANAGER_TABLE)),
                       ('desk', books.octets_of(books.DESK_TABLE)),
                       ('mailroom', books.octets_of(books.MAILROOM_TABLE))):
        (folder / f'{name}.book').write_bytes(book)
        (folder / f'{name}.listing').write_text(oab.listing(book))


if __name__ == '__main__':
    make_examples()
    make_ground()
    make_judge()
    make_lookup()
    make_index()
    make_sheets()
    make_writing()
    make_correcting()
