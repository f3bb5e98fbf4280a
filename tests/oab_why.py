"""The command `why`: its line, its words and its object, held to the model.

Run from the top: python3 tests/oab_why.py. What is expected comes from the model (tests/model) and from request 105
(document 02); the line's form from docs/OAB.md. Ends with "N runs, 0 differ".
"""

import json
import random

import oab_tools
from oab_tools import TOP, content, differs, refusal, run, says

from model import books, oab, reasons
from model.names import NAMES

WORDS = {'other-type': 'other-type', 'no-column': 'no-column', 'listed': 'truncated', 'not-listed': 'absent'}


def hex_tag(tag):
    return f'{tag:08X}'


def by_name(tag):
    return NAMES.get(tag, hex_tag(tag))


def record_word(record):
    return 'header' if record is None else record


def place_of(answer):
    return 0 if answer[0] == 'no-column' else answer[-1]


def line(answer, name=hex_tag):
    """What is printed; nothing where it is refused."""
    if answer[0] == 'refused':
        return b''
    other = f' {name(answer[1])}' if answer[0] == 'other-type' else ''
    return f'{WORDS[answer[0]]}{other} {place_of(answer)}\n'.encode()


def said(book, record, tag, answer, name=hex_tag):
    """The words on standard error."""
    table = 'header' if record is None else 'address'
    who = 'the header record' if record is None else f'record {record}'
    no_column, no_value = f'there is no column {name(tag)} in the {table} table', f'{who} has no value of {name(tag)}'
    words = {'no-column': f'{no_column}, nor one of another type',
             'listed': f'{no_value} and lists it as truncated (presence octet at {place_of(answer)})',
             'not-listed': f'{no_value} and doesn\'t list it as truncated (presence octet at {place_of(answer)})'}
    if answer[0] == 'other-type':
        words['other-type'] = f'{no_column}, but {name(answer[1])}, of another type (row at {place_of(answer)})'
    return f'oab: {book}: {words[answer[0]]}\n'.encode()


def object_of(record, tag, answer):
    other = answer[1] if answer[0] == 'other-type' else None
    return {'record': record_word(record), 'tag': hex_tag(tag), 'name': NAMES.get(tag), 'reason': WORDS[answer[0]],
            'place': place_of(answer), 'other': other and hex_tag(other), 'other_name': NAMES.get(other)}


def one_question(book, octets, record, tag):
    """The line and the words; with --names, with --json and with -q."""
    answer = oab.why(octets, record, tag)
    words = ('why', book, record_word(record), hex_tag(tag))
    got = run(*words)
    says(words, book, answer, got, line(answer))
    says((words, '-q'), book, answer, run('-q', *words), line(answer))
    named = run('--names', *words)
    says((words, '--names'), book, answer, named, line(answer, by_name))
    objects = run('--json', *words)
    if answer[0] == 'refused':
        differs((words, '--json'), got, objects)
        differs((words, 'one line'), 1, got[2].count(b'\n'))
        return
    differs((words, 'words'), said(book, record, tag, answer), got[2])
    differs((words, 'words by name'), said(book, record, tag, answer, by_name), named[2])
    differs((words, '--json'), (0, [object_of(record, tag, answer)], got[2]),
            (objects[0], [json.loads(one) for one in objects[1].decode().splitlines()], objects[2]))


# ---------------------------------------------------------------- books

def on_purpose(folder):
    """Some of the books that were made for it, and the answers that they were made for."""
    rng = random.Random(1051)
    book = folder / 'a book'
    for made in list(reasons.asked())[::4]:
        book.write_bytes(made.book)
        for record, tag, answer in rng.sample(made.questions, min(3, len(made.questions))):
            got = run('why', book, record_word(record), hex_tag(tag))
            says(('why', record, tag), book, answer, got, line(answer))


def at_random(folder):
    """Good, damaged and odd books, records that aren't there."""
    rng = random.Random(1052)
    book = folder / 'book'
    for number in range(45):
        table = reasons.with_lists(rng, books.some_table(rng, records=rng.choice((1, 2, 3)), most=4))
        octets = books.octets_of(table)
        if number % 5 == 3:
            made = books.faulty(table, rng, rng.choice(books.FAULTS))
            octets = made[0] if made else octets
        elif number % 5 == 4:
            octets = books.random_damage(octets, rng)
        book.write_bytes(octets)
        for record in (None, len(table[3]) - 1, rng.choice((0, len(table[3]), 65_535, (1 << 64) - 2))):
            one_question(book, octets, record, rng.choice(reasons.tags_near(rng, table)))
        differs('still the book', octets, content(book))


def named(folder):
    """The examples, asked for every tag that has a name, by its name; tags of no known type are no refusal."""
    for book in ('desk', 'sample'):
        path = TOP / 'examples' / f'{book}.book'
        octets = path.read_bytes()
        for record in (None, 1):
            for tag, name in list(NAMES.items())[::3] + [(oab.TRUNCATED, 'PidTag' + NAMES[oab.TRUNCATED])]:
                answer = oab.why(octets, record, tag)
                says(name, path, answer, run('why', path, record_word(record), name), line(answer))
        for tag in (0, 0xFFFFFFFF, 0x39FE0000, 0x39FEFFFF, 0x3A1C0005):
            one_question(path, octets, 0, tag)


# ---------------------------------------------------------------- words and files

def in_words(folder):
    """15 says which record isn't there, 18 that the value is; the header's are its own."""
    book = folder / 'book'
    book.write_bytes(books.octets_of(books.DESK_TABLE))
    for words, number, tail in (
            ((2, 'Surname'), 15, 'there is no record 2: the book has 2 records, from 0 on'),
            ((1 << 32, 'SmtpAddress'), 15, 'there is no record 4294967296: the book has 2 records, from 0 on'),
            ((0, 'SmtpAddress'), 18, 'record 0 has a value of 39FE001F: nothing is missing'),
            ((0, 'SmtpAddress', '--names'), 18, 'record 0 has a value of SmtpAddress: nothing is missing'),
            (('header', '6800001F'), 18, 'the header record has a value of 6800001F: nothing is missing')):
        for quiet in ((), ('-q',)):
            want = f'oab: {book}: refused {number} at 0: {tail}\n'.encode()
            differs(words, (1, b'', want), run(*quiet, 'why', book, *words))
    want = b'there is no column 39FE001E in the address table, but 39FE001F, of another type (row at 40)\n'
    differs('in full', (0, b'other-type 39FE001F 40\n', f'oab: {book}: '.encode() + want),
            run('why', book, 0, '39fe001e'))
    differs('-q', (0, b'absent 153\n', b''), run('why', '-q', book, 1, '0x39FE001F'))


def saved(folder):
    """-o: the line goes to the file, the words to standard error; where it is refused the file stays."""
    book, out = folder / 'book', folder / 'out'
    octets = books.octets_of(books.DESK_TABLE)
    book.write_bytes(octets)
    words = said(book, 1, 0x39FE001F, ('not-listed', 153))
    differs('-o', (0, b'', words, b'absent 153\n'),
            (*run('why', '-o', out, book, 1, 'SmtpAddress'), content(out)))
    differs('-o, --json', (0, b''), run('why', '--json', '-o', out, book, 0, '8C9E0102')[:2])
    differs('an object', object_of(0, 0x8C9E0102, ('listed', 95)), json.loads(content(out)))
    before = content(out)
    differs('refused', (1, b''), run('why', '-o', out, book, 0, 'SmtpAddress')[:2])
    differs('and the file stays', before, content(out))
    differs('-o -', (0, b'absent 153\n', words), run('why', '-o', '-', book, 1, 'SmtpAddress'))
    got = run('why', '-', 1, 'SmtpAddress', stdin=octets)
    differs('standard input', (0, b'absent 153\n', said('-', 1, 0x39FE001F, ('not-listed', 153))), got)
    got = run('why', '-', 1, 'SmtpAddress', stdin=octets[:-1])
    differs('cut', (1, b'', True), (*got[:2], got[2].startswith(refusal('-', *oab.judge(octets[:-1])[1:]))))
    differs('anywhere', (0, b'absent 153\n', b''), run('-q', 'why', book, '--names', 1, '--', 'SmtpAddress'))


def wrong_words(folder):
    """Exit status 2, nothing on standard output, and the word at fault named."""
    book, missing = folder / 'book', folder / 'missing'
    book.write_bytes(books.octets_of(books.DESK_TABLE))
    for at_fault, words in (
            ('why', (book,)), ('why', (book, 0)), ('c', (book, 0, 'Surname', 'c')), ('x', (book, 'x', 'Surname')),
            ('-1', (book, '-1', 'Surname')), ('1.5', (book, '1.5', 'Surname')), ('Header', (book, 'Header', 'Surname')),
            ('18446744073709551615', (book, (1 << 64) - 1, 'Surname')), ('NoName', (book, 0, 'NoName')),
            ('39FE001', (book, 0, '39FE001')), ('39FE001FF', (book, 0, '39FE001FF')),
            ('G9FE001F', (book, 0, 'G9FE001F')), (missing, (missing, 0, 'Surname')),
            (folder, (folder, 0, 'Surname')), ('-n', ('-n', book, 0, 'Surname')),
            ('-e', ('-e', book, 0, 'Surname')), ('--raw', ('--raw', book, 0, 'Surname')),
            ('--index FILE', ('--index', book, book, 0, 'Surname')), ('-t TAG', ('-t', 'Surname', book, 0, 'Surname')),
            ('--names', ('--names', '--json', book, 0, 'Surname'))):
        got = run('why', *words)
        differs((words, got[2][:120]), (2, b'', True), (*got[:2], got[2].startswith(f'oab: {at_fault}: '.encode())))


if __name__ == '__main__':
    oab_tools.main(on_purpose, at_random, named, in_words, saved, wrong_words)
