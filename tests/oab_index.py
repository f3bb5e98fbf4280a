"""The command through a saved index, and the search: `index`, `get` and `show` with --index, `find`.

Run from the top: python3 tests/oab_index.py. What is expected comes from the model (tests/model), the search from
docs/DECISIONS.md. Ends with "N runs, 0 differ".
"""

import json
import random

import oab_tools
from oab_tools import content, differs, refusal, run, says

from model import books, indexes, oab, spelling
from model.names import NAMES

TEXTS = (oab.OBJECT, oab.NARROW, oab.TEXT, 0x101E, 0x101F)


def hex_tag(tag):
    return f'{tag:08X}'


# ---------------------------------------------------------------- index

def making(folder):
    """The index that is saved is the model's; a refused book leaves what was there."""
    rng = random.Random(1031)
    book, beside, other = folder / 'a book', folder / 'a book.index', folder / 'other'
    for number in range(30):
        table = books.some_table(rng, records=rng.choice((1, 2, 5)))
        made = books.faulty(table, rng, rng.choice(books.FAULTS)) if number % 3 == 2 else None
        octets = made[0] if made else books.octets_of(table)
        answer = oab.make_index(octets, len(octets) + 1000)
        index = answer[1] if answer[0] == 'made' else None
        book.write_bytes(octets)
        for path in (beside, other):
            path.unlink(missing_ok=True)
        got = run('-n', 'index', book)
        says('index -n', book, answer, got, b'')
        if index:
            differs('-n says', f'oab: {beside}: would be saved: {len(index)} octets\n'.encode(), got[2])
        differs('-n saves nothing', None, content(beside))
        says('index', book, answer, run('index', book), b'')
        differs('BOOK.index', index, content(beside))
        says('index -o', book, answer, run('index', '-o', other, book), b'')
        differs('-o', index, content(other))
        says('index -o -', book, answer, run('index', '-o', '-', book), index or b'')
        says('index of standard input', '-', answer, run('index', '-o', other, '-', stdin=octets), b'')
        if index is None:
            other.write_bytes(b'old')
            run('index', '-o', other, book)
            differs('a refused book leaves the old index', b'old', content(other))
    differs('still the book', octets, content(book))


def wrong_words(folder):
    book, missing = folder / 'book', folder / 'missing'
    book.write_bytes(books.small_book())
    (folder / 'link').symlink_to(book)
    for at_fault, words in (
            (book, ('index', '-o', book, book)), (folder / 'link', ('index', '-o', folder / 'link', book)),
            (folder / 'link', ('-n', 'index', '-o', folder / 'link', book)),
            ('standard input', ('index', '-')), (missing, ('index', missing)), ('index', ('index',)),
            (missing, ('get', '--index', missing, book, 0, '3001001F')),
            (missing, ('show', '--index', missing, book, 0)),
            ('--index', ('get', book, 0, '3001001F', '--index')),
            ('--index', ('get', '--index', book, '--index', book, book, 0, '3001001F')),
            ('--index FILE', ('check', '--index', book, book)), ('--index FILE', ('find', '--index', book, book, 'a')),
            ('find', ('find', book)), ('b', ('find', book, 'a', 'b')), ('-t', ('find', book, 'a', '-t')),
            ('x', ('find', '-t', 'x', book, 'a')), ('30010003', ('find', '-t', '30010003', book, 'a')),
            ('3001000B', ('find', '-t', '3001000B', book, 'a')), ('30011102', ('find', '-t', '30011102', book, 'a')),
            ('-t TAG', ('get', '-t', '3001001F', book, 0, '3001001F')), ('-i', ('list', '-i', book)),
            (r'a\b', ('find', book, r'a\b')), (r'\x00', ('find', book, r'\x00')), (missing, ('find', missing, 'a'))):
        got = run(*words)
        differs((words, got[2][:120]), (2, b'', True), (*got[:2], got[2].startswith(f'oab: {at_fault}: '.encode())))
    differs('still the book', books.small_book(), content(book))


# ---------------------------------------------------------------- get and show through an index

def through(folder):
    """With its own index a book answers as without one; nothing else of a damaged book is looked at."""
    rng = random.Random(1032)
    book, saved = folder / 'book', folder / 'saved'
    for number in range(40):
        table = books.some_table(rng, address=rng.choice((1, 2, 5, 8, 9)), records=rng.choice((1, 2, 3)), most=4)
        octets, k = books.octets_of(table), rng.randrange(len(table[3]))
        index = (indexes.own, indexes.old)[number // 2 % 2](octets)
        if number % 2:
            octets = books.random_damage(octets, rng)
        book.write_bytes(octets)
        saved.write_bytes(index)
        lines, first = b'', None
        for tag, _ in table[1]:
            answer = oab.lookup_indexed(octets, index, k, tag)
            stretch = octets[answer[1]:answer[2]] if answer[0] == 'at' else b''
            done = spelling.lines(oab.type_of(tag), stretch) if stretch else b''
            named = saved if answer[:2] == ('refused', 19) else book
            says('get --index', named, answer, run('get', '--index', saved, book, k, hex_tag(tag)), done)
            got = run('get', '--raw', book, k, '--index', saved, hex_tag(tag))
            says('get --raw --index', named, answer, got, stretch)
            first = first or (answer if answer[0] == 'refused' else None)
            front = f'{k}\t{hex_tag(tag)}\t{spelling.TYPE_WORDS[oab.type_of(tag)]}\t'.encode()
            lines += b''.join(front + line + b'\n' for line in done.splitlines())
        if first:                              # the reader's refusals are the lookup's, so nothing is printed
            named = saved if first[:2] == ('refused', 19) else book
            says('show --index', named, first, run('show', '--index', saved, book, k), b'')
        else:
            differs('show --index', (0, lines), run('show', '--index', saved, book, k)[:2])
        if number % 2 == 0:
            differs('show', (0, lines), run('show', book, k)[:2])


def refused(folder):
    """19 names the index, 15 says what is missing, and where a record is missing nothing is printed."""
    book, saved = folder / 'book', folder / 'saved'
    octets = books.sample_book()
    book.write_bytes(octets)
    tag = hex_tag(oab.table_of(octets)[1][0][0])
    for index in indexes.wrong(octets, books.small_book()):
        saved.write_bytes(index)
        for words in (('get', '--index', saved, book, 9, '00000000'), ('show', '--index', saved, book, 0),
                      ('get', '--index', saved, book, 'header', tag)):
            says(words, saved, ('refused', 19, 0), run(*words), b'')
    for index, start in ((index, start) for index in (indexes.own(octets), indexes.old(octets))
                         for start in indexes.outside(octets, index)):
        saved.write_bytes(indexes.with_entry(index, 1, start))
        for words in (('get', '--index', saved, book, 1, tag), ('show', '--index', saved, book, 0, 1)):
            says(words, saved, ('refused', 19, 0), run(*words), b'')
        differs('the other record', run('get', book, 0, tag), run('get', '--index', saved, book, 0, tag))
    saved.write_bytes(indexes.own(octets))
    header = "the header record isn't offered through an index"
    for words, tail in ((('get', book, 2, tag), 'there is no record 2: the book has 2 records, from 0 on'),
                        (('show', book, 0, 5), 'there is no record 5: the book has 2 records, from 0 on'),
                        (('get', book, 0, '00000003'), 'there is no column 00000003 in the address table'),
                        (('get', book, 'header', tag), header), (('show', book, 0, 'header'), header)):
        differs(words, (1, b'', f'oab: {book}: refused 15 at 0: {tail}\n'.encode()), run('--index', saved, *words))
    book.write_bytes(books.small_book())
    saved.write_bytes(indexes.own(books.small_book()))
    absent = ('get', '--index', saved, book, 0, 'DisplayName')
    differs('absent', (0, b'', f'oab: {book}: absent\n'.encode()), run(*absent))
    differs('absent, -e', (3, b''), run('-e', *absent)[:2])


# ---------------------------------------------------------------- find

def small(octets):
    """A to Z as a to z, and nothing else."""
    return bytes(octet + 32 if 0x41 <= octet <= 0x5A else octet for octet in octets)


def hits(table, text, alike=False, only=None):
    """(record, tag, type of the value, octets) of each text that holds the text."""
    alter = small if alike else bytes
    for k, row in enumerate(table[3]):
        for (tag, _), value in zip(table[1], row):
            if value is None or oab.type_of(tag) not in TEXTS or only not in (None, tag):
                continue
            for kind, item in spelling.items(oab.type_of(tag), value):
                if alter(text) in alter(item[:-1]):
                    yield k, tag, kind, item


def found(table, text, alike, only, name=hex_tag):
    return b''.join(f'{k}\t{name(tag)}\t'.encode() + spelling.word(kind, item) + b'\n'
                    for k, tag, kind, item in hits(table, text, alike, only))


def some_needle(rng, table):
    """A part of a text, other octets, or nothing."""
    texts = [item[:-1] for _, _, _, item in hits(table, b'')]
    if texts and rng.random() < 0.7:
        text = rng.choice(texts)
        at = rng.randrange(len(text) + 1)
        return text[at:at + rng.choice((1, 1, 2, 3))]
    return rng.choice((b'', b'a', b'E', b'zzz', b'\\', b'\x80', 'ä'.encode()))


def searched(folder):
    rng = random.Random(1033)
    book = folder / 'book'
    for number in range(120):
        table = books.some_table(rng, records=rng.choice((1, 2, 3, 6)))
        octets = books.octets_of(table)
        book.write_bytes(octets)
        text = some_needle(rng, table)
        alike = rng.random() < 0.4
        texts = [tag for tag, _ in table[1] if oab.type_of(tag) in TEXTS]
        only = rng.choice(texts) if texts and rng.random() < 0.4 else None
        word = text.swapcase() if alike and text.isascii() else text
        words = ['find', *['-i'] * alike, *(['-t', hex_tag(only)] if only else []), book, '--',
                 spelling.escaped(word) if rng.random() < 0.5 else spelling.spelled(word, True)]
        want = found(table, text, alike, only)
        got = run(*words)
        differs((words, got[2][:120]), (0, want) if want else (1, b''), got[:2])
        if not want:
            differs('words', f'oab: {book}: no value holds it\n'.encode(), got[2])
        named = found(table, text, alike, only, lambda tag: NAMES.get(tag, hex_tag(tag)))
        differs('--names', named, run(*words[:1], '--names', *words[1:])[1])
        objects = [{'record': k, 'tag': hex_tag(tag), 'name': NAMES.get(tag),
                    'type': spelling.TYPE_WORDS[oab.type_of(tag)], 'value': spelling.word(kind, item).decode()}
                   for k, tag, kind, item in hits(table, text, alike, only)]
        got = run(*words[:1], '--json', *words[1:])
        differs('--json', objects, [json.loads(line) for line in got[1].decode().splitlines()])


def beside_texts(folder):
    """What only a record's octets hold is no find: a run over two values, binary octets, a list's count."""
    columns = [(0x30010102, 0), (0x3001001F, 2), (0x3002101F, 0), (0x30030003, 0), (0x3004001E, 0)]
    row = [b'\x02ab', b'cd\0', b'\x02ef\0gh\0', b'\x41', b'Ab\0']
    table = ([], columns, [], [row, [None, b'cd\0', None, None, None]])
    book, out = folder / 'book', folder / 'out'
    book.write_bytes(books.octets_of(table))
    for text, want in ((b'abcd', b''), (b'ab', b''), (rb'\x02', b''), (rb'\x02e', b''), (b'A', b'0\t3004001E\tAb\n'),
                       (b'cd', b'0\t3001001F\tcd\n1\t3001001F\tcd\n'), (b'gh', b'0\t3002101F\tgh\n'), (b'65', b'')):
        differs(('find', text), (0 if want else 1, want), run('find', book, text)[:2])
    differs('-i', (0, b'0\t3004001E\tAb\n'), run('find', '-i', book, 'aB')[:2])
    umlaut = folder / 'umlaut'
    umlaut.write_bytes(oab.write_book([], [(0x3001001F, 0)], [], [['Ärger'.encode() + b'\0']]))
    differs('-i leaves other letters', (1, b''), run('find', '-i', umlaut, 'ärger')[:2])
    differs('and folds the rest', (0, '0\t3001001F\tÄrger\n'.encode()), run('find', '-i', umlaut, 'ÄRGER')[:2])
    differs('-o', (0, b''), run('find', '-o', out, book, 'gh')[:2])
    differs('-o FILE', b'0\t3002101F\tgh\n', content(out))
    status = run('find', '-o', out, book, 'q')[0]
    differs('nothing found leaves the file', (1, b'0\t3002101F\tgh\n'), (status, content(out)))
    differs('standard input', (0, b'0\t3002101F\tgh\n'), run('find', '-', 'gh', stdin=book.read_bytes())[:2])
    differs('-q', (1, b'', b''), run('-q', 'find', book, 'q'))
    says('no column', book, ('refused', 15, 0), run('find', '-t', '3009001F', book, 'a'), b'')
    bad = folder / 'bad'
    bad.write_bytes(book.read_bytes()[:-1])
    differs('a bad book', (1, b'', True), (*run('find', bad, 'a')[:2], run('find', bad, 'a')[2].startswith(
        refusal(bad, *oab.judge(bad.read_bytes())[1:]))))


if __name__ == '__main__':
    oab_tools.main(making, wrong_words, through, refused, searched, beside_texts)
