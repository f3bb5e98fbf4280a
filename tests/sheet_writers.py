"""Sheets that programs save again which nobody here wrote: Python's csv, the command of SQLite and LibreOffice. Each
reads a sheet of the command `export` and writes it in its own spelling; from that `import` must make the same book.

Run from the top: python3 tests/sheet_writers.py. SQLite and LibreOffice are asked where they are installed. SQLite ends
its lines in CR LF. LibreOffice ends them in LF here, so each end of a line outside quotes is made CR LF first; it has
one line's end inside a cell, LF, and keeps no empty rows at the end, so it gets tables without others. Ends with "N
runs, 0 differ".
"""

import csv
import io
import random
import re
import shutil
import subprocess

import oab_tools
from oab_tools import content, differs, run

from model import books, oab, sheets
from sheet_readers import is_plain, some_tables


def of_columns(table, tags):
    """The table with just these address columns, in this order."""
    columns = [tag for tag, _ in table[1]]
    return (table[0], [(tag, dict(table[1])[tag]) for tag in tags], table[2],
            [[row[columns.index(tag)] for tag in tags] for row in table[3]])


def exported(folder, tables, rng):
    """A sheet of all columns of a book, made by the command: the number of the book, its tags and its file."""
    for number, table in enumerate(tables):
        tags = sheets.some_choice(rng, table)
        if not tags:
            continue
        book, path = folder / f'{number}.book', folder / f'{number}.csv'
        book.write_bytes(books.octets_of(of_columns(table, tags)))
        got = run('export', '-t', ','.join(f'{tag:08X}' for tag in tags), '-o', path, book)
        differs(('export', number), (0, b'', b''), got)
        yield number, tags, path


def comes_back(what, folder, number, text):
    """The text that another program saved gives the book again, its unused flag bits zero."""
    book, saved, new = folder / f'{number}.book', folder / 'saved.csv', folder / 'new'
    saved.write_bytes(text)
    got = run('import', '--like', book, '-o', new, saved)
    differs((what, number, got[2]), (0, oab.write_book(*oab.table_of(book.read_bytes()))), (got[0], content(new)))


def by_python(folder):
    """Quotes everywhere, where they are needed, and around all but numbers; octets as characters of their own."""
    rng = random.Random(1064)
    for number, _, path in exported(folder, some_tables(rng), rng):
        text = io.StringIO(path.read_bytes().decode('latin-1'), newline='')
        lines = [line or [''] for line in csv.reader(text, strict=True)]
        for quoting in (csv.QUOTE_ALL, csv.QUOTE_MINIMAL, csv.QUOTE_NONNUMERIC):
            saved = io.StringIO(newline='')
            csv.writer(saved, quoting=quoting).writerows(lines)
            comes_back(('csv', quoting), folder, number, saved.getvalue().encode('latin-1'))


def by_sqlite(folder):
    """The mode is set again behind the import, which leaves LF as the end of lines."""
    if not shutil.which('sqlite3'):
        print('no sqlite3 here: it saves no sheets')
        return
    rng = random.Random(1065)
    for number, tags, path in exported(folder, some_tables(rng), rng):
        columns = ', '.join(f'c{i} TEXT' for i in range(len(tags)))
        script = f'CREATE TABLE sheet({columns});\n.mode csv\n.import {path} sheet\n'
        script += '.mode csv\nSELECT * FROM sheet ORDER BY rowid;\n'
        got = subprocess.run(['sqlite3', '-batch', '-init', '/dev/null', ':memory:'], input=script.encode(),
                             capture_output=True)
        differs(('sqlite3', number, got.stderr[-200:]), 0, got.returncode)
        comes_back('sqlite3', folder, number, got.stdout)


# ---------------------------------------------------------------- LibreOffice

def with_line_feeds(value):
    """The string with LF for every line's end; another where LibreOffice can't hold it."""
    text = re.sub(rb'\r\n|\n\r|\r', b'\n', value[:-1])
    return text + b'\0' if is_plain(text) else b'other\0'


def for_office(table):
    """Strings that LibreOffice can hold, and a last record that isn't empty."""
    rows = [[with_line_feeds(value) if value and oab.type_of(tag) in oab.STRINGS else value
             for (tag, _), value in zip(table[1], row)] for row in table[3]]
    full = {oab.NUMBER: b'\7', oab.YES_OR_NO: b'\1', oab.NARROW: b'z\0', oab.TEXT: b'z\0'}
    last = [full.get(oab.type_of(tag), value) for (tag, _), value in zip(table[1], rows[-1])]
    return table[0], table[1], table[2], rows[:-1] + [last]


def with_line_ends(text):
    """CR LF for each LF outside quotes."""
    return re.sub(rb'"(?:[^"]|"")*"|\r?\n', lambda part: part[0] if part[0][:1] == b'"' else b'\r\n', text)


def by_libreoffice(folder):
    """All sheets in one run: read as sixteen columns of text, written with every text in quotes."""
    office = shutil.which('soffice') or shutil.which('libreoffice')
    if not office:
        print('no LibreOffice here: it saves no sheets')
        return
    rng = random.Random(1066)
    made = list(exported(folder, [for_office(table) for table in some_tables(rng)], rng))
    kind, out = 'Text - txt - csv (StarCalc):44,34,UTF8,1,', folder / 'out'
    columns = '/'.join(f'{i}/2' for i in range(1, 17))
    got = subprocess.run([office, f'-env:UserInstallation=file://{folder}/profile', '--headless',
                          f'--infilter={kind}{columns}', '--convert-to', f'csv:{kind},0,true,true,false',
                          '--outdir', out, *(path for _, _, path in made)], capture_output=True, timeout=600)
    differs(('LibreOffice', got.stderr[-300:]), 0, got.returncode)
    for number, _, path in made:
        comes_back('LibreOffice', folder, number, with_line_ends(content(out / path.name) or b''))


if __name__ == '__main__':
    oab_tools.main(by_python, by_sqlite, by_libreoffice)
