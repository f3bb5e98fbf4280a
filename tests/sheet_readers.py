"""Sheets that the command makes, read back by programs that nobody here wrote: Python's csv, the command of SQLite and
LibreOffice. Each must find the values of the table that the book was made from, cell by cell.

Run from the top: python3 tests/sheet_readers.py. SQLite and LibreOffice are asked where they are installed. LibreOffice
knows one line's end inside a cell and characters alone, so it gets texts without control characters, and a CR, or CR
LF, of the book is an LF there. Ends with "N runs, 0 differ".
"""

import csv
import io
import random
import shutil
import subprocess
import unicodedata

import oab_tools
from oab_tools import content, differs, run

from model import books, oab, sheets


def some_tables(rng):
    """The tables that were made to be exported, the examples', random ones, and one of many records."""
    tables = [made.table for made in sheets.chosen()]
    tables += [books.MAILROOM_TABLE, books.DESK_TABLE, books.MANAGER_TABLE, oab.table_of(books.sample_book())]
    tables += [sheets.spiced(rng, books.some_table(rng, records=rng.choice((1, 3, 8)))) for _ in range(120)]
    columns = sheets.plain([sheets.NAME, sheets.NUMBER, sheets.TRUTH, sheets.NARROW])
    return tables + [sheets.spiced(rng, ([], columns, [], [books.some_row(rng, columns, True) for _ in range(1500)]))]


def exported(folder, tables, rng):
    """A sheet of each table, made by the command: its file, and the cells that a reader must find."""
    book = folder / 'book'
    for number, table in enumerate(tables):
        tags = sheets.some_choice(rng, table)
        if not tags:
            continue
        book.write_bytes(books.octets_of(table))
        path = folder / f'{number}.csv'
        got = run('export', '-t', ','.join(f'{tag:08X}' for tag in tags), '-o', path, book)
        differs(('export', number), (0, b'', b''), got)
        yield path, sheets.cells(table, tags)


def by_python(folder):
    """Octets as characters of their own; a line of one empty field is no field to Python."""
    rng = random.Random(1012)
    for path, cells in exported(folder, some_tables(rng), rng):
        text = io.StringIO(path.read_bytes().decode('latin-1'), newline='')
        lines = [[field.encode('latin-1') for field in line] for line in csv.reader(text, strict=True)]
        differs(('csv', path.name), cells, [line or [b''] for line in lines])


def by_sqlite(folder):
    """Every cell as SQLite keeps it, in hex."""
    if not shutil.which('sqlite3'):
        print('no sqlite3 here: it reads no sheets')
        return
    rng = random.Random(1013)
    for path, cells in exported(folder, some_tables(rng), rng):
        names = [f'c{i}' for i in range(len(cells[0]))]
        script = f'CREATE TABLE sheet({", ".join(name + " TEXT" for name in names)});\n'
        script += f'.mode csv\n.import {path} sheet\n.mode list\n'
        in_hex = " || ',' || ".join(f'hex({name})' for name in names)
        script += f'SELECT {in_hex} FROM sheet ORDER BY rowid;\n'
        got = subprocess.run(['sqlite3', '-batch', '-init', '/dev/null', ':memory:'], input=script.encode(),
                             capture_output=True)
        lines = [[bytes.fromhex(cell) for cell in line.split(',')] for line in got.stdout.decode().split('\n')[:-1]]
        differs(('sqlite3', path.name, got.stderr[-200:]), (0, cells), (got.returncode, lines))


# ---------------------------------------------------------------- LibreOffice

def is_plain(octets):
    """UTF-8 without controls (a tab and ends of lines left aside), format characters and what is no character. An LF
    and a CR behind it are one end to LibreOffice."""
    try:
        text = octets.decode()
    except UnicodeDecodeError:
        return False
    return '\n\r' not in text and all(char in '\t\r\n' or unicodedata.category(char)[0] != 'C'
                                     and char not in '\u2028\u2029' for char in text)


def plain_table(table):
    """The table without the strings that LibreOffice can't hold."""
    rows = [[value if value is None or oab.type_of(tag) not in oab.STRINGS or is_plain(value[:-1]) else b'other\0'
             for (tag, _), value in zip(table[1], row)] for row in table[3]]
    return table[0], table[1], table[2], rows


def with_one_end(cell):
    return cell.replace(b'\r\n', b'\n').replace(b'\r', b'\n')


def by_libreoffice(folder):
    """All sheets in one run: read as sixteen columns of text, written as text, read by Python. Empty rows at the end
    aren't kept, nor empty cells behind the last in the whole sheet."""
    office = shutil.which('soffice') or shutil.which('libreoffice')
    if not office:
        print('no LibreOffice here: it reads no sheets')
        return
    rng = random.Random(1014)
    made = list(exported(folder, [plain_table(table) for table in some_tables(rng)], rng))
    kind, out = 'Text - txt - csv (StarCalc):44,34,UTF8,1,', folder / 'out'
    columns = '/'.join(f'{i}/2' for i in range(1, 17))
    got = subprocess.run([office, f'-env:UserInstallation=file://{folder}/profile', '--headless',
                          f'--infilter={kind}{columns}', '--convert-to', f'csv:{kind},0,true,true,false',
                          '--outdir', out, *(path for path, _ in made)], capture_output=True, timeout=600)
    differs(('LibreOffice', got.stderr[-300:]), 0, got.returncode)
    for path, cells in made:
        text = (content(out / path.name) or b'').decode()
        lines = [[cell.encode() for cell in line] for line in csv.reader(io.StringIO(text, newline=''), strict=True)]
        width = len(cells[0])
        lines = [line + [b''] * (width - len(line)) for line in lines]
        lines += [[b''] * width] * (len(cells) - len(lines))
        differs(('LibreOffice', path.name), [[with_one_end(cell) for cell in line] for line in cells], lines)


if __name__ == '__main__':
    oab_tools.main(by_python, by_sqlite, by_libreoffice)
