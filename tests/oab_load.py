"""The command under load: signals in the middle of a save, books up to the limit, many corrections at once, progress.

Run from the top: python3 tests/oab_load.py. Ends with "N runs, 0 differ".
"""

import os
import pty
import random
import select
import signal
import subprocess
import threading
import time

import oab_tools
from oab_tools import content, differs, refusal, run

from model import books, large, oab


def stopped(folder):
    """Signals in the middle of a save: the old book or the new one stands there, and after INT, TERM and HUP nothing
    beside it. (KILL can leave a file beside it: nothing can take it away.)"""
    octets, places = large.book(16_777_216)
    want = large.with_first(octets, places, b'a')
    rng = random.Random(4)
    book = folder / 'book'
    stops = 0
    for number in range(60):
        kind = (signal.SIGINT, signal.SIGTERM, signal.SIGHUP, signal.SIGKILL)[number % 4]
        book.write_bytes(octets)
        command = subprocess.Popen([oab_tools.program, 'set', str(book), '0', '39FE001F', 'a'])
        deadline = time.monotonic() + 5
        if kind != signal.SIGKILL:             # these wait until the new file is there
            while command.poll() is None and len(os.listdir(folder)) == 1 and time.monotonic() < deadline:
                pass
        time.sleep(rng.random() * (0.1 if kind == signal.SIGKILL else 0.004))
        command.send_signal(kind)
        status = command.wait()
        stops += status == -kind
        now = content(book)
        differs(('a book', kind, status), True, now == want or status != 0 and now == octets)
        left = [name for name in os.listdir(folder) if name != 'book']
        if kind != signal.SIGKILL:
            differs(('nothing left', kind, status), [], left)
        for name in left:
            (folder / name).unlink()
    differs('some were stopped', True, stops > 5)


def through_index(path, octets, places):
    """The index of a large book, its last record through it, the search; an old index is for shorter books."""
    saved, count = path.with_suffix('.saved'), len(places)
    differs('index', (0, b''), run('index', '-o', saved, path)[:2])
    differs('its octets', True, large.index(octets, places) == content(saved))
    differs('get --index', (0, b'last\n'), run('get', '--index', saved, path, count - 1, 'SmtpAddress')[:2])
    for k in (0, 1, count // 2, count - 2):
        status, shown, _ = run('show', '--index', saved, path, k)
        differs('show --index', (0, b'%d\t39FE001F\ttext\t%06d@example' % (k, k)), (status, shown.split(b'\n')[0]))
    saved.write_bytes(large.old_index(octets, places))
    got = run('get', '--index', saved, path, 0, 'SmtpAddress')
    if len(octets) <= 16_777_216:
        differs('an old index', (0, b'000000@example\n'), got[:2])
    else:
        differs('an old index', (1, b'', True), (*got[:2], got[2].startswith(refusal(saved, 19, 0))))
    differs('find', (0, b'%d\t39FE001F\tlast\n' % (count - 1)), run('find', path, 'last')[:2])
    found = run('find', '-t', 'SmtpAddress', path, '@')
    differs('find in all', (0, count - 1), (found[0], found[1].count(b'\n')))
    sheet = large.sheet(octets, places, [0x39FE001F])
    got = run('export', '-t', 'SmtpAddress', '-o', saved, path)
    differs('export', (0, b'', b'', True), (*got, content(saved) == sheet))


def corrected(path, octets, places):
    """Corrections that are saved: the file is the book written afresh, and the old one where a rule is broken."""
    name = path.name
    if len(octets) == oab.LIMIT:
        got = run('set', path, 0, '39FE001F', '0000000@example')
        differs((name, 'no octet more'), (1, True), (got[0], got[2].startswith(refusal(path, 16, 0))))
        differs((name, 'unchanged'), True, octets == content(path))
    shorter = large.with_first(octets, places, b'a')
    differs((name, 'a shorter one'), 0, run('set', path, 0, '39FE001F', 'a')[0])
    differs((name, 'saved'), True, shorter == content(path))
    differs((name, 'read back'), (0, b'a\n'), run('get', path, 0, '39FE001F')[:2])
    record = path.with_suffix('.record')
    record.write_bytes(octets[places[0]:places[1]])
    differs((name, 'deleted and inserted'), (0, 0), (run('delete', path, 0)[0], run('insert', path, 0, record)[0]))
    differs((name, 'as it was'), True, octets == content(path))


def big(folder):
    """Books of 16,777,216 octets, of 90,000,000 and of the limit, 268,435,456; one octet more is refused."""
    for size in (16_777_216, 16_777_217, 90_000_000, oab.LIMIT):
        octets, places = large.book(size)
        path = folder / f'book{size}'
        path.write_bytes(octets)
        good = f'{path}: good, {size} octets, {len(places)} records\n'.encode()
        differs(('check', size), (0, good), run('check', path)[:2])
        through_index(path, octets, places)
        differs(('why', size), (0, b'other-type 39FE001F 24\n'), run('why', path, len(places) - 1, '39FE001E')[:2])
        if size != 16_777_217:
            corrected(path, octets, places)
            listed = run('list', path)
            differs(('its listing', size), (0, len(places) + 2), (listed[0], listed[1].count(b'\n')))
        if size == 90_000_000:
            cut_meanwhile(path, octets)
        if size == oab.LIMIT:
            too_long(path, octets, places)
        for left in folder.iterdir():
            left.unlink()


def too_long(path, octets, places):
    """One octet over the limit: 1 from every command that judges, also through an index, and nothing is changed."""
    octets += b'x'
    path.write_bytes(octets)
    saved = path.with_suffix('.saved')
    saved.write_bytes(large.index(octets, places))
    for words in (('check', path), ('list', path), ('get', path, 0, '39FE001F'), ('set', path, 0, '39FE001F', 'a'),
                  ('why', path, 0, '39FE001E'), ('export', '-t', '39FE001F', '-o', path.with_suffix('.new'), path),
                  ('get', '--index', saved, path, 0, '39FE001F'), ('index', '-o', path.with_suffix('.new'), path)):
        got = run(*words)
        differs(('an octet too many', words), (1, b'', True), (*got[:2], got[2].startswith(refusal(path, 1, 0))))
    differs('nothing is changed', (True, None), (octets == content(path), content(path.with_suffix('.new'))))
    got = run('check', '-', stdin=octets + b'x' * 100_000)
    differs('many too many, from a pipe', (1, True), (got[0], got[2].startswith(refusal('-', 1, 0))))


def cut_meanwhile(path, octets):
    """The book is cut and put back while it is read."""
    stop = threading.Event()

    def cut():
        while not stop.is_set():
            with open(path, 'r+b') as file:
                file.truncate(8_000_000)
                file.seek(8_000_000)
                file.write(memoryview(octets)[8_000_000:])

    worker = threading.Thread(target=cut)
    worker.start()
    try:
        for _ in range(8):
            differs('cut while it works', True, run('check', path)[0] in (0, 1))
    finally:
        stop.set()
        worker.join()


def many(folder):
    """Many books under xargs -P; many corrections of one book at once, none lost."""
    rng = random.Random(912)
    paths = []
    for number in range(200):
        paths.append(folder / f'many{number}')
        paths[-1].write_bytes(books.octets_of(books.some_table(rng)))
    got = subprocess.run(['xargs', '-P', '4', '-n', '7', oab_tools.program, 'check'],
                         input='\n'.join(map(str, paths)).encode(), capture_output=True)
    differs('xargs -P', (0, 200, True), (got.returncode, got.stdout.count(b'\n'),
                                         all(b': good, ' in line for line in got.stdout.splitlines())))
    table = ([], [(0x39FE001F, 2), (0x30010003, 0), (0x30020003, 0)], [],
             [[b'%d\0' % i, None, None] for i in range(40)])
    book = folder / 'shared'
    book.write_bytes(books.octets_of(table))
    words = [('set', book, i, '30010003', 1000 + i) if i % 2 else ('apply', book) for i in range(40)]
    started = [subprocess.Popen([oab_tools.program, *map(str, w)], stdin=subprocess.PIPE if w[0] == 'apply' else None)
               for w in words]
    for i, command in enumerate(started):
        if command.stdin:
            command.stdin.write(b'set %d 30010003 %d\nset %d 30020003 7\n' % (i, 1000 + i, i))
            command.stdin.close()
    differs('all done', [0] * 40, [p.wait() for p in started])
    rows = [[row[0], oab.encode_number(1000 + i), None if i % 2 else b'\x07'] for i, row in enumerate(table[3])]
    differs('none lost', True, oab.write_book(table[0], table[1], [], rows) == content(book))


def progress(folder):
    """Over a second on a terminal: how far it is, wiped out at the end. Elsewhere, and with -q, nothing."""
    octets = large.book(16_777_216)[0]
    book = folder / 'book'
    book.write_bytes(octets)
    lines = b''.join(b'set %d 39FE001F a\n' % number for number in range(150))
    for quiet in (False, True):
        master, slave = pty.openpty()
        command = subprocess.Popen([oab_tools.program, 'apply', str(book), '-o', str(folder / 'out')] + ['-q'] * quiet,
                                   stdin=subprocess.PIPE, stderr=slave)
        command.stdin.write(lines)
        command.stdin.close()
        os.close(slave)
        seen, started = b'', time.monotonic()
        while select.select([master], [], [], 60)[0]:
            try:
                part = os.read(master, 65536)
            except OSError:
                break
            if not part:
                break
            seen += part
        took = time.monotonic() - started
        status = command.wait()
        os.close(master)
        if quiet:
            differs('-q', (0, b''), (status, seen))
        elif took > 1.5:
            differs('progress', (0, True, True), (status, b' of 150 corrections' in seen, seen.endswith(b'\r\x1b[K')))
        else:
            print(f'progress is not tried: 150 corrections took {took:.1f} s')


if __name__ == '__main__':
    oab_tools.main(stopped, big, many, progress)
