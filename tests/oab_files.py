"""What the command does to files: where it saves, what it keeps, and that nothing is lost on a full disk.

Run from the top: python3 tests/oab_files.py. Ends with "N runs, 0 differ". Signals, large books and many corrections
at once: oab_load.py.
"""

import fcntl
import os
import resource
import stat
import subprocess
import sys
import termios
import threading
import time

import oab_tools
from oab_tools import NOBODY, as_nobody, content, differs, run

from model import books, large, oab

SMALL = books.small_book()
WITH_Q = oab.write_book(*books.SMALL_TABLE[:3], [[b'b@c\0', b'Q\0', books.SMALL_TABLE[3][0][2]]])


def put(path, octets=SMALL, mode=0o644):
    path.write_bytes(octets)
    path.chmod(mode)
    return path


def mode_of(path):
    return stat.S_IMODE(os.lstat(path).st_mode) if path.exists() else None


def set_q(book, *more, **how):
    return run('set', book, 0, '3001001F', 'Q', *more, **how)


# ---------------------------------------------------------------- where it is saved, and what is kept

def in_place(folder):
    book = put(folder / 'book', mode=0o640)
    differs('saved', (0, b'', b'', WITH_Q, 0o640), (*set_q(book), content(book), mode_of(book)))
    link = folder / 'link'
    link.symlink_to('book')
    differs('a link stays one', (0, True, SMALL),
            (run('clear', link, 0, '3001001F')[0], link.is_symlink(), content(book)))
    long = put(folder / ('b' * 255))
    differs('a long name', (0, WITH_Q), (set_q(long)[0], content(long)))
    differs('nothing left beside', {'book', 'link', 'b' * 255}, {p.name for p in folder.iterdir()})


def elsewhere(folder):
    """-o FILE: a new file is private; an old one keeps mode and owner; links are followed, also to no file yet."""
    book, out = put(folder / 'book'), folder / 'out'
    for mask, mode in ((0o022, 0o600), (0, 0o600), (0o277, 0o400)):
        out.unlink(missing_ok=True)
        got = set_q(book, '-o', out, preexec_fn=lambda: os.umask(mask))
        differs(('a new file', oct(mask)), (0, b'', b'', WITH_Q, mode), (*got, content(out), mode_of(out)))
    for mode in (0o600, 0o644, 0o660):
        put(out, b'old', mode)
        differs(('an old file', oct(mode)), (0, WITH_Q, mode), (set_q(book, '-o', out)[0], content(out), mode_of(out)))
    link, there = folder / 'link', folder / 'there'
    link.symlink_to('there')
    differs('a link to no file yet', (0, True, WITH_Q), (set_q(book, '-o', link)[0], link.is_symlink(), content(there)))
    put(there, b'old', 0o600)
    differs('a link to a file', (0, True, WITH_Q, 0o600),
            (set_q(book, '-o', link)[0], link.is_symlink(), content(there), mode_of(there)))
    loop = folder / 'loop'
    loop.symlink_to('loop')
    differs('a link to itself', (2, True), (set_q(book, '-o', loop)[0], loop.is_symlink()))
    differs('a folder', 2, set_q(book, '-o', folder)[0])
    differs('the book itself', (0, WITH_Q), (set_q(book, '-o', book)[0], content(book)))
    differs('lines', (0, b'', b'Q\n', 0o600), (*run('get', book, 0, '3001001F', '-o', folder / 'lines')[:2],
                                            content(folder / 'lines'), mode_of(folder / 'lines')))
    put(book)
    old = put(folder / 'old', b'old')
    for status, words in ((1, ('get', book, 9, '3001001F')), (1, ('show', book, 9)), (0, ('get', book, 0, '3001001F')),
                          (3, ('get', '-e', book, 0, '3001001F')), (2, ('get', folder / 'missing', 0, '3001001F'))):
        differs(('no lines, no file', words), (status, b'old'), (run(*words, '-o', old)[0], content(old)))
    differs('a bad verdict is a result', (1, True),
            (run('check', '--json', '-', '-o', old)[0], content(old).startswith(b'{"book":"-","good":false')))
    with open(book, 'rb') as book_again:
        got = run('set', '/dev/stdin', 0, '3001001F', 'Q', '-o', out, stdin=book_again.read())
        differs('a book from a pipe by its name', (0, WITH_Q), (got[0], content(out)))
    if os.geteuid() == 0:
        put(out, b'old', 0o640)
        os.chown(out, NOBODY, NOBODY)
        set_q(book, '-o', out)
        differs('the owner', (NOBODY, NOBODY, 0o640), (os.stat(out).st_uid, os.stat(out).st_gid, mode_of(out)))


def waiting_in(pipe, count):
    """What stands in a pipe once it is that many octets; less would be taken from the command, which reads it, too."""
    end = os.open(pipe, os.O_RDONLY | os.O_NONBLOCK)
    deadline, there = time.monotonic() + 20, bytearray(4)
    while int.from_bytes(there, sys.byteorder) != count and time.monotonic() < deadline:
        time.sleep(0.01)
        if stat.S_ISFIFO(os.fstat(end).st_mode):
            fcntl.ioctl(end, termios.FIONREAD, there)
    octets = os.read(end, 2 * count)
    os.close(end)
    return octets


def straight(folder):
    """Devices and pipes are written straight, and stay what they are."""
    book, pipe = put(folder / 'book'), folder / 'pipe'
    os.mkfifo(pipe)
    reader = subprocess.Popen(['cat', str(pipe)], stdout=subprocess.PIPE)
    differs('-o PIPE', 0, set_q(book, '-o', pipe, timeout=20)[0])
    if stat.S_ISFIFO(os.lstat(pipe).st_mode):
        differs('through the pipe', WITH_Q, reader.communicate(timeout=20)[0])
    reader.kill()
    differs('it is still a pipe', True, stat.S_ISFIFO(os.lstat(pipe).st_mode))
    pipe.unlink()
    os.mkfifo(pipe)
    writer = threading.Thread(target=lambda: pipe.write_bytes(SMALL), daemon=True)
    writer.start()
    command = subprocess.Popen([oab_tools.program, 'set', str(pipe), '0', '3001001F', 'Q'])
    writer.join(20)
    differs('BOOK is a pipe', WITH_Q, waiting_in(pipe, len(WITH_Q)))
    differs('BOOK is still a pipe', (0, True), (command.wait(20), stat.S_ISFIFO(os.lstat(pipe).st_mode)))
    out = folder / 'out'
    with open(out, 'wb') as to:
        to.write(b'front')
        to.flush()
        got = subprocess.run([oab_tools.program, 'set', '-o', '/dev/stdout', str(book), '0', '3001001F', 'Q'],
                             stdout=to)
    differs('-o /dev/stdout', (0, b'front' + WITH_Q), (got.returncode, content(out)))
    device = folder / 'null'
    if os.geteuid() == 0:                      # a device of our own: the machine's may not be risked
        try:
            os.mknod(device, stat.S_IFCHR | 0o666, os.makedev(1, 3))
            open(device, 'w').close()
        except OSError:
            print('no devices can be made here: -o DEVICE is not tried')
            return
        differs('-o DEVICE', (0, True), (set_q(book, '-o', device)[0], stat.S_ISCHR(os.lstat(device).st_mode)))


def kept(folder):
    """Extended attributes stay; a hard link is parted, and that is said."""
    book = put(folder / 'book')
    try:
        os.setxattr(book, 'user.paid', b'yes\0no')
    except OSError:
        print('no extended attributes here: they are not tried')
    else:
        differs('attributes', (0, b'yes\0no'),
                (set_q(book)[0], dict((n, os.getxattr(book, n)) for n in os.listxattr(book)).get('user.paid')))
    put(book)
    other = folder / 'other'
    os.link(book, other)
    said = f'oab: {book}: is parted from its other hard link, which keeps the old file\n'.encode()
    differs('a hard link', (0, b'', said, WITH_Q, SMALL), (*set_q(book), content(book), content(other)))


# ---------------------------------------------------------------- what goes wrong

def hostile(folder):
    """A read-only book, a full disk, a folder that takes no file, an owner that can't be kept: exit 2 with a word on
    what was tried, the old book stays, nothing is left beside it."""
    mine = folder / 'mine'
    mine.mkdir()
    book = put(mine / 'book')
    if os.geteuid() == 0:
        os.chown(mine, NOBODY, NOBODY)
        os.chown(book, NOBODY, NOBODY)

    def limited():
        as_nobody()
        resource.setrlimit(resource.RLIMIT_FSIZE, (40, 40))

    def stays(what, got, said):
        differs((what, got[2]), (2, b'', True, SMALL, ['book']),
                (got[0], got[1], said in got[2], content(book), [p.name for p in mine.iterdir()]))

    if run('--help', preexec_fn=as_nobody)[0] != 0:
        print('nobody can run the command here: a full disk, a read-only book and a closed folder are not tried')
        return
    stays('a full disk', set_q(book, preexec_fn=limited), b"can't be written: ")
    book.chmod(0o444)
    stays('a read-only book', set_q(book, preexec_fn=as_nobody), b"can't be opened to be corrected: ")
    book.chmod(0o644)
    mine.chmod(0o555)
    stays('a folder that takes no file', set_q(book, preexec_fn=as_nobody), b"can't make a new file in its folder: ")
    mine.chmod(0o755)
    if os.geteuid() == 0:
        os.chown(book, 0, 0)
        book.chmod(0o666)
        stays('an owner that can\'t be kept', set_q(book, preexec_fn=as_nobody),
              b"can't keep the file's owner: Operation not permitted")
        os.chown(book, NOBODY, NOBODY)
    differs('and then it is done', 0, set_q(book, preexec_fn=as_nobody)[0])
    with open('/dev/full', 'w') as full:
        for words in (('list', book), ('get', '--raw', book, 0, '39FE001F')):
            got = subprocess.run([oab_tools.program, *map(str, words)], stdout=full, stderr=subprocess.PIPE)
            differs(('a full output', words), (2, True), (got.returncode, b'standard output' in got.stderr))


def closed(folder):
    """Standard input, output and error may be closed: no word goes into the book that is opened next."""
    book = put(folder / 'book')
    for descriptors in ((2,), (1, 2), (0, 1, 2), (1,), (0,)):
        def close(these=descriptors):
            for number in these:
                os.close(number)

        got = run('set', book, 9, '3001001F', 'Q', preexec_fn=close)
        differs(('refused', descriptors), (1, SMALL), (got[0], content(book)))
        got = run('list', book, preexec_fn=close)
        differs(('listed', descriptors), (2 if 1 in descriptors else 0, SMALL), (got[0], content(book)))
        differs(('set', descriptors), (0, WITH_Q), (set_q(book, preexec_fn=close)[0], content(book)))
        put(book)


def little_memory(folder):
    """A book takes memory by its size: 8 MiB beside it are enough, also where a small one is corrected. Of the plain
    command, since the sanitizer takes memory of its own."""
    plain = oab_tools.TOP / 'target/oab/oab'
    if not plain.is_file() or not oab_tools.is_native(plain):
        return

    def within(octets):
        most = octets + (8 << 20)
        return {'command': plain, 'preexec_fn': lambda: resource.setrlimit(resource.RLIMIT_AS, (most, most))}

    book = put(folder / 'book')
    differs('check in 8 MiB', 0, run('check', book, **within(0))[0])
    differs('set in 8 MiB', 0, set_q(book, **within(0))[0])
    octets, places = large.book(90_000_000)
    put(book, octets)
    index = put(folder / 'index', large.index(octets, places))
    last = (len(places) - 1, 'SmtpAddress')
    differs('a large book', 0, run('check', book, **within(len(octets)))[0])
    differs('in less than its size', 2, run('check', book, **within(len(octets) - (16 << 20)))[0])
    differs('through its index', (0, b'last\n'),
            run('get', '--index', index, book, *last, **within(len(octets)))[:2])


if __name__ == '__main__':
    oab_tools.main(in_place, elsewhere, straight, kept, hostile, closed, little_memory)
