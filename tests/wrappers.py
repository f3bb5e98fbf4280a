"""What stands around the programs: bin/listing and bin/oab, the words of `make`, and `make install`.

Run from the top: python3 tests/wrappers.py. Ends with "N runs, 0 differ". Where a proof would have to be run, a tree of
the same files with an `rt` that only notes its words takes its place.
"""

import os
import shutil
import stat
import subprocess

import oab_tools
from oab_tools import TOP, content, differs

from model import books, oab

LISTING = TOP / 'bin/listing'


def sh(*words, **more):
    got = subprocess.run([str(w) for w in words], capture_output=True, **more)
    return got.returncode, got.stdout, got.stderr


def listing(folder):
    """A file or standard input, a link, the status."""
    book, bad, link = folder / 'a book', folder / 'bad', folder / 'link'
    book.write_bytes(books.small_book())
    bad.write_bytes(books.small_book()[:-1])
    link.symlink_to(LISTING)
    lines = oab.listing(books.small_book()).encode()
    differs('standard input', (0, lines, b''), sh(LISTING, input=books.small_book()))
    for program in (LISTING, link):
        differs(('FILE', program.name), (0, lines, b''), sh(program, book, input=b'no book'))
    differs('-', (0, lines, b''), sh(LISTING, '-', input=books.small_book()))
    differs('refused', (1, oab.listing(bad.read_bytes()).encode(), b''), sh(LISTING, bad))
    differs('no such file', (2, b''), sh(LISTING, folder / 'missing')[:2])
    differs('a folder', (2, b''), sh(LISTING, folder)[:2])
    differs('two files', (2, b''), sh(LISTING, book, book)[:2])
    differs('an option', (2, b''), sh(LISTING, '-x')[:2])
    with open('/dev/full', 'w') as full:
        differs('a full output', 2, subprocess.run([LISTING, str(book)], stdout=full,
                                                   stderr=subprocess.DEVNULL).returncode)


def command(folder):
    """bin/oab through a link, with its status."""
    link = folder / 'link'
    link.symlink_to(TOP / 'bin/oab')
    differs('a link', (0, b'examples/small.book: good, 78 octets, 1 record\n', b''),
            sh(link, 'check', 'examples/small.book', cwd=TOP))
    differs('refused', 1, sh(link, 'check', '-', input=b'')[0])
    differs('usage', 2, sh(TOP / 'bin/oab')[0])


def tree(folder, rt):
    """The files around the proofs, with another rt and, for the listing, a machine that runs its programs itself."""
    top, tools = folder / 'tree', folder / 'tools'
    for part in ('bin', 'oab', 'include'):
        shutil.copytree(TOP / part, top / part)
    for part in ('Makefile', 'crates.txt'):
        shutil.copy(TOP / part, top / part)
    (top / 'crates/listing/src').mkdir(parents=True)
    (top / 'crates/listing/src/main.rt').write_text('')
    (top / 'crates/face_reading_c').mkdir()
    tools.mkdir()
    for name, text in (('rt', rt), ('uname', 'echo x86_64\n')):
        (tools / name).write_text('#!/bin/sh\n' + text)
        (tools / name).chmod(0o755)
    return top, {**os.environ, 'PATH': f'{tools}:{os.environ["PATH"]}', 'LIBRARY': ''}


# rt works in a crate's folder; the calls of it are noted at the top.
NOTES = 'echo "$@" >>../../calls\n'
BUILDS = NOTES + '''mkdir -p out
printf '#!/bin/sh\\necho listed\\n' >out/listing
chmod 755 out/listing
'''


def first_runs(folder):
    """The listing says that it proves first, and a deleted program is built again."""
    top, env = tree(folder, BUILDS)
    for what in ('first', 'deleted'):
        got = sh(top / 'bin/listing', env=env, input=b'')
        differs((what, got[2]), (0, b'listed\n', True),
                (*got[:2], got[2].startswith(b'listing: the program is proved and built first')))
        differs('and then not again', (0, b'listed\n', b''), sh(top / 'bin/listing', env=env, input=b''))
        (top / 'crates/listing/out/listing').unlink()
    differs('calls of rt', b'run\n' * 2, content(top / 'calls'))


def make_speaks(folder):
    """make looks for its tools before it proves, and says that it proves."""
    top, env = tree(folder, NOTES + 'exit 1\n')
    for missing in ('CC', 'AR'):
        got = sh('make', f'{missing}=no-such-tool', cwd=top, env=env)
        differs((missing, got[2]), (True, True, None),
                (got[0] != 0, b'no-such-tool is missing' in got[2], content(top / 'calls')))
    got = sh('make', cwd=top, env=env)
    differs(('it proves', got[2]), (True, True, True),
            (got[0] != 0, b'make: the library is proved first' in got[2], content(top / 'calls') is not None))


PROGRAM = '''#include <windtrellis.h>
#include <stdio.h>
int main(void)
{
    wt_judged j;
    wt_reason r;
    wt_length made;
    uint32_t tag = 0x3001001F;
    uint8_t text[1] = { 7 };
    printf("%u %u ", wt_version() == WT_VERSION, wt_judge((const uint8_t *)"", 0, &j));
    printf("%u ", wt_why((const uint8_t *)"", 0, WT_HEADER, 0, &r));
    printf("%u ", wt_sheet_length((const uint8_t *)"", 0, &tag, 1, &made));
    printf("%u %u ", wt_sheet((const uint8_t *)"", 0, &tag, 1, text, 1, &made), text[0]);
    printf("%u ", wt_from_sheet((const uint8_t *)"", 0, &tag, 0, &tag, 0, &tag, 0, (const uint8_t *)"", 0, text, 1,
        &made));
    printf("%u", text[0]);
    return 0;
}
'''


def installed(folder):
    """Everything in its place, and a C program that is built with the installed header and library alone."""
    differs('make install', 0, sh('make', '-s', 'install', f'DESTDIR={folder}', 'PREFIX=/p', cwd=TOP)[0])
    modes = {str(path.relative_to(folder)): oct(stat.S_IMODE(path.stat().st_mode)) for path in folder.rglob('*')
             if path.is_file()}
    want = {'p/include/windtrellis.h': '0o644', 'p/lib/libwindtrellis.a': '0o644',
            'p/lib/pkgconfig/windtrellis.pc': '0o644', 'p/bin/oab': '0o755',
            'p/share/man/man1/oab.1': '0o644', 'p/share/bash-completion/completions/oab': '0o644'}
    differs('files', want, modes)
    if not oab_tools.is_native(folder / 'p/bin/oab'):
        print('the command is for another machine: no program is built with the installed library')
        return
    differs('it runs', 0, sh(folder / 'p/bin/oab', '--version')[0])
    source, program = folder / 'try.c', folder / 'try'
    source.write_text(PROGRAM)
    flags = [f'-I{folder}/p/include', f'-L{folder}/p/lib', '-lwindtrellis']
    if shutil.which('pkg-config'):
        env = {**os.environ, 'PKG_CONFIG_PATH': f'{folder}/p/lib/pkgconfig', 'PKG_CONFIG_SYSROOT_DIR': str(folder)}
        flags = sh('pkg-config', '--cflags', '--libs', 'windtrellis', env=env)[1].decode().split()
    differs('a program', (0, b'', b''), sh('cc', '-Wall', '-Werror', '-o', program, source, *flags))
    differs('and it runs', (0, b'1 2 2 2 2 7 20 7', b''), sh(program))


COMPLETE = '''compopt() { :; }
. oab/completion.bash
COMP_WORDS=("$@")
COMP_CWORD=$(($# - 1))
_oab
printf '%s ' "${COMPREPLY[@]}"
'''


def completion(folder):
    """What bash completes of a line."""
    if not shutil.which('bash'):
        print('no bash here: its completion is not tried')
        return
    for words, want in (('oab se', 'set '), ('oab get b 0 DisplayN', 'DisplayName '), ('oab get b he', 'header '),
                        ('oab set -o out b 0 Smtp', 'SmtpAddress '), ('oab columns --', '--help --json --names '),
                        ('oab wh', 'why '), ('oab why b he', 'header '), ('oab why -q b 0 Surn', 'Surname '),
                        ('oab why --j', '--json '), ('oab ex', 'export extract '),
                        ('oab export -t Smtp', 'SmtpAddress '),
                        ('oab export -t DisplayName,Surn', 'DisplayName,Surname '),
                        ('oab export -o out -t A,B,SendR', 'A,B,SendRichInfo '), ('oab export -', '-o -q --help -t '),
                        ('oab export -t A examples/small.b', 'examples/small.book '), ('oab im', 'import '),
                        ('oab import --li', '--like '), ('oab import --like examples/small.b', 'examples/small.book '),
                        ('oab import --like a --flags 0 -o b examples/small.b', 'examples/small.book '),
                        ('oab import -', '-o -q --help -n --like --flags '),
                        ('oab check examples/small.b', 'examples/small.book '), ('oab set --n', ' ')):
        differs(words, (0, want.encode(), b''), sh('bash', '-c', COMPLETE, 'bash', *words.split(), cwd=TOP))


if __name__ == '__main__':
    oab_tools.main(listing, command, first_runs, make_speaks, installed, completion)
