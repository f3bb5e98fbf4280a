"""What the tests of the command share: running it, and counting what differs.

The command is the one that `make` builds, or the one that the variable OAB names (tests/run names the sanitizer's).
"""

import os
import shutil
import subprocess
import sys
import tempfile
from pathlib import Path

sys.dont_write_bytecode = True
os.environ.setdefault('ASAN_OPTIONS', 'detect_leaks=0')    # looking for leaks takes seconds a run on some machines

TOP = Path(__file__).resolve().parent.parent
NOBODY = 65534

runs = 0
differ = 0
program = None


def differs(what, want, got):
    global runs, differ
    runs += 1
    if want != got:
        differ += 1
        if differ <= 20:
            print(f'differs: {str(what)[:300]} wanted {str(want)[:300]} got {str(got)[:300]}')


def is_native(path):
    """Whether the machine runs the program itself: octet 18 of an ELF file names the processor."""
    return open(path, 'rb').read(19)[18] == {'x86_64': 0x3E, 'aarch64': 0xB7}.get(os.uname().machine)


def build():
    """The command, built; a path that anybody can run, where the machine runs it itself."""
    global program
    built = os.environ.get('OAB')
    if built is None:
        subprocess.run(['make', '-s'], cwd=TOP, check=True)
        built = TOP / 'target/oab/oab'
    program = str(Path(built).resolve())
    if not is_native(program):
        program = str(TOP / 'bin/oab')
    return program


def run(*words, stdin=b'', command=None, **more):
    got = subprocess.run([command or program, *(w if isinstance(w, bytes) else str(w) for w in words)], input=stdin,
                         capture_output=True, **more)
    return got.returncode, got.stdout, got.stderr


def content(path):
    """The octets of a file, None where there is none."""
    return path.read_bytes() if path.is_file() else None


def refusal(book, number, place):
    return f'oab: {book}: refused {number} at {place}: '.encode()


def says(what, book, answer, got, done):
    """The answer of the model: done with this output, or the refusal with its number and place."""
    if answer[0] == 'refused':
        differs(what, (1, b'', True), (got[0], got[1], got[2].startswith(refusal(book, answer[1], answer[2]))))
    else:
        differs(what, (0, done), got[:2])


def as_nobody():
    if os.geteuid() == 0:
        os.setgid(NOBODY)
        os.setuid(NOBODY)


def main(*parts):
    """Runs each part in a folder of its own; ends with the sums. Nobody can read the repository, so the command is
    copied into a folder that all can read."""
    global program
    build()
    folder = Path(tempfile.mkdtemp())
    folder.chmod(0o755)
    try:
        if is_native(program):
            program = shutil.copy(program, folder / 'oab')
        for part in parts:
            own = folder / part.__name__
            own.mkdir()
            own.chmod(0o755)
            part(own)
    finally:
        shutil.rmtree(folder)
    print(f'{runs} runs, {differ} differ')
    sys.exit(1 if differ else 0)
