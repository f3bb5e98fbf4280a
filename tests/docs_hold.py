"""Checks that what the docs name is there: definitions, functions and proofs of docs/WHERE.md, theorems of
docs/PROMISES.md and docs/CONTRACTS.md; that a function named in WHERE promises, by its contract, what the definition
beside it says; the wrong programs that CONTRACTS names, and that every kept one is named. Of every public call of the
library: that it has a contract, has no `requires`, and is in CONTRACTS; of every call for C programs: that its export
has the clauses of the call.

Run from the top: python3 tests/docs_hold.py. Ends with "N names, 0 missing".
"""

import re
import sys
from pathlib import Path

TOP = Path(__file__).resolve().parent.parent
CRATES = TOP / 'crates'

names = 0
missing = 0


def want(there, what):
    global names, missing
    names += 1
    if not there:
        missing += 1
        print('missing:', what)


def declares(path, name):
    """Whether the file defines the name: a function of the code, or a definition, law or type of the specs."""
    if not path.is_file():
        return False
    text = path.read_text()
    if path.suffix == '.rt':
        return re.search(r'\bfn ' + re.escape(name) + r'[(<]', text) is not None
    word = r' *(?:(?:pub|unfoldable|abbrev|data|record) )+' + re.escape(name) + r'(?=\s|$)'
    return re.search('^' + word, text, re.M) is not None


def pairs(text):
    """`a`, `b` in `crate/specs/File.antt`"""
    for found in re.finditer(r'((?:`[^`/]+`(?:, )?)+) in `([\w/]+\.(?:antt|rt))`', text):
        for name in re.findall(r'`([^`]+)`', found[1]):
            yield name, found[2]


def meanings():
    """What each definition of the specs, and of what stands over them in proofs, names in its equations or fields, by
    its name; an operator by its word."""
    says = {}
    start = r'^(?:(?:pub|unfoldable|abbrev|record) )+([\w·◌-]+)(?: .*)? :.*\n((?:.+\n)*)'
    for path in [*CRATES.glob('*/specs/*.antt'), *CRATES.glob('*/proofs/*.antt')]:
        for found in re.finditer(start, path.read_text(), re.M):
            lines = [line for line in found[2].splitlines() if not line.startswith('--')]
            says.setdefault(found[1].strip('◌'), set()).update(words(' '.join(lines)))
    return says


def words(text):
    return re.findall(r'[\w·-]+', text)


def reached(text, says):
    """The definitions that a text names, and those that they name in turn."""
    seen, due = set(), [w for w in words(text) if w in says]
    while due:
        word = due.pop()
        if word not in seen:
            seen.add(word)
            due += [w for w in says[word] if w in says]
    return seen


def contract(path, name):
    """The ensures of a function, or '' where there is none."""
    found = re.search(r'\bfn ' + re.escape(name) + r'[(<].*?^\{', path.read_text(), re.M | re.S)
    return found[0].partition(' ensures ')[2] if found else ''


def statement(path, name):
    """What a law says, up to its proof."""
    law = re.escape(name)
    found = re.search(rf'^ *pub {law} :(.*?)^ *(?:unfolding|{law})\b', path.read_text(), re.M | re.S)
    return found[1] if found else ''


def cites(text):
    """What a row's functions promise is what its definitions say: each contract leads to one of them, and each of them
    is led to by a contract, or by what a law beside it says."""
    says = meanings()
    for line in text.splitlines():
        cells = line.strip('|').split('|')
        if not line.startswith('| ') or len(cells) != 4:
            continue
        row = cells[0].strip()
        definitions = {name.strip('◌') for name, _ in pairs(cells[1])} & set(says)
        functions = [(name, CRATES / path) for name, path in pairs(cells[2]) if not path.endswith('main.rt')]
        laws = [(name, CRATES / path) for name, path in pairs(cells[3]) if path.endswith('.antt')]
        promised = {name: reached(contract(path, name), says) for name, path in functions if path.is_file()}
        stated = [reached(statement(path, name), says) for name, path in laws if path.is_file()]
        said = set().union(*promised.values(), *stated)
        if definitions and promised:
            for name in promised:
                want(promised[name] & definitions, f'{row}: one of {sorted(definitions)} in what {name} promises')
            for name in sorted(definitions):
                want(name in said, f'{row}: {name} in what {sorted(promised)} and the laws beside them say')


def where():
    text = (TOP / 'docs/WHERE.md').read_text()
    cites(text)
    for name, path in pairs(text):
        want(declares(CRATES / path, name), f'{name} in {path}')
    for path in re.findall(r'`(\w+/proofs/\w+)`', text):
        want((CRATES / path).is_dir(), path)
    for path in re.findall(r'`((?:docs|tests|examples)/[\w.]+)`', text):
        want((TOP / path).exists(), path)


def theorems(doc):
    """Rows of a table whose last cell names files and whose first or second cell names theorems."""
    for line in (TOP / doc).read_text().splitlines():
        cells = [c.strip() for c in line.strip('|').split('|')]
        if not line.startswith('| ') or len(cells) != 3:
            continue
        files = re.findall(r'`([\w/]+\.antt)`', cells[2])
        if not files:
            continue
        folder = files[0].rsplit('/', 1)[0]
        files = [f if '/' in f else f'{folder}/{f}' for f in files]
        for name in [n for c in cells[:2] for n in re.findall(r'`((?!wt_)[a-z]+(?:[-_][a-z]+)+)`', c)]:
            want(any(declares(CRATES / f, name) for f in files), f'{name} in {", ".join(files)}')


def wrong_programs():
    text = (TOP / 'docs/CONTRACTS.md').read_text()
    kept = {f'{p.parent.parent.name}/{p.stem}' for p in CRATES.glob('*/must-fail/*.edit')}
    kept |= {f'{p.parent.name}/{p.stem}' for p in (TOP / 'tests/wrong').glob('*/*.edit')}
    crates = {p.name for p in CRATES.iterdir()}
    named = {n for n in re.findall(r'`(\w+/\w+)`', text) if n.split('/')[0] in crates and n.split('/')[1] != 'specs'}
    for name in sorted(named):
        want(name in kept, f'{name} among the kept edits')
    for name in sorted(kept - named):
        want(False, f'{name} in docs/CONTRACTS.md')


def calls():
    """Public functions of the library's crates: those of lib.rt, those it hands on, and those for C programs."""
    text = (TOP / 'docs/CONTRACTS.md').read_text()
    for lib in sorted(CRATES.glob('*/src/lib.rt')):
        crate = lib.parent.parent.name
        if crate == 'lines':
            continue
        handed = set(re.findall(r'\w+', ' '.join(re.findall(r'^pub use \w+::([^;]+);', lib.read_text(), re.M))))
        for path in sorted(lib.parent.glob('*.rt')):
            for found in re.finditer(r'^pub (extern "C" )?fn (\w+)(.*?)^\{', path.read_text(), re.M | re.S):
                name = found[2]
                if path != lib and not found[1] and name not in handed:
                    continue
                head = found[3]
                good = re.search(r' ensures (?:\w+ )?\{', head) and not re.search(r' requires\b', head)
                want(good, f'a contract without requires of {crate}::{name}')
                want(re.search(r'\b' + name + r'\b', text), f'{crate}::{name} in docs/CONTRACTS.md')


def exports():
    """What C links: each call of a library for C programs is exported once, by the thin crate over it, with the same
    arguments and the same clauses."""
    for folder in sorted(f for f in CRATES.glob('face_*') if not f.name.endswith('_c')):
        crate, thin = folder.name, CRATES / (folder.name + '_c') / 'src' / 'lib.rt'
        want(thin.is_file(), f'{crate}_c, which exports the calls of {crate}')
        given, called = heads([thin] if thin.is_file() else []), heads((folder / 'src').glob('*.rt'))
        for name in sorted(given.keys() | called.keys()):
            want(given.get(name) == called.get(name), f'{name} of {crate}_c with the clauses that it has in {crate}')


def heads(paths):
    """The arguments and clauses of each call for C programs, however their lines are broken."""
    head = re.compile(r'^pub (?:extern "C" )?fn (wt_\w+)(.*?)^\{', re.M | re.S)
    found = [m for path in paths for m in head.finditer(path.read_text())]
    return {m[1]: re.sub(r'\s+', '', m[2]).replace(',)', ')') for m in found}


where()
theorems('docs/PROMISES.md')
theorems('docs/CONTRACTS.md')
wrong_programs()
calls()
exports()
print(f'{names} names, {missing} missing')
sys.exit(missing != 0)
