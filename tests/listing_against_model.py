"""Compares the listing program with the model. Run from the top: python3 tests/listing_against_model.py

What: bin/listing is run on every tenth book of the stream of judge_cases, good and refused, on the
examples and on books at the greatest length that it takes; what it prints must be what the model's
listing gives, and its exit status 0 or, for a refusal, 1. Why by hand: a program of the gate is run once,
on one file, and the listing reads one book.
"""

import subprocess
import sys
from collections import Counter
from pathlib import Path

sys.dont_write_bytecode = True

from model import oab

TOP = Path(__file__).resolve().parent.parent
EVERY = 10


def stream_books():
    """The books of the stream, each with a name."""
    octets = (TOP / 'crates/judge_cases/stdin').read_bytes()
    at, number = 0, 0
    while at < len(octets):
        end = at + 4 + oab.word(octets, at)
        yield f'book {number} of the stream', octets[at + 4:end]
        at, number = end, number + 1


def long_book(length):
    """A good book of that length: one record with one binary value."""
    size = length - (12 + 20 + 4 + 5 + 3)      # header, metadata, header record, size and presence, the value's length
    value = oab.encode_number(size) + bytes(i * 7 % 256 for i in range(size))
    book = oab.write_book([], [(0x8C9E0102, 0)], [], [[value]])
    assert len(book) == length
    return book


def all_books():
    for path in sorted((TOP / 'examples').glob('*.book')):
        yield path.name, path.read_bytes()
    yield from list(stream_books())[::EVERY]
    for length in (65_535, 65_536, 65_537):
        yield f'a book of {length} octets', long_book(length)
    yield '65,537 octets that are no book', bytes(65_537)


def main():
    answers, differ = Counter(), 0
    for name, book in all_books():
        expected = oab.listing(book).encode()
        got = subprocess.run([TOP / 'bin/listing'], input=book, stdout=subprocess.PIPE)
        printed, status = got.stdout, 1 if expected.startswith(b'refused') else 0
        answers[' '.join(expected.decode().split()[:2]) if expected.startswith(b'refused') else 'good'] += 1
        if (printed, got.returncode) != (expected, status):
            differ += 1
            print(f'{name}: {book.hex(" ")}\n  printed  {printed} {got.returncode}\n  expected {expected} {status}')
    print(f'{sum(answers.values())} books, {differ} differ:', dict(sorted(answers.items())))
    sys.exit(1 if differ else 0)


if __name__ == '__main__':
    main()
