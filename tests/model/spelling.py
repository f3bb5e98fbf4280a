"""How the command prints a value, and the words that hand one over: decision 28 of docs/DECISIONS.md, in Python.

What: an encoded value becomes lines, words or an object of JSON. Why: the command's output is held to this and not to
itself. Which characters are format characters is asked of Python's own Unicode tables.
"""

import unicodedata

from model import oab

TYPE_WORDS = dict(zip(oab.TYPES, ('number', 'yes-or-no', 'object', 'narrow', 'text', 'binary', 'numbers', 'narrows',
                                  'texts', 'binaries')))


def is_unsafe(character):
    """Controls (C0, DEL, C1), format characters, and the line and paragraph separators."""
    return unicodedata.category(character) in ('Cc', 'Cf') or character in '\u2028\u2029'


def escaped(octets):
    return b''.join(b'\\x%02X' % octet for octet in octets)


def spelled(octets, narrow):
    """A string's octets, without the final 00, as they are printed."""
    if narrow:
        return b''.join(b'\\\\' if o == 0x5C else bytes([o]) if 0x20 <= o < 0x7F else escaped([o]) for o in octets)
    text = b''
    for character in octets.decode():
        if character == '\\':
            text += b'\\\\'
        else:
            text += escaped(character.encode()) if is_unsafe(character) else character.encode()
    return text


def items(value_type, value):
    """The values or elements of an encoding, each with its single type."""
    if value_type not in oab.ELEMENT:
        return [(value_type, value)]
    count, at = oab.number_at(value)
    found = []
    for _ in range(count):
        width = oab.walk(oab.ELEMENT[value_type], value[at:])
        found.append((oab.ELEMENT[value_type], value[at:at + width]))
        at += width
    return found


def word(value_type, value):
    """One value or element as it is printed, and as `set` takes it."""
    if value_type == oab.NUMBER:
        return b'%d' % oab.number_at(value)[0]
    if value_type == oab.YES_OR_NO:
        return b'yes' if value[0] else b'no'
    if value_type == oab.BINARY:
        return value[oab.number_at(value)[1]:].hex().upper().encode()
    return spelled(value[:-1], value_type != oab.TEXT)


def words(value_type, value):
    return [word(*item) for item in items(value_type, value)]


def lines(value_type, value):
    return b''.join(one + b'\n' for one in words(value_type, value))


def in_json(value_type, value):
    """What json.loads gives of the value."""
    def one(item_type, item):
        if item_type == oab.NUMBER:
            return oab.number_at(item)[0]
        return bool(item[0]) if item_type == oab.YES_OR_NO else word(item_type, item).decode()

    found = [one(*item) for item in items(value_type, value)]
    return found if value_type in oab.ELEMENT else found[0]
