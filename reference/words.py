"""Readers of the words of a line, and the texts that name things back.

They work on bytes, so that only ASCII digits count and any other byte is
simply wrong.
"""

import re

from families import Halves, Plane, Polynomial, Single
from lms import I_BYTES, SEED_BYTES
from tags import DIGESTS, KEY_BYTES, NAME_BYTES

MAX_NUMBER = 65_535
MAX_SMALL = 255
MAX_DRAWN = 2 ** 32 - 1


class NotUnderstood(Exception):
    """A line that is no call; nothing is called."""


def read_number(word, most=MAX_NUMBER):
    if not re.fullmatch(rb"[0-9]+", word):
        raise NotUnderstood
    # Zeros go first: Python refuses to convert very long digit strings.
    digits = word.lstrip(b"0") or b"0"
    if len(digits) > len(str(most)) or int(digits) > most:
        raise NotUnderstood
    return int(digits)


def read_drawn(word):
    return read_number(word, MAX_DRAWN)


def read_hex(word):
    if word == b"-":
        return b""
    # Checked here because bytes.fromhex also takes upper case and spaces.
    if not re.fullmatch(rb"([0-9a-f][0-9a-f])+", word):
        raise NotUnderstood
    return bytes.fromhex(word.decode("ascii"))


def read_exactly(word, length):
    data = read_hex(word)
    if len(data) != length:
        raise NotUnderstood
    return data


def read_key(word):
    return read_exactly(word, KEY_BYTES)


def read_name(word):
    return read_exactly(word, NAME_BYTES)


def read_I(word):
    return read_exactly(word, I_BYTES)


def read_seed(word):
    return read_exactly(word, SEED_BYTES)


def read_digest(word):
    if word not in DIGESTS:
        raise NotUnderstood
    return word


def read_each(readers, words):
    """One reader for each word, and as many words as readers."""
    if len(words) != len(readers):
        raise NotUnderstood
    return [read(word) for read, word in zip(readers, words)]


def read_small(word):
    return read_number(word, MAX_SMALL)


# Word of a kind -> what makes it, and a reader for each number.
KINDS = {
    b"single": (Single, [read_number]),
    b"halves": (Halves, [read_number]),
    b"polynomial": (Polynomial, [read_small, read_small, read_number]),
    b"plane": (Plane, [read_number]),
}


def read_kind(kind, words):
    """What makes a family and the numbers for it; nothing is made yet."""
    if kind not in KINDS:
        raise NotUnderstood
    maker, readers = KINDS[kind]
    return maker, read_each(readers, words)


def write_hex(data):
    return data.hex() or "-"


def write_family(family):
    return (f"family {family.kind} {family.q} {family.k} {family.n} "
            f"{family.t} {family.d}")
