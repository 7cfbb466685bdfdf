"""Seals: row digests under a signature, and what can be told by them later.

A sheet's blocks are framed, the frames of each row make an image, and the
seal part holds the digests of all images. The calls take everything by hand
and keep nothing; each makes its checks in the order of its refusals.
"""

import struct
from collections import namedtuple

from sheet import MAX_BLOCKS, MAX_BYTES, TOO_LONG, NO_SUCH_BLOCK, Refused
from tags import DIGESTS as DIGEST_MAKERS

# Refusal numbers.
NO_ROOM = 7
MALFORMED = 8
NOT_GENUINE = 9
ROW_LACKS_BLOCK = 10
WRONG_EXCERPT = 11
ROW_DIFFERS = 12
SHEET_EMPTY = 23
NOT_DRAWN = 25
OTHER_SCHEME = 26
OTHER_BLOCK_COUNT = 27
TOO_MANY_SUSPECTS = 28
NO_ROW_VOUCHES = 29

DIGEST_BYTES = 32


class Digest:
    """A digest with the number that a seal names it by."""

    def __init__(self, word, kind):
        self.kind = kind
        self.make = DIGEST_MAKERS[word]

    def of(self, data):
        return self.make(data).digest()


DIGESTS = {b"sha256": Digest(b"sha256", 1), b"blake2s": Digest(b"blake2s", 2)}


# A number that a key has given out, and the name of that key.
Drawn = namedtuple("Drawn", "name number")


# Frames and images. Blocks are given as pairs of a number and bytes.

def two_bytes(number):
    return number.to_bytes(2, "big")


def frame(number, data):
    return two_bytes(number) + two_bytes(len(data)) + data


def frames(blocks):
    return b"".join(frame(number, data) for number, data in sorted(blocks))


def row_image(i, blocks):
    return b"\x01" + two_bytes(i) + frames(blocks)


def whole_image(blocks):
    return b"\x02" + two_bytes(len(blocks)) + frames(blocks)


def numbered(sheet):
    return list(enumerate(sheet.blocks, start=1))


def blocks_in_row(sheet, family, i):
    return [(j, sheet.block(j)) for j in family.blocks_in(i)]


# The seal part.

HEADER = struct.Struct(">HBBBBBBHHI")


class Seal:
    """The fields of a seal part; bytes that are none are refused."""

    def __init__(self, part):
        if len(part) < HEADER.size:
            raise Refused(MALFORMED)
        (self.n, self.kind, self.q, self.k, self.digest, self.sealer, zero,
         self.d, self.t, self.number) = HEADER.unpack(part[:HEADER.size])
        if not all(1 <= value <= MAX_BLOCKS for value in (self.n, self.t, self.d)):
            raise Refused(MALFORMED)
        if self.digest == 0 or self.kind == 0 or self.sealer == 0 or zero != 0:
            raise Refused(MALFORMED)
        end_of_text = HEADER.size + DIGEST_BYTES * (self.t + 1)
        # Fewer than two bytes here cannot be a length; they fail below.
        length = int.from_bytes(part[end_of_text:end_of_text + 2], "big")
        if len(part) != end_of_text + 2 + length:
            raise Refused(MALFORMED)
        self.part = part
        self.text = part[:end_of_text]
        self.signature = part[end_of_text + 2:]

    def digest_at(self, place):
        start = HEADER.size + DIGEST_BYTES * place
        return self.part[start:start + DIGEST_BYTES]

    def row_digest(self, i):
        return self.digest_at(i - 1)

    def whole_digest(self):
        return self.digest_at(self.t)


def seal(sheet, family, digest, key, drawn, room):
    """The seal part; room is the length of the buffer that it must fit."""
    if sheet.count() == 0:
        raise Refused(SHEET_EMPTY)
    if family.n != sheet.count():
        raise Refused(OTHER_SCHEME)
    if drawn.name != key.name or drawn.number >= key.next_number:
        raise Refused(NOT_DRAWN)
    text = HEADER.pack(family.n, family.kind, family.q, family.k, digest.kind,
                       key.kind, 0, family.d, family.t, drawn.number)
    for i in range(1, family.t + 1):
        text += digest.of(row_image(i, blocks_in_row(sheet, family, i)))
    text += digest.of(whole_image(numbered(sheet)))
    if len(text) + 2 + key.signature_length > room:
        raise Refused(NO_ROOM)
    signature = key.sign(drawn.number, text)
    return text + two_bytes(key.signature_length) + signature


def accept(part, inspector):
    accepted = Seal(part)
    if accepted.sealer != inspector.kind:
        raise Refused(NOT_GENUINE)
    if not inspector.inspect(accepted.number, accepted.text, accepted.signature):
        raise Refused(NOT_GENUINE)
    return accepted


# What the calls on an accepted seal begin with.

def same_family(seal, family):
    theirs = (seal.n, seal.kind, seal.q, seal.k, seal.d, seal.t)
    ours = (family.n, family.kind, family.q, family.k, family.d, family.t)
    if theirs != ours:
        raise Refused(OTHER_SCHEME)


def same_digest(seal, digest):
    if seal.digest != digest.kind:
        raise Refused(OTHER_SCHEME)


def same_count(sheet, seal):
    if sheet.count() != seal.n:
        raise Refused(OTHER_BLOCK_COUNT)


def block_among(j, count):
    if j < 1 or j > count:
        raise Refused(NO_SUCH_BLOCK)


def not_too_long(data):
    if len(data) > MAX_BYTES:
        raise Refused(TOO_LONG)


def others(family, i, j):
    return [other for other in family.blocks_in(i) if other != j]


def row_passes(seal, digest, i, blocks):
    return digest.of(row_image(i, blocks)) == seal.row_digest(i)


# The calls.

def check(sheet, seal, family, digest, room):
    """The blocks that were changed, if at most d were."""
    same_family(seal, family)
    same_digest(seal, digest)
    same_count(sheet, seal)
    if room < min(family.d, family.n):
        raise Refused(NO_ROOM)
    if digest.of(whole_image(numbered(sheet))) == seal.whole_digest():
        return []
    suspects = set(range(1, family.n + 1))
    for i in range(1, family.t + 1):
        if row_passes(seal, digest, i, blocks_in_row(sheet, family, i)):
            suspects -= set(family.blocks_in(i))
    if len(suspects) > family.d:
        raise Refused(TOO_MANY_SUSPECTS, len(suspects))
    return sorted(suspects)


def vouch(sheet, seal, family, digest, j, offered):
    """The lowest row that passes with the offered bytes, and the length of
    its excerpt without block j."""
    same_family(seal, family)
    same_digest(seal, digest)
    same_count(sheet, seal)
    block_among(j, sheet.count())
    not_too_long(offered)
    for i in family.rows_of(j):
        rest = [(other, sheet.block(other)) for other in others(family, i, j)]
        if row_passes(seal, digest, i, rest + [(j, offered)]):
            return i, len(frames(rest))
    raise Refused(NO_ROW_VOUCHES)


def excerpt(sheet, seal, family, j, i, room):
    """The frames of the other blocks of row i."""
    # No digest here: 26 is for the family alone.
    same_family(seal, family)
    same_count(sheet, seal)
    block_among(j, sheet.count())
    if i not in family.rows_of(j):
        raise Refused(ROW_LACKS_BLOCK)
    data = frames([(other, sheet.block(other)) for other in others(family, i, j)])
    if len(data) > room:
        raise Refused(NO_ROOM)
    return data


def read_frames(data, numbers):
    """The blocks of frames that have just these numbers, in this order; None
    where the bytes are not such frames, or a block is too long."""
    blocks = []
    for number in numbers:
        if len(data) < 4:
            return None
        found, length = struct.unpack(">HH", data[:4])
        block, data = data[4:4 + length], data[4 + length:]
        if found != number or len(block) != length or length > MAX_BYTES:
            return None
        blocks.append((number, block))
    return None if data else blocks


def confirm(seal, family, digest, j, i, offered, excerpt):
    """Nothing; it is refused where the offered bytes are not confirmed."""
    same_family(seal, family)
    same_digest(seal, digest)
    block_among(j, seal.n)
    not_too_long(offered)
    if i not in family.rows_of(j):
        raise Refused(ROW_LACKS_BLOCK)
    blocks = read_frames(excerpt, others(family, i, j))
    if blocks is None:
        raise Refused(WRONG_EXCERPT)
    if not row_passes(seal, digest, i, blocks + [(j, offered)]):
        raise Refused(ROW_DIFFERS)
