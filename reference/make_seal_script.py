"""Writes a replay script that tries families, keys and seals:

    python3 make_seal_script.py SEED > script

Where an answer follows from the rules by hand it stands next to the call,
and the generator stops if the reference program answers otherwise. Seals that
are written by hand are made here from their images, byte for byte. An even
seed begins with a family and no key, an odd one with a key and no family:
within one script neither goes away again.
"""

import hashlib
import hmac
import random
import sys
from itertools import combinations, product

from make_sheet_script import OVER, Script, filler
from sheet import MAX_BYTES
from words import write_hex

HASHES = {"sha256": hashlib.sha256, "blake2s": hashlib.blake2s}
DIGEST_KINDS = {"sha256": 1, "blake2s": 2}

KEY = bytes((place * 29 + 5) % 256 for place in range(32))
OTHER_KEY = bytes((place * 31 + 200) % 256 for place in range(32))
NAME = bytes.fromhex("0123456789abcdef")
OTHER_NAME = bytes.fromhex("0123456789abcdee")

LIMIT = 1_000_000


# Families, with what they answer by hand.

class Spec:
    def __init__(self, line, kind, q, k, n, t, d):
        self.line = line
        self.kind, self.q, self.k, self.n, self.t, self.d = kind, q, k, n, t, d

    def answer(self):
        return (f"family {self.kind} {self.q} {self.k} {self.n} {self.t} {self.d}")


def single(n):
    return Spec(f"single {n}", 1, 0, 0, n, n, n)


def halves(n, t):
    return Spec(f"halves {n}", 2, 0, 0, n, t, 1)


def polynomial(q, k, n, d):
    return Spec(f"polynomial {q} {k} {n}", 3, q, k, n, q * q, d)


def plane(n):
    return Spec(f"plane {n}", 4, 0, 0, n, 9, 2)


# The blocks of each row of the plane.
PLANE_ROWS = {1: (1, 4, 7, 10), 2: (1, 5, 8, 11), 3: (1, 6, 9, 12),
              4: (2, 4, 9, 11), 5: (2, 5, 7, 12), 6: (2, 6, 8, 10),
              7: (3, 4, 8, 12), 8: (3, 5, 9, 10), 9: (3, 6, 7, 11)}


# Seal parts by hand.

def framed(blocks, numbers):
    """The frames of these blocks of a list whose first is block 1."""
    return b"".join(bytes.fromhex(f"{j:04x}{len(blocks[j - 1]):04x}") + blocks[j - 1]
                    for j in numbers)


def row_images(spec, blocks, rows):
    """rows says which blocks each row holds; a row that it lacks holds none."""
    return [bytes.fromhex(f"01{i:04x}") + framed(blocks, rows.get(i, ()))
            for i in range(1, spec.t + 1)]


def whole_image(blocks):
    return (bytes.fromhex(f"02{len(blocks):04x}")
            + framed(blocks, range(1, len(blocks) + 1)))


class Part:
    """A seal part whose fields can be changed before it is written."""

    def __init__(self, spec, images, whole, number=0, digest="sha256"):
        self.n, self.kind, self.q, self.k = spec.n, spec.kind, spec.q, spec.k
        self.digest, self.sealer, self.zero = DIGEST_KINDS[digest], 1, 0
        self.d, self.t, self.number = spec.d, spec.t, number
        self.digests = [HASHES[digest](image).digest() for image in [*images, whole]]

    def changed(self, **fields):
        other = object.__new__(Part)
        vars(other).update(vars(self) | fields)
        return other

    def with_rows(self, t):
        """Its digests, cut or lengthened to t rows; the whole digest stays."""
        rows = (self.digests[:-1] + [bytes(32)] * t)[:t]
        return self.changed(t=t, digests=[*rows, self.digests[-1]])

    def text(self):
        header = (f"{self.n:04x}{self.kind:02x}{self.q:02x}{self.k:02x}{self.digest:02x}"
                  f"{self.sealer:02x}{self.zero:02x}{self.d:04x}{self.t:04x}"
                  f"{self.number:08x}")
        return bytes.fromhex(header) + b"".join(self.digests)

    def signed(self, key=KEY, tag_digest="sha256"):
        text = self.text()
        return text + b"\x00\x20" + hmac.digest(key, text, tag_digest)

    def signed_by(self, signature):
        return self.text() + bytes.fromhex(f"{len(signature):04x}") + signature


def resigned(part, key=KEY):
    """The bytes of a seal part with the right tag for what it now says."""
    text = part[:-34]
    return text + part[-34:-32] + hmac.digest(key, text, "sha256")


# The script.

class SealScript(Script):
    """Knows by hand what the key's next number is."""

    next_number = 0

    def family(self, spec):
        self.call("family", spec.line, expected=spec.answer())

    def digest(self, word):
        self.call("digest", word, expected=f"digest {DIGEST_KINDS[word]}")

    def key(self, number=0, digest="sha256", secret=KEY, name=NAME):
        self.call("key", "tag", digest, secret, name, number,
                  expected=f"key 1 {name.hex()} {number} {LIMIT - number}")
        self.next_number = number

    def draw(self):
        self.call("draw", expected=f"number {self.next_number}")
        self.next_number += 1

    def burn(self):
        self.call("burn", expected=f"burned {self.next_number - 1}")

    def fill(self, *blocks):
        """A new sheet, by cut where one line can make these blocks."""
        lines = [piece + b"\n" for piece in b"".join(blocks).split(b"\n")]
        if b"".join(blocks)[-1:] == b"\n" and lines[:-1] == list(blocks):
            self.call("clear", expected="ok")
            self.call("cut", b"".join(blocks), expected=f"blocks {len(blocks)}")
        else:
            self.new(*blocks)

    def sealed(self, spec, *blocks, digest="sha256"):
        """A new sheet, sealed and accepted; answers the seal part."""
        self.fill(*blocks)
        self.digest(digest)
        self.family(spec)
        self.draw()
        self.call("seal", expected=f"sealed {82 + 32 * spec.t}")
        self.accepted(self.next_number - 1)
        return self.replay.part

    def accepted(self, number):
        self.call("accept", expected=f"accepted {number}")

    def set_part(self, part):
        self.call("part", part, expected=f"part {len(part)}")

    def accept_part(self, part):
        """Sets a part and accepts it, whatever number it has."""
        self.set_part(part)
        self.accepted(int.from_bytes(part[12:16], "big"))

    def named(self, *numbers):
        self.call("check", expected=" ".join(["named", *map(str, numbers)]))

    def rewrite(self, number, data):
        self.call("rewrite", number, data)


def lines_of(count):
    """Blocks for cut, no two alike."""
    return [b"%d\n" % number for number in range(1, count + 1)]


# What is missing, at the very beginning.

OPENING = plane(3)
OPENING_BLOCKS = [b"a\n", b"b\n", b"c\n"]
OPENING_ROWS = {1: (1,), 2: (1,), 3: (1,), 4: (2,), 5: (2,), 6: (2,), 7: (3,), 8: (3,),
                9: (3,)}


def opening_part():
    return Part(OPENING, row_images(OPENING, OPENING_BLOCKS, OPENING_ROWS),
                whole_image(OPENING_BLOCKS), number=77)


CALLS_ON_A_SEAL = [("check",), ("check", 0), ("vouch", 1, b"a"), ("vouch", 0, b""),
                   ("excerpt", 1, 1), ("excerpt", 1, 1, 0), ("confirm", 1, 1, b"a", b"")]


def all_lack(s, what):
    for line in CALLS_ON_A_SEAL:
        s.call(*line, expected=what)


def opening(s, seed):
    part = opening_part().signed()
    s.note("nothing is there yet")
    all_lack(s, "not accepted")
    s.call("accept", expected="no part")
    s.call("part", expected="no part")
    s.call("seal", expected="no family")
    s.call("seal", 0, expected="no family")
    s.call("rows", 1, expected="no family")
    s.call("draw", expected="no key")
    s.call("burn", expected="hand empty")
    s.note("what is refused makes nothing")
    s.call("family", "plane 13", expected="refused 5")
    s.call("choose", 10, 8, expected="refused 6")
    s.call("key", "tag", "sha256", KEY, NAME, LIMIT + 1, expected="refused 6")
    s.call("rows", 1, expected="no family")
    s.call("draw", expected="no key")
    s.note("a part alone")
    s.set_part(b"")
    s.call("part", expected="part -")
    s.call("accept", expected="no key")
    s.set_part(part)
    s.call("part", expected="part " + part.hex())
    all_lack(s, "not accepted")
    s.call("accept", expected="no key")
    s.call("seal", expected="no family")
    if seed % 2:
        opening_with_key(s, part)
    else:
        opening_with_family(s, part)
    s.note("clear takes the part away, and leaves hand, digest, family and key")
    s.call("clear", expected="ok")
    all_lack(s, "not accepted")
    s.call("part", expected="no part")
    s.call("accept", expected="no part")
    s.call("draw", expected="hand full")
    s.call("rows", 2, expected="rows 4 5 6")
    s.burn()
    s.call("burn", expected="hand empty")
    s.call("seal", expected="hand empty")
    s.draw()
    s.burn()


def opening_with_key(s, part):
    s.note("a key and no family")
    s.key()
    all_lack(s, "not accepted")
    s.call("seal", expected="no family")
    s.draw()
    s.call("draw", expected="hand full")
    s.call("seal", expected="no family")
    s.accepted(77)
    all_lack(s, "no family")
    s.call("rows", 1, expected="no family")
    s.call("choose", 0, 1, expected="refused 5")
    all_lack(s, "no family")
    s.note("a family, and all is there")
    s.family(OPENING)
    s.call("check", expected="refused 27")
    s.call("confirm", 1, 1, b"a\n", b"", expected="confirmed")


def opening_with_family(s, part):
    s.note("a family and no key")
    s.family(OPENING)
    s.call("rows", 1, expected="rows 1 2 3")
    all_lack(s, "not accepted")
    s.call("seal", expected="no key")
    s.call("draw", expected="no key")
    s.call("accept", expected="no key")
    s.note("a key, and all is there")
    s.key()
    s.call("seal", expected="hand empty")
    all_lack(s, "not accepted")
    s.accepted(77)
    s.call("check", expected="refused 27")
    s.call("confirm", 1, 1, b"a\n", b"", expected="confirmed")
    s.draw()
    s.call("draw", expected="hand full")
    s.call("seal", expected="refused 23")


# Families, digests and keys.

def worked_families(s):
    s.note("worked families")
    s.family(halves(6, 4))
    s.call("rows", 5, expected="rows 2 4")
    s.family(halves(7, 5))
    s.family(halves(1, 2))
    s.call("rows", 1, expected="rows 1")
    s.call("rows", 2, expected="rows")
    s.call("rows", 0, expected="rows")
    s.family(polynomial(5, 3, 125, 2))
    s.call("rows", 9, expected="rows 4 10 11 17 23")
    s.call("rows", 26, expected="rows 1 7 15 20 22")
    s.call("rows", 126, expected="rows")
    s.call("rows", 65535, expected="rows")
    s.call("choose", 125, 2, expected="family 3 5 3 125 25 2")
    s.call("rows", 26, expected="rows 1 7 15 20 22")
    s.call("choose", 126, 2, expected="family 3 7 4 126 49 2")
    s.call("choose", 10, 8, expected="refused 6")
    s.note("what was refused leaves the family that was there")
    s.call("rows", 126)
    for line in ("halves 0", "halves 513", "plane 13", "plane 0", "single 0", "single 513",
                 "polynomial 5 3 126", "polynomial 5 2 26", "polynomial 16 4 513",
                 "polynomial 5 4 0"):
        s.call("family", line, expected="refused 5")
    for line in ("polynomial 6 3 10", "polynomial 5 1 10", "polynomial 5 5 10",
                 "polynomial 0 0 0", "polynomial 6 3 0", "polynomial 17 2 513",
                 "polynomial 255 255 65535"):
        s.call("family", line, expected="refused 6")
    s.call("choose", 0, 8, expected="refused 5")
    s.call("choose", 513, 8, expected="refused 5")
    s.call("choose", 65535, 65535, expected="refused 5")
    s.call("choose", 12, 0, expected="refused 6")
    s.call("choose", 512, 65535, expected="refused 6")
    s.call("rows", 126)
    s.note("all kinds at their edges")
    for spec in (single(1), single(512), halves(512, 12), halves(2, 2), halves(3, 3),
                 halves(462, 11), halves(463, 12), plane(1), plane(12),
                 polynomial(5, 2, 25, 4), polynomial(5, 3, 1, 2), polynomial(5, 4, 512, 1),
                 polynomial(7, 2, 49, 6), polynomial(8, 3, 512, 3),
                 polynomial(11, 4, 512, 3), polynomial(13, 2, 169, 12),
                 polynomial(16, 2, 256, 15), polynomial(16, 3, 512, 7),
                 polynomial(16, 4, 512, 5)):
        s.family(spec)
        for j in (1, 2, spec.n, spec.n + 1):
            s.call("rows", j)
    s.note("choose: halves for 1, otherwise the first polynomial of that strength")
    for n, d, answer in ((512, 1, "2 0 0 512 12 1"), (1, 1, "2 0 0 1 2 1"),
                         (1, 2, "3 5 3 1 25 2"), (25, 4, "3 5 2 25 25 4"),
                         (26, 4, "3 13 4 26 169 4"), (512, 4, "3 13 4 512 169 4"),
                         (1, 3, "3 7 3 1 49 3"), (343, 3, "3 7 3 343 49 3"),
                         (344, 3, "3 8 3 344 64 3"), (512, 3, "3 8 3 512 64 3"),
                         (256, 15, "3 16 2 256 256 15"), (512, 7, "3 16 3 512 256 7")):
        s.call("choose", n, d, expected="family " + answer)


def keys(s):
    s.note("keys: numbers come once, up to the limit")
    for digest in ("sha256", "blake2s"):
        s.key(LIMIT - 2, digest)
        for _ in range(2):
            s.draw()
            s.call("draw", expected="hand full")
            s.burn()
        s.call("draw", expected="refused 24")
        s.call("burn", expected="hand empty")
        s.call("draw", expected="refused 24")
    s.key(LIMIT)
    s.call("draw", expected="refused 24")
    s.note("a refused key leaves the one that was there")
    s.key(41)
    for number in (LIMIT + 1, 2 ** 31, 2 ** 32 - 1):
        s.call("key", "tag", "blake2s", OTHER_KEY, OTHER_NAME, number, expected="refused 6")
    s.draw()
    s.call("draw", expected="hand full")
    s.note("a new key leaves the hand as it is")
    s.key(7, name=OTHER_NAME)
    s.call("draw", expected="hand full")
    s.call("burn", expected="burned 41")
    s.draw()
    s.key(3, name=OTHER_NAME)
    s.call("burn", expected="burned 7")
    s.key()


# Seals, byte for byte.

def seals_by_hand(s):
    two = [b"A", b""]
    cases = [
        ("single, row 1, block 1 is 41 42", single(1), [b"AB"], {1: (1,)}),
        ("single, one empty block", single(1), [b""], {1: (1,)}),
        ("single, 41 and empty", single(2), two, {1: (1,), 2: (2,)}),
        ("halves, one block: row 2 holds none", halves(1, 2), [b"AB"], {1: (1,)}),
        ("halves, two blocks", halves(2, 2), two, {1: (1,), 2: (2,)}),
        ("halves, six blocks: rows 12, 13, 23, 14, 24, 34", halves(6, 4), lines_of(6),
         {1: (1, 2, 4), 2: (1, 3, 5), 3: (2, 3, 6), 4: (4, 5, 6)}),
        ("polynomial, block 1 is nought everywhere", polynomial(5, 3, 1, 2), [b"AB"],
         {1: (1,), 6: (1,), 11: (1,), 16: (1,), 21: (1,)}),
        ("polynomial, block 2 is one everywhere", polynomial(5, 2, 2, 4), two,
         {1: (1,), 6: (1,), 11: (1,), 16: (1,), 21: (1,), 2: (2,), 7: (2,), 12: (2,),
          17: (2,), 22: (2,)}),
        ("plane, one block: rows 4 to 9 hold none", plane(1), [b"AB"],
         {1: (1,), 2: (1,), 3: (1,)}),
        ("plane, twelve blocks", plane(12), lines_of(12), PLANE_ROWS),
    ]
    # The images that the rules have written out.
    by_hand = row_images(single(1), [b"AB"], {1: (1,)})
    assert by_hand == [bytes.fromhex("010001000100024142")]
    assert whole_image(two) == bytes.fromhex("020002000100014100020000")
    for (what, spec, blocks, rows), digest in product(cases, HASHES):
        for number, tag_digest in ((0, "sha256"), (65536, "blake2s"), (LIMIT - 1, "sha256")):
            if number and spec.n > 6:
                continue
            s.note(f"{what}; {digest}, number {number}")
            part = Part(spec, row_images(spec, blocks, rows), whole_image(blocks), number,
                        digest).signed(tag_digest=tag_digest)
            s.key(number, tag_digest)
            assert s.sealed(spec, *blocks, digest=digest) == part
            s.call("part", expected="part " + part.hex())
            s.named()
    s.digest("sha256")
    s.key()


def seal_rooms(s):
    s.note("rooms of seal: one short is 7, and the number stays in the hand")
    for spec in (single(1), halves(1, 2), plane(1), polynomial(5, 3, 1, 2)):
        s.new(b"x")
        s.family(spec)
        s.draw()
        length = 50 + 32 * spec.t + 32
        for room in (0, 1, 32 * spec.t + 50, length - 32, length - 1):
            s.call("seal", room, expected="refused 7")
        s.call("part", expected="no part")
        s.call("draw", expected="hand full")
        s.call("seal", length, expected=f"sealed {length}")
        s.call("seal", length, expected="hand empty")
        s.draw()
        s.call("seal", length + 1, expected=f"sealed {length}")
        s.draw()
        s.call("seal", 1048576, expected=f"sealed {length}")
        s.accepted(s.next_number - 1)
        s.note("a refused seal leaves the part that was there, and its acceptance")
        s.draw()
        s.call("seal", length - 1, expected="refused 7")
        s.named()
        s.burn()
        s.named()


def seal_refusals(s):
    s.note("seal: 23, 26, 25, 7 in this order, all causes at once and apart")
    causes = ("empty", "other n", "other name", "not drawn", "room")
    for chosen in subsets(causes):
        if "empty" in chosen:
            s.call("clear", expected="ok")
        else:
            s.fill(b"p\n", b"q\n")
        s.family(plane(3) if "other n" in chosen else plane(2))
        s.key(10)
        s.draw()
        # As if the key were made again with an older next number.
        s.key(10 if "not drawn" in chosen else 11,
              name=OTHER_NAME if "other name" in chosen else NAME)
        room = 369 if "room" in chosen else 370
        if "empty" in chosen:
            answer = "refused 23"
        elif "other n" in chosen:
            answer = "refused 26"
        elif "other name" in chosen or "not drawn" in chosen:
            answer = "refused 25"
        else:
            answer = "refused 7" if "room" in chosen else "sealed 370"
        s.note("with " + (", ".join(chosen) or "none"))
        s.call("seal", room, expected=answer)
        s.call("burn", expected="burned 10" if chosen else "hand empty")
        if chosen:
            s.call("part", expected="no part")
        else:
            s.call("part")
    s.note("25: each byte of the name; a next number far below; other secret, same name")
    s.fill(b"p\n", b"q\n")
    s.family(plane(2))
    for place in range(8):
        name = bytearray(NAME)
        name[place] ^= 0x40
        s.key(10)
        s.draw()
        s.key(11, name=bytes(name))
        s.call("seal", expected="refused 25")
        s.call("burn", expected="burned 10")
    s.key(10)
    s.draw()
    for number, answer in ((0, "refused 25"), (9, "refused 25"), (10, "refused 25"),
                           (LIMIT, "sealed 370")):
        s.key(number)
        s.call("seal", expected=answer)
    s.note("at the limit a number that was drawn before still seals")
    s.accepted(10)
    s.call("draw", expected="refused 24")
    s.key(10)
    s.draw()
    s.key(11, secret=OTHER_KEY)
    s.call("seal", expected="sealed 370")
    s.accepted(10)
    s.key()
    s.note("26 by one block more or less")
    for n in (1, 2, 3):
        s.family(plane(n))
        s.draw()
        s.call("seal", expected="sealed 370" if n == 2 else "refused 26")
        if n != 2:
            s.burn()


# Accept.

def header_bytes(s, spec, blocks, part):
    n_answers = {0: "refused 8", 1: "ok", 2: "ok", 511: "ok", 512: "ok", 513: "refused 8",
                 768: "refused 8", 65535: "refused 8"}
    good = Part(spec, row_images(spec, blocks, OPENING_ROWS), whole_image(blocks), 5)
    assert good.signed() == part

    def tried(what, changed, answer):
        """With the right tag it is well formed or 8, with the old one 9 or 8."""
        s.note(f"accept: {what}")
        s.set_part(changed.signed())
        s.call("accept", expected=f"accepted {changed.number}" if answer == "ok" else answer)
        if changed.text() != good.text() and changed.t < 100:
            s.set_part(changed.signed_by(part[-32:]))
            s.call("accept", expected="refused 9" if answer == "ok" else answer)

    for value, answer in n_answers.items():
        tried(f"n is {value}", good.changed(n=value), answer)
        tried(f"d is {value}", good.changed(d=value), answer)
        tried(f"t is {value}, as many rows as before", good.changed(t=value), "refused 8")
    for value in (0, 1, 2, 10, 512, 513):
        tried(f"t is {value}, and as many rows", good.with_rows(value),
              n_answers.get(value, "ok"))
    for field in ("kind", "digest"):
        for value in (0, 1, 2, 3, 4, 5, 128, 255):
            tried(f"{field} is {value}", good.changed(**{field: value}),
                  "ok" if value else "refused 8")
    for field in ("q", "k"):
        for value in (0, 1, 5, 16, 17, 255):
            tried(f"{field} is {value}", good.changed(**{field: value}), "ok")
    for value in (0, 1, 2, 3, 255):
        answer = {0: "refused 8", 1: "ok"}.get(value, "refused 9")
        tried(f"sealer kind is {value}", good.changed(sealer=value), answer)
        tried(f"place 7 is {value}", good.changed(zero=value), "refused 8" if value else "ok")
    for value in (0, 255, 256, 65535, 65536, 999_999, LIMIT, LIMIT + 1, 2 ** 31, 2 ** 32 - 1):
        tried(f"number is {value}", good.changed(number=value), "ok")
    s.note("accept: 8 comes before 9")
    s.set_part(good.changed(sealer=2, zero=1).signed(OTHER_KEY))
    s.call("accept", expected="refused 8")
    s.set_part(good.changed(sealer=2, n=0).signed(OTHER_KEY))
    s.call("accept", expected="refused 8")
    s.set_part(good.changed(sealer=2).signed(OTHER_KEY))
    s.call("accept", expected="refused 9")
    return good


def part_lengths(s, good, part):
    s.note("accept: cut after each place of the header, and around the rows")
    for length in [*range(0, 18), 47, 48, 49, 50, 79, 80, 81, 82,
                   *range(len(part) - 36, len(part))]:
        s.set_part(part[:length])
        s.call("accept", expected="refused 8")
    s.note("accept: lengthened, and the first byte gone")
    for tail in (b"\0", b"\xff", part[-1:], bytes(32), part):
        s.set_part(part + tail)
        s.call("accept", expected="refused 8")
    s.set_part(part[1:])
    s.call("accept", expected="refused 8")
    s.note("accept: each value of a length field that does not fit")
    for value in (0, 1, 31, 33, 0x2000, 0x2020, 0x120, 0xFFFF):
        s.set_part(part[:-34] + bytes.fromhex(f"{value:04x}") + part[-32:])
        s.call("accept", expected="refused 8")
    s.note("accept: signatures of other lengths, well formed and not genuine")
    for signature in (b"", part[-32:-31], part[-32:-1], part[-31:], part[-32:] + b"\0",
                      b"\0" + part[-32:], part[-32:] * 2, bytes(255), bytes(256),
                      bytes(1292)):
        s.set_part(good.signed_by(signature))
        s.call("accept", expected="refused 9")
    s.set_part(good.signed_by(filler(65535)))
    s.call("accept", expected="refused 9")
    s.note("accept: one bit changed at each place of the header, in each digest, at the end")
    places = [*range(16), *range(16, len(part) - 66, 5), *range(len(part) - 66, len(part))]
    for place in places:
        changed = bytearray(part)
        changed[place] ^= 1 << place % 8
        s.set_part(bytes(changed))
        # The family kind and d become 0, place 7 is not 00, and t and the
        # signature's length fit the bytes no more; all else is well formed.
        malformed = place in (2, 7, 9, 10, 11, len(part) - 34, len(part) - 33)
        s.call("accept", expected="refused 8" if malformed else "refused 9")
    s.set_part(part)
    s.accepted(5)
    s.note("a part of no bytes is a part, and no seal part")
    s.set_part(b"")
    s.call("part", expected="part -")
    s.call("accept", expected="refused 8")
    all_lack(s, "not accepted")


def inspectors(s, part):
    s.note("accept: by other keys, under other names and digests")
    s.set_part(part)
    s.accepted(5)
    for secret, digest, name, number, answer in (
            (KEY, "sha256", NAME, 0, "accepted 5"),
            (KEY, "sha256", OTHER_NAME, 0, "accepted 5"),
            (KEY, "sha256", NAME, LIMIT, "accepted 5"),
            (KEY, "blake2s", NAME, 6, "refused 9"),
            (OTHER_KEY, "sha256", NAME, 6, "refused 9"),
            (KEY[::-1], "sha256", NAME, 6, "refused 9")):
        s.key(number, digest, secret, name)
        s.call("check", expected="not accepted")
        s.call("accept", expected=answer)
        s.call("accept", expected=answer)
    s.note("the seal's own digest does not matter to the tag")
    s.key(5, "blake2s")
    blake = s.sealed(OPENING, *OPENING_BLOCKS, digest="sha256")
    s.key(5, "sha256")
    s.call("accept", expected="refused 9")
    s.set_part(resigned(blake))
    s.accepted(5)
    s.digest("blake2s")
    s.accepted(5)
    s.call("check", expected="refused 26")
    s.digest("sha256")
    s.named()


def acceptance(s):
    s.note("what takes the acceptance back, and what leaves it")
    s.key(5)
    part = s.sealed(OPENING, *OPENING_BLOCKS)
    stays = [("rewrite", 1, b"a\n"), ("rewrite", 9, b""), ("show", 1), ("sheet",),
             ("cut", b"x"), ("cut", b""), ("digest", "sha256"), ("family", "plane 3"),
             ("family", "plane 13"), ("choose", 1, 9), ("rows", 1), ("draw",), ("draw",),
             ("seal", 0), ("burn",), ("burn",), ("seal",), ("part",), ("accept",),
             ("key", "tag", "sha256", KEY, NAME, LIMIT + 1), ("check", 0), ("vouch", 0, b""),
             ("excerpt", 1, 0), ("confirm", 1, 0, b"", b"")]
    for line in stays:
        s.call(*line)
        s.named()
    s.raw(b"part zz", b"part: not understood")
    s.raw(b"key", b"key: not understood")
    s.raw(b"clear ", b"clear: not understood")
    s.named()
    for line, answer in ((("digest", "blake2s"), "digest 2"),
                         (("family", "plane 2"), "family 4 0 0 2 9 2"),
                         (("choose", 3, 1), "family 2 0 0 3 3 1")):
        s.call(*line, expected=answer)
        s.call("check", expected="refused 26")
        s.digest("sha256")
        s.family(OPENING)
        s.named()
    s.call("add", b"d", expected="block 4")
    s.call("check", expected="refused 27")
    s.fill(*OPENING_BLOCKS)
    s.call("check", expected="not accepted")
    s.accept_part(part)
    s.named()
    for line in (("part", part), ("key", "tag", "sha256", KEY, NAME, 9)):
        s.call(*line)
        all_lack(s, "not accepted")
        s.accepted(5)
        s.named()
    s.next_number = 9
    s.draw()
    s.call("seal", expected="sealed 370")
    all_lack(s, "not accepted")
    s.accepted(9)
    s.named()


def accepts(s):
    s.key(5)
    s.digest("sha256")
    part = s.sealed(OPENING, *OPENING_BLOCKS)
    good = header_bytes(s, OPENING, OPENING_BLOCKS, part)
    part_lengths(s, good, part)
    inspectors(s, part)
    acceptance(s)


# Check.

def worked_checks(s):
    blocks = lines_of(12)
    s.note("plane, blocks 4 and 8 changed: named 4, 8")
    s.sealed(plane(12), *blocks)
    s.named()
    s.rewrite(8, b"other")
    s.named(8)
    s.rewrite(4, b"")
    s.named(4, 8)
    s.call("check", 2, expected="named 4 8")
    s.note("rows 1, 2, 4, 6, 7 fail and the others pass, as vouch sees them")
    for i, holds in PLANE_ROWS.items():
        j = holds[0]
        s.call("excerpt", j, i, expected="excerpt " + write_hex(framed(
            [b"other" if x == 8 else b"" if x == 4 else blocks[x - 1]
             for x in range(1, 13)], holds[1:])))
    s.call("vouch", 1, blocks[0], expected="row 3 length 19")
    s.call("vouch", 4, blocks[3], expected="row 1 length 19")
    s.call("vouch", 11, blocks[10], expected="row 9 length 18")
    s.call("vouch", 2, blocks[1], expected="row 5 length 19")
    s.call("vouch", 3, blocks[2], expected="row 8 length 19")
    s.call("vouch", 10, blocks[9], expected="row 8 length 18")
    s.call("vouch", 12, blocks[11], expected="row 3 length 18")
    s.note("1, 4 and 7 changed: suspects 1, 4, 7, 11, 12; refusal 28 with 5")
    s.rewrite(8, blocks[7])
    s.named(4)
    s.rewrite(1, b"1")
    s.named(1, 4)
    s.rewrite(7, b"7")
    s.call("check", expected="refused 28 5")
    s.call("check", 2, expected="refused 28 5")
    s.call("check", 1, expected="refused 7")
    s.note("and back, one by one, to the sealed bytes")
    s.rewrite(4, blocks[3])
    s.named(1, 7)
    s.rewrite(1, blocks[0])
    s.named(7)
    s.rewrite(7, blocks[6])
    s.named()
    s.note("bytes moved from one block to the next are two changes")
    s.rewrite(1, b"1")
    s.rewrite(2, b"\n2\n")
    s.named(1, 2)
    s.rewrite(1, b"1\n2\n")
    s.rewrite(2, b"")
    s.named(1, 2)
    s.rewrite(1, blocks[0])
    s.rewrite(2, blocks[1])
    s.named()
    s.note("blocks exchanged")
    s.rewrite(5, blocks[8])
    s.rewrite(9, blocks[4])
    s.named(5, 9)
    s.note("the whole plane changed: 28 with 12")
    for j in range(1, 13):
        s.rewrite(j, b"z")
    s.call("check", expected="refused 28 12")


def plane_pairs(s):
    blocks = lines_of(12)
    s.note("plane: each block and each pair of blocks changed is named")
    s.sealed(plane(12), *blocks)
    for one in range(1, 13):
        s.rewrite(one, b"x")
        s.named(one)
        for two in range(one + 1, 13):
            s.rewrite(two, b"")
            s.named(one, two)
            s.rewrite(two, blocks[two - 1])
        s.rewrite(one, blocks[one - 1])
    s.named()


def many_changed(s):
    s.note("single: as many as there are can be named")
    blocks = lines_of(5)
    s.sealed(single(5), *blocks)
    for j in range(1, 6):
        s.rewrite(j, b"")
        s.named(*range(1, j + 1))
    s.call("check", 4, expected="refused 7")
    s.call("check", 5, expected="named 1 2 3 4 5")
    s.note("halves, rows 12, 13, 23, 14, 24, 34: one is named, two give 28")
    blocks = lines_of(6)
    s.sealed(halves(6, 4), *blocks)
    for one in range(1, 7):
        s.rewrite(one, b"x")
        s.named(one)
        for two in range(one + 1, 7):
            s.rewrite(two, b"y")
            # Two that share a row leave one row, two that share none leave none.
            s.call("check", expected=f"refused 28 {6 if one + two == 7 else 3}")
            s.rewrite(two, blocks[two - 1])
        s.rewrite(one, blocks[one - 1])
    s.note("halves, one block: row 2 holds none and clears nobody")
    s.sealed(halves(1, 2), b"x")
    s.rewrite(1, b"y")
    s.named(1)
    s.note("plane, one and two blocks: d reaches or passes n, 28 never comes")
    s.sealed(plane(1), b"x")
    s.rewrite(1, b"y")
    s.call("check", 1, expected="named 1")
    s.call("check", 0, expected="refused 7")
    s.sealed(plane(2), b"x", b"y")
    s.rewrite(1, b"y")
    s.rewrite(2, b"x")
    s.call("check", 2, expected="named 1 2")
    s.call("check", 1, expected="refused 7")
    s.note("polynomial, q = 5, k = 3: 9 and 26 changed")
    s.sealed(polynomial(5, 3, 125, 2), *lines_of(125))
    s.rewrite(9, b"")
    s.rewrite(26, b"other")
    s.named(9, 26)
    s.rewrite(125, b"last")
    s.call("check")
    s.call("check", 1, expected="refused 7")
    s.note("polynomial with d = 15 and three blocks: room for three is enough")
    s.sealed(polynomial(16, 2, 3, 15), *lines_of(3), digest="blake2s")
    s.call("check", 2, expected="refused 7")
    for j in (3, 1, 2):
        s.rewrite(j, b"")
    s.call("check", 3, expected="named 1 2 3")


def check_rooms(s):
    s.note("rooms of check: the smaller of d and n, also when nothing is changed")
    for spec, least in ((plane(12), 2), (plane(2), 2), (plane(1), 1), (single(3), 3),
                        (halves(3, 3), 1), (polynomial(5, 2, 3, 4), 3),
                        (polynomial(5, 2, 4, 4), 4), (polynomial(5, 2, 5, 4), 4)):
        s.sealed(spec, *lines_of(spec.n))
        for room in sorted({0, least - 1}):
            s.call("check", room, expected="refused 7")
        for room in (least, least + 1, 512, 65535):
            s.call("check", room, expected="named")


def changed_plane(s, chosen, part):
    """A sheet of twelve blocks under an accepted seal, with the chosen causes."""
    count = 13 if "more blocks" in chosen else 11 if "fewer blocks" in chosen else 12
    s.fill(*lines_of(count))
    s.accept_part(part)
    s.digest("blake2s" if "digest" in chosen else "sha256")
    s.family(plane(11) if "family" in chosen else plane(12))


def subsets(causes):
    for size in range(len(causes) + 1):
        yield from combinations(causes, size)


def check_refusals(s):
    s.note("check: 26, 27, 7, 28 in this order, all causes at once and apart")
    part = s.sealed(plane(12), *lines_of(12))
    for chosen in subsets(("digest", "family", "more blocks", "fewer blocks", "room", "28")):
        if "more blocks" in chosen and "fewer blocks" in chosen:
            continue
        changed_plane(s, chosen, part)
        if "28" in chosen:
            for j in (1, 4, 7):
                s.rewrite(j, b"x")
        if "digest" in chosen or "family" in chosen:
            answer = "refused 26"
        elif "more blocks" in chosen or "fewer blocks" in chosen:
            answer = "refused 27"
        elif "room" in chosen:
            answer = "refused 7"
        else:
            answer = "refused 28 5" if "28" in chosen else "named"
        s.call("check", 1 if "room" in chosen else 2, expected=answer)
    s.digest("sha256")


def other_schemes(s):
    s.note("26: a seal that differs in one field from family and digest")
    spec, blocks = polynomial(5, 2, 2, 4), [b"a\n", b"b\n"]
    rows = {1: (1,), 6: (1,), 11: (1,), 16: (1,), 21: (1,), 2: (2,), 7: (2,), 12: (2,),
            17: (2,), 22: (2,)}
    good = Part(spec, row_images(spec, blocks, rows), whole_image(blocks))
    s.fill(*blocks)
    s.family(spec)
    s.accept_part(good.signed())
    s.named()
    cases = [("n", 1), ("n", 3), ("n", 258), ("kind", 1), ("kind", 4), ("kind", 131),
             ("q", 7), ("q", 0), ("k", 3), ("k", 0), ("d", 3), ("d", 5), ("d", 260),
             ("t", 24), ("t", 26), ("t", 281), ("digest", 2), ("digest", 3)]
    for field, value in cases:
        s.note(f"26: {field} is {value}")
        part = good.with_rows(value) if field == "t" else good.changed(**{field: value})
        s.accept_part(part.signed())
        s.call("check", expected="refused 26")
        s.call("check", 0, expected="refused 26")
        s.call("vouch", 1, b"a\n", expected="refused 26")
        s.call("vouch", 0, b"", expected="refused 26")
        # No digest plays a part in an excerpt.
        same = field == "digest"
        s.call("excerpt", 1, 1, expected="excerpt -" if same else "refused 26")
        s.call("excerpt", 0, 0, 0, expected="refused 4" if same else "refused 26")
        s.call("confirm", 1, 1, b"a\n", b"", expected="refused 26")
        s.call("confirm", 0, 0, b"", b"\0", expected="refused 26")
    s.note("26: and a family that differs from the seal")
    s.accept_part(good.signed())
    for other in (polynomial(5, 2, 1, 4), polynomial(5, 2, 3, 4), polynomial(5, 3, 2, 2),
                  polynomial(5, 4, 2, 1), polynomial(7, 2, 2, 6), polynomial(8, 2, 2, 7),
                  single(2), halves(2, 2), plane(2), single(25)):
        s.family(other)
        for line in CALLS_ON_A_SEAL:
            s.call(*line, expected="refused 26")
    s.family(spec)
    s.named()


def forged_digests(s):
    s.note("seals that say what no sheet gives, under a right tag")
    blocks = lines_of(12)
    spec = plane(12)
    images = row_images(spec, blocks, PLANE_ROWS)
    good = Part(spec, images, whole_image(blocks))
    s.fill(*blocks)
    s.family(spec)
    s.note("the whole digest agrees and no row does: none is named, none vouches")
    s.accept_part(good.changed(digests=[bytes(32)] * 9 + good.digests[9:]).signed())
    s.named()
    s.call("vouch", 1, blocks[0], expected="refused 29")
    s.note("the whole digest differs and all rows pass: none is suspect")
    s.accept_part(good.changed(digests=good.digests[:9] + [bytes(32)]).signed())
    s.named()
    s.note("the whole digest differs and some rows: blocks 1, 4, 7, 10 share row 1 only")
    for wrong, answer in (((1,), "named"), ((1, 2), "named"), ((1, 2, 3), "named 1"),
                          ((1, 2, 3, 4), "named 1"), ((4, 5, 6), "named 2"),
                          ((1, 4, 7), "named 4"), ((1, 2, 4, 6, 7), "named 4 8"),
                          ((1, 2, 3, 4, 7, 5, 9), "refused 28 5"),
                          ((1, 2, 3, 4, 5, 6), "named 1 2"),
                          ((2, 3, 4, 5, 6, 7, 8, 9), "refused 28 8"),
                          (tuple(range(1, 10)), "refused 28 12")):
        digests = [bytes(32) if i in wrong else good.digests[i - 1] for i in range(1, 10)]
        s.accept_part(good.changed(digests=[*digests, bytes(32)]).signed())
        s.call("check", expected=answer)
    s.note("two row digests exchanged, with the rows' own images otherwise right")
    digests = [good.digests[1], good.digests[0], *good.digests[2:9], bytes(32)]
    s.accept_part(good.changed(digests=digests).signed())
    s.named()
    s.call("vouch", 1, blocks[0], expected="row 3 length 19")
    s.note("a row that holds no block: its digest is wrong, and nobody is suspect")
    spec = halves(1, 2)
    one = Part(spec, row_images(spec, [b"x"], {1: (1,)}), whole_image([b"x"]))
    s.new(b"x")
    s.family(spec)
    s.accept_part(one.changed(digests=[one.digests[0], bytes(32), bytes(32)]).signed())
    s.named()
    s.accept_part(one.changed(digests=[bytes(32), one.digests[1], bytes(32)]).signed())
    s.named(1)
    s.note("a byte of each digest changed in turn")
    spec, blocks = single(2), [b"A", b""]
    two = Part(spec, row_images(spec, blocks, {1: (1,), 2: (2,)}), whole_image(blocks))
    s.new(*blocks)
    s.family(spec)
    for place in (0, 15, 31, 32, 47, 63, 64, 80, 95):
        joined = bytearray(b"".join(two.digests))
        joined[place] ^= 0x10
        # Without the whole digest the rows are not looked at.
        digests = [bytes(joined[start:start + 32]) for start in (0, 32, 64)]
        s.accept_part(two.changed(digests=digests).signed())
        s.named()
        s.accept_part(two.changed(digests=[*digests[:2], bytes(32)]).signed())
        s.named(*([1] if place < 32 else [2] if place < 64 else []))


def checks(s):
    s.key(100)
    s.digest("sha256")
    worked_checks(s)
    plane_pairs(s)
    many_changed(s)
    check_rooms(s)
    check_refusals(s)
    other_schemes(s)
    forged_digests(s)


# Vouch and excerpt.

def vouches(s):
    blocks = lines_of(12)
    s.note("vouch: the lowest row, for sealed bytes and no others")
    s.sealed(plane(12), *blocks)
    lowest = {1: 1, 2: 4, 3: 7, 4: 1, 5: 2, 6: 3, 7: 1, 8: 2, 9: 3, 10: 1, 11: 2, 12: 3}
    for j, i in lowest.items():
        others = [other for other in PLANE_ROWS[i] if other != j]
        length = sum(4 + len(blocks[other - 1]) for other in others)
        s.call("vouch", j, blocks[j - 1], expected=f"row {i} length {length}")
        s.call("excerpt", j, i, length, expected="excerpt " + framed(blocks, others).hex())
        s.call("confirm", j, i, blocks[j - 1], framed(blocks, others), expected="confirmed")
        for wrong in (b"", blocks[j - 1] + b"\0", blocks[j - 1][:-1], blocks[j % 12]):
            s.call("vouch", j, wrong, expected="refused 29")
    s.note("vouch with the sheet's own block changed: only what is offered counts")
    s.rewrite(1, b"changed")
    s.call("vouch", 1, blocks[0], expected="row 1 length 19")
    s.call("vouch", 1, b"changed", expected="refused 29")
    s.note("vouch of block 4 in rows 1, 4, 7 while others are changed one by one")
    s.call("vouch", 4, blocks[3], expected="row 4 length 19")
    s.rewrite(2, b"")
    s.call("vouch", 4, blocks[3], expected="row 7 length 19")
    s.rewrite(12, b"changed too")
    s.call("vouch", 4, blocks[3], expected="refused 29")
    s.rewrite(1, blocks[0])
    s.call("vouch", 4, blocks[3], expected="row 1 length 19")
    s.rewrite(1, b"x")
    s.rewrite(2, blocks[1])
    s.call("vouch", 4, blocks[3], expected="row 4 length 19")
    s.rewrite(9, b"")
    s.call("vouch", 4, blocks[3], expected="refused 29")
    s.rewrite(12, blocks[11])
    s.call("vouch", 4, blocks[3], expected="row 7 length 19")
    s.call("vouch", 4, b"4", expected="refused 29")
    s.note("vouch looks at rows and not at the count of suspects")
    for j in (1, 2, 5, 6):
        s.rewrite(j, b"!")
    s.call("vouch", 4, blocks[3], expected="row 7 length 19")
    s.call("vouch", 3, blocks[2], expected="row 7 length 19")
    s.note("the length is that of the present bytes, be they sealed or not")
    s.call("excerpt", 4, 7, expected="excerpt " + framed(blocks, (3, 8, 12)).hex())
    s.call("excerpt", 4, 1, expected="excerpt " + framed([b"!", *blocks[1:]], (1, 7, 10)).hex())


def vouch_refusals(s):
    s.note("vouch: 26, 27, 4, 3, 29 in this order")
    part = s.sealed(plane(12), *lines_of(12))
    causes = ("digest", "family", "more blocks", "block", "long", "29")
    for chosen in subsets(causes):
        # Long words make long scripts, so not all are tried with all others.
        too_many = len(chosen) > 2 or {"digest", "family", "29"} & set(chosen)
        if "long" in chosen and too_many:
            continue
        changed_plane(s, chosen, part)
        if "digest" in chosen or "family" in chosen:
            answer = "refused 26"
        elif "more blocks" in chosen:
            answer = "refused 27"
        elif "block" in chosen:
            answer = "refused 4"
        elif "long" in chosen:
            answer = "refused 3"
        else:
            answer = "refused 29" if "29" in chosen else "row 1 length 19"
        offered = filler(OVER) if "long" in chosen else b"x" if "29" in chosen else b"1\n"
        s.call("vouch", 0 if "block" in chosen else 1, offered, expected=answer)
    s.note("vouch: 4 for 0 and above the sheet's count, which is 27 before")
    changed_plane(s, (), part)
    for j in (0, 13, 256, 257, 512, 513, 65535):
        s.call("vouch", j, b"1\n", expected="refused 4")
    changed_plane(s, ("more blocks",), part)
    for j in (0, 12, 13, 14):
        s.call("vouch", j, b"1\n", expected="refused 27")
    changed_plane(s, ("fewer blocks",), part)
    for j in (0, 11, 12, 13):
        s.call("vouch", j, b"1\n", expected="refused 27")
    s.digest("sha256")


def excerpts(s):
    blocks = [b"%d" % j + b"." * (j % 3) for j in range(1, 13)]
    s.note("excerpt: of each block in each of its rows, and nowhere else")
    part = s.sealed(plane(12), *blocks)
    for j in range(1, 13):
        for i, holds in PLANE_ROWS.items():
            others = [other for other in holds if other != j]
            s.call("excerpt", j, i, expected="excerpt " + framed(blocks, others).hex()
                   if j in holds else "refused 10")
    for i in (0, 10, 11, 12, 256, 257, 258, 512, 65535):
        s.call("excerpt", 1, i, expected="refused 10")
    s.note("excerpt: rooms")
    data = framed(blocks, (4, 7, 10))
    for room, answer in ((0, "refused 7"), (len(data) - 1, "refused 7"),
                         (len(data), "excerpt " + data.hex()),
                         (len(data) + 1, "excerpt " + data.hex()),
                         (1048576, "excerpt " + data.hex())):
        s.call("excerpt", 1, 1, room, expected=answer)
    s.note("excerpt: a row of one block gives none, which fits into no room")
    s.sealed(single(2), b"x", b"y")
    s.call("excerpt", 1, 1, 0, expected="excerpt -")
    s.call("excerpt", 2, 2, expected="excerpt -")
    s.call("excerpt", 1, 2, expected="refused 10")
    s.call("vouch", 2, b"y", expected="row 2 length 0")
    s.call("confirm", 2, 2, b"y", b"", expected="confirmed")
    s.call("confirm", 2, 2, b"y", b"\0", expected="refused 11")
    s.call("confirm", 2, 2, b"y", bytes.fromhex("0001000178"), expected="refused 11")
    s.call("confirm", 2, 2, b"x", b"", expected="refused 12")
    s.note("excerpt: empty blocks have frames too")
    s.sealed(plane(12), *[b""] * 12)
    s.call("vouch", 12, b"", expected="row 3 length 12")
    s.call("excerpt", 12, 3, 12, expected="excerpt 000100000006000000090000")
    s.call("excerpt", 12, 3, 11, expected="refused 7")
    return part, blocks


def excerpt_refusals(s, part, blocks):
    s.note("excerpt: 26 without the digest, 27, 4, 10, 7 in this order")
    length = len(framed(blocks, (4, 7, 10)))
    for chosen in subsets(("digest", "family", "count", "block", "row", "room")):
        s.fill(*blocks)
        if "count" in chosen:
            s.call("add", b"", expected="block 13")
        s.accept_part(part)
        s.digest("blake2s" if "digest" in chosen else "sha256")
        s.family(plane(11) if "family" in chosen else plane(12))
        answer = "excerpt " + framed(blocks, (4, 7, 10)).hex()
        for cause, number in (("room", 7), ("row", 10), ("block", 4), ("count", 27),
                              ("family", 26)):
            answer = f"refused {number}" if cause in chosen else answer
        s.call("excerpt", 0 if "block" in chosen else 1, 4 if "row" in chosen else 1,
               length - 1 if "room" in chosen else length, expected=answer)
    for j in (13, 14, 65535):
        s.call("excerpt", j, 1, expected="refused 26")
    s.fill(*blocks)
    s.accept_part(part)
    s.family(plane(12))
    for j in (0, 13, 14, 257, 65535):
        s.call("excerpt", j, 1, expected="refused 4")
        s.call("excerpt", j, 0, 0, expected="refused 4")
    s.digest("sha256")


# Confirm.

def confirms(s):
    s.note("confirm: each place of the excerpt changed; the frame is 11, the bytes 12")
    blocks = [b"%d:" % j + b"ab"[:j % 3] for j in range(1, 13)]
    part = s.sealed(plane(12), *blocks)
    for j, others in ((1, (4, 7, 10)), (7, (1, 4, 10)), (10, (1, 4, 7))):
        data = framed(blocks, others)
        s.call("confirm", j, 1, blocks[j - 1], data, expected="confirmed")
        headers, place = set(), 0
        for other in others:
            headers |= set(range(place, place + 4))
            place += 4 + len(blocks[other - 1])
        for place in range(len(data)):
            for bit in (0x01, 0x80):
                changed = bytearray(data)
                changed[place] ^= bit
                s.call("confirm", j, 1, blocks[j - 1], bytes(changed),
                       expected="refused 11" if place in headers else "refused 12")
        s.note("confirm: cut at each place, and one byte left out or put in")
        for place in range(len(data)):
            s.call("confirm", j, 1, blocks[j - 1], data[:place], expected="refused 11")
            s.call("confirm", j, 1, blocks[j - 1], data[:place] + data[place + 1:],
                   expected="refused 11")
            s.call("confirm", j, 1, blocks[j - 1], data[:place] + b"\0" + data[place:],
                   expected="refused 11")
    return part, blocks


def wrong_excerpts(s, blocks):
    s.note("confirm: excerpts with other frames")
    own = framed(blocks, (4, 7, 10))
    for numbers in ((), (4,), (4, 7), (7, 10), (4, 10), (4, 10, 7), (7, 4, 10), (10, 7, 4),
                    (1, 4, 7, 10), (4, 7, 10, 1), (4, 1, 7, 10), (1, 7, 10), (4, 4, 7, 10),
                    (4, 7, 10, 10), (4, 7, 11), (5, 8, 11), (6, 9, 12), (4, 7, 10, 11)):
        s.call("confirm", 1, 1, blocks[0], framed(blocks, numbers), expected="refused 11")
    for tail in (b"\0", bytes(4), bytes.fromhex("000b0000"), bytes.fromhex("00000000"),
                 bytes.fromhex("000a0000"), own):
        s.call("confirm", 1, 1, blocks[0], own + tail, expected="refused 11")
        s.call("confirm", 1, 1, blocks[0], tail + own, expected="refused 11")
    s.note("confirm: right frames with other bytes are 12")
    other = list(blocks)
    other[3], other[6] = other[6], other[3]
    s.call("confirm", 1, 1, blocks[0], framed(other, (4, 7, 10)), expected="refused 12")
    for replaced in (b"", b"longer than it was before", b"\0" * 300):
        other = list(blocks)
        other[6] = replaced
        s.call("confirm", 1, 1, blocks[0], framed(other, (4, 7, 10)), expected="refused 12")
    s.note("confirm: other offered bytes, other blocks and rows")
    for offered in (b"", blocks[0] + b"\0", blocks[0][:-1], blocks[1], own):
        s.call("confirm", 1, 1, offered, own, expected="refused 12")
    for i in (0, 4, 5, 6, 7, 8, 9, 10, 11, 256, 257, 512, 65535):
        s.call("confirm", 1, i, blocks[0], own, expected="refused 10")
    s.call("confirm", 1, 2, blocks[0], own, expected="refused 11")
    s.call("confirm", 1, 2, blocks[0], framed(blocks, (5, 8, 11)), expected="confirmed")
    s.call("confirm", 1, 3, blocks[0], framed(blocks, (6, 9, 12)), expected="confirmed")
    s.call("confirm", 4, 1, blocks[3], own, expected="refused 11")
    s.call("confirm", 4, 1, blocks[3], framed(blocks, (1, 7, 10)), expected="confirmed")
    s.call("confirm", 4, 1, blocks[0], framed(blocks, (1, 7, 10)), expected="refused 12")
    s.note("confirm: a sealed block that moved into the offered place is another")
    s.call("confirm", 4, 1, blocks[3] + framed(blocks, (7, 10)), framed(blocks, (1,)),
           expected="refused 11")


def confirm_without_sheet(s, part, blocks):
    s.note("confirm has no sheet: it answers on an empty one and on a changed one")
    own = framed(blocks, (4, 7, 10))
    s.call("clear", expected="ok")
    s.accept_part(part)
    s.call("check", expected="refused 27")
    s.call("vouch", 1, blocks[0], expected="refused 27")
    s.call("excerpt", 1, 1, expected="refused 27")
    s.call("confirm", 1, 1, blocks[0], own, expected="confirmed")
    for j in (0, 13, 257, 65535):
        s.call("confirm", j, 1, blocks[0], own, expected="refused 4")
    s.note("confirm's 4 goes by the seal's count and not by the sheet's")
    s.fill(*lines_of(13))
    s.accept_part(part)
    s.call("confirm", 13, 1, b"13\n", own, expected="refused 4")
    s.call("confirm", 12, 3, blocks[11], framed(blocks, (1, 6, 9)), expected="confirmed")
    s.call("confirm", 1, 1, blocks[0], own, expected="confirmed")
    s.fill(b"1")
    s.accept_part(part)
    s.call("confirm", 12, 3, blocks[11], framed(blocks, (1, 6, 9)), expected="confirmed")
    s.call("confirm", 2, 4, blocks[1], framed(blocks, (4, 9, 11)), expected="confirmed")


def confirm_refusals(s, part, blocks):
    s.note("confirm: 26, 4, 3, 10, 11, 12 in this order")
    causes = ("digest", "family", "block", "long", "row", "excerpt", "bytes")
    s.fill(*blocks)
    s.accept_part(part)
    for chosen in subsets(causes):
        too_many = len(chosen) > 2 or {"digest", "family", "bytes"} & set(chosen)
        if "long" in chosen and too_many:
            continue
        s.digest("blake2s" if "digest" in chosen else "sha256")
        s.family(plane(11) if "family" in chosen else plane(12))
        answer = "confirmed"
        for cause, number in (("bytes", 12), ("excerpt", 11), ("row", 10), ("long", 3),
                              ("block", 4), ("family", 26), ("digest", 26)):
            answer = f"refused {number}" if cause in chosen else answer
        offered = filler(OVER) if "long" in chosen else b"x" if "bytes" in chosen else blocks[0]
        data = framed(blocks, (4, 7, 10))
        s.call("confirm", 0 if "block" in chosen else 1, 4 if "row" in chosen else 1,
               offered, data[:-1] if "excerpt" in chosen else data, expected=answer)
    s.digest("sha256")
    s.family(plane(12))


def long_blocks(s):
    s.note("images may pass 38,912 bytes: the offered block goes in place of the sheet's")
    long = filler(MAX_BYTES)
    blocks = [b""] * 12
    blocks[3] = long
    sealed = [long, b"", b"", long, b"", b"", b"", b"", b"", b"", b"", b""]
    spec = plane(12)
    part = Part(spec, row_images(spec, sealed, PLANE_ROWS), whole_image(sealed))
    s.new(*blocks)
    s.family(spec)
    s.accept_part(part.signed())
    s.named(1)
    s.call("vouch", 1, long, expected=f"row 1 length {3 * 4 + MAX_BYTES}")
    s.call("excerpt", 1, 1, 3 * 4 + MAX_BYTES - 1, expected="refused 7")
    s.call("excerpt", 1, 1, expected="excerpt " + framed(sealed, (4, 7, 10)).hex())
    s.call("confirm", 1, 1, long, framed(sealed, (4, 7, 10)), expected="confirmed")
    s.note("offered bytes above 38,912 are 3, even if a sealed digest fits them")
    longer = filler(OVER)
    sealed[0] = longer
    part = Part(spec, row_images(spec, sealed, PLANE_ROWS), whole_image(sealed))
    s.accept_part(part.signed())
    s.call("vouch", 1, longer, expected="refused 3")
    s.call("confirm", 1, 2, longer, framed(sealed, (5, 8, 11)), expected="refused 3")
    s.note("a framed block above 38,912 is 11, even if a sealed digest fits it")
    s.call("confirm", 6, 3, b"", framed(sealed, (1, 9, 12)), expected="refused 11")
    s.note("the sum of the framed blocks is free")
    sealed = [b""] * 12
    for j in (1, 9, 12):
        sealed[j - 1] = long
    part = Part(spec, row_images(spec, sealed, PLANE_ROWS), whole_image(sealed))
    s.accept_part(part.signed())
    s.call("confirm", 6, 3, b"", framed(sealed, (1, 9, 12)), expected="confirmed")


def full_sheets(s):
    s.note("512 blocks of 76 bytes fill a sheet; each kind that has room for them")
    blocks = [b"%04d " % j + filler(70 + j % 13)[j % 13:] + b"\n" for j in range(1, 513)]
    assert sum(map(len, blocks)) == MAX_BYTES
    s.fill(*blocks)
    for spec, digest in ((single(512), "sha256"), (halves(512, 12), "blake2s"),
                         (polynomial(5, 4, 512, 1), "sha256"),
                         (polynomial(8, 3, 512, 3), "blake2s"),
                         (polynomial(16, 3, 512, 7), "sha256"),
                         (polynomial(16, 4, 512, 5), "blake2s")):
        s.digest(digest)
        s.family(spec)
        s.draw()
        length = 82 + 32 * spec.t
        s.call("seal", length - 1, expected="refused 7")
        s.call("seal", length, expected=f"sealed {length}")
        s.call("part")
        s.accepted(s.next_number - 1)
        s.named()
        changed = [1, 512, 256, 77, 78, 300, 511][:spec.d]
        for j in changed:
            s.rewrite(j, blocks[j - 1][::-1])
        s.named(*sorted(changed))
        s.call("check", min(spec.d, 512) - 1, expected="refused 7")
        for j in (1, 2, 512):
            s.call("vouch", j, blocks[j - 1])
            s.call("vouch", j, b"wrong", expected="refused 29")
        s.call("excerpt", 2, s.replay.family.rows_of(2)[0])
        s.rewrite(400, b"")
        s.rewrite(401, b"")
        s.call("check")
        for j in (*changed, 400, 401):
            s.rewrite(j, blocks[j - 1])
        s.named()
    s.note("one block of 38,912 bytes")
    long = filler(MAX_BYTES)
    s.new(long)
    s.family(single(1))
    s.digest("sha256")
    s.draw()
    s.call("seal", expected="sealed 114")
    image = bytes.fromhex("01000100019800") + long
    assert s.replay.part[16:48] == hashlib.sha256(image).digest()
    s.accepted(s.next_number - 1)
    s.rewrite(1, b"")
    s.named(1)
    s.note("block counts at the edges; the last block, which is empty, changed")
    for spec in (single(1), plane(12), polynomial(5, 3, 125, 2), polynomial(7, 4, 126, 2),
                 halves(511, 12), polynomial(16, 3, 511, 7), halves(512, 12)):
        s.fill(*lines_of(spec.n - 1) or [b""])
        if spec.n > 1:
            s.call("add", b"", expected=f"block {spec.n}")
        s.family(spec)
        s.draw()
        s.call("seal", expected=f"sealed {82 + 32 * spec.t}")
        s.accepted(s.next_number - 1)
        s.rewrite(spec.n, b"x")
        s.named(spec.n)
        s.rewrite(spec.n, b"")
        s.named()


# Lines that are not understood.

def not_understood(s):
    key, name = KEY.hex(), NAME.hex()
    groups = {
        "a number too large": [
            "family single 65536", "family halves 65536", "family polynomial 256 3 10",
            "family polynomial 5 256 10", "family polynomial 5 3 65536",
            "family plane 65536", "choose 65536 1", "choose 1 65536", "rows 65536",
            f"key tag sha256 {key} {name} 4294967296", "seal 1048577", "check 65536",
            "check 1048576", "vouch 65536 61", "excerpt 65536 1", "excerpt 1 65536",
            "excerpt 1 1 1048577", "confirm 65536 1 61 -", "confirm 1 65536 61 -",
            "rows 18446744073709551617", "seal 4294967296"],
        "a number that is none": [
            "family single -", "family single x", "family single 0x1", "choose -1 1",
            "choose 1 +1", "rows -", f"key tag sha256 {key} {name} -",
            f"key tag sha256 {key} {name} 1.0", "seal x", "seal -", "check -", "check 1x",
            "vouch - 61", "vouch a 61", "excerpt a 1", "excerpt 1 a", "excerpt 1 1 -",
            "confirm - 1 61 -", "confirm 1 - 61 -"],
        "wrong hex": [
            "part A1", "part a", "part abc", "part --", "part 0x", "part -a", "vouch 1 6A",
            "vouch 1 616", "vouch 1 --", "confirm 1 1 6A -", "confirm 1 1 61 6A",
            "confirm 1 1 6 -", "confirm 1 1 61 616", "confirm 1 1 61 --"],
        "a wrong key or name": [
            f"key tag sha256 {key[2:]} {name} 0", f"key tag sha256 {key}00 {name} 0",
            f"key tag sha256 {key.upper()} {name} 0", f"key tag sha256 - {name} 0",
            f"key tag sha256 {key} {name[2:]} 0", f"key tag sha256 {key} {name}00 0",
            f"key tag sha256 {key} - 0", f"key tag sha256 {name} {key} 0",
            f"key tag sha256 {key} {name.upper()} 0"],
        "a wrong word": [
            "digest sha512", "digest SHA256", "digest 1", "digest -", "family",
            "family tag 3", "family Single 3", "family 1 3", "family -", "digest blake2",
            f"key mac sha256 {key} {name} 0", f"key tag md5 {key} {name} 0",
            f"key Tag sha256 {key} {name} 0", "key", "key tag", "key tag sha256",
            "Seal", "SEAL", "seals", "acept", "accepted", "named", "sealed 5", "checks"],
        "a word too few": [
            "digest", "family single", "family polynomial 5 3", "family polynomial",
            "choose", "choose 5", "rows", f"key tag sha256 {key} {name}",
            f"key tag {key} {name} 0", "vouch", "vouch 1", "vouch 61", "excerpt",
            "excerpt 1", "confirm", "confirm 1", "confirm 1 1", "confirm 1 1 61",
            "confirm 1 61 -"],
        "a word too many": [
            "digest sha256 sha256", "family single 3 3", "family plane 0 0 3",
            "family polynomial 5 3 10 1", "choose 5 1 1", "rows 1 1",
            f"key tag sha256 {key} {name} 0 0", "draw 1", "burn 1", "draw -", "seal 1 1",
            "seal -  -", "part 61 61", "accept 1", "accept -", "check 1 1", "vouch 1 61 61",
            "excerpt 1 1 1 1", "confirm 1 1 61 - -"],
        "spaces": [
            " draw", "draw ", "burn ", " burn", "seal ", " seal", "seal  5", "seal 5 ",
            "part ", "part  61", "part 61 ", "accept ", "check ", "check  5", "check 5 ",
            "vouch  1 61", "vouch 1  61", "vouch 1 61 ", "excerpt  1 1", "excerpt 1  1",
            "excerpt 1 1 ", "excerpt 1 1  9", "confirm 1 1 61 ", "confirm 1 1  61 -",
            "digest ", "digest  sha256", "digest sha256 ", "family ", "family  single 3",
            "family single  3", "family single 3 ", "choose 5 1 ", "choose  5 1",
            f"key  tag sha256 {key} {name} 0", f"key tag sha256 {key} {name} 0 ",
            f"key tag sha256  {key} {name} 0", "rows 1 ", "draw\t", "draw\r", "check\r"],
        "and would be refused if it were right": [
            "family single 0 ", "choose 0 65536", "family polynomial 6 3 65536",
            f"key tag sha256 {key} {name} 1000001 0", "vouch 0 6A", "excerpt 0 0 x",
            "confirm 0 0 6A -", "check 0 0", "seal 0 0"],
    }
    s.key(200)
    s.sealed(OPENING, *OPENING_BLOCKS)
    s.draw()
    for nothing in (b"", b"#", b"#check", b"# vouch 1 61"):
        s.raw(nothing)
    for what, lines in groups.items():
        s.note("not understood: " + what)
        for line in lines:
            line = line.encode("ascii")
            s.raw(line, line.split(b" ")[0] + b": not understood")
        s.note("and all is as it was")
        s.named()
        s.call("draw", expected="hand full")
        s.call("rows", 3, expected="rows 7 8 9")
    s.burn()
    s.note("the largest numbers, and leading zeros, are understood")
    for line, answer in (("seal 1048576", "hand empty"), ("check 65535", "named"),
                         ("check 0000000000000000000000000065535", "named"),
                         ("check 03", "named"), ("check 00", "refused 7"),
                         ("vouch 65535 -", "refused 4"), ("excerpt 65535 65535", "refused 4"),
                         ("excerpt 1 01 0001048576", "excerpt -"),
                         ("confirm 65535 65535 - -", "refused 4"),
                         ("confirm 0001 000001 610a -", "confirmed"),
                         ("rows 65535", "rows"), ("rows 0003", "rows 7 8 9"),
                         ("choose 65535 65535", "refused 5"),
                         ("family single 65535", "refused 5"),
                         ("family polynomial 255 255 65535", "refused 6"),
                         (f"key tag sha256 {key} {name} 4294967295", "refused 6")):
        line = line.encode("ascii")
        s.raw(line, line.split(b" ")[0] + b": " + answer.encode("ascii"))


def not_understood_when_missing(s):
    s.note("not understood comes before anything that is missing")
    s.call("clear", expected="ok")
    for line in ("accept 1", "check 65536", "check x", "vouch 1 6A", "vouch 1", "excerpt 1",
                 "excerpt 1 1 x", "confirm 1 1 61", "confirm 1 1 61 6A", "seal x",
                 "seal 1048577", "draw 0", "burn 0", "part A1", "rows x"):
        line = line.encode("ascii")
        s.raw(line, line.split(b" ")[0] + b": not understood")


# Random days at the bench.

class Day:
    """A random family, sheet, key and seal, and what one may do with them."""

    def __init__(self, s, rng):
        self.s, self.rng = s, rng
        self.blocks = []
        self.part = b""
        self.family = "plane 12"
        self.digest = "sha256"

    def some_bytes(self, longest=6):
        rng = self.rng
        return bytes(rng.choice(b"\n\0\x01ab\x80\xff") for _ in range(rng.randint(0, longest)))

    def some_family(self):
        rng = self.rng
        kind = rng.choice(["single", "halves", "polynomial", "polynomial", "plane"])
        if kind == "single":
            return f"single {rng.randint(1, 9)}"
        if kind == "halves":
            return f"halves {rng.choice([1, 2, 3, 4, 6, 7, 10, 11, 12])}"
        if kind == "plane":
            return f"plane {rng.randint(1, 12)}"
        q, k = rng.choice([5, 5, 5, 7, 7, 8, 8, 11, 13, 16]), rng.randint(2, 4)
        return f"polynomial {q} {k} {rng.randint(1, 14)}"

    def begin(self):
        s, rng = self.s, self.rng
        if rng.random() < 0.3:
            s.call("choose", rng.randint(1, 14), rng.choice([1, 1, 2, 2, 3, 4, 5, 6, 15]))
        else:
            s.call("family", self.some_family())
        family = s.replay.family
        self.family = {1: f"single {family.n}", 2: f"halves {family.n}",
                       3: f"polynomial {family.q} {family.k} {family.n}",
                       4: f"plane {family.n}"}[family.kind]
        self.digest = rng.choice(["sha256", "blake2s"])
        s.call("digest", self.digest)
        if rng.random() < 0.4:
            s.call("key", "tag", rng.choice(["sha256", "blake2s"]),
                   rng.choice([KEY, OTHER_KEY]), rng.choice([NAME, OTHER_NAME]),
                   rng.choice([0, 1, 300, 65535, 65536, LIMIT - 2, LIMIT - 1, LIMIT]))
        s.call("clear")
        self.blocks = [self.some_bytes() for _ in range(family.n)]
        for block in self.blocks:
            s.call("add", block)
        if rng.random() < 0.05:
            s.call("add", b"")
        self.seal()
        # A day without a seal is short of what is to be tried.
        if s.replay.accepted is None and s.replay.sheet.count() == family.n:
            s.call("key", "tag", "sha256", KEY, NAME, rng.randint(0, 9))
            s.call("burn")
            self.seal()

    def seal(self):
        s, rng = self.s, self.rng
        if s.replay.drawn is None or rng.random() < 0.3:
            s.call("draw")
        room = 82 + 32 * s.replay.family.t
        s.call(*rng.choice([("seal",)] * 3 + [("seal", room), ("seal", room - 1)]))
        if s.replay.part is not None and s.replay.accepted is None:
            self.part = s.replay.part
            self.blocks = list(s.replay.sheet.blocks)
        s.call("accept")

    def block_number(self):
        rng, count = self.rng, max(1, len(self.blocks))
        return rng.randint(1, count) if rng.random() < 0.92 else rng.choice(
            [0, count + 1, 256, 513, 65535])

    def row_number(self, j):
        rows = self.s.replay.family.rows_of(j)
        if rows and self.rng.random() < 0.85:
            return self.rng.choice(rows)
        return self.rng.choice([0, 1, 2, self.s.replay.family.t, self.s.replay.family.t + 1,
                                512, 65535])

    def sealed_block(self, j):
        return self.blocks[j - 1] if 0 < j <= len(self.blocks) else b"?"

    def offered(self, j):
        rng = self.rng
        return rng.choice([self.sealed_block(j)] * 4 + [self.some_bytes(), b""])

    def rewrite(self):
        j = self.block_number()
        self.s.call("rewrite", j, self.rng.choice(
            [self.some_bytes(), self.some_bytes(), self.sealed_block(j),
             self.sealed_block(j), self.sealed_block(j) + b"\0"]))

    def mend(self):
        """The sealed bytes back into all blocks."""
        for j, block in enumerate(self.blocks, start=1):
            if j <= self.s.replay.sheet.count() and self.s.replay.sheet.block(j) != block:
                self.s.call("rewrite", j, block)

    def check(self):
        family = self.s.replay.family
        least = min(family.d, family.n)
        self.s.call(*self.rng.choice([("check",), ("check",), ("check", least),
                                      ("check", least - 1)]))

    def vouch(self):
        j = self.block_number()
        self.s.call("vouch", j, self.offered(j))

    def excerpt(self):
        j = self.block_number()
        i = self.row_number(j)
        rooms = [(), (), (self.rng.randint(0, 40),)]
        self.s.call("excerpt", j, i, *self.rng.choice(rooms))

    def confirm(self):
        """With the excerpt of the sheet or of the sealed blocks, often changed."""
        rng = self.rng
        j = self.block_number()
        i = self.row_number(j)
        blocks = rng.choice([self.blocks, self.s.replay.sheet.blocks])
        others = [other for other in self.s.replay.family.blocks_in(i)
                  if other != j and other <= len(blocks)]
        data = bytearray(framed(blocks, others))
        change = rng.random()
        if change < 0.1 and data:
            data[rng.randrange(len(data))] ^= 1 << rng.randrange(8)
        elif change < 0.15 and data:
            del data[rng.randrange(len(data))]
        elif change < 0.2:
            data.insert(rng.randint(0, len(data)), rng.choice([0, 1, 255]))
        elif change < 0.25:
            data = data[:rng.randint(0, len(data))]
        self.s.call("confirm", j, i, self.offered(j), bytes(data))

    def change_part(self):
        """Another part, often under a right tag again, and sometimes back."""
        s, rng = self.s, self.rng
        # Long parts make long scripts.
        if s.replay.part is None or len(s.replay.part) > 3000 and rng.random() < 0.7:
            s.call("part")
            return
        part = bytearray(s.replay.part)
        change = rng.random()
        if change < 0.5 and part:
            part[rng.choice([rng.randrange(len(part)), rng.randrange(min(16, len(part)))])] = (
                rng.choice([0, 1, 2, 3, 4, 5, 255]))
        elif change < 0.6:
            part = part[:rng.randint(0, len(part))]
        elif change < 0.7:
            part += self.some_bytes()
        part = bytes(part)
        if rng.random() < 0.6 and s.replay.key.digest == b"sha256" and len(part) > 34:
            part = resigned(part, s.replay.key.key)
        s.call("part", part)
        s.call("accept")
        if rng.random() < 0.7:
            s.call(rng.choice(["check", "accept", "part"]))
            s.call("part", self.part)
            s.call("accept")

    def change_scheme(self):
        s, rng = self.s, self.rng
        if rng.random() < 0.5:
            s.call("digest", rng.choice(["sha256", "blake2s"]))
        else:
            s.call("family", self.some_family())
        rng.choice([self.check, self.vouch, self.excerpt, self.confirm])()
        s.call("digest", self.digest)
        s.call("family", self.family)

    def small_change(self):
        s, rng = self.s, self.rng
        s.call(*rng.choice([("draw",), ("burn",), ("sheet",), ("accept",), ("add", b"+"),
                            ("cut", b"a\nb"), ("rows", self.block_number()),
                            ("show", self.block_number()), ("part",), ("draw",)]))

    def spend(self, steps):
        self.begin()
        weights = {self.rewrite: 24, self.mend: 5, self.check: 18, self.vouch: 16,
                   self.excerpt: 9, self.confirm: 16, self.change_part: 6,
                   self.change_scheme: 4, self.small_change: 4, self.seal: 1}
        for _ in range(steps):
            self.rng.choices(list(weights), list(weights.values()))[0]()


def random_days(s, seed):
    rng = random.Random(seed)
    for number in range(1, 46):
        s.note(f"random day {number}, seed {seed}")
        Day(s, rng).spend(rng.randint(15, 45))


def main(arguments):
    if len(arguments) != 1:
        sys.exit(__doc__)
    seed = int(arguments[0])
    s = SealScript()
    s.note(f"seal script, seed {seed}")
    opening(s, seed)
    worked_families(s)
    keys(s)
    seals_by_hand(s)
    seal_rooms(s)
    seal_refusals(s)
    accepts(s)
    checks(s)
    vouches(s)
    vouch_refusals(s)
    part, blocks = excerpts(s)
    excerpt_refusals(s, part, blocks)
    part, blocks = confirms(s)
    wrong_excerpts(s, blocks)
    confirm_without_sheet(s, part, blocks)
    confirm_refusals(s, part, blocks)
    long_blocks(s)
    full_sheets(s)
    not_understood(s)
    not_understood_when_missing(s)
    random_days(s, seed)
    s.note("a number that is still in the hand at the end is burned")
    s.key(12)
    if s.replay.drawn is None:
        s.draw()
    # The last line has no end.
    sys.stdout.buffer.write(b"\n".join([*s.lines, b"draw"]))


if __name__ == "__main__":
    main(sys.argv[1:])
