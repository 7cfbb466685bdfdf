"""Writes a replay script that tries seals under LMS keys:

    python3 make_lms_script.py > script

Where an answer follows from the rules by hand it stands next to the call,
and the generator stops if the reference program answers otherwise. A line
that makes an LMS key costs some time, so there are few of them.
"""

import sys

import lms
from make_lms_lines import I, OTHER_I, OTHER_SEED, SEED
from make_seal_script import (HASHES, PLANE_ROWS, Part, SealScript, framed, lines_of,
                              plane, row_images, single, whole_image)
from make_sheet_script import filler

NAME = I[:8]
LIMIT = 32

SPEC = single(2)
BLOCKS = [b"A\n", b"B\n"]
ROWS = {1: (1,), 2: (2,)}
LENGTH = 50 + 32 * 2 + 1292


def part_by_hand(number, digest="sha256", **fields):
    part = Part(SPEC, row_images(SPEC, BLOCKS, ROWS), whole_image(BLOCKS), number, digest)
    return part.changed(**{"sealer": 2} | fields)


def signed(part, leaf, I=I, seed=SEED):
    return part.signed_by(lms.sign(I, seed, leaf, part.text()))


class LmsScript(SealScript):
    def lms_key(self, number=0, I=I, seed=SEED):
        self.call("key", "lms", I, seed, number,
                  expected=f"key 2 {I[:8].hex()} {number} {LIMIT - number}")
        self.next_number = number

    def refused_part(self, part, number):
        self.set_part(part)
        self.call("accept", expected=f"refused {number}")


def numbers(s):
    s.note("numbers 0 to 31, and none behind them")
    s.lms_key(30)
    for _ in range(2):
        s.draw()
        s.call("draw", expected="hand full")
        s.burn()
    s.call("draw", expected="refused 24")
    s.lms_key(31)
    s.draw()
    s.note("a next number above the limit; the key that was there stays")
    for number in (33, 34, 1_000_000, 2 ** 32 - 1):
        s.call("key", "lms", OTHER_I, SEED, number, expected="refused 6")
    s.call("draw", expected="hand full")
    s.burn()
    s.call("draw", expected="refused 24")
    s.lms_key(32)
    s.call("draw", expected="refused 24")
    s.call("burn", expected="hand empty")


def seals_by_hand(s):
    s.note("seals, byte for byte")
    for number, digest in ((0, "sha256"), (31, "blake2s"), (17, "sha256")):
        s.lms_key(number)
        s.fill(*BLOCKS)
        s.digest(digest)
        s.family(SPEC)
        s.draw()
        s.call("seal", LENGTH - 1, expected="refused 7")
        s.call("seal", LENGTH - 1292, expected="refused 7")
        s.call("seal", LENGTH, expected=f"sealed {LENGTH}")
        part = signed(part_by_hand(number, digest), number)
        s.call("part", expected="part " + part.hex())
        s.accepted(number)
        s.named()
    s.digest("sha256")
    s.note("each number in turn")
    s.lms_key()
    for number in range(LIMIT):
        s.draw()
        s.call("seal", expected=f"sealed {LENGTH}")
        assert s.replay.part == signed(part_by_hand(number), number)
        s.accepted(number)
    s.call("draw", expected="refused 24")
    s.note("what was sealed under an early number is accepted still")
    s.accept_part(signed(part_by_hand(3), 3))


def drawn_elsewhere(s):
    s.note("25: another name, a number not yet drawn; the name is I's first eight bytes")
    s.lms_key(5)
    s.draw()
    for number, some_I in ((5, I), (4, I), (0, I), (6, bytes([I[0] ^ 1]) + I[1:]),
                           (32, I[:7] + bytes([I[7] ^ 1]) + I[8:])):
        s.lms_key(number, some_I)
        s.call("seal", expected="refused 25")
        s.call("seal", 0, expected="refused 25")
    s.note("a key of the same name with another I and seed")
    s.lms_key(6, OTHER_I, OTHER_SEED)
    s.call("seal", LENGTH - 1, expected="refused 7")
    s.call("seal", expected=f"sealed {LENGTH}")
    s.accepted(5)
    s.lms_key(6)
    s.call("accept", expected="refused 9")
    s.note("a tag key of that name: names and numbers are all that is asked")
    s.draw()
    s.key(7, name=NAME)
    s.call("seal", expected="sealed 146")
    s.accepted(6)
    s.draw()
    s.lms_key(7)
    s.call("seal", expected="refused 25")
    s.lms_key(8)
    s.call("seal", expected=f"sealed {LENGTH}")
    s.accepted(7)
    s.note("a tag key's number above the tree is none that this key has drawn")
    s.key(32, name=NAME)
    s.draw()
    s.lms_key(32)
    s.call("seal", expected="refused 25")
    s.call("burn", expected="burned 32")


def not_genuine(s):
    s.note("accept: the leaf has to be the seal number")
    s.lms_key(9)
    for number, leaf in ((3, 5), (5, 3), (0, 1), (31, 30), (32, 0), (37, 5), (256, 0),
                         (2 ** 32 - 1, 31), (2 ** 31, 0)):
        s.refused_part(signed(part_by_hand(number), leaf), 9)
    s.note("accept: numbers that this key has not drawn are no matter")
    for number in (9, 20, 31):
        s.accept_part(signed(part_by_hand(number), number))
    s.note("accept: sealer kinds")
    good = part_by_hand(4)
    for kind, number in ((0, 8), (1, 9), (3, 9), (255, 9)):
        s.refused_part(signed(good.changed(sealer=kind), 4), number)
    s.refused_part(good.signed(), 9)
    s.refused_part(good.signed_by(b""), 9)
    s.refused_part(good.changed(sealer=1).signed(), 9)
    s.note("accept: other keys")
    part = signed(good, 4)
    s.refused_part(signed(good, 4, OTHER_I), 9)
    s.refused_part(signed(good, 4, I, OTHER_SEED), 9)
    s.accept_part(part)
    s.key(10)
    s.call("accept", expected="refused 9")
    s.set_part(good.changed(sealer=1).signed())
    s.accepted(4)
    s.lms_key(0, I, OTHER_SEED)
    s.call("accept", expected="refused 9")
    s.set_part(part)
    s.call("accept", expected="refused 9")
    s.lms_key(32)
    s.accepted(4)
    s.note("accept: the text changed in each field, the signature as it was")
    for place in (*range(16), 16, 47, 48, 79, 80, 111):
        changed = bytearray(part)
        changed[place] ^= 2 if place in (0, 8, 10) else 1
        # n and d become 514, t 514 and 3, two kinds 0, place 7 01.
        s.refused_part(bytes(changed), 8 if place in (0, 2, 5, 7, 8, 10, 11) else 9)
    s.note("accept: signatures changed, cut and lengthened")
    signature = part[-1292:]
    for place in (0, 3, 4, 7, 8, 39, 40, 1127, 1128, 1131, 1132, 1163, 1291):
        changed = bytearray(signature)
        changed[place] ^= 4
        s.refused_part(good.signed_by(bytes(changed)), 9)
    for other in (signature[:-1], signature[1:], signature + b"\0", signature[:1260],
                  signature[:4], signature * 2, filler(1292), bytes(1292)):
        s.refused_part(good.signed_by(other), 9)
    s.refused_part(part[:-1], 8)
    s.refused_part(part + b"\0", 8)
    s.refused_part(part[:112] + b"\x05\x0b" + part[114:], 8)
    s.refused_part(part[:112] + b"\x05\x0d" + part[114:], 8)


def days(s):
    s.note("check, vouch, excerpt and confirm under an LMS key")
    blocks = lines_of(12)
    for digest in HASHES:
        s.lms_key(12)
        s.fill(*blocks)
        s.digest(digest)
        s.family(plane(12))
        s.draw()
        s.call("seal", expected=f"sealed {50 + 32 * 9 + 1292}")
        s.accepted(12)
        s.named()
        s.rewrite(8, b"other")
        s.rewrite(4, b"")
        s.named(4, 8)
        s.call("vouch", 1, blocks[0], expected="row 3 length 19")
        s.call("vouch", 4, blocks[3], expected="row 1 length 19")
        s.call("vouch", 4, b"", expected="refused 29")
        data = framed(blocks, [j for j in PLANE_ROWS[3] if j != 1])
        s.call("excerpt", 1, 3, expected="excerpt " + data.hex())
        s.call("confirm", 1, 3, blocks[0], data, expected="confirmed")
        s.call("confirm", 1, 3, b"0\n", data, expected="refused 12")
        part = s.replay.part
        file = framed(s.replay.sheet.blocks, range(1, 13)) + part
        file += (len(part) + 8).to_bytes(4, "big") + bytes.fromhex("00014254")
        s.call("pack", expected="file " + file.hex())
        s.call("clear", expected="ok")
        s.call("unpack", file, expected=f"part {len(file) - 8 - len(part)} {len(part)}")
        s.accepted(12)
        s.named(4, 8)
    s.digest("sha256")


def not_understood(s):
    i, seed = I.hex(), SEED.hex()
    s.note("not understood")
    for line in ("key lms", f"key lms {i}", f"key lms {i} {seed}", f"key lms {i} {seed} 0 0",
                 f"key lms {i} {seed} 4294967296", f"key lms {i} {seed} -",
                 f"key lms {i} {seed} x", f"key lms {i[2:]} {seed} 0",
                 f"key lms {i}00 {seed} 0", f"key lms {seed} {i} 0", f"key lms - {seed} 0",
                 f"key lms {i} - 0", f"key lms {i} {seed[2:]} 0", f"key lms {i} {seed}00 0",
                 f"key lms {i.upper()} {seed} 0", f"key lms {i} {seed.upper()} 0",
                 f"key  lms {i} {seed} 0", f"key lms  {i} {seed} 0", f"key lms {i} {seed}  0",
                 f"key lms {i} {seed} 0 ", f"key LMS {i} {seed} 0", f"key lm {i} {seed} 0",
                 f"key lms sha256 {i} {seed} 0", f"key tag {i} {seed} 0",
                 f"key tag sha256 {i} {seed} 0"):
        s.raw(line.encode("ascii"), b"key: not understood")
    s.note("and the key is as it was")
    s.lms_key(2)
    s.raw(f"key lms {i} {seed} 4294967296".encode("ascii"), b"key: not understood")
    s.call("key", "lms", I, SEED, 4294967295, expected="refused 6")
    s.raw(f"key lms {i} {seed} 00031".encode("ascii"),
          f"key: key 2 {NAME.hex()} 31 1".encode("ascii"))
    s.next_number = 31
    s.draw()


def main(arguments):
    if arguments:
        sys.exit(__doc__)
    s = LmsScript()
    s.note("seals under LMS keys")
    s.call("key", "lms", I, SEED, 33, expected="refused 6")
    s.call("draw", expected="no key")
    numbers(s)
    seals_by_hand(s)
    drawn_elsewhere(s)
    not_genuine(s)
    days(s)
    not_understood(s)
    # A number is in the hand at the end, and the last line has no end.
    sys.stdout.buffer.write(b"\n".join([*s.lines, b"sheet"]))


if __name__ == "__main__":
    main(sys.argv[1:])
