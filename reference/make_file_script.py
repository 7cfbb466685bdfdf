"""Writes a replay script that tries sealed files, most of them spoiled:

    python3 make_file_script.py SEED > script

Files are put together here by hand. Where an answer follows from the rules by
hand it stands next to the call, and the generator stops if the reference
program answers otherwise; so it does where a file that was unpacked is not
packed to the very same bytes again.
"""

import random
import sys

from make_seal_script import (KEY, PLANE_ROWS, Part, SealScript, framed, halves, lines_of,
                              plane, polynomial, row_images, single, subsets, whole_image)
from make_sheet_script import filler
from sheet import MAX_BYTES

MAGIC = bytes.fromhex("00014254")


def file_of(frames, part, distance=None, magic=MAGIC):
    """The distance is the right one where none is given."""
    if distance is None:
        distance = len(part) + 8
    return frames + part + bytes.fromhex(f"{distance:08x}") + magic


def part_of(spec, blocks, rows):
    return Part(spec, row_images(spec, blocks, rows), whole_image(blocks), number=9)


def all_framed(blocks):
    return framed(blocks, range(1, len(blocks) + 1))


class FileScript(SealScript):
    def unpacks(self, file, place, *blocks):
        """Onto a new sheet; the blocks are known by hand."""
        self.call("clear", expected="ok")
        self.call("unpack", file, expected=f"part {place} {len(file) - 8 - place}")
        self.look(*blocks)
        self.call("part", expected="part " + file[place:-8].hex())
        self.call("check", expected="not accepted")
        self.call("pack", expected="file " + file.hex())

    def spoiled(self, file):
        """Refused; the sheet is left empty and there is still no part."""
        if self.replay.sheet.count() > 0 or self.replay.part is not None:
            self.call("clear", expected="ok")
        self.call("unpack", file, expected="refused 8")

    def still_empty(self):
        self.call("sheet", expected="blocks 0 total 0")
        self.call("part", expected="no part")

    def tried(self, file):
        """Whatever it is; what can be unpacked is packed to the same file."""
        self.call("clear", expected="ok")
        self.call("unpack", file)
        self.call("sheet")
        if self.replay.part is not None:
            self.call("pack", expected="file " + file.hex())


# The small file that most trials begin with: blocks 41 and empty.
SPEC = single(2)
BLOCKS = [b"A", b""]
ROWS = {1: (1,), 2: (2,)}
FRAMES = bytes.fromhex("0001000141" "00020000")
GOOD = part_of(SPEC, BLOCKS, ROWS)
PART = GOOD.signed()
FILE = file_of(FRAMES, PART)


def missing(s):
    s.note("no part comes first, whatever else there is to say")
    s.call("pack", expected="no part")
    s.call("pack", 0, expected="no part")
    s.new(*BLOCKS)
    s.call("pack", expected="no part")
    for line in ("pack x", "pack -", "pack 1048577", "pack ", " pack", "pack 1 1", "pack  1",
                 "unpack", "unpack 6A", "unpack 6", "unpack ", "unpack  61", "unpack 61 61",
                 "unpack --", "Pack", "packs", "unpack 61 "):
        line = line.encode("ascii")
        s.raw(line, line.split(b" ")[0] + b": not understood")
    s.note("22 comes before 8; one empty block is not nothing")
    for file in (b"", FILE, FILE[:-1]):
        s.call("unpack", file, expected="refused 22")
    s.look(*BLOCKS)
    s.call("part", expected="no part")
    s.new(b"")
    s.call("unpack", FILE, expected="refused 22")
    s.call("unpack", b"", expected="refused 22")
    s.look(b"")


def packs(s):
    cases = [
        (single(1), [b""], {1: (1,)}),
        (single(1), [b"AB"], {1: (1,)}),
        (SPEC, BLOCKS, ROWS),
        (halves(1, 2), [b"\n"], {1: (1,)}),
        (halves(6, 4), lines_of(6), {1: (1, 2, 4), 2: (1, 3, 5), 3: (2, 3, 6), 4: (4, 5, 6)}),
        (plane(12), lines_of(12), PLANE_ROWS),
        (plane(12), [b""] * 12, PLANE_ROWS),
        (polynomial(5, 3, 1, 2), [b"x" * 300], {i: (1,) for i in (1, 6, 11, 16, 21)}),
    ]
    s.key()
    for spec, blocks, rows in cases:
        s.note(f"pack and unpack: {spec.line}")
        part = part_of(spec, blocks, rows).signed()
        file = file_of(all_framed(blocks), part)
        s.fill(*blocks)
        s.set_part(part)
        s.note("no acceptance is asked for")
        s.call("pack", expected="file " + file.hex())
        s.accepted(9)
        for room, answer in ((0, "refused 7"), (8, "refused 7"), (len(file) - 1, "refused 7"),
                             (len(file), "file " + file.hex()),
                             (len(file) + 1, "file " + file.hex()),
                             (1048576, "file " + file.hex())):
            s.call("pack", room, expected=answer)
        s.note("pack leaves the acceptance")
        s.family(spec)
        s.named()
        s.unpacks(file, len(file) - len(part) - 8, *blocks)
        s.accepted(9)
        s.named()
        s.note("a changed sheet is packed too, and told after it was unpacked")
        s.rewrite(len(blocks), b"changed")
        s.named(len(blocks))
        changed = [*blocks[:-1], b"changed"]
        file = file_of(all_framed(changed), part)
        s.call("pack", expected="file " + file.hex())
        s.unpacks(file, len(file) - len(part) - 8, *changed)
        s.accepted(9)
        s.named(len(blocks))
        s.rewrite(len(blocks), blocks[-1])
        s.named()


def pack_refusals(s):
    s.note("pack: 23, 8, 27, 7 in this order, all causes at once and apart")
    for chosen in subsets(("empty", "part", "count", "room")):
        if "empty" in chosen:
            s.call("clear", expected="ok")
        else:
            s.new(*BLOCKS, *[b"more"] * ("count" in chosen))
        part = PART[:-1] if "part" in chosen else PART
        s.set_part(part)
        answer = "file " + FILE.hex()
        for cause, number in (("room", 7), ("count", 27), ("part", 8), ("empty", 23)):
            answer = f"refused {number}" if cause in chosen else answer
        s.call("pack", len(FILE) - 1 if "room" in chosen else len(FILE), expected=answer)
        s.call("part", expected="part " + part.hex())
    s.note("pack: a part of another count")
    s.new(*BLOCKS)
    for n in (1, 3, 258, 512):
        s.set_part(GOOD.changed(n=n).signed())
        s.call("pack", expected="refused 27")
    s.note("pack: form and count are looked at, and nothing else of the part")
    others = [GOOD.changed(kind=200), GOOD.changed(q=1, k=255), GOOD.changed(digest=77),
              GOOD.changed(sealer=3), GOOD.changed(d=512), GOOD.changed(number=2 ** 32 - 1),
              GOOD.with_rows(1), GOOD.with_rows(5)]
    parts = [other.signed() for other in others]
    parts += [GOOD.signed_by(b""), GOOD.signed_by(bytes(40)), GOOD.signed_by(PART[-32:-1])]
    for part in parts:
        s.new(*BLOCKS)
        s.set_part(part)
        s.call("pack", expected="file " + file_of(FRAMES, part).hex())
        s.unpacks(file_of(FRAMES, part), 9, *BLOCKS)
    s.note("pack: no part of the right form")
    for part in malformed_parts():
        s.new(*BLOCKS)
        s.set_part(part)
        s.call("pack", expected="refused 8")
        s.call("pack", 0, expected="refused 8")


def malformed_parts():
    changed = [GOOD.changed(n=0), GOOD.changed(n=513), GOOD.changed(n=65535), GOOD.changed(d=0),
               GOOD.changed(d=513), GOOD.changed(t=0), GOOD.changed(t=1), GOOD.changed(t=3),
               GOOD.with_rows(0), GOOD.with_rows(513), GOOD.changed(kind=0),
               GOOD.changed(digest=0), GOOD.changed(sealer=0), GOOD.changed(zero=1),
               GOOD.changed(zero=255)]
    parts = [other.signed() for other in changed]
    parts += [PART[:length] for length in (0, 1, 2, 15, 16, 17, 48, 49, 50, 111, 112, 113, 114)]
    parts += [PART[:-1], PART + b"\0", PART + PART, PART[1:]]
    parts += [PART[:-34] + bytes.fromhex(f"{length:04x}") + PART[-32:]
              for length in (0, 1, 31, 33, 288, 8192, 65535)]
    return parts


def what_stays(s):
    s.note("what a refused unpack leaves, and what one that passes takes")
    s.key()
    s.family(SPEC)
    s.call("clear", expected="ok")
    s.set_part(PART)
    s.accepted(9)
    s.call("unpack", FILE[:-1], expected="refused 8")
    s.call("unpack", b"", expected="refused 8")
    s.call("sheet", expected="blocks 0 total 0")
    s.call("part", expected="part " + PART.hex())
    s.call("confirm", 1, 1, b"A", b"", expected="confirmed")
    other = file_of(FRAMES, GOOD.changed(number=11).signed())
    s.call("unpack", other, expected=f"part 9 {len(PART)}")
    s.call("confirm", 1, 1, b"A", b"", expected="not accepted")
    s.call("unpack", FILE, expected="refused 22")
    s.accepted(11)
    s.call("unpack", FILE, expected="refused 22")
    s.named()
    s.note("a number in the hand stays there, and so do digest and family")
    s.draw()
    s.call("clear", expected="ok")
    s.call("unpack", FILE, expected=f"part 9 {len(PART)}")
    s.call("draw", expected="hand full")
    s.accepted(9)
    s.named()
    s.burn()
    s.note("blocks can be rewritten and added after unpack")
    s.call("rewrite", 2, b"new", expected="total 4")
    s.call("add", b"third", expected="block 3")
    s.call("pack", expected="refused 27")
    s.look(b"A", b"new", b"third")


# Spoiled files.

def trailers(s):
    s.note("files shorter than a trailer, and only a trailer")
    whole_trailer = FILE[-8:]
    for length in range(8):
        s.spoiled(whole_trailer[8 - length:])
        s.spoiled(MAGIC[:length] + bytes(length))
    for distance in (0, 1, 4, 7, 8, 9, 16, 2 ** 31, 2 ** 32 - 1, 2 ** 32 - 8):
        s.spoiled(file_of(b"", b"", distance))
    s.note("a seal part and a trailer, and no frame")
    s.spoiled(file_of(b"", PART))
    s.spoiled(PART)
    s.spoiled(FRAMES + PART)
    s.spoiled(FRAMES)
    s.still_empty()
    s.note("distances: the trailer's eight bytes count")
    length = len(FILE)
    right = len(PART) + 8
    s.unpacks(FILE, 9, *BLOCKS)
    distances = [*range(12), right - 8, right - 4, right - 1, right + 1, right + 4, right + 8,
                 length - 9, length - 8, length - 1, length, length + 1, length + 8, 255, 256,
                 65535, 65536, 2 ** 24, 2 ** 31 - 1, 2 ** 31, 2 ** 31 + right,
                 length + right, 2 * length, 2 ** 32 - length, 2 ** 32 - right,
                 2 ** 32 - 9, 2 ** 32 - 8, 2 ** 32 - 1, right + 256, right + 65536,
                 right * 256, right << 24]
    for distance in distances:
        if distance != right:
            s.spoiled(file_of(FRAMES, PART, distance))
    s.note("every distance up to the file's length")
    for distance in range(length + 3):
        if distance != right:
            s.spoiled(file_of(FRAMES, PART, distance))
    s.still_empty()
    s.note("other bytes at the end")
    for place in range(4):
        for value in (0x00, 0x01, 0x42, 0x54, 0x55, 0xFF):
            magic = MAGIC[:place] + bytes([value]) + MAGIC[place + 1:]
            if magic != MAGIC:
                s.spoiled(file_of(FRAMES, PART, magic=magic))
    for magic in (b"", MAGIC[:3], MAGIC[1:], MAGIC[::-1], MAGIC + b"\0", MAGIC + MAGIC,
                  b"\x00\x01BR", b"BT\x00\x01", b"\x00\x02BT", b"\x00\x01bt"):
        s.spoiled(file_of(FRAMES, PART, magic=magic))
    s.still_empty()


def part_in_file(s):
    s.note("a seal part that is none, and one of a wrong length")
    for part in malformed_parts():
        s.spoiled(file_of(FRAMES, part))
    for n in (1, 3, 258, 512):
        s.spoiled(file_of(FRAMES, GOOD.changed(n=n).signed()))
    s.still_empty()
    s.note("other kinds, tags and numbers are none of the file's business")
    for part in (GOOD.changed(kind=200, q=9, k=9).signed(), GOOD.changed(sealer=2).signed(),
                 GOOD.changed(number=2 ** 32 - 1).signed(), GOOD.signed_by(b""),
                 GOOD.signed_by(bytes(32)), GOOD.signed_by(filler(1292)),
                 GOOD.with_rows(1).signed(), GOOD.with_rows(20).signed()):
        s.unpacks(file_of(FRAMES, part), 9, *BLOCKS)
    s.note("bytes before the part, and frames that reach into it")
    for between in (b"\0", bytes(2), bytes(3), bytes(4), bytes(5), b"\xff", PART, FRAMES,
                    bytes.fromhex("00030000"), bytes.fromhex("0003000141"),
                    bytes.fromhex("00000000"), bytes.fromhex("00020000")):
        s.spoiled(file_of(FRAMES + between, PART))
        s.spoiled(file_of(between + FRAMES, PART))
    for length in (1, 2, 3, 4, 8, len(PART) - 1, len(PART), len(PART) + 1, len(PART) + 7,
                   len(PART) + 8, len(PART) + 9, 38912, 38913, 65535):
        s.spoiled(file_of(FRAMES[:-2] + bytes.fromhex(f"{length:04x}"), PART))
        s.spoiled(file_of(FRAMES[:2] + bytes.fromhex(f"{length + 1 & 65535:04x}")
                          + FRAMES[4:], PART))
    s.still_empty()


def frames_in_file(s):
    s.note("blocks that are not 1 to n, in this order and once each")
    three = [b"a", b"", b"ccc"]
    part = part_of(single(3), three, {1: (1,), 2: (2,), 3: (3,)}).signed()
    s.unpacks(file_of(framed(three, (1, 2, 3)), part), 16, *three)
    for numbers in ((), (1,), (2,), (1, 2), (2, 3), (1, 3), (1, 3, 2), (2, 1, 3), (3, 2, 1),
                    (1, 1, 2, 3), (1, 2, 2, 3), (1, 2, 3, 3), (1, 1, 1), (1, 2, 2), (1, 2, 3, 1),
                    (2, 3, 1), (3, 1, 2), (1, 2, 3, 1, 2, 3)):
        s.spoiled(file_of(framed(three, numbers), part))
    for one, two, last in ((0, 1, 2), (2, 3, 4), (1, 2, 4), (0, 2, 3), (1, 258, 3), (257, 2, 3),
                           (1, 2, 259), (256, 512, 768), (65535, 2, 3)):
        frames = b"".join(bytes.fromhex(f"{number:04x}{len(block):04x}") + block
                          for number, block in zip((one, two, last), three))
        s.spoiled(file_of(frames, part))
    s.note("frames with number and length exchanged, or with their low bytes first")
    s.spoiled(file_of(bytes.fromhex("000100016100000002000300036363" "63"), part))
    s.spoiled(file_of(bytes.fromhex("01000100610200000003000300636363"), part))
    s.note("a frame cut in its middle")
    frames = framed(three, (1, 2, 3))
    for length in range(len(frames)):
        s.spoiled(file_of(frames[:length], part))
    s.still_empty()


def totals(s):
    s.note("38,912 block bytes pass, 38,913 do not, in one block or in more")
    one = part_of(single(1), [b""], {1: (1,)}).signed()
    file = file_of(framed([filler(MAX_BYTES)], (1,)), one)
    s.call("clear", expected="ok")
    s.call("unpack", file, expected=f"part {MAX_BYTES + 4} {len(one)}")
    s.call("sheet", expected=f"blocks 1 total {MAX_BYTES}")
    s.call("add", b"x", expected="refused 21")
    s.call("rewrite", 1, b"", expected="total 0")
    s.spoiled(file_of(framed([filler(MAX_BYTES + 1)], (1,)), one))
    s.still_empty()
    for last in (1, 2):
        blocks = [filler(MAX_BYTES - 1), bytes(last)]
        file = file_of(framed(blocks, (1, 2)), PART)
        if last == 2:
            s.spoiled(file)
        else:
            s.call("clear", expected="ok")
            s.call("unpack", file, expected=f"part {MAX_BYTES + 8} {len(PART)}")
            s.call("show", 2, expected="block 00")
            s.call("sheet", expected=f"blocks 2 total {MAX_BYTES}")
    s.spoiled(file_of(framed([filler(MAX_BYTES), b"x"], (1, 2)), PART))
    s.spoiled(file_of(framed([filler(65535)], (1,)), one))


def full_files(s):
    s.note("512 blocks of 76 bytes in 512 rows")
    blocks = [b"%04d " % j + filler(83)[j % 13:j % 13 + 70] + b"\n" for j in range(1, 513)]
    assert sum(map(len, blocks)) == MAX_BYTES
    s.fill(*blocks)
    spec = single(512)
    s.family(spec)
    s.key()
    s.draw()
    s.call("seal", expected=f"sealed {82 + 32 * 512}")
    part = s.replay.part
    file = file_of(all_framed(blocks), part)
    s.call("pack", len(file) - 1, expected="refused 7")
    s.call("pack", len(file), expected="file " + file.hex())
    s.call("clear", expected="ok")
    s.call("unpack", file, expected=f"part {512 * 4 + MAX_BYTES} {len(part)}")
    s.call("sheet", expected=f"blocks 512 total {MAX_BYTES}")
    for j in (1, 2, 255, 256, 257, 511, 512):
        s.call("show", j, expected="block " + blocks[j - 1].hex())
    s.accepted(0)
    s.named()
    s.note("512 empty blocks, one of them missing, one too many")
    part = Part(halves(512, 12), [b""] * 12, b"").signed()
    for count, passes in ((511, False), (512, True), (513, False)):
        file = file_of(all_framed([b""] * count), part)
        if passes:
            s.call("clear", expected="ok")
            s.call("unpack", file, expected=f"part 2048 {len(part)}")
            s.call("sheet", expected="blocks 512 total 0")
            s.call("pack", expected="file " + file.hex())
        else:
            s.spoiled(file)
    s.note("the longest signature")
    part = GOOD.signed_by(filler(65535))
    s.call("clear", expected="ok")
    s.call("unpack", file_of(FRAMES, part), expected=f"part 9 {len(part)}")
    s.call("accept", expected="refused 9")


def each_place(s):
    s.note("each byte of a file changed")
    # Places of a file that may hold other bytes: block 1's byte, family kind,
    # q, k, digest and sealer kind, the low byte of d, the seal number, the
    # digests and the signature.
    free = {4, *range(11, 16), 18, *range(21, 121), *range(123, 155)}
    for place in range(len(FILE)):
        values = {FILE[place] ^ 0x01, FILE[place] ^ 0x80, 0x00, 0x02, 0xFF} - {FILE[place]}
        for value in sorted(values):
            file = FILE[:place] + bytes([value]) + FILE[place + 1:]
            # Kinds of 0 and a strength of 0 are no seal part.
            if place in free and not (value == 0 and place in (11, 14, 15, 18)):
                s.call("clear", expected="ok")
                s.call("unpack", file, expected=f"part 9 {len(PART)}")
                s.call("pack", expected="file " + file.hex())
            elif place == 17:
                # The high byte of d: 01 gives 258, and 02 gives 514.
                s.tried(file)
            else:
                s.spoiled(file)
    s.note("each byte of a file left out, doubled, and bytes put in")
    for place in range(len(FILE)):
        s.spoiled(FILE[:place] + FILE[place + 1:])
        for byte in (FILE[place:place + 1], b"\x00", b"\xff"):
            s.spoiled(FILE[:place] + byte + FILE[place:])
    for tail in (b"\0", b"\xff", MAGIC, FILE[-8:], FILE):
        s.spoiled(FILE + tail)
        s.spoiled(tail + FILE)
    s.note("a file cut at each place, from either end")
    for place in range(len(FILE)):
        s.spoiled(FILE[:place])
        s.spoiled(FILE[place + 1:])
    s.still_empty()


def put_in_and_distance_too(s):
    s.note("a byte put in or left out, and the distance made right again")
    for place in range(len(FILE) - 7):
        for value in (0x00, 0x01, 0x41):
            body = FILE[:-8]
            longer = body[:place] + bytes([value]) + body[place:]
            # The byte goes to the frames or to the part.
            for frames in {9, 10} if place in (9, 10) else {10 if place < 9 else 9}:
                s.tried(file_of(longer[:frames], longer[frames:]))
        shorter = FILE[:place] + FILE[place + 1:-8]
        frames = 8 if place < 9 else 9
        s.tried(file_of(shorter[:frames], shorter[frames:]))
    s.note("a byte more or less in block 1 and in the signature, with their lengths")
    for block in (b"", b"AA", b"A" * 257):
        s.unpacks(file_of(framed([block, b""], (1, 2)), PART), 8 + len(block), block, b"")
    for signature in (b"", bytes(31), bytes(33), bytes(257)):
        s.unpacks(file_of(FRAMES, GOOD.signed_by(signature)), 9, *BLOCKS)
    s.note("a whole file as a block, and as a signature")
    s.unpacks(file_of(framed([FILE, b""], (1, 2)), PART), 8 + len(FILE), FILE, b"")
    s.unpacks(file_of(FRAMES, GOOD.signed_by(FILE)), 9, *BLOCKS)


# Random files.

def random_file(rng):
    """Frames and a part that mostly fit together."""
    spec, rows = rng.choice([(single(1), {1: (1,)}), (SPEC, ROWS),
                             (halves(3, 3), {1: (1,), 2: (2,), 3: (3,)}),
                             (plane(4), PLANE_ROWS)])
    blocks = [bytes(rng.choice(b"\0\x01\x02A\xff") for _ in range(rng.randint(0, 5)))
              for _ in range(spec.n)]
    rows = {i: [j for j in holds if j <= spec.n] for i, holds in rows.items()}
    return blocks, part_of(spec, blocks, rows)


def random_files(s, seed):
    rng = random.Random(seed)
    s.note(f"random files, seed {seed}")
    for _ in range(500):
        blocks, part = random_file(rng)
        change = rng.random()
        if change < 0.15:
            field = rng.choice(["n", "d", "t", "kind", "digest", "sealer", "zero", "number"])
            part = part.changed(**{field: rng.choice([0, 1, 2, 3, 4, 9, 255])})
        data = part.signed(rng.choice([KEY, bytes(32)]))
        if change < 0.25:
            data = part.signed_by(bytes(rng.randint(0, 40)))
        frames = bytearray(all_framed(blocks))
        for _ in range(rng.choice([0, 0, 1, 1, 2])):
            place = rng.randrange(len(frames))
            what = rng.random()
            if what < 0.4:
                frames[place] = rng.choice([0, 1, 2, 3, 4, 255])
            elif what < 0.6 and len(frames) > 1:
                del frames[place]
            elif what < 0.8:
                frames.insert(place, rng.choice([0, 1, 2, 65]))
        distance = len(data) + 8
        if rng.random() < 0.1:
            distance += rng.choice([-9, -8, -4, -1, 1, 4, 5, 8, 9])
        s.tried(file_of(bytes(frames), data, distance))
    s.note(f"random bytes before a trailer, seed {seed}")
    for _ in range(200):
        body = bytes(rng.choice(b"\0\x01\x02\xff") for _ in range(rng.randint(0, 140)))
        s.spoiled(file_of(body, b"", rng.randint(0, len(body) + 9)))


def main(arguments):
    if len(arguments) != 1:
        sys.exit(__doc__)
    seed = int(arguments[0])
    s = FileScript()
    s.note(f"file script, seed {seed}")
    missing(s)
    packs(s)
    pack_refusals(s)
    what_stays(s)
    trailers(s)
    part_in_file(s)
    frames_in_file(s)
    totals(s)
    full_files(s)
    each_place(s)
    put_in_and_distance_too(s)
    random_files(s, seed)
    s.note("the last line has no end")
    s.lines.append(b"sheet")
    sys.stdout.buffer.write(b"\n".join(s.lines))


if __name__ == "__main__":
    main(sys.argv[1:])
