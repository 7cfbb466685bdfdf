"""Writes lines of calls on the library for C, most of them refused:

    python3 make_embedding_lines.py SEED > lines
    python3 make_embedding_lines.py answers < lines

The second gives what each should answer. Both are by the modules beside this
one alone. A line is a call and its arguments in order: bytes in hex, "-" for
none, and numbers in decimal; for a buffer or a list that is written to stands
its room alone. An answer is the status, then every number that is written to,
which was 7777 before, and what stands in front of the buffer. Behind it all is
kept. A line that begins with "starved" finds no memory.
"""

import random
import sys

import files
import seals
from families import Halves, Plane, Polynomial, Single, choose
from seals import DIGESTS, OTHER_SCHEME, TOO_MANY_SUSPECTS, Drawn
from sheet import MAX_BYTES, Refused, Sheet
from tags import TagInspector, TagKey, make_tag

BEFORE = 7777
NO_SUCH_PARAMETER = 6
STARVED = 255

WORDS = {1: b"sha256", 2: b"blake2s"}


# What the library should answer.

def key_of(digest, secret):
    """The word of the key's digest."""
    if digest not in WORDS or len(secret) != 32:
        raise Refused(NO_SUCH_PARAMETER)
    return WORDS[digest]


def scheme_of(seal):
    """The family and the digest that a seal part names."""
    makers = {1: lambda: Single(seal.n), 2: lambda: Halves(seal.n),
              3: lambda: Polynomial(seal.q, seal.k, seal.n), 4: lambda: Plane(seal.n)}
    if seal.digest not in WORDS or seal.kind not in makers:
        raise Refused(OTHER_SCHEME)
    try:
        return makers[seal.kind](), DIGESTS[WORDS[seal.digest]]
    except Refused:
        raise Refused(OTHER_SCHEME)


class OutOfMemory(Exception):
    pass


class Library:
    """Each call gives the numbers that it writes to, as a list, the count of
    those that it has, and what it writes in front of a buffer."""

    def __init__(self, starved):
        self.starved = starved

    def new_sheet(self):
        # Every call but confirm needs a sheet, and asks for it once its
        # parameters are good.
        if self.starved:
            raise OutOfMemory
        return Sheet()

    def open(self, file, digest, secret):
        word = key_of(digest, secret)
        sheet = self.new_sheet()
        _, part = files.unpack(sheet, file)
        seal = seals.accept(part, TagInspector(word, secret))
        family, made_by = scheme_of(seal)
        return sheet, seal, family, made_by

    def seal(self, text, digest, changes, secret, name, number, room):
        word = key_of(digest, secret)
        if len(name) != 8:
            raise Refused(NO_SUCH_PARAMETER)
        sheet = self.new_sheet()
        count = sheet.cut(text)
        family = choose(count, changes)
        key = TagKey(word, secret, name, number)
        drawn = Drawn(name, key.draw())
        part = seals.seal(sheet, family, DIGESTS[word], key, drawn, 82_001)
        file = files.pack(sheet, part, room)
        return [len(file)], file

    def pack(self, text, part, room):
        sheet = self.new_sheet()
        sheet.cut(text)
        file = files.pack(sheet, part, room)
        return [len(file)], file

    def unpack(self, file):
        place, part = files.unpack(self.new_sheet(), file)
        return [place, len(part)], None

    def check(self, file, digest, secret, places):
        sheet, seal, family, made_by = self.open(file, digest, secret)
        named = seals.check(sheet, seal, family, made_by, places)
        return [len(named), seal.number], named

    def vouch(self, file, digest, secret, block, offered):
        sheet, seal, family, made_by = self.open(file, digest, secret)
        return list(seals.vouch(sheet, seal, family, made_by, block, offered)), None

    def excerpt(self, file, digest, secret, block, row, room):
        sheet, seal, family, _ = self.open(file, digest, secret)
        data = seals.excerpt(sheet, seal, family, block, row, room)
        return [len(data)], data

    def confirm(self, part, digest, secret, block, row, offered, excerpt):
        word = key_of(digest, secret)
        seal = seals.accept(part, TagInspector(word, secret))
        family, made_by = scheme_of(seal)
        seals.confirm(seal, family, made_by, block, row, offered, excerpt)
        return [], None


# The arguments of each call, b for bytes and n for a number; how many numbers
# it writes to; and what it writes in front of a buffer.
CALLS = {
    "seal": ("bnnbbnn", 1, "bytes"),
    "pack": ("bbn", 1, "bytes"),
    "unpack": ("b", 2, None),
    "check": ("bnbn", 2, "list"),
    "vouch": ("bnbnb", 2, None),
    "excerpt": ("bnbnnn", 1, "bytes"),
    "confirm": ("bnbnnbb", 0, None),
}


def hex_of(data):
    return data.hex() or "-"


def answer(line):
    words = line.split(" ")
    starved = words[0] == "starved"
    name, *words = words[starved:]
    kinds, count, buffer = CALLS[name]
    assert len(words) == len(kinds)
    arguments = [int(word) if kind == "n" else bytes.fromhex(word.strip("-"))
                 for kind, word in zip(kinds, words)]
    status, numbers, front = 0, [BEFORE] * count, None
    try:
        numbers, front = getattr(Library(starved), name)(*arguments)
    except OutOfMemory:
        status = STARVED
    except Refused as refused:
        status = refused.number
        if status == TOO_MANY_SUSPECTS:
            numbers[0] = int(str(refused).split()[-1])
    told = [str(status), *map(str, numbers)]
    if buffer == "bytes":
        told += [hex_of(front or b""), "kept"]
    if buffer == "list":
        told += [*map(str, front or []), "kept"]
    return " ".join(told)


# The lines.

class Maker:
    def __init__(self, seed):
        self.random = random.Random(seed)
        self.lines = []

    def say(self, name, *arguments):
        words = [str(a) if isinstance(a, int) else hex_of(a) for a in arguments]
        starved = ["starved"] if self.random.random() < 0.02 else []
        self.lines.append(" ".join([*starved, name, *words]))

    def some(self, length):
        return self.random.randbytes(length)

    def usually(self, good, *others, share=0.93):
        return good if self.random.random() < share else self.random.choice(others)

    def text(self, count):
        """So many lines; some are empty but for their 0A, the last may lack it."""
        pieces = []
        for _ in range(count):
            length = self.random.choice((0, 1, 2, 5, 9, 30))
            pieces.append(self.some(length).replace(b"\n", b"\r") + b"\n")
        text = b"".join(pieces)
        if self.random.random() < 0.3 and len(pieces[-1]) > 1:
            text = text[:-1]
        return text

    def secret_given(self, secret):
        return self.usually(secret, secret[:-1], secret + b"\0", b"", self.some(32))

    def digest_given(self, digest):
        return self.usually(digest, 0, 3, 255, 3 - digest)

    def room_given(self, needed):
        return self.random.choice((needed, needed, needed + 1, needed + 9, 130_000,
                                   max(needed - 1, 0), needed // 2, 0))

    # A file, sealed here.

    def family(self):
        """With a few blocks mostly, so that lines stay short."""
        kind = self.random.choice("single halves plane polynomial polynomial".split())
        n = self.random.randint(1, 12)
        if kind == "plane":
            return Plane(n)
        n = self.usually(n, 25, 70, share=0.8)
        if kind == "polynomial":
            q, k = self.random.choice(((5, 3), (5, 2), (7, 3), (8, 3), (11, 2), (13, 4), (16, 2)))
            return Polynomial(q, k, min(n, q ** k))
        return Single(n) if kind == "single" else Halves(n)

    def sealed(self, blocks, family, made_by, key):
        sheet = Sheet()
        sheet.blocks = blocks
        drawn = Drawn(key.name, key.draw())
        return seals.seal(sheet, family, DIGESTS[WORDS[made_by]], key, drawn, 82_001)

    def file_of(self, blocks, part):
        frames = seals.frames(list(enumerate(blocks, start=1)))
        return frames + part + (len(part) + 8).to_bytes(4, "big") + files.MAGIC

    def resigned(self, part, digest, secret):
        """The part with a field of its head changed, and signed again."""
        end = len(part) - 34
        text = bytearray(part[:end])
        place = self.random.choice((0, 1, 2, 2, 3, 4, 5, 5, 6, 7, 8, 9, 9, 10, 11, 12, 15, 16))
        text[place] = self.random.choice((1, 2, 2, 3, 4, 5, 7, 8, 13, self.random.randrange(256)))
        return bytes(text) + part[end:end + 2] + make_tag(WORDS[digest], secret, bytes(text))

    def spoiled(self, data):
        place = self.random.randrange(len(data))
        return self.random.choice((
            data[:place] + self.some(1) + data[place + 1:],
            data[:place] + data[place + 1:],
            data[:place] + self.some(1) + data[place:],
            data[:place],
            data[place:],
            data + self.some(1),
            data[:-self.random.randint(1, 12)] + self.some(self.random.randint(0, 12)),
        ))

    def changed(self, blocks, count):
        blocks = list(blocks)
        for place in self.random.sample(range(len(blocks)), min(count, len(blocks))):
            blocks[place] = self.some(self.random.randint(0, 9))
        return blocks

    def day(self):
        """A file, and the calls on it and on what becomes of it."""
        family = self.family()
        digest, made_by = self.random.randint(1, 2), self.random.randint(1, 2)
        secret, name = self.some(32), self.some(8)
        old = [self.some(self.random.randint(0, 12)) for _ in range(family.n)]
        key = TagKey(WORDS[digest], secret, name, self.random.randrange(1_000_000))
        part = self.sealed(old, family, made_by, key)
        if self.random.random() < 0.3:
            part = self.resigned(part, digest, secret)
        for count in (0, self.random.randint(1, max(family.d, 1)), self.random.randint(1, 14)):
            new = self.changed(old, count)
            file = self.file_of(new, part)
            if self.random.random() < 0.2:
                file = self.spoiled(file)
            self.calls(file, part, family, digest, secret, old, new)

    def calls(self, file, part, family, digest, secret, old, new):
        def key():
            return self.digest_given(digest), self.secret_given(secret)
        self.say("unpack", file)
        self.say("check", file, *key(), self.room_given(min(family.d, family.n)))
        for _ in range(2):
            block = self.usually(self.random.randint(1, family.n), 0, family.n + 1, 65_535)
            at = min(max(block, 1), family.n) - 1
            offered = self.usually(old[at], new[at], self.some(3), b"", share=0.7)
            if self.random.random() < 0.01:
                offered = bytes(MAX_BYTES + self.random.randint(0, 1))
            self.say("vouch", file, *key(), block, offered)
            rows = family.rows_of(at + 1)
            row = self.usually(self.random.choice(rows), 0, family.t + 1, self.random.randint(1, family.t))
            others = [(j, new[j - 1]) for j in family.blocks_in(row) if j != at + 1]
            excerpt = seals.frames(others)
            self.say("excerpt", file, *key(), block, row, self.room_given(len(excerpt)))
            if self.random.random() < 0.15:
                excerpt = self.spoiled(excerpt or b"\0")
            part_given = self.spoiled(part) if self.random.random() < 0.05 else part
            self.say("confirm", part_given, *key(), block, row, offered, excerpt)

    def seal_line(self):
        text = self.usually(self.text(self.random.randint(1, 30)), b"", self.text(513), self.text(512),
                            bytes(MAX_BYTES), bytes(MAX_BYTES + 1), b"\n", share=0.97)
        count = text.count(b"\n") + (not text.endswith(b"\n"))
        digest = self.random.randint(1, 2)
        name = self.usually(self.some(8), b"", self.some(7), self.some(9))
        changes = self.usually(self.random.choice((1, 2, 2, 3, 4, 6)), 0, 5, 7, 8, 10, 12, 15, 65_535)
        number = self.usually(self.random.randrange(1_000_000), 0, 999_999, 1_000_000, 1_000_001, 2 ** 32 - 1)
        needed = 10
        try:
            t = choose(count, changes).t
            needed = 4 * count + len(text) + 82 + 32 * t + 8
        except Refused:
            pass
        room = self.room_given(needed)
        self.say("seal", text, self.digest_given(digest), changes, self.secret_given(self.some(32)), name, number, room)

    def pack_line(self):
        text = self.text(self.random.randint(1, 12))
        sheet = Sheet()
        count = sheet.cut(text)
        key = TagKey(b"sha256", self.some(32), self.some(8), 5)
        other = [b""] * self.usually(count, count + 1, max(count - 1, 1))
        part = self.sealed(other, Single(len(other)), 1, key)
        if self.random.random() < 0.2:
            part = self.spoiled(part)
        text = self.usually(text, b"", self.text(513), bytes(MAX_BYTES + 1), share=0.98)
        self.say("pack", text, part, self.room_given(4 * count + len(text) + len(part) + 8))

    def make(self):
        for _ in range(160):
            self.day()
        for _ in range(500):
            self.seal_line()
        for _ in range(250):
            self.pack_line()
        self.random.shuffle(self.lines)
        return self.lines


def main():
    if sys.argv[1] == "answers":
        for line in sys.stdin:
            print(answer(line.rstrip("\n")))
    else:
        print("\n".join(Maker(int(sys.argv[1])).make()))


if __name__ == "__main__":
    main()
