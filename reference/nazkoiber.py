"""The two reference programs, both reading standard input:

    python3 nazkoiber.py lines  < text
    python3 nazkoiber.py replay < script
"""

import sys

import files
import seals
from families import choose
from lms import LmsKey
from sheet import MAX_BLOCKS, Refused, Sheet
from tags import TagKey
from words import (NotUnderstood, read_digest, read_drawn, read_each, read_hex, read_I,
                   read_key, read_kind, read_name, read_number, read_seed, write_family,
                   write_hex)

MAX_ROOM = 1_048_576
# The longest seal part and two of the longest frames' bytes.
SEAL_ROOM = 65_535 + 32 * 513 + 50
EXCERPT_ROOM = 65_535 * 2
FILE_ROOM = 262_144


class Missing(Exception):
    """What a call lacks; nothing is called."""


# Each reader takes the words behind a line's first and answers the arguments
# of its call.

def reads(*readers):
    return lambda rest: read_each(readers, rest)


def reads_and_room(*readers, room, read_room=lambda word: read_number(word, MAX_ROOM)):
    """Behind the other words a line may name a room."""
    def read(rest):
        if len(rest) > len(readers):
            return read_each([*readers, read_room], rest)
        return read_each(readers, rest) + [room]
    return read


def family_words(rest):
    return read_kind(rest[0], rest[1:]) if rest else read_each([read_hex], rest)


# Word of a key's kind -> what makes it, and a reader for each further word.
KEYS = {
    b"tag": (TagKey, [read_digest, read_key, read_name, read_drawn]),
    b"lms": (LmsKey, [read_I, read_seed, read_drawn]),
}


def key_words(rest):
    """What makes the key, and its arguments."""
    if not rest or rest[0] not in KEYS:
        raise NotUnderstood
    maker, readers = KEYS[rest[0]]
    return maker, read_each(readers, rest[1:])


def part_words(rest):
    return read_each([read_hex], rest) if rest else [None]


class Replay:
    """Answers script lines one by one; begins with an empty sheet."""

    def __init__(self):
        self.sheet = Sheet()
        self.digest = seals.DIGESTS[b"sha256"]
        self.family = None
        self.key = None
        # The number in the hand.
        self.drawn = None
        # The bytes of the present seal part, and the seal if it was accepted.
        self.part = None
        self.accepted = None

    def need(self, *things):
        """Stops a call for the first of these that is missing."""
        for thing in things:
            if getattr(self, thing) is None:
                raise Missing({"accepted": "not accepted", "drawn": "hand empty"}
                              .get(thing, f"no {thing}"))

    def set_part(self, part):
        self.part = part
        self.accepted = None

    # The sheet.

    def clear(self):
        self.sheet = Sheet()
        self.set_part(None)
        return "ok"

    def cut(self, text):
        return f"blocks {self.sheet.cut(text)}"

    def add(self, data):
        return f"block {self.sheet.add(data)}"

    def rewrite(self, number, data):
        return f"total {self.sheet.rewrite(number, data)}"

    def show(self, number):
        return f"block {write_hex(self.sheet.block(number))}"

    def show_sheet(self):
        return f"blocks {self.sheet.count()} total {self.sheet.total()}"

    # Digest, family and key.

    def set_digest(self, word):
        self.digest = seals.DIGESTS[word]
        return f"digest {self.digest.kind}"

    def make_family(self, maker, arguments):
        self.family = maker(*arguments)
        return write_family(self.family)

    def rows(self, number):
        self.need("family")
        return " ".join(["rows", *map(str, self.family.rows_of(number))])

    def make_key(self, maker, arguments):
        self.key = maker(*arguments)
        # What another key's inspector has accepted does not count for this one.
        self.accepted = None
        return (f"key {self.key.kind} {write_hex(self.key.name)} "
                f"{self.key.next_number} {self.key.left}")

    def draw(self):
        self.need("key")
        if self.drawn is not None:
            raise Missing("hand full")
        self.drawn = seals.Drawn(self.key.name, self.key.draw())
        return f"number {self.drawn.number}"

    def burn(self):
        self.need("drawn")
        number, self.drawn = self.drawn.number, None
        return f"burned {number}"

    # The seal.

    def seal(self, room):
        self.need("family", "key", "drawn")
        self.set_part(seals.seal(self.sheet, self.family, self.digest, self.key,
                                 self.drawn, room))
        # Only here: a refused seal leaves the number in the hand.
        self.drawn = None
        return f"sealed {len(self.part)}"

    def show_or_set_part(self, part):
        if part is not None:
            self.set_part(part)
            return f"part {len(part)}"
        self.need("part")
        return f"part {write_hex(self.part)}"

    def accept(self):
        self.need("part", "key")
        self.accepted = seals.accept(self.part, self.key.own_inspector())
        return f"accepted {self.accepted.number}"

    def check(self, room):
        self.need("accepted", "family")
        named = seals.check(self.sheet, self.accepted, self.family, self.digest, room)
        return " ".join(["named", *map(str, named)])

    def vouch(self, number, offered):
        self.need("accepted", "family")
        row, length = seals.vouch(self.sheet, self.accepted, self.family, self.digest,
                                  number, offered)
        return f"row {row} length {length}"

    def excerpt(self, number, row, room):
        self.need("accepted", "family")
        data = seals.excerpt(self.sheet, self.accepted, self.family, number, row, room)
        return f"excerpt {write_hex(data)}"

    def confirm(self, number, row, offered, excerpt):
        self.need("accepted", "family")
        seals.confirm(self.accepted, self.family, self.digest, number, row, offered,
                      excerpt)
        return "confirmed"

    # The sealed file.

    def pack(self, room):
        self.need("part")
        return f"file {write_hex(files.pack(self.sheet, self.part, room))}"

    def unpack(self, data):
        place, part = files.unpack(self.sheet, data)
        self.set_part(part)
        return f"part {place} {len(part)}"

    # First word -> what it calls, and what reads the words behind it.
    # A new word of the script needs a method above and a row here.
    WORDS = {
        b"clear": (clear, reads()),
        b"cut": (cut, reads(read_hex)),
        b"add": (add, reads(read_hex)),
        b"rewrite": (rewrite, reads(read_number, read_hex)),
        b"show": (show, reads(read_number)),
        b"sheet": (show_sheet, reads()),
        b"digest": (set_digest, reads(read_digest)),
        b"family": (make_family, family_words),
        b"choose": (make_family, lambda rest: (choose, reads(read_number, read_number)(rest))),
        b"rows": (rows, reads(read_number)),
        b"key": (make_key, key_words),
        b"draw": (draw, reads()),
        b"burn": (burn, reads()),
        b"seal": (seal, reads_and_room(room=SEAL_ROOM)),
        b"part": (show_or_set_part, part_words),
        b"accept": (accept, reads()),
        b"check": (check, reads_and_room(room=MAX_BLOCKS, read_room=read_number)),
        b"vouch": (vouch, reads(read_number, read_hex)),
        b"excerpt": (excerpt, reads_and_room(read_number, read_number, room=EXCERPT_ROOM)),
        b"confirm": (confirm, reads(read_number, read_number, read_hex, read_hex)),
        b"pack": (pack, reads_and_room(room=FILE_ROOM)),
        b"unpack": (unpack, reads(read_hex)),
    }

    def call(self, line):
        word, *rest = line
        if word not in self.WORDS:
            raise NotUnderstood
        method, read = self.WORDS[word]
        # All words are read before the call, so a bad word changes nothing.
        return method(self, *read(rest))

    def answer(self, line):
        """The line to print for a script line (no 0A), or None for nothing."""
        if line == b"" or line.startswith(b"#"):
            return None
        # Double, leading and trailing spaces give empty words here, which
        # are no first word, no number and no hex.
        line = line.split(b" ")
        try:
            result = self.call(line)
        except (Refused, Missing) as reason:
            result = str(reason)
        except NotUnderstood:
            result = "not understood"
        return line[0] + b": " + result.encode("ascii")

    def end(self):
        """The line to print behind the last one, or None for nothing."""
        return None if self.drawn is None else f"end: {self.burn()}".encode("ascii")


def run_lines(source, target):
    sheet = Sheet()
    try:
        count = sheet.cut(source.read())
    except Refused as refusal:
        target.write(f"{refusal}\n".encode("ascii"))
        return
    target.write(b"blocks %d\n" % count)
    for number, block in enumerate(sheet.blocks, start=1):
        target.write(b"%d %d\n" % (number, len(block)))


def run_replay(source, target):
    replay = Replay()
    # A last line with 0A leaves an empty piece, which prints nothing.
    answers = [replay.answer(line) for line in source.read().split(b"\n")]
    for answer in [*answers, replay.end()]:
        if answer is not None:
            target.write(answer + b"\n")


PROGRAMS = {"lines": run_lines, "replay": run_replay}


def main(arguments):
    if len(arguments) != 1 or arguments[0] not in PROGRAMS:
        sys.exit(__doc__)
    PROGRAMS[arguments[0]](sys.stdin.buffer, sys.stdout.buffer)


if __name__ == "__main__":
    main(sys.argv[1:])
