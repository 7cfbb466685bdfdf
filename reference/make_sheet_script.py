"""Writes a replay script that tries the sheet:

    python3 make_sheet_script.py SEED > script

Where an answer follows from the rules by hand it stands next to the call,
and the generator stops if the reference program answers otherwise.
"""

import random
import sys

from nazkoiber import Replay
from sheet import MAX_BLOCKS, MAX_BYTES
from words import write_hex

OVER = MAX_BYTES + 1


def filler(length):
    """Bytes with no 0A that repeat late, so that shifted bytes are seen."""
    return bytes(0x20 + (place * 7 + place // 89) % 90 for place in range(length))


class Script:
    """The lines so far. A replay runs along, to know how many blocks to show."""

    def __init__(self):
        self.lines = []
        self.replay = Replay()

    def note(self, text):
        self.lines.append(f"# {text}".encode("ascii"))

    def raw(self, line, expected=None):
        """One line as it is; expected is what must be printed, if given."""
        self.lines.append(line)
        answer = self.replay.answer(line)
        if expected is not None and answer != expected:
            sys.exit(f"{line[:60]!r}: {answer!r}, by hand {expected!r}")

    def call(self, word, *arguments, expected=None):
        parts = [word]
        for argument in arguments:
            parts.append(write_hex(argument) if isinstance(argument, bytes)
                         else str(argument))
        if expected is not None:
            expected = f"{word}: {expected}".encode("ascii")
        self.raw(" ".join(parts).encode("ascii"), expected)

    def new(self, *blocks):
        """A new sheet with these blocks."""
        self.call("clear", expected="ok")
        for number, block in enumerate(blocks, start=1):
            self.call("add", block, expected=f"block {number}")

    def look(self, *blocks):
        """The sheet and its blocks, known by hand."""
        total = sum(len(block) for block in blocks)
        self.call("sheet", expected=f"blocks {len(blocks)} total {total}")
        for number, block in enumerate(blocks, start=1):
            self.call("show", number, expected=f"block {write_hex(block)}")
        self.call("show", len(blocks) + 1, expected="refused 4")

    def look_at_all(self):
        """The sheet and its blocks, whatever they are, and one beyond."""
        self.call("sheet")
        for number in range(1, self.replay.sheet.count() + 2):
            self.call("show", number)


def rewrite_and_look(s, blocks, number, new):
    """A rewrite that passes; blocks is the sheet by hand, and follows it."""
    blocks[number - 1] = new
    total = sum(len(block) for block in blocks)
    s.call("rewrite", number, new, expected=f"total {total}")
    s.look(*blocks)


def cut_edges(s):
    s.note("an empty text: 1 on an empty sheet")
    s.call("cut", b"", expected="refused 1")
    s.look()

    s.note("an empty text: 22 on a sheet that is not empty")
    s.new(b"a")
    s.call("cut", b"", expected="refused 22")
    s.look(b"a")

    s.note("a sheet with only one empty block is not empty: 22")
    s.new(b"")
    s.call("cut", b"a\n", expected="refused 22")
    s.call("cut", b"", expected="refused 22")
    s.look(b"")

    s.note("22 comes before 2 and before 3")
    s.call("cut", b"\n" * (MAX_BLOCKS + 1), expected="refused 22")
    s.call("cut", filler(OVER), expected="refused 22")
    s.look(b"")

    s.note("a second cut is refused; after clear it passes")
    s.new()
    s.call("cut", b"a\nb", expected="blocks 2")
    s.call("cut", b"c", expected="refused 22")
    s.look(b"a\n", b"b")
    s.new()
    s.call("cut", b"c", expected="blocks 1")
    s.look(b"c")

    s.note("512 lines pass, 513 give 2")
    s.new()
    s.call("cut", b"\n" * 513, expected="refused 2")
    s.look()
    s.call("cut", b"\n" * 512, expected="blocks 512")
    s.call("sheet", expected="blocks 512 total 512")
    for number in (1, 2, 256, 511, 512):
        s.call("show", number, expected="block 0a")
    s.call("show", 513, expected="refused 4")

    s.note("a last piece without 0A counts as a line: 511 + 1 pass, 512 + 1 give 2")
    s.new()
    s.call("cut", b"\n" * 512 + b"z", expected="refused 2")
    s.look()
    s.call("cut", b"\n" * 511 + b"z", expected="blocks 512")
    s.call("show", 511, expected="block 0a")
    s.call("show", 512, expected="block 7a")
    s.call("sheet", expected="blocks 512 total 512")

    s.note("a one-line text of 38,912 bytes passes; 38,913 give 3")
    s.new()
    s.call("cut", filler(OVER), expected="refused 3")
    s.look()
    text = filler(MAX_BYTES - 1) + b"\n"
    s.call("cut", text, expected="blocks 1")
    s.call("sheet", expected="blocks 1 total 38912")

    s.note("there one byte more gives 21, an empty block passes")
    s.call("add", b"y", expected="refused 21")
    s.call("sheet", expected="blocks 1 total 38912")
    s.call("add", b"", expected="block 2")
    s.call("rewrite", 2, b"y", expected="refused 21")
    s.call("rewrite", 2, b"", expected="total 38912")
    s.look(text, b"")

    s.note("38,913 bytes of 0A give 3 and not 2; 38,912 of them give 2")
    s.new()
    s.call("cut", b"\n" * OVER, expected="refused 3")
    s.call("cut", b"\n" * MAX_BYTES, expected="refused 2")
    s.look()

    s.note("both limits at once: 512 lines of 76 bytes are 38,912 bytes")
    s.new()
    lines = [b"line %03d " % number + b"m" * 66 + b"\n" for number in range(1, 513)]
    s.call("cut", b"".join(lines), expected="blocks 512")
    s.call("sheet", expected="blocks 512 total 38912")
    s.call("add", b"", expected="refused 21")
    s.call("add", b"y", expected="refused 21")
    s.call("rewrite", 512, lines[511] + b"y", expected="refused 21")
    lines[511] = lines[511][:-1]
    s.call("show", 512, expected="block " + lines[511].hex() + "0a")
    s.call("rewrite", 512, lines[511], expected="total 38911")
    s.call("rewrite", 256, lines[255] + b"yy", expected="refused 21")
    lines[0] += b"y"
    s.call("rewrite", 1, lines[0], expected="total 38912")
    s.call("rewrite", 256, lines[255] + b"y", expected="refused 21")
    s.look(*lines)


def add_edges(s):
    s.note("one block of 38,912 bytes passes; 38,913 give 3, also on the full sheet")
    s.new()
    s.call("add", filler(OVER), expected="refused 3")
    s.look()
    s.call("add", filler(MAX_BYTES), expected="block 1")
    s.call("add", filler(OVER), expected="refused 3")
    s.call("add", b"y", expected="refused 21")
    s.call("sheet", expected="blocks 1 total 38912")

    s.note("512 empty blocks, then one more gives 21, with or without bytes")
    s.new(*[b""] * 512)
    s.call("add", b"", expected="refused 21")
    s.call("add", b"y", expected="refused 21")
    s.call("sheet", expected="blocks 512 total 0")

    s.note("38,913 bytes are 3 even at 512 blocks")
    s.call("add", filler(OVER), expected="refused 3")
    s.call("sheet", expected="blocks 512 total 0")

    s.note("at 512 empty blocks cut is refused and rewrite is not")
    s.call("cut", b"a", expected="refused 22")
    s.call("rewrite", 512, b"abc", expected="total 3")
    s.call("rewrite", 513, b"abc", expected="refused 4")
    s.call("show", 511, expected="block -")
    s.call("show", 512, expected="block 616263")
    s.call("show", 513, expected="refused 4")

    s.note("add after cut goes on from the last block and does not join it")
    s.new()
    s.call("cut", b"a\nb", expected="blocks 2")
    s.call("add", b"c\nd\n", expected="block 3")
    s.look(b"a\n", b"b", b"c\nd\n")


def rewrite_edges(s):
    s.note("rewrite and show on an empty sheet: 4")
    s.new()
    for number in (0, 1, 65535):
        s.call("rewrite", number, b"a", expected="refused 4")
        s.call("rewrite", number, b"", expected="refused 4")
        s.call("show", number, expected="refused 4")
    s.look()

    s.note("rewrite of block 0, count, count + 1 and 65535")
    s.new(b"aa", b"bb", b"cc")
    s.call("rewrite", 0, b"z", expected="refused 4")
    s.look(b"aa", b"bb", b"cc")
    s.call("rewrite", 4, b"z", expected="refused 4")
    s.call("rewrite", 65535, b"z", expected="refused 4")
    s.look(b"aa", b"bb", b"cc")
    s.call("rewrite", 3, b"z", expected="total 5")
    s.look(b"aa", b"bb", b"z")
    s.call("show", 0, expected="refused 4")
    s.call("show", 65535, expected="refused 4")

    s.note("block numbers that are right only in their low 8 bits: 4")
    s.call("rewrite", 257, b"z", expected="refused 4")
    s.call("show", 257, expected="refused 4")

    s.note("leading zeros are ordinary digits")
    s.raw(b"rewrite 0001 7a", b"rewrite: total 4")
    s.raw(b"show 000000000000000000000000000000000002", b"show: block 6262")
    s.raw(b"show 00", b"show: refused 4")
    s.raw(b"show 0065535", b"show: refused 4")
    s.look(b"z", b"bb", b"z")

    s.note("order of refusals: 4 before 3, then 3 before 21")
    s.new(b"a", b"b")
    s.call("rewrite", 3, filler(OVER), expected="refused 4")
    s.call("rewrite", 2, filler(OVER), expected="refused 3")
    s.look(b"a", b"b")

    s.note("38,912 bytes beside one other byte give 21; beside none they pass")
    s.call("rewrite", 2, filler(MAX_BYTES), expected="refused 21")
    s.look(b"a", b"b")
    s.call("rewrite", 1, b"", expected="total 1")
    s.call("rewrite", 2, filler(MAX_BYTES), expected="total 38912")
    s.call("rewrite", 1, b"a", expected="refused 21")
    s.call("rewrite", 3, b"a", expected="refused 4")
    s.look(b"", filler(MAX_BYTES))

    s.note("a rewrite that fills exactly to 38,912, and one that passes it by one")
    blocks = [b"ab", filler(MAX_BYTES - 12), b"cd"]
    s.new(*blocks)
    s.call("sheet", expected="blocks 3 total 38904")
    s.call("rewrite", 3, b"0123456789a", expected="refused 21")
    s.look(*blocks)
    rewrite_and_look(s, blocks, 3, b"0123456789")
    s.call("sheet", expected="blocks 3 total 38912")
    s.call("rewrite", 1, b"abc", expected="refused 21")
    s.look(*blocks)

    s.note("on the full sheet the old bytes do not count: equally many pass")
    rewrite_and_look(s, blocks, 1, b"ef")
    s.note("room made by one block is taken by another")
    rewrite_and_look(s, blocks, 1, b"")
    rewrite_and_look(s, blocks, 3, b"01234567890")
    rewrite_and_look(s, blocks, 1, b"g")
    s.call("rewrite", 1, b"gh", expected="refused 21")
    s.look(*blocks)
    rewrite_and_look(s, blocks, 2, b"")


def rewrite_table(s):
    start = [b"one\n", b"two22\n", b"three"]
    lengths = {"more bytes": 3, "fewer bytes": -2, "equally many bytes": 0}
    for place, number in (("first", 1), ("middle", 2), ("last", 3)):
        for what, change in lengths.items():
            s.note(f"table: {place} block to {what}")
            s.new(*start)
            new = b"Q" * (len(start[number - 1]) + change)
            rewrite_and_look(s, list(start), number, new)
        s.note(f"table: {place} block to no bytes, again to none, then to some")
        s.new(*start)
        blocks = list(start)
        for new in (b"", b"", b"new\n"):
            rewrite_and_look(s, blocks, number, new)

    s.note("table: the only block, to more, fewer, equally many, no bytes, some")
    s.new(b"only")
    for new in (b"only one", b"on", b"no", b"", b"\n"):
        rewrite_and_look(s, [b""], 1, new)

    s.note("table: all blocks become empty, then all get bytes again")
    s.new(*start)
    blocks = list(start)
    for new in (b"", b"back"):
        for number in (2, 1, 3):
            rewrite_and_look(s, blocks, number, new)

    s.note("table: a 0A inside new bytes makes no new block")
    s.new(*start)
    s.call("rewrite", 2, b"a\nb\n\nc", expected="total 15")
    s.look(start[0], b"a\nb\n\nc", start[2])


def texts(s):
    table = [
        ("0D 0A at the ends of lines", b"a\r\nb\r\n", [b"a\r\n", b"b\r\n"]),
        ("0D 0A, last piece without", b"a\r\nb", [b"a\r\n", b"b"]),
        ("0D alone is an ordinary byte", b"a\rb\r", [b"a\rb\r"]),
        ("0A 0D: the 0D begins the next block", b"a\n\rb\n\r", [b"a\n", b"\rb\n", b"\r"]),
        ("only 0D", b"\r", [b"\r"]),
        ("only 0D 0A", b"\r\n", [b"\r\n"]),
        ("one 0A", b"\n", [b"\n"]),
        ("two 0A", b"\n\n", [b"\n", b"\n"]),
        ("five 0A", b"\n" * 5, [b"\n"] * 5),
        ("ends with 0A", b"ab\ncd\n", [b"ab\n", b"cd\n"]),
        ("ends without 0A", b"ab\ncd", [b"ab\n", b"cd"]),
        ("ends with two 0A", b"ab\n\n", [b"ab\n", b"\n"]),
        ("begins with 0A", b"\nab", [b"\n", b"ab"]),
        ("one byte", b"a", [b"a"]),
        ("no 0A at all", b"abc def", [b"abc def"]),
        ("bytes 00, FF and other line ends of some systems",
         b"\x00\n\xff\x0b\x0c\x1c\x1d\x1e\x85\n\xe2\x80\xa8\x00",
         [b"\x00\n", b"\xff\x0b\x0c\x1c\x1d\x1e\x85\n", b"\xe2\x80\xa8\x00"]),
    ]
    for what, text, blocks in table:
        s.note("text: " + what)
        s.new()
        s.call("cut", text, expected=f"blocks {len(blocks)}")
        s.look(*blocks)

    s.note("text: a 0A at each place of a short text")
    for place in range(6):
        s.new()
        before, after = b"abcde"[:place], b"abcde"[place:]
        blocks = [before + b"\n"] + ([after] if after else [])
        s.call("cut", before + b"\n" + after, expected=f"blocks {len(blocks)}")
        s.look(*blocks)

    s.note("text: every text of four bytes made of 61 and 0A")
    for bits in range(16):
        text = bytes(0x0A if bits >> place & 1 else 0x61 for place in range(4))
        s.new()
        s.call("cut", text)
        s.look_at_all()


def not_understood(s):
    blocks = [b"aa", b"bb"]
    groups = {
        "a number above 65,535": [
            b"show 65536", b"rewrite 65536 61", b"show 99999", b"show 065536",
            b"show 65537", b"show 4294967297", b"show 18446744073709551617",
            b"rewrite 18446744073709551617 61", b"show 1" + b"0" * 60],
        "a word that is no number": [
            b"show x", b"show -", b"show -1", b"show +1", b"show 1.0", b"show 0x1",
            b"show 1a", b"show 1_0", b"show \xd9\xa1", b"show 1\r", b"show 1\t",
            b"rewrite one 61", b"rewrite - 61", b"rewrite 61 x", b"rewrite +1 61"],
        "upper-case hex": [b"cut 6A", b"add 6A", b"add A6", b"rewrite 1 6A", b"add 6a6B"],
        "a byte that is no hex digit": [
            b"add 6g", b"add zz", b"add 0x61", b"rewrite 1 6:", b"add 61\t62",
            b"add 6`", b"add 6/", b"add 61\r"],
        "- together with other bytes": [
            b"add --", b"add -61", b"add 61-", b"rewrite 1 --", b"cut --"],
        "an odd number of hex digits": [
            b"cut 6", b"add 6", b"add 616", b"rewrite 1 6", b"rewrite 1 61626"],
        "an empty hex word": [b"cut ", b"add ", b"rewrite 1 "],
        "an empty number word": [b"show ", b"rewrite  61"],
        "a double space": [
            b"cut  61", b"add  61", b"rewrite  1 61", b"rewrite 1  61", b"show  1"],
        "a leading space": [
            b" clear", b" add 61", b" show 1", b" sheet", b" ", b"  ", b" # no comment"],
        "a trailing space": [
            b"clear ", b"add 61 ", b"rewrite 1 61 ", b"show 1 ", b"sheet ", b"add - "],
        "a word too few": [b"cut", b"add", b"rewrite", b"rewrite 1", b"rewrite 61", b"show"],
        "a word too many": [
            b"clear 1", b"clear -", b"cut 61 62", b"add 61 62", b"add 1 61",
            b"rewrite 1 61 62", b"show 1 2", b"sheet 1", b"sheet -"],
        "a first word that is none of these": [
            b"hello", b"hello 61", b"Clear", b"CLEAR", b"Add 61", b"cuts 61", b"ad 61",
            b"show1", b"add\t61", b"clear\r", b"sheet\r", b"-", b"61", b"x#", b"\xff\x00 1",
            b"clear: ok", b"\t", b"\r"],
        "wrong in itself and refused if it were right: still not understood": [
            b"rewrite 0 6", b"rewrite 9 6A", b"cut 6", b"cut  -", b"show 0 0"],
    }
    s.new(*blocks)
    for what, lines in groups.items():
        s.note("not understood: " + what)
        for line in lines:
            word = line.split(b" ")[0]
            s.raw(line, word + b": not understood")
        s.note("and the sheet is as it was")
        s.look(*blocks)

    s.note("blank lines and comment lines print nothing")
    for line in (b"", b"", b"#", b"#clear", b"##", b"# clear", b"#\xff\r"):
        s.raw(line)
    s.look(*blocks)

    s.note("each hex digit is read, in both places")
    s.new()
    data = bytes.fromhex("0123456789abcdef1032547698badcfe")
    s.raw(b"add 0123456789abcdef1032547698badcfe", b"add: block 1")
    s.look(data)
    s.note("every byte value")
    s.new(bytes(range(256)))
    s.look(bytes(range(256)))


def random_calls(s, seed):
    rng = random.Random(seed)

    def some_bytes(longest):
        # 0A often, and the bytes that a careless reader treats specially.
        return bytes(rng.choice(b"\n\n\n\r\0 -ab\x7f\x80\xff")
                     for _ in range(rng.randint(0, longest)))

    def some_number():
        count = s.replay.sheet.count()
        if rng.random() < 0.8:
            return rng.randint(1, max(count, 1))
        return rng.choice([0, count, count + 1, 256, 512, 513, 65535])

    s.note(f"random calls, seed {seed}")
    s.new()
    for step in range(1, 601):
        kind = rng.choices(["clear", "cut", "add", "rewrite", "show", "bad"],
                           [5, 14, 26, 40, 10, 5])[0]
        if kind == "clear":
            s.call("clear")
            # Mostly cut at once: elsewhere cut is nearly always refused.
            if rng.random() < 0.7:
                s.call("sheet")
                s.call("cut", some_bytes(24))
        elif kind in ("cut", "add"):
            s.call(kind, some_bytes(12))
        elif kind == "rewrite":
            s.call("rewrite", some_number(), some_bytes(12))
        elif kind == "show":
            s.call("show", some_number())
        else:
            s.raw(rng.choice([b"add 6", b"show 65536", b"rewrite 1", b" sheet",
                              b"cut  61", b"add 6A", b"clear ", b"cut 61 62", b"what"]))
        s.call("sheet")
        if step % 25 == 0:
            s.note(f"random calls: all blocks after step {step}")
            s.look_at_all()

    s.note("random calls on a sheet that is nearly full: totals about 38,912")
    s.new()
    s.call("add", filler(MAX_BYTES - 30), expected="block 1")
    for size in (5, 0, 9, 3):
        s.call("add", b"y" * size)
    for step in range(1, 151):
        data = some_bytes(20)
        # Block 1 is left alone, so that the sheet stays nearly full.
        if rng.random() < 0.1:
            s.call("add", data[:4])
        else:
            s.call("rewrite", rng.randint(2, s.replay.sheet.count() + 1), data)
        s.call("sheet")
        if step % 50 == 0:
            for number in range(2, s.replay.sheet.count() + 2):
                s.call("show", number)


def main(arguments):
    if len(arguments) != 1:
        sys.exit(__doc__)
    seed = int(arguments[0])
    s = Script()
    s.note(f"sheet script, seed {seed}")
    cut_edges(s)
    add_edges(s)
    rewrite_edges(s)
    rewrite_table(s)
    texts(s)
    not_understood(s)
    random_calls(s, seed)
    s.note("the last line lacks its 0A")
    s.lines.append(b"sheet")
    sys.stdout.buffer.write(b"\n".join(s.lines))


if __name__ == "__main__":
    main(sys.argv[1:])
