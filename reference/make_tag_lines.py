"""Writes lines that try tag keys, and says what they should give:

    python3 make_tag_lines.py > lines
    python3 make_tag_lines.py answers < lines

The answers come from tags.py, that is from Python's hashlib and hmac. Some
published ones stand here, and both uses stop if tags.py answers otherwise.
"""

import hashlib
import sys

import line_tools
from tags import DIGESTS, KEY_BYTES, LIMIT, TagKey, inspect, make_tag
from words import (MAX_DRAWN, read_digest, read_drawn, read_hex, read_key, read_name,
                   write_hex)


# What the lines call.

def draw_and_sign(digest, key, name, next_number, text):
    tag_key = TagKey(digest, key, name, next_number)
    number = tag_key.draw()
    return f"tag {number} {tag_key.sign(number, text).hex()} {tag_key.left}"


def yes_or_no(*arguments):
    return "yes" if inspect(*arguments) else "no"


# First word -> what it calls, and one reader for each further word.
WORDS = {
    b"tag": (draw_and_sign, [read_digest, read_key, read_name, read_drawn, read_hex]),
    b"inspect": (yes_or_no, [read_digest, read_key, read_drawn, read_hex, read_hex]),
}


def call(words):
    return line_tools.call_by(WORDS, words)


def answer(line):
    return line_tools.answer(line, call)


# What must hold before anything is written.

# HMAC over SHA-256 as RFC 4231 has it: its first four examples. Their keys
# are shorter than 32 bytes; HMAC fills a key up with zeros, so that the same
# tags belong to the keys filled up to 32 here.
PUBLISHED = [
    (b"\x0b" * 20, b"Hi There",
     "b0344c61d8db38535ca8afceaf0bf12b881dc200c9833da726e9376c2e32cff7"),
    (b"Jefe", b"what do ya want for nothing?",
     "5bdcc146bf60754e6a042426089575c75a003f089d2739839dec58b964ec3843"),
    (b"\xaa" * 20, b"\xdd" * 50,
     "773ea91e36800e46854db8ebd09181a72959098b3ef8c122d9635514ced565fe"),
    (bytes(range(1, 26)), b"\xcd" * 50,
     "82558a389a443c0ea4cc819899f2083a85f0faa3e578f8077a2e3ff46729665b"),
]


def check_tags():
    for key, text, expected in PUBLISHED:
        if make_tag(b"sha256", key.ljust(KEY_BYTES, b"\0"), text).hex() != expected:
            sys.exit(f"{text!r}: the tag is not the published one")
    # RFC 2104 written out, against what tags.py takes from Python.
    key, text = filler(KEY_BYTES, 5, 11), filler(70)
    for name, digest in DIGESTS.items():
        inner = digest(bytes(x ^ 0x36 for x in key + bytes(32)) + text).digest()
        outer = digest(bytes(x ^ 0x5C for x in key + bytes(32)) + inner).digest()
        assert make_tag(name, key, text) == outer
    assert make_tag(b"blake2s", key, text) != hashlib.blake2s(text, key=key).digest()


# The lines, group by group.

NAME = bytes.fromhex("0123456789abcdef")


def filler(length, step=7, first=3):
    return bytes((place * step + first) % 256 for place in range(length))


KEY = filler(KEY_BYTES, 29, 5)
OTHER_KEY = filler(KEY_BYTES, 31, 200)


def tag_line(digest, text, key=KEY, name=NAME, next_number=0):
    return f"tag {digest} {key.hex()} {name.hex()} {next_number} {write_hex(text)}"


def inspect_line(digest, text, signature, key=KEY, number=0):
    return (f"inspect {digest} {key.hex()} {number} {write_hex(text)} "
            f"{write_hex(signature)}")


def published():
    yield "# tag and inspect: the examples of RFC 4231"
    for key, text, tag in PUBLISHED:
        key = key.ljust(KEY_BYTES, b"\0")
        yield tag_line("sha256", text, key)
        yield inspect_line("sha256", text, bytes.fromhex(tag), key)


def tags(digest):
    yield f"# tag {digest}: texts of all lengths from 0 to 130"
    for length in range(131):
        yield tag_line(digest, filler(length), next_number=length * 7)
    yield f"# tag {digest}: other keys and names"
    for key in (bytes(32), b"\xff" * 32, b"\x36" * 32, b"\x5c" * 32, bytes(31) + b"\x01",
                b"\x80" + bytes(31), OTHER_KEY):
        for name in (bytes(8), b"\xff" * 8):
            yield tag_line(digest, filler(40), key, name)
    yield tag_line(digest, filler(1000, 13, 1))
    yield f"# tag {digest}: next numbers"
    for next_number in (0, 1, 2, 255, 256, 65535, 65536, 999_998, 999_999, 1_000_000,
                        1_000_001, 2 ** 31, MAX_DRAWN, "000", "00000000001", "0999999",
                        "01000000", "0" * 40 + "7"):
        yield tag_line(digest, filler(20), next_number=next_number)


def inspections(digest, other):
    text = filler(50)
    tag = make_tag(digest.encode("ascii"), KEY, text)

    def of(changed):
        return make_tag(digest.encode("ascii"), KEY, changed)

    yield f"# inspect {digest}: the right tag, whatever the number"
    for number in (0, 1, 7, 999_999, LIMIT, LIMIT + 1, MAX_DRAWN, "0" * 12 + "5"):
        yield inspect_line(digest, text, tag, number=number)
    for length in (0, 1, 63, 64, 65, 128):
        yield inspect_line(digest, filler(length), of(filler(length)))
    yield f"# inspect {digest}: one bit of the tag changed"
    for place in range(len(tag)):
        changed = bytearray(tag)
        changed[place] ^= 1 << place % 8
        yield inspect_line(digest, text, bytes(changed))
    yield f"# inspect {digest}: tags of other lengths"
    for signature in (b"", tag[:1], tag[:16], tag[:31], tag[1:], tag + b"\0", b"\0" + tag,
                      tag + tag[-1:], tag + tag):
        yield inspect_line(digest, text, signature)
    yield f"# inspect {digest}: tags of something else"
    yield inspect_line(digest, text, make_tag(other.encode("ascii"), KEY, text))
    yield inspect_line(other, text, tag)
    yield inspect_line(digest, text, of(text[:-1]))
    yield inspect_line(digest, text[:-1], tag)
    yield inspect_line(digest, text, of(text + b"\0"))
    yield inspect_line(digest, text + b"\0", tag)
    yield inspect_line(digest, b"", tag)
    yield inspect_line(digest, text, of(b""))
    yield inspect_line(digest, text, tag, key=OTHER_KEY)
    yield inspect_line(digest, text, make_tag(digest.encode("ascii"), OTHER_KEY, text))
    yield inspect_line(digest, text, tag[::-1])
    yield inspect_line(digest, text, bytes(32))
    yield inspect_line(digest, text, DIGESTS[digest.encode("ascii")](text).digest())
    yield inspect_line(digest, text,
                       DIGESTS[digest.encode("ascii")](KEY + text).digest())
    yield f"# inspect {digest}: one bit of the key or of the text changed"
    for place in (0, 15, 31):
        changed = bytearray(KEY)
        changed[place] ^= 0x80
        yield inspect_line(digest, text, tag, key=bytes(changed))
    for place in (0, 25, 49):
        changed = bytearray(text)
        changed[place] ^= 0x01
        yield inspect_line(digest, bytes(changed), tag)


def keyed_blake2s():
    yield "# inspect blake2s: its own way to use a key is not HMAC"
    text = filler(50)
    yield inspect_line("blake2s", text, hashlib.blake2s(text, key=KEY).digest())


def not_understood():
    key, name, tag = KEY.hex(), NAME.hex(), make_tag(b"sha256", KEY, b"a").hex()
    yield "# not understood: a wrong number"
    for number in ("4294967296", "4294967297", "04294967296", "18446744073709551617",
                   "9" * 40, "-1", "+1", "-", "x", "1x", "0x1", "1.0", "1_0", "1\r",
                   # Two bytes that UTF-8 reads as a digit of another script.
                   "\xd9\xa1"):
        yield f"tag sha256 {key} {name} {number} 61"
        yield f"inspect sha256 {key} {number} 61 {tag}"
    yield "# not understood: a wrong key"
    for wrong in ("-", key[:62], key[:63], key + "0", key + "00", key + key, key.upper(),
                  key[:62] + "0g", key[:62] + "--", "0x" + key[2:]):
        yield f"tag sha256 {wrong} {name} 0 61"
        yield f"inspect sha256 {wrong} 0 61 {tag}"
    yield "# not understood: a wrong name"
    for wrong in ("-", name[:14], name[:15], name + "0", name + "00", name.upper(), key,
                  name[:14] + "zz"):
        yield f"tag blake2s {key} {wrong} 0 61"
    yield "# not understood: a wrong text or signature"
    for wrong in ("6", "616", "6A", "A6", "6g", "--", "-61", "61-", "0x61", "61\r", "61\t"):
        yield f"tag blake2s {key} {name} 0 {wrong}"
        yield f"inspect blake2s {key} 0 {wrong} {tag}"
        yield f"inspect blake2s {key} 0 61 {wrong}"
    yield f"inspect sha256 {key} 0 61 {tag.upper()}"
    yield f"inspect sha256 {key} 0 61 {tag[:63]}"
    yield "# not understood: a wrong digest"
    for wrong in ("SHA256", "sha-256", "sha256x", "sha", "blake2", "blake2b", "BLAKE2s",
                  "md5", "1", "-"):
        yield f"tag {wrong} {key} {name} 0 61"
        yield f"inspect {wrong} {key} 0 61 {tag}"
    yield "# not understood: spaces"
    yield " "
    yield f" tag sha256 {key} {name} 0 61"
    yield f"tag  sha256 {key} {name} 0 61"
    yield f"tag sha256  {key} {name} 0 61"
    yield f"tag sha256 {key}  {name} 0 61"
    yield f"tag sha256 {key} {name}  0 61"
    yield f"tag sha256 {key} {name} 0  61"
    yield f"tag sha256 {key} {name} 0 61 "
    yield f"tag sha256 {key} {name} 0 "
    yield f"tag\tsha256 {key} {name} 0 61"
    yield f" inspect sha256 {key} 0 61 {tag}"
    yield f"inspect sha256 {key}  0 61 {tag}"
    yield f"inspect sha256 {key} 0 61  {tag}"
    yield f"inspect sha256 {key} 0  {tag}"
    yield f"inspect sha256 {key} 0 61 {tag} "
    yield f"inspect sha256 {key} 0 61 "
    yield " # no comment"
    yield "# not understood: a word too few or too many"
    yield "tag"
    yield "tag sha256"
    yield f"tag sha256 {key}"
    yield f"tag sha256 {key} {name}"
    yield f"tag sha256 {key} {name} 0"
    yield f"tag sha256 {key} 0 61"
    yield f"tag sha256 {name} 0 61"
    yield f"tag {key} {name} 0 61"
    yield f"tag sha256 {key} {name} 0 61 62"
    yield f"tag sha256 {key} {name} 1000001 61 62"
    yield "inspect"
    yield "inspect sha256"
    yield f"inspect sha256 {key}"
    yield f"inspect sha256 {key} 0"
    yield f"inspect sha256 {key} 0 61"
    yield f"inspect sha256 {key} 61 {tag}"
    yield f"inspect sha256 {key} {name} 0 61 {tag}"
    yield f"inspect sha256 {key} 0 61 {tag} -"
    yield "# not understood: another word"
    yield f"Tag sha256 {key} {name} 0 61"
    yield f"TAG sha256 {key} {name} 0 61"
    yield f"tags sha256 {key} {name} 0 61"
    yield f"sign sha256 {key} {name} 0 61"
    yield f"Inspect sha256 {key} 0 61 {tag}"
    yield f"inspec sha256 {key} 0 61 {tag}"
    yield f"sha256 {key} {name} 0 61"
    yield "61"
    yield "-"
    yield "\xff\x80"
    yield "# not understood, though it would be refused if it were right"
    yield f"tag sha256 {key} {name} 1000001 6"
    yield f"tag sha256 {key} {name[:14]} 1000001 61"
    yield f"tag sha256 {key} {name} 1000000 6A"


def edges():
    yield "# blank lines and comments"
    yield ""
    yield ""
    yield "#"
    yield "#tag"
    yield "## inspect"


def lines():
    yield from published()
    for digest, other in (("sha256", "blake2s"), ("blake2s", "sha256")):
        yield from tags(digest)
        yield from inspections(digest, other)
    yield from keyed_blake2s()
    for line in not_understood():
        assert line.startswith("# ") or answer(line.encode("latin-1")) == "not understood", line
        yield line
    yield from edges()
    yield "# the last line has no end"
    yield tag_line("blake2s", b"end")


def main():
    check_tags()
    line_tools.run(__doc__, lines, answer)


if __name__ == "__main__":
    main()
