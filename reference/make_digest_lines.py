"""Writes lines that try the digests and HMAC, and says what they should give:

    python3 make_digest_lines.py > lines
    python3 make_digest_lines.py answers < lines

The answers come from Python's hashlib and hmac alone. The published examples
stand here with their published answers, and both uses stop if hashlib answers
otherwise.
"""

import hashlib
import hmac
import sys

import line_tools

MAX_COUNT = 1_000_000

# Named digests, each as a function that makes a fresh hashlib object.
DIGESTS = {
    "sha256": hashlib.sha256,
    "blake2s": lambda data=b"": hashlib.blake2s(data, digest_size=32),
}

LONG_448 = b"abcdbcdecdefdefgefghfghighijhijkijkljklmklmnlmnomnopnopq"
LONG_896 = (b"abcdefghbcdefghicdefghijdefghijkefghijklfghijklmghijklmn"
            b"hijklmnoijklmnopjklmnopqklmnopqrlmnopqrsmnopqrstnopqrstu")

# (what it is, line, published answer)
PUBLISHED = [
    ("SHA-256 of FIPS 180-4, published example: one block", "sha256 " + b"abc".hex(),
     "ba7816bf8f01cfea414140de5dae2223b00361a396177a9cb410ff61f20015ad"),
    ("SHA-256 of FIPS 180-4, published example: two blocks, 448 bits",
     "sha256 " + LONG_448.hex(),
     "248d6a61d20638b8e5c026930c3e6039a33ce45964ff2167f6ecedd419db06c1"),
    ("SHA-256 of FIPS 180-4, published example: 896 bits", "sha256 " + LONG_896.hex(),
     "cf5b16a778af8380036ce59e7b0492370b249b11e8f07a51afac45037afee9d1"),
    ("SHA-256 of FIPS 180-4, published example: no bytes", "sha256 -",
     "e3b0c44298fc1c149afbf4c8996fb92427ae41e4649b934ca495991b7852b855"),
    ("SHA-256 of FIPS 180-4, published example: a million times a",
     "repeat-sha256 1000000 61",
     "cdc76e5c9914fb9281a1c7e284d73e67f1809a48a497200e046d39ccc7112cd0"),
    ("BLAKE2s of RFC 7693, the example of its appendix", "blake2s " + b"abc".hex(),
     "508c5e8c327c14e2e1a72ba34eeb452f37458b209ed63a294d999b4c86675982"),
]


def filler(length, step=7, first=3):
    return bytes((place * step + first) % 256 for place in range(length))


def write_hex(data):
    return data.hex() if data else "-"


def read_hex(word):
    """The bytes of a word, or None if it is not hex as the lines have it."""
    if word == b"-":
        return b""
    if not word or len(word) % 2 or any(x not in b"0123456789abcdef" for x in word):
        return None
    return bytes.fromhex(word.decode("ascii"))


def read_count(word):
    if not word or any(x not in b"0123456789" for x in word):
        return None
    count = int(word)
    return count if count <= MAX_COUNT else None


# What each kind of line answers: the words behind the first one to a digest,
# or None where they are not understood.

def answer_pieces(digest, words):
    pieces = [read_hex(word) for word in words]
    if not pieces or None in pieces:
        return None
    state = digest()
    for piece in pieces:
        state.update(piece)
    return state.digest()


def answer_hmac(digest, words):
    if len(words) != 2:
        return None
    key, text = map(read_hex, words)
    if key is None or text is None or len(key) != 32:
        return None
    return hmac.new(key, text, digest).digest()


def answer_repeated(digest, words):
    if len(words) != 2:
        return None
    count, piece = read_count(words[0]), read_hex(words[1])
    if count is None or piece is None:
        return None
    return digest(piece * count).digest()


WORDS = {}
for _name, _digest in DIGESTS.items():
    WORDS[_name] = (answer_pieces, _digest)
    WORDS["hmac-" + _name] = (answer_hmac, _digest)
    WORDS["repeat-" + _name] = (answer_repeated, _digest)


def answer(line):
    """What a line prints, without its end, or None if it prints nothing."""
    if not line or line.startswith(b"#"):
        return None
    first, *words = line.split(b" ")
    kind = WORDS.get(first.decode("latin-1"))
    digest = kind[0](kind[1], words) if kind else None
    return "not understood" if digest is None else digest.hex()


def check_published():
    for where, line, expected in PUBLISHED:
        if answer(line.encode("ascii")) != expected:
            sys.exit(f"{where}: hashlib answers otherwise")
    assert DIGESTS["sha256"]().block_size == DIGESTS["blake2s"]().block_size == 64
    # RFC 2104 written out, against Python's hmac.
    key, text = filler(32, 5, 11), filler(70)
    for digest in DIGESTS.values():
        inner = digest(bytes(x ^ 0x36 for x in key + bytes(32)) + text).digest()
        outer = digest(bytes(x ^ 0x5C for x in key + bytes(32)) + inner).digest()
        assert hmac.new(key, text, digest).digest() == outer


# The lines, group by group.

def published():
    for where, line, _ in PUBLISHED:
        yield f"# {where}"
        yield line


def one_piece(name):
    yield f"# {name}: all lengths from 0 to 200"
    for length in range(201):
        yield f"{name} {write_hex(filler(length))}"
    yield f"# {name}: equal bytes around the block, so that a wrong filling shows"
    for byte in (0x00, 0x80, 0xFF):
        for length in (55, 56, 57, 63, 64, 65, 119, 120, 127, 128, 129):
            yield f"{name} {write_hex(bytes([byte]) * length)}"
    yield f"# {name}: around 4,096 and 65,536 bytes"
    for length in (4095, 4096, 4097, 65535, 65536, 65537):
        yield f"{name} {write_hex(filler(length, 13, 1))}"


def pieces(name):
    text = filler(200)
    places = [*range(60, 71), *range(120, 136)]

    def cut(*where):
        ends = [0, *where, len(text)]
        parts = (text[a:b] for a, b in zip(ends, ends[1:]))
        return " ".join([name, *map(write_hex, parts)])

    yield f"# {name}: 200 bytes cut in two around 64 and 128"
    for place in (0, 1, *places, 199, 200):
        yield cut(place)
    yield f"# {name}: 200 bytes cut in three"
    near = (1, 63, 64, 65, 127, 128, 129, 191, 192, 193)
    for first in near:
        for second in near:
            if first <= second:
                yield cut(first, second)
    yield f"# {name}: 200 bytes one by one, and by threes and by 64"
    for step in (1, 3, 64):
        yield cut(*range(step, len(text), step))
    yield f"# {name}: empty pieces between"
    yield cut(0, 0)
    yield cut(0, 64, 64, 128, 128, 200)
    yield cut(63, 63, 65, 65)
    for length in (0, 1, 63, 64, 65, 128):
        part = write_hex(text[:length])
        yield f"{name} - {part}"
        yield f"{name} {part} -"
        yield f"{name} - - {part} - -"
    yield f"# {name}: a long text in uneven pieces"
    long = filler(4097, 11, 5)
    ends = [0, 1, 64, 192, 193, 1000, 1024, 2048, 2111, 4096, 4097]
    yield " ".join([name, *(write_hex(long[a:b]) for a, b in zip(ends, ends[1:]))])


def repeats(name):
    yield f"# {name}: the same piece many times"
    for count, length in ((0, 1), (0, 0), (1, 0), (5, 0), (1, 1), (2, 64), (3, 63),
                          (63, 1), (64, 1), (65, 1), (127, 3), (1000, 65),
                          (1000, 128), (999999, 1)):
        yield f"repeat-{name} {count} {write_hex(filler(length))}"
    yield f"repeat-{name} 0007 {filler(7).hex()}"
    yield f"repeat-{name} 1000000 {filler(1).hex()}"


def hmacs(name):
    yield f"# hmac-{name}"
    keys = [bytes(32), b"\xff" * 32, b"\x36" * 32, b"\x5c" * 32, bytes(31) + b"\x01",
            b"\x80" + bytes(31)]
    keys += [filler(32, step, first) for step, first in
             ((1, 0), (7, 3), (31, 200), (85, 17), (129, 64), (251, 255))]
    for key in keys:
        for length in (0, 1, 31, 32, 63, 64, 65, 119, 120, 128, 1000):
            yield f"hmac-{name} {key.hex()} {write_hex(filler(length, 3, key[-1]))}"


def not_understood(name):
    key = filler(32).hex()
    yield f"# {name}: not understood"
    yield name
    yield f"{name} "
    yield f"{name} AB"
    yield f"{name} aB"
    yield f"{name} a"
    yield f"{name} abc"
    yield f"{name} 0x"
    yield f"{name} 0g"
    yield f"{name} --"
    yield f"{name}  61"
    yield f"{name} 61  62"
    yield f"{name} 61 62 "
    yield f"{name} 61 6"
    yield f"{name} 61\t62"
    yield f" {name} 61"
    yield f"{name}x 61"
    yield f"{name.upper()} 61"
    yield f"hmac-{name}"
    yield f"hmac-{name} {key}"
    yield f"hmac-{name} {key} "
    yield f"hmac-{name} {key[:62]} 61"
    yield f"hmac-{name} {key}00 61"
    yield f"hmac-{name} {key[:63]} 61"
    yield f"hmac-{name} - 61"
    yield f"hmac-{name} {key.upper()} 61"
    yield f"hmac-{name} {key} 61 62"
    yield f"hmac-{name} {key}  61"
    yield f"hmac-{name} {key} 6"
    yield f"repeat-{name}"
    yield f"repeat-{name} 5"
    yield f"repeat-{name} 5 "
    yield f"repeat-{name} - 61"
    yield f"repeat-{name} -1 61"
    yield f"repeat-{name} 1000001 61"
    yield f"repeat-{name} 18446744073709551617 61"
    yield f"repeat-{name} 1x 61"
    yield f"repeat-{name}  1 61"
    yield f"repeat-{name} 1 61 62"
    yield f"repeat-{name} 1 6"


def edges():
    yield "# words that are in no table, blank lines and comments"
    yield "md5 61"
    yield "sha"
    yield "hmac"
    yield "61"
    yield "-"
    yield " "
    yield ""
    yield "#"
    yield "#sha256 61"
    yield " # 61"
    yield ""


def lines():
    yield from published()
    for name in DIGESTS:
        yield from one_piece(name)
        yield from pieces(name)
        yield from repeats(name)
        yield from hmacs(name)
        yield from not_understood(name)
    yield from edges()
    yield "# the last line has no end"
    yield "sha256 " + b"end".hex()


def main():
    check_published()
    line_tools.run(__doc__, lines, answer)


if __name__ == "__main__":
    main()
