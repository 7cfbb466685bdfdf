"""Writes lines that try the families, and says what they should give:

    python3 make_family_lines.py > lines
    python3 make_family_lines.py answers < lines

The answers come from families.py. Some are known by hand and stand here; both
uses stop if families.py answers otherwise, if a field breaks a law of fields,
or if a small family is not as strong as it says.
"""

import sys
from itertools import combinations

import line_tools
from families import (COEFFICIENT_COUNTS, FIELD_SIZES, Halves, Plane, Polynomial, Single,
                      choose, half_full, make_field)
from sheet import MAX_BLOCKS
from words import NotUnderstood, read_kind, read_number, write_family


def call(words):
    # All words are read before a family is made, so that a bad word shows
    # even where the family would be refused.
    match words:
        case [b"family", kind, *numbers]:
            maker, arguments = read_kind(kind, numbers)
            return write_family(maker(*arguments))
        case [b"rows", block, kind, *numbers]:
            j = read_number(block)
            maker, arguments = read_kind(kind, numbers)
            return " ".join(["rows", *map(str, maker(*arguments).rows_of(j))])
        case [b"choose", count, wanted]:
            n, d = read_number(count), read_number(wanted)
            return write_family(choose(n, d))
    raise NotUnderstood


def answer(line):
    return line_tools.answer(line, call)


# What must hold before anything is written.

BY_HAND = [
    ("family halves 6", "family 2 0 0 6 4 1"),
    ("rows 5 halves 6", "rows 2 4"),
    ("family halves 7", "family 2 0 0 7 5 1"),
    ("family halves 1", "family 2 0 0 1 2 1"),
    ("rows 1 halves 1", "rows 1"),
    ("rows 2 halves 1", "rows"),
    ("rows 0 halves 1", "rows"),
    ("rows 9 polynomial 5 3 125", "rows 4 10 11 17 23"),
    ("rows 26 polynomial 5 3 125", "rows 1 7 15 20 22"),
    ("choose 125 2", "family 3 5 3 125 25 2"),
    ("choose 126 2", "family 3 7 4 126 49 2"),
    ("choose 10 8", "refused 6"),
    ("choose 0 8", "refused 5"),
    ("choose 513 0", "refused 5"),
    ("family polynomial 6 2 0", "refused 6"),
    ("family polynomial 5 5 513", "refused 6"),
    ("family polynomial 5 2 26", "refused 5"),
    ("family plane 12", "family 4 0 0 12 9 2"),
    ("family plane 13", "refused 5"),
    ("family single 512", "family 1 0 0 512 512 512"),
    ("rows 12 plane 12", "rows 3 5 7"),
    ("rows 12 plane 11", "rows"),
    ("rows 70000 single 0", "not understood"),
    ("family polynomial 300 2 0", "not understood"),
]

# How many blocks halves can tell apart with 2, 3, .. 12 rows.
HALVES_LIMITS = [2, 3, 6, 10, 20, 35, 70, 126, 252, 462, 924]


def check_by_hand():
    for line, expected in BY_HAND:
        if answer(line.encode("ascii")) != expected:
            sys.exit(f"{line}: {answer(line.encode('ascii'))}, by hand {expected}")
    assert [len(half_full(t)) for t in range(2, 13)] == HALVES_LIMITS
    assert make_field(8).multiply(2, 4) == 3
    assert make_field(8).multiply(7, 7) == 3
    assert make_field(16).multiply(2, 8) == 3


def check_fields():
    for q in FIELD_SIZES:
        field = make_field(q)
        add, multiply = field.add, field.multiply
        elements = range(q)
        for a in elements:
            assert add(a, 0) == a and multiply(a, 1) == a
            assert any(add(a, b) == 0 for b in elements)
            assert a == 0 or any(multiply(a, b) == 1 for b in elements)
            for b in elements:
                assert add(a, b) in elements and multiply(a, b) in elements
                assert add(a, b) == add(b, a) == add(a + q, b + 2 * q)
                assert multiply(a, b) == multiply(b, a) == multiply(a + q, b + 2 * q)
                for c in elements:
                    assert add(add(a, b), c) == add(a, add(b, c))
                    assert multiply(multiply(a, b), c) == multiply(a, multiply(b, c))
                    assert (multiply(a, add(b, c))
                            == add(multiply(a, b), multiply(a, c)))


def check_strength(family):
    """Tries every block against every set of d others (or all, if fewer)."""
    # The rows of a block as bits of a number. Sets of fewer than d blocks
    # touch no more rows than the larger sets that hold them.
    bits = [sum(1 << i for i in family.rows_of(j)) for j in range(1, family.n + 1)]
    assert all(0 < x < 2 << family.t and not x & 1 for x in bits)
    for place, own in enumerate(bits):
        others = bits[:place] + bits[place + 1:]
        for chosen in combinations(others, min(family.d, len(others))):
            touched = 0
            for x in chosen:
                touched |= x
            assert own & ~touched, show(family)


def check_strengths():
    for n in range(1, 8):
        check_strength(Single(n))
    for n in (*range(1, 22), 35, 36, 126, 127):
        check_strength(Halves(n))
    for n in range(1, 13):
        check_strength(Plane(n))
    for q, k, n in ((5, 2, 16), (5, 3, 60), (5, 4, 150), (7, 2, 12), (7, 3, 20), (7, 4, 55),
                    (8, 2, 12), (8, 3, 20), (8, 4, 70), (11, 2, 13), (11, 3, 13),
                    (11, 4, 20), (13, 2, 15), (13, 3, 13), (13, 4, 16), (16, 2, 18),
                    (16, 3, 13), (16, 4, 13)):
        check_strength(Polynomial(q, k, n))
    # At full size there are too many sets to try. There each block has q rows
    # and shares at most k - 1 of them with any other, from which d follows.
    for q in FIELD_SIZES:
        for k in COEFFICIENT_COUNTS:
            family = Polynomial(q, k, min(q ** k, MAX_BLOCKS))
            rows = [set(family.rows_of(j)) for j in range(1, family.n + 1)]
            assert all(len(x) == q and family.d * (k - 1) < q for x in rows)
            assert all(len(x & y) < k for x, y in combinations(rows, 2))


# The lines, group by group.

def every(n):
    """Block 0, every block, and one beyond."""
    return range(n + 2)


def spread(n, many):
    """Some blocks from all over 1 to n, the first and last ones, and one beyond."""
    # 37 has no factor in common with the n used here, so that the low and
    # the high digits of the block number both change from one to the next.
    some = {1 + place * 37 % n for place in range(many)}
    return sorted(some | {1, 2, 3, n - 2, n - 1, n, n + 1})


def singles():
    yield "# single"
    for n in (0, 1, 2, 3, 4, 12, 13, 100, 255, 256, 257, 511, 512, 513, 514, 768, 65535):
        yield f"family single {n}"
    for n in (1, 2, 3):
        for j in (*every(n), 65535):
            yield f"rows {j} single {n}"
    for j in (0, 1, 2, 3, 100, 255, 256, 257, 258, 400, 511, 512, 513, 514, 768, 1025,
              65535):
        yield f"rows {j} single 512"
    for n in (0, 513, 65535):
        for j in (0, 1, 65535):
            yield f"rows {j} single {n}"


def halves():
    yield "# halves: every size"
    for n in range(515):
        yield f"family halves {n}"
    for n in (768, 924, 925, 1024, 65535):
        yield f"family halves {n}"
    yield "# halves: rows of blocks"
    for n in (1, 2, 3, 4, 6, 7, 10, 11, 20, 21, 35, 36, 70, 71, 126, 127, 512):
        for j in every(n):
            yield f"rows {j} halves {n}"
    for n in (252, 253, 462, 463):
        for j in spread(n, 120):
            yield f"rows {j} halves {n}"
    for j in (514, 768, 924, 925, 1025, 65535):
        yield f"rows {j} halves 512"
    for n in (0, 513, 924, 65535):
        for j in (0, 1, 513):
            yield f"rows {j} halves {n}"


def planes():
    yield "# plane"
    for n in (*range(15), 256, 257, 268, 512, 513, 65535):
        yield f"family plane {n}"
    for n in (1, 11, 12):
        for j in (*every(n), 14, 257, 65535):
            yield f"rows {j} plane {n}"
    for n in (0, 13, 513):
        for j in (0, 1, 13):
            yield f"rows {j} plane {n}"


WRONG_Q = (0, 1, 2, 3, 4, 6, 9, 10, 12, 14, 15, 17, 255)
WRONG_K = (0, 1, 5, 255)


def polynomials():
    yield "# polynomial: sizes"
    for q in FIELD_SIZES:
        for k in COEFFICIENT_COUNTS:
            edges = {q ** k - 1, q ** k, q ** k + 1, q ** (k - 1), 0, 1, 2, 511, 512, 513,
                     514, 65535}
            for n in sorted(edges):
                if n <= 514 or n == 65535:
                    yield f"family polynomial {q} {k} {n}"
    yield "# polynomial: no such q or k, also together with a wrong size"
    for q in (*FIELD_SIZES, *WRONG_Q):
        for k in (*COEFFICIENT_COUNTS, *WRONG_K):
            if q in WRONG_Q or k in WRONG_K:
                for n in (0, 1, 16, 513):
                    yield f"family polynomial {q} {k} {n}"
    for q, k in ((6, 2), (5, 1), (4, 5)):
        for j in (0, 1):
            for n in (0, 1, 26, 65535):
                yield f"rows {j} polynomial {q} {k} {n}"
    for q, k, n in ((5, 2, 26), (7, 2, 50), (8, 4, 513), (16, 2, 257), (13, 3, 0)):
        for j in (0, 1, n):
            yield f"rows {j} polynomial {q} {k} {n}"


def polynomial_rows():
    for q in FIELD_SIZES:
        for k in COEFFICIENT_COUNTS:
            full = min(q ** k, MAX_BLOCKS)
            yield f"# polynomial: rows of blocks, q = {q}, k = {k}"
            for n in (1, q, q + 2, full - 1):
                for j in sorted({0, 1, n - 1, n, n + 1}):
                    yield f"rows {j} polynomial {q} {k} {n}"
            blocks = every(full) if full <= 125 else spread(full, 130)
            # Around each power of q one more coefficient comes into use.
            powers = (q ** place + step for place in range(1, 4) for step in (0, 1, 2))
            for j in sorted({*blocks, *powers, 65535}):
                yield f"rows {j} polynomial {q} {k} {full}"


def choices():
    yield "# choose: every size"
    for d in (1, 2, 3, 4, 6, 7):
        for n in range(515):
            yield f"choose {n} {d}"
    yield "# choose: every strength"
    sizes = {0, 1, 2, 5, 10, 12, 90, 200, 300, 400, 500, 511, 512, 513, 514, 65535}
    for q in FIELD_SIZES:
        for k in COEFFICIENT_COUNTS:
            if q ** k <= MAX_BLOCKS:
                sizes |= {q ** k - 1, q ** k, q ** k + 1}
    for n in sorted(sizes):
        for d in range(21):
            yield f"choose {n} {d}"
    yield "# choose: great numbers"
    for d in (30, 127, 128, 255, 256, 257, 258, 259, 511, 512, 513, 514, 32769, 65534, 65535):
        for n in (0, 1, 10, 512, 513, 65535):
            yield f"choose {n} {d}"
    for n in (257, 258, 700, 768, 924, 1024, 1025, 32768, 32769, 65534):
        for d in (0, 1, 2, 8):
            yield f"choose {n} {d}"


def leading_zeros():
    yield "# leading zeros"
    yield "family single 0001"
    yield "family single 000"
    yield "family halves 00000000000000000000000000000006"
    yield "family polynomial 0005 00003 0000125"
    yield "family plane 012"
    yield "rows 005 halves 06"
    yield "rows 00000000009 polynomial 0005 03 125"
    yield "rows 00 plane 12"
    yield "choose 00125 02"
    yield "choose 0065535 0065535"
    yield "choose 7 " + "0" * 300 + "1"


def not_understood():
    yield "# not understood: a number too large"
    yield "family single 65536"
    yield "family single 65537"
    yield "family halves 065536"
    yield "family plane 99999"
    yield "family plane 4294967297"
    yield "family halves 18446744073709551617"
    yield "family single 1" + "0" * 60
    yield "family polynomial 256 2 1"
    yield "family polynomial 261 2 1"
    yield "family polynomial 5 256 1"
    yield "family polynomial 5 258 1"
    yield "family polynomial 5 2 65536"
    yield "family polynomial 300 2 0"
    yield "family polynomial 6 300 0"
    yield "rows 70000 single 0"
    yield "rows 65536 single 1"
    yield "rows 1 single 65536"
    yield "rows 1 polynomial 256 2 1"
    yield "rows 1 polynomial 5 256 1"
    yield "choose 65536 1"
    yield "choose 1 65536"
    yield "choose 0 65537"
    yield "choose 4294967297 1"
    yield "choose 1 18446744073709551617"
    yield "# not understood: no number"
    yield "family single -1"
    yield "family single +1"
    yield "family single -"
    yield "family single x"
    yield "family single 1x"
    yield "family single x1"
    yield "family single 1.0"
    yield "family single 0x1"
    yield "family single 1_0"
    yield "family single 1,000"
    yield "family single 1\r"
    yield "family single 1\t"
    yield "family single 1\0"
    yield "family single /"
    yield "family single :"
    # Two bytes that UTF-8 reads as a digit of another script.
    yield "family single \xd9\xa1"
    yield "family polynomial five 2 1"
    yield "family polynomial 5 - 1"
    yield "rows -1 single 1"
    yield "rows x single 1"
    yield "choose x 1"
    yield "choose 1 -1"
    yield "choose 1 +1"
    yield "# not understood: spaces"
    yield " "
    yield "  "
    yield " family single 1"
    yield "family  single 1"
    yield "family single  1"
    yield "family single 1 "
    yield "family single "
    yield "family polynomial 5  2 1"
    yield "family polynomial 5 2 1 "
    yield "family polynomial 5 2 "
    yield " rows 1 single 1"
    yield "rows  1 single 1"
    yield "rows  single 1"
    yield "rows 1  single 1"
    yield "rows 1 single 1 "
    yield " choose 1 1"
    yield "choose  1 1"
    yield "choose 1  1"
    yield "choose 1 1 "
    yield "choose 1 "
    yield " # no comment"
    yield "family\tsingle 1"
    yield "choose 1\t1"
    yield "# not understood: a word too few or too many"
    yield "family"
    yield "family single"
    yield "family halves 1 1"
    yield "family plane"
    yield "family plane 1 1"
    yield "family polynomial"
    yield "family polynomial 5"
    yield "family polynomial 5 2"
    yield "family polynomial 5 2 1 1"
    yield "family single 5 2 1"
    yield "rows"
    yield "rows 1"
    yield "rows 1 single"
    yield "rows single 1"
    yield "rows 1 single 1 1"
    yield "rows 1 polynomial 5 2"
    yield "rows 1 polynomial 5 2 1 1"
    yield "rows 1 1"
    yield "choose"
    yield "choose 1"
    yield "choose 1 1 1"
    yield "choose single 1 1"
    yield "# not understood: another word"
    yield "Family single 1"
    yield "FAMILY SINGLE 1"
    yield "family Single 1"
    yield "family half 1"
    yield "family planes 1"
    yield "family 1 1"
    yield "family field 5"
    yield "families single 1"
    yield "row 1 single 1"
    yield "rows 1 singl 1"
    yield "chooses 1 1"
    yield "choos 1 1"
    yield "single 1"
    yield "1"
    yield "-"
    yield "\r"
    yield "\xff\x80 1"


def edges():
    yield "# blank lines and comments"
    yield ""
    yield ""
    yield "#"
    yield "#family single 1"
    yield "## choose 1 1"


def lines():
    yield "# known by hand"
    for line, _ in BY_HAND:
        yield line
    yield from singles()
    yield from halves()
    yield from planes()
    yield from polynomials()
    yield from polynomial_rows()
    yield from choices()
    yield from leading_zeros()
    for line in not_understood():
        assert line.startswith("# ") or answer(line.encode("latin-1")) == "not understood", line
        yield line
    yield from edges()
    yield "# the last line has no end"
    yield "choose 512 3"


def main():
    check_by_hand()
    check_fields()
    check_strengths()
    line_tools.run(__doc__, lines, answer)


if __name__ == "__main__":
    main()
