"""Writes lines that try LMS keys, and says what they should give:

    python3 make_lms_lines.py > lines
    python3 make_lms_lines.py answers < lines

    lms-root I SEED                            -> root HEX
    lms-sign I SEED LEAF TEXT                  -> signature HEX
    lms-verify PUBLIC NUMBER TEXT SIGNATURE    -> yes or no

PUBLIC is I and the root. Yes means that RFC 8554 accepts the signature and
that its leaf is the number. The answers come from lms.py. What RFC 8554 has
published stands here, and both uses stop if lms.py answers otherwise.
"""

import sys

import line_tools
import lms
from words import (read_drawn, read_exactly, read_hex, read_I, read_number, read_seed,
                   write_hex)

PUBLIC_BYTES = lms.I_BYTES + lms.N


# Readers of the words of a line.

def read_leaf(word):
    return read_number(word, lms.LEAVES - 1)


def read_public(word):
    return read_exactly(word, PUBLIC_BYTES)


# What the lines call.

def show_root(I, seed):
    return f"root {lms.root(I, seed).hex()}"


def show_signature(I, seed, leaf, text):
    return f"signature {lms.sign(I, seed, leaf, text).hex()}"


def verify(public, number, text, signature):
    I, root = public[:lms.I_BYTES], public[lms.I_BYTES:]
    return "yes" if lms.inspect(I, root, number, text, signature) else "no"


# First word -> what it calls, and one reader for each further word.
WORDS = {
    b"lms-root": (show_root, [read_I, read_seed]),
    b"lms-sign": (show_signature, [read_I, read_seed, read_leaf, read_hex]),
    b"lms-verify": (verify, [read_public, read_drawn, read_hex, read_hex]),
}


def call(words):
    return line_tools.call_by(WORDS, words)


def answer(line):
    return line_tools.answer(line, call)


# What RFC 8554 has published for these parameters, in its Appendix F.

# Test case 1: the upper key, and its signature of the lower public key.
CASE_1_PUBLIC = bytes.fromhex(
    "61a5d57d37f5e46bfb7520806b07a1b8"
    "50650e3b31fe4a773ea29a07f09cf2ea30e579f0df58ef8e298da0434cb2b878")
CASE_1_TEXT = bytes.fromhex(
    "0000000500000004d2f14ff6346af964569f7d6cb880a1b6"
    "6c5004917da6eafe4d9ef6c6407b3db0e5485b122d9ebe15cda93cfec582d7ab")
CASE_1_LEAF = 5
CASE_1_SIGNATURE = bytes.fromhex("""
    00000005 00000004
    d32b56671d7eb98833c49b433c272586bc4a1c8a8970528ffa04b966f9426eb9
    965a25bfd37f196b9073f3d4a232feb69128ec45146f86292f9dff9610a7bf95
    a64c7f60f6261a62043f86c70324b7707f5b4a8a6e19c114c7be866d488778a0
    e05fd5c6509a6e61d559cf1a77a970de927d60c70d3de31a7fa0100994e162a2
    582e8ff1b10cd99d4e8e413ef469559f7d7ed12c838342f9b9c96b83a4943d16
    81d84b15357ff48ca579f19f5e71f18466f2bbef4bf660c2518eb20de2f66e3b
    14784269d7d876f5d35d3fbfc7039a462c716bb9f6891a7f41ad133e9e1f6d95
    60b960e7777c52f060492f2d7c660e1471e07e72655562035abc9a701b473ecb
    c3943c6b9c4f2405a3cb8bf8a691ca51d3f6ad2f428bab6f3a30f55dd9625563
    f0a75ee390e385e3ae0b906961ecf41ae073a0590c2eb6204f44831c26dd768c
    35b167b28ce8dc988a3748255230cef99ebf14e730632f27414489808afab1d1
    e783ed04516de012498682212b07810579b250365941bcc98142da13609e9768
    aaf65de7620dabec29eb82a17fde35af15ad238c73f81bdb8dec2fc0e7f93270
    1099762b37f43c4a3c20010a3d72e2f606be108d310e639f09ce7286800d9ef8
    a1a40281cc5a7ea98d2adc7c7400c2fe5a101552df4e3cccfd0cbf2ddf5dc677
    9cbbc68fee0c3efe4ec22b83a2caa3e48e0809a0a750b73ccdcf3c79e6580c15
    4f8a58f7f24335eec5c5eb5e0cf01dcf4439424095fceb077f66ded5bec73b27
    c5b9f64a2a9af2f07c05e99e5cf80f00252e39db32f6c19674f190c9fbc506d8
    26857713afd2ca6bb85cd8c107347552f30575a5417816ab4db3f603f2df56fb
    c413e7d0acd8bdd81352b2471fc1bc4f1ef296fea1220403466b1afe78b94f7e
    cf7cc62fb92be14f18c2192384ebceaf8801afdf947f698ce9c6ceb696ed70e9
    e87b0144417e8d7baf25eb5f70f09f016fc925b4db048ab8d8cb2a661ce3b57a
    da67571f5dd546fc22cb1f97e0ebd1a65926b1234fd04f171cf469c76b884cf3
    115cce6f792cc84e36da58960c5f1d760f32c12faef477e94c92eb75625b6a37
    1efc72d60ca5e908b3a7dd69fef0249150e3eebdfed39cbdc3ce9704882a2072
    c75e13527b7a581a556168783dc1e97545e31865ddc46b3c957835da252bb732
    8d3ee2062445dfb85ef8c35f8e1f3371af34023cef626e0af1e0bc017351aae2
    ab8f5c612ead0b729a1d059d02bfe18efa971b7300e882360a93b025ff97e9e0
    eec0f3f3f13039a17f88b0cf808f488431606cb13f9241f40f44e537d302c64a
    4f1f4ab949b9feefadcb71ab50ef27d6d6ca8510f150c85fb525bf25703df720
    9b6066f09c37280d59128d2f0f637c7d7d7fad4ed1c1ea04e628d221e3d8db77
    b7c878c9411cafc5071a34a00f4cf07738912753dfce48f07576f0d4f94f42c6
    d76f7ce973e9367095ba7e9a3649b7f461d9f9ac1332a4d1044c96aefee67676
    401b64457c54d65fef6500c59cdfb69af7b6dddfcb0f086278dd8ad0686078df
    b0f3f79cd893d314168648499898fbc0ced5f95b74e8ff14d735cdea968bee74
    00000005
    d8b8112f9200a5e50c4a262165bd342cd800b8496810bc716277435ac376728d
    129ac6eda839a6f357b5a04387c5ce97382a78f2a4372917eefcbf93f63bb591
    12f5dbe400bd49e4501e859f885bf0736e90a509b30a26bfac8c17b5991c157e
    b5971115aa39efd8d564a6b90282c3168af2d30ef89d51bf14654510a12b8a14
    4cca1848cf7da59cc2b3d9d0692dd2a20ba3863480e25b1b85ee860c62bf5136
""")

# Test case 2: the lower key, made by Appendix A, and how its signature begins.
CASE_2_I = bytes.fromhex("215f83b7ccb9acbcd08db97b0d04dc2b")
CASE_2_SEED = bytes.fromhex(
    "a1c4696e2608035a886100d05cd99945eb3370731884a8235e2fb3d4d71f2547")
CASE_2_ROOT = bytes.fromhex(
    "a1cd035833e0e90059603f26e07ad2aad152338e7a5e5984bcd5f7bb4eba40b7")
CASE_2_TEXT = (b"The enumeration in the Constitution, of certain rights, shall not be "
               b"construed to deny or disparage others retained by the people.\n")
CASE_2_LEAF = 4
CASE_2_BEGINNING = bytes.fromhex(
    "0000000400000004"
    "0eb1ed54a2460d512388cad533138d240534e97b1e82d33bd927d201dfc24ebb"
    "11b3649023696f85150b189e50c00e98850ac343a77b3638319c347d7310269d")


def check_published():
    assert verify(CASE_1_PUBLIC, CASE_1_LEAF, CASE_1_TEXT, CASE_1_SIGNATURE) == "yes"
    assert lms.root(CASE_2_I, CASE_2_SEED) == CASE_2_ROOT
    signature = lms.sign(CASE_2_I, CASE_2_SEED, CASE_2_LEAF, CASE_2_TEXT)
    assert signature.startswith(CASE_2_BEGINNING)
    assert verify(CASE_2_I + CASE_2_ROOT, CASE_2_LEAF, CASE_2_TEXT, signature) == "yes"
    assert len(signature) == len(CASE_1_SIGNATURE) == 1292


# The lines, group by group.

def filler(length, step=7, first=3):
    return bytes((place * step + first) % 256 for place in range(length))


I = filler(16, 37, 11)
SEED = filler(32, 29, 5)
OTHER_I = I[:-1] + b"\x5a"
OTHER_SEED = SEED[:-1] + b"\x5a"


def public(I=I, seed=SEED):
    return I + lms.root(I, seed)


def root_line(I, seed):
    return f"lms-root {I.hex()} {seed.hex()}"


def sign_line(leaf, text, I=I, seed=SEED):
    return f"lms-sign {I.hex()} {seed.hex()} {leaf} {write_hex(text)}"


def verify_line(public, number, text, signature):
    return (f"lms-verify {public.hex()} {number} {write_hex(text)} "
            f"{write_hex(signature)}")


def published():
    yield "# published: RFC 8554, Appendix F"
    yield verify_line(CASE_1_PUBLIC, CASE_1_LEAF, CASE_1_TEXT, CASE_1_SIGNATURE)
    for number in (0, 4, 6, 37, 2 ** 32 - 1):
        yield verify_line(CASE_1_PUBLIC, number, CASE_1_TEXT, CASE_1_SIGNATURE)
    yield root_line(CASE_2_I, CASE_2_SEED)
    yield sign_line(CASE_2_LEAF, CASE_2_TEXT, CASE_2_I, CASE_2_SEED)
    yield verify_line(CASE_2_I + CASE_2_ROOT, CASE_2_LEAF, CASE_2_TEXT,
                      lms.sign(CASE_2_I, CASE_2_SEED, CASE_2_LEAF, CASE_2_TEXT))


def roots():
    yield "# lms-root: keys of all kinds of bytes"
    for some_I, seed in ((bytes(16), bytes(32)), (b"\xff" * 16, b"\xff" * 32), (I, SEED),
                         (OTHER_I, SEED), (I, OTHER_SEED)):
        yield root_line(some_I, seed)


def signatures():
    yield "# lms-sign and lms-verify: each leaf"
    for leaf in range(lms.LEAVES):
        text = filler(leaf * 5, first=leaf)
        yield sign_line(leaf, text)
        signature = lms.sign(I, SEED, leaf, text)
        yield verify_line(public(), leaf, text, signature)
        yield verify_line(public(), leaf ^ 1, text, signature)
    yield "# lms-sign: a leaf with leading zeros, texts around a block's end"
    yield sign_line("0000000000031", b"a")
    for length in (8, 9, 10, 72, 73, 74, 1000):
        yield sign_line(7, filler(length))
    yield sign_line(0, b"")


def numbers():
    yield "# lms-verify: only the leaf is the right number"
    signature = lms.sign(I, SEED, 9, b"text")
    for number in (*range(34), 9 + 32, 9 + 256, 9 + 65536, 2 ** 31 + 9, 2 ** 32 - 1,
                   "009", "0" * 40 + "9"):
        yield verify_line(public(), number, b"text", signature)


def changed(signature, place, bit):
    data = bytearray(signature)
    data[place] ^= bit
    return bytes(data)


def changes():
    signature, text = lms.sign(I, SEED, 9, b"text"), b"text"
    ots_end = 8 + lms.N * (1 + lms.P)
    yield "# lms-verify: one bit of the signature changed"
    places = {*range(8), *range(ots_end, ots_end + 4)}
    # The first and the last byte of each hash.
    for start in [*range(8, ots_end, lms.N), *range(ots_end + 4, len(signature), lms.N)]:
        places |= {start, start + lms.N - 1}
    for place in sorted(places):
        yield verify_line(public(), 9, text, changed(signature, place, 1 << place % 8))
    yield "# lms-verify: the leaf's number changed, in the signature and in the question"
    for q in (0, 8, 10, 11, 31, 32, 41, 255, 256 + 9, 2 ** 31, 2 ** 32 - 32, 2 ** 32 - 1):
        for number in (9, q):
            yield verify_line(public(), number, text, q.to_bytes(4, "big") + signature[4:])
    yield "# lms-verify: other types"
    for kind in (0, 1, 2, 3, 4, 5, 6, 7, 8, 256 + 4, 256 + 5, 2 ** 32 - 1):
        for place, right in ((4, 4), (ots_end, 5)):
            if kind != right:
                yield verify_line(public(), 9, text, signature[:place]
                                  + kind.to_bytes(4, "big") + signature[place + 4:])
    yield "# lms-verify: other lengths"
    for length in (0, 1, 3, 4, 7, 8, 11, 12, 39, 40, ots_end, ots_end + 4, 1260, 1290, 1291):
        yield verify_line(public(), 9, text, signature[:length])
    for tail in (b"\0", bytes(32), signature[-32:], signature):
        yield verify_line(public(), 9, text, signature + tail)
    yield verify_line(public(), 9, text, signature[1:])
    yield verify_line(public(), 9, text, b"\0" + signature[:-1])
    yield "# lms-verify: hashes exchanged"
    for first, second in ((8, 40), (40, 72), (40 + 32 * 32, 40 + 33 * 32),
                          (ots_end + 4, ots_end + 36), (ots_end + 100, ots_end + 132)):
        data = bytearray(signature)
        data[first:first + 32], data[second:second + 32] = (
            data[second:second + 32], data[first:first + 32])
        yield verify_line(public(), 9, text, bytes(data))


def other_keys_and_texts():
    signature, text = lms.sign(I, SEED, 9, b"text"), b"text"
    yield "# lms-verify: another public key"
    for place in (0, 7, 8, 15, 16, 31, 47):
        yield verify_line(changed(public(), place, 0x20), 9, text, signature)
    yield verify_line(public(OTHER_I), 9, text, signature)
    yield verify_line(public(I, OTHER_SEED), 9, text, signature)
    yield verify_line(public(), 9, text, lms.sign(OTHER_I, SEED, 9, text))
    yield verify_line(public(), 9, text, lms.sign(I, OTHER_SEED, 9, text))
    yield verify_line(public()[lms.N:] + public()[:lms.N], 9, text, signature)
    yield "# lms-verify: another text"
    for other in (b"", b"tex", b"text\0", b"Text", b"\0text", text * 2):
        yield verify_line(public(), 9, other, signature)
        yield verify_line(public(), 9, text, lms.sign(I, SEED, 9, other))
    yield "# lms-verify: parts of the signatures of two leaves and of two texts"
    ots_end = 8 + lms.N * (1 + lms.P)
    for other in (lms.sign(I, SEED, 8, text), lms.sign(I, SEED, 9, b"other")):
        for place in (4, 8, 40, 40 + 32 * 17, ots_end, ots_end + 4, len(other) - 32):
            for one, two in ((signature, other), (other, signature)):
                # Two of one leaf have the same types and the same path.
                if one[:place] + two[place:] != signature:
                    yield verify_line(public(), 9, text, one[:place] + two[place:])


def with_C(C, leaf, text):
    """A signature whose randomizer is another one than the key would take."""
    values = [lms.chain(I, leaf, i, 0, digit, lms.secret(I, SEED, leaf, i))
              for i, digit in enumerate(lms.digits(I, leaf, C, text))]
    own = lms.sign(I, SEED, leaf, text)
    return own[:8] + C + b"".join(values) + own[8 + lms.N * (1 + lms.P):]


def other_randomizers():
    yield "# lms-verify: the standard accepts each C that the signature goes with"
    for C in (bytes(32), b"\xff" * 32, filler(32)):
        for leaf in (0, 9, 31):
            yield verify_line(public(), leaf, b"text", with_C(C, leaf, b"text"))


def steps_on():
    yield "# lms-verify: all values taken to their chains' ends, or one step on"
    text = b"text"
    own = lms.sign(I, SEED, 9, text)
    digits = lms.digits(I, 9, own[8:40], text)
    for place in (0, 1, 31, 32, 33):
        start = 40 + 32 * place
        step = lms.chain(I, 9, place, digits[place], digits[place] + 1, own[start:start + 32])
        yield verify_line(public(), 9, text, own[:start] + step + own[start + 32:])
    ends = [lms.chain(I, 9, i, 0, 255, lms.secret(I, SEED, 9, i)) for i in range(lms.P)]
    yield verify_line(public(), 9, text, own[:40] + b"".join(ends) + own[40 + 32 * lms.P:])


def beyond_the_tree():
    yield "# lms-verify: a leaf beyond the tree, under a root that would fit it"
    text = b"text"
    own = lms.sign(I, SEED, 9, text)
    path = [own[-160:][place:place + 32] for place in range(0, 160, 32)]
    for q in (32, 33, 37, 63, 64, 2 ** 16, 2 ** 31, 2 ** 32 - 33):
        C = filler(32)
        starts = [filler(32, 3, i) for i in range(lms.P)]
        values = [lms.chain(I, q, i, 0, digit, starts[i])
                  for i, digit in enumerate(lms.digits(I, q, C, text))]
        ends = [lms.chain(I, q, i, 0, 255, starts[i]) for i in range(lms.P)]
        r, node = 32 + q, lms.leaf(I, q, lms.one_time_key(I, q, ends))
        for other in path:
            r, right = divmod(r, 2)
            node = lms.inner(I, r, other, node) if right else lms.inner(I, r, node, other)
        signature = b"".join([q.to_bytes(4, "big"), own[4:8], C, *values,
                              (5).to_bytes(4, "big"), *path])
        yield verify_line(I + node, q, text, signature)
        yield verify_line(I + node, q % 32, text, signature)


def other_heights():
    yield "# lms-verify: a path too short or too long, under a root that would fit it"
    text = b"text"
    for leaf in (0, 9, 31):
        own = lms.sign(I, SEED, leaf, text)
        nodes = lms.tree(I, SEED)
        for level in range(5):
            node = nodes[32 + leaf >> level]
            yield verify_line(I + node, leaf, text, own[:1132 + 32 * level])
            yield verify_line(I + node, leaf, text, own)
        node = lms.inner(I, 0, filler(32), nodes[1])
        yield verify_line(I + node, leaf, text, own + filler(32))
        yield verify_line(I + node, leaf, text, own)


def not_understood():
    i, seed, both = I.hex(), SEED.hex(), public().hex()
    yield "# not understood: a wrong I, seed or public key"
    for wrong in ("-", i[:30], i[:31], i + "0", i + "00", i.upper(), seed, i[:30] + "0g"):
        yield f"lms-root {wrong} {seed}"
        yield f"lms-sign {wrong} {seed} 0 61"
    for wrong in ("-", seed[:62], seed + "00", seed.upper(), i, "0x" + seed[2:]):
        yield f"lms-root {i} {wrong}"
        yield f"lms-sign {i} {wrong} 0 61"
    for wrong in ("-", both[:94], both + "00", both.upper(), i, seed):
        yield f"lms-verify {wrong} 0 61 62"
    yield "# not understood: a wrong leaf or number"
    for wrong in ("32", "33", "032", "99999", "4294967296", "-", "-1", "+1", "x", "1x", ""):
        yield f"lms-sign {i} {seed} {wrong} 61"
    for wrong in ("4294967296", "18446744073709551616", "-", "-1", "+1", "x", "1.0", ""):
        yield f"lms-verify {both} {wrong} 61 62"
    yield "# not understood: a wrong text or signature"
    for wrong in ("6", "6A", "616", "--", "-61", "0x61", "61\r"):
        yield f"lms-sign {i} {seed} 0 {wrong}"
        yield f"lms-verify {both} 0 {wrong} 62"
        yield f"lms-verify {both} 0 61 {wrong}"
    yield "# not understood: words and spaces"
    for line in ("lms-root", f"lms-root {i}", f"lms-root {i} {seed} 0", f"lms-root {seed} {i}",
                 f"lms-root  {i} {seed}", f"lms-root {i} {seed} ", f" lms-root {i} {seed}",
                 "lms-sign", f"lms-sign {i} {seed}", f"lms-sign {i} {seed} 0",
                 f"lms-sign {i} {seed} 0 61 62", f"lms-sign {i} {seed}  0 61",
                 f"lms-sign {i} {seed} 0 61 ", f"lms-sign {i} {seed} 0 ",
                 "lms-verify", f"lms-verify {both}", f"lms-verify {both} 0",
                 f"lms-verify {both} 0 61", f"lms-verify {both} 0 61 62 63",
                 f"lms-verify {i} {seed} 0 61 62", f"lms-verify {both} 0  61",
                 f"lms {i} {seed}", f"lms-Root {i} {seed}", f"LMS-root {i} {seed}",
                 f"lms-roots {i} {seed}", f"lms_root {i} {seed}", f"root {i} {seed}"):
        yield line


def lines():
    yield from published()
    yield from roots()
    yield from signatures()
    yield from numbers()
    for group, expected in ((changes(), "no"), (other_keys_and_texts(), "no"),
                            (other_randomizers(), "yes"), (steps_on(), "no"),
                            (beyond_the_tree(), "no"), (other_heights(), "no"),
                            (not_understood(), "not understood")):
        for line in group:
            if not line.startswith("# ") and answer(line.encode("ascii")) != expected:
                sys.exit(f"{line}: by hand {expected}")
            yield line
    yield "# blank lines and comments"
    yield ""
    yield "#lms-root"
    yield "# the last line has no end"
    yield sign_line(31, b"end")


def main():
    check_published()
    line_tools.run(__doc__, lines, answer)


if __name__ == "__main__":
    main()
