"""The LMS key of RFC 8554, with LMS_SHA256_M32_H5 and LMOTS_SHA256_N32_W8.

Names in capitals and single letters are the standard's. A private key is made
from a seed by its Appendix A, and so is the randomizer C.
"""

from functools import lru_cache
from hashlib import sha256

from sheet import Refused
from tags import NAME_BYTES, NEXT_TOO_HIGH, NOTHING_LEFT

LMS_TYPE = 5
LMOTS_TYPE = 4

# n bytes a hash, w bits a digit, p digits with their checksum, a tree of
# height h.
N = 32
W = 8
P = 34
H = 5
LEAVES = 2 ** H

I_BYTES = 16
SEED_BYTES = 32
SIGNATURE_BYTES = 4 + (4 + N * (1 + P)) + 4 + N * H

D_PBLC = b"\x80\x80"
D_MESG = b"\x81\x81"
D_LEAF = b"\x82\x82"
D_INTR = b"\x83\x83"


def hashed(*parts):
    return sha256(b"".join(parts)).digest()


def u8str(number):
    return number.to_bytes(1, "big")


def u16str(number):
    return number.to_bytes(2, "big")


def u32str(number):
    return number.to_bytes(4, "big")


# One-time signatures.

def secret(I, seed, q, i):
    """Appendix A: the start of chain i of leaf q."""
    return hashed(I, u32str(q), u16str(i), b"\xff", seed)


def chain(I, q, i, first, end, value):
    """Section 4.3: the steps of chain i from first up to, but without, end."""
    start = I + u32str(q) + u16str(i)
    for j in range(first, end):
        value = sha256(start + u8str(j) + value).digest()
    return value


def digits(I, q, C, text):
    """Sections 4.4 and 4.5: the digits of the text's hash and its checksum."""
    Q = hashed(I, u32str(q), D_MESG, C, text)
    # With w = 8 a digit is a byte, and the checksum is not shifted.
    checksum = sum(2 ** W - 1 - digit for digit in Q)
    return Q + u16str(checksum)


def one_time_key(I, q, ends):
    return hashed(I, u32str(q), D_PBLC, *ends)


# The tree.

def leaf(I, q, key):
    return hashed(I, u32str(LEAVES + q), D_LEAF, key)


def inner(I, r, left, right):
    return hashed(I, u32str(r), D_INTR, left, right)


@lru_cache(maxsize=None)
def tree(I, seed):
    """Node r's hash at place r; the root is at 1, and place 0 is not used."""
    nodes = [b""] * (2 * LEAVES)
    for q in range(LEAVES):
        ends = [chain(I, q, i, 0, 2 ** W - 1, secret(I, seed, q, i)) for i in range(P)]
        nodes[LEAVES + q] = leaf(I, q, one_time_key(I, q, ends))
    for r in range(LEAVES - 1, 0, -1):
        nodes[r] = inner(I, r, nodes[2 * r], nodes[2 * r + 1])
    return nodes


def root(I, seed):
    return tree(I, seed)[1]


def sign(I, seed, q, text):
    C = hashed(I, u32str(q), b"\xff\xfd", b"\xff", seed)
    values = [chain(I, q, i, 0, digit, secret(I, seed, q, i))
              for i, digit in enumerate(digits(I, q, C, text))]
    nodes = tree(I, seed)
    # The other child on each level, from the leaf up.
    path = [nodes[(LEAVES + q >> level) ^ 1] for level in range(H)]
    return b"".join([u32str(q), u32str(LMOTS_TYPE), C, *values, u32str(LMS_TYPE), *path])


def accepted_leaf(I, root, text, signature):
    """The leaf of a signature that RFC 8554 accepts (Algorithm 6), or None."""
    if len(signature) != SIGNATURE_BYTES:
        return None
    words = [signature[place:place + 4] for place in (0, 4, 8 + N * (1 + P))]
    q, ots_type, lms_type = (int.from_bytes(word, "big") for word in words)
    if ots_type != LMOTS_TYPE or lms_type != LMS_TYPE or q >= LEAVES:
        return None
    hashes = signature[8:8 + N * (1 + P)] + signature[12 + N * (1 + P):]
    C, *rest = (hashes[place:place + N] for place in range(0, len(hashes), N))
    values, path = rest[:P], rest[P:]
    ends = [chain(I, q, i, digit, 2 ** W - 1, value)
            for i, (digit, value) in enumerate(zip(digits(I, q, C, text), values))]
    r, node = LEAVES + q, leaf(I, q, one_time_key(I, q, ends))
    for other in path:
        r, on_the_right = divmod(r, 2)
        node = inner(I, r, other, node) if on_the_right else inner(I, r, node, other)
    return q if node == root else None


def inspect(I, root, number, text, signature):
    """Yes means that RFC 8554 accepts and the leaf is the number."""
    return accepted_leaf(I, root, text, signature) == number


class LmsInspector:
    """Holds only the public key."""

    kind = 2

    def __init__(self, I, root):
        self.I = I
        self.root = root

    def inspect(self, number, text, signature):
        return inspect(self.I, self.root, number, text, signature)


class LmsKey:
    kind = 2
    signature_length = SIGNATURE_BYTES

    def __init__(self, I, seed, next_number):
        if next_number > LEAVES:
            raise Refused(NEXT_TOO_HIGH)
        self.I = I
        self.seed = seed
        self.name = I[:NAME_BYTES]
        self.next_number = next_number
        self.left = LEAVES - next_number

    def draw(self):
        """Answers the next number, which is then used up."""
        if self.left == 0:
            raise Refused(NOTHING_LEFT)
        number = self.next_number
        self.next_number += 1
        self.left -= 1
        return number

    def sign(self, number, text):
        """The number is the leaf."""
        return sign(self.I, self.seed, number, text)

    def own_inspector(self):
        return LmsInspector(self.I, root(self.I, self.seed))
