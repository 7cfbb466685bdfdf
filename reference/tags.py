"""The tag key: it signs with HMAC, and counts what it signs."""

import hashlib
import hmac

from sheet import Refused

KEY_BYTES = 32
NAME_BYTES = 8
LIMIT = 1_000_000

# Refusal numbers.
NEXT_TOO_HIGH = 6
NOTHING_LEFT = 24

# Each digest as a function that makes a fresh hashlib object. BLAKE2s is
# without a key here: the key goes in by HMAC and not by BLAKE2s's own way.
DIGESTS = {
    b"sha256": hashlib.sha256,
    b"blake2s": lambda data=b"": hashlib.blake2s(data, digest_size=32),
}


def make_tag(digest, key, text):
    return hmac.new(key, text, DIGESTS[digest]).digest()


def inspect(digest, key, number, text, signature):
    """Whether the signature is the tag of the text; any number will do."""
    return signature == make_tag(digest, key, text)


class TagInspector:
    """Says yes to a text's tag. Who can inspect tags can also make them."""

    kind = 1

    def __init__(self, digest, key):
        self.digest = digest
        self.key = key

    def inspect(self, number, text, signature):
        return inspect(self.digest, self.key, number, text, signature)


class TagKey:
    kind = 1
    signature_length = 32

    def __init__(self, digest, key, name, next_number):
        if next_number > LIMIT:
            raise Refused(NEXT_TOO_HIGH)
        self.digest = digest
        self.key = key
        self.name = name
        self.next_number = next_number
        self.left = LIMIT - next_number

    def draw(self):
        """Answers the next number, which is then used up."""
        if self.left == 0:
            raise Refused(NOTHING_LEFT)
        number = self.next_number
        self.next_number += 1
        self.left -= 1
        return number

    def sign(self, number, text):
        """The same for every number: a sealed text holds its number."""
        return make_tag(self.digest, self.key, text)

    def own_inspector(self):
        return TagInspector(self.digest, self.key)
