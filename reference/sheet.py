"""The sheet: a plain list of blocks, each block a bytes object."""

MAX_BLOCKS = 512
MAX_BYTES = 38_912

# Refusal numbers.
TEXT_EMPTY = 1
TOO_MANY_LINES = 2
TOO_LONG = 3
NO_SUCH_BLOCK = 4
SHEET_FULL = 21
SHEET_NOT_EMPTY = 22


class Refused(Exception):
    """A call that was refused; everything is as it was before the call.

    Its text is what is printed: the number, and behind it the values that the
    answer carries.
    """

    def __init__(self, number, *values):
        super().__init__(" ".join(map(str, ("refused", number, *values))))
        self.number = number


def split_lines(text):
    """Each line with its 0A, then a last piece without 0A if there is one."""
    # Not bytes.splitlines: that would also split at 0D.
    pieces = text.split(b"\n")
    lines = [piece + b"\n" for piece in pieces[:-1]]
    if pieces[-1]:
        lines.append(pieces[-1])
    return lines


class Sheet:
    """Every method makes all its checks before it changes anything."""

    def __init__(self):
        self.blocks = []

    def count(self):
        return len(self.blocks)

    def total(self):
        return sum(len(block) for block in self.blocks)

    def block(self, number):
        """The bytes of a block; blocks are numbered from 1."""
        # Checked here because Python would take index -1 for block 0.
        if number < 1 or number > self.count():
            raise Refused(NO_SUCH_BLOCK)
        return self.blocks[number - 1]

    def cut(self, text):
        """Fill an empty sheet from a text; answers the block count."""
        # "Empty" means no blocks: one block of no bytes is not empty.
        if self.count() > 0:
            raise Refused(SHEET_NOT_EMPTY)
        if len(text) == 0:
            raise Refused(TEXT_EMPTY)
        if len(text) > MAX_BYTES:
            raise Refused(TOO_LONG)
        lines = split_lines(text)
        if len(lines) > MAX_BLOCKS:
            raise Refused(TOO_MANY_LINES)
        self.blocks = lines
        return self.count()

    def add(self, data):
        """Append one block; answers its number."""
        if len(data) > MAX_BYTES:
            raise Refused(TOO_LONG)
        if self.count() == MAX_BLOCKS or self.total() + len(data) > MAX_BYTES:
            raise Refused(SHEET_FULL)
        self.blocks.append(data)
        return self.count()

    def rewrite(self, number, data):
        """Give a block new bytes; answers the new total of bytes."""
        old = self.block(number)
        if len(data) > MAX_BYTES:
            raise Refused(TOO_LONG)
        # The old bytes go away, so they do not count against the limit.
        if self.total() - len(old) + len(data) > MAX_BYTES:
            raise Refused(SHEET_FULL)
        self.blocks[number - 1] = data
        return self.total()
