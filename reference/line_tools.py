"""What the makers of lines for `vectors` share: answering a line by a table,
and the command line."""

import sys

from sheet import Refused
from words import NotUnderstood, read_each


def call_by(table, words):
    """A table has for a first word what it calls, and one reader for each
    further word."""
    if words[0] not in table:
        raise NotUnderstood
    function, readers = table[words[0]]
    # All words are read before the call, so that a bad word shows even where
    # the call would be refused.
    return function(*read_each(readers, words[1:]))


def answer(line, call):
    """What a line prints, without its end, or None if it prints nothing."""
    if line == b"" or line.startswith(b"#"):
        return None
    try:
        # Double, leading and trailing spaces give empty words here, which
        # are nothing that a line may have.
        return call(line.split(b" "))
    except Refused as refusal:
        return str(refusal)
    except NotUnderstood:
        return "not understood"


def run(usage, lines, answer):
    """Writes the lines, or what each answers."""
    arguments = sys.argv[1:]
    if arguments == []:
        # Latin-1 gives each character its one byte.
        sys.stdout.buffer.write("\n".join(lines()).encode("latin-1"))
    elif arguments == ["answers"]:
        for line in sys.stdin.buffer.read().split(b"\n"):
            printed = answer(line)
            if printed is not None:
                print(printed)
    else:
        sys.exit(usage)
