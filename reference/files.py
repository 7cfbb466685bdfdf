"""The sealed file: all framed blocks, the seal part, and a trailer.

The trailer is the distance from the file's end back to the seal part's start,
in four bytes, and four bytes that are always the same.
"""

from seals import (MALFORMED, NO_ROOM, SHEET_EMPTY, Seal, frames, numbered, read_frames,
                   same_count)
from sheet import MAX_BYTES, SHEET_NOT_EMPTY, Refused

MAGIC = bytes.fromhex("00014254")
TRAILER_BYTES = 4 + len(MAGIC)


def pack(sheet, part, room):
    """The file; room is the length of the buffer that it must fit."""
    if sheet.count() == 0:
        raise Refused(SHEET_EMPTY)
    seal = Seal(part)
    same_count(sheet, seal)
    distance = len(part) + TRAILER_BYTES
    file = frames(numbered(sheet)) + part + distance.to_bytes(4, "big") + MAGIC
    if len(file) > room:
        raise Refused(NO_ROOM)
    return file


def unpack(sheet, file):
    """Fills an empty sheet; answers the seal part's place and its bytes."""
    if sheet.count() > 0:
        raise Refused(SHEET_NOT_EMPTY)
    if len(file) < TRAILER_BYTES or not file.endswith(MAGIC):
        raise Refused(MALFORMED)
    distance = int.from_bytes(file[-TRAILER_BYTES:-len(MAGIC)], "big")
    # The distance counts the trailer too.
    if distance < TRAILER_BYTES or distance > len(file):
        raise Refused(MALFORMED)
    place = len(file) - distance
    part = file[place:-TRAILER_BYTES]
    seal = Seal(part)
    # A longer block is found here too; then the sum is too large as well.
    blocks = read_frames(file[:place], range(1, seal.n + 1))
    if blocks is None or sum(len(data) for _, data in blocks) > MAX_BYTES:
        raise Refused(MALFORMED)
    sheet.blocks = [data for _, data in blocks]
    return place, part
