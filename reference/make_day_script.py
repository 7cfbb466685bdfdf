"""Writes the script of one day at the bench, from its beginning to its end:

    python3 make_day_script.py > script

A truck's sheet is cut and sealed; the plate is typed in afterwards and named
alone; a digit slips from one block to the next and both are named; too many
blocks change; a block is vouched for and its excerpt confirmed; the sheet is
restored and checked clean; a file is packed and unpacked; another sheet is
sealed by an LMS key. What replay answers to it is found by nazkoiber.py.
"""

from nazkoiber import Replay

SHEET = [
    "plate           \n",
    "axle 1 left 812 daN right 790 daN\n",
    "axle 1 difference 2 %\n",
    "axle 2 daN left 1015 right 998\n",
    "axle 2 difference 1 %\n",
    "axle 3 left 1120 daN right 1101 daN\n",
    "axle 3 difference 1 %\n",
    "axle 4 left 1096 daN right 1110 daN\n",
    "axle 4 difference 1 %\n",
    "parking brake axle 3 604 daN axle 4 598 daN\n",
    "weight 24 380 kg braking 52 %\n",
    "tester 7 passed",
]

KEY = bytes(range(32)).hex()
NAME = b"bench 07".hex()


def hexed(text):
    return text.encode("ascii").hex() or "-"


def rewrite(block, text):
    return f"rewrite {block} {hexed(text)}"


def day():
    yield "# the bench writes its sheet: twelve blocks"
    yield "clear"
    yield f"cut {hexed(''.join(SHEET))}"
    yield "sheet"
    yield "# the plane of twelve tells two changed blocks"
    yield "family plane 12"
    yield "rows 1"
    yield "rows 8"
    yield "digest sha256"
    yield f"key tag blake2s {KEY} {NAME} 41"
    yield "# a check needs a seal that was accepted, and a seal a number"
    yield "check"
    yield "seal"
    yield "draw"
    yield "draw"
    yield "# too small a buffer leaves the number in the hand"
    yield "seal 100"
    yield "seal"
    yield "burn"
    yield "part"
    yield "accept"
    yield "check"
    yield "# the plate is typed in after the test: that block alone is named"
    yield rewrite(1, "plate KA RS 1407\n")
    yield "check"
    yield "# and typed back"
    yield rewrite(1, SHEET[0])
    yield "check"
    yield "# a digit slips with its line's end into the next block: joined bare they would be the same, both are named"
    yield rewrite(4, SHEET[3][:-2])
    yield rewrite(5, SHEET[3][-2:] + SHEET[4])
    yield "check"
    yield "# a third change is one too many: the count of suspects"
    yield rewrite(12, "tester 7 failed")
    yield "check"
    yield "check 1"
    yield "# while others are changed, the right bytes of a block are vouched for, and no others"
    vouched = yield f"vouch 8 {hexed(SHEET[7])}"
    row = vouched.split(" ")[2]
    yield f"vouch 8 {hexed('axle 4 left 1196 daN right 1110 daN' + chr(10))}"
    yield f"vouch 13 {hexed(SHEET[7])}"
    yield "# the row's other blocks go with it, and confirm needs no sheet"
    yield "excerpt 8 1"
    excerpt = yield f"excerpt 8 {row}"
    others = excerpt.split(" ")[2]
    yield f"confirm 8 {row} {hexed(SHEET[7])} {others}"
    yield f"confirm 8 {row} {hexed(SHEET[6])} {others}"
    yield f"confirm 8 {row} {hexed(SHEET[7])} {others}00"
    yield "# the sheet is restored"
    yield rewrite(4, SHEET[3])
    yield rewrite(5, SHEET[4])
    yield rewrite(12, SHEET[11])
    yield "check"
    yield "# under another key the seal is refused, and it is the old one again"
    yield f"key tag sha256 {KEY} {NAME} 41"
    yield "check"
    yield "accept"
    yield f"key tag blake2s {KEY} {NAME} 42"
    yield "accept"
    yield "check"
    yield "# sheet and seal part go into a file, and come out of it the same"
    yield "pack 100"
    packed = yield "pack"
    file = packed.split(" ")[2]
    yield f"unpack {file}"
    yield "clear"
    yield f"unpack {file[:-2]}55"
    yield f"unpack {file}"
    yield "check"
    yield "accept"
    yield "check"
    yield "sheet"
    yield "# a seal for another family, another count, and by another key's number"
    yield "family plane 11"
    yield "check"
    yield "draw"
    yield "seal"
    yield "choose 12 2"
    yield "choose 12 8"
    yield "check"
    yield f"key tag sha256 {KEY} {NAME[::-1]} 0"
    yield "seal"
    yield "burn"
    yield "family plane 12"
    yield f"unpack {file}"
    yield "clear"
    yield "pack"
    yield f"part {file[:12]}"
    yield "accept"
    yield "# the next sheet is sealed by a leaf of an LMS key, under the first family that tells three blocks"
    yield "add 6178"
    yield "add -"
    yield "add 6c65"
    yield "choose 3 3"
    yield "digest blake2s"
    yield f"key lms {KEY[:32]} {KEY} 31"
    yield "draw"
    yield "seal"
    yield "part"
    yield "accept"
    yield rewrite(2, "changed")
    yield "check"
    yield "draw"
    yield f"key lms {KEY[:32]} {KEY} 33"
    yield "pack"
    yield "# a day's last number is not lost"
    yield f"key tag blake2s {KEY} {NAME} 42"
    yield "draw"


def main():
    replay = Replay()
    lines = day()
    line = next(lines)
    while line is not None:
        print(line)
        answer = replay.answer(line.encode("ascii"))
        try:
            # Some lines are made of an earlier answer.
            line = lines.send(answer and answer.decode("ascii"))
        except StopIteration:
            line = None


if __name__ == "__main__":
    main()
