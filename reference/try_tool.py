"""Tries the program `nazkoiber` on files, as its users do:

    python3 reference/try_tool.py PROGRAM [PART ..]

Each try runs the program in a folder of its own and compares all that it
leaves: what it prints, its status, and every file of the folder, bytes and
mode. What is expected comes from the reference program and the rules of
`docs/`, the usage texts from `crates/commands/src/usage.rt`.
"""

import fcntl
import os
import random
import re
import resource
import shutil
import signal
import stat
import subprocess
import sys
import tempfile
import time
from pathlib import Path

import files
import lms
import seals
from families import choose
from sheet import MAX_BYTES, Refused, Sheet
from tags import LIMIT, TagInspector, TagKey
from lms import LEAVES, LmsInspector, LmsKey
from words import KINDS

PROGRAM = ""
USAGE_FILE = Path(__file__).parent.parent / "crates/commands/src/usage.rt"
ROOM = 1 << 20
HUGE = 5 << 30
# What a program prints that was not meant for people.
TRACES = [b"Os {", b"Err(", b"Kind(", b"panicked", b"Traceback", b"core dumped"]
# The name beside a file that is being written; a run that is killed leaves it.
BESIDE = re.compile(r".*\.nazkoiber-new")

WORDS = {
    1: "the text is empty",
    2: "the text has more than 512 lines",
    3: "more than 38,912 bytes",
    4: "no such block",
    6: "no such family, or the key's next number is above its limit",
    8: "not a seal part or not a sealed file",
    9: "not signed by this key",
    10: "the row does not hold the block",
    11: "the excerpt is not the row's other blocks",
    12: "the row's digest differs",
    21: "the sheet is full",
    24: "the key has no numbers left",
    26: "another family or digest than the seal's",
    28: "too many blocks were changed to say which",
    29: "no row tells that the bytes are the sealed ones",
}


# Counting tries.

class Tries:
    def __init__(self):
        self.count = 0
        self.faults = []
        self.skipped = []

    def that(self, label, good, *told):
        self.count += 1
        if not good:
            self.faults.append(" ".join([label, *map(repr, told)]))

    def same(self, label, found, expected):
        if isinstance(expected, dict):
            found, expected = apart(found, expected), apart(expected, found)
        self.that(label, found == expected, shortened(found), "instead of", shortened(expected))


def apart(files, others):
    """The files that are not the same among the others."""
    return {name: what for name, what in files.items() if others.get(name) != what}


def shortened(value):
    if isinstance(value, dict):
        return {name: shortened(what) for name, what in value.items()}
    if isinstance(value, tuple):
        return tuple(map(shortened, value))
    if isinstance(value, bytes) and len(value) > 300:
        return value[:150] + b" .. " + value[-60:] + b" (%d bytes)" % len(value)
    return value


TRIES = Tries()


# A folder, and running the program in it.

class Place:
    """A folder that a try has for itself."""

    def __init__(self, **texts):
        self.folder = Path(tempfile.mkdtemp(prefix="nazkoiber-"))
        for name, data in texts.items():
            self.write(name, data)

    def __enter__(self):
        return self

    def __exit__(self, *_):
        shutil.rmtree(self.folder)

    def path(self, name):
        return self.folder / name

    def write(self, name, data, mode=0o644):
        self.path(name).write_bytes(data)
        self.path(name).chmod(mode)

    def write_huge(self, name):
        with open(self.path(name), "wb") as file:
            file.truncate(HUGE)

    def read(self, name):
        return self.path(name).read_bytes()

    def all(self):
        """Every file with its mode and its bytes; of a huge one its size."""
        return {path.name: look(path) for path in sorted(self.folder.iterdir())}

    def start(self, *words, **options):
        options.setdefault("stdout", subprocess.PIPE)
        return subprocess.Popen([PROGRAM, *words], cwd=self.folder, stdin=subprocess.DEVNULL,
                                stderr=subprocess.PIPE, **options)

    def run(self, *words, **options):
        """Status, and what was printed on both outputs."""
        with self.start(*words, **options) as process:
            out, err = process.communicate(timeout=120)
        return process.returncode, out or b"", err

    def expect(self, label, words, out=b"", err=None, made=None, **options):
        """Runs, and compares everything; without err it has to succeed. What
        is made is a name with bytes, and mode where it is not the usual one."""
        before = self.all()
        status, found_out, found_err = self.run(*words, **options)
        label = f"{label}: nazkoiber {' '.join(map(str, words))}:"
        TRIES.same(f"{label} status", status, 0 if err is None else 1)
        TRIES.same(f"{label} stdout", found_out, out)
        if isinstance(err, re.Pattern):
            TRIES.that(f"{label} stderr", err.fullmatch(found_err), found_err, err.pattern)
        else:
            TRIES.same(f"{label} stderr", found_err, err or b"")
        TRIES.that(f"{label} plain", not any(trace in found_err for trace in TRACES), found_err)
        made = {name: as_made(what) for name, what in (made or {}).items()}
        TRIES.same(f"{label} files", self.all(), {**before, **made})


def look(path):
    state = path.lstat()
    mode = stat.S_IMODE(state.st_mode)
    if stat.S_ISLNK(state.st_mode):
        return "link", os.readlink(path)
    if stat.S_ISDIR(state.st_mode):
        return "folder", mode, sorted(os.listdir(path))
    return mode, path.read_bytes() if state.st_size < ROOM else state.st_size


def as_made(what):
    return what if isinstance(what, tuple) else (0o644, what)


def said(text):
    return f"nazkoiber: {text}\n".encode()


def refused(number, count=None):
    behind = "" if count is None else f" ({count} suspects)"
    return said(f"refused {number}: {WORDS[number]}{behind}")


def file_error(name):
    """What the system says of a file, on one line."""
    return re.compile(rb"nazkoiber: " + re.escape(name.encode()) + rb": [^\n]+\n")


def exists(name):
    return re.compile(rb"nazkoiber: " + re.escape(name.encode())
                      + rb": is there already, and is not overwritten\n")


# Keys and their files.

SECRET = bytes(range(32))
NAME = b"ABCDEFGH"
IDENTIFIER = bytes(range(16))


def tag_file(next_number=0, digest="sha256", secret=SECRET, name=NAME):
    return f"nazkoiber key tag {digest} {secret.hex()} {name.hex()} {next_number}\n".encode()


def lms_file(next_number=0, identifier=IDENTIFIER, seed=SECRET):
    return f"nazkoiber key lms {identifier.hex()} {seed.hex()} {next_number}\n".encode()


def public_file(identifier=IDENTIFIER, seed=SECRET):
    root = lms.root(identifier, seed)
    return f"nazkoiber key lms-public {identifier.hex()} {root.hex()}\n".encode()


FORMS = [
    re.compile(rb"nazkoiber key (tag) (sha256|blake2s) ([0-9a-f]{64}) ([0-9a-f]{16}) ([0-9]+)\n"),
    re.compile(rb"nazkoiber key (lms) ([0-9a-f]{32}) ([0-9a-f]{64}) ([0-9]+)\n"),
    re.compile(rb"nazkoiber key (lms-public) ([0-9a-f]{32}) ([0-9a-f]{64})\n"),
]


class ReadKey:
    """A key file by the rules of docs/KEYS.md; .form is None where it is none."""

    def __init__(self, data):
        found = next(filter(None, (form.fullmatch(data) for form in FORMS)), None)
        self.form = None
        if not found:
            return
        form, *words = found.groups()
        self.next_number = 0 if form == b"lms-public" else int(words[-1])
        if self.next_number > 2 ** 32 - 1:
            return
        self.form = form.decode()
        if form == b"tag":
            self.digest, self.secret, self.name = words[0], hexed(words[1]), hexed(words[2])
        else:
            self.identifier, self.secret = hexed(words[0]), hexed(words[1])
            self.name = self.identifier[:8]

    def limit(self):
        return LIMIT if self.form == "tag" else LEAVES

    def key(self):
        """The key that draws and signs."""
        if self.form == "tag":
            return TagKey(self.digest, self.secret, self.name, self.next_number)
        return LmsKey(self.identifier, self.secret, self.next_number)

    def inspector(self):
        if self.form == "tag":
            return TagInspector(self.digest, self.secret)
        if self.form == "lms":
            return LmsInspector(self.identifier, lms.root(self.identifier, self.secret))
        return LmsInspector(self.identifier, self.secret)

    def described(self):
        kinds = {"tag": lambda: f"tag {self.digest.decode()}", "lms": lambda: "lms",
                 "lms-public": lambda: "lms, public part"}
        lines = [f"kind {kinds[self.form]()}", f"name {self.name.hex()}"]
        if self.form != "lms-public":
            left = max(0, self.limit() - self.next_number)
            lines += [f"next {self.next_number}", f"left {left}"]
        return "".join(f"{line}\n" for line in lines).encode()


def hexed(word):
    return bytes.fromhex(word.decode())


def with_next(data, number):
    """The key file with another next number and nothing else changed."""
    return data[:data.rindex(b" ") + 1] + b"%d\n" % number


# What the reference makes and says.

class Sealed:
    """A text sealed by the reference under the next number of a key file."""

    def __init__(self, key_data, text, changes=2, digest="sha256"):
        key = ReadKey(key_data).key()
        self.sheet = Sheet()
        self.sheet.cut(text)
        self.family = choose(self.sheet.count(), changes)
        self.digest = seals.DIGESTS[digest.encode()]
        self.number = key.draw()
        drawn = seals.Drawn(key.name, self.number)
        self.part = seals.seal(self.sheet, self.family, self.digest, key, drawn, ROOM)
        self.file = files.pack(self.sheet, self.part, ROOM)
        self.key_after = with_next(key_data, self.number + 1)
        self.told = (f"sealed {self.sheet.count()} blocks under number {self.number}: a check "
                     f"names up to {self.family.d} changed blocks\n").encode()

    def rewritten(self, *changes):
        sheet = Sheet()
        sheet.blocks = list(self.sheet.blocks)
        for number, data in changes:
            sheet.rewrite(number, data)
        return sheet, files.pack(sheet, self.part, ROOM)

    def seal(self):
        return seals.Seal(self.part)


def line_of(block):
    return block[:-1] if block.endswith(b"\n") else block


def shown(line):
    return line if all(32 <= byte <= 126 for byte in line) else b"(not text)"


def check_text(sheet, number, named):
    lines = [b"seal number %d" % number]
    for j in named:
        lines.append(b"changed block %d: " % j + (shown(line_of(sheet.block(j))) or b"(empty)"))
    if not named:
        lines.append(b"no block was changed")
    return b"".join(line + b"\n" for line in lines)


def file_text(sealed, sheet):
    family = sealed.family
    kind = {2: "halves", 3: f"polynomial q {family.q} k {family.k}"}[family.kind]
    head = (f"seal number {sealed.number}\nfamily {kind}, {family.n} blocks in {family.t} rows, "
            f"strength {family.d}\ndigest {['sha256', 'blake2s'][sealed.digest.kind - 1]}\n"
            f"key {['tag', 'lms'][sealed.seal().sealer - 1]}\n"
            f"blocks {sheet.count()}, {sheet.total()} bytes\n").encode()
    for j, block in enumerate(sheet.blocks, start=1):
        text = shown(line_of(block))
        head += b"%d %d" % (j, len(block)) + (b" " + text if text else b"") + b"\n"
    return head + b"not checked: only a check with the key tells whether a block was changed\n"


def lines_text(text):
    sheet = Sheet()
    sheet.cut(text)
    return b"blocks %d\n" % sheet.count() + b"".join(
        b"%d %d\n" % (j, len(block)) for j, block in enumerate(sheet.blocks, start=1))


# Sheets.

def bench_lines(count):
    return b"".join(b"axle %d left %d right %d daN\n" % (j, 800 + j, 790 + j)
                    for j in range(1, count + 1))


SMALL = bench_lines(10)
SHEETS = {
    "one line": b"axle 1\n",
    "no line end": b"axle 1\naxle 2\nend",
    "one byte": b"x",
    "empty lines": b"\n\naxle 1\n\n\nend\n\n",
    "other line ends": b"axle 1\r\naxle 2\rstill\r\n",
    "not text": bytes(range(256)),
    "125 lines": bench_lines(125),
    "126 lines": bench_lines(126),
    "512 lines": bench_lines(511) + b"end",
    "512 empty lines": b"\n" * 512,
    "one long line": b"x" * MAX_BYTES,
    "long line and end": b"x" * (MAX_BYTES - 1) + b"\n",
}
KEYS = {"tag sha256": tag_file(7), "tag blake2s": tag_file(41, "blake2s"), "lms": lms_file(3)}


# Help and the command line.

def usage_texts():
    found = re.findall(r'const (\w+): &str = "\\\n(.*?)";', USAGE_FILE.read_text(), re.S)
    return {name: text.encode() for name, text in found}


OPERANDS = {
    ("key", "new"): 2, ("key", "public"): 2, ("key", "show"): 1, ("seal",): 3, ("check",): 2,
    ("rewrite",): 4, ("vouch",): 4, ("excerpt",): 5, ("confirm",): 6, ("part",): 2, ("show",): 1,
    ("lines",): 1, ("demo",): 0, ("replay",): 0,
}


def try_help(usage):
    with Place() as place:
        place.expect("help", ["--help"], out=usage["OVERVIEW"])
        place.expect("help", ["help"], out=usage["OVERVIEW"])
        place.expect("help", ["key", "--help"], out=usage["KEYS"])
        place.expect("help", ["key", "help"], out=usage["KEYS"])
        for command, count in OPERANDS.items():
            text = usage["_".join(command).upper()]
            place.expect("help", [*command, "--help"], out=text)
            place.expect("help", [*command, *["x"] * count, "--help"], out=text)


def try_wrong_words(usage):
    def wrong(words, what, name):
        place.expect("wrong words", words, err=said(what) + usage[name])

    with Place() as place:
        wrong([], "which command?", "OVERVIEW")
        for word in ["seals", "SEAL", "", "-h", "--version", "x y"]:
            wrong([word], "no such command", "OVERVIEW")
        wrong(["key"], "which command on keys?", "KEYS")
        for word in ["", "old", "--name", "tag"]:
            wrong(["key", word], "no such command on keys", "KEYS")
        for command, count in OPERANDS.items():
            name = "_".join(command).upper()
            for words in {0, max(0, count - 1), count + 1, count + 20} - {count}:
                wrong([*command, *["x"] * words], "too few or too many words", name)
            wrong([*command, *["x"] * count, "--nothing", "x"], "no such option", name)
            wrong([*command, *["x"] * count, "--nothing"], "an option lacks its word", name)
        wrong_values(wrong)


def wrong_values(wrong):
    wrong(["key", "new", "rsa", "k"], "a key is tag or lms", "KEY_NEW")
    wrong(["key", "new", "lms", "k", "--digest", "sha256"],
          "an LMS key has no choice of digest", "KEY_NEW")
    for name in ["", "00", "0" * 15, "0" * 17, "A" * 16, "g" * 16, "-"]:
        wrong(["key", "new", "tag", "k", "--name", name],
              "a name is 16 lower-case hex digits", "KEY_NEW")
    for digest in ["", "md5", "SHA256"]:
        wrong(["key", "new", "tag", "k", "--digest", digest], "no such digest", "KEY_NEW")
        wrong(["seal", "k", "s", "o", "--digest", digest], "no such digest", "SEAL")
    for number in ["", "two", "-1", "+1", "1.5", "0x1", "65536", "9" * 400, " 1"]:
        bad = "not a number up to 65535"
        wrong(["seal", "k", "s", "o", "--changes", number], bad, "SEAL")
        wrong(["rewrite", "f", number, "t", "o"], bad, "REWRITE")
        wrong(["vouch", "k", "f", number, "t"], bad, "VOUCH")
        wrong(["excerpt", "k", "f", number, "1", "o"], bad, "EXCERPT")
        wrong(["excerpt", "k", "f", "1", number, "o"], bad, "EXCERPT")
        wrong(["confirm", "k", "p", number, "1", "t", "e"], bad, "CONFIRM")
        wrong(["confirm", "k", "p", "1", number, "t", "e"], bad, "CONFIRM")


def try_words_of_other_bytes():
    """Words that are no UTF-8: an error on stderr, and no file."""
    with Place() as place:
        for words in [[b"\xff"], [b"show", b"\xff"], [b"key", b"new", b"tag", b"k\xff"]]:
            place.expect("not UTF-8", words, err=re.compile(rb"nazkoiber: [^\n]+\n"))


# Keys.

def try_new_key(kind, options, name=None):
    with Place() as place:
        status, out, err = place.run("key", "new", kind, "k", *options)
        label = f"key new {kind} {' '.join(options)}"
        TRIES.same(label, (status, err), (0, b""))
        mode, data = place.all()["k"]
        TRIES.same(f"{label} mode", mode, 0o600)
        key = ReadKey(data)
        digest = options[options.index("--digest") + 1] if "--digest" in options else "sha256"
        TRIES.same(f"{label} form", (key.form, key.next_number), (kind, 0))
        TRIES.same(f"{label} digest", getattr(key, "digest", None),
                   digest.encode() if kind == "tag" else None)
        TRIES.that(f"{label} name", name in (None, key.name.hex()), key.name.hex())
        TRIES.same(f"{label} told", out, key.described())
        TRIES.same(f"{label} alone", list(place.all()), ["k"])
        for other in ["tag", "lms"]:
            place.expect("a second key", ["key", "new", other, "k"], err=exists("k"))
        place.expect("shown", ["key", "show", "k"], out=key.described())
        TRIES.that(f"{label} secret", key.secret.hex().encode() not in out, out)
        return key


def try_keys():
    name = "00ff00ff00ff00ff"
    new = [try_new_key("tag", []), try_new_key("tag", []),
           try_new_key("tag", ["--name", name], name), try_new_key("tag", ["--digest", "blake2s"]),
           try_new_key("tag", ["--digest", "sha256", "--name", name], name),
           try_new_key("lms", []), try_new_key("lms", []),
           try_new_key("lms", ["--name", name], name)]
    TRIES.same("secrets", len({key.secret for key in new}), len(new))
    TRIES.same("names", len({key.name for key in new}), len(new) - 2)
    for data in [lms_file(5), lms_file(32), lms_file(33)]:
        with Place(k=data, t=tag_file()) as place:
            public = public_file()
            place.expect("public", ["key", "public", "k", "p"], ReadKey(public).described(),
                         made={"p": public})
            place.expect("again", ["key", "public", "k", "p"], err=exists("p"))
            place.expect("of public", ["key", "public", "p", "q"], ReadKey(public).described(),
                         made={"q": public})
            place.expect("shown", ["key", "show", "p"], ReadKey(public).described())
            place.expect("of tag", ["key", "public", "t", "r"],
                         err=said("t: a tag key has no public part"))


def try_umask():
    """Whatever the umask, none but its owner reads a key."""
    for mask in (0, 0o022, 0o077):
        with Place(s=SMALL) as place:
            place.run("key", "new", "tag", "k", umask=mask)
            TRIES.same("mode of a new key", place.all()["k"][0], 0o600)
            place.run("seal", "k", "s", "f", umask=mask)
            TRIES.same("mode of a used key", place.all()["k"][0], 0o600)
            TRIES.same("mode of a sealed file", place.all()["f"][0], 0o666 & ~mask)


def spoiled(data, rng):
    """Cut at every length; at every place another byte, one more, one less."""
    for place in range(len(data) + 1):
        yield data[:place]
    for place in range(len(data)):
        for byte in rng.sample([0, 9, 10, 13, 32, 48, 57, 65, 97, 102, 255, data[place] ^ 1], 2):
            yield data[:place] + bytes([byte]) + data[place + 1:]
        yield data[:place] + data[place + 1:]
    for more in [b"\n", b" ", b"x", b"\0", data]:
        yield data + more
        yield more + data


def try_spoiled_keys(rng):
    for data in [tag_file(12), tag_file(7, "blake2s"), lms_file(9), public_file()]:
        with Place() as place:
            for bad in spoiled(data, rng):
                place.write("k", bad)
                try_shown_key(place, bad)


def try_shown_key(place, data):
    key = ReadKey(data)
    if key.form:
        place.expect("a key still", ["key", "show", "k"], key.described())
    else:
        place.expect("no key", ["key", "show", "k"], err=said("k: not a key file"))


def try_sealing_by_spoiled_keys(rng):
    for data in [tag_file(12), lms_file(9)]:
        bad_ones = list(spoiled(data, rng))
        for bad in rng.sample(bad_ones, 60):
            with Place(k=bad, s=b"axle 1\n") as place:
                key = ReadKey(bad)
                if not key.form:
                    place.expect("no key", ["seal", "k", "s", "f"], err=said("k: not a key file"))
                elif key.next_number > key.limit():
                    place.expect("above", ["seal", "k", "s", "f"], err=refused(6))
                elif key.next_number == key.limit():
                    place.expect("none left", ["seal", "k", "s", "f"], err=refused(24))
                else:
                    try_seal(place, Sealed(bad, b"axle 1\n"), [])


# Sealing.

def try_seal(place, sealed, options):
    """Seals s under k as f."""
    place.expect("seal", ["seal", "k", "s", "f", *options], sealed.told,
                 made={"f": sealed.file, "k": (0o600, sealed.key_after)})


def try_seals():
    for key in KEYS.values():
        for text in SHEETS.values():
            for changes in (None, 1, 2, 3):
                digest = ("sha256", "blake2s")[(changes or 0) // 2]
                options = ["--changes", str(changes)] if changes else []
                options += ["--digest", digest] if changes else []
                with Place(s=text) as place:
                    place.write("k", key, 0o600)
                    sealed = Sealed(key, text, changes or 2, digest)
                    try_seal(place, sealed, options)
                    place.expect("check", ["check", "k", "f"],
                                 check_text(sealed.sheet, sealed.number, []))
                    place.expect("show", ["show", "f"], file_text(sealed, sealed.sheet))
                    place.expect("lines", ["lines", "s"], lines_text(text))
                    place.expect("part", ["part", "f", "p"], made={"p": sealed.part})
                    place.expect("a second", ["seal", "k", "s", "f"], err=exists("f"))


def try_all_numbers():
    """All 32 numbers of an LMS key, one after the other, and no more."""
    with Place(s=SMALL) as place:
        place.write("k", lms_file(), 0o600)
        for number in range(LEAVES):
            sealed = Sealed(place.read("k"), SMALL)
            name = f"f{number}"
            place.expect("numbers", ["seal", "k", "s", name], sealed.told,
                         made={name: sealed.file, "k": (0o600, sealed.key_after)})
        place.expect("numbers", ["seal", "k", "s", "f"], err=refused(24))
        place.expect("numbers", ["check", "k", "f31"],
                     check_text(Sealed(lms_file(31), SMALL).sheet, 31, []))
        place.expect("numbers", ["key", "show", "k"], ReadKey(lms_file(32)).described())


def try_numbers_at_the_limit():
    for data, number in [(tag_file(LIMIT - 1), None), (tag_file(LIMIT), 24),
                         (tag_file(LIMIT + 1), 6), (tag_file(2 ** 32 - 1), 6),
                         (lms_file(LEAVES), 24), (lms_file(LEAVES + 1), 6)]:
        with Place(s=SMALL) as place:
            place.write("k", data, 0o600)
            if number:
                place.expect("limit", ["seal", "k", "s", "f"], err=refused(number))
            else:
                try_seal(place, Sealed(data, SMALL), [])
            place.expect("limit", ["key", "show", "k"], ReadKey(place.read("k")).described())
    with Place(s=SMALL, k=b"nazkoiber key tag sha256 %s %s 00000000000000000005\n"
               % (SECRET.hex().encode(), NAME.hex().encode())) as place:
        try_seal(place, Sealed(place.read("k"), SMALL), [])


def try_refused_sheets():
    texts = [(b"", 1), (b"x" * (MAX_BYTES + 1), 3), (b"\n" * (MAX_BYTES + 1), 3),
             (b"\n" * 513, 2), (b"\n" * 512 + b"x", 2)]
    for text, number in texts:
        with Place(s=text, k=tag_file()) as place:
            place.expect("sheet", ["seal", "k", "s", "f"], err=refused(number))
            place.expect("sheet", ["lines", "s"], err=refused(number))
    for text, changes in [(SMALL, 0), (SMALL, 9), (SMALL, 16), (SMALL, 65535),
                          (bench_lines(512), 14)]:
        with Place(s=text, k=tag_file()) as place:
            try_choice(place, text, changes)
    for changes in range(1, 16):
        with Place(s=SMALL, k=tag_file()) as place:
            try_choice(place, SMALL, changes)


def try_choice(place, text, changes):
    options = ["--changes", str(changes)]
    try:
        sealed = Sealed(place.read("k"), text, changes)
    except Refused as refusal:
        place.expect("changes", ["seal", "k", "s", "f", *options], err=refused(refusal.number))
    else:
        try_seal(place, sealed, options)


def try_sealing_by_public_part():
    with Place(s=SMALL, p=public_file()) as place:
        place.expect("public", ["seal", "p", "s", "f"],
                     err=said("p: the public part of a key, which signs no seal"))


# Sealed files.

OTHER_KEYS = {
    "tag": tag_file(50, secret=bytes(32)), "digest": tag_file(50, "blake2s"),
    "lms": lms_file(seed=bytes(32)), "public": public_file(seed=bytes(32)),
    "identifier": lms_file(identifier=bytes(16)),
}


def office(key):
    """A place with a sheet that is sealed, and what holds of it."""
    sealed = Sealed(key, SMALL)
    place = Place(s=SMALL, f=sealed.file, p=sealed.part)
    place.write("k", sealed.key_after, 0o600)
    if b"lms" in key:
        place.write("pub", public_file())
    for name, other in OTHER_KEYS.items():
        place.write(f"other-{name}", other, 0o600)
    return sealed, place


def good_keys(place):
    return [name for name in ("k", "pub") if place.path(name).exists()]


def bad_keys(key):
    """Those that say no to a seal by that key."""
    own = key.split()[2:5]
    return [f"other-{name}" for name, data in OTHER_KEYS.items() if data.split()[2:5] != own]


def try_checks(key):
    sealed, place = office(key)
    changes = [(3, b"axle 3 changed\n"), (8, b""), (1, bytes(range(40))), (10, b"\n")]
    with place:
        for count in range(1, 5):
            number, data = changes[count - 1]
            place.write("t", data)
            before = "f" if count == 1 else f"f{count - 1}"
            sheet, file = sealed.rewritten(*changes[:count])
            place.expect("rewrite", ["rewrite", before, str(number), "t", f"f{count}"],
                         made={f"f{count}": file})
            place.expect("show", ["show", f"f{count}"], file_text(sealed, sheet))
            for name in good_keys(place):
                try_check(place, name, f"f{count}", sealed, sheet)
        place.write("t", sealed.sheet.block(3))
        place.expect("put back", ["rewrite", "f1", "3", "t", "same"], made={"same": sealed.file})
        for other in bad_keys(key):
            for name in ("f", "f1", "f4"):
                place.expect("other key", ["check", other, name], err=refused(9))


def try_check(place, key, name, sealed, sheet):
    try:
        named = seals.check(sheet, sealed.seal(), sealed.family, sealed.digest, 512)
    except Refused as refusal:
        count = int(str(refusal).split()[-1])
        place.expect("check", ["check", key, name], err=refused(refusal.number, count))
    else:
        place.expect("check", ["check", key, name], check_text(sheet, sealed.number, named))


def try_rewrites():
    sealed, place = office(tag_file())
    with place:
        for number in ("0", "11", "65535"):
            place.expect("no block", ["rewrite", "f", number, "s", "o"], err=refused(4))
        room = MAX_BYTES - sealed.sheet.total() + len(sealed.sheet.block(5))
        for length, refusal in [(room, None), (room + 1, 21), (MAX_BYTES, 21), (MAX_BYTES + 1, 3)]:
            place.write("t", b"y" * length)
            if refusal:
                place.expect("long", ["rewrite", "f", "5", "t", "o"], err=refused(refusal))
            else:
                place.expect("full", ["rewrite", "f", "0005", "t", "full"],
                             made={"full": sealed.rewritten((5, b"y" * length))[1]})


def try_vouches(key):
    """One block is told by a vouch, and by the excerpt without the sheet."""
    sealed, place = office(key)
    sheet, file = sealed.rewritten((3, b"changed\n"), (4, b"changed too\n"))
    with place:
        place.write("f2", file)
        for j in (1, 3, 10):
            block = sealed.sheet.block(j)
            place.write("t", block)
            place.write("bad", block + b" ")
            row, length = seals.vouch(sheet, sealed.seal(), sealed.family, sealed.digest, j, block)
            text = (f"block {j}: these are the sealed bytes, by row {row}, whose excerpt has "
                    f"{length} bytes\n").encode()
            for name in good_keys(place):
                place.expect("vouch", ["vouch", name, "f2", str(j), "t"], text)
                place.expect("vouch", ["vouch", name, "f2", str(j), "bad"], err=refused(29))
                try_excerpt(place, sealed, sheet, name, j, row)
        for number in ("0", "11"):
            place.expect("no block", ["vouch", "k", "f", number, "t"], err=refused(4))
        for other in bad_keys(key):
            place.expect("other key", ["vouch", other, "f", "1", "t"], err=refused(9))
            place.expect("other key", ["confirm", other, "p", "1", "1", "t", "s"], err=refused(9))
            place.expect("other key", ["excerpt", other, "f", "1", "1", "o"], err=refused(9))


def try_excerpt(place, sealed, sheet, key, j, row):
    name = f"e-{key}-{j}"
    excerpt = seals.excerpt(sheet, sealed.seal(), sealed.family, j, row, ROOM)
    place.expect("excerpt", ["excerpt", key, "f2", str(j), str(row), name], made={name: excerpt})
    good = ["confirm", key, "p", str(j), str(row)]
    place.expect("confirm", [*good, "t", name],
                 f"block {j}: these are the sealed bytes\n".encode())
    place.expect("confirm", [*good, "bad", name], err=refused(12))
    place.write("short", excerpt[:-1])
    place.write("long", excerpt + b"\n")
    place.expect("confirm", [*good, "t", "short"], err=refused(11))
    place.expect("confirm", [*good, "t", "long"], err=refused(11))
    place.expect("confirm", [*good, "t", "s"], err=refused(11))
    lacking = next(i for i in range(1, sealed.family.t + 1) if i not in sealed.family.rows_of(j))
    for wrong in (0, sealed.family.t + 1, lacking):
        place.expect("row", ["confirm", key, "p", str(j), str(wrong), "t", name], err=refused(10))
        place.expect("row", ["excerpt", key, "f2", str(j), str(wrong), "o"], err=refused(10))
    for block in ("0", "11"):
        place.expect("block", ["confirm", key, "p", block, str(row), "t", name], err=refused(4))
        place.expect("block", ["excerpt", key, "f2", block, str(row), "o"], err=refused(4))


def try_other_schemes():
    """A seal part that is signed, of a family or a digest that there is not."""
    key = ReadKey(tag_file(9)).key()
    for place_of, value, number in [(2, 9, 26), (3, 6, 26), (5, 9, 26), (9, 3, 26)]:
        sealed = Sealed(tag_file(8), SMALL)
        text = bytearray(sealed.seal().text)
        text[place_of] = value
        part = bytes(text) + b"\0\x20" + key.sign(8, bytes(text))
        file = sealed.file[:sealed.sheet.total() + 40] + part + (len(part) + 8).to_bytes(4, "big")
        with Place(k=tag_file(9), f=file + files.MAGIC, p=part, t=sealed.sheet.block(1)) as place:
            place.expect("scheme", ["check", "k", "f"], err=refused(number))
            place.expect("scheme", ["vouch", "k", "f", "1", "t"], err=refused(number))
            place.expect("scheme", ["excerpt", "k", "f", "1", "1", "o"], err=refused(number))
            place.expect("scheme", ["confirm", "k", "p", "1", "1", "t", "t"], err=refused(number))


def try_spoiled_files(rng):
    sealed, place = office(tag_file())
    cuts = rng.sample(range(len(sealed.file)), 40)
    bad_ones = [sealed.file[:cut] for cut in [*cuts, len(sealed.file) - 1]]
    for at in rng.sample(range(len(sealed.file)), 60):
        bad_ones.append(sealed.file[:at] + bytes([sealed.file[at] ^ 64]) + sealed.file[at + 1:])
    bad_ones += [sealed.file + b"\n", sealed.file * 2, sealed.part, files.MAGIC, b"\0" * 200]
    with place:
        for bad in bad_ones:
            place.write("b", bad)
            try_spoiled_file(place, sealed, bad)


def try_spoiled_file(place, sealed, bad):
    sheet = Sheet()
    try:
        _, part = files.unpack(sheet, bad)
    except Refused as refusal:
        for words in [["show", "b"], ["part", "b", "o"], ["check", "k", "b"],
                      ["rewrite", "b", "1", "s", "o"]]:
            place.expect("spoiled", words, err=refused(refusal.number))
        return
    if part == sealed.part:
        try_check(place, "k", "b", sealed, sheet)
    else:
        place.expect("spoiled", ["check", "k", "b"], err=refused(9))
    place.run("part", "b", "o")
    TRIES.same("part of a spoiled file", place.read("o"), part)
    place.path("o").unlink()


# Files that are not what they should be, one operand at a time.

BINARY = random.Random(5).randbytes(3000)
NOT_A_KEY = {"empty": "key", "binary": "key", "huge": "key", "sheet": "key"}
NOT_A_FILE = {"empty": 8, "binary": 8, "huge": 8, "sheet": 8}
# A command with its operands, and for each that is a file what becomes of it
# where that is exchanged; what is not named there is an error of the system.
DAMAGED = [
    (["key", "show", "k"], {2: NOT_A_KEY}),
    (["key", "public", "lms", "o"], {2: NOT_A_KEY}),
    (["seal", "k", "s", "o"], {1: NOT_A_KEY, 2: {"empty": 1, "huge": 3, "binary": None}}),
    (["lines", "s"], {1: {"empty": 1, "huge": 3, "binary": None}}),
    (["check", "k", "f"], {1: NOT_A_KEY, 2: NOT_A_FILE}),
    (["show", "f"], {1: NOT_A_FILE}),
    (["part", "f", "o"], {1: NOT_A_FILE}),
    (["rewrite", "f", "2", "t", "o"], {1: NOT_A_FILE, 3: {"huge": 3, "empty": None}}),
    (["vouch", "k", "f", "2", "t"],
     {1: NOT_A_KEY, 2: NOT_A_FILE, 4: {"empty": 29, "binary": 29, "huge": 3}}),
    (["excerpt", "k", "f", "2", "1", "o"], {1: NOT_A_KEY, 2: NOT_A_FILE}),
    (["confirm", "k", "p", "2", "1", "t", "e"],
     {1: NOT_A_KEY, 2: NOT_A_FILE, 5: {"empty": 12, "binary": 12, "huge": 3},
      6: {"empty": 11, "binary": 11, "huge": 11, "sheet": 11}}),
]


def damaged_place():
    sealed, place = office(tag_file())
    row = sealed.family.rows_of(2)[0]
    place.write("t", sealed.sheet.block(2))
    place.write("e", seals.excerpt(sealed.sheet, sealed.seal(), sealed.family, 2, row, ROOM))
    place.write("lms", lms_file(), 0o600)
    place.write("empty", b"")
    place.write("binary", BINARY)
    place.write("sheet", SMALL)
    place.write_huge("huge")
    place.path("folder").mkdir()
    return row, place


def little_memory():
    resource.setrlimit(resource.RLIMIT_AS, (1 << 28, 1 << 28))


def try_damaged():
    row, place = damaged_place()
    with place:
        for words, operands in DAMAGED:
            words = [str(row) if at == 4 and words[0] == "excerpt" or
                     at == 4 and words[0] == "confirm" else word for at, word in enumerate(words)]
            for at, answers in operands.items():
                try_damaged_operand(place, words, at, answers)


def try_damaged_operand(place, words, at, answers):
    def with_operand(name):
        return [*words[:at], name, *words[at + 1:]]

    for name in ("missing", "missing/f", "folder", "folder/", "", "s/f", "x" * 300):
        err = file_error(name)
        if name.startswith("missing"):
            err = said(f"{name}: no such file or folder")
        elif name.startswith("folder"):
            err = said(f"{name}: a folder, not a file")
        place.expect("damaged", with_operand(name), err=err, preexec_fn=little_memory)
    for name, answer in answers.items():
        if answer is None:
            continue
        err = said(f"{name}: not a key file") if answer == "key" else refused(answer)
        place.expect("damaged", with_operand(name), err=err, preexec_fn=little_memory)


# What is there already is never overwritten.

def try_existing():
    row, place = damaged_place()
    with place:
        place.write("old", b"an old file\n", 0o600)
        place.path("nowhere").symlink_to("not-there")
        place.path("link").symlink_to("old")
        for words in [["seal", "k", "s"], ["rewrite", "f", "2", "t"], ["part", "f"],
                      ["excerpt", "k", "f", "2", str(row)], ["key", "public", "lms"],
                      ["key", "new", "tag"], ["key", "new", "lms"]]:
            for out in ("k", "s", "f", "t", "lms", "old", "folder", "huge", "link", "nowhere"):
                place.expect("existing", [*words, out], err=exists(out))
            for out in ("", "missing/o", "s/o", "x" * 300, "folder/", "missing/"):
                place.expect("no place", [*words, out], err=file_error(out))


def try_names_beside():
    """A user's own file with the name of one that is being written stays."""
    with Place(s=SMALL) as place:
        place.write("k", tag_file(), 0o600)
        for name in ("k.nazkoiber-new", "f.nazkoiber-new"):
            place.write(name, b"mine\n")
        try_seal(place, Sealed(tag_file(), SMALL), [])


# Keys by more than one name: a number is never used twice.

def try_key_by_two_names(make):
    with Place(s=SMALL) as place:
        place.write("k", tag_file(), 0o600)
        make(place.path("k"), place.path("k2"))
        numbers = []
        for out, key in enumerate(["k2", "k", "k2", "k"]):
            status, _, err = place.run("seal", key, "s", f"f{out}")
            if status == 0:
                numbers.append(number_of(place.read(f"f{out}")))
            else:
                TRIES.that("two names", file_error(key).fullmatch(err), err)
        TRIES.same("two names of a key: numbers", len(set(numbers)), len(numbers))


def number_of(file):
    return seals.Seal(files.unpack(Sheet(), file)[1]).number


def try_two_names():
    try_key_by_two_names(lambda old, new: new.symlink_to(old.name))
    try_key_by_two_names(lambda old, new: new.hardlink_to(old))
    with Place(s=SMALL) as place:
        place.write("k", tag_file(), 0o600)
        place.path("link").symlink_to("k")
        sealed = Sealed(tag_file(), SMALL)
        place.expect("by a link", ["seal", "link", "s", "f"], sealed.told,
                     made={"f": sealed.file, "k": (0o600, sealed.key_after)})
        place.path("other").hardlink_to(place.path("k"))
        for name in ("k", "other", "link"):
            place.expect("two names", ["seal", name, "s", "g"], err=file_error(name))


def try_locked():
    """A key that another program works on."""
    with Place(s=SMALL) as place, open(place.path("k"), "w+b") as file:
        file.write(tag_file())
        file.flush()
        place.path("k").chmod(0o600)
        fcntl.flock(file, fcntl.LOCK_EX)
        place.expect("locked", ["seal", "k", "s", "f"], err=said("k: in use by another program"))
        place.expect("locked", ["key", "show", "k"], ReadKey(tag_file()).described())
        fcntl.flock(file, fcntl.LOCK_UN)
        try_seal(place, Sealed(tag_file(), SMALL), [])


# Nothing half written.

def file_limit(limit):
    return lambda: resource.setrlimit(resource.RLIMIT_FSIZE, (limit, limit))


def try_file_limits():
    sealed = Sealed(tag_file(9), SMALL)
    for limit in (0, 1, 60, len(tag_file(10)) - 1, len(tag_file(10)), 300, len(sealed.file) - 1,
                  len(sealed.file)):
        # SIGXFSZ kills the program, or it is ignored and the write fails.
        for killed in (True, False):
            try_file_limit(sealed, limit, killed)


def try_file_limit(sealed, limit, killed):
    label = f"file limit {limit}{' with a signal' if killed else ''}:"
    with Place(s=SMALL) as place:
        place.write("k", tag_file(9), 0o600)
        before = place.all()
        status, out, err = place.run("seal", "k", "s", "f", preexec_fn=file_limit(limit),
                                     restore_signals=killed)
        drawn = limit >= len(sealed.key_after)
        whole = limit >= len(sealed.file)
        expected = dict(before)
        if drawn:
            expected["k"] = (0o600, sealed.key_after)
        if whole:
            expected["f"] = as_made(sealed.file)
        TRIES.same(f"{label} files", without_beside(place.all(), killed and not whole), expected)
        if whole:
            TRIES.same(f"{label} status", (status, out, err), (0, sealed.told, b""))
        elif killed:
            TRIES.same(f"{label} status", status, -signal.SIGXFSZ)
        else:
            TRIES.same(f"{label} status", (status, out), (1, b""))
            TRIES.that(f"{label} stderr", file_error("f" if drawn else "k").fullmatch(err), err)
        try_after_crash(place, label)


def without_beside(found, cut_off):
    """A run that is cut off may leave the file that it wrote."""
    return {name: what for name, what in found.items()
            if not (cut_off and BESIDE.fullmatch(name))}


def try_after_crash(place, label):
    """The next seal takes the number that the key file says."""
    sealed = Sealed(place.read("k"), SMALL)
    TRIES.same(f"{label} then", place.run("seal", "k", "s", "then"), (0, sealed.told, b""))
    TRIES.same(f"{label} then", place.read("then"), sealed.file)
    TRIES.same(f"{label} then", place.read("k"), sealed.key_after)


def try_killed(rng):
    """Killed at any moment, files are whole, and no number is used twice."""
    with Place(s=SMALL) as place:
        place.write("k", tag_file(), 0o600)
        for turn in range(60):
            at = ReadKey(place.read("k")).next_number
            sealed = Sealed(place.read("k"), SMALL)
            with place.start("seal", "k", "s", f"f{turn}") as process:
                time.sleep(rng.random() * 0.012)
                process.kill()
                process.communicate()
            after = place.read("k")
            TRIES.that("killed: key", after in (with_next(after, at), sealed.key_after), after)
            if place.path(f"f{turn}").exists():
                TRIES.same("killed: file", place.read(f"f{turn}"), sealed.file)
                TRIES.same("killed: number", after, sealed.key_after)


def try_new_key_cut_off():
    for limit in (0, 20):
        for killed in (True, False):
            with Place() as place:
                status, out, _ = place.run("key", "new", "tag", "k", restore_signals=killed,
                                           preexec_fn=file_limit(limit))
                TRIES.same("new key cut off", (status, out),
                           (-signal.SIGXFSZ if killed else 1, b""))
                TRIES.same("new key cut off", without_beside(place.all(), killed), {})


# Outputs that take nothing.

def try_closed_outputs():
    row, place = damaged_place()
    with place:
        for words in [["--help"], ["seal", "--help"], ["key", "show", "k"], ["check", "k", "f"],
                      ["show", "f"], ["lines", "s"], ["vouch", "k", "f", "2", "t"], ["demo"],
                      ["confirm", "k", "p", "2", str(row), "t", "e"]]:
            closed_output(place, words, {})
        sealed = Sealed(place.read("k"), SMALL)
        made = {"k": (0o600, sealed.key_after), "g": sealed.file}
        closed_output(place, ["seal", "k", "s", "g"], made)
        public = {"pp": public_file()}
        closed_output(place, ["key", "public", "lms", "pp"], public)


def closed_output(place, words, made):
    err = re.compile(rb"nazkoiber: standard output: [^\n]+\n")
    before = {name: place.read(name) for name in made if place.path(name).exists()}
    for how in ("full", "closed", "nobody reads"):
        for name in made:
            if name in before:
                place.write(name, before[name], 0o600)
            elif place.path(name).exists():
                place.path(name).unlink()
        label = f"stdout {how}"
        if how == "full":
            with open("/dev/full", "wb") as full:
                place.expect(label, words, err=err, made=made, stdout=full)
        elif how == "closed":
            place.expect(label, words, err=err, made=made, stdout=None,
                         preexec_fn=lambda: os.close(1))
        else:
            reader, writer = os.pipe()
            os.close(reader)
            place.expect(label, words, err=err, made=made, stdout=writer, restore_signals=False)
            os.close(writer)


def try_all_closed():
    """With no standard files at all no file is written to by mistake."""
    with Place(s=SMALL) as place:
        place.write("k", tag_file(), 0o600)
        sealed = Sealed(tag_file(), SMALL)
        expected = {**place.all(), "k": (0o600, sealed.key_after), "f": as_made(sealed.file)}
        process = subprocess.Popen([PROGRAM, "seal", "k", "s", "f"], cwd=place.folder,
                                   preexec_fn=lambda: os.closerange(0, 3))
        TRIES.same("all closed: status", process.wait(), 1)
        TRIES.same("all closed: files", place.all(), expected)


def try_no_stderr():
    """Where nobody can be told, the status tells it still."""
    with Place(s=SMALL) as place:
        before = place.all()
        for words in [["check", "missing", "s"], ["lines"], ["show", "s"], []]:
            with open("/dev/full", "wb") as full:
                run = subprocess.run([PROGRAM, *words], cwd=place.folder, stderr=full,
                                     stdout=subprocess.PIPE)
            TRIES.same("stderr full", (run.returncode, run.stdout), (1, b""))
            run = subprocess.run([PROGRAM, *words], cwd=place.folder, stdout=subprocess.PIPE,
                                 preexec_fn=lambda: os.close(2))
            TRIES.same("stderr closed", (run.returncode, run.stdout), (1, b""))
        TRIES.same("no stderr: files", place.all(), before)


# Disks and folders that take nothing.

def try_full_disk():
    with Place(s=bench_lines(300)) as place:
        disk = place.path("disk")
        disk.mkdir()
        mounted = subprocess.run(["mount", "-t", "tmpfs", "-o", "size=8k", "none", disk],
                                 capture_output=True)
        if mounted.returncode != 0:
            TRIES.skipped.append("a full disk: no mounting here")
            return
        try:
            full_disk(place)
        finally:
            subprocess.run(["umount", disk], check=True)


def full_disk(place):
    place.write("k", tag_file(), 0o600)
    sealed = Sealed(tag_file(), place.read("s"))
    place.expect("full disk", ["seal", "k", "s", "disk/f"], err=file_error("disk/f"),
                 made={"k": (0o600, sealed.key_after)})
    TRIES.same("full disk: left", os.listdir(place.path("disk")), [])
    place.write("disk/k", tag_file(), 0o600)
    place.write("disk/rest", b"x" * 4096)
    place.expect("full disk", ["seal", "disk/k", "s", "f"], err=file_error("disk/k"))
    TRIES.same("full disk: key", place.read("disk/k"), tag_file())
    place.expect("full disk", ["key", "new", "tag", "disk/k2"], err=file_error("disk/k2"))
    TRIES.same("full disk: left", sorted(os.listdir(place.path("disk"))), ["k", "rest"])


def try_no_permission():
    if os.geteuid() == 0:
        TRIES.skipped.append("folders and files without permission: run as root")
        return
    with Place(s=SMALL) as place:
        place.write("k", tag_file(), 0o600)
        place.path("closed").mkdir(0o555)
        place.expect("no permission", ["seal", "k", "s", "closed/f"], err=file_error("closed/f"))
        for words in [["key", "new", "tag", "closed/k"], ["lines", "unread"],
                      ["check", "unread", "s"], ["seal", "unread", "s", "f"]]:
            place.write("unread", tag_file(), 0)
            name = next(word for word in words if word in ("closed/k", "unread"))
            place.path("unread").chmod(0o600)
            state = place.all()
            place.path("unread").chmod(0)
            status, out, err = place.run(*words)
            place.path("unread").chmod(0o600)
            TRIES.same("no permission", (status, out), (1, b""))
            TRIES.that("no permission", file_error(name).fullmatch(err), err)
            TRIES.same("no permission: files", place.all(), state)
        place.path("closed").chmod(0o755)


# Many at the same time.

def at_once(place, commands):
    processes = [place.start(*words) for words in commands]
    return [(*process.communicate(timeout=120), process.returncode) for process in processes]


def try_seals_at_once(key, rounds, width):
    with Place(s=SMALL) as place:
        place.write("k", key, 0o600)
        numbers = []
        for turn in range(rounds):
            outs = [f"f{turn}-{one}" for one in range(width)]
            answers = at_once(place, [["seal", "k", "s", out] for out in outs])
            for name, (out, err, status) in zip(outs, answers):
                if status == 0:
                    numbers.append(number_of(place.read(name)))
                    sealed = Sealed(with_next(key, numbers[-1]), SMALL)
                    TRIES.same("at once", (out, err, place.read(name)),
                               (sealed.told, b"", sealed.file))
                else:
                    TRIES.same("at once", (out, err, status),
                               (b"", said("k: in use by another program"), 1))
                    TRIES.that("at once: no file", not place.path(name).exists(), name)
        first = ReadKey(key).next_number
        TRIES.same("at once: numbers", sorted(numbers),
                   list(range(first, first + len(numbers))))
        TRIES.same("at once: key", place.read("k"), with_next(key, first + len(numbers)))
        TRIES.that("at once: some sealed", len(numbers) >= rounds, len(numbers))
        TRIES.same("at once: left", [name for name in place.all() if BESIDE.fullmatch(name)], [])


def try_one_file_at_once():
    """Many make the same file: one does, and it is what that one told."""
    for turn in range(25):
        with Place(s=SMALL) as place:
            answers = at_once(place, [["key", "new", "tag", "k"]] * 6)
            good = [out for out, _, status in answers if status == 0]
            TRIES.same("new keys at once: made", len(good), 1)
            if place.path("k").exists():
                TRIES.that("new keys at once: told", ReadKey(place.read("k")).form and
                           [ReadKey(place.read("k")).described()] == good, good)
            TRIES.same("new keys at once: left", list(place.all()), ["k", "s"])
    for turn in range(25):
        with Place(s=SMALL) as place:
            for one in range(6):
                place.write(f"k{one}", tag_file(100 * one), 0o600)
            answers = at_once(place, [["seal", f"k{one}", "s", "f"] for one in range(6)])
            good = [one for one, answer in enumerate(answers) if answer[2] == 0]
            TRIES.same("one sealed file at once: made", len(good), 1)
            if good and place.path("f").exists():
                TRIES.same("one sealed file at once", place.read("f"),
                           Sealed(tag_file(100 * good[0]), SMALL).file)


def try_new_key_while_sealing():
    """A new key on the same file never takes the place of one that seals."""
    with Place(s=SMALL) as place:
        place.write("k", tag_file(), 0o600)
        for turn in range(40):
            commands = [["seal", "k", "s", f"f{turn}"], *[["key", "new", "tag", "k"]] * 4]
            for (out, err, status), words in zip(at_once(place, commands), commands):
                if words[0] == "key":
                    TRIES.that("new key while sealing", status == 1 and exists("k").fullmatch(err),
                               status, err)
                else:
                    TRIES.same("seal beside new keys", (err, status), (b"", 0))
            key = ReadKey(place.read("k"))
            TRIES.same("the key that seals", (key.form, getattr(key, "secret", None)),
                       ("tag", SECRET))


# The demo.

def try_demo():
    with Place() as place:
        status, out, err = place.run("demo")
    TRIES.same("demo", (status, err), (0, b""))
    lines = out.decode().splitlines()
    blocks = [line[6:].encode() for line in lines if re.match(r"  [ 1]\d  ", line)]
    TRIES.same("demo: blocks", len(blocks), 10)
    sheet = Sheet()
    sheet.blocks = blocks
    begins = seals.DIGESTS[b"sha256"].of(b"".join(blocks)).hex()[:16]
    found = re.findall(r"One digest of the whole text begins ([0-9a-f]+)", out.decode())
    TRIES.same("demo: digests", found, [begins, begins])
    plane = KINDS[b"plane"][0](10)
    key = TagKey(b"sha256", bytes([7] * 32), b"the demo", 41)
    drawn = seals.Drawn(key.name, key.draw())
    part = seals.seal(sheet, plane, seals.DIGESTS[b"sha256"], key, drawn, ROOM)
    plate, slip = [(1, b"plate KA RS 1407")], [(4, b"axle 2 left 101"), (5, b"5 right 998 daN ")]
    expected = [demo_check(sheet, part, plane, changes)
                for changes in ([], plate, slip, [*slip, (10, b"tester 7 failed")])]
    checks = re.findall(r"nazkoiber check\n(.*?)(?:\n\n|$)", out.decode(), re.S)
    TRIES.same("demo: checks", [check.strip() for check in checks], expected)


def demo_check(sheet, part, family, changes):
    changed = Sheet()
    changed.blocks = list(sheet.blocks)
    for number, data in changes:
        changed.rewrite(number, data)
    try:
        named = seals.check(changed, seals.Seal(part), family, seals.DIGESTS[b"sha256"], 512)
    except Refused as refusal:
        count = str(refusal).split()[-1]
        return f"refused {refusal.number}: {WORDS[refusal.number]} ({count} suspects)"
    return check_text(changed, 41, named).decode().strip()


PARTS = {
    "help": lambda: try_help(usage_texts()),
    "words": lambda: try_wrong_words(usage_texts()),
    "bytes": try_words_of_other_bytes,
    "demo": try_demo,
    "keys": try_keys,
    "umask": try_umask,
    "spoiled-keys": lambda: try_spoiled_keys(random.Random(1)),
    "spoiled-seal": lambda: try_sealing_by_spoiled_keys(random.Random(2)),
    "seals": try_seals,
    "numbers": try_all_numbers,
    "limits": try_numbers_at_the_limit,
    "sheets": try_refused_sheets,
    "public": try_sealing_by_public_part,
    "checks": lambda: [try_checks(key) for key in KEYS.values()],
    "rewrites": try_rewrites,
    "vouches": lambda: [try_vouches(key) for key in KEYS.values()],
    "schemes": try_other_schemes,
    "spoiled-files": lambda: try_spoiled_files(random.Random(3)),
    "damaged": try_damaged,
    "existing": try_existing,
    "beside": try_names_beside,
    "two-names": try_two_names,
    "locked": try_locked,
    "file-limits": try_file_limits,
    "killed": lambda: try_killed(random.Random(4)),
    "cut-off": try_new_key_cut_off,
    "outputs": try_closed_outputs,
    "all-closed": try_all_closed,
    "no-stderr": try_no_stderr,
    "full-disk": try_full_disk,
    "permission": try_no_permission,
    "at-once": lambda: [try_seals_at_once(tag_file(), 25, 8), try_seals_at_once(lms_file(), 4, 6)],
    "one-file": try_one_file_at_once,
    "new-key-while-sealing": try_new_key_while_sealing,
}


def main():
    global PROGRAM
    if len(sys.argv) < 2:
        sys.exit("usage: try_tool.py PROGRAM [PART ..]")
    PROGRAM = os.path.abspath(sys.argv[1])
    os.umask(0o022)
    for name in sys.argv[2:] or PARTS:
        PARTS[name]()
    for skipped in TRIES.skipped:
        print(f"skipped: {skipped}")
    for fault in TRIES.faults:
        print(fault)
    if TRIES.faults:
        sys.exit(f"{TRIES.count} tries, {len(TRIES.faults)} not as expected")
    print(f"{TRIES.count} tries, all as expected")


if __name__ == "__main__":
    main()
