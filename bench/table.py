"""Runs the programs of a folder side by side and prints the tables:

    table.py FOLDER [PASSES]

Every program does the same work, and what it prints last shows it: where one
differs, the comparison stops.
"""

import os
import subprocess
import sys

FOLDER = sys.argv[1]
PASSES = int(sys.argv[2]) if len(sys.argv) > 2 else 3
HERE = os.path.dirname(os.path.abspath(__file__))

# SSSE3 and AVX in the first word, AVX2 and SHA-NI in the second.
SCALAR = {"OPENSSL_ia32cap": "~0x1000020000000000:~0x20000020"}

RIVALS = [
    ("ours", [f"{FOLDER}/crates/ours/out/ours"], {}),
    ("OpenSSL scalar", [f"{FOLDER}/evp"], SCALAR),
    ("OpenSSL", [f"{FOLDER}/evp"], {}),
    ("hashlib", [sys.executable, f"{HERE}/hashed.py"], {}),
    ("plain C", [f"{FOLDER}/plain-c"], {}),
    ("plain Rust", [f"{FOLDER}/plain-rs"], {}),
]

# (name, bytes, digests in a round)
SIZES = [("55 B", 55, 200_000), ("64 B", 64, 200_000), ("1 KiB", 1024, 16_384),
         ("64 KiB", 65_536, 256), ("16 MiB", 16_777_216, 1)]
ROUNDS = 5

# (name, our way, the rivals with theirs)
ROWS = [("each row's blocks by `next_block`", "next", [("C table", "next"), ("plain C", "plain")]),
        ("each row and block by `holds`", "holds", [("C table", "holds"), ("plain C", "plain")])]
ROW_TURNS = 100

# How many hashes of 55 bytes the chains of an LMS key are.
CHAIN_STEPS = 32 * 34 * 255

# (q, blocks, turns in a round). Short rounds, and many: a long one is seldom left alone on a busy machine.
SEALS = [(5, 125, 40), (16, 512, 5)]
SEAL_ROUNDS = 10
SEAL_PASSES = 20

# What a turn of `vouch` adds where no row vouches: the number of that refusal.
NO_ROW_VOUCHES = 29


def run(command, environment, *words, rounds=ROUNDS):
    """The best nanoseconds of a round, and what stands in the last line."""
    out = subprocess.run([*command, *map(str, words), str(rounds)],
                         env={**os.environ, **environment}, check=True,
                         capture_output=True, text=True).stdout.split()
    return min(map(int, out[:-1])), out[-1]


def compare(digest, size, turns):
    """Megabytes a second of each, the best of all passes."""
    best, answers = {}, set()
    for _ in range(PASSES):
        for name, command, environment in RIVALS:
            nanos, answer = run(command, environment, digest, size, turns)
            best[name] = min(nanos, best.get(name, nanos))
            answers.add(answer)
            if len(answers) > 1:
                sys.exit(f"{name} answers otherwise: {digest}, {size} bytes")
    return {name: size * turns * 1000 / nanos for name, nanos in best.items()}


def compare_keys():
    """Milliseconds to make an LMS key, the best of all passes, and for as many bare digests."""
    programs = {name: (command, environment) for name, command, environment in RIVALS}
    runs = [("ours", "ours", "lms", 48, 1), ("plain C", "plain C", "lms", 48, 1),
            ("as many bare digests", "ours", "sha256", 55, CHAIN_STEPS)]
    best, roots = {}, set()
    for _ in range(PASSES):
        for label, name, work, size, turns in runs:
            nanos, answer = run(*programs[name], work, size, turns)
            best[label] = min(nanos, best.get(label, nanos))
            if work == "lms":
                roots.add(answer)
            if len(roots) > 1:
                sys.exit(f"{name} makes another key")
    return {label: nanos / 1e6 for label, nanos in best.items()}


def print_keys():
    millis = compare_keys()
    others = [label for label in millis if label != "ours"]
    print("| | ours, ms | " + " | ".join(f"ours / {label}" for label in others) + " |")
    print("|---|" + "---|" * (len(others) + 1))
    ratios = (f"{millis[label] / millis['ours']:.2f}" for label in others)
    print(f"| LMS key | {millis['ours']:.1f} | " + " | ".join(ratios) + " |")


def compare_rows(way, rivals):
    """Milliseconds that each takes to visit all rows, the best of all passes."""
    programs = [("ours", f"{FOLDER}/crates/rows/out/rows", way),
                *((name, f"{FOLDER}/rows-c", theirs) for name, theirs in rivals)]
    best, answers = {}, set()
    for _ in range(PASSES):
        for name, program, word in programs:
            nanos, answer = run([program], {}, word, ROW_TURNS)
            best[name] = min(nanos, best.get(name, nanos))
            answers.add(answer)
            if len(answers) > 1:
                sys.exit(f"{name} answers otherwise: rows, {word}")
    return {name: nanos / ROW_TURNS / 1e6 for name, nanos in best.items()}


def print_rows():
    names = [name for name, _ in ROWS[0][2]]
    print("| rows, q = 16, k = 3, n = 512 | ours, ms | " + " | ".join(f"ours / {name}" for name in names) + " |")
    print("|---|" + "---|" * (len(names) + 1))
    for label, way, rivals in ROWS:
        taken = compare_rows(way, rivals)
        ratios = (f"{taken[name] / taken['ours']:.2f}" for name in names)
        print(f"| {label} | {taken['ours']:.3f} | " + " | ".join(ratios) + " |", flush=True)


def found(number, turns):
    """What so many turns of `check` or `vouch` come to, if each adds the same number."""
    total = 0
    for _ in range(turns):
        total = (total * 31 + number) % 2**32
    return f"{total:08x}".ljust(64, "f")


def compare_seals(digest, q, blocks, turns):
    """Milliseconds that a turn of each way takes, the best of all passes."""
    program = [f"{FOLDER}/crates/sealing/out/sealing"]
    best, answers = {}, {}
    for _ in range(SEAL_PASSES):
        for way in ("digests", "seal", "check", "held", "vouch"):
            nanos, answers[way] = run(program, {}, way, digest, q, blocks, turns, rounds=SEAL_ROUNDS)
            best[way] = min(nanos, best.get(way, nanos))
        if answers["seal"] != answers["digests"]:
            sys.exit(f"seal makes other digests: {digest}, {blocks} blocks")
        if answers["check"] != found(blocks, turns * SEAL_ROUNDS):
            sys.exit(f"check names other blocks: {digest}, {blocks} blocks")
        if answers["vouch"] != found(NO_ROW_VOUCHES, turns * SEAL_ROUNDS):
            sys.exit(f"vouch finds a row: {digest}, {blocks} blocks")
    return {way: nanos / turns / 1e6 for way, nanos in best.items()}


def print_seals():
    print("| blocks, rows, digest | digests, ms | seal / digests | check / digests | vouch / held |")
    print("|---|---|---|---|---|")
    for q, blocks, turns in SEALS:
        for digest in ("sha256", "blake2s"):
            taken = compare_seals(digest, q, blocks, turns)
            ratios = (f"{taken[way] / taken[bare]:.2f}"
                      for way, bare in (("seal", "digests"), ("check", "digests"), ("vouch", "held")))
            print(f"| {blocks}, {q * q}, {digest} | {taken['digests']:.3f} | " + " | ".join(ratios) + " |", flush=True)


def main():
    names = [name for name, _, _ in RIVALS[1:]]
    for digest in ("sha256", "blake2s"):
        print(f"| {digest} | ours, MB/s | " + " | ".join(f"ours / {name}" for name in names) + " |")
        print("|---|" + "---|" * (len(names) + 1))
        for label, size, turns in SIZES:
            if digest == "blake2s" and size == 55:
                continue
            speed = compare(digest, size, turns)
            ratios = (f"{speed['ours'] / speed[name]:.2f}" for name in names)
            print(f"| {label} | {speed['ours']:.0f} | " + " | ".join(ratios) + " |", flush=True)
        print()
    print_keys()
    print()
    print_rows()
    print()
    print_seals()


main()
