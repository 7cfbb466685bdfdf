"""Python's hashlib: hashed.py DIGEST SIZE TURNS ROUNDS.

For each round it prints the nanoseconds that its turns took, and at the end
the last digest.
"""

import hashlib
import sys
import time


def main():
    digest = {"sha256": hashlib.sha256, "blake2s": hashlib.blake2s}[sys.argv[1]]
    size, turns, rounds = map(int, sys.argv[2:5])
    text = bytearray((i * 7 + 3) % 256 for i in range(size))
    for _ in range(rounds):
        start = time.perf_counter_ns()
        for _ in range(turns):
            text[:32] = digest(text).digest()
        print(time.perf_counter_ns() - start)
    print(text[:32].hex())


main()
