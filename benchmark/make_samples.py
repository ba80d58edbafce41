"""Rows for `budget`: minute after minute of some year from three sources, one row in twelve a correction.

    python3 make_samples.py BYTES > samples.csv

The seed is fixed, so the same number of bytes gives the same text. It ends with a whole row, at most one row short of BYTES.
"""
import random
import sys

SOURCES = ("eu-west.checkout", "us-east.checkout", "ap-south.checkout")
FIRST_MINUTE = 28_401_120  # 2024-01-01T00:00Z


def rows():
    """The rows in order: each source's row of a minute, and behind one in eleven a later revision of its row of some minute of the last hour."""
    chance = random.Random(20261128)
    minute, revisions = FIRST_MINUTE, {}

    def row(source, at):
        total = chance.randrange(9_000, 11_000)
        revisions[source, at] = revisions.get((source, at), 0) + 1
        return f"{source},{at},{revisions[source, at]},{total - chance.randrange(20)},{total}\n"

    while True:
        for source in SOURCES:
            yield row(source, minute)
            if chance.randrange(11) == 0:
                yield row(source, chance.randrange(max(FIRST_MINUTE, minute - 60), minute + 1))
            revisions.pop((source, minute - 60), None)
        minute += 1


def samples(most):
    """The text of so many bytes at most."""
    text, size = [], 0
    for row in rows():
        size += len(row)
        if size > most:
            return "".join(text).encode()
        text.append(row)


if __name__ == "__main__":
    sys.stdout.buffer.write(samples(int(sys.argv[1])))
