#!/usr/bin/env python3
"""What `seekrun` must print: a refusal by reader.py, rows by the Rust's engine. Nothing of the port is used.

As a program: reads a listing from standard input and prints what must be printed for it.
"""
import os
import pathlib
import subprocess
import sys

import reader

HERE = pathlib.Path(__file__).resolve().parent
TOP = HERE.parent.parent
HARNESS = TOP / "tests" / "differential"
BUILT = TOP / "target" / "listing"
ROWS = BUILT / "release" / "rows"
NAMES = "answer steps state head low high score\n"
LONG = "long"


def build():
    """Builds the harness's program `rows`, without the port's library (that is what the feature does)."""
    command = ["cargo", "build", "--release", "--offline", "--quiet", "--features", "mock", "--bin", "rows"]
    subprocess.run(command, cwd=HARNESS, env={**os.environ, "CARGO_TARGET_DIR": str(BUILT)}, check=True)


def plain(listing):
    """A listing in the form that `rows` reads."""
    lines = [f"machine {listing.symbols} {listing.states} {listing.start}"]
    for (state, read), (write, move, after) in listing.table.items():
        lines.append(f"entry {state} {read} {write} {move} {after}")
    lines.append(" ".join(["word", *map(str, listing.word)]))
    lines.extend(f"call {name} {number}" for name, number in listing.calls)
    return "\n".join([*lines, "end", ""])


def rows(listings, limit=100_000_000):
    """The rows of each listing, by the Rust's engine; None for those that take more than `limit` steps."""
    cases = "".join(map(plain, listings))
    ran = subprocess.run([ROWS, str(limit)], input=cases, capture_output=True, text=True, check=True)
    parts = ran.stdout.split("end\n")
    assert len(parts) == len(listings) + 1 and parts[-1] == "", "one part for each case"
    return [None if part.startswith(LONG) else part for part in parts[:-1]]


def outputs(inputs, limit=100_000_000):
    """For each input what must be printed, as bytes; None where the rows would take more than `limit` steps."""
    listings, told = [], []
    for data in inputs:
        try:
            listings.append(reader.read(data))
            told.append(None)
        except reader.Bad as bad:
            told.append(f"refused {bad.line}\n".encode())
    good = iter(rows(listings, limit))

    def output(refusal):
        if refusal is not None:
            return refusal
        part = next(good)
        return None if part is None else (NAMES + part).encode()

    return [output(refusal) for refusal in told]


def main():
    build()
    (output,) = outputs([sys.stdin.buffer.read()])
    sys.stdout.buffer.write(b"more steps than are run here\n" if output is None else output)


if __name__ == "__main__":
    main()
