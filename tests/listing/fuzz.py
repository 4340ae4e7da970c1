#!/usr/bin/env python3
"""Runs `seekrun` on random and changed listings and compares every byte that it prints with expected.py.

    python3 fuzz.py [--count N] [--seed S] [--only I] [--program PATH] [--limit STEPS]

A listing whose calls take more than `--limit` steps is left out. Status 1 on a difference, a crash or a time-out.
"""
import argparse
import collections
import pathlib
import random
import subprocess
import sys

import expected
import generate

BATCH = 500
SHOWN = 5
SECONDS = 20


def corpus():
    """The inputs of the cases."""
    data = [path.read_bytes() for path in sorted((expected.TOP / "crates" / "listing_cases" / "data").glob("*.in"))]
    return [listing for listing in data if len(listing) < 10_000]


def run(program, data):
    """What the program prints; a crash or a time-out in words."""
    try:
        ran = subprocess.run([program], input=data, capture_output=True, timeout=SECONDS)
    except subprocess.TimeoutExpired:
        return b"(does not end)"
    if ran.returncode != 0 or ran.stderr:
        return b"(ends with status %d) %s" % (ran.returncode, ran.stderr)
    return ran.stdout


class Tally:
    """What the listings were."""

    def __init__(self):
        self.count = collections.Counter()
        self.bad = collections.Counter()
        self.rows = collections.Counter()
        self.different = []

    def add(self, output):
        first, *rows = output.decode().splitlines()
        if first.startswith("refused"):
            self.count["bad"] += 1
            self.bad[int(first.split()[1])] += 1
        else:
            self.count["good"] += 1
            self.rows.update(row.split()[0] for row in rows)

    def report(self):
        lines = sorted(self.bad.items())
        near = [f"{line}: {count}" for line, count in lines if line <= 20]
        far = sum(count for line, count in lines if line > 20)
        print(f"{self.count['good']} good, {self.count['bad']} bad, {self.count['long']} left out for their steps")
        print("rows:", ", ".join(f"{count} {answer}" for answer, count in self.rows.most_common()))
        print("bad at line", ", ".join([*near, f"21 to {max(self.bad, default=0)}: {far}"]))
        print(f"{len(self.different)} different")


def prepared(seed, indexes, limit):
    """Listings number `indexes` of the seed, each with what must be printed for it; None where it takes too many steps."""
    listings = corpus()
    for begin in range(0, len(indexes), BATCH):
        batch = indexes[begin : begin + BATCH]
        inputs = [generate.listing(random.Random(f"{seed} {index}"), listings) for index in batch]
        yield from zip(batch, inputs, expected.outputs(inputs, limit))


def compare(execute, listings, stop=sys.maxsize):
    """What `execute` prints for each listing, with what must be printed; ends early after `stop` differences."""
    tally = Tally()
    for index, data, output in listings:
        if output is None:
            tally.count["long"] += 1
            continue
        tally.add(output)
        printed = execute(data)
        if printed != output:
            tally.different.append((index, data, output, printed))
            if len(tally.different) == stop:
                break
    return tally


def show(seed, index, data, output, printed):
    path = expected.BUILT / f"fuzz-{seed}-{index}.in"
    path.write_bytes(data)
    print(f"DIFFERENT: seed {seed}, listing {index}, {len(data)} bytes, kept in {path.relative_to(expected.TOP)}")
    both = output.splitlines(), printed.splitlines()
    for number, (want, got) in enumerate(zip(*both), 1):
        if want != got:
            print(f"  line {number} must be {want[:90]!r}, is {got[:90]!r}")
            return
    print(f"  {len(both[0])} lines, {len(output)} bytes must be printed, {len(both[1])} lines, {len(printed)} bytes are")


def main():
    options = argparse.ArgumentParser()
    options.add_argument("--count", type=int, default=5000)
    options.add_argument("--seed", type=int, default=1)
    options.add_argument("--only", type=int, help="one listing of the seed")
    options.add_argument("--program", type=pathlib.Path, default=expected.TOP / "crates" / "seekrun" / "out" / "seekrun")
    options.add_argument("--limit", type=int, default=20_000_000)
    given = options.parse_args()
    expected.build()
    indexes = range(given.count) if given.only is None else [given.only]
    program = given.program.resolve()
    tally = compare(lambda data: run(program, data), prepared(given.seed, indexes, given.limit))
    for difference in tally.different[:SHOWN]:
        show(given.seed, *difference)
    tally.report()
    sys.exit(1 if tally.different else 0)


if __name__ == "__main__":
    main()
