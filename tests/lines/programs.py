#!/usr/bin/env python3
"""Tries the programs line_to_listing and listing_to_line: alone, one after the other, and with seekrun.

    python3 programs.py [--count N] [--seed S]

Needs the three programs as `rt run`, in their crates, or `rt ci` builds them: crates/NAME/out/NAME.
Prints the differences, and at the end one line. Status 1 on a difference.
"""
import argparse
import os
import random
import subprocess
import sys

import driver
import generate
import second

TO_LISTING, TO_LINE, SEEKRUN = "line_to_listing", "listing_to_line", "seekrun"
SECONDS = 20
LONGEST_LINE = 25 * 31 - 1
READ = 65_536  # the most bytes that the programs read
MOST_ENTRIES, MOST_CALLS = 512, 64  # of a listing
MACHINES = [
    (b"1RB1LB_1LA1RZ", 6),
    (b"1RB1RZ_1LB0RC_1LC1LA", 21),
    (b"1RB1LB_1LA0LC_1RZ1LD_1RD0RA", 107),
    (b"1RB2LB1RZ_2LA2RB1LB", 38),
]


# ---- running ----


def program(name):
    """A program as built."""
    return driver.TOP / "crates" / name / "out" / name


class Tally:
    """How many cases there were, and how many differ."""

    def __init__(self):
        self.cases, self.different = 0, 0

    def case(self, what, given, wanted):
        self.cases += 1
        if given != wanted:
            self.different += 1
            print(f"DIFFERENT: {what}: must be {shortened(wanted)}, is {shortened(given)}")


def shortened(value):
    return driver.shortened(repr(value))


def ran(name, stdin, stdout=subprocess.PIPE, before=None):
    """Standard output, standard error and the status of a program with such streams."""
    done = subprocess.run([program(name)], stdin=stdin, stdout=stdout, stderr=subprocess.PIPE, preexec_fn=before, timeout=SECONDS)
    return done.stdout or b"", done.stderr, done.returncode


def output(name, data):
    """What a program writes to standard output. Words to standard error, or another status than 0, are put after it."""
    done = subprocess.run([program(name)], input=data, capture_output=True, timeout=SECONDS)
    return done.stdout if (done.stderr, done.returncode) == (b"", 0) else (done.stdout, done.stderr, done.returncode)


# ---- the answers by second.py ----


def entry_line(number, symbols, entry):
    move = b"LRN"[entry[6] % 3]
    return b"%d %d %d %c %d" % (number // symbols, number % symbols, entry[3], move, entry[1] + 256 * entry[2])


def listing(symbols, states, table, start=0, word=b"", calls=()):
    """The lines of the listing of a table of one tape, its entries in order."""
    entries = [table[at : at + 8] for at in range(0, len(table), 8)]
    given = [entry_line(number, symbols, entry) for number, entry in enumerate(entries) if entry != second.UNDEFINED]
    head = [b"tapes symbols states start", b"1 %d %d %d" % (symbols, states, start), b"state read write move next"]
    return [*head, *given, b"word", word, b"call number", *calls]


def text(lines):
    return b"".join(line + b"\n" for line in lines)


def read_answer(data):
    """What line_to_listing must print for an input."""
    line = data[:-1] if data.endswith(b"\n") else data
    code, place, symbols, states, table = second.read_line(line)
    return b"refused %d %d\n" % (code, place) if code else text(listing(symbols, states, table))


def write_answer(symbols, states, start, table):
    """What listing_to_line must print for the listing of a table."""
    code, _, line = second.write_line(1, symbols, states, start, table, LONGEST_LINE)
    return b"refused table %d\n" % code if code else line + b"\n"


def back_answer(line):
    """What listing_to_line must print for what line_to_listing prints for an accepted line."""
    empty = any(set(row) == {second.DASH} for row in line.split(b"_"))
    return b"refused table 21\n" if empty else line + b"\n"


# ---- lines ----


def try_lines(source, tally, count):
    """Accepted lines: there, and back again. Damaged lines."""
    for _ in range(count):
        line = generate.good_line(source)
        printed = output(TO_LISTING, line + b"\n")
        tally.case(f"the listing of {line}", printed, read_answer(line))
        tally.case(f"the line of the listing of {line}", output(TO_LINE, printed), back_answer(line))
    for _ in range(count):
        line = generate.damaged_line(source)
        tally.case(f"the damaged line {line}", output(TO_LISTING, line + b"\n"), read_answer(line + b"\n"))


def try_newlines(source, tally, count):
    """A line without a newline, with one and with two; inputs of few bytes, and of as many as are read and more."""
    for _ in range(count):
        line = generate.good_line(source)
        for ending in (b"", b"\n", b"\n\n"):
            tally.case(f"{line} with {ending}", output(TO_LISTING, line + ending), read_answer(line + ending))
    for data in (b"", b"\n", b"\n\n", b"-", b"------", b"1RB1LB\r\n", b"1RB1LB_\n", b"\n1RB1LB\n"):
        tally.case(f"the input {data}", output(TO_LISTING, data), read_answer(data))
    longest = b"_".join([b"9LZ" * 10] * 25)
    for line in (longest, longest + b"_", longest + b"_" + b"9LZ" * 10, b"1RB" * 11):
        tally.case(f"a line of {len(line)} bytes", output(TO_LISTING, line + b"\n"), read_answer(line))
    for size in (READ - 1, READ, READ + 1, 2 * READ):
        data = (longest + b"\n" + b"x" * size)[: size - 1] + b"\n"
        tally.case(f"an input of {size} bytes", output(TO_LISTING, data), read_answer(data))


# ---- listings ----


def random_table(source):
    """A table that a listing can have, at times one that no line has."""
    while True:
        shape = generate.table_shape(source)
        if shape[0] == 1 and shape[1] * shape[2] <= MOST_ENTRIES:
            break
    made = generate.Table(source, shape)
    for change in source.choice([[], [], [generate.with_no_move], [generate.with_undefined_rows]]):
        change(source, made)
    start = source.choice([0, 0, 0, source.randrange(made.states)])
    return made.symbols, made.states, start, made.table()


def random_listing(source, symbols, states, start, table):
    """The lines of a listing with the entries in any order, a word and calls."""
    word = b" ".join(b"%d" % source.randrange(symbols) for _ in range(source.randrange(12)))
    names = [source.choice([b"seek", b"forward", b"back"]) for _ in range(source.randrange(5))]
    calls = [b"%s %d" % (name, source.randrange(40)) for name in names]
    lines = listing(symbols, states, table, start, word, calls)
    end = len(lines) - len(calls) - 3
    entries = lines[3:end]
    source.shuffle(entries)
    return [*lines[:3], *entries, *lines[end:]], end


def bad_listing(source, lines, end):
    """A listing with a bad line, and its number. Entries end before index `end`, where the line `word` is."""
    kind, at = source.randrange(5), source.randrange(len(lines))
    if kind == 0:
        at = source.randint(0, end + 2)
        return lines[:at], at + 1
    if kind == 1 and end > 3:
        at = source.randrange(3, end)
        return [*lines[: at + 1], *lines[at:]], at + 2
    if kind == 2:
        calls = [b"seek 1"] * (MOST_CALLS + 1)
        return [*lines[: end + 3], *calls], end + 3 + len(calls)
    changed = source.choice([b"x", b" " + lines[at], lines[at] + b" ", lines[at] + b"\r", b"0" * 81, b"word word"])
    return [*lines[:at], changed, *lines[at + 1 :]], at + 1


def try_listings(source, tally, count):
    """Listings with other tables, and listings with a bad line, of which seekrun must name the same."""
    for _ in range(count):
        table = random_table(source)
        lines, end = random_listing(source, *table)
        data = text(lines)[: source.choice([None, -1])]
        tally.case(f"the line of {data}", output(TO_LINE, data), write_answer(*table))
        lines, number = bad_listing(source, lines, end)
        data, wanted = text(lines), b"refused %d\n" % number
        tally.case(f"the bad line of {data}", output(TO_LINE, data), wanted)
        tally.case(f"the bad line of {data} by seekrun", output(SEEKRUN, data), wanted)


# ---- machines whose number of steps is known ----


def try_machines(tally):
    for line, steps in MACHINES:
        given = output(TO_LISTING, line + b"\n")
        rows = output(SEEKRUN, given + b"seek %d\nseek %d\n" % (steps - 1, steps)).split(b"\n")
        said = [b" ".join(row.split(b" ")[:2]) for row in rows[1:3]]
        tally.case(f"the steps of {line}", said, [b"fuel %d" % (steps - 1), b"halted %d" % steps])
        tally.case(f"the line of {line}", output(TO_LINE, given), line + b"\n")


# ---- streams that fail ----


def from_pipe(name, data, stdout=subprocess.PIPE, ended=True):
    """A program on a pipe with some bytes in it. Where the input is not ended, the next read fails."""
    read, write = os.pipe()
    os.write(write, data)
    os.set_blocking(read, False)
    if ended:
        os.close(write)
    done = ran(name, read, stdout)
    os.close(read)
    if not ended:
        os.close(write)
    return done


def try_streams(tally):
    line = MACHINES[0][0] + b"\n"
    for name, data in ((TO_LISTING, line), (TO_LINE, read_answer(line))):
        unread = b"", b"%s: standard input cannot be read\n" % name.encode(), 0
        unwritten = b"", b"%s: standard output cannot be written\n" % name.encode(), 0
        folder = os.open(driver.TOP, os.O_RDONLY)
        tally.case(f"{name}, a directory", ran(name, folder), unread)
        os.close(folder)
        tally.case(f"{name}, closed input", ran(name, None, before=lambda: os.close(0)), unread)
        for part in (b"", data[:5], data):
            tally.case(f"{name}, a read that fails after {part}", from_pipe(name, part, ended=False), unread)
        tally.case(f"{name}, closed output", ran(name, subprocess.DEVNULL, None, lambda: os.close(1)), unwritten)
        with open("/dev/full", "wb") as full:
            tally.case(f"{name}, a full device", from_pipe(name, data, full), unwritten)


def main():
    options = argparse.ArgumentParser()
    options.add_argument("--count", type=int, default=45, help="how many random cases of each kind")
    options.add_argument("--seed", type=int, default=1, help="other random cases")
    given = options.parse_args()
    missing = [name for name in (TO_LISTING, TO_LINE, SEEKRUN) if not program(name).exists()]
    if missing:
        print(f"NOT RUN, there is no {program(missing[0]).relative_to(driver.TOP)}: `rt run` in crates/{missing[0]} makes it")
        sys.exit(1)
    source, tally = random.Random(given.seed), Tally()
    try_lines(source, tally, given.count)
    try_newlines(source, tally, given.count // 5)
    try_listings(source, tally, given.count)
    try_machines(tally)
    try_streams(tally)
    print(f"{tally.cases} cases, {tally.different} different")
    sys.exit(1 if tally.different else 0)


if __name__ == "__main__":
    main()
