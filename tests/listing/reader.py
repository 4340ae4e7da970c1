#!/usr/bin/env python3
"""A second reader of the listing, written from document 01's paragraph "Listing" alone, in another style than the port's.

read(data) takes the input's bytes and gives a Listing, or raises Bad with the number of the first bad line.
As a program: reads standard input and prints `bad N`, or what it read.
"""
import re
import sys
from dataclasses import dataclass, field

ENTRIES = 512  # "table to 512 entries"
LINE = 80  # "lines to 80 bytes", without the newline
CALLS = 64  # "a 65th call" is bad
SYMBOLS = 256
STATES = 65_536
TOP = 2**64  # "over 64 bits"

MACHINE_NAMES = b"tapes symbols states start"
ENTRY_NAMES = b"state read write move next"
WORD_NAME = b"word"
CALL_NAMES = b"call number"

# "a zero before another digit" is bad; a number is not empty and has no sign.
N = rb"(0|[1-9][0-9]*)"
MACHINE = re.compile(N + b" " + N + b" " + N + b" " + N)
ENTRY = re.compile(N + b" " + N + b" " + N + rb" ([LRN]) " + N)
WORD = re.compile(rb"|(?:0|[1-9][0-9]*)(?: (?:0|[1-9][0-9]*))*")
CALL = re.compile(rb"(seek|forward|back) " + N)


class Bad(Exception):
    """The first bad line, counted from 1."""

    def __init__(self, line):
        super().__init__(f"line {line} is bad")
        self.line = line


@dataclass
class Listing:
    """What a good listing says."""

    symbols: int
    states: int
    start: int
    table: dict = field(default_factory=dict)  # (state, read) -> (write, move, next)
    word: list = field(default_factory=list)
    calls: list = field(default_factory=list)  # (name, number)


class Lines:
    """The input's lines, one after the other."""

    def __init__(self, data):
        # "the last newline may be missing, and bytes after the last newline are a line only if there are any"
        self.lines = data.split(b"\n")
        if self.lines[-1] == b"":
            self.lines.pop()
        self.at = 0  # the number of the line last taken

    def more(self):
        return self.at < len(self.lines)

    def bad(self):
        return Bad(self.at)

    def take(self):
        """The next line. "a missing line is bad at its own number", "a line over 80 bytes without its newline" too."""
        self.at += 1
        if self.at > len(self.lines) or len(self.lines[self.at - 1]) > LINE:
            raise self.bad()
        return self.lines[self.at - 1]

    def names(self, expected):
        if self.take() != expected:
            raise self.bad()

    def form(self, line, form):
        match = form.fullmatch(line)
        if match is None:
            raise self.bad()
        return match.groups()

    def number(self, digits, below):
        """"a number outside its range or over 64 bits" is bad."""
        value = int(digits)
        if value >= below:
            raise self.bad()
        return value


def machine(lines):
    tapes, symbols, states, start = (int(n) for n in lines.form(lines.take(), MACHINE))
    good = tapes == 1 and 1 <= symbols <= SYMBOLS and 1 <= states <= STATES and start < states
    if not good or symbols * states > ENTRIES:
        raise lines.bad()
    return Listing(symbols, states, start)


def entries(lines, listing):
    """The entry lines, and the line `word` after them."""
    while (line := lines.take()) != WORD_NAME:
        state, read, write, move, after = lines.form(line, ENTRY)
        key = lines.number(state, listing.states), lines.number(read, listing.symbols)
        entry = lines.number(write, listing.symbols), move.decode(), lines.number(after, listing.states)
        if key in listing.table:  # "an entry's second giving"
            raise lines.bad()
        listing.table[key] = entry


def word(lines, listing):
    line = lines.take()
    lines.form(line, WORD)
    listing.word = [lines.number(symbol, listing.symbols) for symbol in line.split()]


def calls(lines, listing):
    while lines.more():
        name, number = lines.form(lines.take(), CALL)
        if len(listing.calls) == CALLS:
            raise lines.bad()
        listing.calls.append((name.decode(), lines.number(number, TOP)))


def read(data):
    """The listing that the bytes are; raises Bad where a line is bad."""
    lines = Lines(data)
    lines.names(MACHINE_NAMES)
    listing = machine(lines)
    lines.names(ENTRY_NAMES)
    entries(lines, listing)
    word(lines, listing)
    lines.names(CALL_NAMES)
    calls(lines, listing)
    return listing


def main():
    try:
        print(read(sys.stdin.buffer.read()))
    except Bad as bad:
        print("bad", bad.line)


if __name__ == "__main__":
    main()
