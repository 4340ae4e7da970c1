#!/usr/bin/env python3
"""A second reader and writer of the one-line form, written from Paper 1 of document 02 and the table of document 01 alone.

Lines are seen as grids. With a given number of entries in a row (the width, 2 to 10) every place of a line has one
column, and the column says which bytes may stand there. A line of the form fits the grid of one width. A prefix can be
continued as long as one grid fits it.

As a program: prints what the line given as its argument is read as.
"""
import functools
import sys

WIDTHS = frozenset(range(2, 11))  # "two to ten symbols"
ROWS = 25  # "1 to 25 lettered states"
DIGITS = frozenset(b"0123456789")
MOVES = b"LR"  # in document 01's order: L 0, R 1
LETTERS = b"ABCDEFGHIJKLMNOPQRSTUVWXYZ"
DASH, BREAK, HALT = b"-"[0], b"_"[0], b"Z"[0]

UNDEFINED = bytes(8)
NO_MOVE = 2
OTHER_TAPES = 3 * NO_MOVE + 9 * NO_MOVE  # byte 6 of a one-tape entry is this and the move of tape 0

MALFORMED, LACKING, UNWRITABLE, SHORT = 19, 20, 21, 18


# ---- the form ----

# How a prefix can go on depends on its length, on whether its last byte is a dash, and on the widths whose grid fits it.
EMPTY = (0, False, WIDTHS)


def in_grid(width, at, after_dash):
    """The bytes that may stand at place `at` of a line with this width."""
    row, column = divmod(at, 3 * width + 1)
    if column == 3 * width:
        return {BREAK} if row + 1 < ROWS else set()
    part = column % 3
    if part == 0:
        return DIGITS | {DASH}
    if after_dash:  # the first byte of this entry is a dash, so it is `---`
        return {DASH}
    return set(MOVES) if part == 1 else set(LETTERS)


@functools.lru_cache(maxsize=None)
def onward(known):
    """What is known of the prefix after each byte that may follow."""
    at, after_dash, widths = known
    fitting = {}
    for width in widths:
        for byte in in_grid(width, at, after_dash):
            fitting.setdefault(byte, set()).add(width)
    return {byte: (at + 1, byte == DASH, frozenset(left)) for byte, left in fitting.items()}


def may_end(known):
    """Whether the prefix is a line of the form: a whole number of rows, with breaks between them."""
    at, _, widths = known
    return any((at + 1) % (3 * width + 1) == 0 for width in widths)


def follow(line):
    """How many bytes of the line are those of some line of the form, and what is known after them."""
    known = EMPTY
    for place, byte in enumerate(line):
        after = onward(known).get(byte)
        if after is None:
            return place, known
        known = after
    return len(line), known


def viable(prefix):
    """The bytes that may follow a prefix, and whether the line may end after it."""
    place, known = follow(prefix)
    if place < len(prefix):
        return set(), False
    return set(onward(known)), may_end(known)


# ---- reading ----


def lacking(line, rows, width):
    """The place of the first digit, or letter other than Z, that the line's rows lack; None where there is none."""
    missing = set(b"0123456789"[width:]) | set(LETTERS[rows:]) - {HALT}
    for place, byte in enumerate(line):
        is_move = place % (3 * width + 1) % 3 == 1
        if byte in missing and not is_move:
            return place
    return None


def entry_of(text, rows):
    """The eight bytes of an entry."""
    if text == b"---":
        return UNDEFINED
    write, move, letter = text[0] - b"0"[0], MOVES.index(text[1]), text[2]
    after = rows if letter == HALT else LETTERS.index(letter)
    return bytes([1, after, 0, write, 0, 0, OTHER_TAPES + move, 0])


def read_line(line, room=None):
    """The answer of a reader with `room` bytes for the table: (code, place, symbols, states, table)."""
    place, known = follow(line)
    if place < len(line) or not may_end(known):
        return MALFORMED, place, None, None, b""
    rows = line.split(b"_")
    width = len(rows[0]) // 3
    place = lacking(line, len(rows), width)
    if place is not None:
        return LACKING, place, None, None, b""
    entries = [entry_of(row[at : at + 3], len(rows)) for row in rows for at in range(0, 3 * width, 3)]
    table = b"".join(entries) + UNDEFINED * width  # Z's row is the last
    if room is not None and room < len(table):
        return SHORT, None, None, None, b""
    return 0, None, width, len(rows) + 1, table


# ---- the table check of document 01 ----


def entry_fits(entry, tapes, symbols, states):
    if entry == UNDEFINED:
        return True
    moves = entry[6] % 3, entry[6] // 3 % 3, entry[6] // 9
    written = all(entry[3 + tape] < symbols for tape in range(tapes))
    unused = all(entry[3 + tape] == 0 and moves[tape] == NO_MOVE for tape in range(tapes, 3))
    whole = entry[0] == 1 and moves[2] <= NO_MOVE and entry[7] == 0
    return whole and entry[1] + 256 * entry[2] < states and written and unused


def check(tapes, symbols, states, start, table):
    """The first of refusals 1 to 6 that applies, or 0, and the place that 6 gives."""
    if not 1 <= tapes <= 3:
        return 1, None
    if not 1 <= symbols <= 256:
        return 2, None
    if not 1 <= states <= 65_536:
        return 3, None
    if not start < states:
        return 4, None
    if len(table) != 8 * states * symbols**tapes:
        return 5, None
    entries = [table[at : at + 8] for at in range(0, len(table), 8)]
    bad = {entry for entry in set(entries) if not entry_fits(entry, tapes, symbols, states)}
    for number, entry in enumerate(entries):
        if entry in bad:
            return 6, number
    return 0, None


# ---- writing ----


def text_of(entry, names):
    """The three bytes of a one-tape entry."""
    if entry == UNDEFINED:
        return b"---"
    return bytes([b"0"[0] + entry[3], MOVES[entry[6] - OTHER_TAPES], names[entry[1]]])


def line_of(tapes, symbols, start, table):
    """The line of a table that passes the check; None where no line has it."""
    if tapes != 1 or symbols not in WIDTHS or start != 0:
        return None
    rows = [table[at : at + 8 * symbols] for at in range(0, len(table), 8 * symbols)]
    undefined = [row == UNDEFINED * symbols for row in rows]
    lettered = rows[:-1] if undefined[-1] else rows  # "a last row that is all undefined" is Z's
    if not 1 <= len(lettered) <= ROWS or any(undefined[:-1]):
        return None
    entries = [[row[at : at + 8] for at in range(0, len(row), 8)] for row in lettered]
    if any(entry[6] == OTHER_TAPES + NO_MOVE for row in entries for entry in row):
        return None
    names = LETTERS[: len(lettered)] + b"Z"
    return b"_".join(b"".join(text_of(entry, names) for entry in row) for row in entries)


def write_line(tapes, symbols, states, start, table, room):
    """The answer of a writer with `room` bytes for the line: (code, place, line)."""
    code, place = check(tapes, symbols, states, start, table)
    if code != 0:
        return code, place, b""
    line = line_of(tapes, symbols, start, table)
    if line is None:
        return UNWRITABLE, None, b""
    if room < len(line):
        return SHORT, None, b""
    return 0, None, line


def main():
    code, place, symbols, states, table = read_line(sys.argv[1].encode())
    if code != 0:
        print(f"refused {code} at {place}")
        return
    print(f"{symbols} symbols, {states} states")
    for at in range(0, len(table), 8):
        print(f"state {at // 8 // symbols} reading {at // 8 % symbols}: {table[at : at + 8].hex(' ')}")


if __name__ == "__main__":
    main()
