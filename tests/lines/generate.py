"""Random lines and tables: good ones and damaged ones. The random source given decides everything."""

LETTERS = "ABCDEFGHIJKLMNOPQRSTUVWXYZ"
UNDEFINED = bytes(8)
BIG = 2**32
TOP = 2**64 - 1


# ---- lines ----


def line_shape(random):
    """Symbols and rows of a line: mostly few, at times any, at times around the limits."""
    kind = random.randrange(10)
    if kind < 5:
        return random.randint(2, 4), random.randint(1, 5)
    if kind < 8:
        return random.randint(2, 10), random.randint(1, 25)
    return random.choice([2, 3, 9, 10]), random.choice([1, 24, 25, 25, 26, 27, random.randint(28, 40)])


def line_entry(random, width, letters):
    if random.randrange(8) == 0:
        return "---"
    return f"{random.randrange(width)}{random.choice('LR')}{random.choice(letters)}"


def line_row(random, width, letters):
    """A row with an entry in it."""
    row = [line_entry(random, width, letters) for _ in range(width)]
    if all(entry == "---" for entry in row):
        row[random.randrange(width)] = f"0R{random.choice(letters)}"
    return row


def line_rows(random, width, rows):
    """The rows of a line, as lists of entries. In some lines there are rows that are `---` throughout."""
    letters = LETTERS[: min(rows, 25)] + "ZZ"
    blank = random.choice([0, 0, 0, 0.1, 0.5])
    return [["---"] * width if random.random() < blank else line_row(random, width, letters) for _ in range(rows)]


def joined(rows):
    return "_".join("".join(row) for row in rows).encode()


def good_line(random):
    """A line that the reader must accept."""
    width, rows = line_shape(random)
    return joined(line_rows(random, width, min(rows, 25)))


def edge_lines(random):
    """Lines of each width and each number of rows to 27, good but for their rows, and the same with one more fault."""
    for width in range(2, 11):
        for count in range(1, 28):
            rows = line_rows(random, width, count)
            yield joined(rows)
            row, column = random.randrange(count), random.randrange(width)
            beyond = LETTERS[count % 26]
            for entry in (f"0L{beyond}", f"{width % 10}RA", f"{width - 1}R{LETTERS[(count - 1) % 26]}", "1RZ"):
                changed = [list(entries) for entries in rows]
                changed[row][column] = entry
                yield joined(changed)
            yield joined(rows + [["---"] * (width - 1)])
            yield joined(rows) + b"_"
            yield joined([row + ["---"] for row in rows])


def any_parts(random, rows):
    """The parts of an entry: a digit and a letter that the rows may lack, L and R among the letters, and a move."""
    beside = [LETTERS[len(rows) % 26], LETTERS[(len(rows) - 1) % 26]]
    digit = random.choice([random.randrange(10), len(rows[0]) % 10, (len(rows[0]) - 1) % 10])
    return digit, random.choice("LR"), random.choice(["L", "R", "Z", *beside, random.choice(LETTERS)])


def put_entry(random, rows, entry):
    """Puts an entry in the place of another."""
    row = random.choice(rows)
    at = random.randrange(len(row)) if row else 0
    row[at : at + 1] = [entry]


def any_entry(random, rows):
    """An entry replaced by another of the form."""
    digit, move, letter = any_parts(random, rows)
    put_entry(random, rows, f"{digit}{move}{letter}")


def bad_entry(random, rows):
    """An entry replaced by something that is none."""
    digit, move, letter = any_parts(random, rows)
    put_entry(random, rows, random.choice([
        f"{digit}{move}{letter.lower()}", f"{digit}{move.lower()}{letter}", f"{digit}--", f"-{move}{letter}",
        f"{digit}-{letter}", f"{digit}{move}-", f"--{letter}", f"-{move}-", f"{digit}N{letter}", f"{move}{digit}{letter}",
        f"{letter}{move}{digit}", f"{digit}{move}{digit}", f"{digit}{digit}{letter}", "", "--", "----",
    ]))


def changed_shape(random, rows):
    """A row shorter, longer, left out, repeated, empty; or rows exchanged."""
    i, j = random.randrange(len(rows)), random.randrange(len(rows))
    kind = random.randrange(8)
    if kind < 2 and rows[i]:
        del rows[i][random.randrange(len(rows[i]))]
    elif kind < 4:
        rows[i].insert(random.randint(0, len(rows[i])), random.choice(["---", "1RZ", "0LA"]))
    elif kind == 4 and len(rows) > 1:
        del rows[i]
    elif kind == 5:
        rows.insert(i, list(rows[j]))
    elif kind == 6:
        rows[i] = []
    else:
        rows[-1] = rows[-1][: random.randint(0, len(rows[-1]))]


def changed_bytes(random, line):
    """A byte changed, dropped, doubled, put in or exchanged with the next, or the line cut off or made longer."""
    at = random.randrange(len(line) + 1)
    other = random.choice([
        bytes([random.randrange(256)]), bytes([random.choice(b"0123456789LRABCXYZ-_")]), b"\n", b" ", b"\0", b"\r",
        bytes([line[at % max(len(line), 1)] ^ 128]) if line else b"\x80", b"_", b"-", b"__", b"[", b"@", b"/", b":",
    ])
    return random.choice([
        line[:at] + other + line[at + 1 :],
        line[:at] + other + line[at + 1 :],
        line[:at] + other + line[at:],
        line[:at] + line[at + 1 :],
        line[: at + 1] + line[at : at + 1] + line[at + 1 :],
        line[:at] + line[at + 1 : at + 2] + line[at : at + 1] + line[at + 2 :],
        line[:at],
        line + other,
        line[:at] + line[at : at + 6].lower() + line[at + 6 :],
    ])


def heap(random):
    """Pieces of lines in any order, or any bytes."""
    if random.randrange(5) == 0:
        return random.randbytes(random.choice([0, 1, 2, 5, random.randrange(60)]))
    pieces = [b"1RB", b"0LA", b"---", b"1RZ", b"_", b"_", b"1", b"R", b"L", b"A", b"-", b"\n", b"2LB"]
    begin = random.choice([b"", b"1RB1LA", b"1RB1LA_", b"0LA---1RZ_"])
    return begin + b"".join(random.choice(pieces) for _ in range(random.randrange(12)))


def damaged_line(random):
    """A line with one to three things wrong, or none by chance."""
    width, count = line_shape(random)
    rows = line_rows(random, width, count)
    for _ in range(random.choice([0, 1, 1, 2, 3])):
        random.choice([any_entry, any_entry, any_entry, bad_entry, changed_shape])(random, rows)
    line = joined(rows)
    for _ in range(random.choice([0, 0, 0, 1, 2])):
        line = changed_bytes(random, line)
    return line


def line(random):
    kind = random.randrange(10)
    if kind < 3:
        return good_line(random)
    return damaged_line(random) if kind < 9 else heap(random)


# ---- tables ----


def table_entry(random, tapes, symbols, states, moves=2):
    """A defined entry. `moves` is 2 for L and R alone, 3 for N too."""
    after = random.choice([random.randrange(states), states - 1])
    writes = [random.randrange(symbols) if tape < tapes else 0 for tape in range(3)]
    move = sum(3**tape * (random.randrange(moves) if tape < tapes else 2) for tape in range(3))
    return bytes([1, after % 256, after // 256, *writes, move, 0])


def table_row(random, tapes, symbols, states, given=0.85):
    """A row with an entry in it."""
    row = [UNDEFINED] * symbols**tapes
    for at in range(len(row)):
        if random.random() < given:
            row[at] = table_entry(random, tapes, symbols, states)
    row[random.randrange(len(row))] = table_entry(random, tapes, symbols, states)
    return row


def table_rows(random, tapes, symbols, states):
    """Rows with an entry in each, but for the last, which has often none, and at times one alone."""
    rows = [table_row(random, tapes, symbols, states) for _ in range(states)]
    kind = random.randrange(4)
    if kind < 2:
        rows[-1] = [UNDEFINED] * symbols**tapes
    elif kind == 2:
        rows[-1] = table_row(random, tapes, symbols, states, given=0)
    return rows


def table_shape(random):
    """Tapes, symbols and states: mostly what a line can have, at times around its limits, at times more."""
    kind = random.randrange(20)
    if kind < 8:
        return 1, random.randint(2, 4), random.randint(1, 5)
    if kind < 12:
        return 1, random.randint(2, 10), random.randint(1, 28)
    if kind < 16:
        return 1, random.choice([1, 2, 10, 11, 12]), random.choice([1, 2, 24, 25, 26, 27, 28])
    if kind == 16:
        return 1, random.choice([1, 16, 255, 256]), random.randint(1, 4)
    if kind == 17:
        return 1, random.randint(1, 3), random.choice([30, 52, 255, 256, 257, 300])
    tapes = random.choice([2, 2, 3])
    return tapes, random.randint(1, 12 if tapes == 2 else 5), random.randint(1, 4)


class Table:
    """What is handed to the writer. `rows` are lists of entries until the table is made of them."""

    def __init__(self, random, shape):
        self.tapes, self.symbols, self.states = shape
        self.start = 0
        self.rows = table_rows(random, *shape)
        self.length_change = 0

    def table(self):
        table = b"".join(b"".join(row) for row in self.rows)
        change = self.length_change
        return table[: max(len(table) + change, 0)] + bytes(max(change, 0))

    def arguments(self):
        return self.tapes, self.symbols, self.states, self.start, self.table()


def change_entry(random, made, entry):
    row = random.choice([random.choice(made.rows), made.rows[-1], made.rows[0]])
    row[random.choice([random.randrange(len(row)), 0, len(row) - 1])] = entry


def with_no_move(random, made):
    """An entry with an N move on one tape."""
    tape = random.randrange(made.tapes)
    entry = bytearray(table_entry(random, made.tapes, made.symbols, made.states))
    entry[6] += 3**tape * (2 - entry[6] // 3**tape % 3)
    change_entry(random, made, bytes(entry))


def with_undefined_rows(random, made):
    """Rows without an entry: the first, one in the middle, the one before the last, the last, several, all."""
    last = len(made.rows) - 1
    rows = random.choice([[0], [last // 2], [max(last - 1, 0)], [last], [0, last], [max(last - 1, 0), last],
                          [random.randint(0, last), random.randint(0, last)], range(last), range(last + 1)])
    for row in rows:
        made.rows[row] = [UNDEFINED] * len(made.rows[row])


def with_start(random, made):
    made.start = random.choice([1, 1, 1, 2, made.states - 1, made.states, made.states + 1, 65_536, BIG, TOP])


def with_bad_entry(random, made):
    """An entry off its layout, or with a number out of range, or all but so."""
    entry = bytearray(random.choice([UNDEFINED, table_entry(random, made.tapes, made.symbols, made.states, 3)]))
    kind = random.randrange(8)
    if kind < 3:
        entry[random.randrange(8)] ^= 1 << random.randrange(8)
    elif kind == 3:
        entry[random.randrange(8)] = random.randrange(256)
    elif kind == 4:
        entry[1], entry[2] = made.states % 256, made.states // 256 % 256
    elif kind == 5:
        entry[3 + random.randrange(3)] = random.choice([made.symbols % 256, made.symbols - 1, 1])
    elif kind == 6:
        entry[6] = random.choice([0, 1, 2, 17, 18, 23, 24, 25, 26, 27, 28, 255])
    else:
        entry[7] = random.choice([1, 255])
    for _ in range(random.choice([1, 1, 2])):
        change_entry(random, made, bytes(entry))


def with_other_numbers(random, made):
    """Tapes, symbols or states that are not the table's, or out of range, or in range only in their low bits."""
    kind = random.randrange(4)
    if kind == 0:
        made.tapes = random.choice([0, 2, 3, 4, 1 + 2**8, 1 + BIG, TOP])
    elif kind == 1:
        made.symbols = random.choice([0, 1, made.symbols + 1, 256, 257, made.symbols + 256, made.symbols + BIG, TOP])
    elif kind == 2:
        made.states = random.choice([0, made.states + 1, 65_536, 65_537, made.states + 65_536, made.states + BIG, TOP])
    else:
        made.tapes, made.symbols = random.choice([0, 1, 4]), random.choice([0, made.symbols, 257])


def with_other_length(random, made):
    row = 8 * len(made.rows[0])
    made.length_change = random.choice([-1, 1, -8, 8, 7, row, -row, 2 * row, -row * len(made.rows)])


def undefined_last(made):
    return made.rows[-1] == [UNDEFINED] * len(made.rows[-1])


def good_table(random):
    """What the writer must accept: 1 to 25 rows, not counting a last one that is all undefined."""
    while True:
        made = Table(random, (1, random.randint(2, 10), random.choice([1, 2, 3, 4, 25, 26, random.randint(1, 26)])))
        if 1 <= made.states - undefined_last(made) <= 25:
            return made.arguments()


def unwritable_table(random):
    """A table that passes the check and that no line has, for one reason."""
    kind = random.randrange(6)
    symbols, states = random.randint(2, 10), random.randint(2, 25)
    shapes = [(2, 2, states), (1, random.choice([1, 11, 12, 256]), 3), (1, symbols, random.choice([1, 26, 27, 28]))]
    made = Table(random, shapes[kind] if kind < 3 else (1, symbols, states))
    if kind == 2:
        made.rows[-1] = table_row(random, 1, symbols, made.states)
        if made.states in (1, 27):
            made.rows[-1] = [UNDEFINED] * symbols
    elif kind == 3:
        made.start = random.randrange(1, states)
    elif kind == 4:
        with_no_move(random, made)
    elif kind == 5:
        made.rows[random.randrange(states - 1)] = [UNDEFINED] * symbols
    return made.arguments()


def table(random):
    """What the writer is given: any shape, with up to three things that may be wrong."""
    made = Table(random, table_shape(random))
    ways = [with_no_move, with_undefined_rows, with_start, with_bad_entry, with_other_numbers, with_other_length]
    chosen = random.sample(ways, random.choice([0, 0, 0, 1, 1, 1, 2, 3]))
    for way in ways:
        if way in chosen:
            way(random, made)
    return made.arguments()


def edge_tables(random):
    """Every number of symbols to 12 and of states to 28, starting in 0 and 1, with the last row undefined and not."""
    for symbols in range(1, 13):
        for states in range(1, 29):
            for start in (0, 1):
                made = Table(random, (1, symbols, states))
                made.start = start
                made.rows[-1] = [UNDEFINED] * symbols
                yield made.arguments()
                made.rows[-1] = table_row(random, 1, symbols, states)
                yield made.arguments()


def large_tables(random):
    """As many states as there can be, one fewer and one more."""
    for states in (65_535, 65_536, 65_537):
        made = Table(random, (1, 2, 3))
        made.states, made.rows = states, made.rows[:1] * (states - 1) + made.rows[-1:]
        yield made.arguments()
