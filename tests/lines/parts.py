"""The five parts of the run. Each is made once, with its random cases, and then tried on a driver."""
import collections
import random

import driver
import generate
import second

SHOWN = 5
WALK = b"012LRABZ-_"
CHUNK = 10_000
LONGEST_LINE = 25 * 31 - 1
LARGEST_TABLE = 8 * 26 * 10
MACHINES = [
    (b"1RB1LB_1LA1RZ", 6),
    (b"1RB1RZ_1LB0RC_1LC1LA", 21),
    (b"1RB1LB_1LA0LC_1RZ1LD_1RD0RA", 107),
    (b"1RB2LB1RZ_2LA2RB1LB", 38),
    (b"1RB2LA1RA1RA_1LB1LA3RB1RZ", 3_932_964),
    (b"1RB1LC_1RC1RB_1RD0LE_1LA1LD_1RZ0LA", 47_176_870),
]
CELLS = 2**20
FUEL = 2**27
HALTED = 0


class Report:
    """What a part found."""

    def __init__(self, name):
        self.name, self.text, self.answers, self.different, self.shown = name, "", collections.Counter(), 0, []

    def differs(self, *lines):
        self.different += 1
        if len(self.shown) < SHOWN:
            self.shown.append("\n    ".join([f"DIFFERENT, part {self.name}: {lines[0]}", *lines[1:]]))

    def by_answer(self):
        named = [(code, "accepted" if code == 0 else f"refused {code}") for code in sorted(self.answers)]
        return ", ".join(f"{self.answers[code]} {name}" for code, name in named)


def rooms_around(source, size):
    """A length for a lent buffer of which `size` bytes are needed, or would be."""
    return max(0, source.choice([size, size, size, size - 1, size - 1, size + 1, size + source.randint(2, 40), 0,
                                 source.randint(0, size)]))


# ---- a: every prefix ----


class Prefixes:
    """Every prefix of a line up to a length, over the bytes of WALK, and each with all 256 bytes after it."""

    name = "a"

    def __init__(self, length):
        self.length = length

    def groups(self, known, prefixes):
        """Prefixes of which the same is known, and then those that go on from them."""
        yield known, prefixes
        if known[0] == self.length:
            return
        turns = collections.defaultdict(list)
        for byte, after in second.onward(known).items():
            if byte in WALK:
                turns[after].append(bytes([byte]))
        for begin in range(0, len(prefixes), CHUNK):
            part = prefixes[begin : begin + CHUNK]
            for after, added in turns.items():
                yield from self.groups(after, [prefix + byte for prefix in part for byte in added])

    def cases(self, report):
        for known, prefixes in self.groups(second.EMPTY, [b""]):
            if second.may_end(known):
                answers = [driver.prefix_answer(*second.read_line(prefix)) for prefix in prefixes]
                report.answers.update(answer[0] for answer in answers)
            else:
                answers = [driver.prefix_answer(second.MALFORMED, known[0], None, None, b"")] * len(prefixes)
                report.answers[second.MALFORMED] += len(prefixes)
            yield driver.prefix_case(prefixes, second.onward(known), answers)

    def run(self, program):
        report = Report(self.name)
        total, shown = driver.try_prefixes(program, self.cases(report))
        for line, given in shown:
            code, place, symbols, states, table = second.read_line(line)
            outs = [symbols, states] if code == 0 else [place]
            want = driver.answer(code, outs, table, driver.PREFIX_ROOM, driver.PREFIX_FILL)
            report.differs(f"reading {line!r} ({len(line)} bytes)", *both(want, given, driver.PREFIX_FILL, "table"))
        report.different = total
        count = sum(report.answers.values())
        report.text = f"{count} prefixes to {self.length} bytes ({report.by_answer()}), {257 * count} calls"
        return report


def both(want, given, fill, written):
    return f"must be {driver.in_words(want, fill, written)}", f"is      {driver.in_words(given, fill, written)}"


# ---- b and c: single calls held to second.py ----


class Calls:
    """Cases made beforehand, each with the whole answer that it must have."""

    def __init__(self):
        self.cases, self.rooms, self.wanted, self.fills, self.what = [], [], [], [], []

    def add(self, case, room, wanted, fill, what):
        self.cases.append(case)
        self.rooms.append(room)
        self.wanted.append(wanted)
        self.fills.append(fill)
        self.what.append(what)

    def run(self, program):
        report = Report(self.name)
        for index, given in enumerate(driver.ask(program, self.cases, self.rooms)):
            wanted = self.wanted[index]
            report.answers[wanted[0]] += 1
            if given != wanted:
                shown = both(wanted, given, self.fills[index], self.writes)
                report.differs(f"case {index}, {self.describe(*self.what[index])}", *shown)
        report.text = f"{len(self.cases)} {self.title} ({report.by_answer()})"
        return report


class Lines(Calls):
    name, title, writes = "b", "lines read", "table"

    def __init__(self, count, seed):
        super().__init__()
        source = random.Random(f"{seed} lines")
        for line in generate.edge_lines(source):
            self.add_line(source, line)
        for _ in range(count):
            self.add_line(source, generate.line(source))

    def add_line(self, source, line):
        rows = line.split(b"_")
        room = rooms_around(source, 8 * (len(rows) + 1) * (len(rows[0]) // 3))
        fill, null = source.randrange(256), source.randrange(2)
        code, place, symbols, states, table = second.read_line(line, room)
        outs = [symbols, states] if code == 0 else [] if place is None else [place]
        wanted = driver.answer(code, outs, table, room, fill)
        self.add(driver.read_case(line, room, fill, null), room, wanted, fill, (line, room))

    @staticmethod
    def describe(line, room):
        return f"reading {driver.shortened(repr(line))} ({len(line)} bytes) into {room} bytes"


class Tables(Calls):
    name, title, writes = "c", "tables written", "line"

    def __init__(self, count, seed):
        super().__init__()
        source = random.Random(f"{seed} tables")
        for arguments in [*generate.edge_tables(source), *generate.large_tables(source)]:
            self.add_table(source, arguments)
        for _ in range(count):
            self.add_table(source, generate.table(source))

    def add_table(self, source, arguments):
        symbols, states = min(arguments[1], 256), min(arguments[2], 300)
        _, _, line = second.write_line(*arguments, LONGEST_LINE)
        room = rooms_around(source, len(line) or 4 * symbols * states)
        fill, null = source.randrange(256), source.randrange(2)
        code, place, line = second.write_line(*arguments, room)
        outs = [len(line)] if code == 0 else [] if place is None else [place]
        wanted = driver.answer(code, outs, line, room, fill)
        self.add(driver.write_case(*arguments, room, fill, null), room, wanted, fill, (*arguments, room))

    @staticmethod
    def describe(tapes, symbols, states, start, table, room):
        numbers = f"tapes {tapes}, symbols {symbols}, states {states}, start {start}"
        return f"writing {numbers}, table {driver.shortened(table.hex())} ({len(table)} bytes) into {room} bytes"


# ---- d: there and back, judged by the sentences of Paper 1 ----


def said_by(entry, states):
    """"Each entry is a symbol written, L or R, and the next state's letter"; "`---` is an undefined entry"."""
    if entry == bytes(8):
        return "---"
    after = entry[1] + 256 * entry[2]
    letter = "Z" if after == states - 1 else chr(ord("A") + after)
    one_tape = entry[0] == 1 and entry[4] == entry[5] == entry[7] == 0 and entry[6] // 3 == 8
    return f"{entry[3]}{'LRN'[entry[6] % 3]}{letter}" if one_tape else f"no entry of one tape ({entry.hex(' ')})"


def judge_reading(line, good, given):
    """What is wrong with the reader's answer; None if nothing. A good line must be accepted."""
    if given.code != 0:
        return f"a good line is refused by {given.code}" if good else None
    rows = line.decode("latin-1").split("_")
    symbols, states = given.outs[:2]
    if states != len(rows) + 1 or any(len(row) != 3 * symbols for row in rows):
        return f"{symbols} symbols and {states} states are not those of the line"
    for state, row in enumerate([*rows, "---" * symbols]):  # "the reader always adds its row, last and all undefined"
        for symbol in range(symbols):
            number = state * symbols + symbol
            said = said_by(given.buffer[8 * number : 8 * number + 8], states)
            if said != row[3 * symbol : 3 * symbol + 3]:
                return f"entry {number} is {said}"
    return None


def judge_line_back(line, given):
    """"A line the reader accepts in which no row is `---` throughout is written back as it came." """
    if any(set(row) == {ord("-")} for row in line.split(b"_")):
        return None if given.code == 21 else f"a table with an undefined row before the last is answered by {given.code}"
    if given.code != 0:
        return f"its table is refused by {given.code}"
    back = given.buffer[: given.outs[0]]
    return None if back == line else f"it is written back as {back!r}"


def judge_table_back(arguments, given):
    """A last row that is all undefined is Z's, and comes back as it is; else the reader adds Z's row."""
    symbols, states, table = arguments[1], arguments[2], arguments[4]
    blank = bytes(8 * symbols)
    wanted, count = (table, states) if table.endswith(blank) else (table + blank, states + 1)
    if given.code != 0:
        return f"its line is refused by {given.code}"
    if given.outs[:2] != [symbols, count] or given.buffer[: len(wanted)] != wanted:
        return f"it comes back with {given.outs[0]} symbols, {given.outs[1]} states: {given.buffer[: len(wanted)].hex()}"
    return None


class Rounds:
    """Lines read and written back, and tables written and read back."""

    name = "d"

    def __init__(self, count, seed):
        source = random.Random(f"{seed} rounds")
        self.lines = [(generate.good_line(source), True) for _ in range(count // 4)]
        self.lines += [(generate.damaged_line(source), False) for _ in range(count // 4)]
        self.tables = [(generate.good_table(source), 0) for _ in range(count // 4)]
        self.tables += [(generate.unwritable_table(source), 21) for _ in range(count // 4)]

    def run(self, program):
        report = Report(self.name)
        lines = self.lines_there(program, report)
        self.lines_back(program, report, lines)
        tables = self.tables_there(program, report)
        self.tables_back(program, report, tables)
        report.text = (f"{len(self.lines)} lines read, {len(lines)} of them accepted and written back; "
                       f"{len(self.tables)} tables written, {len(tables)} of them accepted and read back")
        return report

    def lines_there(self, program, report):
        """The lines that are accepted, with their tables."""
        cases = [driver.read_case(line, LARGEST_TABLE) for line, _ in self.lines]
        accepted = []
        for (line, good), data in zip(self.lines, driver.ask(program, cases, [LARGEST_TABLE] * len(cases))):
            given = driver.Given(data)
            wrong = judge_reading(line, good, given)
            if wrong:
                report.differs(f"reading {line!r}", wrong)
            elif given.code == 0:
                symbols, states = given.outs[:2]
                accepted.append((line, (1, symbols, states, 0, given.buffer[: 8 * symbols * states])))
        return accepted

    def lines_back(self, program, report, accepted):
        cases = [driver.write_case(*arguments, LONGEST_LINE) for _, arguments in accepted]
        for (line, _), data in zip(accepted, driver.ask(program, cases, [LONGEST_LINE] * len(cases))):
            wrong = judge_line_back(line, driver.Given(data))
            if wrong:
                report.differs(f"reading {line!r} and writing its table", wrong)

    def tables_there(self, program, report):
        """The tables that are accepted, with their lines."""
        cases = [driver.write_case(*arguments, LONGEST_LINE) for arguments, _ in self.tables]
        accepted = []
        for (arguments, code), data in zip(self.tables, driver.ask(program, cases, [LONGEST_LINE] * len(cases))):
            given = driver.Given(data)
            if given.code != code:
                report.differs(Tables.describe(*arguments, LONGEST_LINE), f"must be answered by {code}, is by {given.code}")
            elif code == 0:
                accepted.append((arguments, given.buffer[: given.outs[0]]))
        return accepted

    def tables_back(self, program, report, accepted):
        cases = [driver.read_case(line, LARGEST_TABLE) for _, line in accepted]
        for (arguments, line), data in zip(accepted, driver.ask(program, cases, [LARGEST_TABLE] * len(cases))):
            wrong = judge_table_back(arguments, driver.Given(data))
            if wrong:
                report.differs(f"{Tables.describe(*arguments, LONGEST_LINE)} and reading {line!r}", wrong)


# ---- e: champions ----


class Champions:
    """Machines whose number of steps is known: read, run with the plain engine, and written back."""

    name = "e"

    def run(self, program):
        report = Report(self.name)
        steps = [self.one(program, report, *machine) for machine in MACHINES]
        if all(count == driver.NO_ENGINE for count in steps):
            report.text = "NOT RUN, the driver has no engine"
        else:
            report.text = f"{len(steps)} machines run for {', '.join(str(count) for count in steps)} steps"
        return report

    def one(self, program, report, line, steps):
        """The steps that the machine makes."""
        (data,) = driver.ask(program, [driver.read_case(line, LARGEST_TABLE)], [LARGEST_TABLE])
        given = driver.Given(data)
        wrong = judge_reading(line, True, given)
        if wrong:
            report.differs(f"reading {line!r}", wrong)
            return None
        symbols, states = given.outs[:2]
        table = given.buffer[: 8 * symbols * states]
        cases = [driver.run_case(symbols, states, table, CELLS, FUEL),
                 driver.write_case(1, symbols, states, 0, table, LONGEST_LINE)]
        ran, written = (driver.Given(data) for data in driver.ask(program, cases, [0, LONGEST_LINE]))
        wrong = judge_line_back(line, written)
        if wrong:
            report.differs(f"reading {line!r} and writing its table", wrong)
        if ran.code == driver.NO_ENGINE:
            return driver.NO_ENGINE
        if [ran.code, *ran.outs[:3]] != [0, HALTED, steps, states - 1]:
            report.differs(f"running {line!r}", f"must halt after {steps} steps in state {states - 1}",
                           f"code {ran.code}, outcome {ran.outs[0]}, steps {ran.outs[1]}, state {ran.outs[2]}")
        return ran.outs[1]


def all_parts(length, count, seed):
    return [Prefixes(length), Lines(count, seed), Tables(count, seed), Rounds(count, seed), Champions()]


def try_part(part, program):
    """The part's report, also where the driver ends with a fault."""
    try:
        return part.run(program)
    except driver.Broken as broken:
        report = Report(part.name)
        report.text = "the driver ended with a fault"
        report.differs(str(broken))
        return report
