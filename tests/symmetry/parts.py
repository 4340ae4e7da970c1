"""The four parts. Each is a function that tries its tables and gives a report."""
import collections
import itertools
import random

import driver
import records
import second

ENGINES = {"plain": driver.PLAIN, "run-length": driver.CHAIN}
WORDS = [bytes(word) for word in ([1], [0, 1], [1, 1], [1, 0, 1], [1, 1, 1])]
EXCHANGE = (1, 0)
RANDOM_STEPS, LONGEST_WORD = 40, 8
EVERY_LARGE = 40  # one random table in so many has over 256 states
USUAL = {"halted", "fuel", "never stays", "never L", "never R"}
SHOWN = 3  # differences shown of each comparison
FULL_STEPS = {32: (15, 16), 64: (47, 48), 128: (111, 112)}  # by cells: alternating R, alternating L
SPACE_STEPS = 120


class Report:
    """What a part compared. `due` are the comparisons that it must have made, `verdicts` those that it must have met."""

    def __init__(self, name, about, due, verdicts):
        self.name, self.about, self.due, self.verdicts = name, about, due, verdicts
        self.tables = self.records = 0
        self.compared, self.different, self.met = (collections.Counter() for _ in range(3))
        self.shown = []

    def differ(self, what, text, number=1):
        if self.different[what] < SHOWN:
            self.shown.append(f"{self.name}: {what}: {text}")
        self.different[what] += number

    def compare(self, what, engine, half, pairs):
        """`pairs` has for each case the case, the records wanted, and those given."""
        for case, want, got in pairs:
            self.compared[what] += len(want) // records.size(half)
            if want != got:
                self.differ_in_records(what, engine, half, case, want, got)

    def differ_in_records(self, what, engine, half, case, want, got):
        rows = [records.split(data, records.size(half)) for data in (want, got)]
        wrong = [place for place, (wanted, given) in enumerate(zip(*rows)) if wanted != given]
        first = wrong[0] if wrong else 0
        text = f"{engine} engine, {described(case)}, record {first} of {len(rows[0])}"
        wanted, given = (records.in_words(row[first], half) for row in rows)
        self.differ(what, f"{text}\n    want {wanted}\n    got  {given}", len(wrong) or 1)

    def meet(self, data, half):
        met = collections.Counter(records.kinds(data, half))
        self.met.update({records.KINDS.get(kind, "unknown"): number for kind, number in met.items()})

    def finish(self):
        """Nothing that is due may be missing."""
        for what in self.due:
            if self.compared[what] == 0:
                self.differ(what, "NOTHING COMPARED")
        for verdict in sorted(self.verdicts):
            if self.met[verdict] == 0:
                self.differ("own", f"NO VERDICT MET THAT IS {verdict}")
        return self

    def text(self):
        met = ", ".join(f"{number} {kind}" for kind, number in sorted(self.met.items()))
        kinds = sorted({*self.compared, *self.different})
        counts = "; ".join(f"{what} {self.different[what]} of {self.compared[what]} different" for what in kinds)
        return f"{self.name}: {self.about}: {self.tables} tables, {self.records} records ({met}): {counts}"


def described(case):
    """A case as a person reads it."""
    rows = []
    for number, entry in enumerate(second.entries_of(case.table)):
        if entry is not None:
            state, read = divmod(number, case.symbols)
            write, move, following = entry
            rows.append(f"{state} {read} {write} {'LRN'[move]} {following}")
    text = ", ".join(rows)
    text = text if len(text) <= 400 else f"{text[:400]}.."
    return f"{case.states} states, {case.symbols} symbols, start {case.start}, word {list(case.word)}, table [{text}]"


# ---- runs ----


class Trial:
    """Cases run on the engines and by the second implementation: `own` and `got` have a block of records a case."""

    def __init__(self, report, program, cases, steps, half):
        self.report, self.cases, self.steps, self.half = report, cases, steps, half
        self.block = records.in_block(steps) * records.size(half)
        codes = driver.ask(program, driver.CHECK, cases, steps, half)
        for case, code in zip(cases, codes):
            if code != 0:
                report.differ("bytes", f"tm_check refuses {code}, {described(case)}")
        report.compared["bytes"] += len(codes)
        report.tables += len(cases)
        self.data = {engine: driver.ask(program, kind, cases, steps, half) for engine, kind in ENGINES.items()}
        self.got = {engine: records.split(data, self.block) for engine, data in self.data.items()}
        self.own = [records.own_block(case, steps, half) for case in cases]

    def compare_own(self):
        for engine, blocks in self.got.items():
            self.report.compare("own", engine, self.half, zip(self.cases, self.own, blocks))
            self.report.meet(self.data[engine], self.half)
            self.report.records += len(blocks) * records.in_block(self.steps)

    def compare_all(self, what, partners, change):
        """The records of each case's partner must be what `change` makes of the case's."""
        for engine, blocks in self.got.items():
            wanted = records.split(change(self.data[engine]), self.block)
            found = [(i, j) for i, j in enumerate(partners) if j is not None]
            pairs = ((self.cases[j], wanted[i], blocks[j]) for i, j in found)
            self.report.compare(what, engine, self.half, pairs)


def mirrored(case):
    return case._replace(table=second.mirror(case.table))


def renamed(case, names):
    table = second.rename(case.table, case.symbols, names)
    return case._replace(table=table, start=second.rename_start(case.start, names))


# ---- parts a and b: every table of two states and two symbols ----


def members():
    """Every table of two states and two symbols, with start 0 and then with start 1."""
    actions = itertools.product((0, 1), (second.LEFT, second.RIGHT, second.STAY), (0, 1))
    choices = [second.entry_bytes(entry) for entry in (None, *actions)]
    tables = [b"".join(four) for four in itertools.product(choices, repeat=4)]
    return [driver.Case(2, 2, start, table, b"") for start in (0, 1) for table in tables]


def partners(report, cases, change):
    """The place of each changed case among the cases. Changed twice, each must be what it was."""
    places = {case: place for place, case in enumerate(cases)}
    found = [places.get(change(case)) for case in cases]
    for place, partner in enumerate(found):
        if partner is None:
            report.differ("bytes", f"changed, it is not of two states and two symbols: {described(cases[place])}")
        elif found[partner] != place:
            report.differ("bytes", f"changed twice, it is another: {described(cases[place])}")
    report.compared["bytes"] += len(found)
    return found


def exchanged(case):
    return renamed(case, EXCHANGE)


def part_a(program, given):
    report = Report("a", "every 2 x 2 table, blank tape", ("own", "mirror", "renamed", "bytes"), USUAL)
    cases, half = members(), given.steps + 1
    trial = Trial(report, program, cases, given.steps, half)
    trial.compare_own()
    trial.compare_all("mirror", partners(report, cases, mirrored), lambda data: records.reflect(data, half))
    trial.compare_all(
        "renamed", partners(report, cases, exchanged), lambda data: records.rename(data, half, EXCHANGE))
    return report.finish()


def with_words(cases):
    """A word for each table with start 0, and the same for the table with its states exchanged."""
    words = itertools.cycle(WORDS)
    given = [case._replace(word=next(words)) for case in cases if case.start == 0]
    return given + [exchanged(case) for case in given]


def part_b(program, given):
    report = Report("b", "every 2 x 2 table, a word each", ("own", "renamed", "bytes"), USUAL)
    cases, half = with_words(members()), given.steps + max(map(len, WORDS))
    trial = Trial(report, program, cases, given.steps, half)
    trial.compare_own()
    trial.compare_all(
        "renamed", partners(report, cases, exchanged), lambda data: records.rename(data, half, EXCHANGE))
    return report.finish()


# ---- part c: random tables ----


def random_entry(chance, state, states, symbols, undefined):
    if chance.random() < undefined:
        return None
    following = state if chance.random() < 0.2 else chance.randrange(states)
    move = chance.choices((second.LEFT, second.RIGHT, second.STAY), (9, 9, 2))[0]
    return chance.randrange(symbols), move, following


def random_case(chance, number):
    large = number % EVERY_LARGE == 0
    states = chance.randint(300, 400) if large else chance.randint(3, 6)
    symbols = chance.randint(2, 3) if large else chance.randint(2, 5)
    undefined = chance.choice((0.01, 0.05, 0.15))
    entries = [
        random_entry(chance, state, states, symbols, undefined) for state in range(states) for _ in range(symbols)]
    return driver.Case(symbols, states, chance.randrange(states), second.table_bytes(entries), b"")


def random_word(chance, symbols):
    """A word that does not end in the blank."""
    before = [chance.randrange(symbols) for _ in range(chance.randrange(LONGEST_WORD))]
    return bytes([*before, chance.randrange(1, symbols)])


def permutations(chance, states):
    """All that change something for three states, else three at random."""
    if states == 3:
        return list(itertools.permutations(range(3)))[1:]
    return [tuple(chance.sample(range(states), states)) for _ in range(3)]


class Family:
    """Random cases with their mirrors and renamings; `links` has what was done, from which place to which, and names."""

    def __init__(self, report, count, seed):
        self.report, self.cases, self.links = report, [], []
        chance = random.Random(seed)
        for number in range(count):
            case = random_case(chance, number)
            names = permutations(chance, case.states)
            self.add_mirror(self.add(case), case)
            for word in (b"", random_word(chance, case.symbols)):
                self.add_renamings(case._replace(word=word), names)

    def add(self, case):
        self.cases.append(case)
        return len(self.cases) - 1

    def add_mirror(self, place, case):
        twice = mirrored(mirrored(case))
        self.same("mirrored twice, it is another", case, twice)
        self.links.append(("mirror", place, self.add(mirrored(case)), None))

    def add_renamings(self, case, all_names):
        place = self.add(case)
        for names in all_names:
            back = [names.index(state) for state in range(len(names))]
            changed = renamed(case, names)
            self.same("renamed and renamed back, it is another", case, renamed(changed, back))
            self.links.append(("renamed", place, self.add(changed), names))

    def same(self, text, case, again):
        self.report.compared["bytes"] += 1
        if again != case:
            self.report.differ("bytes", f"{text}: {described(case)}")


def part_c(program, given):
    report = Report("c", "random tables", ("own", "mirror", "renamed", "bytes"), USUAL)
    family = Family(report, given.count, given.seed)
    half = RANDOM_STEPS + LONGEST_WORD
    trial = Trial(report, program, family.cases, RANDOM_STEPS, half)
    trial.compare_own()
    for engine, blocks in trial.got.items():
        for what, place, partner, names in family.links:
            block = blocks[place]
            want = records.reflect(block, half) if what == "mirror" else records.rename(block, half, names)
            report.compare(what, engine, half, [(family.cases[partner], want, blocks[partner])])
    return report.finish()


# ---- part d: space ----


def alternating(write, move):
    """Two states that alternate over blanks."""
    entries = [(write, move, 1), None, (write, move, 0), None]
    return driver.Case(2, 2, 0, second.table_bytes(entries), b"")


def try_space(report, program, write, cells):
    """The plain tape has one cell more on the left of the head: the two correspond up to the step where R is full."""
    right = alternating(write, second.RIGHT)
    half, both = SPACE_STEPS, (right, mirrored(right))
    data = driver.ask(program, driver.PLAIN, both, SPACE_STEPS, half, cells)
    got = records.split(data, len(data) // 2)
    own = [records.own_block(case, SPACE_STEPS, half, cells) for case in both]
    report.compare("own", "plain", half, zip(both, own, got))
    report.meet(data, half)
    report.tables += 2
    report.records += 2 * records.in_block(SPACE_STEPS)
    upto = (FULL_STEPS[cells][0] + 1) * records.size(half)
    report.compare("mirror", "plain", half, [(both[1], records.reflect(got[0][:upto], half), got[1][:upto])])
    for case, block, steps in zip(both, got, FULL_STEPS[cells]):
        report.compared["space"] += 1
        last = records.in_words(block[-records.size(half) :], half)
        if not last.startswith(f"full at {steps};"):
            report.differ("space", f"{cells} cells, full at {steps} is due, {described(case)}\n    got  {last}")


def part_d(program, given):
    report = Report("d", "two states that alternate, in little space", ("own", "mirror", "space"), {"fuel", "full"})
    for write in (0, 1):
        for cells in FULL_STEPS:
            try_space(report, program, write, cells)
    return report.finish()


PARTS = {"a": part_a, "b": part_b, "c": part_c, "d": part_d}


def try_part(name, program, given):
    """The report of a part. A driver that crashes is a difference."""
    try:
        return PARTS[name](program, given)
    except driver.Broken as broken:
        report = Report(name, "not finished", (), ())
        report.differ("driver", str(broken))
        return report
