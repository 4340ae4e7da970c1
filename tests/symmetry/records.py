"""Records of a configuration and its verdict, as driver.c writes them, and what mirror and renaming make of them.

driver.c has the form of a record. A function that takes `data` takes any number of records, one after another.
"""
import struct

import second

HEAD = struct.Struct("<BBHBBHBBBBB")
OUTCOME, VERDICT_STATE, PATTERN, STATE, HEAD_AT, LOWEST, HIGHEST = 1, 2, 4, 6, 9, 10, 11
RAISED = 128  # a position is raised by so much, to be a byte
NEGATED = bytes((2 * RAISED - byte) % 256 for byte in range(256))
ON_LEFT, ON_RIGHT = 1, 3  # the pattern of one that runs on over blanks
TURNED = bytes.maketrans(bytes([ON_LEFT, ON_RIGHT]), bytes([ON_RIGHT, ON_LEFT]))
HAS_STATE = (second.HALTED, second.NEVER_HALTS)
KINDS = {
    (second.HALTED, 0): "halted",
    (second.OUT_OF_FUEL, 0): "fuel",
    (second.NEVER_HALTS, 0): "never stays",
    (second.NEVER_HALTS, ON_LEFT): "never L",
    (second.NEVER_HALTS, ON_RIGHT): "never R",
    (second.FULL, 0): "full",
}


def size(half):
    """The bytes of a record whose window has the positions from -half to half."""
    return HEAD.size + 2 * half + 1


def in_block(steps):
    """The records of a case: the timeline's and those of two runs."""
    return steps + 3


def split(data, length):
    return [data[begin : begin + length] for begin in range(0, len(data), length)]


# ---- the records of the second implementation ----


def record(machine, verdict, half):
    outcome, steps, state, pattern, move = verdict
    window = bytearray(2 * half + 1)
    for position, symbol in machine.cells.items():
        window[half + position] = symbol
    head = HEAD.pack(
        0,
        outcome,
        state + 1 if outcome in HAS_STATE else 0,
        pattern + 2 * move,
        steps,
        machine.state,
        machine.steps,
        RAISED + machine.head,
        RAISED + machine.lowest,
        RAISED + machine.highest,
        machine.score(),
    )
    return head + window


def own_block(case, steps, half, cells=None):
    """The records after each of 0 to `steps` steps, and those of runs with a quarter of that as fuel and with all."""
    entries = second.entries_of(case.table)

    def fresh():
        room = None if cells is None else second.Room(cells, len(case.word))
        return second.Machine(case.symbols, case.start, entries, case.word, room)

    machine, block = fresh(), []
    for target in range(steps + 1):
        block.append(record(machine, second.seek(machine, target), half))
    for fuel in (steps // 4, steps):
        machine = fresh()
        block.append(record(machine, second.run(machine, fuel), half))
    return b"".join(block)


# ---- what Paper 10 says of them ----


def reflect(data, half):
    """The records of the mirror: the head negated, cells and extent reflected, the pattern's move exchanged."""
    every = size(half)
    turned = bytearray(data)
    turned[PATTERN::every] = data[PATTERN::every].translate(TURNED)
    turned[HEAD_AT::every] = data[HEAD_AT::every].translate(NEGATED)
    turned[LOWEST::every] = data[HIGHEST::every].translate(NEGATED)
    turned[HIGHEST::every] = data[LOWEST::every].translate(NEGATED)
    for at in range(2 * half + 1):
        turned[HEAD.size + at :: every] = data[HEAD.size + 2 * half - at :: every]
    return bytes(turned)


class Names(dict):
    """New names of states. One that is no state keeps its name."""

    def __missing__(self, state):
        return state


def rename(data, half, names):
    """The records with state q called names[q], in the configuration and in the verdict."""
    every = size(half)
    renamed = bytearray(data)
    rename_column(renamed, STATE, every, Names(enumerate(names)))
    rename_column(renamed, VERDICT_STATE, every, Names((state + 1, name + 1) for state, name in enumerate(names)))
    return bytes(renamed)


def rename_column(data, at, every, names):
    """Changes the two-byte numbers at place `at` of every record."""
    column = bytearray(2 * (len(data) // every))
    column[0::2], column[1::2] = data[at::every], data[at + 1 :: every]
    numbers = struct.Struct(f"<{len(column) // 2}H")
    column = numbers.pack(*map(names.__getitem__, numbers.unpack(column)))
    data[at::every], data[at + 1 :: every] = column[0::2], column[1::2]


# ---- for people ----


def kinds(data, half):
    """The verdicts' kinds, one for each record."""
    every = size(half)
    return zip(data[OUTCOME::every], data[PATTERN::every])


def in_words(data, half):
    """One record as a person reads it."""
    code, outcome, named, pattern, at, state, steps, head, lowest, highest, score = HEAD.unpack_from(data)
    if code != 0:
        return f"refused {code}" if code != 255 else "a number that no record has"
    head, lowest, highest = head - RAISED, lowest - RAISED, highest - RAISED
    kind = KINDS.get((outcome, pattern), f"outcome {outcome} pattern {pattern}")
    said = f"{kind} at {at}" + (f" in {named - 1}" if named else "")
    cells = {place - half: symbol for place, symbol in enumerate(data[HEAD.size :]) if symbol}
    return f"{said}; state {state} steps {steps} head {head} extent {lowest} to {highest} score {score} cells {cells}"
