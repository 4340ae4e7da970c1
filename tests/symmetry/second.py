"""The table machine of document 01 with one tape, and the mirror and the renamings of Paper 10 of document 02.

An entry is (write, move, next), or None where it is not defined. A verdict is the outcome's number, the steps, the
state, the pattern and the move, with 0 for a part that the outcome lacks, as include/turing.h numbers them.
"""
LEFT, RIGHT, STAY = 0, 1, 2
DELTA = (-1, 1, 0)
OPPOSITE = (RIGHT, LEFT, STAY)
OTHER_TAPES = 3 * STAY + 9 * STAY  # the moves of the two tapes that the machine lacks
HALTED, OUT_OF_FUEL, NEVER_HALTS, STOPPED, FULL = range(5)
STAYS, RUNS_ON = 0, 1
BLANK = 0
MARGIN = 16  # blanks on either side of the word on a fresh plain tape


# ---- the table's bytes ----


def entry_bytes(entry):
    if entry is None:
        return bytes(8)
    write, move, following = entry
    return bytes([1, following % 256, following // 256, write, 0, 0, move + OTHER_TAPES, 0])


def table_bytes(entries):
    return b"".join(map(entry_bytes, entries))


def entry_at(table, at):
    if table[at] == 0:
        return None
    return table[at + 3], table[at + 6] - OTHER_TAPES, table[at + 1] + 256 * table[at + 2]


def entries_of(table):
    return [entry_at(table, at) for at in range(0, len(table), 8)]


def mirror(table):
    """The table with L and R exchanged."""
    mirrored = []
    for entry in entries_of(table):
        if entry is not None:
            write, move, following = entry
            entry = write, OPPOSITE[move], following
        mirrored.append(entry)
    return table_bytes(mirrored)


def rename(table, symbols, names):
    """The table in which state q is called names[q]: its row is there, and the entries that lead to q lead there."""
    renamed = [None] * (len(table) // 8)
    for number, entry in enumerate(entries_of(table)):
        state, read = divmod(number, symbols)
        place = names[state] * symbols + read
        if entry is not None:
            write, move, following = entry
            entry = write, move, names[following]
        renamed[place] = entry
    return table_bytes(renamed)


def rename_start(start, names):
    return names[start]


# ---- the machine ----


class Room:
    """The positions that a plain tape of at most `most` cells has in use."""

    def __init__(self, most, word_length):
        self.most = most
        self.first, self.last = -MARGIN, word_length + MARGIN - 1

    def takes(self, position):
        """Whether the head can be there; the tape grows where it has to."""
        length = self.last - self.first + 1
        if self.first <= position <= self.last:
            return True
        if 2 * length > self.most:
            return False
        if position < self.first:
            self.first -= length
        else:
            self.last += length
        return True


class Machine:
    """A configuration of the table machine. `cells` has the positions that are not blank. No room is endless room."""

    def __init__(self, symbols, start, entries, word, room=None):
        self.symbols, self.entries, self.room = symbols, entries, room
        self.state, self.steps = start, 0
        self.cells = {position: symbol for position, symbol in enumerate(word) if symbol != BLANK}
        self.head = self.lowest = self.highest = 0

    def read(self):
        return self.cells.get(self.head, BLANK)

    def entry(self):
        return self.entries[self.state * self.symbols + self.read()]

    def score(self):
        return len(self.cells)

    def blank_beyond(self, move):
        """Whether every cell strictly beyond the head is blank that way."""
        if move == LEFT:
            return all(position >= self.head for position in self.cells)
        return all(position <= self.head for position in self.cells)

    def verdict(self):
        entry = self.entry()
        if entry is None:
            return HALTED, self.steps, self.state, 0, 0
        write, move, following = entry
        if following == self.state:
            if move == STAY and write == self.read():
                return NEVER_HALTS, self.steps, self.state, STAYS, 0
            if move != STAY and self.read() == BLANK and self.blank_beyond(move):
                return NEVER_HALTS, self.steps, self.state, RUNS_ON, move
        return OUT_OF_FUEL, self.steps, 0, 0, 0

    def step(self):
        """Makes a step. The answer is None, or HALTED or FULL where there is none to make."""
        entry = self.entry()
        if entry is None:
            return HALTED
        write, move, following = entry
        moved = self.head + DELTA[move]
        if self.room is not None and not self.room.takes(moved):
            return FULL
        if write == BLANK:
            self.cells.pop(self.head, None)
        else:
            self.cells[self.head] = write
        self.head, self.state, self.steps = moved, following, self.steps + 1
        self.lowest, self.highest = min(self.lowest, moved), max(self.highest, moved)
        return None


def run(machine, fuel):
    """Halted, never, fuel and space are tested before each step, in that order."""
    while True:
        verdict = machine.verdict()
        if verdict[0] != OUT_OF_FUEL or fuel == 0:
            return verdict
        if machine.step() == FULL:
            return FULL, machine.steps, 0, 0, 0
        fuel -= 1


def seek(machine, target):
    """Goes on to step `target`, or as far as there are steps, without the never test. The verdict is that of the end."""
    while machine.steps < target:
        ended = machine.step()
        if ended == FULL:
            return FULL, machine.steps, 0, 0, 0
        if ended == HALTED:
            break
    return machine.verdict()
