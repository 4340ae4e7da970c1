#!/usr/bin/env python3
"""A stand-in for `seekrun`, to try the fuzz run on: reader.py, and document 01's plain engine and timeline in Python.

It keeps a timeline with slots, as document 01 has it, where expected.py runs from the start for each call. mutants.py
puts faults into it. As a program: standard input to standard output.
"""
import sys

import reader

CELLS = 4096
SLOTS = 8
INTERVAL = 16
LAST = 2**62
NAMES = "answer steps state head low high score\n"
MOVES = {"L": -1, "R": 1, "N": 0}


class Engine:
    """The plain engine. The first cell lent is at `first`; `length` cells are in use."""

    def __init__(self, listing):
        self.table = listing.table
        self.cells = {at: symbol for at, symbol in enumerate(listing.word) if symbol != 0}
        self.state, self.steps, self.head, self.low, self.high = listing.start, 0, 0, 0, 0
        self.first, self.length = -16, len(listing.word) + 32

    def copy(self):
        other = object.__new__(Engine)
        other.__dict__.update(self.__dict__)
        other.cells = dict(self.cells)
        return other

    def entry(self):
        return self.table.get((self.state, self.cells.get(self.head, 0)))

    def advance(self, fuel):
        """Runs without the never test; then the verdict."""
        end = self.steps + fuel
        while self.steps < end:
            entry = self.entry()
            if entry is None:
                return "halted"
            write, move, after = entry
            at = self.head + MOVES[move]
            if not self.first <= at < self.first + self.length:
                if 2 * self.length > CELLS:
                    return "full"
                self.first -= self.length if move == "L" else 0
                self.length *= 2
            if write == 0:
                self.cells.pop(self.head, None)
            else:
                self.cells[self.head] = write
            self.state, self.head, self.steps = after, at, self.steps + 1
            self.low, self.high = min(self.low, at), max(self.high, at)
        return self.verdict()

    def verdict(self):
        entry = self.entry()
        if entry is None:
            return "halted"
        write, move, after = entry
        read = self.cells.get(self.head, 0)
        if after != self.state:
            return "fuel"
        if move == "N" and write == read:
            return "never"
        ahead = [at for at in self.cells if (at - self.head) * MOVES[move] > 0]
        return "never" if move != "N" and read == 0 and not ahead else "fuel"

    def row(self, answer):
        return f"{answer} {self.steps} {self.state} {self.head} {self.low} {self.high} {len(self.cells)}\n"


class Timeline:
    """The timeline over it."""

    def __init__(self, engine):
        self.here, self.slots, self.interval = engine, [engine.copy()], INTERVAL

    def record(self):
        self.slots.append(self.here.copy())
        if len(self.slots) > SLOTS:
            self.slots = self.slots[::2]
            self.interval *= 2

    def go_to(self, target):
        if target < self.here.steps:
            self.here = self.slots[min(target // self.interval, len(self.slots) - 1)].copy()
        while True:
            now = self.here.steps
            if target == now:
                return self.here.advance(0)
            if now == len(self.slots) * self.interval:
                self.record()
            answer = self.here.advance(min(target, len(self.slots) * self.interval) - now)
            if self.here.steps in (target, now) or answer in ("halted", "full"):
                return answer

    def call(self, name, number):
        now = self.here.steps
        target = {"seek": number, "forward": now + number, "back": max(now - number, 0)}[name]
        if target > LAST:
            return "refused 13\n"
        answer = self.go_to(target)
        return self.here.row(answer)


def seekrun(data, read=reader.read, bad=reader.Bad):
    try:
        listing = read(data)
    except bad as refusal:
        return f"refused {refusal.line}\n".encode()
    timeline = Timeline(Engine(listing))
    return (NAMES + "".join(timeline.call(*call) for call in listing.calls)).encode()


if __name__ == "__main__":
    sys.stdout.buffer.write(seekrun(sys.stdin.buffer.read()))
