#!/usr/bin/env python3
"""Puts faults into the stand-in (reader.py and mock.py), one at a time: the fuzz run must find every one.

    python3 mutants.py [--count N]
"""
import argparse
import sys
import types

import expected
import fuzz

READER, MOCK = "reader.py", "mock.py"
FAULTS = [
    (READER, "lines to 81 bytes", "LINE = 80", "LINE = 81"),
    (READER, "lines to 79 bytes", "LINE = 80", "LINE = 79"),
    (READER, "65 calls", "CALLS = 64", "CALLS = 65"),
    (READER, "63 calls", "CALLS = 64", "CALLS = 63"),
    (READER, "a table of 513 entries", "ENTRIES = 512", "ENTRIES = 513"),
    (READER, "a table of 511 entries", "ENTRIES = 512", "ENTRIES = 511"),
    (READER, "257 symbols", "SYMBOLS = 256", "SYMBOLS = 257"),
    (READER, "the product in 16 bits", "symbols * states > ENTRIES", "symbols * states % 2**16 > ENTRIES"),
    (READER, "any number of tapes", "tapes == 1 and", "tapes >= 1 and"),
    (READER, "tapes in 64 bits", "tapes == 1 and", "tapes % 2**64 == 1 and"),
    (READER, "no symbols", "1 <= symbols", "0 <= symbols"),
    (READER, "no states", "1 <= states <= STATES and start < states", "start <= states"),
    (READER, "start up to the number of states", "start < states", "start <= states"),
    (READER, "zeros before a digit", 'N = rb"(0|[1-9][0-9]*)"', 'N = rb"([0-9]+)"'),
    (READER, "no call number 0", 'rb"(seek|forward|back) " + N', 'rb"(seek|forward|back) ([1-9][0-9]*)"'),
    (READER, "numbers one too high", "if value >= below:", "if value > below:"),
    (READER, "numbers in 64 bits", "value = int(digits)", "value = int(digits) % 2**64"),
    (READER, "2^64 is a number", "TOP = 2**64", "TOP = 2**64 + 1"),
    (READER, "2^64 - 1 is none", "TOP = 2**64", "TOP = 2**64 - 1"),
    (READER, "call numbers to 2^62", "TOP = 2**64", "TOP = 2**62 + 1"),
    (READER, "a move of small letters", "([LRN])", "([LRNlrn])"),
    (READER, "an entry given twice", "if key in listing.table:", "if False:"),
    (READER, "an entry given twice, the same", "if key in listing.table:", "if listing.table.get(key, entry) != entry:"),
    (READER, "read and write exchanged in the table's key", "lines.number(read, listing.symbols)\n", "lines.number(write, listing.symbols)\n"),
    (READER, "the last newline is needed", 'if self.lines[-1] == b"":\n            self.lines.pop()', "self.lines.pop()"),
    (READER, "an empty last line", 'if self.lines[-1] == b"":\n            self.lines.pop()', "pass"),
    (READER, "empty lines at the end are passed over", 'if self.lines[-1] == b"":', 'while self.lines and self.lines[-1] == b"":'),
    (READER, "a missing line counts as the last", "return Bad(self.at)", "return Bad(min(self.at, max(len(self.lines), 1)))"),
    (READER, "lines counted from 0", "return Bad(self.at)", "return Bad(self.at - 1)"),
    (READER, "carriage returns are passed over", 'self.lines = data.split(b"\\n")', 'self.lines = data.replace(b"\\r\\n", b"\\n").split(b"\\n")'),
    (READER, "only the first 4,096 bytes are read", 'data.split(b"\\n")', 'data[:4096].split(b"\\n")'),
    (READER, "names in any case", "if self.take() != expected:", "if self.take().lower() != expected:"),
    (READER, "names with spaces after them", "if self.take() != expected:", "if self.take().rstrip() != expected:"),
    (READER, "names are not compared", "if self.take() != expected:", "if self.take() is None:"),
    (READER, "`word` with spaces after it", "(line := lines.take()) != WORD_NAME", "(line := lines.take()).rstrip() != WORD_NAME"),
    (READER, "the calls' names may be missing", "    lines.names(CALL_NAMES)\n", "    if lines.more():\n        lines.names(CALL_NAMES)\n"),
    (READER, "two spaces in a word", "(?: (?:0|", "(?: +(?:0|"),
    (READER, "spaces after the word", "[1-9][0-9]*))*\")", "[1-9][0-9]*))* ?\")"),
    (MOCK, "4,095 cells", "CELLS = 4096", "CELLS = 4095"),
    (MOCK, "8,192 cells", "CELLS = 4096", "CELLS = 8192"),
    (MOCK, "the buffer is not doubled but used whole", "if 2 * self.length > CELLS:", "if self.length >= CELLS:"),
    (MOCK, "the word is not counted in the length", "len(listing.word) + 32", "32"),
    (MOCK, "fresh: the head one cell off", "self.first, self.length = -16,", "self.first, self.length = -15,"),
    (MOCK, "growth to the left on the right side", "self.first -= self.length if move == \"L\" else 0", "self.first -= 0"),
    (MOCK, "full before halted", 'if entry is None:\n                return "halted"\n            write, move', 'if entry is None:\n                return "full"\n            write, move'),
    (MOCK, "full adds a step", 'return "full"', 'self.steps += 1; return "full"'),
    (MOCK, "never is fuel", 'if move == "N" and write == read:\n            return "never"', 'if move == "N" and write == read:\n            return "fuel"'),
    (MOCK, "the first pattern whatever is written", 'if move == "N" and write == read:', 'if move == "N":'),
    (MOCK, "the patterns in another state", '        if after != self.state:\n            return "fuel"\n', ""),
    (MOCK, "the second pattern on any symbol", "read == 0 and not ahead", "not ahead"),
    (MOCK, "the second pattern with cells ahead", "read == 0 and not ahead", "read == 0"),
    (MOCK, "the second pattern looks at both sides", "if (at - self.head) * MOVES[move] > 0]", "if at != self.head]"),
    (MOCK, "the second pattern only writing what is not blank", "read == 0 and not ahead", "read == 0 and write != 0 and not ahead"),
    (MOCK, "lowest is not kept", "min(self.low, at)", "min(0, at)"),
    (MOCK, "highest begins at the word's end", "self.low, self.high = listing.start, 0, 0, 0, 0", "self.low, self.high = listing.start, 0, 0, 0, max(len(listing.word) - 1, 0)"),
    (MOCK, "lowest and highest exchanged", "{self.low} {self.high}", "{self.high} {self.low}"),
    (MOCK, "the start state is 0", "self.high = listing.start,", "self.high = 0,"),
    (MOCK, "the score counts the cells touched", "{len(self.cells)}", "{self.high - self.low + 1}"),
    (MOCK, "a saved engine shares its cells", "other.cells = dict(self.cells)", "other.cells = self.cells"),
    (MOCK, "going back leaves the step", "self.here = self.slots[", "self.slots["),
    (MOCK, "going back to the slot after", "min(target // self.interval, ", "min(target // self.interval + 1, "),
    (MOCK, "slots of odd index are kept", "self.slots[::2]", "self.slots[1::2]"),
    (MOCK, "the interval is not doubled", "self.interval *= 2", "self.interval *= 1"),
    (MOCK, "a slot is recorded a step late", "self.slots.append(self.here.copy())", "self.here.advance(1); self.slots.append(self.here.copy())"),
    (MOCK, "a call ends where a slot is recorded", "if self.here.steps in (target, now) or answer", "if True or answer"),
    (MOCK, "2^62 is refused", "if target > LAST:", "if target >= LAST:"),
    (MOCK, "2^62 + 1 is not refused", "LAST = 2**62", "LAST = 2**62 + 1"),
    (MOCK, "forward in 64 bits", "now + number", "(now + number) % 2**64"),
    (MOCK, "back by too much stays", "max(now - number, 0)", "now - number if number <= now else now"),
    (MOCK, "back is refused by its number", "if target > LAST:", "if max(target, number) > LAST:"),
    (MOCK, "forward counts from the target after a halt", "answer = self.go_to(target)\n        return self.here.row(answer)", "answer = self.go_to(target)\n        row = self.here.row(answer)\n        self.here.steps = target\n        return row"),
    (MOCK, "a refused call goes to 0", 'return "refused 13\\n"', 'self.go_to(0); return "refused 13\\n"'),
    (MOCK, "a refused call says refused 12", '"refused 13\\n"', '"refused 12\\n"'),
    (MOCK, "no newline after a refusal", 'f"refused {refusal.line}\\n"', 'f"refused {refusal.line}"'),
    (MOCK, "no names with no rows", "return (NAMES + ", 'return ((NAMES if listing.calls else "") + '),
    (MOCK, "rows are printed before a later bad line", 'return f"refused {refusal.line}\\n".encode()', 'return (NAMES if refusal.line > 10 else "").encode() + f"refused {refusal.line}\\n".encode()'),
]


def module(name, faults):
    """A module from a file's text with a fault in it."""
    text = (expected.HERE / name).read_text()
    for old, new in faults:
        assert text.count(old) == 1, f"{name}: {old!r} occurs {text.count(old)} times"
        text = text.replace(old, new)
    made = types.ModuleType(name)
    sys.modules[name] = made  # dataclasses look there
    exec(compile(text, name, "exec"), made.__dict__)
    return made


def execute(reader, mock):
    def run(data):
        try:
            return mock.seekrun(data, reader.read, reader.Bad)
        except Exception as error:  # a crash of the stand-in is a difference
            return repr(error).encode()

    return run


def main():
    options = argparse.ArgumentParser()
    options.add_argument("--count", type=int, default=6000)
    options.add_argument("--seed", type=int, default=1)
    given = options.parse_args()
    expected.build()
    missed, listings = 0, list(fuzz.prepared(given.seed, range(given.count), 300_000))
    for name, what, old, new in FAULTS:
        changed = [(old, new)]
        reader, mock = module(READER, changed if name == READER else []), module(MOCK, changed if name == MOCK else [])
        different = fuzz.compare(execute(reader, mock), listings, stop=1).different
        missed += not different
        print(f"{what}: found by listing {different[0][0]}" if different else f"{what}: NOT FOUND", flush=True)
    print(f"{len(FAULTS)} faults, {missed} not found")
    sys.exit(1 if missed else 0)


if __name__ == "__main__":
    main()
