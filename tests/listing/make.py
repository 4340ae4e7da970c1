#!/usr/bin/env python3
"""Makes the pairs crates/listing_cases/data/NNN.in and NNN.out, and crates/listing_cases/README.md, which lists them.

Each input is described here. What must be printed is never taken from the port: the line of a refusal is
given here by hand, and reader.py must name the same; rows are the Rust's engine's (expected.py).

    python3 make.py            writes the pairs and the list
    python3 make.py --check    compares with what is there; status 1 if anything differs
"""
import pathlib
import sys

import expected
import reader

CRATE = expected.TOP / "crates" / "listing_cases"
DATA = CRATE / "data"

CASES = []  # (what it shows, input, line that is refused or None)


def text(lines):
    return "\n".join(lines).encode("latin-1") + b"\n"


def good(what, data):
    """A listing whose rows are the Rust's."""
    CASES.append((what, data, None))


def bad(line, what, data):
    """A listing that is refused at a line."""
    CASES.append((what, data, line))


def listing(machine, entries, word="", calls=()):
    """A listing in document 01's form: line 2, the entry lines, the word line, the call lines."""
    names = ["tapes symbols states start", machine, "state read write move next"]
    return text([*names, *entries, "word", word, "call number", *calls])


def seeks(*steps):
    return [f"seek {step}" for step in steps]


# Document 01's listing, line by line.
BEAVER2 = ["0 0 1 R 1", "0 1 1 L 1", "1 0 1 L 0", "1 1 1 R 2"]
EXAMPLE = listing("1 2 3 0", BEAVER2, "", ["seek 3", "forward 100", "back 2", "seek 0"])
LINES = EXAMPLE.decode().split("\n")[:-1]


def with_line(number, line):
    """Document 01's listing with another line."""
    return text([*LINES[: number - 1], line, *LINES[number:]])


def up_to(number):
    """Document 01's listing up to a line."""
    return text(LINES[:number])


def without(number):
    """Document 01's listing without a line."""
    return text([*LINES[: number - 1], *LINES[number:]])


# Machines. Their halting state, if any, is the last one, which has no entry.
BEAVER3 = ["0 0 1 R 1", "0 1 1 R 3", "1 0 1 L 1", "1 1 0 R 2", "2 0 1 L 2", "2 1 1 L 0"]
BEAVER3_ONES = ["0 0 1 R 1", "0 1 1 R 3", "1 0 0 R 2", "1 1 1 R 1", "2 0 1 L 2", "2 1 1 L 0"]
BEAVER4 = ["0 0 1 R 1", "0 1 1 L 1", "1 0 1 L 0", "1 1 0 L 2", "2 0 1 R 4", "2 1 1 L 3", "3 0 1 R 3", "3 1 0 R 0"]
BEAVER5 = ["0 0 1 R 1", "0 1 1 L 2", "1 0 1 R 2", "1 1 1 R 1", "2 0 1 R 3"]
BEAVER5 += ["2 1 0 L 4", "3 0 1 L 0", "3 1 1 L 3", "4 0 1 R 5", "4 1 0 L 0"]
BEAVER23 = ["0 0 1 R 1", "0 1 2 L 1", "0 2 1 R 2", "1 0 2 L 0", "1 1 2 R 1", "1 2 1 L 1"]
BEAVER24 = ["0 0 1 R 1", "0 1 2 L 0", "0 2 1 R 0", "0 3 1 R 0", "1 0 1 L 1", "1 1 1 L 0", "1 2 3 R 1", "1 3 1 R 2"]
# Runs off in one state: the second never pattern holds at every step.
OFF_RIGHT = ["0 0 1 R 0"]
OFF_LEFT = ["0 0 1 L 0"]
# Run off in two states by turns: no never pattern, so the buffer ends them.
TURNS_RIGHT = ["0 0 1 R 1", "1 0 1 R 0"]
TURNS_LEFT = ["0 0 1 L 1", "1 0 1 L 0"]
# Writes a one at each end of what it has written, by turns, on a tape of blanks.
SWEEP = ["0 0 1 R 1", "0 1 1 L 0", "1 0 1 L 0", "1 1 1 R 1"]
# Adds 1 for ever to a binary number whose lowest digit is at 0; symbol 1 is the digit zero, 2 the digit one.
COUNTER = ["0 0 2 R 1", "0 1 2 R 1", "0 2 1 L 0", "1 0 0 L 0", "1 1 1 R 1", "1 2 2 R 1"]


def chain(count):
    """`count` states, one after the other, that stay and rewrite the blank: a machine of one symbol."""
    return [f"{state} 0 0 N {state + 1}" for state in range(count)]


def halts_at(steps):
    """A machine of one symbol that halts at the step: line 2 and its entries."""
    return f"1 1 {steps + 1} 0", chain(steps)


def delayed(steps):
    """A machine of one symbol that stays for so many steps and then runs off to the right in two states by turns."""
    entries = [*chain(steps), f"{steps} 0 0 R {steps + 1}", f"{steps + 1} 0 0 R {steps}"]
    return f"1 1 {steps + 2} 0", entries


def whole_form():
    good("document 01's listing", EXAMPLE)
    good("the last newline is missing", EXAMPLE[:-1])
    good("no calls", up_to(10))
    good("no calls, and the last newline is missing", up_to(10)[:-1])
    good("no entries: halted at 0", listing("1 2 3 0", [], "", ["seek 0", "seek 5", "back 1"]))
    good("no entries and no calls", listing("1 1 1 0", []))
    good("entries in another order", listing("1 2 3 0", BEAVER2[::-1], "", ["seek 3", "forward 100"]))
    good("some entries are not given: halts where one is missing", listing("1 2 2 0", BEAVER2[:3], "", seeks(4, 5, 6)))


def first_line():
    bad(1, "no bytes at all", b"")
    bad(1, "one newline: line 1 is empty", b"\n")
    bad(1, "line 1 begins with a capital", with_line(1, "Tapes symbols states start"))
    bad(1, "line 1 has one letter less", with_line(1, "tapes symbols states star"))
    bad(1, "line 1 has one letter more", with_line(1, "tapes symbols states starts"))
    bad(1, "line 1 has a space after it", with_line(1, "tapes symbols states start "))
    bad(1, "line 1 has two spaces in a row", with_line(1, "tapes  symbols states start"))
    bad(1, "line 1 has a tab", with_line(1, "tapes\tsymbols states start"))
    bad(1, "lines end in a carriage return and a newline", EXAMPLE.replace(b"\n", b"\r\n"))
    bad(1, "line 1 begins with the bytes EF BB BF", b"\xef\xbb\xbf" + EXAMPLE)
    bad(1, "an empty line comes first", b"\n" + EXAMPLE)
    bad(2, "line 1 alone: line 2 is missing", up_to(1))
    bad(2, "line 1 alone without its newline", up_to(1)[:-1])


def machine_line():
    for tapes in ("0", "2", "3"):
        bad(2, f"tapes {tapes}", with_line(2, f"{tapes} 2 3 0"))
    bad(2, "tapes 2^64 + 1", with_line(2, f"{2**64 + 1} 2 3 0"))
    bad(2, "symbols 0", with_line(2, "1 0 3 0"))
    bad(2, "symbols 257 with 1 state", with_line(2, "1 257 1 0"))
    bad(2, "states 0", with_line(2, "1 2 0 0"))
    bad(2, "start not below states", with_line(2, "1 2 3 3"))
    good("start just below states", with_line(2, "1 2 3 2"))
    bad(2, "513 entries: 1 symbol, 513 states", with_line(2, "1 1 513 0"))
    bad(2, "514 entries: 2 symbols, 257 states", with_line(2, "1 2 257 0"))
    good("512 entries: 2 symbols, 256 states", with_line(2, "1 2 256 0"))
    bad(2, "768 entries: 256 symbols, 3 states", with_line(2, "1 256 3 0"))
    bad(2, "states 65,536: 65,536 entries", with_line(2, "1 1 65536 0"))
    bad(2, "states 65,537", with_line(2, "1 1 65537 0"))
    bad(2, "256 symbols and 2^56 states: a product of 2^64", with_line(2, f"1 256 {2**56} 0"))
    bad(2, "states 2^64 + 3", with_line(2, f"1 2 {2**64 + 3} 0"))
    bad(2, "start 2^64", with_line(2, f"1 2 3 {2**64}"))
    bad(2, "a zero before another digit", with_line(2, "1 02 3 0"))
    bad(2, "two zeros", with_line(2, "1 2 3 00"))
    bad(2, "three numbers", with_line(2, "1 2 3"))
    bad(2, "five numbers", with_line(2, "1 2 3 0 0"))
    bad(2, "two spaces in a row", with_line(2, "1 2  3 0"))
    bad(2, "a space after line 2", with_line(2, "1 2 3 0 "))
    bad(2, "a space before line 2", with_line(2, " 1 2 3 0"))
    bad(2, "a sign before a number", with_line(2, "1 2 +3 0"))
    bad(2, "a letter for a digit", with_line(2, "1 2 3 O"))
    bad(2, "a carriage return ends line 2", with_line(2, "1 2 3 0\r"))
    bad(2, "line 2 is empty", with_line(2, ""))
    bad(3, "line 3 is missing", up_to(2))
    bad(3, "line 3 has other names", with_line(3, "state read write next move"))
    bad(3, "`word` is line 3", without(3).replace(b"\n0 0 1 R 1", b"\nword", 1))


def entry_lines():
    bad(4, "state 3 of 3 states", with_line(4, "3 0 1 R 1"))
    bad(4, "read 2 of 2 symbols", with_line(4, "0 2 1 R 1"))
    bad(4, "write 2 of 2 symbols", with_line(4, "0 0 2 R 1"))
    bad(4, "next 3 of 3 states", with_line(4, "0 0 1 R 3"))
    good("state 2, read 1, write 1, next 2: the highest of each", with_line(4, "2 1 1 R 2"))
    bad(5, "state 65,536, which is 0 in sixteen bits", with_line(5, "65536 1 1 L 1"))
    bad(5, "write 256, which is 0 in eight bits", with_line(5, "0 1 256 L 1"))
    bad(5, "next 2^64, which is 0 in 64 bits", with_line(5, f"0 1 1 L {2**64}"))
    bad(6, "a zero before another digit in an entry", with_line(6, "1 0 01 L 0"))
    bad(6, "a small letter for a move", with_line(6, "1 0 1 l 0"))
    bad(6, "a move S", with_line(6, "1 0 1 S 0"))
    bad(6, "a move of two letters", with_line(6, "1 0 1 LR 0"))
    bad(6, "a number for a move", with_line(6, "1 0 1 0 0"))
    bad(6, "an entry of four fields", with_line(6, "1 0 1 L"))
    bad(6, "an entry of six fields", with_line(6, "1 0 1 L 0 0"))
    bad(6, "a space after an entry", with_line(6, "1 0 1 L 0 "))
    bad(6, "an empty line among the entries", with_line(6, ""))
    good("a move N", with_line(4, "0 0 1 N 0"))
    bad(7, "an entry given twice, the same", with_line(7, BEAVER2[0]))
    bad(7, "an entry given twice, otherwise", with_line(7, "0 0 0 N 0"))
    bad(5, "an entry given twice, and later a bad line", text([*LINES[:4], BEAVER2[0], "x", *LINES[6:]]))
    bad(6, "a bad line, and later an entry given twice", text([*LINES[:5], "x", BEAVER2[0], *LINES[7:]]))
    bad(8, "the entries end without `word`", up_to(7))
    bad(8, "`word` is missing", without(8))
    bad(8, "`Word` with a capital", with_line(8, "Word"))
    bad(8, "`word` with a space after it", with_line(8, "word "))


def word_line():
    bad(9, "`word` is the last line: the word line is missing", up_to(8))
    bad(9, "`word` is the last line, without its newline", up_to(8)[:-1])
    bad(9, "the word line is missing, `call number` is there", without(9))
    bad(9, "word symbol 2 of 2", with_line(9, "1 0 2"))
    good("word symbols 0 and 1 of 2", with_line(9, "1 0 1"))
    good("a word of one blank", with_line(9, "0"))
    bad(9, "a word line of one space", with_line(9, " "))
    bad(9, "two spaces in a word", with_line(9, "1  1"))
    bad(9, "a space after the word", with_line(9, "1 1 "))
    bad(9, "a word symbol with a zero before it", with_line(9, "1 01"))
    bad(9, "a comma in the word", with_line(9, "1,1"))
    bad(10, "the word line is the last: `call number` is missing", up_to(9))
    bad(10, "line 10 is not `call number`", with_line(10, "call"))
    over = listing("1 11 2 0", ["0 1 1 R 0"], " ".join(["1"] * 39 + ["10"]), seeks(39, 40))
    good("a word line of 80 bytes: 39 symbols of one digit, one of two", over)
    good("a word line of 79 bytes: 40 symbols", listing("1 2 2 0", ["0 1 1 R 0"], " ".join("1" * 40), seeks(40)))
    bad(6, "a word line of 81 bytes: 41 symbols", listing("1 2 2 0", ["0 1 1 R 0"], " ".join("1" * 41), seeks(40)))
    bad(6, "a word line of 81 bytes: 38 and two of two digits", over.replace(b"\n1 1 ", b"\n1 10 "))
    bad(6, "a word line of 4,999 bytes", listing("1 2 2 0", ["0 1 1 R 0"], " ".join("1" * 2_500)))
    threes = " ".join(["255"] * 20)
    good("20 symbols of three digits", listing("1 256 2 0", ["0 255 254 R 0"], threes, seeks(19, 20, 21)))
    bad(6, "word symbol 256 of 256", listing("1 256 2 0", ["0 255 254 R 0"], "255 256"))


def call_lines():
    for line in ("seek", "seek ", "Seek 3", "jump 3", "seek  3", "seek 3 ", "seek 3 4", "seek 03", "seek -1", "seek 0x3"):
        bad(11, f"a call line `{line}`", with_line(11, line))
    bad(12, "an empty line between calls", with_line(12, ""))
    bad(15, "an empty line after the last call", EXAMPLE + b"\n")
    bad(15, "bytes after the last newline that are no call", EXAMPLE + b"end")
    bad(15, "a zero byte after the last newline", EXAMPLE + b"\0")
    bad(14, "a carriage return ends the last line", EXAMPLE[:-1] + b"\r\n")
    bad(13, "call number 2^64", with_line(13, f"back {2**64}"))
    bad(13, "call number 2^64 + 2, which is 2 in 64 bits", with_line(13, f"back {2**64 + 2}"))
    bad(13, "a call number of 70 digits", with_line(13, "back " + "9" * 70))
    bad(11, "a call line of 81 bytes", with_line(11, "seek " + "1" * 76))
    sixty_four = [f"seek {n % 7}" for n in range(64)]
    good("64 calls", listing("1 2 3 0", BEAVER2, "", sixty_four))
    good("64 calls, and the last newline is missing", listing("1 2 3 0", BEAVER2, "", sixty_four)[:-1])
    bad(75, "65 calls: the 65th is at line 75", listing("1 2 3 0", BEAVER2, "", [*sixty_four, "seek 0"]))
    bad(75, "64 calls and an empty line", listing("1 2 3 0", BEAVER2, "", sixty_four) + b"\n")
    bad(40, "65 calls, the 30th of them bad", listing("1 2 3 0", BEAVER2, "", [*sixty_four[:29], "x", *sixty_four[29:]]))
    bad(15, "66,000 bytes after a good listing, more than is read", EXAMPLE + b"x" * 66_000)


def call_numbers():
    calls = [f"seek {2**62}", f"seek {2**62 + 1}", "seek 2", f"seek {2**63}", f"seek {2**64 - 1}", "forward 0"]
    good("seek 2^62 halts; 2^62 + 1, 2^63, 2^64 - 1 are refused and leave the step", listing("1 2 3 0", BEAVER2, "", calls))
    calls = [f"forward {2**62}", f"forward {2**62 - 6}", f"forward {2**62 - 5}", f"forward {2**64 - 1}", "back 2"]
    calls += [f"forward {2**62 - 4}", "back 6", f"forward {2**62 + 1}"]
    good("forward to 2^62 and past it; sums over 64 bits", listing("1 2 3 0", BEAVER2, "", calls))
    calls = ["seek 5", f"back {2**62 + 1}", "seek 5", f"back {2**64 - 1}", "seek 4", "back 5", "back 0", "back 1"]
    good("back by more than the step goes to 0, whatever its number", listing("1 2 3 0", BEAVER2, "", calls))
    good("a refused call comes first", listing("1 2 3 0", BEAVER2, "", [f"seek {2**62 + 1}", "forward 3", "back 1"]))
    calls = [f"forward {2**64 - 1}"] * 3 + ["seek 0", "forward 0", "back 0"]
    good("only refused calls, then calls that stay", listing("1 2 3 0", BEAVER2, "", calls))
    calls = ["seek 100", "forward 1", "back 1", "forward 1", "back 6", "back 1", "forward 6", "forward 0"]
    good("past the halt: the step is that of the halt", listing("1 2 3 0", BEAVER2, "", calls))


def beavers():
    good("three states: 21 steps", listing("1 2 4 0", BEAVER3, "", [*seeks(20, 21, 22, 0, 16, 15), "forward 6"]))
    good("three states, six ones: 14 steps", listing("1 2 4 0", BEAVER3_ONES, "", seeks(13, 14, 15, 3)))
    calls = [*seeks(106, 107, 1000, 16), "forward 91", "back 91", "back 1", "seek 96", "seek 95", "forward 12"]
    good("four states: 107 steps, 13 ones", listing("1 2 5 0", BEAVER4, "", calls))
    calls = seeks(1000, 10**6, 2**62, 10**5)
    good("five states: 47,176,870 steps, but full before", listing("1 2 6 0", BEAVER5, "", calls))
    calls = [*seeks(37, 38, 39, 32, 31, 0), "forward 33"]
    good("two states, three symbols: 38 steps", listing("1 3 3 0", BEAVER23, "", calls))
    calls = [*seeks(2**62, 1000, 3932964, 3932963), "back 3000000", "forward 1", "back 900000", "forward 4000000"]
    good("two states, four symbols: 3,932,964 steps, and long ways back", listing("1 4 3 0", BEAVER24, "", calls))


def never_patterns():
    blank = ["seek 0", "forward 1", "forward 1000", "back 1", "seek 1000000", "back 999999"]
    good("the blank rewritten, N, same state: never at every step", listing("1 2 1 0", ["0 0 0 N 0"], "", blank))
    good("a one rewritten, N, same state", listing("1 2 1 0", ["0 1 1 N 0"], "1", seeks(0, 7)))
    good("a one in place of the blank, N, same state: halted", listing("1 2 1 0", ["0 0 1 N 0"], "", seeks(0, 1, 2)))
    turns = ["0 0 0 N 1", "1 0 0 N 0"]
    good("two states rewrite the blank by turns: fuel", listing("1 2 2 0", turns, "", seeks(0, 1, 100)))
    calls = [*seeks(0, 100, 4079, 4080), "forward 0", "forward 1", "back 1", "seek 5000"]
    good("runs off right in one state: never, and full where space ends", listing("1 2 1 0", OFF_RIGHT, "", calls))
    calls = [*seeks(0, 100, 4080, 4081), "forward 0", f"seek {2**62}", "back 80"]
    good("runs off left in one state: never, and full where space ends", listing("1 2 1 0", OFF_LEFT, "", calls))
    good("runs off writing the blank", listing("1 2 1 0", ["0 0 0 R 0"], "", seeks(0, 20, 10**6)))
    passes = [*OFF_RIGHT, "0 1 1 R 0"]
    good("a one beyond the head: fuel until it is passed", listing("1 2 1 0", passes, "0 0 0 1 0", seeks(0, 2, 3, 4, 5)))
    leaves = ["0 1 1 R 1", "1 0 1 R 1"]
    good("a one beyond on the other side only: never", listing("1 2 2 0", leaves, "1", seeks(0, 1, 2)))
    good("the cell read is not blank: fuel", listing("1 2 1 0", ["0 1 1 R 0"], "1 1", seeks(0, 1, 2)))
    good("the entry leaves its state: fuel, full in the end", listing("1 2 2 0", TURNS_RIGHT, "", seeks(0, 1, 4079, 4080)))
    later = ["0 0 1 R 1", "1 0 1 L 2", "2 1 0 L 2", "2 0 0 L 2"]
    good("never after some steps, left", listing("1 2 3 0", later, "", seeks(1, 2, 3, 4, 9)))


def space():
    calls = [*seeks(4078, 4079, 4080), "forward 0", "forward 1", "back 1", "forward 2", "back 4079", f"seek {2**62}"]
    good("full to the right: at 4,079, again and again", listing("1 2 2 0", TURNS_RIGHT, "", calls))
    calls = [*seeks(4079, 4080, 4081), "forward 1", "back 17", "forward 17", "forward 18", "seek 2048"]
    good("full to the left: at 4,080", listing("1 2 2 0", TURNS_LEFT, "", calls))
    calls = seeks(2095, 2096, 2094)
    good("a word of one blank: 2,112 cells at most, full at 2,095", listing("1 2 2 0", TURNS_RIGHT, "0", calls))
    good("the same to the left", listing("1 2 2 0", TURNS_LEFT, "0", calls))
    blanks = " ".join("0" * 40)
    good("a word of 40 blanks: 2,304 cells at most", listing("1 2 2 0", TURNS_RIGHT, blanks, seeks(2287, 2288)))
    good("a word of 32 blanks: 4,096 cells", listing("1 2 2 0", TURNS_LEFT, " ".join("0" * 32), seeks(4048, 4049)))
    calls = [*seeks(1000, 10**5, 10**9), "back 10000", "forward 9999", "forward 2"]
    good("grows on both sides by turns, full in the end", listing("1 2 2 0", SWEEP, "", calls))
    calls = [f"seek {2**62}", "back 2048", f"forward {2**62 - 2031}", "back 2048", f"forward {2**62 - 2030}"]
    good("after a row `full` the calls go on from the step that the engine has reached", listing("1 2 2 0", TURNS_RIGHT, "", calls))


def slot_boundaries():
    for steps in (15, 16, 17, 127, 128, 129, 256):
        machine, entries = halts_at(steps)
        calls = [*seeks(steps, steps + 1), "back 1", "forward 1", "forward 1", *seeks(steps // 2, 1000)]
        good(f"halts at {steps}", listing(machine, entries, "", [*calls, "back 16", "forward 15", "forward 2"]))
    machine, entries = halts_at(511)
    calls = [*seeks(510, 511, 512, 256), "forward 255", "back 511"]
    good("512 states of one symbol: halts at 511 in state 511", listing(machine, entries, "", calls))
    machine, entries = delayed(17)
    calls = [*seeks(4095, 4096, 4097), "forward 1", "back 1", "forward 1", "forward 1", "back 4096", *seeks(10000, 3584)]
    good("full at 4,096, where a slot is recorded and slots are thinned", listing(machine, entries, "", calls))
    calls = [f"seek {2**62}", "back 512", "forward 512", "forward 512"]
    good("the same, in one call and then back", listing(machine, entries, "", calls))
    machine, entries = delayed(465)
    calls = [*seeks(2559, 2560, 2561), "back 512", "forward 511", "forward 1", "forward 1", "seek 0", f"forward {2**62}"]
    good("full at 2,560, where a slot is recorded", listing(machine, entries, "0", calls))
    around = [step + more for step in (16, 112, 128, 160, 256, 512, 1024, 2048) for more in (-1, 0, 1)]
    good("a counter, onward over the steps where slots are recorded", listing("1 3 2 0", COUNTER, "", seeks(*around)))
    good("a counter, back over the same steps", listing("1 3 2 0", COUNTER, "", seeks(*around[::-1])))
    calls = [f"{name} {n}" for n in range(10, 330, 10) for name in ("forward", "back")]
    good("a counter, out and home 32 times", listing("1 3 2 0", COUNTER, "", calls))
    calls = ["seek 1000000", *[f"back {2**n}" for n in range(18, -1, -1)]]
    good("a counter, a million steps, then back by halves", listing("1 3 2 0", COUNTER, "", calls))


def limits():
    wide = [f"0 {read} {255 - read} R 1" for read in range(256)] + [f"1 {read} {read} R 0" for read in range(256)]
    calls = seeks(0, 1, 5, 6, 2351, 5000)
    good("512 entries, all given: 256 symbols, 2 states", listing("1 256 2 0", wide, "255 254 1 0 128", calls))
    bad(516, "513 entry lines: the last is a second giving", listing("1 256 2 0", [*wide, "1 255 0 N 1"]))
    high = ["511 0 0 R 510", "510 0 0 R 509", "509 0 0 L 511"]
    calls = [*seeks(1, 2, 3, 100, 12000), "back 1"]
    good("states 509 to 511 of 512, start 511", listing("1 1 512 511", high, "0 0 0", calls))
    bad(2, "start 512 of 512", listing("1 1 512 512", high))
    bad(4, "state 512 of 512", listing("1 1 512 511", ["512 0 0 R 0"]))
    bad(4, "next 512 of 512", listing("1 1 512 511", ["511 0 0 R 512"]))
    good("one symbol, one state: never", listing("1 1 1 0", ["0 0 0 L 0"], "0 0", seeks(0, 1, 3000)))
    top = ["0 0 255 L 1", "1 0 255 L 0"]
    good("symbol 255 written 4,080 times", listing("1 256 2 0", top, "", seeks(255, 256, 257, 4080, 4081)))
    good("a word that is not read", listing("1 3 2 1", ["1 2 0 L 0"], "2 0 1 0 2", seeks(0, 1, 2)))


def readme():
    lines = [HEAD]
    for number, (what, _, line) in enumerate(CASES):
        source = "the Rust" if line is None else f"by hand: line {line}"
        lines.append(f"| {number:03} | {what} | {source} |")
    return ("\n".join(lines) + "\n").encode()


HEAD = """# The listing's cases

Each pair in `data/` is an input of the listing, `NNN.in`, and what must be printed for it, `NNN.out`. The program of this crate
runs the listing on each input, compares byte by byte, prints a line for each pair that differs, and at the end how many there are.

The pairs and this list are made by `tests/listing/make.py`, where each input is described; nothing of the port has a part in it:

- by hand: the number of the bad line is written down with the case, from document 01's paragraph "Listing"; the second
  reader, `tests/listing/reader.py`, must name the same;
- the Rust: the second reader takes the listing apart, and the Rust's `Simulator` runs its table from the start to the target of
  each call (`tests/differential/src/bin/rows.rs`). What the Rust has not, lack of space at 4,096 cells and targets over
  2^62, is document 01's rule, as the differential test has it.

A call list goes on from the step that the engine has reached, also after a row `full`. Every line printed ends in a newline, that
of a refused listing too.

| pair | what it shows | expected |
|---|---|---|"""


def pairs():
    """Every file's bytes, by its name."""
    groups = (whole_form, first_line, machine_line, entry_lines, word_line, call_lines, call_numbers)
    for group in (*groups, beavers, never_patterns, space, slot_boundaries, limits):
        group()
    told = expected.outputs([data for _, data, _ in CASES])
    files = {CRATE / "README.md": readme()}
    for number, ((what, data, line), output) in enumerate(zip(CASES, told)):
        refused = None if line is None else f"refused {line}\n".encode()
        assert output is not None, f"{number} {what}: more steps than are run"
        assert (line is None) == (not output.startswith(b"refused")), f"{number} {what}: {output!r}"
        assert refused in (None, output), f"{number} {what}: the reader says {output!r}"
        files[DATA / f"{number:03}.in"] = data
        files[DATA / f"{number:03}.out"] = output
    return files


def main():
    expected.build()
    files = pairs()
    there = {CRATE / "README.md", *DATA.glob("*")}
    if "--check" in sys.argv[1:]:
        wrong = [path for path in sorted({*there, *files}) if not path.is_file() or path.read_bytes() != files.get(path)]
        print("\n".join(f"differs: {path.relative_to(expected.TOP)}" for path in wrong) or f"{len(CASES)} pairs, as made")
        sys.exit(1 if wrong else 0)
    DATA.mkdir(parents=True, exist_ok=True)
    for path in there - {*files}:
        path.unlink()
    for path, data in files.items():
        path.write_bytes(data)
    refused = sum(line is not None for *_, line in CASES)
    print(f"{len(CASES)} pairs: {refused} refused by hand, {len(CASES) - refused} with rows of the Rust's engine")


if __name__ == "__main__":
    main()
