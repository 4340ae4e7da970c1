"""Builds the driver, sends it cases and takes its answers. driver.c has the binary form of both."""
import itertools
import os
import pathlib
import shutil
import struct
import subprocess
import tempfile

HERE = pathlib.Path(__file__).resolve().parent
TOP = HERE.parent.parent
BUILT = TOP / "target" / "lines"
LIBRARY = TOP / "crates" / "capi" / "out" / "libcapi.a"
FLAGS = ["-std=c99", "-O2", "-Wall", "-Wextra", "-Werror"]

ANSWER = struct.Struct("<BB8Q")
RING = bytes(37 * i & 255 for i in range(512))
PREFIX_ROOM, PREFIX_FILL = 256, 7
NO_ENGINE = 255  # the code of a driver that was built without the engine


class Broken(Exception):
    """The driver ended with a fault."""


# ---- building ----


def compiler():
    return shutil.which(os.environ.get("CC", "cc"))


def compile_c(arguments):
    subprocess.run([compiler(), *FLAGS, *arguments], check=True)


def build():
    """The driver over the library."""
    BUILT.mkdir(parents=True, exist_ok=True)
    program = BUILT / "driver"
    compile_c([HERE / "driver.c", LIBRARY, "-o", program])
    return program


# ---- cases and answers ----


def read_case(line, room, fill=0, null=0):
    return b"R" + struct.pack("<BBII", fill, null, len(line), room) + line


def write_case(tapes, symbols, states, start, table, room, fill=0, null=0):
    return b"W" + struct.pack("<BB4QII", fill, null, tapes, symbols, states, start, len(table), room) + table


def run_case(symbols, states, table, cells, fuel):
    return b"S" + struct.pack("<3QII", symbols, states, fuel, cells, len(table)) + table


def prefix_case(prefixes, following, answers):
    """Prefixes of one length, the bytes that may follow them, and the answer for each, as `prefix_answer` gives it."""
    bits = sum(1 << byte for byte in following).to_bytes(32, "little")
    head = b"P" + struct.pack("<II", len(prefixes[0]), len(prefixes)) + bits
    return head + b"".join(itertools.chain.from_iterable(zip(prefixes, answers)))


def prefix_answer(code, place, symbols, states, table):
    return bytes([code, place or 0, symbols or 0, states or 0]) + table


def fresh_outs(fill):
    return [0xBAD0000000000000 + 256 * fill + i for i in range(8)]


def fresh_buffer(fill, room):
    return (RING[fill : fill + 256] * (room // 256 + 1))[:room]


def answer(code, first_outs, written, room, fill):
    """The answer of a call that changes the first places of out and of the lent buffer, and nothing else."""
    outs = [*first_outs, *fresh_outs(fill)[len(first_outs) :]]
    return ANSWER.pack(code, 1, *outs) + written + fresh_buffer(fill, room)[len(written) :]


class Given:
    """An answer taken apart."""

    def __init__(self, data):
        self.code, self.kept, *self.outs = ANSWER.unpack_from(data)
        self.buffer = data[ANSWER.size :]


# ---- talking to the driver ----


def ask(program, cases, rooms):
    """The answers to cases of the kinds R, W and S; `rooms` are the bytes that each gives back."""
    ran = subprocess.run([program], input=b"".join(cases), capture_output=True)
    sizes = [ANSWER.size + room for room in rooms]
    if ran.returncode != 0 or len(ran.stdout) != sum(sizes):
        raise Broken(f"the driver ended with status {ran.returncode}: {ran.stderr.decode(errors='replace').strip()}")
    answers, begin = [], 0
    for size in sizes:
        answers.append(ran.stdout[begin : begin + size])
        begin += size
    return answers


def try_prefixes(program, cases):
    """Sends prefix cases as they are made. Gives the number of mismatches and the first few: the line and its answer."""
    with tempfile.TemporaryFile() as kept:
        driver = subprocess.Popen([program], stdin=subprocess.PIPE, stdout=kept, stderr=subprocess.PIPE)
        try:
            for case in cases:
                driver.stdin.write(case)
        except BrokenPipeError:
            pass
        _, errors = driver.communicate()
        if driver.returncode != 0:
            raise Broken(f"the driver ended with status {driver.returncode}: {errors.decode(errors='replace').strip()}")
        kept.seek(0)
        return mismatches(kept)


def mismatches(answers):
    """The answers to prefix cases, added up."""
    total, shown = 0, []
    while head := answers.read(12):
        number, count = struct.unpack("<QI", head)
        total += number
        for _ in range(count):
            (length,) = struct.unpack("<I", answers.read(4))
            shown.append((answers.read(length), answers.read(ANSWER.size + PREFIX_ROOM)))
    return total, shown


# ---- for people ----


def in_words(data, fill, written="bytes"):
    """An answer as a person reads it: the code, what changed in out, and what changed in the buffer."""
    given = Given(data)
    words = ["accepted" if given.code == 0 else f"refused {given.code}"]
    fresh = fresh_outs(fill)
    words += [f"out[{i}] {value}" for i, value in enumerate(given.outs) if value != fresh[i]]
    before = fresh_buffer(fill, len(given.buffer))
    changed = [at for at, byte in enumerate(given.buffer) if byte != before[at]]
    if changed:
        part = given.buffer[: changed[-1] + 1]
        text = repr(part) if written == "line" else part.hex()
        words.append(f"{len(changed)} changed bytes up to place {changed[-1]}: {shortened(text)}")
    if not given.kept:
        words.append("MEMORY AROUND WHAT WAS LENT, OR WHAT WAS LENT FOR READING, CHANGED")
    return ", ".join(words)


def shortened(text, most=300):
    return text if len(text) <= most else f"{text[:most]}.. ({len(text)} characters)"
