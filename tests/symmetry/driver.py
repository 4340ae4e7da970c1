"""Builds the driver, sends it cases and takes its answers. driver.c has the binary form of both."""
import collections
import os
import pathlib
import shutil
import struct
import subprocess

import records

HERE = pathlib.Path(__file__).resolve().parent
TOP = HERE.parent.parent
BUILT = TOP / "target" / "symmetry"
LIBRARY = TOP / "crates" / "capi" / "out" / "libcapi.a"
FLAGS = ["-std=c99", "-O2", "-Wall", "-Wextra", "-Werror"]

HEADER = struct.Struct("<HIHBBIHI")
CHECK, PLAIN, CHAIN = b"K", b"P", b"C"

Case = collections.namedtuple("Case", "symbols states start table word")


class Broken(Exception):
    """The driver ended with a fault."""


def compiler():
    return shutil.which(os.environ.get("CC", "cc"))


def build():
    BUILT.mkdir(parents=True, exist_ok=True)
    program = BUILT / "driver"
    subprocess.run([compiler(), *FLAGS, HERE / "driver.c", LIBRARY, "-o", program], check=True)
    return program


def case_bytes(kind, case, steps, half, space):
    symbols, states, start, table, word = case
    header = HEADER.pack(symbols, states, start, steps, half, space, len(word), len(table))
    return kind + header + word + table


def room_for(kind, steps, word_length):
    """More cells, or run places, than so many steps can use."""
    return 4 * (steps + 32 + word_length) if kind == PLAIN else steps + word_length + 2


def ask(program, kind, cases, steps, half, space=None):
    """The answers to the cases, one after another: a code each, or a block of records each."""
    sent = []
    for case in cases:
        room = room_for(kind, steps, len(case.word)) if space is None else space
        sent.append(case_bytes(kind, case, steps, half, room))
    answers = talk(program, b"".join(sent))
    each = 1 if kind == CHECK else records.in_block(steps) * records.size(half)
    if len(answers) != each * len(sent):
        raise Broken(f"the driver gave {len(answers)} bytes, {each * len(sent)} are due")
    return answers


def talk(program, sent):
    ran = subprocess.run([program], input=sent, capture_output=True)
    if ran.returncode != 0:
        raise Broken(f"the driver ended with status {ran.returncode}: {ran.stderr.decode(errors='replace').strip()}")
    return ran.stdout
