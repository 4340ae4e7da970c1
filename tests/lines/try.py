#!/usr/bin/env python3
"""Tries tm_line_read and tm_line_write of the library against second.py and against the sentences of Paper 1.

    python3 try.py [--length N] [--count N] [--seed S] [--program PATH]

Prints one line for each part. Status 1 on any difference.
"""
import argparse
import pathlib
import subprocess
import sys

import driver
import parts

LONGEST = 40  # driver.c has room for prefixes of so many bytes


def options():
    given = argparse.ArgumentParser()
    given.add_argument("--length", type=int, default=8, help="the longest prefix of part a")
    given.add_argument("--count", type=int, default=20_000, help="random cases of each of the parts b, c and d")
    given.add_argument("--seed", type=int, default=1, help="other random cases")
    given.add_argument("--program", type=pathlib.Path, help="a driver that is built already")
    return given.parse_args()


def program_of(given):
    """The driver to be tried; ends the run where there is none."""
    if given.program is not None:
        return given.program.resolve()
    if driver.compiler() is None:
        print("NOT RUN, there is no C compiler (CC)")
        sys.exit(0)
    if not driver.LIBRARY.exists():
        print(f"NOT RUN, there is no {driver.LIBRARY.relative_to(driver.TOP)}: `rt lib` in crates/capi makes it")
        sys.exit(1)
    try:
        return driver.build()
    except subprocess.CalledProcessError:
        print("NOT RUN, the driver cannot be built over the library")
        sys.exit(1)


def main():
    given = options()
    if not 0 <= given.length <= LONGEST:
        sys.exit(f"--length is 0 to {LONGEST}")
    program = program_of(given)
    different = 0
    for part in parts.all_parts(given.length, given.count, given.seed):
        report = parts.try_part(part, program)
        for text in report.shown:
            print(text)
        print(f"{report.name}: {report.text}: {report.different} different", flush=True)
        different += report.different
    sys.exit(1 if different else 0)


if __name__ == "__main__":
    main()
