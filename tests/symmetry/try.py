#!/usr/bin/env python3
"""Tries Paper 10's mirrors and renamings on both engines of the library, and against second.py.

    python3 try.py [--steps N] [--count N] [--seed S] [--program PATH]

Prints one line for each part. Status 1 on any difference.
"""
import argparse
import pathlib
import subprocess
import sys

import driver
import parts

FEWEST, MOST = 10, 100  # steps; a record has no place for more


def options():
    given = argparse.ArgumentParser()
    given.add_argument("--steps", type=int, default=12, help="the steps of the parts a and b")
    given.add_argument("--count", type=int, default=400, help="random tables of part c")
    given.add_argument("--seed", type=int, default=1, help="other random tables")
    given.add_argument("--program", type=pathlib.Path, help="a driver that is built already")
    return given


def program_of(given):
    """The driver to be tried; ends the run where there is none."""
    if given.program is not None:
        return given.program.resolve()
    if driver.compiler() is None:
        print("NOT RUN, there is no C compiler (CC)")
        sys.exit(0)
    if not driver.LIBRARY.exists():
        print(f"NOT RUN, there is no {driver.LIBRARY.relative_to(driver.TOP)}: `rt lib` in crates/capi makes it")
        sys.exit(1)
    try:
        return driver.build()
    except subprocess.CalledProcessError:
        print("NOT RUN, the driver cannot be built over the library")
        sys.exit(1)


def main():
    given = options().parse_args()
    if not FEWEST <= given.steps <= MOST:
        sys.exit(f"--steps is {FEWEST} to {MOST}")
    program = program_of(given)
    different = 0
    for name in parts.PARTS:
        report = parts.try_part(name, program, given)
        for text in report.shown:
            print(text)
        print(report.text(), flush=True)
        different += sum(report.different.values())
    sys.exit(1 if different else 0)


if __name__ == "__main__":
    main()
