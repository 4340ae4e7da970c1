#!/usr/bin/env python3
"""Puts faults into stand_in.c, one at a time: try.py's cases must find every one, and must pass without a fault.

    python3 mutants.py [--length N] [--count N] [--seed S] [--only NAME]
"""
import argparse
import re
import sys

import driver
import parts

LISTED = re.compile(r"^    ([A-Z][A-Z_0-9]*),? /\* (.*) \*/$", re.MULTILINE)


def faults():
    """The names of the faults and what they are, from the list in stand_in.c; the first is none."""
    return LISTED.findall((driver.HERE / "stand_in.c").read_text())


def build_driver():
    """The driver's object and what it is linked with. Without the library it has no engine."""
    driver.BUILT.mkdir(parents=True, exist_ok=True)
    built = driver.BUILT / "driver.o"
    has_library = driver.LIBRARY.exists()
    without = [] if has_library else ["-DNO_ENGINE"]
    driver.compile_c(["-include", driver.HERE / "stand_in.h", *without, "-c", driver.HERE / "driver.c", "-o", built])
    return [built, driver.LIBRARY] if has_library else [built]


def build(fault, linked):
    """A driver over the stand-in with a fault."""
    program = driver.BUILT / "stand_in"
    stand_in = driver.HERE / "stand_in.c"
    driver.compile_c(["-include", driver.HERE / "stand_in.h", f"-DFAULT={fault}", stand_in, *linked, "-o", program])
    return program


def found_by(tried, program):
    """The report of the first part that differs, or None."""
    for part in tried:
        report = parts.try_part(part, program)
        if report.different:
            return report
    return None


def main():
    options = argparse.ArgumentParser()
    options.add_argument("--length", type=int, default=8)
    options.add_argument("--count", type=int, default=20_000)
    options.add_argument("--seed", type=int, default=1)
    options.add_argument("--only", help="one fault by its name")
    given = options.parse_args()
    if driver.compiler() is None:
        print("NOT RUN, there is no C compiler (CC)")
        return
    tried, linked, wrong = parts.all_parts(given.length, given.count, given.seed), build_driver(), 0
    for name, what in faults():
        if given.only not in (None, name):
            continue
        report = found_by(tried, build(name, linked))
        wrong += (report is None) != (name == "NONE")
        found = "NOT FOUND" if report is None else f"found by part {report.name}, {report.different} different"
        print(f"{what}: {found}", flush=True)
        if report is not None and given.only:
            print("\n".join(report.shown))
    print(f"{wrong} wrong: each fault must be found, and nothing where there is none")
    sys.exit(1 if wrong else 0)


if __name__ == "__main__":
    main()
