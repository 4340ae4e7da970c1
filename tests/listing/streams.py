#!/usr/bin/env python3
"""Runs `seekrun` and `listing_cases` on standard streams and files that fail, and compares what they write.

    python3 streams.py

Needs the two programs as `rt run`, in their crates, or `rt ci` builds them (crates/NAME/out/NAME), and neither cargo
nor the Rust's files. Status 1 on a difference. These programs end with status 0, whatever happened.
"""
import os
import pathlib
import subprocess
import sys
import tempfile
import threading
import time

TOP = pathlib.Path(__file__).resolve().parents[2]
SEEKRUN = TOP / "crates" / "seekrun" / "out" / "seekrun"
CASES = TOP / "crates" / "listing_cases" / "out" / "listing_cases"
LISTING = (TOP / "crates" / "seekrun" / "stdin").read_bytes()
ROWS = (TOP / "crates" / "seekrun" / "stdout").read_bytes()
NO_INPUT = b"seekrun: standard input cannot be read\n"
NO_OUTPUT = b"seekrun: standard output cannot be written\n"
SECONDS = 20


def ran(program, stdin, stdout=subprocess.PIPE, before=None, cwd=None):
    """Standard output (empty where it is not a pipe), standard error and the status."""
    done = subprocess.run([program], stdin=stdin, stdout=stdout, stderr=subprocess.PIPE, preexec_fn=before, cwd=cwd, timeout=SECONDS)
    return done.stdout or b"", done.stderr, done.returncode


def closed(descriptor):
    """Closes a descriptor in the program before it starts."""
    return lambda: os.close(descriptor)


def filled(write):
    """Fills a pipe that does not wait."""
    os.set_blocking(write, False)
    try:
        while True:
            os.write(write, b"x" * 4096)
    except BlockingIOError:
        pass


def directory_in():
    descriptor = os.open(TOP, os.O_RDONLY)
    return ran(SEEKRUN, descriptor)


def closed_in():
    return ran(SEEKRUN, None, before=closed(0))


def write_only_in():
    with open(os.devnull, "wb") as null:
        return ran(SEEKRUN, null)


def broken_in(size):
    """The first bytes of the listing, and then a read that fails: the pipe is empty, and does not wait."""
    read, write = os.pipe()
    os.write(write, LISTING[:size])
    os.set_blocking(read, False)
    done = ran(SEEKRUN, read)
    os.close(read)
    os.close(write)
    return done


def pieces_in():
    """The listing in pieces, with pauses: short reads are no failure, and no end."""
    read, write = os.pipe()

    def feed():
        for begin in range(0, len(LISTING), 37):
            os.write(write, LISTING[begin : begin + 37])
            time.sleep(0.01)
        os.close(write)

    feeder = threading.Thread(target=feed)
    feeder.start()
    # the program must not hold the end to write on
    done = ran(SEEKRUN, read)
    feeder.join()
    os.close(read)
    return done


def whole_in():
    with tempfile.TemporaryFile() as listing:
        listing.write(LISTING)
        listing.seek(0)
        return ran(SEEKRUN, listing)


def empty_in():
    return ran(SEEKRUN, subprocess.DEVNULL)


def with_output(stdout, before=None):
    with tempfile.TemporaryFile() as listing:
        listing.write(LISTING)
        listing.seek(0)
        return ran(SEEKRUN, listing, stdout=stdout, before=before)


def full_out():
    with open("/dev/full", "wb") as full:
        return with_output(full)


def closed_out():
    return with_output(None, before=closed(1))


def read_only_out():
    with open(os.devnull, "rb") as null:
        return with_output(null)


def waiting_out():
    """A pipe that is full and does not wait."""
    read, write = os.pipe()
    filled(write)
    done = with_output(write)
    os.close(read)
    os.close(write)
    return done


def cases_full():
    with open("/dev/full", "wb") as full:
        return ran(CASES, subprocess.DEVNULL, stdout=full, cwd=TOP / "crates" / "listing_cases" / "data")


def cases_unread(name):
    """A pair of which one file opens and cannot be read: a directory."""
    with tempfile.TemporaryDirectory() as folder:
        data = pathlib.Path(folder)
        for suffix, content in ((".in", b""), (".out", b"refused 1\n")):
            if name == "000" + suffix:
                (data / name).mkdir()
            else:
                (data / f"000{suffix}").write_bytes(content)
        return ran(CASES, subprocess.DEVNULL, cwd=data)


TESTS = [
    ("input: a whole listing", whole_in, (ROWS, b"", 0)),
    ("input: in pieces", pieces_in, (ROWS, b"", 0)),
    ("input: empty", empty_in, (b"refused 1\n", b"", 0)),
    ("input: a directory", directory_in, (b"", NO_INPUT, 0)),
    ("input: closed", closed_in, (b"", NO_INPUT, 0)),
    ("input: open for writing only", write_only_in, (b"", NO_INPUT, 0)),
    ("input: fails at once", lambda: broken_in(0), (b"", NO_INPUT, 0)),
    ("input: fails after half of the listing", lambda: broken_in(len(LISTING) // 2), (b"", NO_INPUT, 0)),
    ("input: fails after the whole listing", lambda: broken_in(len(LISTING)), (b"", NO_INPUT, 0)),
    ("output: a full device", full_out, (b"", NO_OUTPUT, 0)),
    ("output: closed", closed_out, (b"", NO_OUTPUT, 0)),
    ("output: open for reading only", read_only_out, (b"", NO_OUTPUT, 0)),
    ("output: a full pipe that does not wait", waiting_out, (b"", NO_OUTPUT, 0)),
    ("listing_cases: a full device", cases_full, (b"", b"listing_cases: standard output cannot be written\n", 0)),
    ("listing_cases: an input that cannot be read", lambda: cases_unread("000.in"), (b"0 differs\n1 cases, 1 differ\n", b"", 0)),
    ("listing_cases: an output that cannot be read", lambda: cases_unread("000.out"), (b"0 differs\n1 cases, 1 differ\n", b"", 0)),
]


def main():
    different = 0
    for name, test, wanted in TESTS:
        got = test()
        if got != wanted:
            different += 1
            print(f"DIFFERENT: {name}: must be {wanted}, is {got}")
    print(f"{len(TESTS)} streams, {different} different")
    sys.exit(1 if different else 0)


if __name__ == "__main__":
    main()
