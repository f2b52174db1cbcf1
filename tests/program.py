#!/usr/bin/env python3
"""Runs the bench program on tests/program/NAME.in and compares what it prints with NAME.out, then tries the limits of its input.

    python3 tests/program.py

The program is crates/bench/out/bench, which `rt ci` builds, or `rt run` in crates/bench."""

import subprocess
import sys
import threading
from pathlib import Path

ROOT = Path(__file__).resolve().parent.parent
BENCH = ROOT / "crates" / "bench" / "out" / "bench"
LIMIT = 32768
END = b"S9030000FC"
EMPTY_IMAGE = b"S0030000FC\nS5030000FC\nS9030000FC\n"


def run(text, piece=None):
    """What the program prints for a text, handed over whole or in pieces through a pipe."""
    program = subprocess.Popen([BENCH], stdin=subprocess.PIPE, stdout=subprocess.PIPE)

    def feed():
        for at in range(0, len(text), piece or len(text) or 1):
            program.stdin.write(text[at : at + (piece or len(text))])
            program.stdin.flush()
        program.stdin.close()

    feeder = threading.Thread(target=feed)
    feeder.start()
    printed = program.stdout.read()
    feeder.join()
    return printed if program.wait() == 0 else b"exit status %d" % program.returncode


def limits():
    """Inputs at the limit: line ends up to the length, then a terminator."""
    full = b"\n" * (LIMIT - len(END)) + END
    yield "input of 32,768 bytes", run(full), EMPTY_IMAGE
    yield "the same in pieces of 100", run(full, 100), EMPTY_IMAGE
    yield "the same in pieces of 4,096", run(full, 4096), EMPTY_IMAGE
    yield "input of 32,769 bytes", run(b"\n" + full), b"too long\n"
    yield "the same in pieces of 1,000", run(b"\n" + full, 1000), b"too long\n"
    yield "longer input", run(b"\n" * LIMIT + full), b"too long\n"
    text, expected = longest()
    yield "the longest canonical text", run(text), expected


def record(kind, width, address, data):
    """A record of a type, with its line end."""
    fields = bytes([width + len(data) + 1]) + address.to_bytes(width, "big") + data
    return b"S%d%s\n" % (kind, (fields + bytes([255 - sum(fields) % 256])).hex().upper().encode())


def longest():
    """An input of LIMIT bytes whose canonical text is the longest: S1 records of one cell, or of two over a multiple of 16, that
    nowhere touch, and an entry that makes each of their rows an S3."""
    across = [(16 * row - 1, b"\1\2") for row in range(1, 512)]
    apart = [(16 * row + low, b"\3") for row in range(512) for low in (2, 4, 6, 8, 10, 12)][:1929]
    wider = [(at, b"\3\4") for at, _ in apart if at % 16 == 12][:6]
    apart = sorted({**dict(apart), **dict(wider)}.items())
    end = record(7, 4, 1 << 24, b"")
    text = b"".join(record(1, 2, at, data) for at, data in across + apart) + end[:-1]
    rows = sorted([(at + i, data[i : i + 1]) for at, data in across for i in (0, 1)] + apart)
    written = b"".join(record(3, 4, at, data) for at, data in rows)
    expected = record(0, 2, 0, b"") + written + record(5, 2, len(rows), b"") + end
    assert len(text) == LIMIT and len(expected) == 50216
    return text, expected


def cases():
    for given in sorted((ROOT / "tests" / "program").glob("*.in")):
        yield given.stem, run(given.read_bytes()), given.with_suffix(".out").read_bytes()
    yield from limits()


def compare(cases):
    """Says of which cases something else is printed than expected, and how many passed; the exit status."""
    passed = failed = 0
    for name, printed, expected in cases:
        if printed == expected:
            passed += 1
        else:
            failed += 1
            print(f"{name}: printed {printed[:2000]!r}, expected {expected[:2000]!r}")
    print(f"{passed} passed, {failed} failed")
    return 1 if failed else 0


if __name__ == "__main__":
    sys.exit(compare(cases()))
