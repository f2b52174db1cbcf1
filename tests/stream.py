#!/usr/bin/env python3
"""Runs the stream program on the texts of tests/program, and on long ones, that are cut inside of records and line ends, that arrive
slowly, or that have as many characters as a load in parts takes and one more.

    python3 tests/stream.py

The program is crates/stream/out/stream, which `rt ci` builds, or `rt run` in crates/stream."""

import random
import subprocess
import sys
import threading
import time
from itertools import chain, repeat

from program import EMPTY_IMAGE, END, ROOT, compare, record

STREAM = ROOT / "crates" / "stream" / "out" / "stream"
PART = 65536
CELLS = 65536
MOST = 2**32 - 1
MIB = 2**20
# Its cell is outside of the bench program's window, and inside of this one's.
WIDER = {"outside": b"S0030000FC\nS1042000AA31\nS5030001FB\nS9030000FC\n"}


def run(*pieces, pause=0):
    """What the program prints for a text that arrives in pieces through a pipe. After a refusal it may leave the rest unread."""
    program = subprocess.Popen([STREAM], stdin=subprocess.PIPE, stdout=subprocess.PIPE)

    def feed():
        try:
            for piece in chain(*pieces):
                program.stdin.write(piece)
                program.stdin.flush()
                time.sleep(pause)
            program.stdin.close()
        except BrokenPipeError:
            pass

    feeder = threading.Thread(target=feed)
    feeder.start()
    printed = program.stdout.read()
    feeder.join()
    return printed if program.wait() == 0 else b"exit status %d" % program.returncode


def pieces(text, size):
    return [text[at : at + size] for at in range(0, len(text), size)]


def refused(row, number, place):
    return b"refused %d record %d at %d\n" % (row, number, place)


def canonical(header, cells, entry):
    """The canonical text of cells, a dictionary of the bytes at their addresses."""
    top = max([entry, *cells])
    width = 2 if top < 1 << 16 else 3 if top < 1 << 24 else 4
    rows = []
    for at in sorted(cells):
        if rows and at == rows[-1][0] + len(rows[-1][1]) and at % 16:
            rows[-1][1].append(cells[at])
        else:
            rows.append((at, bytearray([cells[at]])))
    written = b"".join(record(width - 1, width, at, data) for at, data in rows)
    return record(0, 2, 0, header) + written + record(5, 2, len(rows), b"") + record(11 - width, width, entry, b"")


def long_text(seed):
    """Every cell in a record of its own, in random order, with line ends of all kinds between; its records and its cells."""
    draw = random.Random(seed)
    cells = {at: draw.randrange(256) for at in range(CELLS)}
    order = draw.sample(range(CELLS), CELLS)
    ends = [b"\n", b"\r", b"\r\n", b"\r\n\r\n", b"\n" * 50]
    records = [record(3, 4, at, bytes([cells[at]]))[:-1] + draw.choice(ends) for at in order]
    return records, cells


def cut():
    """Records and line ends that lie across the end of a part, at every place; texts that end where a part ends, or beside it."""
    line, end = b"S107FFFC01020304F3", b"\r\n"
    expected = canonical(b"", {0xFFFC + i: i + 1 for i in range(4)}, 0)
    for before in range(len(line + end) + 1):
        text = b"\n" * (PART - before) + line + end + END
        yield f"{before} characters of a record before the end of a part", run([text]), expected
    for length in [PART - 1, PART, PART + 1, 2 * PART, 2 * PART + 1]:
        text = (line + end).ljust(length - len(END), b"\n") + END
        yield f"a text of {length} characters", run([text]), expected
        yield f"{length} characters without a terminator", run([text[: -len(END)] + b"\n" * len(END)]), refused(14, 1, length)


def long():
    """Texts of several MiB."""
    records, cells = long_text(1)
    text = b"".join(records)
    expected = canonical(b"", cells, 0)
    yield "a text of several MiB", run([text + END]), expected
    yield "the same in pieces of 1,000", run(pieces(text + END, 1000)), expected
    yield "the same behind 3 MiB of line ends", run([b"\r\n" * (3 * MIB // 2), text, END]), expected
    yield "a cell twice, behind all others", run([text + records[5] + END]), refused(13, CELLS + 1, len(text))
    wrong = b"S9030000FD"
    yield "a wrong checksum at the end", run([text + wrong]), refused(7, CELLS + 1, len(text))[:-1] + b" want FC\n"
    yield "one line of 3 MiB", run([b"S3" + b"0" * (3 * MIB)]), refused(3, 1, 0)
    yield "the same behind other records", run([text, b"S3" + b"0" * (3 * MIB), b"\n", END]), refused(3, CELLS + 1, len(text))


def longest():
    """The longest canonical text: in each row of 16 cells eight records, the last of two cells, in an S3 as the entry asks."""
    cells = {row + at: at for row in range(0, CELLS, 16) for at in [0, 2, 4, 6, 8, 10, 12, 14, 15]}
    header = bytes(range(252))
    text = record(0, 2, 0, header) + b"".join(record(1, 2, at, bytes([cells[at]])) for at in cells) + record(7, 4, 1 << 24, b"")
    expected = canonical(header, cells, 1 << 24)
    assert len(expected) == 565789
    yield "the longest canonical text", run([text]), expected


def slow():
    """Texts that arrive in small pieces, with pauses, and one that does not end."""
    text = record(1, 2, 0x1234, b"\1\2\3").replace(b"\n", b"\r\n") + END
    expected = canonical(b"", {0x1234: 1, 0x1235: 2, 0x1236: 3}, 0)
    yield "single characters with pauses", run(pieces(text, 1), pause=0.01), expected
    long = b"\r\n" * PART + text
    yield "pieces of 10,000 with pauses", run(pieces(long, 10000), pause=0.01), expected
    yield "a refused text that does not end", run([b"X\n"], repeat(b"\n" * PART)), refused(4, 1, 0)


def most():
    """As many characters as a load in parts takes, and one more."""
    ends = repeat(b"\n" * MIB, MOST // MIB)
    rest = b"\n" * (MOST % MIB - len(END)) + END
    yield "4,294,967,295 characters", run(ends, [rest]), EMPTY_IMAGE
    yield "4,294,967,296 characters", run(repeat(b"0" * MIB, 4096)), refused(20, 0, MOST + 1 - PART)


def cases():
    for given in sorted((ROOT / "tests" / "program").glob("*.in")):
        yield given.stem, run([given.read_bytes()]), WIDER.get(given.stem, given.with_suffix(".out").read_bytes())
    for some in [cut, long, longest, slow, most]:
        yield from some()


if __name__ == "__main__":
    sys.exit(compare(cases()))
