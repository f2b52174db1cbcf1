#!/usr/bin/env python3
"""Runs the board program in temporary folders: deals files over chips and collects them again, and tries what it refuses, files that it
cannot read or write, and wrong arguments.

    python3 tests/board.py

The program is crates/board/out/board, which `rt ci` builds, or `rt run` in crates/board."""

import random
import subprocess
import sys
import tempfile
from pathlib import Path

from program import EMPTY_IMAGE, END, ROOT, compare, record
from stream import CELLS, canonical, refused

BOARD = ROOT / "crates" / "board" / "out" / "board"
LIMIT = 262144
USAGE = b"usage: board deal|collect K IN OUT\n"

# A file with a header and an entry, and, worked by hand, the text of its cells and the texts of two and of four chips.
SMALL = b"S00800006465616C74ED\nS10E0000101112131415161718191A0A\nS1050020A0A199\nS104FFFFEE0F\nS5030003F9\nS9030004F8\n"
WHOLE = b"S0030000FC\nS10E0000101112131415161718191A0A\nS1050020A0A199\nS104FFFFEE0F\nS5030003F9\nS9030000FC\n"
CHIPS = {
    2: [
        b"S0030000FC\nS109000010121416181A78\nS1040010A04B\nS5030002FA\nS9030000FC\n",
        b"S0030000FC\nS108000011131517198E\nS1040010A14A\nS1047FFFEE8F\nS5030003F9\nS9030000FC\n",
    ],
    4: [
        b"S0030000FC\nS1060000101418BD\nS1040008A053\nS5030002FA\nS9030000FC\n",
        b"S0030000FC\nS1060000111519BA\nS1040008A152\nS5030002FA\nS9030000FC\n",
        b"S0030000FC\nS106000012161AB7\nS5030001FB\nS9030000FC\n",
        b"S0030000FC\nS10500001317D0\nS1043FFFEECF\nS5030002FA\nS9030000FC\n",
    ],
}


def shown(printed, files):
    """What was printed, and the files of a folder with their contents."""
    return printed + b"".join(b"file %s\n%s" % (name.encode(), files[name]) for name in sorted(files))


def run(files, commands):
    """What commands print in a new folder with these files, and the files that are there behind them."""
    with tempfile.TemporaryDirectory() as folder:
        for name, text in files.items():
            (Path(folder) / name).write_bytes(text)
        printed = b""
        for words in commands:
            done = subprocess.run([BOARD, *words], cwd=folder, stdout=subprocess.PIPE)
            printed += done.stdout if done.returncode == 0 else b"exit status %d" % done.returncode
        return shown(printed, {path.name: path.read_bytes() for path in Path(folder).iterdir()})


def case(name, files, commands, printed, written={}):
    """A case: commands on files, what they print, and the files that they write."""
    return name, run(files, commands), shown(printed, {**files, **written})


def named(name, texts):
    """The files of chips."""
    return {f"{name}.{number}": text for number, text in enumerate(texts)}


def chips_of(cells, k):
    """The texts of k chips of cells."""
    shares = [{at // k: byte for at, byte in cells.items() if at % k == number} for number in range(k)]
    return [canonical(b"", share, 0) for share in shares]


def images():
    """Cells by their addresses: none, one at either end, some, and all."""
    draw = random.Random(12)
    yield "no cells", {}
    yield "the first cell", {0: 1}
    yield "the last cell", {CELLS - 1: 255}
    yield "few cells", {at: draw.randrange(256) for at in draw.sample(range(CELLS), 999)}
    yield "half of the cells of few rows", {at: draw.randrange(256) for at in range(2048) if draw.randrange(2)}
    yield "every cell", {at: draw.randrange(256) for at in range(CELLS)}


def round_trips():
    """Deals and collects: the chips are the cells' own, and the whole is the text of the cells."""
    for k, texts in CHIPS.items():
        both = ["deal", str(k), "in", "chip"], ["collect", str(k), "chip", "out"]
        yield case(f"the small file over {k} chips", {"in": SMALL}, both, b"", {**named("chip", texts), "out": WHOLE})
        for name, cells in images():
            written = {**named("chip", chips_of(cells, k)), "out": canonical(b"", cells, 0)}
            yield case(f"{name} over {k} chips", {"in": canonical(b"any", cells, 9)}, both, b"", written)


def longest():
    """The longest text of a whole: in each row the first cell and the odd ones."""
    cells = {at: at % 251 for at in range(CELLS) if at % 2 or at % 16 == 0}
    text = canonical(b"", cells, 0)
    assert len(text) == 4096 * 106 + 33
    for k in (2, 4):
        files = named("chip", chips_of(cells, k))
        yield case(f"the longest text from {k} chips", files, [["collect", str(k), "chip", "out"]], b"", {"out": text})


def limits():
    """Files of as many characters as are read, and of one more."""
    full = b"\n" * (LIMIT - len(END)) + END
    deal = [["deal", "2", "in", "chip"]]
    yield case("a file of 262,144 bytes", {"in": full}, deal, b"", named("chip", [EMPTY_IMAGE] * 2))
    yield case("a file of 262,145 bytes", {"in": b"\n" + full}, deal, b"too long\n")
    collect = [["collect", "2", "chip", "out"]]
    yield case("a chip of 262,144 bytes", named("chip", [END, full]), collect, b"", {"out": EMPTY_IMAGE})
    yield case("a chip of 262,145 bytes", named("chip", [END, b"\n" + full]), collect, b"too long\n")


def refusals():
    """What a call refuses: its line is printed, and files that were there stay as they were."""
    deal = [["deal", "2", "in", "chip"]]
    old = {"chip.0": b"old", "out": b"old"}
    wrong = b"refused 7 record 1 at 0 want FC\n"
    yield case("a bad checksum", {"in": b"S9030000FD\n", **old}, deal, wrong)
    yield case("a cell behind the window", {"in": record(2, 3, CELLS, b"\1") + END}, deal, refused(12, 1, 0))
    for k in "01356789":
        yield case(f"a deal over {k} chips", {"in": SMALL, **old}, [["deal", k, "in", "chip"]], refused(21, 0, 0))
        files = {**named("chip", [END] * 9), "out": b"old"}
        yield case(f"{k} chips to collect", files, [["collect", k, "chip", "out"]], refused(21, 0, 0))
    for k in (2, 4):
        collect = [["collect", str(k), "chip", "out"]]
        for number in range(k):
            texts = [END] * k
            texts[number] = record(1, 2, CELLS // k, b"\1") + END
            yield case(f"a cell outside of chip {number} of {k}", named("chip", texts), collect, refused(12, 1, 0))
            texts[number] = b"S9030000FD\n"
            yield case(f"a bad checksum in chip {number} of {k}", named("chip", texts), collect, wrong)


def files():
    """Files that cannot be read or written."""
    yield case("a missing file", {}, [["deal", "2", "in", "chip"]], b"cannot read in\n")
    yield case("a folder as a file", {}, [["deal", "2", ".", "chip"]], b"cannot read .\n")
    for number in range(4):
        chips = named("chip", [END] * 4)
        del chips[f"chip.{number}"]
        yield case(f"no chip {number}", chips, [["collect", "4", "chip", "out"]], b"cannot read chip.%d\n" % number)
    yield case("no folder for chips", {"in": SMALL}, [["deal", "2", "in", "no/chip"]], b"cannot write no/chip.0\n")
    chips = named("chip", CHIPS[2])
    yield case("no folder for the whole", chips, [["collect", "2", "chip", "no/out"]], b"cannot write no/out\n")
    yield case("a full device", chips, [["collect", "2", "chip", "/dev/full"]], b"cannot write /dev/full\n")


def arguments():
    """Wrong arguments."""
    for words in (
        [],
        ["deal"],
        ["deal", "2", "in"],
        ["deal", "2", "in", "chip", "more"],
        ["Deal", "2", "in", "chip"],
        ["dealt", "2", "in", "chip"],
        ["collected", "2", "in", "chip"],
        ["", "2", "in", "chip"],
        ["deal", "", "in", "chip"],
        ["deal", "02", "in", "chip"],
        ["deal", "k", "in", "chip"],
        ["deal", "/", "in", "chip"],
        ["deal", ":", "in", "chip"],
        ["deal", "2", "", "chip"],
        ["deal", "2", "in", ""],
        ["deal", "2", "in", "x" * 4094],
    ):
        yield case(f"arguments {words}"[:60], {"in": SMALL}, [words], USAGE)
    long = "./" * 2000 + "in"
    yield case("a long name", {}, [["deal", "2", long, "chip"]], b"cannot read %s\n" % long.encode())


def cases():
    for part in (round_trips, longest, limits, refusals, files, arguments):
        yield from part()


if __name__ == "__main__":
    sys.exit(compare(cases()))
