#!/usr/bin/env python3
"""Compares the definitions in crates/*/specs with the oracle in tests/second, on generated texts, windows and images.

    python3 tests/definitions.py [SEED]

A throw-away crate, begun in tests/definitions, has a statement for each case: a load, a write, or looks and a merge, as
defined, give what the oracle says. Each is proved by computing alone, so the checker refuses exactly the statements of the
cases where the two differ.
"""

import json
import os
import re
import shutil
import subprocess
import sys
import tempfile
from collections import Counter
from pathlib import Path

ROOT = Path(__file__).resolve().parent.parent
BEGUN = ROOT / "tests" / "definitions"
CRATES = ("lists", "hex_digits", "window", "text", "srec", "tape", "parts", "overlay")
# the sides that the oracle draws cases of, each with the format whose definitions it is held to; images have none
SIDES = {
    "load": "srec",
    "load-parts": "srec",
    "write": "srec",
    "load-tape": "(tape Repeat)",
    "write-tape": "(tape Repeat)",
    "load-tape-sum": "(tape Sum)",
    "write-tape-sum": "(tape Sum)",
    "overlay": None,
}
# of so many drawn cases of a side, so many of each refusal and of the accepted ones: some refusals are rarely drawn
DRAWN, REFUSED, ACCEPTED = 3000, 30, 100
# what an output holds before a write: no character of a text
UNWRITTEN = 170
SHOWN = 5

STATEMENT = """
pub {name} : T (agrees ({case}))
unfolding agrees
{name} = tt
"""


class Stopped(Exception):
    """No case could be compared."""


def run(command, folder, **environment):
    try:
        return subprocess.run(
            command, cwd=folder, env={**environment, **os.environ}, capture_output=True, encoding="utf-8"
        )
    except OSError as error:
        raise Stopped(f"{command[0]}: {error}") from error


def oracle(side, seed):
    """Cases of one side with the oracle's answers, by names with their numbers."""
    cargo = "cargo run --release --offline --quiet --manifest-path tests/second/Cargo.toml --bin cases --".split()
    ran = run([*cargo, side, seed, str(DRAWN)], ROOT, CARGO_TARGET_DIR=str(ROOT / "target" / "second"))
    lines = ran.stdout.splitlines()
    if ran.returncode != 0 or len(lines) != DRAWN:
        raise Stopped(f"the oracle gives no {side} cases\n{ran.stderr}")
    cases, taken = {}, Counter()
    for index, case in enumerate(map(json.loads, lines)):
        row = case["number"]
        if taken[row] < (REFUSED if row else ACCEPTED):
            taken[row] += 1
            cases[f"{side}-{index}"] = case
    return cases


def numbers(values, rest="[]"):
    return "(" + " ∷ ".join([*map(str, values), rest]) + ")"


def filled(values, size, filler):
    """These values, and the filler up to a size."""
    return numbers(values, f"replicate {size - len(values)} {filler}")


def record(**fields):
    return "(record { " + "; ".join(f"{name} = {value}" for name, value in fields.items()) + " })"


def window(case):
    return record(base=case["base"], memory=numbers(case["memory"]), marks=numbers(case["marks"]))


def entry(case):
    return "None" if case["entry"] is None else f"(Some {case['entry']})"


def refusal(case):
    return record(reason=case["number"], ordinal=case["record"], place=case["place"], want=case["want"])


def answered(case, **counts):
    """The answer of a load or a merge, and memory and marks afterwards."""
    header = record(len=len(case["header"]), bytes=filled(case["header"], 252, 0))
    answer = record(refusal=refusal(case), header=header, entry=entry(case), **counts)
    return answer, numbers(case["memory_after"]), numbers(case["marks_after"])


def loaded(case):
    return answered(case, records=case["records"], cells=case["cells"])


def load_case(format, case):
    return " ".join(["loads", format, window(case), numbers(case["text"]), *loaded(case)])


def parts_case(_, case):
    return " ".join(["arrives", window(case), numbers(map(numbers, case["parts"])), *loaded(case)])


def write_case(format, case):
    text, room = case["text_out"], case["room"]
    answer = record(refusal=refusal(case), length=len(text))
    before, after = filled([], room, UNWRITTEN), filled(text, room, UNWRITTEN)
    return " ".join(["writes", format, window(case), numbers(case["header"]), entry(case), before, answer, after])


def lent(image):
    memory, marks, header = [numbers(image[name]) for name in ("memory", "marks", "header")]
    return f"(lent {memory} {marks} {header} {entry(image)})"


def look(seen):
    """What an address shows."""
    source = f"(Refused {refusal(seen)})" if seen["word"] == "Refused" else seen["word"]
    return record(address=seen["address"], source=source, part=numbers(seen["part"]))


def overlay_case(_, case):
    images, looks = [lent(case["base"]), lent(case["patch"])], numbers(map(look, case["looks"]))
    return " ".join(["overlays", str(case["start"]), *images, looks, *answered(case)])


def statement(name, case):
    side = name.rpartition("-")[0]
    own = {"load-parts": parts_case, "overlay": overlay_case}
    made = own.get(side, load_case if side.startswith("load") else write_case)
    return STATEMENT.format(name=name, case=made(SIDES[side], case))


def unfoldable():
    """The whole names of the definitions that compute only where they are asked to."""
    for crate in CRATES:
        for file in sorted((ROOT / "crates" / crate / "specs").glob("*.antt")):
            for name in re.findall(r"^unfoldable pub (\S+)", file.read_text(encoding="utf-8"), re.MULTILINE):
                yield f"Rattle.{crate}.specs.{file.stem}.{name}"


def below(crates, listed):
    """These crates and all that they are listed to need; a library of the kit is not listed itself."""
    found, left = set(), list(crates)
    while left:
        crate = left.pop()
        if crate in listed and crate not in found:
            found.add(crate)
            left += listed[crate].split()
    return found


def write_crates(folder, cases):
    """A repository of the crates with the definitions, those below them, and the crate `sense` with the statements."""
    listed = dict(line.partition(":")[::2] for line in (ROOT / "crates.txt").read_text().splitlines() if ":" in line)
    own = below(CRATES, listed)
    lines = [f"{crate}:{listed[crate]}" for crate in listed if crate in own]
    (folder / "crates.txt").write_text("\n".join([*lines, f"sense: {' '.join(CRATES)}", ""]))
    # with out/rlib a crate that is proved already is not proved again
    for crate in own:
        for part in ("src", "specs", "proofs", "out/rlib"):
            if (ROOT / "crates" / crate / part).is_dir():
                shutil.copytree(ROOT / "crates" / crate / part, folder / "crates" / crate / part)

    statements = [statement(name, case) for name, case in cases.items()]
    comparison, head = [(BEGUN / f"{name}.txt").read_text(encoding="utf-8") for name in ("Comparison", "Statements")]
    files = {
        "src/lib.rt": "// No function: the statements are in specs.\n",
        "specs/Lib.antt": "pub mod Comparison\npub mod Statements\n",
        "specs/Comparison.antt": comparison.replace("{unfoldable}", " ".join(unfoldable())),
        "specs/Statements.antt": head + "".join(statements),
    }
    for name, text in files.items():
        file = folder / "crates" / "sense" / name
        file.parent.mkdir(parents=True, exist_ok=True)
        file.write_text(text, encoding="utf-8")


def refused(cases):
    """The names of the cases whose statements the checker refuses."""
    with tempfile.TemporaryDirectory() as name:
        folder = Path(name)
        write_crates(folder, cases)
        ran = run(["rt", "check"], folder / "crates" / "sense")
    if ran.returncode == 0:
        return []
    said = ran.stdout + ran.stderr
    errors = re.findall(r"error: (.*)", said)
    names = [error.split("`")[1] for error in errors if re.match(rf"`({'|'.join(SIDES)})-\d+`:", error)]
    # any other error can hide statements that were not computed
    if not names or len(names) != len(errors):
        raise Stopped(f"the checker did not come to compute the cases\n{said}")
    return names


def shown(name, value):
    if isinstance(value, dict):
        return {field: shown(field, inner) for field, inner in value.items()}
    if not isinstance(value, list):
        return value
    if name == "parts":
        return [bytes(part) for part in value]
    if name == "looks":
        return [shown(name, look) for look in value]
    return bytes(value) if name.startswith("text") else bytes(value).hex(" ")


def main():
    seed = sys.argv[1] if len(sys.argv) > 1 else "1"
    try:
        cases = {name: case for side in SIDES for name, case in oracle(side, seed).items()}
        wrong = refused(cases)
    except Stopped as reason:
        print(f"definitions: {reason}")
        print("0 passed, 1 failed")
        return 1
    for name in wrong[:SHOWN]:
        print(f"{name} of seed {seed} differs; its arguments, and what the oracle says:")
        for field, value in cases[name].items():
            print(f"    {field}: {shown(field, value)}")
    if len(wrong) > SHOWN:
        print("also:", *wrong[SHOWN:])
    agreeing = len(cases) - len(wrong)
    print(f"definitions: {agreeing} cases agree")
    print(f"{agreeing} passed, {len(wrong)} failed")
    return 1 if wrong else 0


if __name__ == "__main__":
    sys.exit(main())
