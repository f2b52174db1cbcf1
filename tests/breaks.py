#!/usr/bin/env python3
"""Breaks things on purpose, once for each tests/breaks/KIND/NAME.edit, and sees that the tests notice.

    python3 tests/breaks.py [NAME...]     a NAME is an edit's, or a KIND, for all edits of it and for none

An edit of kind 'library' breaks a library: tests/second under the face of include/srec.h (breaks/library/face.rs and
whole.rs), so no archive and no prover is needed. tests/compare must notice, or tests/c where that does not. An edit of kind
'answers' breaks tests/second itself in what the row alone does not show; tests/compare must notice that by way of the program
vectors, which `rt ci` builds (and `make` the archive that tests/compare links). An edit of kind 'parts' breaks it
in loads in parts, and tests/compare must notice that by way of the program calls. An edit of kind 'overlay' breaks it in
patches over a base image; tests/compare must notice that by way of the program patches, and so must the oracle's own tests,
and its test of the cases of crates/patches. An edit of kind 'packed' breaks it in packed marks; tests/compare must notice
that by way of one of the three programs, and so must the oracle's own tests, and its tests of the cases of one of the three.
An edit of kind 'errors' breaks it in how it takes single errors; there it stands in for the program vectors, and
tests/compare must notice. An edit of kind 'chips' breaks it in images over chips; tests/compare must notice that by way of
the program deals, and so must the oracle's own tests, and its test of the cases of crates/deals. An edit of kind 'symbols'
breaks it in symbol blocks, address expressions and patch sheets; tests/compare must notice that by way of the program
symbolic, and so must the oracle's own tests, and its test of the cases of crates/symbolic. An edit of kind 'face' breaks it
in spans, origins and rooms; tests/compare must notice that by way of the archive, and so must the oracle's own tests. An edit
of kind 'calls' breaks the crates themselves; the program calls is compiled with it, without a proof, and the cases of
crates/calls must notice. An edit of kind 'patches' does so with the program patches; the cases of crates/patches must notice,
and so must the first cases that tests/compare draws, by the oracle's answers: `rt try` leaves no program that tests/compare
itself could run. An edit names a file and replaces text that stands there exactly once, or several such texts in turn. With
no edit nothing may be noticed. SREC_LIB_DIR, VECTORS, CALLS, PATCHES, DEALS and SYMBOLIC name another folder of the archive
and other programs. One line an edit; the last line is 'N passed, M failed'."""

import functools
import json
import os
import re
import shutil
import subprocess
import sys
import tempfile
from pathlib import Path

TESTS = Path(__file__).resolve().parent
BREAKS = TESTS / "breaks"
TARGET = TESTS.parent / "target"
READING = TESTS / "second" / "src"
# what tests/compare takes if nothing else is named
PROGRAMS = ("VECTORS", "CALLS", "PATCHES", "DEALS", "SYMBOLIC")
CRATES = TESTS.parent / "crates"
BUILT = {name: CRATES / name.lower() / "out" / name.lower() for name in PROGRAMS} | {"SREC_LIB_DIR": TARGET}
READ = ("chips", "expressions", "overlay", "parts", "reading", "sheets", "spans", "symbols", "tape")
FACE = (BREAKS / "library" / "face.rs", BREAKS / "library" / "whole.rs", TESTS.parent / "include" / "srec.h")
SOURCES = [*(READING / f"{name}.rs" for name in READ), *FACE]
# fewer than in the usual runs: what is wrong is noticed soon
SEED, CASES = "1", "20000"
# a case of errors is a text for each digit
TEXTS = "100"
STRESS = {"STRESS_CASES": "500"}
# the program patches reads so many characters at most, so that its drawn cases are several inputs
INPUT, FIRST = 65536, "2000"


def read_edit(path):
    """The file that an edit names, and the texts to replace, each with what comes in its place."""
    lines = path.read_text(encoding="utf-8").splitlines()
    keys = ["file: ", *["old: ", "new: "] * max(len(lines) // 2, 1)]
    if len(lines) != len(keys) or not all(line.startswith(key) for line, key in zip(lines, keys)):
        sys.exit(f"{path}: not a line 'file: ' and pairs of lines 'old: ' and 'new: '")
    name, *texts = [line[len(key) :] for line, key in zip(lines, keys)]
    return name, list(zip(texts[::2], texts[1::2]))


def apply(edit, folder):
    """Carries out an edit on the file of a folder that it names."""
    name, pairs = read_edit(edit)
    text = (folder / name).read_text(encoding="utf-8")
    for old, new in pairs:
        if text.count(old) != 1:
            sys.exit(f"{edit}: its old text '{old}' stands in {name} {text.count(old)} times")
        text = text.replace(old, new)
    (folder / name).write_text(text, encoding="utf-8")


def failures(command, places):
    """The titles of the checks that fail, or the last line if the run breaks off."""
    ran = subprocess.run(command, env={**os.environ, **STRESS, **places}, stdout=subprocess.PIPE, stderr=subprocess.STDOUT)
    printed = ran.stdout.decode("utf-8", "replace")
    found = re.findall(r"^FAIL  (.*?)(?:: | \(exit status|$)", printed, re.MULTILINE)
    if ran.returncode and not found:
        found = printed.strip().splitlines()[-1:]
    return found


def cargo(package, test, *arguments):
    manifest = str(package / "Cargo.toml")
    return ["cargo", "test", "--release", "--offline", "--quiet", "--manifest-path", manifest, "--test", test, *arguments]


def drawn(package, test):
    return cargo(package, test, "--", SEED, TEXTS if test == "errors" else CASES)


def library(edit, folder):
    """Builds libsrec.a and srec.h, edited, and gives which checks of which test notice."""
    for source in SOURCES:
        shutil.copy(source, folder)
    if edit:
        apply(edit, folder)
    command = "rustc --edition 2021 -O -A warnings --crate-name srec --crate-type staticlib face.rs -o libsrec.a"
    subprocess.run(command.split(), cwd=folder, check=True)
    # the second reading makes a text to measure it, so it cannot take every length, nor every state
    places = {"SREC_LIB_DIR": str(folder), "SREC_INCLUDE_DIR": str(folder), "SREC_STAND_IN": "1"}
    compared = ((name, drawn(TESTS / "compare", name)) for name in ("compare", "face"))
    for name, command in (*compared, ("c", ["sh", str(TESTS / "c" / "run.sh")])):
        found = failures(command, places)
        if found:
            return f"{name}: " + "; ".join(found)
    return None


def second(edit, folder, *groups, stands_in=None):
    """Edits a copy of tests/second and gives which tests notice. A group has a package and tests of it, one of which must. The
    copy may stand in for a program over the library."""
    tests = folder / "tests"
    for name in ("second", "compare"):
        shutil.copytree(TESTS / name, tests / name, ignore=shutil.ignore_patterns("target"))
    if edit:
        apply(edit, tests / "second" / "src")
    built = {name: os.environ.get(name, str(path)) for name, path in BUILT.items()}
    places = {**built, "CARGO_TARGET_DIR": str(folder / "target"), "RUSTFLAGS": "-A warnings"}
    if stands_in:
        command = ["cargo", "build", "--release", "--offline", "--quiet", "--bin", stands_in]
        subprocess.run(command, cwd=tests / "second", env={**os.environ, **places}, check=True)
        places[stands_in.upper()] = str(folder / "target" / "release" / stands_in)
    found = [noticing(tests / package, names, places) for package, *names in groups]
    return "; ".join(filter(None, found)) if all(found) or not edit else None


def noticing(package, names, places):
    """The first of some tests of a package that notices, with the package."""
    for name in names:
        # an edit that does not compile is not one that is noticed
        compiled = cargo(package, name, "--no-run")
        subprocess.run(compiled, env={**os.environ, **places}, stderr=subprocess.DEVNULL, check=True)
        run = drawn if package.name == "compare" else cargo
        if failures(run(package, name), places):
            return f"{package.name} {name}"
    return None


def copy_cases(folder, *programs):
    """Puts the cases of programs where the oracle's tests look for them."""
    for program in programs:
        cases = folder / "crates" / program
        cases.mkdir(parents=True)
        for name in ("stdin", "stdout"):
            shutil.copy(CRATES / program / name, cases)


def answers(edit, folder):
    """Whole answers, by the program vectors."""
    return second(edit, folder, ("compare", "answers"))


def parts(edit, folder):
    """Loads in parts, by the program calls."""
    return second(edit, folder, ("compare", "parts"))


def overlay(edit, folder):
    """Patches over a base image, by the program patches, by the oracle's tests and by the cases of crates/patches."""
    copy_cases(folder, "patches")
    return second(edit, folder, ("compare", "overlay"), ("second", "overlay"), ("second", "patches"))


def packed(edit, folder):
    """Packed marks, by the three programs, by the oracle's tests and by the cases of the three."""
    programs = ("vectors", "calls", "patches")
    copy_cases(folder, *programs)
    return second(edit, folder, ("compare", "overlay", "answers", "parts"), ("second", "packed"), ("second", *programs))


def errors(edit, folder):
    """Single errors, by tests/second in place of the program vectors."""
    return second(edit, folder, ("compare", "errors"), stands_in="vectors")


def chips(edit, folder):
    """Images over chips, by the program deals, by the oracle's tests and by the cases of crates/deals."""
    copy_cases(folder, "deals")
    return second(edit, folder, ("compare", "chips"), ("second", "chips"), ("second", "deals"))


def symbols(edit, folder):
    """Symbol blocks and patch sheets, by the program symbolic, by the oracle's tests and by the cases of crates/symbolic."""
    copy_cases(folder, "symbolic")
    return second(edit, folder, ("compare", "symbolic"), ("second", "sheets"), ("second", "symbolic"))


def face(edit, folder):
    """Spans, origins and rooms, by the archive and by the oracle's tests."""
    return second(edit, folder, ("compare", "face"), ("second", "spans"))


def edited(edit, folder):
    """Copies the crates, edited."""
    shutil.copy(TESTS.parent / "crates.txt", folder)
    shutil.copytree(CRATES, folder / "crates", ignore=shutil.ignore_patterns("out"))
    if edit:
        apply(edit, folder / "crates")


def broken(program, edit, folder, inputs):
    """For which of the inputs, each with what must be written for it, the compiled program does something else."""
    cases = folder / "cases"
    cases.mkdir()
    for name, (given, expected) in inputs.items():
        (cases / name).write_bytes(given)
        (cases / f"{name}.stdout").write_bytes(expected)
    command = ["rt", "try", "--cases", str(cases)]
    ran = subprocess.run(command, cwd=folder / "crates" / program, stdout=subprocess.PIPE, stderr=subprocess.STDOUT)
    printed = ran.stdout.decode("utf-8", "replace")
    found = dict(re.findall(r"^case=(\S+) (.*)$", printed, re.MULTILINE))
    if found.keys() != inputs.keys():
        sys.exit(f"{edit}: no program was compiled: {printed.strip().splitlines()[-1:]}")
    good = {"run=ended", "status=0", "output=expected"}
    return {name: words for name, words in found.items() if not good <= set(words.split())}


def own_case(program):
    """The input of a crate, and what must be written for it."""
    return tuple((CRATES / program / name).read_bytes() for name in ("stdin", "stdout"))


def calls(edit, folder):
    """Edits a copy of the crates and gives whether the compiled program writes something else than crates/calls/stdout."""
    edited(edit, folder)
    found = broken("calls", edit, folder, {"calls": own_case("calls")})
    return "; ".join(f"{name}: {words}" for name, words in found.items()) or None


@functools.cache
def drawn_patches():
    """Inputs of the first cases that tests/compare draws for the program patches, each with what the oracle answers."""
    manifest = str(TESTS / "second" / "Cargo.toml")
    command = ["cargo", "run", "--release", "--offline", "--quiet", "--manifest-path", manifest, "--bin", "cases", "--"]
    places = {"CARGO_TARGET_DIR": str(TARGET / "second"), **os.environ}
    ran = subprocess.run([*command, "patches", SEED, FIRST], env=places, stdout=subprocess.PIPE, check=True)
    inputs, script, answer = [], b"", b""
    for case in map(json.loads, ran.stdout.splitlines()):
        if len(script) + len(case["script"]) > INPUT:
            inputs.append((script, answer))
            script, answer = b"", b""
        script, answer = script + bytes(case["script"]), answer + bytes(case["answer"])
    return [*inputs, (script, answer)]


def patches(edit, folder):
    """The same of crates/patches, and of drawn cases; both must notice."""
    edited(edit, folder)
    drawn = {f"drawn-{number}": case for number, case in enumerate(drawn_patches())}
    found = broken("patches", edit, folder, {"patches": own_case("patches"), **drawn})
    noticed = {name.partition("-")[0]: f"{name}: {words}" for name, words in found.items()}
    return "; ".join(noticed.values()) if len(noticed) == 2 or not edit else None


def try_edit(kind, edit):
    """Whether an edit is noticed, or nothing is without one."""
    with tempfile.TemporaryDirectory() as folder:
        found = kind(edit, Path(folder))
    good = bool(found) == bool(edit)
    print("ok   " if good else "FAIL ", edit.stem if edit else "no edit", "|", found or "not noticed", flush=True)
    return good


def main():
    names = sys.argv[1:]
    results = []
    for kind in (library, answers, parts, overlay, packed, errors, chips, symbols, face, calls, patches):
        edits = [None, *sorted((BREAKS / kind.__name__).glob("*.edit"))]
        whole = not names or kind.__name__ in names
        results += [try_edit(kind, edit) for edit in edits if whole or edit and edit.stem in names]
    print(f"{sum(results)} passed, {len(results) - sum(results)} failed")
    return 0 if results and all(results) else 1


if __name__ == "__main__":
    sys.exit(main())
