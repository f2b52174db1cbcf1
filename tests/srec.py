#!/usr/bin/env python3
"""Runs the program srec: on the cases of tests/srec, on files and systems in which something is wrong, and beside objcopy and srec_cat.

    python3 tests/srec.py

The program is target/srec, which `make` builds, or the one that the variable SREC_PROGRAM names. tests/README.md says what the
files of a case are. What cannot be tried on a machine is skipped, with a word."""

import hashlib
import os
import random
import resource
import shlex
import shutil
import signal
import stat
import subprocess
import sys
import tempfile
from pathlib import Path

from program import ROOT, compare, record

CASES = ROOT / "tests" / "srec"
PROGRAM = Path(os.environ.get("SREC_PROGRAM", ROOT / "target" / "srec")).resolve()
COMMANDS = ("check", "canon", "diff", "info", "where", "convert", "merge", "deal", "collect", "patch")
# Those that a text can get from the program: 9 is reserved, 15 to 17, 19 and 20 cannot come up.
REFUSALS = (1, 2, 3, 4, 5, 6, 7, 8, 10, 11, 12, 13, 14, 18, 21, 22, 23, 24, 25, 26, 27)
ENVIRONMENT = {"PATH": os.environ.get("PATH", ""), "LC_ALL": "C"}
GIB = 1 << 30
NOBODY = 65534
ONE = record(1, 2, 0, b"\xaa") + record(9, 2, 0, b"")
TWICE = record(1, 2, 0, b"\xaa") * 2 + record(9, 2, 0, b"")
# What srec_cat 1.64 writes for `-generate 0 0x10000 -constant 0 -output-block-size=1 -disable=header -execution-start-address=0`
S6_DIGEST = "b50d15f3596233a02ed356840fddef951c28e2c018cf032b6377700a33c7e687"


def told(status, out=b"", err=b""):
    """What a run came to, as it is compared."""
    return b"status %d\n%s---\n%s" % (status, out, err)


def output_of(printed):
    """What a run printed that ended well."""
    assert printed.startswith(b"status 0\n") and printed.endswith(b"---\n"), printed[:2000]
    return printed[len(b"status 0\n") : -len(b"---\n")]


def run(words, folder, program=PROGRAM, environment={}, **how):
    """What the program comes to with these words in a folder."""
    how.setdefault("stdin", subprocess.DEVNULL)
    if "input" in how:
        del how["stdin"]
    how.setdefault("stdout", subprocess.PIPE)
    how.setdefault("stderr", subprocess.PIPE)
    done = subprocess.run(
        [program, *words], cwd=folder, env={**ENVIRONMENT, **environment}, timeout=300, **how
    )
    return told(done.returncode, done.stdout or b"", done.stderr or b"")


def content(path):
    """What a file has, or a word where there is none."""
    return Path(path).read_bytes() if Path(path).exists() else b"(no such file)"


def files_of(folder):
    """The files below a folder, by their names in it."""
    return {str(path.relative_to(folder)): path.read_bytes() for path in Path(folder).rglob("*") if path.is_file()}


def fill(folder):
    """Puts what a case may read into a folder."""
    shutil.copytree(CASES / "in", folder, dirs_exist_ok=True)
    shutil.copytree(CASES / "kept", Path(folder) / "kept")
    shutil.copytree(ROOT / "examples", Path(folder) / "examples")


# ---- the cases that are files


def part(case, ending):
    """A file of a case; empty if there is none."""
    path = case.with_suffix("." + ending)
    return path.read_bytes() if path.exists() else b""


def made_by(case):
    """The files that a case makes or changes."""
    begin = case.stem + ".made."
    return {path.name[len(begin) :]: path.read_bytes() for path in case.parent.iterdir() if path.name.startswith(begin)}


def with_files(printed, before, after):
    """What was printed, and the files that are others than before."""
    for name in sorted(before.keys() | after.keys()):
        if before.get(name) != after.get(name):
            printed += b"file %s\n%s" % (name.encode(), after.get(name, b"is gone"))
    return printed


def case_files():
    """The program on each case, in a folder of its own; every file of the folder is compared."""
    folder = before = None
    for case in sorted(CASES.glob("*.cmd")):
        if folder is None:
            folder = tempfile.TemporaryDirectory()
            fill(folder.name)
            before = files_of(folder.name)
        words = shlex.split(case.read_text(encoding="utf-8"))
        printed = run(words, folder.name, input=part(case, "stdin"))
        after = files_of(folder.name)
        expected = told(int(part(case, "status") or 0), part(case, "out"), part(case, "err"))
        yield case.stem, with_files(printed, before, after), with_files(expected, before, {**before, **made_by(case)})
        if after != before:
            folder.cleanup()
            folder = None
    folder.cleanup()


def reach():
    """Every command ends with each status in some case, every refusal is told, and no file of a case stands alone."""
    seen = {(case.read_text().split(" ")[0].strip(), int(part(case, "status") or 0)) for case in CASES.glob("*.cmd")}
    for command in COMMANDS:
        for status in (0, 1, 2):
            yield f"a case of {command} with status {status}", str((command, status) in seen).encode(), b"True"
    messages = b"".join(path.read_bytes() for path in CASES.glob("*.err"))
    for number in REFUSALS:
        yield f"a case of refusal {number}", str(b"(refusal %d)" % number in messages).encode(), b"True"
    stems = {case.stem for case in CASES.glob("*.cmd")}
    alone = [path.name for path in CASES.iterdir() if path.is_file() and path.name.split(".")[0] not in stems]
    yield "files without a command", str(alone).encode(), b"[]"


# ---- standard files that are closed, full or no files


PRINTING = (
    ["canon", "one.s19"],
    ["diff", "one.s19", "nothing.s19"],
    ["info", "one.s19"],
    ["info", "--map", "one.s19"],
    ["where", "one.s19", "0"],
    ["convert", "--to", "srec", "one.s19"],
    ["merge", "one.s19", "nothing.s19"],
    ["collect", "-k", "2", "of2", "-"],
    ["patch", "--symbols", "block.s19", "--entry", "0", "fix.sheet"],
    ["--help"],
    ["check", "--help"],
    ["--version"],
)


def closing(*numbers):
    """Closes standard files in the program that is started."""
    return lambda: [os.close(number) for number in numbers]


def standard_files():
    with tempfile.TemporaryDirectory() as folder:
        fill(folder)
        bad = b"Bad file descriptor\n"
        for words in (["check", "-"], ["canon", "-"], ["diff", "-", "one.s19"], ["merge", "-", "one.s19"]):
            name = f"closed standard input: {words}"
            yield name, run(words, folder, preexec_fn=closing(0)), told(2, b"", b"srec: <stdin>: " + bad)
        for words in PRINTING:
            printed = run(words, folder, preexec_fn=closing(1))
            yield f"closed standard output: {words}", printed, told(2, b"", b"srec: standard output: " + bad)
            with open("/dev/full", "wb") as full:
                printed = run(words, folder, stdout=full)
            expected = told(2, b"", b"srec: standard output: No space left on device\n")
            yield f"full standard output: {words}", printed, expected
        yield "check with a closed output", run(["check", "one.s19"], folder, preexec_fn=closing(1)), told(0)
        yield "check with all closed", run(["check", "one.s19"], folder, preexec_fn=closing(0, 1, 2)), told(0)
        yield "a refusal with a closed error", run(["check", "equal.s19"], folder, preexec_fn=closing(2)), told(1)
        yield "trouble with a closed error", run(["check", "gone"], folder, preexec_fn=closing(2)), told(2)
        for words, out in (["canon", "-o", "new", "one.s19"], "new"), (["deal", "-k", "2", "one.s19", "new"], "new.0"):
            expected = output_of(run(["canon", "one.s19"], folder))
            printed = run(words, folder, preexec_fn=closing(0, 1, 2)) + content(Path(folder) / out)
            yield f"a file with all closed: {words}", printed, told(0) + expected
        with open("/dev/full", "wb") as full:
            yield "full standard error", run(["check", "equal.s19"], folder, stderr=full), told(1)
        for words in (["canon", "-o", "/dev/full", "one.s19"], ["collect", "-k", "2", "of2", "/dev/full"]):
            yield f"{words}", run(words, folder), told(2, b"", b"srec: /dev/full: No space left on device\n")
        yield "out to /dev/null", run(["canon", "-o", "/dev/null", "one.s19"], folder), told(0)
        directory = os.open(folder, os.O_RDONLY)
        printed = run(["check", "-"], folder, stdin=directory)
        os.close(directory)
        yield "a directory as standard input", printed, told(2, b"", b"srec: <stdin>: Is a directory\n")


def pipes():
    """A pipe that nobody reads ends the program, or is told where the signal is ignored; input may come slowly."""
    with tempfile.TemporaryDirectory() as folder:
        big = b"".join(record(2, 3, at, bytes(16)) for at in range(0, 1 << 20, 16)) + record(8, 3, 0, b"")
        (Path(folder) / "big").write_bytes(big)
        for ignored, expected in (False, told(-signal.SIGPIPE)), (True, told(2, b"", b"srec: standard output: Broken pipe\n")):
            reader, writer = os.pipe()
            os.close(reader)
            printed = run(["canon", "big"], folder, stdout=writer, restore_signals=not ignored)
            os.close(writer)
            yield f"a closed pipe, the signal ignored: {ignored}", printed, expected
        command = "(cat big; sleep 0.2) | (sleep 0.2; cat) | %s check -" % shlex.quote(str(PROGRAM))
        done = subprocess.run(["sh", "-c", command], cwd=folder, stdout=subprocess.PIPE, stderr=subprocess.PIPE)
        yield "standard input that comes slowly", told(done.returncode, done.stdout, done.stderr), told(0)
        with open(Path(folder) / "big", "rb") as opened:
            opened.seek(len(big) - len(record(8, 3, 0, b"")))
            yield "standard input that is read from its place", run(["canon", "-"], folder, stdin=opened), told(
                0, record(0, 2, 0, b"") + record(5, 2, 0, b"") + record(9, 2, 0, b"")
            )


# ---- files that must not be read or written


def as_another():
    """How to run as somebody who must keep to permissions."""
    return {"user": NOBODY, "group": NOBODY, "extra_groups": []} if os.geteuid() == 0 else {}


def permissions():
    with tempfile.TemporaryDirectory() as name:
        folder = Path(name)
        program = folder / "srec"
        shutil.copy(PROGRAM, program)
        for path, text in ("one.s19", ONE), ("secret.s19", ONE), ("kept.s19", b"old"), ("shut/old.s19", b"old"):
            (folder / path).parent.mkdir(exist_ok=True)
            (folder / path).write_bytes(text)
        if os.geteuid() == 0:
            for path in (folder, folder / "shut", *folder.iterdir()):
                os.chown(path, NOBODY, NOBODY)
        for path, mode in ("", 0o755), ("secret.s19", 0o000), ("kept.s19", 0o444), ("shut", 0o555), ("shut/old.s19", 0o666):
            (folder / path).chmod(mode)

        def attempt(words):
            return run(words, folder, program, **as_another()) + b" ".join(sorted(os.fsencode(p) for p in os.listdir(folder)))

        names = b"kept.s19 one.s19 secret.s19 shut srec"
        denied = b": Permission denied\n"
        for words, path in (
            (["check", "secret.s19"], b"secret.s19"),
            (["diff", "one.s19", "secret.s19"], b"secret.s19"),
            (["where", "secret.s19", "0"], b"secret.s19"),
            (["canon", "-o", "kept.s19", "one.s19"], b"kept.s19"),
            (["canon", "-o", "shut/new.s19", "one.s19"], b"shut/new.s19"),
            (["canon", "-o", "shut/old.s19", "one.s19"], b"shut/old.s19"),
            (["deal", "-k", "2", "one.s19", "shut/chip"], b"shut/chip.0"),
        ):
            yield f"no permission: {words}", attempt(words), told(2, b"", b"srec: " + path + denied) + names
        (folder / "shut").chmod(0o755)
        for path in ("kept.s19", "shut/old.s19"):
            yield f"{path} is as it was", content(folder / path), b"old"
        yield "nothing else was made", b" ".join(map(os.fsencode, os.listdir(folder / "shut"))), b"old.s19"


def replacing():
    """A file that is replaced keeps its permissions, and a link stays a link."""
    with tempfile.TemporaryDirectory() as name:
        folder = Path(name)
        (folder / "one.s19").write_bytes(ONE)
        expected = output_of(run(["canon", "one.s19"], folder))
        for mode in (0o600, 0o640, 0o755):
            (folder / "out").write_bytes(b"old" * 1000)
            (folder / "out").chmod(mode)
            printed = run(["canon", "-o", "out", "one.s19"], folder)
            yield f"a file of mode {mode:o} is replaced", printed + content(folder / "out"), told(0) + expected
            yield f"and keeps mode {mode:o}", b"%o" % stat.S_IMODE((folder / "out").stat().st_mode), b"%o" % mode
        for mask in (0o022, 0o077):
            (folder / "new").unlink(missing_ok=True)
            printed = run(["canon", "-o", "new", "one.s19"], folder, preexec_fn=lambda: os.umask(mask))
            printed += b"%o" % stat.S_IMODE((folder / "new").stat().st_mode)
            yield f"a new file under the mask {mask:o}", printed, told(0) + b"%o" % (0o666 & ~mask)
        (folder / "deep").mkdir()
        (folder / "deep" / "real").write_bytes(b"old")
        (folder / "link").symlink_to("deep/real")
        yield "a link", run(["canon", "-o", "link", "one.s19"], folder), told(0)
        yield "stays one", os.fsencode(os.readlink(folder / "link")), b"deep/real"
        yield "and its file is replaced", content(folder / "deep" / "real"), expected
        yield "nothing else is left", b" ".join(sorted(map(os.fsencode, os.listdir(folder / "deep")))), b"real"
        (folder / "nowhere").symlink_to("deep/gone")
        expected_trouble = told(2, b"", b"srec: nowhere: No such file or directory\n")
        yield "a link that leads nowhere", run(["canon", "-o", "nowhere", "one.s19"], folder), expected_trouble
        yield "stays one, too", os.fsencode(os.readlink(folder / "nowhere")), b"deep/gone"
        os.mkfifo(folder / "pipe")
        reader = subprocess.Popen(["cat", folder / "pipe"], stdout=subprocess.PIPE)
        printed = run(["canon", "-o", "pipe", "one.s19"], folder)
        yield "a named pipe is written to", printed + reader.communicate()[0], told(0) + expected


def small_disk():
    """A file that cannot be written whole is not replaced, and nothing is left beside it."""

    def limit():
        resource.setrlimit(resource.RLIMIT_FSIZE, (1000, 1000))

    with tempfile.TemporaryDirectory() as name:
        folder = Path(name)
        # chip 0 has one cell, chip 1 a thousand
        cells = record(1, 2, 0, b"\1") + b"".join(record(1, 2, at, b"\2") for at in range(1, 2000, 2)) + record(9, 2, 0, b"")
        (folder / "big.s19").write_bytes(cells)
        for path in ("old", "chip.0", "chip.1"):
            (folder / path).write_bytes(b"old")
        before = files_of(folder)
        for words, path in (
            (["canon", "-o", "old", "big.s19"], b"old"),
            (["canon", "-o", "new", "big.s19"], b"new"),
            (["deal", "-k", "2", "big.s19", "chip"], b"chip.1"),
        ):
            printed = run(words, folder, preexec_fn=limit, restore_signals=False)
            expected = told(2, b"", b"srec: " + path + b": File too large\n")
            yield f"files of 1,000 bytes at most: {words}", with_files(printed, before, files_of(folder)), expected
        disk = folder / "disk"
        disk.mkdir()
        mounted = subprocess.run(["mount", "-t", "tmpfs", "-o", "size=16k", "none", disk], stderr=subprocess.DEVNULL)
        if mounted.returncode != 0:
            print("skipped: a full disk (no file system can be mounted here)")
            return
        try:
            (disk / "old").write_bytes(b"old")
            printed = run(["canon", "-o", "disk/old", "big.s19"], folder)
            yield "a full disk", printed, told(2, b"", b"srec: disk/old: No space left on device\n")
            yield "on which nothing is changed", repr(files_of(disk)).encode(), repr({"old": b"old"}).encode()
        finally:
            subprocess.run(["umount", disk], check=True)


# ---- large files


def memory_available():
    """How many bytes of memory may be taken; 0 where the system does not say."""
    try:
        lines = Path("/proc/meminfo").read_text().splitlines()
        return next(int(line.split()[1]) * 1024 for line in lines if line.startswith("MemAvailable"))
    except (OSError, StopIteration):
        return 0


def at_most(size):
    """Limits the memory and the time of the program that is started."""

    def limit():
        resource.setrlimit(resource.RLIMIT_AS, (size, size))
        resource.setrlimit(resource.RLIMIT_CPU, (60, 60))

    return limit


def long_message(name, row, words, shown):
    return b"%s:1:1: %s (refusal %d)\n  %s...\n  ^\n" % (name, words, row, shown)


def zeros():
    """1 GiB of zeros, with little memory beyond the file."""
    if memory_available() < 2 * GIB:
        print("skipped: 1 GiB of zeros (too little memory)")
        return
    too_long = b"the record has more than 514 characters, or the tape's line more than 521"
    with tempfile.TemporaryDirectory() as folder:
        with open(Path(folder) / "zeros", "wb") as file:
            file.truncate(GIB)
        (Path(folder) / "one.s19").write_bytes(ONE)
        refused = long_message(b"zeros", 3, too_long, b"?" * 78)
        enough = at_most(GIB + GIB // 16)
        yield "1 GiB of zeros", run(["check", "zeros"], folder, preexec_fn=enough), told(1, b"", refused)
        printed = run(["canon", "-o", "one.s19", "zeros"], folder, preexec_fn=enough)
        yield "its canonical text", printed + content(Path(folder) / "one.s19"), told(1, b"", refused) + ONE
        missing = b"zeros: no record gives 00000000\n"
        yield "a cell of it", run(["where", "zeros", "0"], folder, preexec_fn=enough), told(1, b"", missing + refused)
        no_end = long_message(b"zeros", 14, b"there is no terminator, or the tape has no last line", b"?" * 78)
        printed = run(["check", "--from", "tape", "zeros"], folder, preexec_fn=enough)
        yield "1 GiB of zeros as a tape", printed, told(1, b"", no_end)
        printed = run(["check", "zeros"], folder, preexec_fn=at_most(GIB // 2))
        yield "with too little memory", printed, told(2, b"", b"srec: zeros: Cannot allocate memory\n")
        with open(Path(folder) / "zeros", "rb") as file:
            printed = run(["check", "-"], folder, stdin=file, preexec_fn=enough)
        yield "from standard input", printed, told(1, b"", long_message(b"<stdin>", 3, too_long, b"?" * 78))


def long_lines():
    """Files that are one long line."""
    too_long = b"the record has more than 514 characters, or the tape's line more than 521"
    with tempfile.TemporaryDirectory() as folder:
        for name, text in (b"digits", b"S1" + b"0" * 16_000_000), (b"joined", ONE.replace(b"\n", b"") * 1_000_000), (
            b"spaces",
            b" " * 16_000_000,
        ):
            (Path(folder) / os.fsdecode(name)).write_bytes(text)
            expected = told(1, b"", long_message(name, 3, too_long, text[:78]))
            yield f"one long line: {name}", run(["check", os.fsdecode(name)], folder), expected
        (Path(folder) / "tape").write_bytes(b";" * 16_000_000)
        expected = told(1, b"", long_message(b"tape", 3, too_long, b";" * 78))
        yield "one long line of a tape", run(["check", "tape"], folder), expected
        (Path(folder) / "block").write_bytes(b"$" * 16_000_000)
        words = b"a line is none of a symbol block, or the block has no last line $$"
        expected = told(1, b"", long_message(b"block", 22, words, b"$" * 78))
        yield "one long line of a block", run(["check", "block"], folder), expected
        (Path(folder) / "ends").write_bytes(b"\n" * 16_000_000 + record(9, 2, 0, b"")[:-2])
        last = b"ends:16000001:1: the record's length does not agree with its count or type, or the line's with its length field"
        yield "many empty lines", run(["check", "ends"], folder), told(1, b"", last + b" (refusal 6)\n  S9030000F\n  ^\n")


def far_apart():
    """Files with few cells that lie far from each other."""
    wide = record(3, 4, 0, b"\1") + record(3, 4, (1 << 32) - 1, b"\2") + record(7, 4, 0, b"")
    gib = record(3, 4, 0x10, b"\1") + record(3, 4, GIB + 0xF, b"\2") + record(7, 4, 0, b"")
    more = record(3, 4, 0x10, b"\1") + record(3, 4, GIB + 0x10, b"\2") + record(7, 4, 0, b"")
    words = (
        b"srec: %s: the cells lie from %08X to %08X and take a window of %d; one of more than 1073741824 must be asked for, "
        b"with --window %X:%X\n"
    )
    with tempfile.TemporaryDirectory() as folder:
        for name, text in ("wide", wide), ("gib", gib), ("more", more):
            (Path(folder) / name).write_bytes(text)
        little = at_most(GIB // 16)
        for command in (["check"], ["canon"], ["info"], ["convert", "--to", "srec"]):
            expected = told(2, b"", words % (b"wide", 0, (1 << 32) - 1, 1 << 32, 0, 1 << 32))
            yield f"2^32 addresses, {command}", run([*command, "wide"], folder, preexec_fn=little), expected
        expected = told(2, b"", words % (b"more", 0x10, GIB + 0x10, GIB + 1, 0x10, GIB + 1))
        yield "2^30 + 1 addresses", run(["check", "more"], folder, preexec_fn=little), expected
        found = b"wide:1: 00000000 01\nwide:2: FFFFFFFF 02\n"
        yield "their cells", run(["where", "wide", "0", "FFFFFFFF"], folder, preexec_fn=little), told(0, found)
        no_memory = b"srec: gib: there is no memory for a window of 1073741824 cells\n"
        yield "2^30 with little memory", run(["check", "gib"], folder, preexec_fn=little), told(2, b"", no_memory)
        if memory_available() < 4 * GIB:
            print("skipped: windows of 2^30 addresses (too little memory)")
            return
        yield "2^30 addresses", run(["check", "gib"], folder), told(0)
        if memory_available() < 12 * GIB:
            print("skipped: a window of 2^32 addresses (too little memory)")
            return
        expected = record(0, 2, 0, b"") + wide[: -len(record(7, 4, 0, b""))] + record(5, 2, 2, b"") + record(7, 4, 0, b"")
        printed = run(["canon", "--window", "0:100000000", "wide"], folder)
        yield "2^32 addresses that were asked for", printed, told(0, expected)


# ---- what must hold of the program's own outputs


def canonical(text, folder):
    """The canonical text of a text, which must be accepted."""
    return output_of(run(["canon", "-"], folder, input=text))


def accepted_texts():
    """The examples and the files of the cases that are accepted without an option."""
    with tempfile.TemporaryDirectory() as folder:
        fill(folder)
        for name, text in sorted(files_of(folder).items()):
            if run(["check", "-"], folder, input=text) == told(0):
                yield name, text


def round_trips():
    """A canonical text is its own; line ends, digit case and the order of records do not matter to it."""
    draw = random.Random(3)
    with tempfile.TemporaryDirectory() as folder:
        for name, text in accepted_texts():
            once = canonical(text, folder)
            yield f"canon of canon of {name}", canonical(once, folder), once
            if text.lstrip()[:1] != b"S":
                continue
            lines = text.split()
            for end in (b"\n", b"\r\n", b"\r", b"\n\r\n\n"):
                yield f"{name} with lines that end in {end}", canonical(end.join(lines), folder), once
            data = [line for line in lines if line[1:2] in b"123"]
            draw.shuffle(data)
            rest = [line for line in lines if line[1:2] not in b"1235"]
            head = [line for line in rest if line[1:2] == b"0"]
            small = [line[:2] + line[2:].lower() for line in [*head, *data, *rest[len(head) :]]]
            yield f"{name} with its records shuffled", canonical(b"\n".join(small), folder), once


def many_records():
    """65,536 data records, with the S6 that srec_cat writes behind them."""
    rows = b"".join(record(1, 2, at, b"\0") for at in range(65536))
    s6 = b"S604010000FA\n"
    end = record(9, 2, 0, b"")
    digest = hashlib.sha256(rows + s6 + end).hexdigest()
    yield "the text is that of srec_cat", digest.encode(), S6_DIGEST.encode()
    with tempfile.TemporaryDirectory() as folder:
        refused = b"<stdin>:65537:1: the record is no S-record of a known type, or no line of a tape (refusal 4)\n  %s  ^\n" % s6
        yield "an S6", run(["check", "-"], folder, input=rows + s6 + end), told(1, b"", refused)
        s5 = record(5, 2, 0, b"")
        refused = (
            b"<stdin>:65537:1: the count record, or the tape's last line, does not agree with the data before it (refusal 10)\n"
            b"  %s  ^\n" % s5
        )
        yield "an S5 behind 65,536 records", run(["check", "-"], folder, input=rows + s5 + end), told(1, b"", refused)
        full = b"".join(record(1, 2, at, bytes(16)) for at in range(0, 65536, 16))
        expected = record(0, 2, 0, b"") + full + record(5, 2, 4096, b"") + end
        yield "without an S6", run(["canon", "-"], folder, input=rows + end), told(0, expected)
        apart = b"".join(record(2, 3, at, b"\1") for at in range(0, 131072, 2))
        wide = record(8, 3, 0, b"")
        expected = record(0, 2, 0, b"") + apart + wide
        yield "no S5 for 65,536 records", run(["canon", "-"], folder, input=apart + wide), told(0, expected)


def maps():
    """The map fits the columns, which a variable may give."""
    with tempfile.TemporaryDirectory() as folder:
        (Path(folder) / "one.s19").write_bytes(ONE)
        plain = run(["info", "one.s19"], folder)[: -len(b"---\n")]
        for columns, signs in ("1", 16), ("42", 16), ("43", 32), ("80", 64), ("138", 64), ("139", 128), ("9999", 256), ("x", 64):
            printed = run(["info", "--map", "one.s19"], folder, environment={"COLUMNS": columns})
            row = b"map: 1 cell a sign: # all, + some, . none\n00000000 |#%s|\n---\n" % (b"." * (signs - 1))
            yield f"a map in {columns} columns", printed, plain + row


def plain(line):
    """A line of the manual page without its marks."""
    for mark in ("\\fB", "\\fI", "\\fR"):
        line = line.replace(mark, "")
    return line.replace("\\-", "-")


def manual():
    """The manual page has the program's version and the usage of each command, and groff reads it without a warning."""
    page = ROOT / "tools" / "srec.1"
    lines = page.read_text(encoding="utf-8").splitlines()
    synopsis = lines[lines.index(".SH SYNOPSIS") + 2 :]
    usages = [plain(line) for line in synopsis[: synopsis.index(".fi")]]
    with tempfile.TemporaryDirectory() as folder:
        shown = output_of(run(["--help"], folder)).decode().splitlines()
        version = output_of(run(["--version"], folder)).decode().strip()
    expected = [line.strip() for line in shown if line.startswith("  srec ")]
    yield "the usages of the manual page", "\n".join(usages).encode(), "\n".join(expected).encode()
    yield "the version of the manual page", str(f'"{version}"' in lines[1]).encode(), b"True"
    if not shutil.which("groff"):
        print("skipped: the manual page by groff (it is not installed)")
        return
    done = subprocess.run(["groff", "-man", "-Tutf8", "-ww", page], stdout=subprocess.PIPE, stderr=subprocess.PIPE)
    yield "warnings of groff", done.stderr, b""


# ---- beside other programs


def drawn(draw, bits):
    """Records of a drawn image with addresses of so many bits, in a drawn layout: no header, and an entry."""
    cells = {}
    span = min(1 << bits, 1 << 18)
    low = draw.randrange((1 << bits) - span + 1)
    for _ in range(draw.randrange(1, 6)):
        at = draw.randrange(span)
        for i in range(draw.randrange(1, 80)):
            cells[low + min(at + i, span - 1)] = draw.randrange(256)
    kind, width = {16: (1, 2), 24: (2, 3), 32: (3, 4)}[bits]
    rows, run_of = [], []
    for at in sorted(cells):
        if run_of and (run_of[-1] != at - 1 or len(run_of) == limit):
            rows.append(record(kind, width, run_of[0], bytes(cells[a] for a in run_of)))
            run_of = []
        if not run_of:
            limit = draw.randrange(1, 64)
        run_of.append(at)
    rows.append(record(kind, width, run_of[0], bytes(cells[a] for a in run_of)))
    draw.shuffle(rows)
    entry = draw.randrange(1 << bits)
    return b"".join(rows) + record(10 - kind, width, entry, b""), entry


def quietly(words, folder):
    subprocess.run(words, cwd=folder, check=True, stdout=subprocess.DEVNULL, stderr=subprocess.DEVNULL)


def without_header(text):
    return b"".join(line for line in text.splitlines(True) if not line.startswith(b"S0"))


def beside(name, command, draws=40):
    """Texts that another program reads and writes again have the same canonical text, but for the header."""
    if not shutil.which(name):
        print(f"skipped: beside {name} (it is not installed)")
        return
    draw = random.Random(name)
    with tempfile.TemporaryDirectory() as folder:
        for index in range(draws):
            text, entry = drawn(draw, draw.choice((16, 24, 32)))
            (Path(folder) / "in.s19").write_bytes(text)
            words = command(draw, entry)
            quietly([name, *words], folder)
            theirs = (Path(folder) / "out.s19").read_bytes()
            yield f"{name} {index} {words}", without_header(canonical(theirs, folder)), without_header(canonical(text, folder))


def by_objcopy(draw, entry):
    options = draw.choice(([], ["--srec-forceS3"], [f"--srec-len={draw.randrange(1, 200)}"]))
    return ["-I", "srec", "-O", "srec", *options, "in.s19", "out.s19"]


def by_srec_cat(draw, entry):
    options = draw.choice(
        ([], ["-address-length=4"], [f"-output-block-size={draw.randrange(1, 64)}"], ["-line-termination=crlf"], ["-disable=data-count"])
    )
    return ["in.s19", "-o", "out.s19", f"-execution-start-address={entry}", *options]


def tapes_beside_srec_cat():
    if not shutil.which("srec_cat"):
        print("skipped: tapes beside srec_cat (it is not installed)")
        return
    draw = random.Random(6)
    with tempfile.TemporaryDirectory() as folder:
        for index in range(20):
            text, _ = drawn(draw, 16)
            (Path(folder) / "in.s19").write_bytes(text)
            run(["convert", "--to", "tape", "in.s19", "-o", "our.ptp"], folder)
            quietly(["srec_cat", "in.s19", "-o", "their.ptp", "-MOS_Technologies"], folder)
            yield f"a tape {index}", run(["diff", "our.ptp", "their.ptp"], folder), told(0)
            quietly(["srec_cat", "our.ptp", "-MOS_Technologies", "-o", "back.s19", "-execution-start-address=0"], folder)
            back = canonical((Path(folder) / "back.s19").read_bytes(), folder)
            expected = output_of(run(["convert", "--to", "srec", "--entry", "0", "in.s19"], folder))
            yield f"a tape {index} back", without_header(back), expected[len(record(0, 2, 0, b"")) :]


def cases():
    for group in (
        case_files,
        reach,
        standard_files,
        pipes,
        permissions,
        replacing,
        small_disk,
        zeros,
        long_lines,
        far_apart,
        round_trips,
        many_records,
        maps,
        manual,
    ):
        yield from group()
    yield from beside("objcopy", by_objcopy)
    yield from beside("srec_cat", by_srec_cat)
    yield from tapes_beside_srec_cat()


if __name__ == "__main__":
    sys.exit(compare(cases()))
