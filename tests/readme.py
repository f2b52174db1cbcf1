#!/usr/bin/env python3
"""Runs the commands that README.md shows and compares what they print with what it shows.

    python3 tests/readme.py

Commands stand in indented blocks, or in blocks fenced as sh, bash or console, in either of two forms:

- a line that starts with '$ ' is a command (with '\\' at its end it goes on in the next line); the lines behind it, up to the next
  command or the end of the block, are what it prints, errors included;
- in a block without '$ ' every line is a command. It prints what is shown for it where the page has it in the first form, too,
  and else it must succeed.

They run in this order, behind `make` and `rt ci`, in a new git repository that has the examples and target of this one, and of its
crates the programs. There `rt run` runs the program that is built, `make` only looks whether it knows what it is asked for, and the
gate only whether it can be read. At last git must show, as README.md has set it up, what changed between versions of an image."""

import os
import re
import subprocess
import sys
import tempfile
from pathlib import Path

ROOT = Path(__file__).resolve().parent.parent
INDENT = "    "
FENCE = "```"
LANGUAGES = ("sh", "bash", "shell", "console")
# git and the program without anybody's own settings
ENVIRONMENT = {name: value for name, value in os.environ.items() if not name.startswith("GIT_") and name != "COLUMNS"}
ENVIRONMENT.update(GIT_CONFIG_GLOBAL=os.devnull, GIT_CONFIG_NOSYSTEM="1", LC_ALL="C", ROOT=str(ROOT))

BUILDERS = """\
rt() { # run [-- ARGUMENT..]
    local crate
    crate=$(basename "$PWD")
    [ "$1" = run ] && grep -q "^$crate:" "$ROOT/crates.txt" && { [ $# -eq 1 ] || [ "$2" = -- ]; } || return 2
    "out/$crate" "${@:3}"
}
make() { command make -n -C "$ROOT" "$@" >/dev/null; }
bash() { if [ "$1" = .ci/run ]; then command bash -n "$ROOT/.ci/run"; else command bash "$@"; fi; }
"""

VERSIONS = """\
for day in monday friday lost-bit; do
    cp examples/$day.srec image.srec
    git add image.srec
    git -c user.name=test -c user.email=test commit -q -m $day
done
git diff HEAD~2 HEAD~1 | grep '^[-+]S'
git diff HEAD~1 HEAD | grep '^+<stdin>'
"""
CHANGED = """\
-S11301000001020406090C1014191E242A31384077
+S11301000001020407090C1014191E242A31384076
+<stdin>:2:1: a cell is addressed twice (refusal 13)
"""


def blocks(text):
    """The blocks of the page that may have commands, as their lines."""
    block, fence = [], None
    for line in [*text.splitlines(), ""]:
        if fence is not None:
            if line.startswith(FENCE):
                if fence in LANGUAGES:
                    yield block
                block, fence = [], None
            else:
                block.append(line)
        elif line.startswith(INDENT):
            block.append(line[len(INDENT) :])
        else:
            if block:
                yield block
            block = []
            if line.startswith(FENCE):
                fence = line[len(FENCE) :].strip()


def shown(block):
    """The commands of a block, each with the output that is shown for it: None where none is."""
    if not any(line.startswith("$ ") for line in block):
        yield from ((line, None) for line in block)
        return
    command, output = None, []
    for line in block:
        if command is not None and command.endswith("\\"):
            command += "\n" + line
        elif line.startswith("$ "):
            if command is not None:
                yield command, "".join(output)
            command, output = line[2:], []
        else:
            output.append(line + "\n")
    yield command, "".join(output)


def run(command, folder):
    """What a command prints, and its exit status."""
    ran = subprocess.run(
        ["bash", "-c", BUILDERS + command], cwd=folder, env=ENVIRONMENT, stdout=subprocess.PIPE, stderr=subprocess.STDOUT
    )
    return ran.stdout.decode("utf-8").replace("\r", ""), ran.returncode


def main():
    readme = (ROOT / "README.md").read_text(encoding="utf-8")
    commands = [each for block in blocks(readme) for each in shown(block)]
    outputs = {command: output for command, output in commands if output is not None}
    passed = failed = 0
    with tempfile.TemporaryDirectory() as folder:
        subprocess.run(["git", "init", "-q", folder], env=ENVIRONMENT, check=True)
        for name in ("examples", "target"):
            (Path(folder) / name).symlink_to(ROOT / name)
        programs = [source.parts[-3] for source in ROOT.glob("crates/*/src/main.rt")]
        built = {name for name in programs if (ROOT / "crates" / name / "out" / name).exists()}
        for name in programs:
            (Path(folder) / "crates" / name).mkdir(parents=True)
            (Path(folder) / "crates" / name / "out").symlink_to(ROOT / "crates" / name / "out")
        for command, expected in [*commands, (VERSIONS, CHANGED)]:
            if not set(re.findall(r"\bcrates/(\w+)", command)) <= built:
                print(f"skipped: {command} (the programs in Rattle are not built)")
                continue
            printed, status = run(command, folder)
            expected = outputs.get(command) if expected is None else expected
            if printed == expected or (expected is None and status == 0):
                passed += 1
            else:
                failed += 1
                print(f"$ {command}\nexit status {status}, printed:\n{printed}shown:\n{expected}")
    print(f"{passed} passed, {failed} failed")
    return 1 if failed else 0


if __name__ == "__main__":
    sys.exit(main())
