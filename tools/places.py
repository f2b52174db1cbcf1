#!/usr/bin/env python3
"""Counts the places that docs/DESIGN-PASS.md speaks of, in crates/*/src and in the proofs beside them.

    python3 tools/places.py [FOLDER] [--list]

FOLDER is the top of a checkout; without it, the current folder. It prints a line for each rule, with its count. With --list, the places
stand below it."""
import os
import re
import sys

RULES = []


def rule(says):
    def keep(call):
        RULES.append((says, call))
        return call

    return keep


def files(top, part, ending):
    for folder, _, names in sorted(os.walk(os.path.join(top, "crates"))):
        words = os.path.relpath(folder, os.path.join(top, "crates")).split(os.sep)
        if part in words and "out" not in words:
            for name in sorted(names):
                if name.endswith(ending):
                    path = os.path.join(folder, name)
                    with open(path, encoding="utf-8") as text:
                        yield os.path.relpath(path, os.path.join(top, "crates")), text.read()


def code(text):
    """The text with its comments and strings blanked, as long as before."""
    return re.sub(r'//[^\n]*|"(?:\\.|[^"\\\n])*"', lambda it: re.sub(r"[^\n]", " ", it[0]), text)


def line(text, index):
    return text.count("\n", 0, index) + 1


def functions(text):
    """Each function: its name, line, parameters, clauses and body."""
    for it in re.finditer(r'^( *)(?:pub )?(?:extern "C" )?fn (\w+)(?:<[^(]*>)?\(', code(text), re.M):
        depth, end = 1, it.end()
        while depth:
            depth += {"(": 1, ")": -1}.get(text[end], 0)
            end += 1
        start = re.compile(r"^%s\{$|(?<= )\{$" % it[1], re.M).search(text, end)
        stop = start and re.compile(r"^%s\}$" % it[1], re.M).search(text, start.end())
        head = text[end : start.start()] if start else ""
        yield {
            "name": it[2],
            "line": line(text, it.start()),
            "parameters": [re.sub(r"\s+", " ", x.strip()) for x in text[it.end() : end - 1].split(",") if x.strip()],
            "clauses": re.findall(r"(?:requires|ensures)(?: \w+)? \{ (.*) \}$", head, re.M),
            "body": code(text[start.end() : stop.start()]) if stop else "",
        }


def conjuncts(clause):
    depth, part = 0, ""
    for char in clause:
        depth += {"(": 1, ")": -1}.get(char, 0)
        if char == "×" and depth == 0:
            yield part.strip()
            part = ""
        else:
            part += char
    yield part.strip()


def matches(sources, pattern, flags=re.M):
    for path, text in sources:
        for it in re.finditer(pattern, code(text), flags):
            yield path, line(text, it.start()), re.sub(r"\s+", " ", it[0]).strip()[:90]


def structs(sources):
    for path, text in sources:
        for it in re.finditer(r"^\s*(?:pub )?struct (\w+) \{(.*?)^\}", code(text), re.M | re.S):
            yield path, line(text, it.start()), it[1], it[2]


@rule("1  own enums")
def enums(sources):
    return matches(sources, r"^\s*(?:pub )?enum \w+")


@rule("1  structs with a bool beside a value")
def flags(sources):
    return [(path, at, name) for path, at, name, body in structs(sources) if ": bool," in body]


@rule("1  numbers for a row: fields and parameters, literals that are returned, compared or refused with")
def numbers(sources):
    return matches(sources, r"\b(?:reason|row): u(?:8|32)\b|\b(?:reason|row) [!=]= \d+|return \d+;\n|refuse(?:d_write|_with)?\(\d+")


@rule("2  functions whose body is that of another once names, numbers and types are left out")
def twins(sources):
    seen = {}
    for path, text in sources:
        for it in functions(text):
            shape = re.sub(r"\b\w+\b", "x", re.sub(r"\s+", " ", it["body"]))
            if len(shape) > 60:
                seen.setdefault(shape, []).append((path, it["line"], it["name"]))
    return [place for same in seen.values() for place in same[1:]]


@rule("3  `while` and `loop`")
def loops(sources):
    return matches(sources, r"\b(?:while|loop)\b[^\n]*")


@rule("3  functions with such a loop that add to an index by hand")
def counted(sources):
    for path, text in sources:
        for it in functions(text):
            if re.search(r"\bwhile\b|\bloop\b", it["body"]) and re.search(r"\b[a-z] [+-]= (?:1|\w+(?: - \w+)?);", it["body"]):
                yield path, it["line"], it["name"]


@rule("4  equality, order, classes of characters and conversion as functions of their own")
def by_hand(sources):
    names = (
        "is_same|smaller|larger|lower|higher|at_least_one|flag|address_of|entry_for|format_for|edition_of|bytes_of|fill|is_letter|is_alnum"
    )
    for path, text in sources:
        for it in functions(text):
            if re.fullmatch(names, it["name"]):
                yield path, it["line"], it["name"]


@rule("5  facts that stand in the clauses of three functions or more")
def facts(sources):
    seen = {}
    for path, text in sources:
        for it in functions(text):
            for part in (part for clause in it["clauses"] for part in conjuncts(clause)):
                if "result" not in part and ".new" not in part:
                    seen.setdefault(part.strip("()"), set()).add((path, it["line"], it["name"]))
    return [(min(it)[0], len(it), part) for part, it in sorted(seen.items()) if len(it) >= 3]


@rule("5  groups of three parameters or more that stand together in three functions or more")
def groups(sources):
    seen = {}
    for path, text in sources:
        for it in functions(text):
            for size in range(3, 9):
                for i in range(len(it["parameters"]) - size + 1):
                    seen.setdefault(tuple(it["parameters"][i : i + size]), set()).add((path, it["name"]))
    often = {key: it for key, it in seen.items() if len(it) >= 3}
    within = lambda key, other: key != other and often[key] <= often[other] and ", ".join(key) in ", ".join(other)
    return [(min(it)[0], len(it), ", ".join(key)) for key, it in sorted(often.items()) if not any(within(key, other) for other in often)]


@rule("6  structs with a fixed buffer and its length")
def buffers(sources):
    for path, at, name, body in structs(sources):
        if re.search(r": \[[^\]]+; \w+\]", body) and re.search(r"\b(?:len|length|held|head): usize", body):
            yield path, at, name


@rule("7  `match` on a format, a form of marks or a class of characters")
def switches(sources):
    return matches(sources, r"\bmatch (?:format|form|class)\b")


def main():
    words = [it for it in sys.argv[1:] if not it.startswith("--")]
    top = words[0] if words else "."
    sources = list(files(top, "src", ".rt"))
    for says, call in RULES:
        found = list(call(sources))
        print(f"{len(found):6} {says}")
        if "--list" in sys.argv:
            for path, at, what in found:
                print(f"           {path}:{at} {what}")
    proofs = list(files(top, "proofs", ".antt"))
    print(f"{sum(path.endswith('/Proof.antt') for path, _ in proofs):6} 8  functions whose proof is a walk (proofs/F/Proof.antt)")
    print(f"{sum(text.count(chr(10)) for _, text in proofs):6} 8  lines of proofs/")


main()
