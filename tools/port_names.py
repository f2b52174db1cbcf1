#!/usr/bin/env python3
"""Spells this repository's own definitions, lemmas, types and modules as today's Rattle does. Run once, at the top, right after the
kit's port.py: words in snake case, types in upper camel case, an apostrophe for a prime; and the crate `hex`, whose name is now that of a
library, becomes `hex_digits`. It changes spelling alone: crates/, crates.txt, Makefile, the code spans of the documents, the edits.

usage: tools/port_names.py
"""
import collections
import glob
import os
import re
import subprocess

WORD = r"[^\s(){}\[\].;,@\"«»`]+"
TOKEN = re.compile(WORD)
DECLARED = re.compile(
    r"^(?P<in>\s*)(?:(?:abbrev|unfoldable|opaque|pattern|data|record|records|pub|module|ruleset|syntax|axiom)\s+)*"
    r"(?P<name>" + WORD + r")(?:\s*\{[^}]*\}|\s*\([^)]*\))*\s+:(?:\s|$)")
HEADED = re.compile(r"^\s*(?:pub\s+)?(?:abbrev\s+)?(?:pub\s+)?(?:data|record|records|module|mod|pub mod|ruleset)\s+(?:pub\s+)?(?P<name>" + WORD + r")")
ITEM = re.compile(r"\buse\s+([^\s;{]+?)(?:\.?\{([^}]*)\})?\s*(?:as\s+\S+)?;?\s*$")
OLD_CRATE, NEW_CRATE = "hex", "hex_digits"
# Names that would fall together with another name of the same module, and the spelling that each gets instead.
APART = {}


def read(path):
    with open(path, encoding="utf-8") as f:
        return f.read()


def write(path, text):
    with open(path, "w", encoding="utf-8") as f:
        f.write(text)


def spelled(name):
    if name in APART:
        return APART[name]
    primes = name.replace("′", "'")
    if primes[:1].isupper():
        return "".join(part[:1].upper() + part[1:] for part in re.split(r"[-_]", primes))
    words = re.sub(r"(?<=[a-z0-9])[A-Z]", lambda m: "_" + m[0].lower(), primes)
    return words.replace("-", "_")


def own_files():
    return sorted(glob.glob("crates/*/specs/*.antt") + glob.glob("crates/*/proofs/*.antt"))


def declared():
    """Each own name that changes, with the files that declare it."""
    found = collections.defaultdict(set)
    for path in own_files():
        for line in read(path).split("\n"):
            if line.startswith(("--", "use ", "pub use ")):
                continue
            match = DECLARED.match(line) or HEADED.match(line)
            if match:
                found[match["name"]].add(path)
    return found


def imports(text, crates):
    """Names that a file takes from a library."""
    taken = set()
    for line in text.split("\n"):
        match = ITEM.search(line)
        if not match or "use " not in line:
            continue
        head = re.match(r"Rattle\.(\w+)", match[1])
        if head and head[1] in crates:
            continue
        names = match[2].split(",") if match[2] else [match[1].split(".")[-1]]
        taken |= {n.strip().split(" as ")[-1] for n in names}
    return taken


def turn_code(text, table, kept, proof):
    def one(match):
        word = match[0]
        if word not in table or word in kept:
            return word
        before = text[max(0, match.start() - 60):match.start()]
        if proof and before.endswith(".") and "-" in word:
            # a name that the proof's own walk makes, unless a module stands before the dot
            owner = re.search(r"([^\s(){}.]+)\.$", before)
            if not owner or not owner[1][:1].isupper():
                return word
        return table[word]

    return TOKEN.sub(one, text)


def turn_comment(text, table):
    text = re.sub(r"`[^`\n]+`", lambda m: TOKEN.sub(lambda w: table.get(w[0], w[0]), m[0]), text)
    return TOKEN.sub(lambda w: table[w[0]] if w[0] in table and re.search(r"[a-z][A-Z]", w[0]) and w[0][0].islower() else w[0], text)


def turn_file(path, table, crates):
    text = read(path)
    mark = "--" if path.endswith(".antt") else "//"
    proof = bool(re.search(r"/proofs/.+/", path))
    kept = imports(text, crates)
    out = []
    for line in text.split("\n"):
        at = re.search(r"(?:^|\s)" + mark + r"(?:\s|$)", line)
        code, comment = (line[:at.start()], line[at.start():]) if at else (line, "")
        out.append(turn_code(code, table, kept, proof) + turn_comment(comment, table))
    new = "\n".join(out)
    if new != text:
        write(path, new)


def met(table, found):
    """Names whose new spelling another own name has already in some file: the dashed one of two, a lemma, gives way."""
    out = set()
    turned = collections.defaultdict(set)
    for name, new in table.items():
        turned[new].add(name)
    for path in glob.glob("crates/**/*.antt", recursive=True):
        text = re.sub(r"(?m)(^|\s)--(\s.*)?$", "", read(path))
        text = re.sub(r"\buse [^\s{]+", "", text)
        words = {w for w in TOKEN.findall(re.sub(r"[^\s(){}]+\.(?=[^\s(){}])", "", text))}
        for new, names in turned.items():
            here = names & words
            if len(here) > 1 or here and new in words and new in found:
                out |= {(name, new) for name in here if "-" in name}
    return sorted(out)


def turn_crate():
    if not os.path.isdir("crates/" + OLD_CRATE):
        return
    subprocess.run(["git", "mv", "crates/" + OLD_CRATE, "crates/" + NEW_CRATE], check=True)
    for path in glob.glob("crates/**/*.antt", recursive=True) + glob.glob("crates/**/*.rt", recursive=True):
        text = read(path)
        new = re.sub(r"\bRattle\.%s\." % OLD_CRATE, "Rattle.%s." % NEW_CRATE, text)
        if path.endswith(".rt"):
            new = re.sub(r"(?<![\w.:])%s::" % OLD_CRATE, NEW_CRATE + "::", new)
        if new != text:
            write(path, new)
    lines = []
    for line in read("crates.txt").split("\n"):
        if not line.startswith("#"):
            line = re.sub(r"(?<![\w])%s(?![\w])" % OLD_CRATE, NEW_CRATE, line)
        lines.append(line)
    write("crates.txt", "\n".join(lines))


def main():
    turn_crate()
    crates = set(os.listdir("crates"))
    found = declared()
    table = {name: spelled(name) for name in found if spelled(name) != name}
    for _ in range(2):
        for name, new in met(table, found):
            table[name] = new + "_lem"
    meets = collections.defaultdict(set)
    for name in list(found):
        meets[table.get(name, name)].add(name)
    for name, new in met(table, found):
        print("look: still together: %s %s" % (name, new))
    for new, olds in sorted(meets.items()):
        if len(olds) > 1:
            print("look: fall together: %s: %s" % (new, "; ".join("%s (%s)" % (o, ", ".join(sorted(os.path.relpath(f, "crates") for f in found[o])[:3])) for o in sorted(olds))))
    for path in sorted(glob.glob("crates/**/*.antt", recursive=True) + glob.glob("crates/**/*.rt", recursive=True)):
        if "/out/" not in path:
            turn_file(path, table, crates)
    for path in glob.glob("crates/*/must-fail/*.edit"):
        text = read(path)
        new = TOKEN.sub(lambda w: table.get(w[0], w[0]), text)
        new = re.sub(r"\bRattle\.%s\." % OLD_CRATE, "Rattle.%s." % NEW_CRATE, new)
        if new != text:
            write(path, new)
    for path in ["README.md"] + glob.glob("docs/*.md"):
        text = read(path)
        new = re.sub(r"`[^`\n]+`", lambda m: TOKEN.sub(lambda w: table.get(w[0], w[0]), m[0]), text)
        if new != text:
            write(path, new)
    print("%d names" % len(table))


main()
