#!/usr/bin/env python3
"""Brings the repository's own definitions and lemmas to the spelling of today's Rattle, once, behind the kit's port.py.

usage: tools/port_names.py [--list]     at the top of the repository, on what port.py made; --list only prints old and new names

Words become snake case (`next-bytes`: `next_bytes`, `ofRead`: `of_read`), facts and modules camel case (`Demand-1`: `Demand1`). What is
renamed: every name that a file of specs/ or proofs/ declares, and the variables of these files; not what Rattle makes (goals and steps in
proofs/F/), not names of the library, not functions of src/. A name that would fall together with another one of its files gets a name of its
own, in OWN.
"""
import collections
import os
import re
import sys

# names that the rule would let fall together with another one, or that are no words
OWN = {
    "Demand-1": "Demand1",
    "Demand-3": "Demand3",
    "Demand-3-calls": "Demand3Calls",
    "nothing-held": "NothingHeld",
    "any": "AnyPlace",
    "free": "Free",
    "Rest": "rest_of_block",
    "body_of": "body_answer",
}
# of these the first folder's alone
WITHIN = {"any": "crates/relocation/proofs", "free": "crates/relocation/proofs", "Rest": "crates/walk/proofs", "body_of": "crates/walk"}
# what falls together with the name that it stood for
SAME = {"signed_of as signed_of": "signed_of"}
# Rattle makes a module `specs.contracts` now
FILES = {"crates/walk/specs/Contracts.antt": "crates/walk/specs/Promises.antt"}
PATHS = {"Rattle.walk.specs.Contracts.": "Rattle.walk.specs.Promises.", "pub mod Contracts\n": "pub mod Promises\n"}

NAME = re.compile(r"(?<![\w'\u00b7\u25cc-])[A-Za-z_][\w'-]*")
DECLARED = re.compile(r"(?m)^[ ]*(?:(?:unfoldable|abbrev|pub|private|opaque)\s+)*(?:record |data )?([A-Za-z_][\w'-]*)\s+(?:\{[^}]*\}\s*|\([^)]*\)\s*)*:")
IMPORT = re.compile(r"use ([^\s.]+(?:\.[^\s.{]+)*)\.\{([^}]*)\}")


def files(ends):
    for folder, dirs, names in os.walk("crates"):
        dirs[:] = sorted(d for d in dirs if d != "out")
        for name in sorted(names):
            if name.endswith(ends):
                yield os.path.join(folder, name)


def read(path):
    with open(path, encoding="utf-8") as f:
        return f.read()


def code(path, text):
    """The text without comments and strings, each letter of them a blank."""
    blank = lambda m: re.sub(r"[^\n]", " ", m.group(0))
    if path.endswith(".antt"):
        return re.sub(r"--.*", blank, text)
    return re.sub(r'//.*|b?"(?:[^"\\\n]|\\.)*"|b\'[^\']*\'', blank, text)


def wants(name):
    return "-" in name or re.match(r"[a-z_][a-z0-9_]*[A-Z]", name)


def spelled(name):
    if name in OWN:
        return OWN[name]
    name = re.sub(r"(?<=[a-z0-9])([A-Z])", lambda m: "_" + m.group(1).lower(), name)
    return name.replace("-", "_")


def made(path):
    """Whether the file answers goals that Rattle makes."""
    return os.path.basename(path) in ("Proof.antt", "Invariants.antt", "Answers.antt") and path.split(os.sep)[2] == "proofs" and len(path.split(os.sep)) > 4


def table():
    crates = {c for c in os.listdir("crates")}
    library, found, everything = set(), set(), collections.defaultdict(set)
    for path in files((".antt", ".rt")):
        text = code(path, read(path))
        for module, names in IMPORT.findall(text):
            if module.split(".")[1:2] and module.split(".")[0] == "Rattle" and module.split(".")[1] in crates:
                continue
            library |= {n.split(" as ")[0].strip() for n in names.split(",")}
        for m in NAME.finditer(text):
            everything[m.group(0)].add(path)
        if path.endswith(".antt") and not made(path):
            found |= {n for n in NAME.findall(text) if wants(n)}
            found |= set(DECLARED.findall(text)) & set(OWN)
        if path.endswith(".rt"):
            found |= {n for n in NAME.findall(text) if re.match(r"[a-z_][a-z0-9_]*[A-Z]", n)}
    turned = {n: spelled(n) for n in sorted(found - library) if spelled(n) != n}
    return turned, everything


def main(words):
    turned, everything = table()
    if words == ["--list"]:
        for old, new in turned.items():
            both = sorted(everything[old] & everything.get(new, set()))
            print(old, new, "TOGETHER " + " ".join(both) if both else "there: " + sorted(everything[new])[0] if new in everything else "")
        return
    if words:
        print(__doc__)
        raise SystemExit(2)
    for path in list(files((".antt", ".rt"))):
        text = read(path)
        bare = code(path, text)
        out, at = [], 0
        for m in NAME.finditer(text):
            name = m.group(0)
            in_code = bare[m.start():m.end()] == name
            quoted = text[m.start() - 1:m.start()] == "`" and text[m.end():m.end() + 1] == "`"
            step = made(path) and text[m.start() - 1:m.start()] == "."
            near = path.startswith(WITHIN.get(name, "crates"))
            if name in turned and (in_code or quoted) and not step and near:
                out += [text[at:m.start()], turned[name]]
                at = m.end()
        text = "".join(out) + text[at:]
        for old, new in [*PATHS.items(), *SAME.items()]:
            text = text.replace(old, new)
        with open(path, "w", encoding="utf-8") as f:
            f.write(text)
    for old, new in FILES.items():
        os.rename(old, new)


if __name__ == "__main__":
    main(sys.argv[1:])
