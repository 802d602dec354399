#!/usr/bin/env python3
"""Brings the repository's own definitions and lemmas to the kit's spelling: snake case, and camel case for types.

usage: tools/respell.py            in the repository, once, after the kit's port.py: rewrites crates/ in place
       tools/respell.py --table    prints the table, old and new, and writes nothing

It takes each name that a file of specs/ or proofs/ declares. A name in camel case becomes one in snake case; a type of two words loses its
dash; a dash in any other name becomes an underscore, but where both of its sides are names of functions, as in length-below. The kit's own
script then turns whole words by the table, in files of antt and in the clauses of source files; the edits that must fail are turned here.
"""

import glob
import os
import re
import subprocess
import sys
import tempfile

KIT = "/opt/rattle/port/notes/2026-11-18-names-are-in-snake-case/snake.py"
DECLARED = re.compile(r"^\s*(?:(?:abbrev|unfoldable|pub|record|data)\s+)*([^\s(){},;.:=]+(?: [^\s(){},;.:=]+)*)\s+(?:\(.*\)\s*)?:\s")
WORD = re.compile(r'[^\s(){}.;,@"«»⌜⌝]+')
# functions of the library that lemmas are named after
LIBRARY = "length take drop map append set sum product foldr get_or get_elem flat_map filter_map replicate reverse min max".split()
# what the kit's script left half turned, or what today's library calls otherwise
BY_HAND = {
    "◌andThen◌": "◌and_then◌",
    "◌when-not◌": "◌when_not◌",
    "when-not": "when_not",
    "Option·map": "option_map",
    "Option·elim": "Option-elim",
}
KEPT = {"Option-elim"}
# a module of variants under a name of its own: apart from the function of that name
ALIAS = re.compile(r"TheVariants as ([a-z]+-[a-z]+)$", re.M)
# lemmas that stand beside a function of the same name
BESIDE = {
    "place_at": ["crates/net_transitions/proofs/Arcing.antt", "crates/net_file/proofs/Whole.antt"],
    "in_order": ["crates/flat_file/proofs/Rows.antt", "crates/flat_file/proofs/Arcs.antt"],
}


def snake(name):
    return re.sub(r"(?<=[a-z0-9])([A-Z])", lambda m: "_" + m.group(1).lower(), name)


def declared():
    names, functions = set(), set()
    for path in sorted(glob.glob("crates/*/specs/**/*.antt", recursive=True) + glob.glob("crates/*/proofs/**/*.antt", recursive=True)):
        with open(path, encoding="utf-8") as f:
            for line in f:
                m = DECLARED.match(line)
                if m and not line.lstrip().startswith(("use ", "pub use ", "--", "module ")):
                    found = set(m.group(1).split())
                    names |= found
                    if "/specs/" in path and len(found) == 1 and not line.startswith(" "):
                        functions |= found
    return names, functions


def turned(name, functions):
    if name in KEPT or name.startswith(("+", "μ", "◌")):
        return name
    if name[:1].isupper():
        return re.sub(r"-(\w)", lambda m: m.group(1).upper(), name)
    parts = [snake(p).replace("getD", "get_or") for p in name.split("-")]
    if len(parts) == 2 and all(p in functions for p in parts):
        return "-".join(parts)
    return "_".join(parts)


def table():
    names, functions = declared()
    functions = {snake(f) for f in functions if "-" not in f and f[:1].islower()} | set(LIBRARY)
    rows = {n: turned(n, functions) for n in names}
    # a lemma that would have a function's name
    taken = set(LIBRARY) | {t for n, t in rows.items() if "-" not in n}
    for n, t in rows.items():
        if "-" in n and t != n and t in taken:
            rows[n] = t + "_lem"
    rows = {n: t for n, t in rows.items() if n != t}
    rows.update(BY_HAND)
    return rows


def words(path, rows):
    with open(path, encoding="utf-8") as f:
        old = f.read()
    new = WORD.sub(lambda m: rows.get(m.group(0), m.group(0)), old)
    if new != old:
        with open(path, "w", encoding="utf-8") as f:
            f.write(new)


def first():
    for path in sorted(glob.glob("crates/*/specs/**/*.antt", recursive=True) + glob.glob("crates/*/proofs/**/*.antt", recursive=True)):
        with open(path, encoding="utf-8") as f:
            found = ALIAS.findall(f.read())
        if found:
            words(path, {a: a.replace("-", "_") + "_cases" for a in found})
    for name, paths in BESIDE.items():
        for path in paths:
            words(path, {name: name + "_lem"})


def edits(rows):
    for path in sorted(glob.glob("crates/*/must-fail/*.edit")):
        with open(path, encoding="utf-8") as f:
            old = f.read()
        new = "\n".join(WORD.sub(lambda m: rows.get(m.group(0), m.group(0)), line) if line.startswith(("old:", "new:")) else line for line in old.split("\n"))
        if new != old:
            with open(path, "w", encoding="utf-8") as f:
                f.write(new)


def main():
    if "--table" not in sys.argv:
        first()
    rows = table()
    if "--table" in sys.argv:
        for old in sorted(rows):
            print(f"{old}\t{rows[old]}")
        return
    with tempfile.NamedTemporaryFile("w", suffix=".tsv", delete=False, encoding="utf-8") as f:
        f.writelines(f"{old}\t{rows[old]}\n" for old in sorted(rows))
    subprocess.run([sys.executable, KIT, "--table", f.name, "--only", "antt,rt", "crates"], check=True)
    os.unlink(f.name)
    edits(rows)


if __name__ == "__main__":
    main()
