#!/usr/bin/env python3
"""Turns the names of this repository's definitions and lemmas to snake case, and its types to camel case.

usage: python3 tools/respell.py [--names]     at the top of the repository, once, after the kit's port.py

A name is turned where specs/ or a lemma file of proofs/ declares it with a hyphen: `edge-cells` becomes `edge_cells`,
`Tie-rule` becomes `TieRule`. It is turned wherever it stands, but for the names that a file brings in from a library.
Names that the check makes (`loop-i-preserved`) and names of src/ stay. --names prints the table and changes nothing.
"""

import glob
import re
import sys

WORD = re.compile(r"[A-Za-z_][\w'₂]*(?:-[\w'₂]+)+")
DECLARED = re.compile(r"\s*(?:(?:abbrev|unfoldable|pub|record|data)\s+)*([A-Za-z][\w'₂]*(?:-[\w'₂]+)+)\s*:(?!:)")
TYPE = re.compile(r"\s*(?:(?:pub|record|data)\s+)+([A-Za-z][\w'₂]*(?:-[\w'₂]+)+)\s*[({]")
IMPORT = re.compile(r"use Rattle\.(\w+)\.[\w.+]*\{([^}]*)\}")
# a name that says which library word it is about takes that word's name of today
OTHERWISE = {"getD-negatives": "get_or_negatives"}


def turned(name):
    if name in OTHERWISE:
        return OTHERWISE[name]
    if name[0].isupper():
        return "".join(part[0].upper() + part[1:] for part in name.split("-"))
    return name.replace("-", "_")


def table():
    names = set()
    for path in glob.glob("crates/*/specs/*.antt") + glob.glob("crates/*/proofs/*.antt"):
        with open(path, encoding="utf-8") as f:
            names.update(m.group(1) for line in f for m in (DECLARED.match(line), TYPE.match(line)) if m)
    return {name: turned(name) for name in sorted(names)}


def from_libraries(text, own):
    found = set()
    for crate, items in IMPORT.findall(text):
        if crate not in own:
            found.update(item.split(" as ")[-1].strip() for item in items.split(","))
    return found


def main():
    names = table()
    if len(set(names.values())) != len(names):
        sys.exit("two names would become one")
    if "--names" in sys.argv:
        for old, new in names.items():
            print(old, new)
        return
    own = {path.split("/")[1] for path in glob.glob("crates/*/")}
    files = [p for p in glob.glob("crates/**/*", recursive=True) if p.endswith((".rt", ".antt")) and "/out/" not in p]
    for path in sorted(files):
        with open(path, encoding="utf-8") as f:
            text = f.read()
        foreign = from_libraries(text, own)
        new = WORD.sub(lambda m: m.group(0) if m.group(0) in foreign else names.get(m.group(0), m.group(0)), text)
        if new != text:
            with open(path, "w", encoding="utf-8") as f:
                f.write(new)


if __name__ == "__main__":
    main()
