#!/usr/bin/env python3
"""Turns the names of goals and steps in a crate's answers and invariants to the ones that the checker makes today.

usage: tools/goal_names.py NAMES CRATE    at the top of the repository, after `rt check --generated NAMES --old-names` in the crate

An older checker joined the words of a source name by `-`; today it keeps `_`. A name is turned only in the folder of the function
that has it, behind a dot, at the start of a line or in an import of goals.
"""

import json
import os
import re
import sys

NAME = r"[A-Za-z_][A-Za-z0-9_']*(?:-[A-Za-z0-9_']+)*"


def words(it, found):
    if isinstance(it, str):
        if re.fullmatch(NAME, it):
            found.add(it)
    elif isinstance(it, dict):
        for key, value in it.items():
            words(key, found)
            words(value, found)
    elif isinstance(it, list):
        for value in it:
            words(value, found)


def turned(text, spelt):
    def of_name(it):
        return it[1] + spelt.get(it[2], it[2])

    def of_import(it):
        return it[1] + re.sub(NAME, lambda name: spelt.get(name[0], name[0]), it[2])

    text = re.sub(r"(\.)(" + NAME + r")", of_name, text)
    text = re.sub(r"(?m)^((?:abbrev |pub )*)(" + NAME + r")(?= )", lambda it: of_name(it) if it[2] not in ("abbrev", "pub", "use") else it[0], text)
    text = re.sub(r"([\[|] )((?:then|else)-[\w'-]+)", of_name, text)
    return re.sub(r"(?m)^(use [\w.'-]+\.Goals\.)(\{[^}]*\})", of_import, text)


def main(argv):
    if len(argv) != 2:
        print(__doc__)
        return 2
    with open(os.path.join(argv[0], "names.json"), encoding="utf-8") as f:
        names = json.load(f)
    for key, value in names.items():
        if not key.startswith(f"Rattle-{argv[1]}-proofs.") or not key.endswith(".Lts"):
            continue
        folder = os.path.join("crates", argv[1], "proofs", *key[len(f"Rattle-{argv[1]}-proofs.") : -len(".Lts")].split("."))
        found = set()
        words(value, found)
        found |= {branch + name[len("if") :] for name in found if name.startswith("if-") for branch in ("then", "else")}
        spelt = {}
        for name in sorted(found):
            spelt.setdefault(name.replace("_", "-"), name)
        spelt = {old: new for old, new in spelt.items() if old != new and old not in found}
        for file in ("Answers.antt", "Invariants.antt"):
            path = os.path.join(folder, file)
            if os.path.exists(path):
                with open(path, encoding="utf-8") as f:
                    text = f.read()
                new = turned(text, spelt)
                if new != text:
                    with open(path, "w", encoding="utf-8") as f:
                        f.write(new)
                    print(path)
    return 0


if __name__ == "__main__":
    raise SystemExit(main(sys.argv[1:]))
