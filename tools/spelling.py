#!/usr/bin/env python3
"""Respells the repository's own definitions, fields, constructors and lemmas: words joined by `_` where they were joined by `-`, and by
capitals in the name of a type.

usage: tools/spelling.py [--list]    at the top of the repository

The names that the checker makes (goals, steps) and the library's keep their dashes. It stops, and writes nothing, where two names
of specs/ and proofs/ would fall together.
"""

import os
import re
import sys

NAME = r"[A-Za-z_][A-Za-z0-9_']*(?:-[A-Za-z0-9_']+)+"
WORD = re.compile(r"(?<![\w'·-])" + NAME + r"(?![\w'-])")
PLAIN = re.compile(r"(?<![\w'·-])[A-Za-z_][A-Za-z0-9_']*(?:-[A-Za-z0-9_']+)*(?![\w'-])")
HEAD = re.compile(r"^\s*(?:(?:abbrev|unfoldable|pub)\s+)*(" + NAME + r")\s*:\s*(.*)$")
TYPE = re.compile(r"^\s*(?:pub\s+)?(?:record|data)\s+(" + NAME + r")")
ALIAS = re.compile(r"\bas\s+(" + NAME + r")\b")
BOUND = re.compile(r"(?:\blet\s+|λ\s+|λ\s+\(|[({]|[({](?:[A-Za-z0-9_'-]+\s+)+)(" + NAME + r")\s*(?::|\.\s|=)")
RECORD = re.compile(r"^(\s*)(?:pub\s+)?record\b.*\bwhere\s*$")
OURS = re.compile(r"Rattle\.(?:text|table|compare|judge)\.")
IMPORT = re.compile(r"^(?:ghost )?use ([\w.]+)\.\{([^}]*)\}", re.M)
RESERVED = set(
    "data record deriving module where use mod pub package open as unfoldable abbrev axiom unfold unfolding ruleset mutual infix infixl infixr elim let in do Type coe fcoe tcoe hcom com".split()
)
QUOTED = re.compile(r"«(\w+)»")
MODULE = re.compile(r"^use [\w.]+ as ([\w]+)$", re.M)

# ghost fields of a book, and the fields of its soundness that say the same
ALIKE = {"none_empty", "none_past", "one_row", "rows_padded", "states_padded"}


def files():
    for folder, dirs, names in os.walk("crates"):
        dirs[:] = sorted(d for d in dirs if d not in ("out", "must-fail"))
        for name in sorted(names):
            if name.endswith((".rt", ".antt")):
                yield os.path.join(folder, name)


def own(texts):
    """The dashed names that this repository defines, each with the first place where it does, and those of them that are fields."""
    found, fields = {}, set()
    for path, text in texts.items():
        inside = None
        for number, line in enumerate(text.split("\n"), 1):
            if not line.strip() or line.lstrip().startswith("--"):
                continue
            indent = len(line) - len(line.lstrip())
            if inside is not None and indent <= inside:
                inside = None
            head = HEAD.match(line) if path.endswith(".antt") else None
            if head and not head[2].startswith("goal."):
                found.setdefault(head[1], f"{path}:{number}")
                if inside is not None:
                    fields.add(head[1])
            for pattern in (TYPE, ALIAS) + ((BOUND,) if path.endswith(".antt") else ()):
                for it in pattern.finditer(line):
                    found.setdefault(it[1], f"{path}:{number}")
            record = RECORD.match(line)
            if record:
                inside = len(record[1])
    return found, fields


def spelt_today(name):
    """Words joined by `_`; a type's, by capitals."""
    words = name.split("-")
    return "".join(word[:1].upper() + word[1:] for word in words) if name[0].isupper() else "_".join(words)


def library(text):
    """The names that a file imports from elsewhere."""
    return {name.split(" as ")[0].strip() for it in IMPORT.finditer(text) if not OURS.match(it[1] + ".") for name in it[2].split(",")}


def main(argv):
    texts = {}
    for path in files():
        with open(path, encoding="utf-8") as f:
            texts[path] = f.read()
    names, fields = own(texts)
    if argv == ["--list"]:
        for name in sorted(names):
            print(name, names[name], "field" if name in fields else "")
        return 0
    plain = {}
    for path, text in texts.items():
        if path.endswith(".antt"):
            for it in PLAIN.finditer(text):
                plain.setdefault(it[0], path)
    flat = {name: spelt_today(name) for name in names}
    clashes = [(name, plain[flat[name]]) for name in sorted(names) if flat[name] in plain and flat[name] not in ALIKE]
    if clashes:
        for name, path in clashes:
            print(f"{name} ({names[name]}) would fall together with a name in {path}")
        return 1
    for path, text in texts.items():
        kept = library(text)
        modules = MODULE.findall(text)

        def spelt(it):
            before = text[: it.start()]
            after_dot = before.endswith(".") and not re.search(r"(?<![\w.-])(?:" + "|".join(modules or ["-"]) + r")\.$", before[-40:])
            return it[0] if it[0] not in names or it[0] in kept or (after_dot and it[0] not in fields) else flat[it[0]]

        turned = QUOTED.sub(lambda it: it[0] if it[1] in RESERVED else it[1], WORD.sub(spelt, text))
        if turned != text:
            with open(path, "w", encoding="utf-8") as f:
                f.write(turned)
    print(f"{len(names)} names")
    return 0


if __name__ == "__main__":
    raise SystemExit(main(sys.argv[1:]))
