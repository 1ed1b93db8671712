#!/usr/bin/env python3
"""Lists the places of src/ where an older form may stand, point by point, with their number.

usage: tools/places.py [REVISION]    at the top of the repository; without a revision, of the files as they lie there

Each line is a place to look at, not a verdict: docs/DESIGN-PASS.md says which of them are what.
"""

import collections
import pathlib
import re
import subprocess
import sys

LINES = [
    ("1 an enum of one's own", r"^\s*(pub(\(crate\))? )?enum "),
    ("1 a refusal handed out in an Option", r"-> Option<\w*Fault>"),
    ("1 a number that stands for a kind", r"^\s*(pub(\(crate\))? )?(seen|step|book|kind|code): u\d+,"),
    ("1 a bool that says which of two was read", r"-> Result<bool, \w*Fault>"),
    ("1 a refusal taken apart where `?` would pass it on", r"\bErr\((_|fault)\) =>"),
    ("3 while, loop", r"^\s*(while|loop)\b"),
    ("3 for over a range of numbers", r"\bfor \w+ in \(?\w+\.\."),
    ("4 a conversion by hand", r"fn (opening|closing|blank|step_number|numbered_step|outcome_of|fresh|is_of|is_mark)\("),
    ("4 printing by hand", r"fn (put|push|write)_\w+[(<]"),
    ("4 equality by hand", r"fn (is|are)_(untouched|same|equal)\w*\(|fn untouched\("),
    ("4 a type derived without equality", r"^#\[derive\((?!.*PartialEq)"),
    ("5 the range of a draft as a requires", r"requires .*\bRanged draft"),
    ("5 a fact on two machines as a requires", r"requires (inputs|room|cells) .*(left|cells)"),
    ("5 state, input and stretch side by side", r"\bstate: u8, input: u8, stretch: u8"),
    ("5 two machines side by side", r"^\s*left: &M,"),
    ("6 a buffer and a place in it", r"\((out|report): &mut \[u8\], (at|from): usize"),
    ("6 a count beside its places", r"^\s*pub count: u\d+,"),
    ("6 places that go with another list", r"^\s*(pub\(crate\) )?(offsets|parent): [\[u]"),
    ("7 a closure, a function handed on", r"\bdyn |impl Fn|: Fn(Once|Mut)?\(|\bfn\("),
]

WORD = re.compile(r"[A-Za-z_][A-Za-z0-9_]*|\d+|'[^']'|b?\"[^\"]*\"|\S")
KEPT = set("fn let mut for in if else while match return self Some None Ok Err as pub struct enum impl ref loop break".split())


def files(revision):
    if revision:
        names = subprocess.run(["git", "ls-tree", "-r", "--name-only", revision, "crates"], capture_output=True, text=True, check=True).stdout.split()
    else:
        names = [str(path) for path in sorted(pathlib.Path("crates").glob("*/src/**/*.rt"))]
    for name in names:
        if "/src/" in name and name.endswith(".rt"):
            if revision:
                yield name, subprocess.run(["git", "show", f"{revision}:{name}"], capture_output=True, text=True, check=True).stdout
            else:
                yield name, pathlib.Path(name).read_text()


def functions(text):
    """The functions of a file: name, line, and body without clauses."""
    lines = text.split("\n")
    for start, line in enumerate(lines):
        head = re.match(r"(\s*)(pub(\(crate\))? )?fn (\w+)", line)
        if not head:
            continue
        indent = head.group(1)
        end = start
        while end < len(lines) and lines[end] != indent + "}" and not (end == start and line.rstrip().endswith("}")):
            end += 1
        body = [l for l in lines[start : end + 1] if not re.match(r"\s*(requires|ensures|ghost|//)", l)]
        yield head.group(4), start + 1, "\n".join(body)


def shape(body):
    """The text of a function with every name, number and string of its own put alike."""
    out = []
    for word in WORD.findall(body):
        if word in KEPT or not re.match(r"[A-Za-z_0-9'\"b]", word):
            out.append(word)
        else:
            out.append("x")
    return " ".join(out)


def main():
    revision = sys.argv[1] if len(sys.argv) > 1 else None
    all_files = list(files(revision))
    for title, pattern in LINES:
        found = [(name, k + 1, line.strip()) for name, text in all_files for k, line in enumerate(text.split("\n")) if re.search(pattern, line)]
        print(f"{title}: {len(found)}")
        for name, k, line in found:
            print(f"    {name}:{k}: {line}")
    groups = collections.defaultdict(list)
    for name, text in all_files:
        for function, line, body in functions(text):
            if body.count("\n") >= 3:
                groups[shape(body)].append(f"{name}:{line}: {function}")
    twins = [group for group in groups.values() if len(group) > 1]
    print(f"2 functions of one shape: {len(twins)} groups, {sum(map(len, twins))} functions")
    for group in twins:
        print("    " + "; ".join(group))


main()
