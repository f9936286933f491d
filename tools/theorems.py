#!/usr/bin/env python3
"""theorems.py [--update] [ROOT]: the theorems, each with the public function of crate viewer whose contract names it, in docs/PROMISES.md.

A theorem is a statement without parameters in a folder specs/ (`abbrev NAME : Type 0`, or a record) that a clause of such a function cites.
A function whose clauses cite none is listed with its clauses' names. The list stands in docs/PROMISES.md between `<!-- theorems -->` and
`<!-- end -->`. Fails where it differs, where no such function cites a statement of viewer/specs, and where one has no `ensures`; --update
writes it. Needs Python 3.
"""
import re
import sys

from texts import COMMENT, arguments, files, functions, settle

STATEMENT = re.compile(r"^(abbrev |unfoldable )?(?:pub )?(record )?([^\s:(){}]+) : Type 0\b", re.M)
START, END = "<!-- theorems -->", "<!-- end -->"


def sentence(text, at):
    """The first sentence of the `///` lines that end above a place, attributes aside."""
    lines = []
    for line in reversed(text[:at].splitlines()):
        line = line.strip()
        if line.startswith("///"):
            lines.insert(0, line[3:].strip())
        elif lines or not line.startswith(("#[", "#!")):
            break
    return re.split(r"(?<=\.)\s", " ".join(lines) + " ")[0].strip()


def main():
    root, update = arguments()
    statements, owed = {}, set()
    for file in files(root / "crates", ".antt"):
        crate, folder, *rest = file.relative_to(root / "crates").parts
        if folder == "specs":
            for m in STATEMENT.finditer(file.read_text()):
                if m[1] or m[2]:
                    statements.setdefault(m[3], []).append(f"crates/{crate}/specs/{'/'.join(rest)}")
                if m[1] and crate == "viewer":
                    owed.add(m[3])
    theorems, calls, bad = [], [], []
    for file in files(root / "crates/viewer", ".rt"):
        text = file.read_text()
        # Comments as spaces, so that places stay.
        bare = COMMENT.sub(lambda m: " " * len(m[0]), text)
        for function in functions(bare, r"^(?: {4})?pub fn"):
            name, promised = function["name"], [clause for clause in function["clauses"] if clause[0] == "ensures"]
            if not promised:
                bad.append(f"viewer::{name} ensures nothing")
            said = sentence(text, function["at"])
            cited = {word.split(".")[-1] for _, _, clause in promised for word in re.findall(r"[^\s(){}]+", clause)}
            named = [statement for statement in statements if statement in cited]
            owed -= set(named)
            theorems += [f"- `{statement}` ({', '.join(statements[statement])}), by `viewer::{name}`: {said}" for statement in named]
            if not named:
                clauses = ", ".join(clause[1] for clause in promised if clause[1])
                calls.append(f"- `viewer::{name}`" + (f" ({clauses})" if clauses else "") + f": {said}")
    bad += [f"no public function of viewer names {statement}" for statement in sorted(owed)]
    path = root / "docs/PROMISES.md"
    text = path.read_text()
    if text.count(START) != 1 or text.count(END) != 1:
        sys.exit(f"theorems.py: docs/PROMISES.md has no block {START} .. {END}")
    before, rest = text.split(START)
    old, after = rest.split(END)
    block = [START, "", *theorems, *calls, "", END]
    lines = (before + "\n".join(block) + after).splitlines()
    settle(path, lines, update, bad)


main()
