#!/usr/bin/env python3
"""edits.py [--update] [ROOT]: the must-fail edits, crate by crate, against tests/edits.txt.

A line is an edit's crate and label, the file that it changes, and the function or declaration in which its first change lies. Fails where an
edit's text does not stand once in its file, and where the list is not tests/edits.txt, so that a deleted edit shows; --update writes that
file. Needs Python 3.
"""
import re

from texts import arguments, settle

FUNCTION = re.compile(r"^\s*(?:pub(?:\([^)]*\))? )?(?:const )?(?:extern \"C\" )?fn (\w+)", re.M)
ITEM = re.compile(r"^\s*(?:pub(?:\([^)]*\))? )?(?:impl\b[^{]*|(?:struct|enum|trait|const|static) \w+)", re.M)
DECLARATION = re.compile(r"^ {0,2}(?:abbrev |unfoldable )?(?:pub )?(?:record |data )?([^\s:(){}]+)(?: [({][^:]*)? : ", re.M)


def place(file, text, at):
    """The function or the declaration around a place: the last that begins at or before its line."""
    line = text.find("\n", at) if "\n" in text[at:] else len(text)
    heads = [DECLARATION] if file.suffix == ".antt" else [FUNCTION, ITEM]
    found = [m for head in heads for m in head.finditer(text, 0, line)]
    if not found:
        return "-"
    last = max(found, key=lambda m: m.start())
    return " ".join((last[1] if last.re.groups else last[0]).split())


def listed(root):
    lines, bad = [], []
    for edit in sorted(root.glob("crates/*/must-fail/*.edit")):
        crate, name, where = edit.parts[-3], "", ""
        text, old = "", None
        for line in edit.read_text().splitlines():
            if line.startswith("file: "):
                name = line[6:].strip()
                file = root / "crates" / crate / name
                text = file.read_text() if file.is_file() else ""
            elif line.startswith("old: "):
                old = line[5:]
                if text.count(old) != 1:
                    bad.append(f"{crate}/{edit.stem}: stands {text.count(old)} times in {name}: {old}")
                elif not where:
                    where = place(file, text, text.index(old))
            elif line.startswith("new:") and old is not None:
                text = text.replace(old, line[5:], 1)
        lines.append(f"{crate}/{edit.stem}  {name}: {where}")
    return lines, bad


def main():
    root, update = arguments()
    lines, bad = listed(root)
    path = root / "tests/edits.txt"
    settle(path, lines, update, bad)


main()
