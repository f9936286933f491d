#!/usr/bin/env python3
"""worked_table.py [--update] [ROOT]: the printed column of the worked table in the theorem, against oracle/worked_table.txt.

Each line of that file has a sentence, a bar, and the numbers of the theorem's rows for it, rows apart by semicolons; the original computes
it anew (oracle/worked_table.rs). The theorem's rows, `row (PRINTED) (COMPUTED)`, are the list `worked_table` of a file WorkedTable.antt below
crates/viewer. Fails where a printed number is no literal or another than the file's, where a row is missing or too many, and where a
computed side names no definition; --update writes the file's numbers into the theorem. Needs Python 3.
"""
import re
import sys

from texts import arguments, closed, files

FILE = "oracle/worked_table.txt"
TABLE = re.compile(r"^worked_table =\n(?:(?:[ ]+.*)?\n)*", re.M)
LITERAL = re.compile(r"0x[0-9a-f]+|[0-9]+")


def parenthesised(text, at):
    """What stands in the parentheses that open at or behind a place, and the place behind them."""
    start = text.index("(", at)
    end = closed(text, start)
    return text[start + 1 : end - 1], end


def numbers(text):
    """The literals of a list; None where it holds anything else."""
    words = [word.strip() for word in text.split("∷")]
    return words[:-1] if words[-1] == "[]" and all(map(LITERAL.fullmatch, words[:-1])) else None


def values(words):
    return [int(word, 0) for word in words]


def main():
    root, update = arguments()
    wanted = []
    for line in (root / FILE).read_text().splitlines():
        sentence, bar, rows = line.partition(" | ")
        if not bar:
            sys.exit(f"worked_table.py: {FILE} has no numbers for: {sentence}")
        wanted += [(sentence, row.split()) for row in rows.split(";")]

    tables = [(f, m) for f in files(root / "crates/viewer", "WorkedTable.antt") for m in TABLE.finditer(f.read_text())]
    if len(tables) != 1:
        sys.exit(f"worked_table.py: {len(tables)} lists `worked_table` in files WorkedTable.antt below crates/viewer, not one")
    file, table = tables[0]
    # Comments as spaces, so that places stay.
    text = re.sub(r"--[^\n]*", lambda m: " " * len(m[0]), table[0])

    bad, changes, found = [], [], 0
    for m in re.finditer(r"\brow\b", text):
        printed, end = parenthesised(text, m.end())
        computed, _ = parenthesised(text, end)
        sentence, right = wanted[found] if found < len(wanted) else ("no sentence", [])
        found += 1
        given = numbers(printed)
        if given is None or values(given) != values(right):
            bad.append(f"{sentence}: {FILE} has {' '.join(right)}, the theorem {' '.join(printed.split())}")
            changes.append((end - 1 - len(printed), end - 1, " ∷ ".join([*right, "[]"])))
        if not re.search(r"[A-Za-z]\w*", re.sub(r"0x[0-9a-f]+", "", computed)):
            bad.append(f"{sentence}: the computed side names no definition: {' '.join(computed.split())}")
    if found != len(wanted):
        bad.append(f"{FILE} has {len(wanted)} rows, the theorem {found}")
    if update:
        whole = table[0]
        for start, end, right in reversed(changes):
            whole = whole[:start] + right + whole[end:]
        text = file.read_text()
        file.write_text(text[: table.start()] + whole + text[table.end() :])
    elif bad:
        sys.exit("\n".join(bad))


main()
