"""What the checks of this folder share: arguments, the files of the crates, functions with their clauses, and a text against its file."""
import difflib
import pathlib
import re
import sys

COMMENT = re.compile(r"//[^\n]*|/\*.*?\*/", re.S)
CLAUSE = re.compile(r"(requires|ensures)\*?\s*(\w*)\s*\{")
PAIRS = {"(": ")", "[": "]", "{": "}"}


def arguments():
    """The repository's root, which an argument may name, and whether --update is given."""
    words = sys.argv[1:]
    root = next((word for word in words if not word.startswith("-")), pathlib.Path(__file__).resolve().parent.parent)
    return pathlib.Path(root), "--update" in words


def files(folder, suffix):
    """The files of a crate, or of all, but for what a check left in a folder out/."""
    return [f for f in sorted(folder.rglob("*" + suffix)) if f.is_file() and "out" not in f.relative_to(folder).parts]


def settle(path, lines, update, bad):
    """Ends the run: writes the lines with --update, else fails with their difference from the file's, if any, and all that is bad. A file that
    is not there has no lines."""
    name = path.name
    if update:
        path.write_text("\n".join(lines) + "\n")
    else:
        before = path.read_text().splitlines() if path.exists() else []
        bad = [*bad, *difflib.unified_diff(before, lines, name, f"{name}, anew", lineterm="", n=0)]
    sys.exit("\n".join(bad) if bad else 0)


def closed(text, at):
    """The place behind the bracket that closes the one at `at`."""
    wanted = []
    for at in range(at, len(text)):
        if text[at] in PAIRS:
            wanted.append(PAIRS[text[at]])
        elif wanted and text[at] == wanted[-1]:
            wanted.pop()
            if not wanted:
                return at + 1
    sys.exit(f"{pathlib.Path(sys.argv[0]).name}: a bracket is not closed")


def flat(text):
    """The text in one line."""
    text = " ".join(text.split())
    return re.sub(r",? ([)\]])", r"\1", re.sub(r"([(\[]) ", r"\1", text))


def parts(text):
    """What stands between commas outside of brackets."""
    out, depth, start = [], 0, 0
    for at, x in enumerate(text):
        depth += (x in "([{<") - (x in ")]}" or (x == ">" and text[at - 1] != "-"))
        if x == "," and not depth:
            out.append(text[start:at].strip())
            start = at + 1
    return [*out, *filter(None, [text[start:].strip()])]


def functions(text, head):
    """Each function, in text without comments, that begins as `head` says: its name, signature, parameters with their types, clauses
    (word, name and text), body, and place."""
    for m in re.finditer(head + r"\s+(\w+)\s*(?:<[^(]*>)?\(", text, re.M):
        end = closed(text, m.end() - 1)
        inside = parts(text[m.end() : end - 1])
        clauses, at, result = [], end, None
        while at < len(text) and text[at] not in "{;":
            c = CLAUSE.match(text, at)
            if c:
                result = text[end:at] if result is None else result
                stop = closed(text, c.end() - 1)
                clauses.append((c[1], c[2], flat(text[c.end() : stop - 1])))
                at = stop
            else:
                at = closed(text, at) if text[at] in "([" else at + 1
        result = flat(text[end:at] if result is None else result)
        yield {
            "name": m[1],
            "at": m.start(),
            "signature": f"{m[1]}({flat(', '.join(inside))}) {result}".rstrip(),
            "parameters": [[word.strip() for word in p.partition(":")[::2]] for p in inside],
            "clauses": clauses,
            "body": text[at : closed(text, at)] if text[at : at + 1] == "{" else "",
        }
