#!/usr/bin/env python3
"""uncited.py [ROOT]: the declarations of specs/ and proofs/ that no function reaches.

Reached is what a function or a type of a crate cites in a clause, a ghost member or a tactic line, what the proof files of a function
(proofs/FUNCTION/..) declare, and what a declaration that is reached cites. Prints each other one with its file and line, and fails. Names
are followed through the files' imports, as the prover reads them. Needs Python 3.
"""
import re
import sys

from texts import COMMENT, arguments, closed, files

HEAD = re.compile(
    r" *(?:abbrev |unfoldable )?(?P<public>pub )?(?:record |data )?(?P<name>[^\s:(){};,]+)(?: \{[^}]*\}| \([^)]*\))* :(?: |$)"
)
MODULE = re.compile(r" *module .*\bwhere$")
USE = re.compile(r"^ *(?:ghost |pub )?use ([\w.+-]+?)(?:\.\{([^}]*)\}| as (\w+))?;?$", re.M)
GHOST = re.compile(r"\b(?:requires|ensures)\*?\s*\w*\s*\{|\bghost\s+(?:field\s+)?\w+\s*[:=]\s*\{")
WORD = re.compile(r"[^\s(){}\[\];,]+")


def names_of(text):
    """What the imports of a file give: the module of each name, and the modules of the aliases."""
    given, aliases = {}, {}
    for module, names, alias in USE.findall(text):
        if alias:
            aliases[alias] = module
        for name in filter(None, map(str.strip, names.split(","))):
            name, _, other = name.partition(" as ")
            # An operator is used by the words between its gaps.
            for word in [other or name, *filter(None, name.split("◌"))]:
                given[word] = (module, name)
    return given, aliases


def declarations(text):
    """Each declaration of a file: its name, its line's number, whether it is public, and its text, with the headers of the modules around."""
    found, modules, header = [], [], ""
    for number, line in enumerate(text.splitlines(), 1):
        line = header + re.sub(r"(^|\s)--.*", "", line).rstrip()
        # The header of a module may have several lines.
        header = line if re.match(r" *module ", line) and not MODULE.match(line) else ""
        if header:
            continue
        depth = len(line) - len(line.lstrip())
        while line and modules and depth < modules[-1][0] + 2:
            modules.pop()
        head = HEAD.match(line)
        if MODULE.match(line):
            modules.append((depth, line))
            found.append((None, number, False, []))
        elif head and depth == (modules[-1][0] + 2 if modules else 0):
            found.append((head["name"], number, bool(head["public"]), [*(header for _, header in modules), line]))
        elif found and line and not USE.match(line):
            # What has no type of its own goes on with the declaration before.
            found[-1][3].append(line)
    return [(name, number, public, "\n".join(said)) for name, number, public, said in found if name]


def main():
    root, _ = arguments()
    declared, cited, roots = {}, {}, []

    def resolved(text, module, own, given, aliases):
        for word in WORD.findall(text):
            head, _, rest = word.partition(".")
            if head in own:
                yield (module, own[head])
            if head in given:
                yield given[head]
            if head in aliases:
                yield (aliases[head], rest.split(".")[0])

    for file in files(root / "crates", ".antt"):
        crate, folder, *rest = file.relative_to(root / "crates").with_suffix("").parts
        if folder not in ("specs", "proofs"):
            continue
        module = ".".join(["Rattle", crate, folder, *rest])
        text = file.read_text()
        found = declarations(text)
        given, aliases = names_of(text)
        own = {}
        for name, *_ in found:
            own.update({word: name for word in [name, *filter(None, name.split("◌"))]})
        for name, number, public, said in found:
            key = (module, name)
            declared[key] = f"{file.relative_to(root)}:{number} {name}"
            cited.setdefault(key, set()).update(set(resolved(said, module, own, given, aliases)) - {key})
            if public and folder == "proofs" and len(rest) > 1:
                roots.append(key)

    for file in files(root / "crates", ".rt"):
        crate = file.relative_to(root / "crates").parts[0]
        text = COMMENT.sub("", file.read_text())
        given, aliases = names_of(text)
        for m in GHOST.finditer(text):
            roots += resolved(text[m.end() : closed(text, m.end() - 1) - 1], "", {}, given, aliases)
        for m in re.finditer(r"#!?\[tactic\(", text):
            for path in re.findall(r"[\w:'₀-₉-]+::[^\s,()]+", text[m.end() : closed(text, m.end() - 1)]):
                *module, name = path.replace("crate::", crate + "::", 1).split("::")
                roots.append((".".join(["Rattle", *module]), name))

    reached, left = set(), [key for key in roots if key in declared]
    while left:
        key = left.pop()
        if key not in reached:
            reached.add(key)
            left += [other for other in cited[key] if other in declared]
    lost = [where for key, where in declared.items() if key not in reached]
    if lost:
        sys.exit("\n".join([*lost, f"uncited.py: no function reaches {len(lost)} of {len(declared)} declarations"]))


main()
