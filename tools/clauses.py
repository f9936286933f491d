#!/usr/bin/env python3
"""clauses.py [--update] [ROOT]: the promises of the exported calls, against tests/clauses.txt and against the calls that they hand on to.

An export is a `pub extern "C" fn` of the crate that crates.txt calls a static library. In tests/clauses.txt stand the definitions that the
file imports, by their full names, and each export's signature and clauses, with a line for what it hands on to: each clause of that call has
to stand in the export under its name, and is compared with it. Left out of the comparison are parentheses and the words for an answer as a
number and a value (VIEWS); the export's parameters stand for the call's.
A clause that the export puts in other words is printed beside the call's. Fails where a clause of a call is missing, where an export hands on
to no call of another crate, where an import cannot be read, and where the text is not that of tests/clauses.txt; --update writes that file. Needs Python 3.
"""
import re
import sys

from texts import COMMENT, arguments, closed, files, functions, parts, settle

# Words that turn an answer into its number or its value.
VIEWS = {
    "Rattle.planar_yuv.specs.Answers.layout_of",
    "Rattle.planar_yuv.specs.Answers.reply_of",
    "Rattle.stretch_rect.specs.Yuv.rgb_list",
    "Rattle.stretch_rect.specs.Yuv.colour_in",
    "Rattle.regions.specs.Replies.reply_number",
    "Rattle.convert.specs.Fill.handed",
    "Rattle.convert.specs.Fill.pixel_of",
    "Rattle.depth_texture.specs.Layouts.answer_number",
    "Rattle.depth_texture.specs.Layouts.answer_layout",
    "Rattle.depth_texture.specs.Replies.reply_number",
    ".number",
    ".reply",
}
IMPORT = re.compile(r"^ghost use ([\w.]+?)(?:\.\{([^}]*)\}| as (\w+));", re.M)


def called(root, text, body):
    """The call that a body hands on to: its path, its function, its arguments and the imports of its file."""
    for m in re.finditer(r"\b((?:\w+::)+)(\w+)\s*\(", body):
        path = m[1].split("::")[:-1]
        owner = None
        if path[0][0].isupper():
            owner = path[0]
            use = re.search(rf"^use ([\w:]+)::(?:\{{[^}}]*\b{owner}\b[^}}]*\}}|{owner});", text, re.M)
            if not use:
                continue
            path = use[1].split("::")
        found = []
        for file in files(root / "crates" / path[0], ".rt"):
            code = COMMENT.sub("", file.read_text())
            known = imports(code)
            if owner:
                impl = re.search(rf"^impl(?:<[^>]*>)? {owner}\b[^{{]*\{{", code, re.M)
                code = code[impl.start() : closed(code, impl.end() - 1)] if impl else ""
            named = [f for f in functions(code, r"^    pub fn" if owner else r"^pub fn") if f["name"] == m[2]]
            found += [(file.stem == path[-1] or file.stem == "lib" and not path[1:], f, known) for f in named]
        # A name that several files of the crate have is the one of the file that the path names.
        found = [f for f in found if f[0]] or found
        if len(found) > 1:
            sys.exit(f"clauses.py: {len(found)} functions {m[2]} in crates/{path[0]}")
        if found:
            _, function, known = found[0]
            stop = closed(body, m.end() - 1)
            return m[0].rstrip("( "), function, parts(body[m.end() : stop - 1]), known
    return None


def imports(text):
    """The module of each name that clauses of the file may cite; an alias of a module ends in a dot."""
    found = {}
    for module, names, alias in IMPORT.findall(text):
        found.update({name.strip(): f"{module}.{name.strip()}" for name in names.split(",") if name.strip()})
        if alias:
            found[alias + "."] = module + "."
    return found


def words(text, known, answers, replaced):
    """A clause as words: names with their modules, parameters replaced, an answer as one word, no parentheses and no views."""
    for answer in answers:
        text = re.sub(rf"(?<![.\w]){answer}(?![\w'])", "answer", text)
    if replaced:
        names = "|".join(map(re.escape, replaced))
        text = re.sub(rf"(?<![.\w])({names})(?![\w'])", lambda m: replaced[m[1]], text)
    found = re.findall(r"[^\s()]+", text.replace(").", ") ."))
    found = [re.sub(r"^\w+\.", lambda m: known.get(m[0], m[0]), word) for word in found]
    found = [known.get(word, word) for word in found]
    return [word for word in found if word not in VIEWS]


def argument(given):
    given = given.strip()
    if given.startswith("*"):
        return given[1:] + ".now"
    return re.sub(r"^&(mut )?", "", given)


def compared(root, text, export):
    """The lines on what an export hands on to, and what fails."""
    found = called(root, text, export["body"])
    if not found:
        return [], [f"{export['name']} hands on to no call of another crate"]
    path, call, arguments, known = found
    replaced = dict(zip([name for name, _ in call["parameters"]], map(argument, arguments)))
    lent = set(re.findall(r"\w+", " ".join(arguments)))
    out = [rf"{name}\.new" for name, kind in export["parameters"] if kind.startswith("&mut") and name not in lent]
    own = [(word, name, words(said, imports(text), ["result", *out], {})) for word, name, said in export["clauses"]]
    same, lines, bad = [], [], []
    for word, name, said in call["clauses"]:
        # Two facts of one clause, `A × B`, may be two clauses of the export.
        facts = said.split(" × ") if not any(n == name for _, n, _ in own) else [said]
        wanted = [words(fact, known, ["result"], replaced) for fact in facts]
        if all(any(w == word and t == fact and (n == name or not name or facts[1:]) for w, n, t in own) for fact in wanted):
            same.append(name or word)
        elif not any(n == name for _, n, _ in own):
            bad.append(f"{export['name']} lacks the clause `{name or word}` of {path}: {said}")
        else:
            lines.append(f"    {name} of that call: {said}")
    return [f"  hands on to {path}, the same: {' '.join(same) or 'none'}", *lines], bad


def main():
    root, update = arguments()
    library = re.search(r"^(\w+)\s+staticlib\b[^:\n]*:", (root / "crates.txt").read_text(), re.M)
    if not library:
        sys.exit("clauses.py: crates.txt has no static library")
    lines, bad = [], []
    for file in files(root / "crates" / library[1], ".rt"):
        text = COMMENT.sub("", file.read_text())
        if len(re.findall(r"\bghost use\b", text)) != len(IMPORT.findall(text)):
            bad.append(f"{file.relative_to(root)}: an import is not `ghost use MODULE.{{NAMES}};` or `ghost use MODULE as NAME;`")
        names = [f"{full}* as {name}*" if name.endswith(".") else full for name, full in imports(text).items()]
        lines += [f"imports {full}" for full in sorted(names)]
        for export in functions(text, r'^pub extern "C" fn'):
            lines.append(export["signature"])
            lines += [f"  {word} {name}: {said}".replace(" :", ":") for word, name, said in export["clauses"]]
            more, wrong = compared(root, text, export)
            lines += more
            bad += wrong
    if not any(line[0] != " " and not line.startswith("imports ") for line in lines):
        bad.append(f"crates/{library[1]} exports nothing")
    path = root / "tests/clauses.txt"
    settle(path, lines, update, bad)


main()
