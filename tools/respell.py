#!/usr/bin/env python3
"""Brings the names of this repository's own definitions and lemmas to one spelling: words in snake case.

Run once, at the top of the repository, after port.py of the toolchain. A name that is declared in a file of specs/ or proofs/ and begins
with a small letter loses its capitals and dashes: `columnAt` and `length-put` become `column_at` and `length_put`. Functions of src/,
exported names, strings, inputs and outputs are left as they are; a proof of a function `f` is called `f_spec`.

    tools/respell.py            respells
    tools/respell.py --list     only lists what would be renamed, and names that would fall together
"""
import collections
import glob
import os
import re
import sys

# Names that would fall together with another one, by hand.
BY_HAND = {}

TOKEN = re.compile(r"[^\s(){}\[\],;.:\"`|@⌜⌝«»]+")
HEAD = re.compile(r"^(\s*)(?:(?:unfoldable|abbrev|pub|pattern)\s+)*([^\s(){}\[\],;.:\"`|@]+)(?:\s*\{[ℓ, ]+\})?\s*:\s")
BINDER = re.compile(r"^(\s*)(?:(?:unfoldable|abbrev|pub)\s+)*(?:record|data)\s")


def snake(name):
    prime = ""
    while name.endswith(("'", "′")):
        name, prime = name[:-1], prime + "'"
    name = re.sub(r"([a-z0-9])([A-Z])", lambda m: m.group(1) + "_" + m.group(2).lower(), name)
    return name.replace("-", "_") + prime


def law_files():
    for pattern in ("crates/*/specs/**/*.antt", "crates/*/proofs/**/*.antt"):
        for path in sorted(glob.glob(pattern, recursive=True)):
            yield path


def is_walk(path):
    return os.path.basename(path) in ("Proof.antt", "Answers.antt", "Invariants.antt")


def code_of(line):
    """The line without its comment."""
    at = line.find("--")
    while at > 0 and not line[at - 1].isspace():
        at = line.find("--", at + 2)
    return line if at < 0 else line[:at]


def declared():
    """Names declared in law files, the fields of records among them, and where."""
    names, fields = collections.defaultdict(set), set()
    for path in law_files():
        inside = None
        for line in open(path, encoding="utf-8"):
            code = code_of(line)
            if not code.strip():
                continue
            indent = len(code) - len(code.lstrip())
            if inside is not None and indent <= inside:
                inside = None
            if BINDER.match(code):
                inside = indent
                continue
            found = HEAD.match(code)
            if not found:
                continue
            name = found.group(2)
            if name in ("use", "open", "module", "record", "data", "let", "in", "elim", "where", "unfolding") or not name[0].islower():
                continue
            if is_walk(path):
                # what the toolchain names is not ours, and helpers in such files are renamed with it
                if re.search(r":\s*(?:tie|goal)\.", code) or re.search(r"[ )}]statement\b", code):
                    continue
            names[name].add(path)
            if inside is not None:
                fields.add(name)
    return names, fields


def table():
    """Old and new names. Where a definition in capitals and a law would fall together, the law ends in `_lem`, a field in `_holds`."""
    names, fields = declared()
    wanted = collections.defaultdict(list)
    for name in names:
        wanted[BY_HAND.get(name, snake(name))].append(name)
    renamed = {}
    for new, olds in wanted.items():
        # the plain name is for the definition, or else for the name that is spelled so already
        order = sorted(olds, key=lambda old: (not re.search("[A-Z]", old), old != new, old))
        for place, old in enumerate(order):
            end = "" if place == 0 else "_holds" if old in fields else "_lem"
            end = end if place < 2 else end + str(place)
            if new + end != old:
                renamed[old] = new + end
    return names, fields, renamed


def turn(code, renamed, fields):
    """The names in a piece of antt."""
    out, last = [], 0
    for found in TOKEN.finditer(code):
        word = found.group(0)
        new = renamed.get(word)
        if new is None:
            continue
        if found.start() > 0 and code[found.start() - 1] == ".":
            head = re.search(r"[^\s(){}\[\],;:\"|@]+$", code[: found.start() - 1])
            path = head.group(0) if head else ""
            first = path.split(".")[0]
            if word not in fields and not first[:1].isupper():
                continue
        out.append(code[last : found.start()])
        out.append(new)
        last = found.end()
    return "".join(out) + code[last:]


def turn_comment(text, renamed):
    def inside(found):
        return "`" + TOKEN.sub(lambda m: renamed.get(m.group(0), m.group(0)), found.group(1)) + "`"

    text = re.sub(r"`([^`\n]+)`", inside, text)
    return TOKEN.sub(lambda m: renamed[m.group(0)] if m.group(0) in renamed and re.search("[A-Z]", m.group(0)) else m.group(0), text)


IMPORT = re.compile(r"(?m)^\s*(?:ghost )?(?:pub )?use\s+([^\s{]+)\.\{([^}]*)\}")


def without_imports(text, renamed):
    """The renamings without names that the text has from a library."""
    brought = set()
    for found in IMPORT.finditer(text):
        parts = found.group(1).split(".")
        if parts[0] == "Rattle" and len(parts) > 1 and os.path.isdir(os.path.join("crates", parts[1])):
            continue
        for item in found.group(2).split(","):
            brought.add(item.split(" as ")[-1].strip())
            brought.add(item.split(" as ")[0].strip())
    return {old: new for old, new in renamed.items() if old not in brought}


def turn_law(path, text, renamed, fields):
    renamed = without_imports(text, renamed)
    lines = []
    for line in text.split("\n"):
        code = code_of(line)
        lines.append(turn(code, renamed, fields) + turn_comment(line[len(code) :], renamed))
    text = "\n".join(lines)
    if is_walk(path):
        own = os.path.basename(os.path.dirname(path))
        text = re.sub(r"(?m)^pub ([^\s:]+)[-_]spec :", lambda m: "pub " + m.group(1).replace("-", "_") + "_spec :", text)
        text = re.sub(r"(?m)^([^\s:]+)-spec =", lambda m: m.group(1).replace("-", "_") + "_spec =", text)
    return text


def turn_source(text, renamed, fields):
    renamed = without_imports(text, renamed)
    out, clause, depth = [], False, 0
    for line in text.split("\n"):
        stripped = line.strip()
        at = line.find("//")
        code, comment = (line, "") if at < 0 else (line[:at], line[at:])
        if not clause and re.match(r"(ghost\b|requires\b|ensures\b|invariant\b)", stripped):
            clause, depth = True, 0
        if clause:
            depth += code.count("{") - code.count("}")
            code = turn(code, renamed, fields)
            if depth <= 0 and (code.rstrip().endswith((";", "}"))):
                clause = False
        out.append(code + turn_comment(comment, renamed))
    return "\n".join(out)


def turn_edit(text, renamed, fields):
    source = ""
    out = []
    for line in text.split("\n"):
        if line.startswith("file:"):
            source = line
        if line.startswith("fails:"):
            head, name = line.rsplit("::", 1) if "::" in line else ("", line)
            line = head + "::" + renamed.get(name.strip(), name) if head else line
        elif line.startswith(("old:", "new:")) and source.rstrip().endswith(".antt"):
            line = line[:4] + turn(line[4:], renamed, fields)
        elif line.startswith(("old:", "new:")) and re.match(r"...:\s*(ghost|requires|ensures)\b", line):
            line = line[:4] + turn(line[4:], renamed, fields)
        out.append(line)
    return "\n".join(out)


def together(names, renamed):
    """Renamed names that meet another name that is written anywhere."""
    written = collections.defaultdict(set)
    for path in law_files():
        for line in open(path, encoding="utf-8"):
            for word in TOKEN.findall(code_of(line)):
                written[word].add(path)
    new_of = collections.defaultdict(set)
    for name, new in renamed.items():
        if new.endswith(("_lem", "_holds")):
            print(f"apart: {name} {new} {' '.join(sorted(names[name]))}")
    for name, new in renamed.items():
        new_of[new].add(name)
    for new, olds in sorted(new_of.items()):
        where = [(old, written[old] & written[new]) for old in olds if new in written]
        close = [(old, sorted(files)) for old, files in where if files]
        if close:
            print(f"meets {new}: " + "; ".join(f"{old} in {' '.join(files)}" for old, files in close))
        if len(olds) > 1:
            both = set.intersection(*(written[old] for old in olds))
            if both:
                print(f"together {new}: {' '.join(sorted(olds))} in {' '.join(sorted(both))}")


def main():
    names, fields, renamed = table()
    if "--list" in sys.argv:
        for old, new in sorted(renamed.items()):
            print(old, new)
        together(names, renamed)
        return
    together(names, renamed)
    for path in law_files():
        text = open(path, encoding="utf-8").read()
        new = turn_law(path, text, renamed, fields)
        if new != text:
            open(path, "w", encoding="utf-8").write(new)
    for path in sorted(glob.glob("crates/*/src/**/*.rt", recursive=True)):
        text = open(path, encoding="utf-8").read()
        new = turn_source(text, renamed, fields)
        if new != text:
            open(path, "w", encoding="utf-8").write(new)
    for path in sorted(glob.glob("crates/*/must-fail/*.edit")):
        text = open(path, encoding="utf-8").read()
        new = turn_edit(text, renamed, fields)
        if new != text:
            open(path, "w", encoding="utf-8").write(new)
    for path in ["README.md"] + sorted(glob.glob("docs/**/*.md", recursive=True)):
        text = open(path, encoding="utf-8").read()
        new = turn_comment(text, renamed)
        if new != text:
            open(path, "w", encoding="utf-8").write(new)


main()
