#!/usr/bin/env python3
"""Counts places in the Rattle sources that another form may say better, and lists them: tools/forms.py [-l] [CRATE ..]

Each count is of a pattern, so that it can be taken again. docs/DESIGN-PASS.md has the counts.
"""
import re
import sys
from collections import defaultdict
from pathlib import Path

ROOT = Path(__file__).resolve().parent.parent / "crates"
FN = re.compile(r"^(?P<indent> *)(?:pub(?:\(crate\))? )?(?:extern \"C\" )?fn (?P<name>\w+)")


def functions(path):
    """The functions of a file: name, line, comment above, text up to the closing brace."""
    lines = path.read_text().split("\n")
    for at, line in enumerate(lines):
        m = FN.match(line)
        if not m:
            continue
        end = at
        while lines[end] != m["indent"] + "}":
            end += 1
        above = at
        while above and lines[above - 1].lstrip().startswith(("//", "#[")):
            above -= 1
        comment = " ".join(x.strip("/ ") for x in lines[above:at])
        text = "\n".join(lines[at : end + 1])
        head, _, body = text.partition("\n" + m["indent"] + "{\n")
        yield m["name"], at + 1, comment, head, body


def params(head):
    inside = head.split("(", 1)[1]
    depth, out = 1, ""
    for ch in inside:
        depth += ch in "(["
        depth -= ch in ")]"
        if depth == 0:
            break
        out += ch
    return [p.strip() for p in re.split(r",\s*(?![^\[]*\])", out.strip().rstrip(",")) if p.strip()]


def shape(head, body):
    """The text of a function with its types, numbers and local names left out."""
    text = re.sub(r"//.*", "", body)
    names = [p.split(":")[0].strip() for p in params(head) if ":" in p]
    names += re.findall(r"\blet (?:mut )?(\w+)", text) + re.findall(r"\bfor (\w+) in", text)
    for i, name in enumerate(dict.fromkeys(names)):
        text = re.sub(rf"\b{name}\b", f"v{i}", text)
    text = re.sub(r"\b(u8|u16|u32|u64|usize|i64|Level|PairCode)\b", "T", text)
    text = re.sub(r"\b\d\w*\b|\b[A-Z][A-Z_]+\b|b'.{1,2}'", "N", text)
    return re.sub(r"\s+", " ", text)


def atoms(head):
    """The facts of the `requires` clauses of a function."""
    for clause in re.findall(r"requires(?: \w+)? \{ (.*) \}", head):
        depth, part = 0, ""
        for ch in clause:
            depth += ch in "([{"
            depth -= ch in ")]}"
            if ch == "×" and depth == 0:
                yield part.strip(" ()")
                part = ""
            else:
                part += ch
        yield part.strip(" ()")


def main():
    args = [a for a in sys.argv[1:] if a != "-l"]
    found = defaultdict(list)
    shapes, facts, together, names = defaultdict(list), defaultdict(set), defaultdict(set), defaultdict(list)
    for path in sorted(ROOT.glob("*/src/*.rt")):
        crate = path.parts[-3]
        if args and crate not in args:
            continue
        here = f"{crate}/src/{path.name}"
        text = path.read_text()
        for m in re.finditer(r"^pub enum (\w+) \{\n((?:    .*\n)*)\}|^enum (\w+) \{\n((?:    .*\n)*)\}", text, re.M):
            cases = [x.strip() for x in (m[2] or m[4]).split("\n") if x.strip() and not x.strip().startswith("//")]
            if len(cases) == 2 and any("(" in x for x in cases):
                found["1a enums of two cases, one with a value"].append(f"{here} {m[1] or m[3]}")
        for m in re.finditer(r"^(?:pub )?struct (\w+)[^{]*\{\n((?:    .*\n)*)\}", text, re.M):
            fields = re.findall(r"^    (?:pub )?(\w+): (.*),$", m[2], re.M)
            if len(fields) > 1 and any(t == "bool" for _, t in fields):
                found["1d structs with a flag beside a value"].append(f"{here} {m[1]}")
        for at, line in enumerate(text.split("\n"), 1):
            code = line.split("//")[0]
            if re.search(r"\bRefused\(|\brefus\w*\(\d+|\b(refusal|number): (u8|u32|usize|\d|q)\b|^\s*return (4|5|6|15|16);", code):
                found["1b lines with a number for a refusal"].append(f"{here}:{at} {line.strip()}")
            if re.match(r"\s*('\w+: )?for \w+ in [^.]*\.\.", code):
                found["3a loops over a range"].append(f"{here}:{at} {line.strip()}")
            if re.match(r"\s*('\w+: )?(while|loop)\b", code):
                found["3b while and loop"].append(f"{here}:{at} {line.strip()}")
        for m in re.finditer(r"^( *)for \w+ in .*\{\n\1    [\w\[\] .+*]+\] = \w+(\[[^=\n]*\])?( as \w+)?;\n\1\}", text, re.M):
            found["4a loops that copy or fill"].append(f"{here}:{text[: m.start()].count(chr(10)) + 1}")
        for name, at, comment, head, body in functions(path):
            where = f"{here}:{at} {name}"
            if re.search(r"-> (u8|u32|usize|\w*Level|Span|Header|Places|\[u8)", head) and re.search(
                r"(\b0|\b0 and 0|zeros|`size`|MEMBERS|TOO_MANY|\b32|length|nothing|past them|past the size|no bytes|not numbered)\b[^.;]*\b(where|if|for none|unless|that is not)\b"
                r"|or TOO_MANY|or 0\b", comment.lower().replace("members where it", "MEMBERS where it").replace("too_many", "TOO_MANY")
            ):
                found["1c functions with a number that stands for none"].append(where)
            if "-> bool" in head and "&mut" in head:
                found["1e functions that answer a flag and write a value"].append(where)
            if re.fullmatch(r"\s*match \w+ \{\n(\s*[\w:]+(\(\w+\))? => (\d+|b'.'|\w+( as \w+)?),\n)+\s*\}\n\s*\}?", body):
                found["4b conversions by a match"].append(where)
            given = params(head)
            if len(given) > 8:
                found["5c functions of more than eight parameters"].append(f"{where}: {len(given)}")
            named = [p for p in given if ":" in p]
            for i, a in enumerate(named):
                for j in range(i + 1, len(named)):
                    for k in range(j + 1, len(named)):
                        together[(a, named[j], named[k])].add(where)
            if any(re.match(r"\w+: (bool|Side|Kind|Option<Side>)$", p) for p in given):
                found["7 functions told by a flag or case which step to run"].append(where)
            if re.search(r"\bstore: ", head) and re.search(r"\b(size|start): usize", head) or re.search(r"\blengths: ", head) and "size: usize" in head:
                found["6a functions that take a buffer, a list beside it and a size"].append(where)
            if re.search(r"\b\w*family\w*: &", head) and re.search(r"\b\w*size: usize", head):
                found["6b functions that take a family's bytes and its size"].append(where)
            for fact in set(atoms(head)):
                facts[re.sub(r"\s+", " ", fact)].add(where)
            s = shape(head, body)
            if len(s) > 40:
                shapes[s].append(where)
            names[name].append(where)
    for path in sorted(ROOT.glob("*/proofs/**/Answers.antt")):
        crate = path.relative_to(ROOT).parts[0]
        if args and crate not in args:
            continue
        where = str(path.relative_to(ROOT))
        for m in re.finditer(r"^(?:pub )?([\w-]+) : goal\.\1\n(?:unfolding .*\n)?\1[^=\n]* =((?: .*)?(?:\n .*)*)", path.read_text(), re.M):
            found["8a answers"].append(f"{where} {m[1]}")
            if re.fullmatch(r"\s*(search rules|omega arith|refl|c\.[\w.-]+)\s*", m[2]):
                found["8b answers of one plain tactic or fact"].append(f"{where} {m[1]}")
    for group in shapes.values():
        if len(group) > 1:
            found["2a functions alike but for types, sizes and constants"].extend(group)
    for name, group in names.items():
        if len({where.split(":")[0] for where in group}) > 1 and name != "main":
            found["2b functions of one name in several files"].extend(group)
    for fact, places in facts.items():
        if len(places) > 2:
            found["5a facts that three functions or more require"].append(f"{len(places)} {fact}")
    for place in sorted({p for places in together.values() if len(places) > 2 for p in places}):
        found["5b functions that share three parameters with two others"].append(place)
    for what in sorted(found):
        print(f"{len(found[what]):5} {what}")
        if "-l" in sys.argv[1:]:
            for place in found[what]:
                print(f"          {place}")


main()
