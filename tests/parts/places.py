#!/usr/bin/env python3
"""Brings the names of places in a function's proof along with an edit of its code: places.py OLD NEW PROOF..

`rt check --generated` writes the names that a proof may cite: to the folder OLD for the code as it stands, to NEW for the edited code. A
name is made of the code's text, as `then-most-x` of `if most < x`, so an edit of a condition changes it wherever the proof's files have it.
What stands in one place of the two folders is one name. Where the folder has a list `names/names.json` of all names (`--old-names`), so is
what stands in one place of the two lists: the proof may name a place that the files do not have.
"""
import difflib
import glob
import json
import os
import re
import sys

NAME = re.compile(r"[^\s(){}\[\],;.:\"`|@⌜⌝«»]+")


def read(path):
    with open(path, encoding="utf-8") as file:
        return file.read()


def words(value):
    """The texts in a part of a list of names, in their order."""
    if isinstance(value, str):
        return [value]
    parts = value.values() if isinstance(value, dict) else value if isinstance(value, list) else []
    return [word for part in parts for word in words(part)]


def listed(old, new):
    """The names that stand in one place of the two lists and differ."""
    try:
        olds, news = (json.loads(read(f"{folder}/names/names.json")) for folder in (old, new))
    except (OSError, ValueError):
        return {}
    names = {}
    for function in olds:
        one, two = words(olds[function]), words(news.get(function))
        if len(one) == len(two):
            names.update((it, to) for it, to in zip(one, two) if "-" in it and it != to)
    return names


def main(old, new, *proofs):
    names = listed(old, new)
    for path in glob.glob(f"{old}/**/*.antt", recursive=True):
        other = f"{new}/{os.path.relpath(path, old)}"
        if not os.path.isfile(other):
            continue
        olds, news = read(path).split("\n"), read(other).split("\n")
        for kind, a, b, c, d in difflib.SequenceMatcher(None, olds, news, autojunk=False).get_opcodes():
            if kind == "replace" and b - a == d - c:
                for one, two in zip(olds[a:b], news[c:d]):
                    one, two = NAME.findall(one), NAME.findall(two)
                    # (only a place's name has a dash)
                    names.update((it, to) for it, to in zip(one, two) if "-" in it and len(one) == len(two) and it != to)
    for path in proofs:
        text = NAME.sub(lambda found: names.get(found[0], found[0]), read(path))
        with open(path, "w", encoding="utf-8") as file:
            file.write(text)


main(*sys.argv[1:])
