#!/usr/bin/env python3
"""Puts a must-fail edit into a copy of its crate: edit.py EDIT FOLDER.

An edit has lines `file: PATH` and then pairs of lines `old: TEXT` and `new: TEXT`. Each old text stands in the file exactly once, after
the pairs before. Further, each law that a line `fails: CRATE::FILE::LAW` names gets a file proofs/AskedN.antt, whose one declaration rests
on that law alone: the prover tells of each such declaration whether what it rests on is refused.
"""
import os
import sys

LAW = """use Rattle.std.specs.Prelude.{{ℕ}}
use Rattle.{crate}.proofs.{file}.{{{law}}}

asked : ℕ
asked = let law = {law} in 0
"""


def read(path):
    with open(path, encoding="utf-8") as file:
        return file.read()


def write(path, text):
    with open(path, "w", encoding="utf-8") as file:
        file.write(text)


def main(edit, folder):
    path, old, laws = None, None, []
    for line in read(edit).split("\n"):
        key, _, text = line.partition(": ")
        if key == "file":
            path = f"{folder}/{text.strip()}"
        elif key == "old":
            old = text
        elif line.startswith("new:"):
            whole = read(path)
            if whole.count(old) != 1:
                sys.exit(f"an old text stands {whole.count(old)} times in {path}, and not once: {old}")
            write(path, whole.replace(old, line[len("new:") :].removeprefix(" ")))
        elif key == "fails":
            crate, *file, law = text.strip().split("::")
            if file and os.path.exists(f"{folder}/proofs/{'/'.join(file)}.antt"):
                laws.append((crate, *file, law))
    for number, (crate, *file, law) in enumerate(laws, 1):
        write(f"{folder}/proofs/Asked{number}.antt", LAW.format(crate=crate, file=".".join(file), law=law))
        write(f"{folder}/proofs/Lib.antt", f"{read(f'{folder}/proofs/Lib.antt')}mod Asked{number}\n")


main(*sys.argv[1:])
