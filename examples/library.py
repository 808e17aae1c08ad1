"""Prints the table of a sheet and, after an empty line, against what each treatment is tested. After a refusal it exits with 1
and, where members are not orthogonal, says which. A sheet that is numbered within parents (`p:Section/Bench`) is converted
first. In place of a sheet a formula may be given.

    cc -shared -o librachdoum.so -Wl,--whole-archive target/staticlib/librachdoum.a -Wl,--no-whole-archive
    python3 examples/library.py ./librachdoum.so examples/huts.sheet
    python3 examples/library.py ./librachdoum.so --formula Hut=4/Pier=3
"""
import ctypes
import os
import sys
from collections import namedtuple
from ctypes import c_int64, c_size_t, c_uint8, c_uint32, c_uint64

# As in include/rachdoum.h.
INTERACTION = 6
MEMBERS = 32
LEVELS = 2880
FAMILY = 7680
NAME = 160
TABLE = 32768
SHEET = 32768
NOT_ORTHOGONAL = 5
level = c_uint32

PLOT, TREATMENT = c_uint32(0), c_uint32(1)

# A family as the library has written it, how many members it has, and their names.
Family = namedtuple("Family", "members size names")


def ask(function, *arguments):
    """Calls an entry: an array becomes a pointer and a length, a whole number a size; the last array is the answer."""
    handed = []
    for argument in arguments[:-1]:
        if isinstance(argument, ctypes.Array):
            handed += [argument, c_size_t(len(argument))]
        else:
            handed.append(c_size_t(argument) if isinstance(argument, int) else argument)
    function.restype = c_uint32
    return function(*handed, arguments[-1])


def sheet_of(function, given):
    """The refusal, 0 for none, and the sheet that a function writes.

    `rachdoum_convert` makes it of one that is numbered within parents, and any other comes back as it is; `rachdoum_formula` of a formula.
    """
    sheet, length = (c_uint8 * SHEET)(), (c_uint64 * 1)()
    refusal = ask(function, (c_uint8 * len(given))(*given), sheet, length)
    return refusal, (c_uint8 * length[0])(*sheet[: length[0]])


def table(library, text):
    """The printed text of a sheet. Its buffer is long enough, so the entry refuses nothing; a refused sheet gives a line."""
    out, length = (c_uint8 * TABLE)(), (c_uint64 * 1)()
    ask(library.rachdoum_skeleton, text, out, length)
    return bytes(out[: length[0]]).decode("ascii")


def names(library, text, levels, family, plots, size, kind):
    """The names of a family's members, in order."""
    found = []
    for place in range(1, size + 1):
        name, length = (c_uint8 * NAME)(), (c_uint64 * 1)()
        ask(library.rachdoum_name, text, levels, family, plots, size, kind, place, name, length)
        found.append(bytes(name[: length[0]]).decode("ascii"))
    return found


def design(library, text):
    """The refusal, 0 for none, the number of plots, and both families. After some refusals a family is written too."""
    levels, read = (level * LEVELS)(), (c_uint64 * 3)()
    refusal = ask(library.rachdoum_read_sheet, text, levels, read)
    if refusal != 0:
        return refusal, 0, []
    members, made = [(c_uint8 * FAMILY)(), (c_uint8 * FAMILY)()], (c_uint64 * 4)()
    refusal = ask(library.rachdoum_full_design, levels, *read, INTERACTION, *members, made)
    written = zip(members, made[2:], (PLOT, TREATMENT))
    families = [Family(own, size, names(library, text, levels, own, read[0], size, kind)) for own, size, kind in written]
    return refusal, read[0], families


def tests(library, plots, groupings, treatments):
    """For each treatment its name, its degrees of freedom, its stratum, and the residual there."""
    degrees, strata = (c_int64 * MEMBERS)(), (c_int64 * (2 * MEMBERS))()
    ask(library.rachdoum_degrees, treatments.members, plots, treatments.size, degrees)
    ask(library.rachdoum_strata, groupings.members, groupings.size, treatments.members, treatments.size, plots, strata)
    # The first member is U, the mean, which nobody tests.
    return [
        (treatments.names[i], degrees[i], groupings.names[strata[i] - 1], strata[MEMBERS + strata[i] - 1])
        for i in range(1, treatments.size)
    ]


def pairs(library, plots, first, second):
    """The names of all members of a family, or of two, that are not orthogonal: the refusal has the places of the first pair only."""
    found, stands = [], (c_uint64 * 1)()
    for i in range(first.size):
        for j in range(i + 1 if first is second else 0, second.size):
            ask(library.rachdoum_compare, first.members, first.size, i + 1, second.members, second.size, j + 1, plots, stands)
            if stands[0] == NOT_ORTHOGONAL:
                found.append((first.names[i], second.names[j]))
    return found


def show(library, refusal, plots, families):
    """Prints against what each treatment is tested; or the refusal, and all members that are not orthogonal where it is for these."""
    if refusal != 0:
        print(f"Question {refusal} fails (docs/REFUSALS.md).")
        kinds = {10: (0, 0), 12: (1, 1), 13: (0, 1)}.get(refusal)
        for first, second in pairs(library, plots, *(families[kind] for kind in kinds)) if kinds else []:
            print(f"{first} and {second} are not orthogonal")
        return
    for name, df, stratum, residual in tests(library, plots, *families):
        if residual != 0:
            print(f"{name} ({df} df) is tested in {stratum} against {residual} df")
        else:
            print(f"{name} ({df} df) cannot be tested: no residual in {stratum}")


def main():
    if len(sys.argv) not in (3, 4) or len(sys.argv) == 4 and sys.argv[2] != "--formula":
        print("usage: library.py LIBRARY SHEET, or library.py LIBRARY --formula FORMULA", file=sys.stderr)
        return 2
    try:
        library = ctypes.CDLL(sys.argv[1])
        if len(sys.argv) == 4:
            refusal, text = sheet_of(library.rachdoum_formula, os.fsencode(sys.argv[3]))
        else:
            with open(sys.argv[2], "rb") as file:
                refusal, text = sheet_of(library.rachdoum_convert, file.read())
    except OSError as error:
        print(f"library.py: {error}", file=sys.stderr)
        return 2
    plots, families = 0, []
    if refusal != 0:
        print(f"refused\t{refusal}\t-\t-\n")
    else:
        print(table(library, text))
        refusal, plots, families = design(library, text)
    show(library, refusal, plots, families)
    return 1 if refusal else 0


if __name__ == "__main__":
    sys.exit(main())
