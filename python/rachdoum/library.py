"""The entries of the proved library, byte for byte, called through ctypes.

Each function here calls the entry of `include/rachdoum.h` that has its name and answers what the entry answers: first the number
of the question that failed (0 for none), then the entry's numbers, then the memory that was lent to it. Nothing is judged,
changed or left out. A refusal is a number here; `rachdoum.planning` makes an exception of it.

>>> number, text = skeleton(b"p:Hut\\tt:Gain\\n1\\t1\\n1\\t2\\n2\\t1\\n2\\t2\\n")
>>> number, text.splitlines()[-1]
(0, b'=all\\t=total\\t4')
"""
from __future__ import annotations

import ctypes
import os
from ctypes import POINTER, c_char_p, c_int64, c_size_t, c_uint8, c_uint32, c_uint64
from typing import Any, List, Optional, Tuple

# The limits of the header. They stand here and nowhere else.
PLOTS = 240
COLUMNS = 6
MEMBERS = 32
INTERACTIONS = 6
TEXT_BYTES = 32_768
FORMULA_BYTES = 256
TABLE_BYTES = 32_768
SHEET_BYTES = 32_768
NAME_BYTES = 160
NAME_LENGTHS = (2, 12)
LEVEL = c_uint32
HIGHEST_LEVEL = 2 ** (8 * ctypes.sizeof(LEVEL)) - 1
LEVEL_CELLS = 2 * COLUMNS * PLOTS
FAMILY_BYTES = MEMBERS * PLOTS

# The kind of a family, for `name`.
PLOT, TREATMENT = 0, 1

# How the first factor stands to the second, by `compare`: the first that fits. 0 after a refusal.
EQUIVALENT, FINER, COARSER, ORTHOGONAL, NOT_ORTHOGONAL = 1, 2, 3, 4, 5

LIBRARY_NAME = "librachdoum.so"
LIBRARY_VARIABLE = "RACHDOUM_LIBRARY"

_Levels = LEVEL * LEVEL_CELLS
_Family = c_uint8 * FAMILY_BYTES
_SLICE = [c_char_p, c_size_t]
_OUT = [POINTER(c_uint8), c_size_t]
_TABLE = [POINTER(LEVEL), c_size_t]

_SIGNATURES = {
    "read_sheet": _SLICE + _TABLE + [POINTER(c_uint64)],
    "plot_design": _TABLE + [c_size_t] * 2 + _OUT + [POINTER(c_uint64)],
    "full_design": _TABLE + [c_size_t] * 4 + _OUT * 2 + [POINTER(c_uint64)],
    "relation": _SLICE + [c_size_t] * 2 + [POINTER(c_uint32)],
    "degrees": _SLICE + [c_size_t] * 2 + [POINTER(c_int64)],
    "strata": (_SLICE + [c_size_t]) * 2 + [c_size_t, POINTER(c_int64)],
    "compare": (_SLICE + [c_size_t] * 2) * 2 + [c_size_t, POINTER(c_uint64)],
    "name": _SLICE + _TABLE + _SLICE + [c_size_t] * 2 + [c_uint32, c_size_t] + _OUT + [POINTER(c_uint64)],
    "skeleton": _SLICE + _OUT + [POINTER(c_uint64)],
    "convert": _SLICE + _OUT + [POINTER(c_uint64)],
    "formula": _SLICE + _OUT + [POINTER(c_uint64)],
}


class LibraryMissing(OSError):
    """The shared library is nowhere to be found, or cannot be loaded."""


def library_paths() -> List[str]:
    """Where the shared library may be, in the order in which it is looked for.

    >>> [os.path.basename(path) for path in library_paths()][-1]
    'librachdoum.so'
    """
    named = os.environ.get(LIBRARY_VARIABLE)
    if named:
        return [named]
    package = os.path.dirname(os.path.abspath(__file__))
    repository = os.path.dirname(os.path.dirname(package))
    return [os.path.join(package, LIBRARY_NAME), os.path.join(repository, "target", LIBRARY_NAME)]


def _find() -> str:
    paths = library_paths()
    for path in paths:
        if os.path.isfile(path):
            return path
    if os.environ.get(LIBRARY_VARIABLE):
        raise LibraryMissing(f"{LIBRARY_VARIABLE} names {paths[0]}, and there is no such file")
    raise LibraryMissing(f"the planner is not built yet: run ./plan in the repository, which makes target/{LIBRARY_NAME}")


_loaded: Optional[ctypes.CDLL] = None


def load() -> ctypes.CDLL:
    """The shared library with its entries declared. It is loaded at the first call."""
    global _loaded
    if _loaded is None:
        path = _find()
        try:
            library = ctypes.CDLL(path)
            for entry, signature in _SIGNATURES.items():
                function = getattr(library, "rachdoum_" + entry)
                function.argtypes, function.restype = signature, c_uint32
        except (OSError, AttributeError) as error:
            raise LibraryMissing(f"{path} is not the planner's library ({error}): run ./plan in the repository") from error
        _loaded = library
    return _loaded


def read_sheet(text: bytes) -> Tuple[int, Tuple[int, ...], Any]:
    """Reads a sheet. Answers the number, (plots, plot columns, treatment columns) and the level table.

    Column c, plot u (from 0) is number 240 * c + u of the table; plot columns take c = 0 to 5, treatment columns 6 to 11.

    >>> number, counts, levels = read_sheet(b"p:Hut\\n7\\n7\\n9\\n9\\n")
    >>> number, counts, levels[:4]
    (0, (4, 1, 0), [7, 7, 9, 9])
    """
    levels, answer = _Levels(), (c_uint64 * 3)()
    number = load().rachdoum_read_sheet(text, len(text), levels, LEVEL_CELLS, answer)
    return number, tuple(answer), levels


def plot_design(levels: Any, plots: int, columns: int) -> Tuple[int, Tuple[int, ...], bytes]:
    """Closes and judges the plot columns. Answers the number, (first place at fault, second, size) and the family.

    >>> number, counts, levels = read_sheet(b"p:Hut\\n7\\n7\\n9\\n9\\n")
    >>> number, answer, family = plot_design(levels, 4, 1)
    >>> number, answer, list(family[240:244])
    (0, (0, 0, 3), [1, 1, 2, 2])
    """
    family, answer = _Family(), (c_uint64 * 3)()
    number = load().rachdoum_plot_design(levels, len(levels), plots, columns, family, FAMILY_BYTES, answer)
    return number, tuple(answer), bytes(family)


def full_design(
    levels: Any, plots: int, plot_columns: int, treatment_columns: int, k: int
) -> Tuple[int, Tuple[int, ...], bytes, bytes]:
    """The full design. Answers the number, (first place, second, plot size, treatment size) and the two families.

    >>> number, counts, levels = read_sheet(b"p:Hut\\tt:Gain\\n1\\t1\\n1\\t2\\n2\\t1\\n2\\t2\\n")
    >>> full_design(levels, *counts, 6)[:2]
    (0, (0, 0, 3, 2))
    """
    first, second, answer = _Family(), _Family(), (c_uint64 * 4)()
    number = load().rachdoum_full_design(
        levels, len(levels), plots, plot_columns, treatment_columns, k, first, FAMILY_BYTES, second, FAMILY_BYTES, answer
    )
    return number, tuple(answer), bytes(first), bytes(second)


def relation(family: bytes, plots: int, size: int) -> Tuple[int, Tuple[int, ...]]:
    """Who is coarser than whom. Answers the number and the size, 32 words, 32 words of direct neighbours, 32 counts.

    >>> family = bytes([1, 1]).ljust(240, b"\\0") + bytes([1, 2])
    >>> number, answer = relation(family.ljust(7680, b"\\0"), 2, 2)
    >>> number, answer[0], answer[1:3], answer[33:35]
    (0, 2, (0, 1), (0, 1))
    """
    answer = (c_uint32 * (1 + 3 * MEMBERS))()
    number = load().rachdoum_relation(family, len(family), plots, size, answer)
    return number, tuple(answer)


def degrees(family: bytes, plots: int, size: int) -> Tuple[int, Tuple[int, ...]]:
    """Degrees of freedom. Answers the number and 32 degrees of freedom.

    >>> family = bytes([1, 1]).ljust(240, b"\\0") + bytes([1, 2])
    >>> number, answer = degrees(family.ljust(7680, b"\\0"), 2, 2)
    >>> number, answer[:3]
    (0, (1, 1, 0))
    """
    answer = (c_int64 * MEMBERS)()
    number = load().rachdoum_degrees(family, len(family), plots, size, answer)
    return number, tuple(answer)


def strata(
    plot_family: bytes, plot_size: int, treatment_family: bytes, treatment_size: int, plots: int
) -> Tuple[int, Tuple[int, ...]]:
    """Strata. Answers the number, 32 places of strata by treatment member, then 32 residuals by plot member.

    >>> family = (bytes([1, 1]).ljust(240, b"\\0") + bytes([1, 2])).ljust(7680, b"\\0")
    >>> number, answer = strata(family, 2, family, 1, 2)
    >>> number, answer[:2], answer[32:34]
    (0, (1, 0), (0, 1))
    """
    answer = (c_int64 * (2 * MEMBERS))()
    number = load().rachdoum_strata(
        plot_family, len(plot_family), plot_size, treatment_family, len(treatment_family), treatment_size, plots, answer
    )
    return number, tuple(answer)


def compare(
    first_family: bytes, first_size: int, first_place: int, second_family: bytes, second_size: int, second_place: int, plots: int
) -> Tuple[int, int]:
    """How the member at a place (from 1) of one family stands to one of another. Answers the number and one of `EQUIVALENT` to
    `NOT_ORTHOGONAL`, 0 after a refusal.

    >>> number, counts, levels = read_sheet(b"p:Hut\\tt:Gain\\n1\\t1\\n1\\t2\\n2\\t1\\n2\\t2\\n")
    >>> plots, treatments = full_design(levels, *counts, 6)[2:]
    >>> compare(plots, 3, 2, treatments, 2, 2, 4) == (0, ORTHOGONAL)
    True
    >>> [compare(plots, 3, place, treatments, 2, 2, 4) for place in (1, 2, 3, 4)]
    [(0, 3), (0, 4), (0, 2), (6, 0)]
    """
    answer = (c_uint64 * 1)()
    number = load().rachdoum_compare(
        first_family, len(first_family), first_size, first_place, second_family, len(second_family), second_size, second_place, plots,
        answer,
    )
    return number, answer[0]


def name(
    text: bytes, levels: Any, family: bytes, plots: int, size: int, kind: int, place: int
) -> Tuple[int, bytes]:
    """The name of the member at a place (from 1). Answers the number and the name.

    >>> text = b"p:Hut\\n7\\n7\\n9\\n9\\n"
    >>> number, counts, levels = read_sheet(text)
    >>> family = plot_design(levels, 4, 1)[2]
    >>> [name(text, levels, family, 4, 3, PLOT, place) for place in (1, 2, 3)]
    [(0, b'U'), (0, b'Hut'), (0, b'E')]
    """
    buffer, answer = (c_uint8 * NAME_BYTES)(), (c_uint64 * 1)()
    number = load().rachdoum_name(
        text, len(text), levels, len(levels), family, len(family), plots, size, kind, place, buffer, NAME_BYTES, answer
    )
    return number, bytes(buffer[: answer[0]])


def skeleton(text: bytes) -> Tuple[int, bytes]:
    """What is printed for a sheet: the table with k = 6, or the line of its refusal. Answers the number and the text.

    The number is 0 for a refused sheet too: its refusal is in the text.

    >>> skeleton(b"")
    (0, b'refused\\t2\\t-\\t-\\n')
    """
    out, answer = (c_uint8 * TABLE_BYTES)(), (c_uint64 * 1)()
    number = load().rachdoum_skeleton(text, len(text), out, TABLE_BYTES, answer)
    return number, bytes(out)[: answer[0]]


def convert(text: bytes) -> Tuple[int, bytes]:
    """Converts a sheet numbered within parents (`p:Section/Bench`). Answers the number and the sheet, which is empty after a refusal.

    >>> convert(b"p:Bench\\tp:Section/Bench\\n1\\t1\\n2\\t1\\n")
    (0, b'p:Bench\\tp:Section\\n1\\t1\\n2\\t2\\n')
    >>> convert(b"p:Section/Bench\\tp:Bench\\n1\\t1\\n2\\t1\\n")
    (23, b'')
    """
    return _sheet(load().rachdoum_convert, text)


def formula(text: bytes) -> Tuple[int, bytes]:
    """Writes the sheet of a block formula. Answers the number and the sheet, which is empty after a refusal.

    >>> formula(b"Hut=2/Pier=2")
    (0, b'p:Hut\\tp:Pier\\n1\\t1\\n1\\t2\\n2\\t3\\n2\\t4\\n')
    >>> formula(b"Hut=2/Pier"), formula(b"Hut=12/Pier=24")
    ((17, b''), (18, b''))
    """
    return _sheet(load().rachdoum_formula, text)


def _sheet(entry: Any, text: bytes) -> Tuple[int, bytes]:
    """What an entry that makes a sheet of a text answers."""
    out, answer = (c_uint8 * SHEET_BYTES)(), (c_uint64 * 1)()
    number = entry(text, len(text), out, SHEET_BYTES, answer)
    return number, bytes(out)[: answer[0]]
