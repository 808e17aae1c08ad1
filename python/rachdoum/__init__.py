"""Rachdoum: a planner of designed experiments.

>>> import rachdoum
>>> trial = rachdoum.plan({
...     "p:Hut": ["north", "north", "south", "south"],
...     "t:Gain": ["low", "high", "low", "high"],
... })
>>> trial.source("Gain").degrees, trial.source("Gain").test
(1, '1 df of E')

The proved library decides everything; this package reads tables, asks it and presents what it answers. `rachdoum.library` has the
entries themselves, byte for byte.
"""
from .comparing import Comparison, compare
from .library import LibraryMissing
from .notes import Note, notes_on
from .planning import (
    Family,
    Levels,
    Member,
    Plan,
    Relation,
    Source,
    Stratum,
    convert,
    degrees,
    formula,
    full_design,
    name,
    plan,
    plot_design,
    read_sheet,
    relation,
    skeleton,
    strata,
)
from .refusals import Refusal
from .sheets import read_file
from .tables import Table, WrongCall

__version__ = "1.0.0"

__all__ = [
    "Comparison", "Family", "Levels", "LibraryMissing", "Member", "Note", "Plan", "Refusal", "Relation", "Source", "Stratum", "Table",
    "WrongCall", "compare", "convert", "degrees", "formula", "full_design", "name", "notes_on", "plan", "plot_design", "read_file",
    "read_sheet", "relation", "skeleton", "strata",
]
