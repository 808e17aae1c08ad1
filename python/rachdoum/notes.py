"""The note on numbers that start again, with the table of the other reading."""
from __future__ import annotations

from dataclasses import dataclass
from typing import Iterable, List, Optional

from .nesting import Pair, plural, starting_again, words
from .planning import Plan, plan_of
from .tables import WITHIN, Table, nest, shown

MOST_TABLES = 3


@dataclass(frozen=True)
class Note:
    """Two plot columns that cross although the child may be numbered anew within each parent."""

    child: str
    parent: str
    text: str
    other: Optional[Plan]

    @property
    def option(self) -> str:
        """What reads the numbers the other way."""
        return f"--nested {words((self.child, self.parent))}"


def notes_on(plan: Plan, crossed: Iterable[Pair] = ()) -> List[Note]:
    """The notes on a plan. Where there are at most three, each carries the plan of the other reading.

    That reading is always accepted: a column combined with its parent is a member of the plot family that was accepted.

    >>> from .planning import plan as make
    >>> table = {"p:Hut": [1, 1, 2, 2], "p:Pier": [1, 2, 1, 2], "t:Gain": [1, 2, 2, 1]}
    >>> for note in notes_on(make(table)):
    ...     print(note.text)
    ...     print(note.option, "->", note.other.source("Gain").test)
    Pier 1 is taken as one pier that both huts share. If these are different piers, number them consecutively, write p:Pier/Hut in the first line or add --nested Pier/Hut.
    --nested Pier/Hut -> 1 df of E
    """
    pairs = starting_again(plan.table, list(crossed))
    return [_note(plan, pair, len(pairs) <= MOST_TABLES) for pair in pairs]


def _note(plan: Plan, pair: Pair, whole: bool) -> Note:
    table = plan.table
    child, parent = pair
    one, several = plural(child)
    first = shown(table.cells(table.column(child))[0])
    parents = len(set(table.cells(table.column(parent))))
    all_of_them = "both" if parents == 2 else f"all {parents}"
    ways = ", write p:{0} in the first line or add --nested {0}." if _may_be_written(table, pair) else " or add --nested {0}."
    text = (
        f"{child} {first} is taken as one {one} that {all_of_them} {plural(parent)[1]} share. If these are different "
        f"{several}, number them consecutively{ways.format(words(pair))}"
    )
    return Note(child, parent, text, plan_of(nest(table, [pair]), plan.k) if whole else None)


def _may_be_written(table: Table, pair: Pair) -> bool:
    """Whether the child's title may name the parent: it stands further left, and the child has no parent yet."""
    child, parent = (table.column(name) for name in pair)
    return parent.place < child.place and not any(WITHIN in cell for cell in table.cells(child))
