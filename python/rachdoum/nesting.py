"""Numbers that start again: plot columns that cross, although one may be meant to lie inside the other."""
from __future__ import annotations

from typing import Iterable, List, Sequence, Tuple

from .groupings import changes, crosses, finer
from .tables import PLOT, Column, Table, WrongCall

Pair = Tuple[str, str]


def words(pair: Pair) -> str:
    """A pair as the command takes it."""
    return f"{pair[0]}/{pair[1]}"


def parse(text: str) -> List[Pair]:
    """The pairs of a text such as `Pier/Hut`; `Sensor/Pier/Hut` nests twice.

    >>> parse("Pier/Hut"), parse("Sensor/Pier/Hut")
    ([('Pier', 'Hut')], [('Sensor', 'Pier'), ('Pier', 'Hut')])
    """
    names = [name.strip() for name in text.split("/")]
    if len(names) < 2 or not all(names):
        raise WrongCall(f"{text!r} is not of the form CHILD/PARENT, such as Pier/Hut")
    return list(zip(names, names[1:]))


def _ordered(left: Column, right: Column, table: Table) -> Pair:
    """(child, parent): the right column lies inside the left one, unless it changes much less often down the sheet."""
    if 2 * changes(table.cells(right)) < changes(table.cells(left)):
        return left.name, right.name
    return right.name, left.name


def _pairs(table: Table) -> Iterable[Pair]:
    plots = table.of_kind(PLOT)
    for place, right in enumerate(plots):
        for left in plots[:place]:
            yield _ordered(left, right, table)


def _is_given(table: Table, pair: Pair) -> bool:
    """Whether another column already has a level for each combination of the two, and is not just the plots' numbers."""
    first, second = (table.cells(table.column(name)) for name in pair)
    both = list(zip(first, second))
    others = [table.cells(column) for column in table.of_kind(PLOT) if column.name not in pair]
    return any(finer(both, other) and finer(other, both) and len(set(other)) < len(other) for other in others)


def starting_again(table: Table, crossed: Sequence[Pair] = ()) -> List[Pair]:
    """The pairs (child, parent) of plot columns that cross although the child may be numbered anew within each parent.

    Left out are pairs that the user calls crossed, pairs whose combinations have a column of their own, and a parent when the child
    crosses something inside it.

    >>> from .tables import columns_of
    >>> table = Table("t", columns_of(["p:Hut", "p:Pier"]), (("1", "1"), ("1", "2"), ("2", "1"), ("2", "2")))
    >>> starting_again(table), starting_again(table, [("Hut", "Pier")])
    ([('Pier', 'Hut')], [])
    """
    if table.formula:
        return []
    excused = {frozenset(pair) for pair in crossed}
    cells = {column.name: table.cells(column) for column in table.of_kind(PLOT)}
    found = [pair for pair in _pairs(table) if crosses(cells[pair[0]], cells[pair[1]]) and not _is_given(table, pair)]
    kept = []
    for child, parent in found:
        inner = [p for c, p in found if c == child and p != parent and finer(cells[p], cells[parent])]
        if not inner and frozenset((child, parent)) not in excused:
            kept.append((child, parent))
    return kept


def other_readings(table: Table) -> List[List[Pair]]:
    """Other ways to read the numbers, likelier ones first: one column inside another, then several, each inside the one before."""
    if table.formula:
        return []
    cells = {column.name: table.cells(column) for column in table.of_kind(PLOT)}
    apart = [pair for pair in _pairs(table) if not _comparable(cells[pair[0]], cells[pair[1]])]
    readings = [[pair] for pair in apart] + [[(parent, child)] for child, parent in apart]
    names = list(cells)
    chain = [(right, left) for left, right in zip(names, names[1:]) if not _comparable(cells[right], cells[left])]
    return readings + [chain[:length] for length in range(2, len(chain) + 1)]


def _comparable(first: List[str], second: List[str]) -> bool:
    return finer(first, second) or finer(second, first)


def plural(name: str) -> Tuple[str, str]:
    """A column's name as a word for one and for several of its levels.

    >>> plural("Pier"), plural("Bench"), plural("Gain setting")
    (('pier', 'piers'), ('bench', 'benches'), ('level of Gain setting', 'levels of Gain setting'))
    """
    if not (name.isascii() and name.isalpha() and name == name.capitalize() and len(name) > 2):
        return f"level of {name}", f"levels of {name}"
    word = name.lower()
    if word.endswith(("s", "x", "ch", "sh")):
        return word, word + "es"
    if word.endswith("y") and word[-2] not in "aeiou":
        return word, word[:-1] + "ies"
    return word, word + "s"
