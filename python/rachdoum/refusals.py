"""Refusals in the user's words: what is wrong, where it stands, and what would be right.

The library gives the number and the places. This module only looks for the cells to show.
"""
from __future__ import annotations

from collections import Counter
from typing import Callable, Dict, NamedTuple, Optional, Sequence, Tuple

from . import library
from .groupings import combined, uneven
from .nesting import other_readings, plural, words
from .tables import PLOT, TREATMENT, Column, Table, brief, cannot_be_shown, is_missing, nest, row_of, rules_take, shown

NAME_FORM = "a name has {} to {} letters or digits, a letter first, without blanks, hyphens or accents".format(
    *library.NAME_LENGTHS
)
MOST_LINES = 6

# Whether the library accepts a table with an interaction level.
Accepts = Callable[[Table, int], bool]


class Refusal(Exception):
    """The library refuses. It carries the question's number, the places and names at fault, and a remedy.

    >>> refusal = Refusal(13, "Hut 1 has too much.", "Give it less.", source="trial.csv", places=(2, 2), names=("Hut", "Gain"))
    >>> refusal.number, refusal.places, refusal.names, refusal.remedy
    (13, (2, 2), ('Hut', 'Gain'), 'Give it less.')
    >>> print(refusal)
    trial.csv: refused (13): Hut 1 has too much. Remedy: Give it less.
    """

    def __init__(
        self, number: int, what: str, remedy: str, *, source: str = "", places: Tuple[int, ...] = (0, 0),
        names: Tuple[str, ...] = (), line: Optional[int] = None, column: Optional[str] = None,
    ) -> None:
        self.number, self.what, self.remedy, self.source = number, what, remedy, source
        self.places, self.names, self.line, self.column = tuple(places), tuple(names), line, column
        super().__init__(f"{source}: refused ({number}): {what} Remedy: {remedy}")

    def tsv(self) -> str:
        """The line that the rules print for it."""
        first, second = (list(self.names) + ["-", "-"])[:2]
        return f"refused\t{self.number}\t{first}\t{second}\n"


class Factor(NamedTuple):
    """A column or a member of a family: its name as it is shown, its kind, the user's columns in it, and the class of each plot."""

    name: str
    kind: str
    columns: Tuple[str, ...]
    classes: Tuple[int, ...]


def quoted(text: str) -> str:
    """A text of the user in a message, with marks around it."""
    return f"`{brief(text)}`"


def listed(names: Sequence[str]) -> str:
    """Names in a row.

    >>> listed(["Hut"]), listed(["Hut", "Pier", "Week"])
    ('Hut', 'Hut, Pier and Week')
    """
    return " and ".join([", ".join(names[:-1]), names[-1]] if len(names) > 1 else names)


# The sheet's text: 2 to 5, and 23


def of_text(table: Table, number: int, strict: bool) -> Refusal:
    """The refusal of a text, with the first place that breaks its form."""
    if table.fault:
        return Refusal(number, f"{table.fault[0]}.", f"{table.fault[1]}.", source=table.source)
    finders = {
        2: (_empty, _many_plots, _titles, _rows), 3: (_titles,), 4: (_rows,), 5: (_no_plot, _many_plots), 23: (_parents,),
    }.get(number, ())
    for finder in finders:
        found = finder(table, number, strict)
        if found:
            return found
    return Refusal(number, "it is out of form.", "see docs/REFUSALS.md.", source=table.source)


def _empty(table: Table, number: int, strict: bool) -> Optional[Refusal]:
    if table.columns or table.rows:
        return None
    return Refusal(number, "it is empty.", "look whether the right file was given.", source=table.source)


def _no_plot(table: Table, number: int, strict: bool) -> Optional[Refusal]:
    if table.rows:
        return None
    remedy = "write one line for each plot below the names."
    return Refusal(number, "it has column names and no plot.", remedy, source=table.source)


def _many_plots(table: Table, number: int, strict: bool) -> Optional[Refusal]:
    if len(table.rows) <= library.PLOTS:
        return None
    what = f"it has {len(table.rows):,} plots, and at most {library.PLOTS} are taken."
    return Refusal(number, what, "look whether each line is one plot; split a larger trial.", source=table.source)


def _titles(table: Table, number: int, strict: bool) -> Optional[Refusal]:
    for column in table.columns:
        fault = _title_fault(table, column, strict) or _slash_fault(column, strict)
        if fault:
            return _of_title(table, number, column, fault)
    return None


def _of_title(table: Table, number: int, column: Column, fault: Tuple[str, str]) -> Refusal:
    """The refusal of a title: what is wrong with it, and what would be right."""
    where = f"line {table.first_line}, field {column.place}" if table.first_line else f"column {column.place}"
    line = table.first_line or None
    return Refusal(number, f"{where}: {fault[0]}", fault[1], source=table.source, line=line, column=column.name)


def _title_fault(table: Table, column: Column, strict: bool) -> Optional[Tuple[str, str]]:
    """What is wrong with a column's name and kind, and what would be right."""
    name, before = quoted(column.name), [c for c in table.columns if c.place < column.place]
    if not column.name:
        return "a column has no name.", "give it a name, or take the column out."
    if not column.kind:
        return _no_kind(table, column)
    if any(c.name == column.name for c in before):
        return f"two columns are called {name}.", "rename one of them."
    if sum(c.kind == column.kind for c in before) == library.COLUMNS:
        kind = "plot column" if column.kind == PLOT else "treatment"
        most = library.COLUMNS
        return f"{name} is {kind} number {most + 1}, and at most {most} are taken.", f"leave out a {kind}."
    return _name_fault(column.name, strict)


def _name_fault(name: str, strict: bool) -> Optional[Tuple[str, str]]:
    """What is wrong with a name, and what would be right."""
    reason = cannot_be_shown(name)
    if reason:
        return f"{quoted(name)} cannot be a name: {reason}.", "rename the column."
    if strict and not rules_take(name):
        return f"{quoted(name)} is no name of the rules: {NAME_FORM}.", "rename the column; plan without --tsv takes any name."
    return None


def _slash_fault(column: Column, strict: bool) -> Optional[Tuple[str, str]]:
    """What is wrong with the part after a slash, and what would be right."""
    if column.parent is None:
        return None
    title = quoted(f"{column.name}/{column.parent}")
    if not column.parent:
        return f"{title} names no column after the slash.", f"write p:{brief(column.name)}, or name the parent, such as p:Pier/Hut."
    if "/" in column.parent:
        parent = brief(column.parent.split("/")[0].strip())
        return f"{title} has two slashes.", f"write p:{brief(column.name)}/{parent}; the parent may have one of its own."
    return _name_fault(column.parent, strict)


def _parents(table: Table, number: int, strict: bool) -> Optional[Refusal]:
    for column in table.columns:
        left = [c.name for c in table.of_kind(PLOT) if c.place < column.place]
        if column.parent is not None and column.parent not in left:
            return _of_title(table, number, column, _parent_fault(table, column, left))
    return None


def _parent_fault(table: Table, column: Column, left: Sequence[str]) -> Tuple[str, str]:
    """What is wrong with a parent that is no plot column further left, and what would be right."""
    name, parent = brief(column.name), brief(column.parent or "")
    title = quoted(f"{column.name}/{column.parent}")
    choice = f"name a plot column to its left ({row_of(left)})" if left else "put the plot column that it lies in to its left"
    other = f"{choice}, or write p:{name} if its numbers do not start again."
    if column.parent == column.name:
        return f"{title} is numbered anew in itself.", other
    kind = next((c.kind for c in table.columns if c.name == column.parent), "")
    if kind == TREATMENT:
        return f"{title} is numbered anew in {parent}, which is a treatment.", other
    if kind == PLOT:
        remedy = f"put the column {parent} to the left of {name}; or write p:{name} and add --nested {name}/{parent}, which takes any order."
        return f"{title} is numbered anew in {parent}, which stands to its right.", remedy
    return f"{title} is numbered anew in {parent}, and there is no such plot column.", other


def _no_kind(table: Table, column: Column) -> Tuple[str, str]:
    name = quoted(column.name)
    if column.name.replace(".", "").isdigit():
        return f"{name} is no column name.", "begin with a line that names the columns, such as p:Hut and t:Gain."
    names = row_of([c.name for c in table.columns])
    return (
        f"{name} is not marked as a plot column or a treatment.",
        f"write p: (plot) or t: (treatment) before each name, or add --plots NAMES --treatments NAMES, of {names}.",
    )


def _rows(table: Table, number: int, strict: bool) -> Optional[Refusal]:
    for place, row in enumerate(table.rows):
        if len(row) != table.width():
            columns = f"the first line has {table.width()}" if table.first_line else f"there are {table.width()} columns"
            what = f"{table.spot(place)} has {_count(len(row), 'field')}, {columns}."
            remedy = "give each line as many fields as there are columns, separated as in the first line."
            return Refusal(number, what, remedy, source=table.source, line=_line(table, place))
        for column in table.columns:
            cell = row[column.place - 1]
            if is_missing(cell):
                what, remedy = _missing(cell)
                what = f"{table.spot(place)}, {brief(column.name)}: {what}"
                return Refusal(number, what, remedy, source=table.source, line=_line(table, place), column=column.name)
    return None


def _missing(cell: str) -> Tuple[str, str]:
    out = "take out a plot whose level is not known."
    if not cell:
        return "there is no level.", f"write the level in every line, also where cells are merged; {out}"
    return f"{quoted(cell)} stands for a missing level.", f"a level is only a label: write another number or a word; {out}"


def _line(table: Table, row: int) -> Optional[int]:
    return table.lines[row] if table.lines else None


def _count(number: int, thing: str) -> str:
    return f"{number:,} {thing}" if number == 1 else f"{number:,} {thing}s"


# The design: 8 to 14


def of_design(
    table: Table, number: int, places: Tuple[int, ...], sizes: Tuple[int, ...], members: Sequence[Factor], k: int,
    accepts: Accepts,
) -> Refusal:
    """The refusal of a design, with the classes that show it."""
    if number in (8, 11, 14):
        what, remedy = {8: _plot_family, 11: _treatment_family, 14: _final_family}[number](table, sizes, k, accepts)
    elif number == 9:
        what, remedy = _sizes(table, members[0])
    elif number in (10, 12, 13):
        what = meeting(table, *members)
        remedy = _EVEN[number].format(a=members[0].name, b=members[1].name)
    else:
        what, remedy = of_call(number, k)
    renumbered = _renumbering(table, k, accepts) if number in (8, 9, 10, 13, 14) else ""
    names = tuple(member.name for member in members)
    return Refusal(number, what, renumbered + remedy, source=table.source, places=places, names=names)


def of_call(number: int, k: int = library.INTERACTIONS) -> Tuple[str, str]:
    """What is wrong with a call of the library that no sheet leads to, and what would be right."""
    if number == 6 and not 1 <= k <= library.INTERACTIONS:
        return f"k is {k}.", f"k is from 1 to {library.INTERACTIONS}."
    return {
        6: ("a count or a place is outside its limits.", "see the limits in rachdoum.library."),
        15: ("a family is not as a design leaves it.", "number classes by first appearance, and members by their classes."),
        16: ("a treatment member has no stratum.", "hand in the two families of one accepted design."),
    }.get(number, ("the call is refused.", "see docs/REFUSALS.md."))


def _renumbering(table: Table, k: int, accepts: Accepts) -> str:
    """The remedy for numbers that start again, where it gives a table."""
    for pairs in other_readings(table):
        if accepts(nest(table, pairs), k):
            options = " ".join(f"--nested {words(pair)}" for pair in pairs)
            again = listed([f"{child} in each {plural(parent)[0]}" for child, parent in pairs])
            return (
                f"if numbers start again ({again}), number them consecutively or add {options}, "
                f"which gives a table; otherwise "
            )
    return ""


def _with_levels(table: Table, kind: str) -> str:
    """The columns of a kind, with their numbers of levels."""
    counts = [(c.name, len(set(table.cells(c)))) for c in table.of_kind(kind)]
    return listed([f"{name} ({count}{' levels' if place == 0 else ''})" for place, (name, count) in enumerate(counts)])


def _plot_family(table: Table, sizes: Tuple[int, ...], k: int, accepts: Accepts) -> Tuple[str, str]:
    inside = "write / and not * before what lies" if table.formula else "number consecutively what lies"
    return (
        f"the plot columns {_with_levels(table, PLOT)} {_make(table, PLOT)}.",
        f"{inside} inside something else, or leave out a plot column.",
    )


def _make(table: Table, kind: str) -> str:
    """How many groupings the columns of a kind make, as far as that is easily said."""
    made = combined([table.cells(column) for column in table.of_kind(kind)])
    if made > library.MEMBERS:
        return f"and their combinations make {made} groupings, and at most {library.MEMBERS} are taken"
    return f"lead to more than {library.MEMBERS} groupings when they are combined and chained"


def _treatment_family(table: Table, sizes: Tuple[int, ...], k: int, accepts: Accepts) -> Tuple[str, str]:
    lower = next((lower for lower in range(k - 1, 0, -1) if accepts(table, lower)), 0)
    shorter = f"add --k {lower}, which takes combinations of at most {_count(lower, 'column')}" if lower else ""
    other = "leave out a treatment, or write two as one with a level for each combination."
    what = f"the treatments {_with_levels(table, TREATMENT)} {_make(table, TREATMENT)}."
    return what, f"{shorter}; or {other}" if shorter else other


def _final_family(table: Table, sizes: Tuple[int, ...], k: int, accepts: Accepts) -> Tuple[str, str]:
    alone = [c.name for c in table.of_kind(TREATMENT) if len(set(table.cells(c))) == len(table.rows)]
    what = f"{sizes[0]} groupings of the plots and {sizes[1]} of the treatments lead to more than {library.MEMBERS} sources."
    if alone:
        what += f" {alone[0]} has a level of its own for each plot."
        return what, f"leave out {alone[0]}: nothing can be tested beside it."
    return what, "leave out a plot column, or a treatment that has almost as many levels as there are plots."


def _sizes(table: Table, member: Factor) -> Tuple[str, str]:
    sizes = Counter(member.classes)
    most, least = max(sizes, key=lambda c: sizes[c]), min(sizes, key=lambda c: sizes[c])
    what = f"{_class(table, member, most)} has {_count(sizes[most], 'plot')}, {_class(table, member, least)} has {sizes[least]}."
    several = plural(member.columns[0])[1] if len(member.columns) == 1 else f"classes of {member.name}"
    return what, f"give all {several} the same number of plots: add plots to the small ones, or take some out of the large ones."


def _class(table: Table, member: Factor, number: int) -> str:
    """A class in the user's words: `Hut 1`, `Hut 1 with Week 2`, or its lines."""
    rows = [row for row, c in enumerate(member.classes) if c == number]
    if member.columns:
        first = table.rows[rows[0]]
        return " with ".join(f"{name} {brief(shown(first[table.column(name).place - 1]))}" for name in member.columns)
    more = ", .." if len(rows) > MOST_LINES else ""
    return f"the class of {member.name} with {table.spot(*rows[:MOST_LINES])}{more}"


def meeting(table: Table, first: Factor, second: Factor) -> str:
    """The classes that show that two members are not orthogonal."""
    found = uneven(first.classes, second.classes)
    if found is None:
        return f"{first.name} and {second.name} do not cross evenly."
    return (
        f"{_class(table, first, found.one)} has {found.often} of the {_count(found.often_of, 'plot')} with "
        f"{_class(table, second, found.most)}, but {found.seldom} of the {found.seldom_of} with "
        f"{_class(table, second, found.least)}."
    )


_EVEN: Dict[int, str] = {
    10: "use each level of {a} with each level of {b} equally often.",
    12: "use each level of {a} with each level of {b} equally often, or in proportion.",
    13: "give each level of {a} the same share of each level of {b}, or one level of {b} as a whole.",
}
