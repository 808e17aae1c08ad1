"""A table of plots as the user has it, and the sheet that the library is handed for it.

A `Table` keeps the user's own names, levels and line numbers, for messages. `sheet` writes it in the form of the rules: levels
become labels by first appearance. Nothing is judged here: a table with faults becomes a sheet with the same faults, and the
library refuses it.
"""
from __future__ import annotations

from dataclasses import dataclass, field, replace
from typing import Any, Dict, Iterable, List, Optional, Sequence, Tuple

from . import library

PLOT, TREATMENT, UNMARKED = "p", "t", ""
MARKS = {"p:": PLOT, "t:": TREATMENT, "P:": PLOT, "T:": TREATMENT}
MISSING = ("", "NA", "N/A", "#N/A", "NaN")
OWN_NAMES = ("U", "E")
OWN_STARTS = ("I(", "S(", "#", "=")

# What a message shows of the user's texts.
LONGEST_SHOWN = 40
MOST_LISTED = 12

# Stands between a level and the parent that it is nested in. No file that is read has this character.
WITHIN = "\x1f"


class WrongCall(ValueError):
    """The call itself is wrong: a column that is not there, a column named twice."""


@dataclass(frozen=True)
class Column:
    """A column: the user's name without its mark, its kind, its place in the user's table (from 1), and its parent.

    A plot column with a parent (`p:Pier/Hut`) is numbered anew in each of the parent's levels.
    """

    name: str
    kind: str
    place: int
    parent: Optional[str] = None


@dataclass(frozen=True)
class Table:
    """Plots and their levels as texts. A row may have too many or too few fields: the library will refuse it.

    The table of a file has the number of the line with the titles, and of the line of each row. That of a formula is marked: it says
    what lies inside what, and its numbers cannot be meant otherwise.
    """

    source: str
    columns: Tuple[Column, ...]
    rows: Tuple[Tuple[str, ...], ...]
    lines: Tuple[int, ...] = ()
    first_line: int = 0
    unused: Tuple[str, ...] = ()
    given: int = 0
    raw: Optional[bytes] = None
    fault: Tuple[str, ...] = ()
    formula: bool = False

    def spot(self, *rows: int) -> str:
        """What a row, or some, are called in a message: lines of a file, or plots."""
        numbers = ", ".join(str(self.lines[row] if self.lines else row + 1) for row in rows)
        return f"{'line' if self.lines else 'plot'}{'s' if len(rows) > 1 else ''} {numbers}"

    def width(self) -> int:
        """How many fields each row should have."""
        return self.given or len(self.columns)

    def of_kind(self, kind: str) -> List[Column]:
        """The columns of a kind, in order."""
        return [column for column in self.columns if column.kind == kind]

    def column(self, name: str) -> Column:
        """The column of a name."""
        for column in self.columns:
            if column.name == name:
                return column
        raise WrongCall(f"there is no column {name!r}: {self.source} has {row_of([c.name for c in self.columns])}")

    def cells(self, column: Column) -> List[str]:
        """The levels of a column, one for each plot. All rows must be long enough."""
        return [row[column.place - 1] for row in self.rows]


def row_of(names: Sequence[str]) -> str:
    """Names in a row for a message: shortened, and no more than some."""
    return ", ".join([brief(name) for name in names[:MOST_LISTED]] + [".."] * (len(names) > MOST_LISTED))


def brief(text: str) -> str:
    """A text of the user in a message: shortened, without characters that a terminal would obey."""
    plain = "".join(character if character.isprintable() else "?" for character in text[: LONGEST_SHOWN + 1])
    return plain if len(plain) <= LONGEST_SHOWN else plain[:LONGEST_SHOWN] + ".."


def is_zero(text: str) -> bool:
    """Whether a level is zero, however it is written. Zero stands for a missing level.

    >>> [is_zero(text) for text in ("0", "00", "0,0", "-0", "10", "0-0", "")]
    [True, True, True, True, False, False, False]
    """
    parts = text.lstrip("+-").replace(",", ".").split(".")
    return "0" in text and len(parts) <= 2 and not "".join(parts).strip("0")


def is_missing(text: str) -> bool:
    """Whether a level is missing: empty, `NA` and the like, or zero."""
    return text in MISSING or is_zero(text)


def split_mark(title: str) -> Tuple[str, str]:
    """The kind and the name of a column's title.

    >>> split_mark("p:Hut"), split_mark("t: Gain"), split_mark("Gain")
    (('p', 'Hut'), ('t', 'Gain'), ('', 'Gain'))
    """
    kind = MARKS.get(title[:2], UNMARKED)
    return (kind, title[2:].strip()) if kind else (UNMARKED, title)


def columns_of(titles: Sequence[str]) -> Tuple[Column, ...]:
    """Columns from their titles, which may begin with `p:` or `t:`."""
    parts = [split_mark(" ".join(title.split())) for title in titles]
    return tuple(Column(name, kind, place) for place, (kind, name) in enumerate(parts, 1))


def _listed(names: Any) -> List[str]:
    """Names from a list, or from a text with commas."""
    if names is None:
        return []
    parts = names.split(",") if isinstance(names, str) else [str(name) for name in names]
    return [split_mark(part.strip())[1] for part in parts if part.strip()]


def _named(table: Table, name: str) -> Column:
    """The column of a name or, where there is none, the one whose name has this before its slash."""
    known = any(column.name == name for column in table.columns)
    before = [column for column in table.columns if column.name.partition("/")[0].strip() == name]
    return before[0] if not known and len(before) == 1 else table.column(name)


def choose(table: Table, plots: Any = None, treatments: Any = None) -> Table:
    """The table with the columns that are named as plots and as treatments.

    A column that is not named keeps its mark; one without a mark is left out. Without any name the table stays as it is. Of a name with
    a slash the part before it is enough.

    >>> table = Table("t", columns_of(["Hut", "Gain", "Note"]), (("1", "2", "x"),))
    >>> [(c.name, c.kind) for c in choose(table, "Hut", ["Gain"]).columns]
    [('Hut', 'p'), ('Gain', 't')]
    """
    kinds: Dict[str, str] = {}
    for kind, names in ((PLOT, _listed(plots)), (TREATMENT, _listed(treatments))):
        for given in names:
            name = _named(table, given).name
            if kinds.setdefault(name, kind) != kind:
                raise WrongCall(f"column {name!r} is named as a plot column and as a treatment")
    if not kinds:
        return table
    marked = [replace(column, kind=kinds.get(column.name, column.kind)) for column in table.columns]
    unused = tuple(column.name for column in marked if column.name and not column.kind)
    return replace(table, columns=tuple(c for c in marked if c.kind), unused=unused, given=table.width())


def slashes(table: Table) -> Table:
    """Takes `Pier/Hut` in the title of a plot column as the column Pier with the parent Hut.

    >>> table = slashes(Table("t", columns_of(["p:Hut", "p:Pier/Hut", "t:km/h"]), ()))
    >>> [(column.name, column.parent) for column in table.columns]
    [('Hut', None), ('Pier', 'Hut'), ('km/h', None)]
    """
    columns = []
    for column in table.columns:
        if column.kind == PLOT and "/" in column.name:
            child, _, parent = column.name.partition("/")
            column = replace(column, name=child.strip(), parent=parent.strip())
        columns.append(column)
    return replace(table, columns=tuple(columns))


def converted(table: Table, text: bytes) -> Table:
    """The table with the levels of a converted sheet, and no column with a parent.

    A level is called by what its first plot has: the column's own level in that of the parent.

    >>> table = slashes(Table("t", columns_of(["p:Hut", "p:Pier/Hut"]), (("a", "1"), ("b", "1"), ("a", "1"))))
    >>> [shown(row[1]) for row in converted(table, b"p:Hut\\tp:Pier\\n1\\t1\\n2\\t2\\n1\\t1\\n").rows]
    ['1 in Hut a', '1 in Hut b', '1 in Hut a']
    """
    levels = [line.split("\t") for line in text.decode("ascii").splitlines()[1:]]
    rows = [list(row) for row in table.rows]
    for place, column in enumerate(table.columns):
        if column.parent is not None:
            parent = table.column(column.parent)
            words: Dict[str, str] = {}
            for row, fields in zip(rows, levels):
                own = _within(row[column.place - 1], parent, row[parent.place - 1])
                row[column.place - 1] = words.setdefault(fields[place], own)
    columns = tuple(replace(column, parent=None) for column in table.columns)
    return replace(table, columns=columns, rows=tuple(tuple(row) for row in rows))


def _within(own: str, parent: Column, above: str) -> str:
    """A level that is counted within a level of the parent."""
    return f"{own}{WITHIN}{parent.name} {above}"


def _parents(table: Table, pairs: Iterable[Tuple[str, str]]) -> Dict[str, List[str]]:
    parents: Dict[str, List[str]] = {}
    for child, parent in pairs:
        for name in (child, parent):
            if table.column(name).kind != PLOT:
                raise WrongCall(f"only plot columns can be nested, and {name!r} is none")
        if parent not in parents.setdefault(child, []):
            parents[child].append(parent)
    return parents


def _in_turn(parents: Dict[str, List[str]]) -> List[str]:
    """The children, each after those of its parents that are children too."""
    done: List[str] = []
    while len(done) < len(parents):
        ready = [c for c in parents if c not in done and all(p in done or p not in parents for p in parents[c])]
        if not ready:
            raise WrongCall("columns cannot be nested in each other or in themselves")
        done += ready
    return done


def nest(table: Table, pairs: Sequence[Tuple[str, str]]) -> Table:
    """The table with each child numbered within its parent: two plots share its level where they share both.

    The pairs are (child, parent). A parent that is itself nested is taken as it is after its own conversion, in whatever order
    the pairs stand.

    >>> table = Table("t", columns_of(["p:Hut", "p:Pier"]), (("1", "1"), ("1", "2"), ("2", "1"), ("2", "2")))
    >>> len(set(table.cells(table.column("Pier")))), len(set(nest(table, [("Pier", "Hut")]).cells(table.column("Pier"))))
    (2, 4)
    """
    parents = _parents(table, pairs)
    rows = [list(row) for row in table.rows]
    for child in _in_turn(parents):
        for parent in parents[child]:
            _combine(rows, table.column(child), table.column(parent))
    return replace(table, rows=tuple(tuple(row) for row in rows))


def _combine(rows: List[List[str]], child: Column, parent: Column) -> None:
    for row in rows:
        if max(child.place, parent.place) <= len(row):
            own, above = row[child.place - 1], row[parent.place - 1]
            if not is_missing(own) and not is_missing(above):
                row[child.place - 1] = _within(own, parent, above)


def shown(cell: str) -> str:
    """A level as a message shows it."""
    return cell.replace(WITHIN, " in ")


def rules_take(name: str) -> bool:
    """Whether the rules take a name: 2 to 12 ASCII letters or digits, a letter first.

    >>> [rules_take(name) for name in ("Hut", "A", "Gain 2", "Verstärkung", "Temperature12")]
    [True, False, False, False, False]
    """
    shortest, longest = library.NAME_LENGTHS
    return shortest <= len(name) <= longest and name.isascii() and name.isalnum() and name[0].isalpha()


def cannot_be_shown(name: str) -> str:
    """Why a name cannot be shown beside the planner's own names; empty if it can."""
    if not name:
        return "it is empty"
    if name in OWN_NAMES:
        return "U means the whole trial and E every single plot"
    if name.startswith(OWN_STARTS):
        return f"names that begin with {name[:2] if name[0] in 'IS' else name[0]} are the planner's own"
    if not name.isprintable():
        return "it has a character that cannot be shown"
    return "a name has no comma" if "," in name else ""


@dataclass(frozen=True)
class Sheet:
    """A sheet as the library is handed it, and the user's name for each name in it that stands for another."""

    text: bytes
    own: Dict[str, str] = field(default_factory=dict)

    def columns(self, name: str) -> List[str]:
        """The user's names of the columns whose levels together tell a member's classes apart; none for U, E, `#` and `S(` of several.

        >>> [Sheet(b"").columns(name) for name in ("Hut", "I(Hut,Week)", "S(Hut)", "S(Hut,Week)", "#2")]
        [['Hut'], ['Hut', 'Week'], ['Hut'], [], []]
        """
        inner = name[2:-1].split(",") if name.startswith(("I(", "S(")) else [name]
        if name in OWN_NAMES or name.startswith("#") or name.startswith("S(") and len(inner) > 1:
            return []
        return [self.own.get(part, part) for part in inner]

    def show(self, name: str) -> str:
        """A member's name with the user's names of the columns."""
        if not name.startswith(("I(", "S(")):
            return self.own.get(name, name)
        return f"{name[:2]}{','.join(self.own.get(part, part) for part in name[2:-1].split(','))})"


def _handed_names(table: Table, strict: bool) -> Dict[str, str]:
    """For each name of a column or a parent one that the rules take, if the user's can be shown; a name with a fault stays as it is."""
    names = [column.name for column in table.columns]
    unmarked = [column.name for column in table.columns if not column.kind]
    parents = [column.parent for column in table.columns if column.parent is not None]
    handed = {name: name for name in names + parents}
    if strict or len(names) > 2 * library.COLUMNS:
        return handed
    free = (f"Column{i}" for i in range(1, 4 * library.COLUMNS + 1) if f"Column{i}" not in names + parents)
    for name in handed:
        if not _is_fit(name) and names.count(name) <= 1 and name not in unmarked:
            handed[name] = next(free)
    return handed


def _title(column: Column, handed: Dict[str, str]) -> str:
    """A column's title in the form of the rules. A parent with a slash of its own stays as it is: the library refuses it."""
    mark = f"{column.kind}:" if column.kind else ""
    if column.parent is None:
        return mark + handed[column.name]
    return f"{mark}{handed[column.name]}/{column.parent if '/' in column.parent else handed[column.parent]}"


def _is_fit(name: str) -> bool:
    """Whether a name goes to the library as it is: the rules take it, or it cannot be shown and is to be refused."""
    return rules_take(name) or bool(cannot_be_shown(name))


def sheet(table: Table, strict: bool = False, keep: bool = False) -> Sheet:
    """The sheet of a table, in the form of the rules: labels by first appearance, 0 for a missing level.

    A name that the rules do not take gets one that they do; with `strict` it stays, and the library refuses the sheet. With `keep` a
    column whose levels are all numbers that the rules take has these.

    >>> table = Table("t", columns_of(["p:Hut", "t:Gain setting"]), (("north", "10"), ("south", "20")))
    >>> sheet(table).text, sheet(table).own
    (b'p:Hut\\tt:Column1\\n1\\t1\\n2\\t2\\n', {'Column1': 'Gain setting'})
    >>> sheet(table, keep=True).text
    b'p:Hut\\tt:Column1\\n1\\t10\\n2\\t20\\n'
    """
    if table.raw is not None:
        return Sheet(table.raw)
    if not table.columns and not table.rows:
        return Sheet(b"")
    handed = _handed_names(table, strict)
    lines = ["\t".join(_title(column, handed) for column in table.columns)] + _labelled(table, keep)
    own = {handed[column.name]: column.name for column in table.columns if handed[column.name] != column.name}
    return Sheet(("\n".join(lines) + "\n").encode("utf-8", "replace"), own)


def _is_level(cell: str) -> bool:
    """Whether the rules take a level as it is: a whole number without leading zeros, and not too high."""
    digits = cell.isascii() and cell.isdigit() and cell[0] != "0" and len(cell) <= len(str(library.HIGHEST_LEVEL))
    return digits and int(cell) <= library.HIGHEST_LEVEL


def _own_labels(table: Table, column: Column) -> Dict[str, str]:
    """Each level of a column by itself, where all of them are numbers that the rules take."""
    cells = {row[column.place - 1] for row in table.rows if column.place <= len(row)}
    levels = [cell for cell in cells if not is_missing(cell)]
    return {cell: cell for cell in levels} if all(_is_level(cell) for cell in levels) else {}


def _labelled(table: Table, keep: bool) -> List[str]:
    labels: List[Dict[str, str]] = [_own_labels(table, column) if keep else {} for column in table.columns]
    places = [column.place - 1 for column in table.columns]
    lines = []
    for row in table.rows:
        fields = [
            "0" if is_missing(row[place]) else known.setdefault(row[place], str(len(known) + 1))
            for place, known in zip(places, labels)
            if place < len(row)
        ]
        fields += ["1"] * (len(row) - table.width())
        if len(row) < table.width() and len(fields) == len(places):
            fields = fields[:-1]
        lines.append("\t".join(fields))
    return lines
