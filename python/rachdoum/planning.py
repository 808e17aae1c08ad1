"""Plans: the skeleton table of a trial as objects, and each entry of the library for tables as users have them.

Every function takes a table as a text, as rows with the titles first, as dictionaries, as columns by their title, as the path of a
file, or as a `Table` that `rachdoum.read_file` has read. Levels may be numbers or texts. A column is a plot column or a treatment by `p:` or `t:` before
its name, or by `plots=` and `treatments=`. What the library refuses raises a `Refusal`.
"""
from __future__ import annotations

from dataclasses import dataclass, field, replace
from typing import Any, List, Sequence, Tuple, Union

from . import formulas, library, nesting, refusals
from .refusals import Factor, Refusal
from .sheets import read_bytes, read_table
from .tables import OWN_NAMES, PLOT, TREATMENT, Sheet, Table, choose, converted, nest, sheet, slashes

Nested = Union[str, Sequence[Any]]
MEAN = "U"


@dataclass(frozen=True)
class Family:
    """A family of groupings: for each member the class of each plot, numbered from 1 by first appearance; and the names."""

    plots: int
    members: Tuple[Tuple[int, ...], ...]
    names: Tuple[str, ...] = ()

    def to_bytes(self) -> bytes:
        """The family as the library takes it."""
        parts = [bytes(member)[: library.PLOTS].ljust(library.PLOTS, b"\0") for member in self.members]
        return b"".join(parts).ljust(library.FAMILY_BYTES, b"\0")


@dataclass(frozen=True)
class Relation:
    """Who is strictly coarser than whom, as places from 1: all of them, and the neighbours directly above."""

    coarser: Tuple[Tuple[int, ...], ...]
    above: Tuple[Tuple[int, ...], ...]


@dataclass(frozen=True)
class Levels:
    """What the reader makes of a sheet: the number of plots, and the labels of each column."""

    plots: int
    plot_columns: Tuple[Tuple[int, ...], ...]
    treatment_columns: Tuple[Tuple[int, ...], ...]


@dataclass(frozen=True)
class Source:
    """A source: a treatment member in its stratum, its degrees of freedom, and those of the residual it is tested against."""

    name: str
    stratum: str
    degrees: int
    against: int

    @property
    def testable(self) -> bool:
        """Whether it can be tested: it has degrees of freedom, and so has the residual of its stratum."""
        return self.name != MEAN and self.degrees > 0 and self.against > 0

    @property
    def test(self) -> str:
        """What it is tested against, or why it cannot be tested."""
        if self.name == MEAN:
            return "the mean, not tested"
        if self.degrees <= 0:
            return "cannot be tested: it has no degrees of freedom of its own"
        if self.against <= 0:
            return f"cannot be tested: {self.stratum} has no residual"
        return f"{self.against} df of {self.stratum}"


@dataclass(frozen=True)
class Stratum:
    """A stratum: its degrees of freedom, the sources in it, and what they leave of it."""

    name: str
    degrees: int
    sources: Tuple[Source, ...]
    residual: int


@dataclass(frozen=True)
class Member:
    """A member of a family: name, number of classes, degrees of freedom, and the names of coarser members."""

    name: str
    classes: int
    degrees: int
    coarser: Tuple[str, ...]
    above: Tuple[str, ...]


@dataclass(frozen=True)
class Plan:
    """The skeleton table of a trial.

    >>> huts = plan({"p:Hut": [1, 1, 2, 2], "t:Gain": ["low", "high", "low", "high"]})
    >>> huts.source("Gain").test
    '1 df of E'
    >>> [(stratum.name, stratum.degrees, stratum.residual) for stratum in huts.strata]
    [('U', 1, 0), ('Hut', 1, 1), ('E', 2, 1)]
    >>> print(huts.tsv().replace("\\t", " "))
    stratum source df
    U U 1
    U =total 1
    Hut =total 1
    E Gain 1
    E =residual 1
    E =total 2
    =all =total 4
    <BLANKLINE>
    """

    plots: int
    k: int
    strata: Tuple[Stratum, ...]
    plot_family: Tuple[Member, ...]
    treatment_family: Tuple[Member, ...]
    table: Table = field(repr=False, compare=False)

    def stratum(self, name: str) -> Stratum:
        """The stratum of a name."""
        for stratum in self.strata:
            if stratum.name == name:
                return stratum
        raise KeyError(f"there is no stratum {name!r}; there are {', '.join(s.name for s in self.strata)}")

    @property
    def sources(self) -> Tuple[Source, ...]:
        """All sources, stratum by stratum."""
        return tuple(source for stratum in self.strata for source in stratum.sources)

    def source(self, name: str) -> Source:
        """The source of a name."""
        for source in self.sources:
            if source.name == name:
                return source
        raise KeyError(f"there is no source {name!r}; there are {', '.join(s.name for s in self.sources)}")

    def lines(self) -> List[Tuple[str, str, int]]:
        """The lines of the table as the rules print it: stratum, source, degrees of freedom."""
        made: List[Tuple[str, str, int]] = []
        for stratum in self.strata:
            made += [(stratum.name, source.name, source.degrees) for source in stratum.sources]
            if stratum.sources and stratum.residual:
                made.append((stratum.name, "=residual", stratum.residual))
            made.append((stratum.name, "=total", stratum.degrees))
        return made + [("=all", "=total", self.plots)]

    def tsv(self) -> str:
        """The table as the rules print it, fields separated by a tab."""
        return "stratum\tsource\tdf\n" + "".join(f"{a}\t{b}\t{c}\n" for a, b, c in self.lines())

    def __str__(self) -> str:
        from .show import aligned

        return aligned(self).rstrip("\n")


def prepare(
    table: Any, plots: Any = None, treatments: Any = None, nested: Nested = (), strict: bool = False
) -> Table:
    """The table of whatever a caller has, with its kinds of columns, and nested columns converted. A wrong parent is a `Refusal`."""
    read = read_table(table)
    if not read.columns:
        return read
    ready = _without_parents(slashes(choose(read, plots, treatments)), strict)
    pairs: List[nesting.Pair] = []
    for part in [nested] if isinstance(nested, str) else nested:
        pairs += nesting.parse(part) if isinstance(part, str) else [tuple(part)]
    return nest(ready, pairs) if pairs else ready


def _without_parents(table: Table, strict: bool) -> Table:
    """The table with the columns that have a parent as the library converts them."""
    if all(column.parent is None for column in table.columns):
        return table
    number, text = library.convert(sheet(table, strict).text)
    if number:
        raise refusals.of_text(table, number, strict)
    return converted(table, text)


def plan(
    table: Any, *, plots: Any = None, treatments: Any = None, nested: Nested = (), k: int = library.INTERACTIONS
) -> Plan:
    """The skeleton table of a trial, or a `Refusal`.

    `k` is how many treatment columns are combined at most. `nested="Pier/Hut"` takes Pier as numbered anew within each Hut.

    >>> piers = [["Hut", "Pier", "Gain"]] + [[hut, pier, (hut + pier) % 3 + 1] for hut in (1, 2, 3) for pier in (1, 2, 3)]
    >>> plan(piers, plots="Hut,Pier", treatments="Gain").source("Gain").test
    '2 df of E'
    >>> plan(piers, plots="Hut,Pier", treatments="Gain", nested="Pier/Hut").source("Gain").test
    '4 df of E'
    >>> try:
    ...     plan({"p:Hut": [1, 1, 1, 2, 2], "t:Gain": [1, 2, 3, 1, 2]})
    ... except Refusal as refusal:
    ...     print(refusal.number, refusal.places, refusal.names, refusal.what)
    9 (2, 0) ('Hut',) Hut 1 has 3 plots, Hut 2 has 2.
    """
    return plan_of(prepare(table, plots, treatments, nested), k)


def plan_of(table: Table, k: int, strict: bool = False) -> Plan:
    """The plan of a table that is prepared."""
    first, second = _design(table, k, strict)
    number, answer = library.strata(
        first.to_bytes(), len(first.members), second.to_bytes(), len(second.members), first.plots
    )
    raise_call(number)
    places, residuals = answer[: library.MEMBERS], answer[library.MEMBERS :]
    plot_members, treatment_members = _members(first), _members(second)
    made = []
    for place, member in enumerate(plot_members):
        inside = [m for m, stratum in zip(treatment_members, places) if stratum == place + 1]
        sources = tuple(Source(m.name, member.name, m.degrees, residuals[place]) for m in inside)
        made.append(Stratum(member.name, member.degrees, sources, residuals[place]))
    return Plan(first.plots, k, tuple(made), plot_members, treatment_members, table)


def _members(family: Family) -> Tuple[Member, ...]:
    """The members of a family with their degrees of freedom and their relation."""
    related, own = relation(family), degrees(family)
    return tuple(
        Member(
            name, max(member), own[place],
            tuple(family.names[i - 1] for i in related.coarser[place]),
            tuple(family.names[i - 1] for i in related.above[place]),
        )
        for place, (name, member) in enumerate(zip(family.names, family.members))
    )


def accepts(table: Table, k: int) -> bool:
    """Whether the library accepts a table that is prepared."""
    number, counts, levels = library.read_sheet(sheet(table).text)
    return number == 0 and library.full_design(levels, *counts, k)[0] == 0


def _cut(family: bytes, plots: int, size: int) -> Tuple[Tuple[int, ...], ...]:
    return tuple(tuple(family[library.PLOTS * i : library.PLOTS * i + plots]) for i in range(size))


def _read(table: Table, strict: bool) -> Tuple[Sheet, Tuple[int, ...], Any]:
    made = sheet(table, strict)
    number, counts, levels = library.read_sheet(made.text)
    if number:
        raise refusals.of_text(table, number, strict)
    return made, counts, levels


def _names(made: Sheet, levels: Any, family: bytes, plots: int, size: int, kind: int) -> List[str]:
    """The library's names of all members."""
    answers = [library.name(made.text, levels, family, plots, size, kind, place) for place in range(1, size + 1)]
    for number, _ in answers:
        raise_call(number)
    return [name.decode("ascii") for _, name in answers]


def raise_call(number: int, k: int = library.INTERACTIONS) -> None:
    """A call that the library refuses is a `Refusal`."""
    if number:
        raise Refusal(number, *refusals.of_call(number, k), source="the call")


def _family(made: Sheet, levels: Any, family: bytes, plots: int, size: int, kind: int) -> Family:
    names = _names(made, levels, family, plots, size, kind)
    return Family(plots, _cut(family, plots, size), tuple(made.show(name) for name in names))


def _design(table: Table, k: int, strict: bool = False) -> Tuple[Family, Family]:
    made, counts, levels = _read(table, strict)
    number, answer, first, second = library.full_design(levels, *counts, k)
    if number in (6, 7):
        raise_call(number, k)
    plots, sizes = counts[0], answer[2:4]
    if number == 0:
        return (
            _family(made, levels, first, plots, sizes[0], library.PLOT),
            _family(made, levels, second, plots, sizes[1], library.TREATMENT),
        )
    kinds = {9: [0], 10: [0, 0], 12: [1, 1], 13: [0, 1]}.get(number, [])
    at_fault = [
        _factor(made, levels, (first, second)[kind], plots, sizes[kind], kind, place)
        for kind, place in zip(kinds, answer[:2])
    ]
    raise refusals.of_design(table, number, answer[:2], sizes, at_fault, k, accepts)


def _factor(made: Sheet, levels: Any, family: bytes, plots: int, size: int, kind: int, place: int) -> Factor:
    """The member at a place of a family."""
    number, name = library.name(made.text, levels, family, plots, size, kind, place)
    raise_call(number)
    text = name.decode("ascii")
    classes = _cut(family, plots, size)[place - 1]
    return Factor(made.show(text), TREATMENT if kind == library.TREATMENT else PLOT, tuple(made.columns(text)), classes)


def factors_of(table: Table, k: int) -> Tuple[int, List[Factor]]:
    """The number of the design's refusal, 0 for none, and what has a name: the columns, U and E, then the members that are written.

    The sheet has labels by first appearance, so a column is numbered as members are.
    """
    made, counts, levels = _read(table, False)
    number, answer, *families = library.full_design(levels, *counts, k)
    if number in (6, 7):
        raise_call(number, k)
    plots = counts[0]
    found: List[Factor] = []
    for kind, columns in zip((PLOT, TREATMENT), _columns(levels, counts)):
        found += [Factor(c.name, kind, (c.name,), labels) for c, labels in zip(table.of_kind(kind), columns)]
    for name, classes in zip(OWN_NAMES, ((1,) * plots, tuple(range(1, plots + 1)))):
        found.append(Factor(name, PLOT, (), classes))
    for side, (family, size) in enumerate(zip(families, answer[2:4])):
        found += [_factor(made, levels, family, plots, size, side, place) for place in range(1, size + 1)]
    return number, found


# Each entry of the library


def read_sheet(table: Any, *, plots: Any = None, treatments: Any = None, nested: Nested = ()) -> Levels:
    """The labels of each column, as the library's reader has them.

    >>> read_sheet({"p:Hut": ["north", "south"], "t:Gain": [10, 10]})
    Levels(plots=2, plot_columns=((1, 2),), treatment_columns=((1, 1),))
    """
    _, counts, levels = _read(prepare(table, plots, treatments, nested), False)
    return Levels(counts[0], *_columns(levels, counts))


def _columns(levels: Any, counts: Tuple[int, ...]) -> List[Tuple[Tuple[int, ...], ...]]:
    """The labels of the plot columns and of the treatment columns in a level table."""
    plots = counts[0]
    places = [[library.PLOTS * (start + c) for c in range(count)] for start, count in zip((0, library.COLUMNS), counts[1:])]
    return [tuple(tuple(levels[place : place + plots]) for place in of_kind) for of_kind in places]


def plot_design(table: Any, *, plots: Any = None, treatments: Any = None, nested: Nested = ()) -> Family:
    """The plot family of the plot columns, whatever the treatments are.

    >>> plot_design({"p:Hut": [1, 1, 2, 2], "p:Week": [1, 2, 1, 2]}).names
    ('U', 'Hut', 'Week', 'E')
    """
    ready = prepare(table, plots, treatments, nested)
    made, counts, levels = _read(ready, False)
    number, answer, family = library.plot_design(levels, counts[0], counts[1])
    if number:
        at_fault = [_factor(made, levels, family, counts[0], answer[2], library.PLOT, p) for p in answer[:2] if p]
        raise refusals.of_design(ready, number, answer[:2], (answer[2], 0), at_fault, library.INTERACTIONS, accepts)
    return _family(made, levels, family, counts[0], answer[2], library.PLOT)


def full_design(
    table: Any, *, plots: Any = None, treatments: Any = None, nested: Nested = (), k: int = library.INTERACTIONS
) -> Tuple[Family, Family]:
    """The plot family and the final treatment family.

    >>> first, second = full_design({"p:Hut": [1, 1, 2, 2], "t:Gain": [1, 2, 1, 2]})
    >>> first.names, second.names
    (('U', 'Hut', 'E'), ('U', 'Gain'))
    """
    return _design(prepare(table, plots, treatments, nested), k)


def relation(family: Family) -> Relation:
    """Who is strictly coarser than whom in a family.

    >>> relation(plot_design({"p:Hut": [1, 1, 2, 2]}))
    Relation(coarser=((), (1,), (1, 2)), above=((), (1,), (2,)))
    """
    number, answer = library.relation(family.to_bytes(), family.plots, len(family.members))
    raise_call(number)

    def places(words: Sequence[int]) -> Tuple[Tuple[int, ...], ...]:
        return tuple(tuple(j + 1 for j in range(library.MEMBERS) if word >> j & 1) for word in words)

    size, most = len(family.members), library.MEMBERS
    return Relation(places(answer[1 : 1 + size]), places(answer[1 + most : 1 + most + size]))


def degrees(family: Family) -> Tuple[int, ...]:
    """The degrees of freedom of each member of a family.

    >>> degrees(plot_design({"p:Hut": [1, 1, 2, 2]}))
    (1, 1, 2)
    """
    number, answer = library.degrees(family.to_bytes(), family.plots, len(family.members))
    raise_call(number)
    return answer[: len(family.members)]


def strata(plot_family: Family, treatment_family: Family) -> Tuple[Tuple[int, ...], Tuple[int, ...]]:
    """The place of each treatment member's stratum, and the residual degrees of freedom of each plot member.

    >>> strata(*full_design({"p:Hut": [1, 1, 2, 2], "t:Gain": [1, 2, 1, 2]}))
    ((1, 3), (0, 1, 1))
    """
    number, answer = library.strata(
        plot_family.to_bytes(), len(plot_family.members), treatment_family.to_bytes(), len(treatment_family.members),
        plot_family.plots,
    )
    raise_call(number)
    return answer[: len(treatment_family.members)], answer[library.MEMBERS :][: len(plot_family.members)]


def name(
    table: Any, family: Family, place: int, *, treatment: bool = False, plots: Any = None, treatments: Any = None,
    nested: Nested = (),
) -> str:
    """The name of the member at a place (from 1) of a plot family, or of a treatment family.

    >>> table = {"p:Hut": [1, 1, 2, 2], "t:Gain": [1, 2, 1, 2]}
    >>> name(table, plot_design(table), 2)
    'Hut'
    """
    made, _, levels = _read(prepare(table, plots, treatments, nested), False)
    kind = library.TREATMENT if treatment else library.PLOT
    number, text = library.name(made.text, levels, family.to_bytes(), family.plots, len(family.members), kind, place)
    raise_call(number)
    return made.show(text.decode("ascii"))


def skeleton(table: Any, *, plots: Any = None, treatments: Any = None, nested: Nested = ()) -> str:
    """What the rules print for a table: its skeleton table with k = 6, or one line with the refusal. It raises no `Refusal`.

    >>> skeleton({"p:Hut": [1, 1, 1, 2, 2]})
    'refused\\t9\\tHut\\t-\\n'
    """
    try:
        made = sheet(prepare(table, plots, treatments, nested, strict=True), strict=True)
    except Refusal as refusal:
        return refusal.tsv()
    return library.skeleton(made.text)[1].decode("ascii")


def convert(table: Any, *, plots: Any = None, treatments: Any = None, nested: Nested = ()) -> str:
    """The sheet of a table as the rules have it: columns with a parent (`p:Section/Bench`), and nested ones, numbered consecutively.

    Numbers of other columns stay as they are; where a column has texts, its levels are numbered.

    >>> print(convert("p:Bench,p:Section/Bench\\n7,1\\n7,2\\n3,1\\n3,2\\n").replace("\\t", " "), end="")
    p:Bench p:Section
    7 1
    7 2
    3 3
    3 4
    """
    ready = prepare(table, plots, treatments, nested, strict=True)
    number, text = library.convert(sheet(ready, strict=True, keep=True).text)
    if number:
        raise refusals.of_text(ready, number, strict=True)
    return text.decode("ascii")


def formula(text: str) -> str:
    """The sheet of a block formula: a plot column for each name, and the plots that its counts make.

    `/` puts what comes later inside what comes before, `*` crosses the two. Blanks around the signs do not count. `plan` takes the sheet
    as it is, or with some of its names as treatments.

    >>> print(formula("Hut = 2 / Pier = 2").replace("\\t", " "), end="")
    p:Hut p:Pier
    1 1
    1 2
    2 3
    2 4
    >>> plan(formula("Block=4*Gain=3"), treatments="Gain").source("Gain").test
    '6 df of E'
    """
    tidied = formulas.tidy(text)
    number, made = library.formula(tidied.encode("utf-8", "replace"))
    if number:
        raise formulas.of_formula(tidied, number)
    return made.decode("ascii")


def formula_table(text: str) -> Table:
    """The table of a formula's sheet."""
    return replace(read_bytes(formula(text).encode("ascii"), formulas.SOURCE), formula=True)
