"""How two factors of a table stand: both are found by their names, and the library compares them.

A factor is a column, or a member of a family by the name that the table and the refusals have for it: `U`, `E`, `I(Hut,Week)`,
`S(Hut,Week)`, `#2`. A refused design leaves its columns, and the families that were written before the refusal.
"""
from __future__ import annotations

from dataclasses import dataclass
from typing import Any, List

from . import library
from .nesting import plural
from .planning import Factor, Family, Nested, factors_of, prepare, raise_call
from .refusals import meeting
from .tables import Table, WrongCall, row_of, split_mark

# What is said of the first of two factors.
ANSWERS = {
    library.EQUIVALENT: "equivalent", library.FINER: "finer", library.COARSER: "coarser", library.ORTHOGONAL: "orthogonal",
    library.NOT_ORTHOGONAL: "not orthogonal",
}

_SENTENCES = {
    library.EQUIVALENT: "{first} and {second} are equivalent: plots have the same {a} exactly when they have the same {b}.",
    library.FINER: "{first} is finer than {second}: plots with the same {a} always have the same {b}, but not the other way round.",
    library.COARSER: "{first} is coarser than {second}: plots with the same {b} always have the same {a}, but not the other way round.",
    library.ORTHOGONAL: "{first} and {second} are orthogonal, and neither is finer: they cross evenly.",
    library.NOT_ORTHOGONAL: "{first} and {second} are not orthogonal: {meeting}",
}


@dataclass(frozen=True)
class Comparison:
    """How two factors stand. The answer is said of the first; `orthogonal` means that neither is finer. The text is a sentence.

    >>> piers = {"p:Hut": [1, 1, 2, 2], "p:Pier": [1, 2, 3, 4]}
    >>> print(compare(piers, "Hut", "Pier"))
    Hut is coarser than Pier: plots with the same pier always have the same hut, but not the other way round.
    >>> compare(piers, "Pier", "E").tsv()
    'compared\\tPier\\tE\\tequivalent\\n'
    """

    first: str
    second: str
    answer: str
    text: str

    def tsv(self) -> str:
        """The line for programs, fields separated by a tab."""
        return f"compared\t{self.first}\t{self.second}\t{self.answer}\n"

    def __str__(self) -> str:
        return self.text


def compare(
    table: Any, first: str, second: str, *, plots: Any = None, treatments: Any = None, nested: Nested = (),
    k: int = library.INTERACTIONS,
) -> Comparison:
    """How two factors of a table stand. A design that is refused has its columns, and the members found before the refusal.

    >>> gains = {"p:Hut": [1, 1, 1, 1, 2, 2, 2, 2], "t:Gain": [1, 1, 2, 2] * 2, "t:Cable": [1, 2] * 4}
    >>> compare(gains, "Gain", "Cable").answer, compare(gains, "I(Gain,Cable)", "Gain").answer
    ('orthogonal', 'finer')
    """
    return compare_in(prepare(table, plots, treatments, nested), first, second, k)


def compare_in(table: Table, first: str, second: str, k: int) -> Comparison:
    """How two factors of a table that is prepared stand."""
    refused, known = factors_of(table, k)
    one, other = (_find(table, refused, known, name) for name in (first, second))
    size = len(one.classes)
    buffers = [Family(size, (factor.classes,)).to_bytes() for factor in (one, other)]
    number, case = library.compare(buffers[0], 1, 1, buffers[1], 1, 1, size)
    raise_call(number)
    return Comparison(one.name, other.name, ANSWERS[case], _sentence(table, one, other, case))


def _tidy(name: str) -> str:
    """A name as it is printed: one blank between words, none beside a comma."""
    return ",".join(" ".join(part.split()) for part in name.split(","))


def _find(table: Table, refused: int, known: List[Factor], given: str) -> Factor:
    """The factor of a name, which may have `p:` or `t:` before it. `#2` keeps this mark: there may be two."""
    name = _tidy(given)
    kind, bare = split_mark(name)
    found = [f for f in known if f.name == name] or [f for f in known if (f.kind, f.name) == (kind, bare)]
    if not found:
        raise WrongCall(_unknown(table, refused, known, given))
    if any(factor.classes != found[0].classes for factor in found):
        raise WrongCall(f"{name!r} is a grouping of the plots and another of the treatments: write p:{name} or t:{name}")
    return found[0]._replace(name=name) if bare.startswith("#") else found[0]


def _unknown(table: Table, refused: int, known: List[Factor], given: str) -> str:
    """What is said of an unknown name: the names that there are and, after a refusal, why there may be no more."""
    columns = [column.name for column in table.columns]
    others = list(dict.fromkeys(factor.name for factor in known if factor.name not in columns))
    text = f"there is no factor {given!r}: {table.source} has {row_of(columns)}, {row_of(others)}"
    return f"{text}; its design is refused ({refused}), so some combinations may have no name" if refused else text


def _noun(factor: Factor) -> str:
    """What plots share in one class: a pier, a level of a column, or a class."""
    return plural(factor.name)[0] if factor.columns == (factor.name,) else f"class of {factor.name}"


def _sentence(table: Table, one: Factor, other: Factor, case: int) -> str:
    shown = meeting(table, one, other) if case == library.NOT_ORTHOGONAL else ""
    return _SENTENCES[case].format(first=one.name, second=other.name, a=_noun(one), b=_noun(other), meeting=shown)
