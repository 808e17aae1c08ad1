"""A plan for people, in aligned columns, and for programs, as JSON."""
from __future__ import annotations

from typing import Any, Dict, List, Sequence, Tuple

from .comparing import Comparison
from .notes import Note
from .planning import Member, Plan, Stratum
from .refusals import Refusal

TITLES = ("stratum", "source", "df", "tested against")


def aligned(plan: Plan) -> str:
    """The table in aligned columns, with what each source is tested against.

    >>> from .planning import plan as make
    >>> print(aligned(make({"p:Hut": [1, 1, 2, 2], "t:Gain": [1, 2, 1, 2]})), end="")
    stratum  source    df  tested against
    U        U          1  the mean, not tested
             total      1
    Hut      total      1
    E        Gain       1  1 df of E
             residual   1
             total      2
    all      total      4
    """
    rows: List[Tuple[str, ...]] = [TITLES]
    for stratum in plan.strata:
        inside = [(source.name, source.degrees, source.test) for source in stratum.sources]
        if stratum.sources and stratum.residual:
            inside.append(("residual", stratum.residual, ""))
        inside.append(("total", stratum.degrees, ""))
        names = [stratum.name] + [""] * len(inside)
        rows += [(name, source, str(df), test) for name, (source, df, test) in zip(names, inside)]
    rows.append(("all", "total", str(plan.plots), ""))
    return _columns(rows)


def _columns(rows: Sequence[Tuple[str, ...]]) -> str:
    first, second, third = (max(len(row[i]) for row in rows) for i in range(3))
    lines = [f"{a:<{first}}  {b:<{second}}  {c:>{third}}  {d}".rstrip() for a, b, c, d in rows]
    return "\n".join(lines) + "\n"


def as_dictionary(plan: Plan) -> Dict[str, Any]:
    """A plan as JSON has it."""
    return {
        "plots": plan.plots,
        "k": plan.k,
        "strata": [_stratum(stratum) for stratum in plan.strata],
        "plot_family": [_member(member) for member in plan.plot_family],
        "treatment_family": [_member(member) for member in plan.treatment_family],
    }


def _stratum(stratum: Stratum) -> Dict[str, Any]:
    return {
        "name": stratum.name,
        "df": stratum.degrees,
        "residual": stratum.residual,
        "sources": [
            {"name": s.name, "df": s.degrees, "testable": s.testable, "against": s.against, "test": s.test}
            for s in stratum.sources
        ],
    }


def _member(member: Member) -> Dict[str, Any]:
    return {
        "name": member.name,
        "classes": member.classes,
        "df": member.degrees,
        "coarser": list(member.coarser),
        "above": list(member.above),
    }


def note_as_dictionary(note: Note) -> Dict[str, Any]:
    """A note as JSON has it, with the strata of the other reading where the note carries it."""
    other = [_stratum(stratum) for stratum in note.other.strata] if note.other else None
    return {"text": note.text, "option": note.option, "strata": other}


def comparison_as_dictionary(comparison: Comparison) -> Dict[str, Any]:
    """How two factors stand, as JSON has it."""
    return {
        "first": comparison.first,
        "second": comparison.second,
        "compared": comparison.answer,
        "text": comparison.text,
    }


def refusal_as_dictionary(refusal: Refusal) -> Dict[str, Any]:
    """A refusal as JSON has it."""
    return {
        "number": refusal.number,
        "places": list(refusal.places),
        "names": list(refusal.names),
        "line": refusal.line,
        "column": refusal.column,
        "what": refusal.what,
        "remedy": refusal.remedy,
    }
