"""Block formulas such as `Hut=4/Pier=3`: as a user may write them, and what is wrong with one that the library refuses.

The library decides whether a text is a formula and gives the number. This module only looks for the place to show.
"""
from __future__ import annotations

import re
from typing import List, Optional, Tuple

from . import library
from .refusals import NAME_FORM, Refusal, listed, quoted
from .tables import rules_take

SOURCE = "the formula"
OPERATORS = ("/", "*")
CHOICE = "write / if what comes later lies inside, * if the two cross."

Fault = Tuple[str, str]


def tidy(text: str) -> str:
    """A formula as the rules have it: without blanks around it, its operators, brackets and equals signs.

    >>> tidy(" ( Row = 3 * Column = 3 ) / Sub = 2 "), tidy("Gain setting = 2")
    ('(Row=3*Column=3)/Sub=2', 'Gain setting=2')
    """
    return re.sub(r"\s*([=/*()])\s*", r"\1", text.strip())


def of_formula(text: str, number: int) -> Refusal:
    """The refusal of a formula, with the first place that breaks its form, or with what is too large."""
    found = (fault(text) if number == 17 else _too_large(text)) or ("it is out of form.", "see docs/REFUSALS.md.")
    return Refusal(number, *found, source=SOURCE)


def fault(text: str) -> Optional[Fault]:
    """What keeps a text from being a formula, and what would be right; none for a formula.

    >>> fault("Hut=4/Pier=3") is None
    True
    >>> fault("Hut=4/Pier")
    ('`Pier` has no count.', 'write how many there are, such as Pier=3.')
    """
    length = len(text.encode("utf-8", "replace"))
    if not text:
        return "it is empty.", "write names and counts, such as Hut=4/Pier=3."
    if length > library.FORMULA_BYTES:
        remedy = f"leave out names, of which at most {library.COLUMNS} are taken, or brackets."
        return f"it has {length:,} bytes, and at most {library.FORMULA_BYTES} are taken.", remedy
    return _joined(_tokens(text)) or _named_twice(text)


def _tokens(text: str) -> List[str]:
    """Operators, brackets, and what stands between them."""
    return [token for token in re.split(r"([/*()])", text) if token]


def _joined(tokens: List[str]) -> Optional[Fault]:
    """The first token that breaks the form."""
    operators = [""]  # of each list that is open: the operator that joins its items
    before = ""
    for token in tokens + [""]:
        after_item = before not in ("", "(", *OPERATORS)
        if token in ("", ")", *OPERATORS):
            found = _after_item(token, operators) if after_item else _nothing(before, token)
        else:
            found = _missing_operator(before, token) if after_item else _item(token, operators)
        if found:
            return found
        before = token
    return None


def _nothing(before: str, token: str) -> Fault:
    """An item is missing between two tokens."""
    where = " and ".join(quoted(part) for part in (before, token) if part)
    place = f"between {where}" if before and token else f"{'after' if before else 'before'} {where}"
    return f"there is nothing {place}.", "put a name with its count there, or take the sign out."


def _missing_operator(before: str, token: str) -> Fault:
    return f"no operator stands between {quoted(before)} and {quoted(token)}.", CHOICE


def _after_item(token: str, operators: List[str]) -> Optional[Fault]:
    """What is wrong with an operator, a closing bracket or the end after an item."""
    if token in OPERATORS:
        if operators[-1] not in ("", token):
            return (
                f"{quoted(operators[-1])} and {quoted(token)} are mixed without brackets.",
                "say by brackets which belong together, such as (Row=3*Column=3)/Sub=2 or Row=3*(Column=3/Sub=2).",
            )
        operators[-1] = token
    elif token and len(operators) == 1:
        return "a bracket is closed that was not opened.", "open it, or take it out."
    elif token:
        operators.pop()
    elif len(operators) > 1:
        return "a bracket is opened and not closed.", "close it, or take it out."
    return None


def _item(token: str, operators: List[str]) -> Optional[Fault]:
    """What is wrong with an opening bracket, or a name and its count."""
    if token == "(":
        operators.append("")
        return None
    name, equals, count = token.partition("=")
    if not rules_take(name):
        return f"{quoted(name or token)} is no name: {NAME_FORM}.", "write a name and its count, such as Pier=3."
    if not equals:
        return f"{quoted(name)} has no count.", f"write how many there are, such as {name}=3."
    return _count(name, count)


def _count(name: str, count: str) -> Optional[Fault]:
    """What is wrong with a count."""
    if re.fullmatch("[1-9][0-9]{0,2}", count) and 2 <= int(count) <= library.PLOTS:
        return None
    other = re.match(r"[0-9]+\s*([^\w\s.,=-])", count)
    if other:
        return f"{quoted(other[1])} is no operator.", CHOICE
    form = f"a count is a whole number from 2 to {library.PLOTS}, without leading zeros."
    return f"{quoted(count)} cannot be the count of {name}." if count else f"{quoted(name + '=')} has no count.", form


def _items(text: str) -> List[Tuple[str, str]]:
    """The names with their counts, in order."""
    return [(name, count) for name, equals, count in (token.partition("=") for token in _tokens(text)) if equals]


def _named_twice(text: str) -> Optional[Fault]:
    names = [name for name, _ in _items(text)]
    twice = [name for place, name in enumerate(names) if name in names[:place]]
    return (f"two names are {quoted(twice[0])}.", "rename one of them.") if twice else None


def _too_large(text: str) -> Fault:
    """Why a formula has no sheet: its names or its plots are too many."""
    items, plots = _items(text), 1
    for _, count in items:
        plots *= int(count)
    if len(items) > library.COLUMNS:
        return f"it has {len(items)} names, and at most {library.COLUMNS} are taken.", "leave some out."
    counts = listed([count for _, count in items])
    return (
        f"its counts {counts} make {plots:,} plots, and at most {library.PLOTS} are taken.",
        "lower a count, or split the trial.",
    )
