"""Groupings of the plots: what a message has to know of them. The library judges; this only finds an example to show.

A grouping is a list with the class of each plot.
"""
from __future__ import annotations

from collections import Counter
from itertools import combinations
from typing import Dict, Hashable, List, NamedTuple, Optional, Sequence, Tuple

Grouping = Sequence[Hashable]


class Uneven(NamedTuple):
    """Class `one` has `often` of the `often_of` plots of class `most`, but `seldom` of the `seldom_of` plots of `least`."""

    one: Hashable
    most: Hashable
    often: int
    often_of: int
    least: Hashable
    seldom: int
    seldom_of: int


def finer(first: Grouping, second: Grouping) -> bool:
    """Whether plots that share a class of the first always share one of the second.

    >>> finer([1, 2, 3, 3], [1, 1, 2, 2]), finer([1, 1, 2, 2], [1, 2, 3, 3])
    (True, False)
    """
    return len(set(zip(first, second))) == len(set(first))


def crosses(first: Grouping, second: Grouping) -> bool:
    """Whether each level of the one occurs with each of the other, and both have more than one.

    >>> crosses([1, 1, 2, 2], [1, 2, 1, 2]), crosses([1, 1, 2, 2], [1, 2, 3, 4])
    (True, False)
    """
    one, two = len(set(first)), len(set(second))
    return one > 1 and two > 1 and len(set(zip(first, second))) == one * two


def changes(grouping: Grouping) -> int:
    """How often the class changes from one plot to the next."""
    return sum(a != b for a, b in zip(grouping, grouping[1:]))


def chained(first: Grouping, second: Grouping) -> List[int]:
    """The supremum: plots that chains through both groupings hold together have one number.

    >>> chained([1, 1, 2, 2], [1, 2, 2, 3])
    [0, 0, 0, 0]
    """
    parent: Dict[Tuple[int, Hashable], Tuple[int, Hashable]] = {}

    def root(node: Tuple[int, Hashable]) -> Tuple[int, Hashable]:
        while parent.setdefault(node, node) != node:
            parent[node] = parent[parent[node]]
            node = parent[node]
        return node

    for a, b in zip(first, second):
        parent[root((0, a))] = root((1, b))
    numbers: Dict[Tuple[int, Hashable], int] = {}
    return [numbers.setdefault(root((0, a)), len(numbers)) for a in first]


def uneven(first: Grouping, second: Grouping) -> Optional[Uneven]:
    """The classes that show best why two groupings are not orthogonal; None where they are.

    >>> uneven([1, 1, 1, 2, 2, 2], ["a", "a", "b", "a", "b", "b"])
    Uneven(one=1, most='a', often=2, often_of=3, least='b', seldom=1, seldom_of=3)
    """
    shared, sizes = Counter(zip(first, second)), Counter(second)
    inside: Dict[int, Tuple[Dict[Hashable, None], Dict[Hashable, None]]] = {}
    for part, a, b in zip(chained(first, second), first, second):
        ones, others = inside.setdefault(part, ({}, {}))
        ones[a], others[b] = None, None
    best: Optional[Uneven] = None
    for ones, others in inside.values():
        for a in ones:
            most = max(others, key=lambda b: shared[a, b] / sizes[b])
            least = min(others, key=lambda b: shared[a, b] / sizes[b])
            found = Uneven(a, most, shared[a, most], sizes[most], least, shared[a, least], sizes[least])
            if _gap(found) > (_gap(best) if best else 0):
                best = found
    return best


def _gap(found: Uneven) -> int:
    return found.often * found.seldom_of - found.seldom * found.often_of


def combined(groupings: Sequence[Grouping]) -> int:
    """How many different groupings the combinations of at least one of these make.

    >>> combined([[1, 1, 2, 2], [1, 2, 1, 2]])
    3
    """
    made = set()
    for size in range(1, len(groupings) + 1):
        for chosen in combinations(groupings, size):
            numbers: Dict[Tuple[Hashable, ...], int] = {}
            made.add(tuple(numbers.setdefault(cell, len(numbers)) for cell in zip(*chosen)))
    return len(made)
