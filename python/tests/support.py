"""What the tests share: the command run inside this process, and random designs."""
import contextlib
import io
import os
import random
import sys

from rachdoum import library
from rachdoum.command import main

ROOT = os.path.dirname(os.path.dirname(os.path.dirname(os.path.abspath(__file__))))
EXAMPLES = os.path.join(ROOT, "examples")


class _Stream(io.TextIOWrapper):
    def __init__(self, data=b""):
        super().__init__(io.BytesIO(data), encoding="utf-8", newline="")

    def written(self):
        self.flush()
        return self.buffer.getvalue()


def run(*arguments, data=None):
    """Runs the command. Answers its exit status, the bytes of standard output and the text of standard error."""
    out, err, before = _Stream(), _Stream(), sys.stdin
    sys.stdin = _Stream(data or b"")
    try:
        with contextlib.redirect_stdout(out), contextlib.redirect_stderr(err):
            try:
                status = main(list(arguments))
            except SystemExit as leaving:
                status = leaving.code
    finally:
        sys.stdin = before
    return status, out.written(), err.written().decode("utf-8")


def sheet_bytes(titles, rows):
    """A sheet in the form of the rules."""
    return "".join("\t".join(str(field) for field in row) + "\n" for row in [titles] + rows).encode("ascii")


def _structure(chance):
    """Plot columns on the combinations of some sizes: each nested in the one before, or crossed; sometimes scattered."""
    sizes = [chance.randint(2, 4) for _ in range(chance.randint(1, 4))]
    if chance.random() < 0.1:
        sizes = [2] * chance.randint(5, 6)
    plots = _product(sizes)
    if plots > 144:
        return _structure(chance)
    cells = [[(plot // _product(sizes[i + 1 :])) % size for i, size in enumerate(sizes)] for plot in range(plots)]
    columns = []
    for place in range(chance.randint(0, len(sizes))):
        within = [i for i in range(place) if chance.random() < 0.5 and len(sizes) < 5] + [place]
        columns.append([tuple(cell[i] for i in within) for cell in cells])
    if chance.random() < 0.1 and len(columns) < 6:
        scattered = [(plot % sizes[0],) for plot in range(plots)]
        chance.shuffle(scattered)
        columns.append(scattered)
    return cells, columns


def _product(numbers):
    product = 1
    for number in numbers:
        product *= number
    return product


def _treatment(chance, cells, columns):
    """A treatment: a level of one coordinate, of sums of coordinates (Latin), of a plot column, or scattered."""
    kind = chance.random()
    sizes = [max(cell[i] for cell in cells) + 1 for i in range(len(cells[0]))]
    if kind < 0.45:
        place = chance.randrange(len(sizes))
        return [cell[place] for cell in cells]
    if kind < 0.8:
        places = chance.sample(range(len(sizes)), min(len(sizes), 2))
        size = min(sizes[i] for i in places)
        return [sum(cell[i] for i in places) % size for cell in cells]
    if kind < 0.9 and columns:
        return [sum(label) % 2 for label in chance.choice(columns)]
    return [chance.randrange(3) for _ in cells]


def design(seed):
    """A random design: the titles and the rows, with whole numbers as levels."""
    chance = random.Random(seed)
    cells, columns = _structure(chance)
    treatments = [_treatment(chance, cells, columns) for _ in range(chance.randint(0, 3))]
    if len(cells[0]) > 4:
        treatments = [[cell[i] for cell in cells] for i in range(chance.randint(2, len(cells[0])))]
        if chance.random() < 0.5:
            treatments[0] = list(range(len(cells)))
    named = [(f"p:Plot{i + 1}", column) for i, column in enumerate(columns)]
    named += [(f"t:Treat{i + 1}", column) for i, column in enumerate(treatments)]
    if not named:
        named = [("p:Plot1", [cell[0] for cell in cells])]
    if chance.random() < 0.3:
        chance.shuffle(named)
    rows = list(zip(*(_numbered(chance, column) for _, column in named)))
    if chance.random() < 0.3:
        chance.shuffle(rows)
    if chance.random() < 0.1:
        rows = rows[: chance.randint(1, len(rows))]
    return [title for title, _ in named], [list(row) for row in rows]


def _numbered(chance, column):
    """A column with its labels replaced by different whole numbers: any that a level can be, or some that lie 65,536 apart."""
    labels = sorted(set(column))
    levels = range(1, library.HIGHEST_LEVEL + 1) if chance.random() < 0.5 else range(chance.randint(1, 65536), library.HIGHEST_LEVEL + 1, 65536)
    numbers = chance.sample(levels, len(labels))
    return [dict(zip(labels, numbers))[label] for label in column]


def formula(seed):
    """A random formula: mostly one that is taken, now and then with too many names or plots, or with a byte changed."""
    chance = random.Random(seed)
    names = chance.sample(["Hut", "Pier", "Week", "Aa", "Aaa", "AA", "Longestnam12", "N1", "Row", "Column"], chance.choice([1, 2, 3, 4, 5, 6, 7]))
    most = 240 if chance.random() < 0.1 else 5 if len(names) < 5 else 3
    text = _list(chance, [f"{name}={chance.randint(2, most)}" for name in names])
    while chance.random() < 0.3:
        place = chance.randrange(len(text) + 1)
        text = text[:place] + chance.choice(["", "/", "*", "(", ")", "=", "2", "0", "A", " "]) + text[place + chance.randrange(2) :]
    return text


def _list(chance, items):
    """Items joined by one operator, some of them together in brackets."""
    parts = []
    while items:
        count = chance.randint(1, len(items))
        part, items = items[:count], items[count:]
        bracketed = count > 1 and (parts or items) or chance.random() < 0.1
        parts.append(f"({_list(chance, part)})" if bracketed else chance.choice("/*").join(part))
    return chance.choice("/*").join(parts) if len(parts) > 1 else parts[0]


def with_parents(seed, titles):
    """The titles with a parent for some plot columns: mostly one further left, now and then any column or none of them."""
    chance, made = random.Random(seed), []
    for place, title in enumerate(titles):
        left = [other[2:] for other in titles[:place] if other.startswith("p:")]
        if title.startswith("p:") and chance.random() < 0.8:
            others = [other[2:] for other in titles] + ["Nobody"]
            parent = chance.choice(others if chance.random() < 0.1 else left or [""])
            title += f"/{parent}" if parent else ""
        made.append(title)
    return made
