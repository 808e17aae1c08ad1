"""Reads what a user has into a `Table`: files of any of the usual kinds, texts, rows and columns.

The separator is found by the first line: a tab, else a semicolon, else a comma, else blanks. Byte order marks, Windows and old
Macintosh line ends, a missing last line end, empty lines and blanks around fields are taken away. What cannot be read as a table
is kept as it is, with a fault in words, and the library refuses it.
"""
from __future__ import annotations

import os
import sys
from typing import Any, Iterable, List, Sequence, Tuple, Union

from .library import PLOTS
from .tables import Table, columns_of

FILE_BYTES = 1 << 20
SEPARATORS = ("\t", ";", ",")
SEPARATOR_LINES = ("sep=;", "sep=,", "sep=|")
BYTE_ORDER_MARKS = ((b"\xef\xbb\xbf", "utf-8-sig"), (b"\xff\xfe", "utf-16"), (b"\xfe\xff", "utf-16"))

Records = List[Tuple[int, Tuple[str, ...]]]


class Unreadable(ValueError):
    """Bytes that are no table: what is wrong, and what would be right."""


def read_file(path: Union[str, "os.PathLike[str]"]) -> Table:
    """The table of a file; `-` is standard input. No more than 1 MiB is read.

    >>> read_file(os.devnull).rows
    ()
    """
    if path == "-":
        if sys.stdin is None:
            raise OSError("there is no standard input")
        return read_bytes(sys.stdin.buffer.read(FILE_BYTES + 1), "standard input")
    with open(path, "rb") as file:
        return read_bytes(file.read(FILE_BYTES + 1), os.fspath(path))


def read_bytes(data: bytes, source: str = "the text") -> Table:
    """The table of a file's bytes.

    >>> table = read_bytes(b"\\xef\\xbb\\xbfp:Hut; t:Gain\\r\\nnorth; 10\\r\\nsouth; 20")
    >>> [column.name for column in table.columns], table.rows
    (['Hut', 'Gain'], (('north', '10'), ('south', '20')))
    """
    try:
        records = _records(_decoded(data))
    except Unreadable as fault:
        return Table(source, (), (), raw=data, fault=fault.args)
    if not records:
        return Table(source, (), ())
    (first_line, titles), plots = records[0], records[1:]
    width = _width([titles] + [row for _, row in plots])
    rows = tuple(_cut(row, width) for _, row in plots)
    return Table(source, columns_of(_cut(titles, width)), rows, tuple(line for line, _ in plots), first_line)


def _width(records: List[Tuple[str, ...]]) -> int:
    """How many fields the table has: those of the first line without the last ones that are empty in every line."""
    used = max(max((place for place, part in enumerate(row, 1) if part), default=0) for row in records)
    return max(1, min(used, len(records[0])))


def _cut(row: Tuple[str, ...], width: int) -> Tuple[str, ...]:
    """A row without the empty fields that stand after the last column."""
    return row if any(row[width:]) else row[:width]


def _decoded(data: bytes) -> str:
    if len(data) > FILE_BYTES:
        raise Unreadable(
            f"it is longer than {FILE_BYTES:,} bytes",
            f"look whether the right file was given; a trial has at most {PLOTS} plots",
        )
    encoding = next((encoding for mark, encoding in BYTE_ORDER_MARKS if data.startswith(mark)), "")
    for attempt in [encoding] if encoding else ["utf-8", "cp1252"]:
        try:
            text = data.decode(attempt)
        except UnicodeDecodeError:
            continue
        text = text.replace("\r\n", "\n").replace("\r", "\n")
        if not any(_is_control(character) for character in set(text)):
            return text
        break
    raise Unreadable("it is not a text", "save the sheet as CSV, or as text separated by tabs")


def _is_control(character: str) -> bool:
    return character < " " and character not in "\t\n" or "\x7f" <= character < "\xa0"


def _separator(title: str, text: str) -> str:
    """What separates fields. A first line without any has one column: a level may then have blanks, but no separator."""
    found = next((mark for mark in SEPARATORS if mark in title), "")
    if found or " " in title.strip():
        return found or " "
    return next((mark for mark in SEPARATORS if mark in text), SEPARATORS[0])


def _records(text: str) -> Records:
    """The lines that are not empty, as fields without blanks around them, each with its number."""
    lines = text.split("\n")
    start = next((i for i, line in enumerate(lines) if line.strip()), 0)
    separator = _separator(lines[start], text)
    if lines[start].strip() in SEPARATOR_LINES:
        separator = lines[start].strip()[-1]
        start += 1
    if '"' in text:
        records: Iterable[Tuple[int, Sequence[str]]] = _quoted(lines, start, separator)
    elif separator == " ":
        records = ((i + 1, lines[i].split()) for i in range(start, len(lines)))
    else:
        records = ((i + 1, lines[i].split(separator)) for i in range(start, len(lines)))
    trimmed = ((line, tuple(part.strip() for part in parts)) for line, parts in records)
    return [(line, parts) for line, parts in trimmed if any(parts)]


def _quoted(lines: List[str], start: int, separator: str) -> Records:
    import csv

    reader = csv.reader(
        (line + "\n" for line in lines[start:]), delimiter=separator, skipinitialspace=True, strict=True
    )
    records: Records = []
    line = start
    try:
        for parts in reader:
            records.append((line + 1, tuple(" ".join(part.split()) for part in parts)))
            line = start + reader.line_num
    except csv.Error as error:
        raise Unreadable(
            f"line {line + 1}: a quotation mark is not closed ({error})", "close it, or take the quotation marks out"
        ) from error
    return records


def read_table(table: Any, source: str = "the table") -> Table:
    """The table of whatever a caller has: a text, rows with the titles first, dictionaries, columns by their title, or a file.

    >>> rows = [["p:Hut", "t:Gain"], [1, "low"], [2, "high"]]
    >>> columns = {"p:Hut": [1, 2], "t:Gain": ["low", "high"]}
    >>> records = [{"p:Hut": 1, "t:Gain": "low"}, {"p:Hut": 2, "t:Gain": "high"}]
    >>> read_table(rows) == read_table(columns) == read_table(records)
    True
    """
    if isinstance(table, Table):
        return table
    if isinstance(table, str):
        is_path = table and not set("\r\n\0") & set(table) and os.path.isfile(table)
        return read_file(table) if is_path else read_bytes(table.encode("utf-8", "replace"), "the text")
    if isinstance(table, (bytes, bytearray, memoryview)):
        return read_bytes(bytes(table), "the text")
    if isinstance(table, os.PathLike):
        return read_file(table)
    if hasattr(table, "keys"):
        titles = list(table.keys())
        columns = [list(table[title]) for title in titles]
        most = max(map(len, columns), default=0)
        rows: Iterable[Sequence[Any]] = [[c[i] if i < len(c) else None for c in columns] for i in range(most)]
    else:
        titles, rows = _titles_and_rows(list(table))
    labelled = tuple(tuple(label(value) for value in row) for row in rows)
    return Table(source, columns_of([str(title) for title in titles]), labelled)


def _titles_and_rows(rows: List[Any]) -> Tuple[List[Any], List[List[Any]]]:
    if rows and hasattr(rows[0], "keys"):
        titles = list(dict.fromkeys(title for row in rows for title in row.keys()))
        return titles, [[row.get(title) for title in titles] for row in rows]
    return (list(rows[0]), [list(row) for row in rows[1:]]) if rows else ([], [])


def label(value: Any) -> str:
    """A level as a text. Numbers that are equal are one level, also when one is written with a decimal point.

    >>> [label(value) for value in (1, 1.0, 2.5, " north ", None, float("nan"))]
    ['1', '1', '2.5', 'north', '', '']
    """
    try:
        if value is None or value != value:
            return ""
    except (TypeError, ValueError):  # a missing value of a data frame is equal to nothing, not even unequal
        return ""
    if isinstance(value, float) and value.is_integer():
        return str(int(value))
    text = str(value).strip()
    return text if text.isprintable() else text.encode("unicode_escape").decode("ascii")
