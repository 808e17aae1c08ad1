"""The command `rachdoum`."""
from __future__ import annotations

import argparse
import os
import sys
from typing import Any, Dict, List, Optional

from . import __version__, formulas, library
from .comparing import compare_in
from .nesting import Pair
from .notes import Note, notes_on
from .planning import Plan, convert, formula, formula_table, plan_of, prepare
from .refusals import Refusal
from .sheets import read_file
from .show import aligned, as_dictionary, comparison_as_dictionary, note_as_dictionary, refusal_as_dictionary
from .tables import Table, WrongCall, row_of, sheet

TABLE_GIVEN, REFUSED, WRONG_CALL, INTERRUPTED = 0, 1, 2, 130

DESCRIPTION = """\
Prints the skeleton analysis-of-variance table of a planned trial: in which stratum each comparison is tested,
and against how many degrees of freedom. Or it says what is wrong with the plan, where, and what would be right.
"""

CONVERSION = """\
Prints the sheet of a table, in the form that skeleton and the library read. A plot column that is numbered anew in each level of
another one, written p:Pier/Hut in the first line or named by --nested, gets consecutive numbers; all other numbers stay.
"""

SHEET_OF_FORMULA = """\
Prints the sheet of a block formula such as Hut=4/Pier=3 or (Row=3*Column=3)/Sub=2: a plot column for each name and a line for each plot,
to which the treatments can be added. / puts what comes later inside what comes before, * crosses the two; each name has its count, and
brackets say what belongs together. In a shell the formula stands in quotation marks.
"""

COMPARISON = """\
Says how two factors of a table stand, also where its design is refused: equivalent, the first finer or coarser than the second, orthogonal
without either being finer, or not orthogonal. A factor is a column or a name that the table or a refusal has: U, E, I(Hut,Week), S(Hut,Week),
#2. In a shell a name with brackets or # stands in quotation marks. Where #2 is a grouping of the plots and another of the treatments, p:#2 is
the first and t:#2 the second. The exit status is 0 for every answer, 1 for a refusal, 2 for a wrong call, such as an unknown name.
"""

EXAMPLES = """\
A file has one line for each plot below a line that names the columns. p: marks how the plots lie (hut, pier, week),
t: marks what is done to them (gain, cable). Levels may be numbers or texts. CSV with commas or semicolons and text with
tabs are told apart by themselves.

examples:
  rachdoum plan trial.csv
  rachdoum plan trial.csv --plots Hut,Pier --treatments Gain
  rachdoum plan trial.csv --nested Pier/Hut         the piers are numbered anew in each hut; p:Pier/Hut in the file says the same
  rachdoum plan trial.csv --crossed Row,Column      the rows are the same in every column: no note about it
  rachdoum plan trial.csv --tsv > trial.table       for programs: the table separated by tabs
  rachdoum plan --json one.csv two.csv
  cat trial.csv | rachdoum plan -
  rachdoum convert old.sheet > new.sheet            with consecutive numbers in place of those that start again
  rachdoum plan --formula 'Hut=4/Pier=3'            four huts with three piers each: the strata, before there are treatments
  rachdoum formula 'Hut=4/Pier=3' > trial.sheet     the sheet of it, to which the treatments can be added
  rachdoum compare trial.csv Pier Hut               how two factors stand: finer, coarser, orthogonal or not

In the table, U is the mean of all plots and E is every plot by itself. I(Gain,Cable) is the combinations of two columns.
S(Hut,Week) is the coarser grouping that two columns share: plots are together when a chain of plots joins them, each step
within a hut or within a week. Among the sources, S(Hut) is the huts themselves, where no combination of the treatments is used
in two huts. #4 is the fourth member of its family, a grouping that none of these names fits.

exit status: 0 for a table, 1 for a refusal, 2 for a wrong call.
"""


def parser() -> argparse.ArgumentParser:
    """The command's arguments."""
    form = argparse.RawDescriptionHelpFormatter
    top = argparse.ArgumentParser("rachdoum", description=DESCRIPTION, epilog=EXAMPLES, formatter_class=form)
    top.add_argument("--version", action="version", version=f"%(prog)s {__version__}")
    commands = top.add_subparsers(dest="command", metavar="COMMAND", required=True)
    plan = commands.add_parser(
        "plan", help="print the table of each file", description=DESCRIPTION, epilog=EXAMPLES, formatter_class=form
    )
    given = plan.add_mutually_exclusive_group(required=True)
    given.add_argument("files", nargs="*", default=[], metavar="FILE", help="a table of plots; - for standard input")
    given.add_argument("--formula", metavar="FORMULA", help="a block formula in place of a file, such as 'Hut=4/Pier=3'")
    _add_columns(plan)
    plan.add_argument(
        "--crossed", action="append", default=[], metavar="ONE,OTHER", help="the two do cross: no note about them"
    )
    _add_form(plan)
    plan.add_argument("--quiet", action="store_true", help="no notes")
    sheet_of = _add_file(
        commands, "convert", "print the sheet of a file, with consecutive numbers in place of those that start again", CONVERSION
    )
    _add_columns(sheet_of)
    formula_of = commands.add_parser("formula", help="print the sheet of a block formula", description=SHEET_OF_FORMULA)
    formula_of.add_argument("formula", metavar="FORMULA", help="such as 'Hut=4/Pier=3'")
    formula_of.set_defaults(files=[])
    two = _add_file(commands, "compare", "say how two factors stand", COMPARISON)
    two.add_argument("first", metavar="FIRST", help="a column, or a name such as 'I(Hut,Week)'")
    two.add_argument("second", metavar="SECOND", help="the factor that the first is compared with")
    _add_columns(two)
    _add_form(two)
    return top


def _add_file(commands: Any, name: str, does: str, description: str) -> argparse.ArgumentParser:
    """A command that takes one file."""
    command: argparse.ArgumentParser = commands.add_parser(name, help=does, description=description)
    command.add_argument("files", nargs=1, metavar="FILE", help="a table of plots; - for standard input")
    command.set_defaults(formula=None)
    return command


def _add_form(command: argparse.ArgumentParser) -> None:
    """The arguments that say how treatments are combined, and in what form the answer is printed."""
    command.add_argument(
        "--k", type=int, default=library.INTERACTIONS, choices=range(1, library.INTERACTIONS + 1),
        help="combine at most so many treatments (default: %(default)s)",
    )
    form = command.add_mutually_exclusive_group()
    form.add_argument("--tsv", action="store_true", help="the answer separated by tabs, for programs")
    form.add_argument("--json", action="store_true", help="everything as JSON, for programs")


def _add_columns(command: argparse.ArgumentParser) -> None:
    """The arguments that say what the columns are."""
    command.add_argument("--plots", action="append", metavar="NAMES", help="the plot columns, with commas between")
    command.add_argument("--treatments", action="append", metavar="NAMES", help="the treatments, with commas between")
    command.add_argument(
        "--nested", action="append", default=[], metavar="CHILD/PARENT",
        help="the child's numbers start again in each parent; may be repeated",
    )


def _names(parts: Optional[List[str]]) -> Optional[str]:
    return ",".join(parts) if parts else None


def _crossed(parts: List[str], table: Table) -> List[Pair]:
    pairs = []
    for part in parts:
        names = [name.strip() for name in part.split(",")]
        if len(names) != 2:
            raise WrongCall(f"--crossed takes two columns, such as Pier,Hut, and not {part!r}")
        pairs.append((table.column(names[0]).name, table.column(names[1]).name))
    return pairs


class Output:
    """Where tables and messages go. A character that a stream cannot show is escaped."""

    def __init__(self) -> None:
        self.documents: List[Dict[str, Any]] = []
        for stream in (sys.stdout, sys.stderr):
            if hasattr(stream, "reconfigure"):
                stream.reconfigure(errors="backslashreplace")

    def table(self, text: str) -> None:
        """Prints a table, or a part of one."""
        print(text, end="", flush=True)

    def message(self, text: str) -> None:
        """Prints a message, without characters that a terminal would obey."""
        plain = "".join(c if c.isprintable() or c == "\n" else "?" for c in text)
        print(plain, file=sys.stderr)


def _plan_table(given: Table, options: argparse.Namespace, output: Output) -> int:
    """Plans one table and answers the exit status."""
    try:
        table = prepare(given, _names(options.plots), _names(options.treatments), options.nested, options.tsv)
    except Refusal as refusal:
        return _print_refusal(given.source, refusal, refusal.tsv(), options, output)
    crossed = _crossed(options.crossed, table) if table.columns else []
    if table.unused and not options.quiet:
        output.message(f"{table.source}: not used: {row_of(table.unused)}")
    try:
        plan = plan_of(table, options.k, strict=options.tsv)
    except Refusal as refusal:
        line = _printed(table) if options.tsv and options.k == library.INTERACTIONS else refusal.tsv()
        return _print_refusal(table.source, refusal, line, options, output)
    notes = [] if options.quiet else notes_on(plan, crossed)
    _print_plan(plan, notes, options, output)
    for note in notes:
        _print_note(note, f"{table.source}: " if len(options.files) > 1 else "", output)
    return TABLE_GIVEN


def _plan_formula(options: argparse.Namespace, output: Output) -> int:
    """Plans the sheet of the formula and answers the exit status."""
    try:
        table = formula_table(options.formula)
    except Refusal as refusal:
        return _print_refusal(formulas.SOURCE, refusal, refusal.tsv(), options, output)
    return _plan_table(table, options, output)


def _write_formula(options: argparse.Namespace, output: Output) -> int:
    """Prints the sheet of the formula and answers the exit status."""
    try:
        output.table(formula(options.formula))
    except Refusal as refusal:
        return _tell_refusal(formulas.SOURCE, refusal, output)
    return TABLE_GIVEN


def _convert_table(given: Table, options: argparse.Namespace, output: Output) -> int:
    """Prints the sheet of one table and answers the exit status."""
    try:
        output.table(convert(given, plots=_names(options.plots), treatments=_names(options.treatments), nested=options.nested))
    except Refusal as refusal:
        return _tell_refusal(given.source, refusal, output)
    return TABLE_GIVEN


def _compare_factors(given: Table, options: argparse.Namespace, output: Output) -> int:
    """Prints how two factors of one table stand and answers the exit status."""
    try:
        table = prepare(given, _names(options.plots), _names(options.treatments), options.nested)
        found = compare_in(table, options.first, options.second, options.k)
    except Refusal as refusal:
        return _print_refusal(given.source, refusal, refusal.tsv(), options, output)
    if options.json:
        output.documents.append({"file": table.source, **comparison_as_dictionary(found)})
    else:
        output.table(found.tsv() if options.tsv else f"{found}\n")
    return TABLE_GIVEN


def _print_plan(plan: Plan, notes: List[Note], options: argparse.Namespace, output: Output) -> None:
    if options.json:
        document: Dict[str, Any] = {"file": plan.table.source, **as_dictionary(plan)}
        document["notes"] = [note_as_dictionary(note) for note in notes]
        output.documents.append(document)
    elif options.tsv:
        output.table(_printed(plan.table) if options.k == library.INTERACTIONS else plan.tsv())
    else:
        output.table((f"{plan.table.source}:\n" if len(options.files) > 1 else "") + aligned(plan))


def _printed(table: Table) -> str:
    """What the rules print for a table."""
    return library.skeleton(sheet(table, strict=True).text)[1].decode("ascii")


def _print_refusal(source: str, refusal: Refusal, line: str, options: argparse.Namespace, output: Output) -> int:
    """Prints a refusal, for programs by the rules' line, and answers the exit status."""
    if options.tsv:
        output.table(line)
    elif options.json:
        output.documents.append({"file": source, "refused": refusal_as_dictionary(refusal)})
    return _tell_refusal(source, refusal, output)


def _tell_refusal(source: str, refusal: Refusal, output: Output) -> int:
    output.message(f"rachdoum: {source}: refused ({refusal.number}): {refusal.what}")
    output.message(f"  Remedy: {refusal.remedy[:1].upper()}{refusal.remedy[1:]}")
    return REFUSED


def _print_note(note: Note, heading: str, output: Output) -> None:
    output.message(f"{heading}note: {note.text} (--crossed {note.child},{note.parent} leaves this note out.)")
    if note.other is not None:
        output.message(f"  With {note.option} the table is:")
        output.message("".join(f"    {line}\n" for line in aligned(note.other).splitlines()).rstrip("\n"))


def _each_file(options: argparse.Namespace, output: Output) -> int:
    """Plans or converts each file, or compares two factors of it, and answers the exit status."""
    status = TABLE_GIVEN
    work = {"plan": _plan_table, "convert": _convert_table, "compare": _compare_factors}[options.command]
    for path in options.files:
        try:
            table = read_file(path)
        except OSError as error:
            output.message(f"rachdoum: {path}: {error.strerror or error}")
            status = WRONG_CALL
            continue
        status = max(status, work(table, options, output))
    return status


def _run(options: argparse.Namespace, output: Output) -> int:
    of_formula = _plan_formula if options.command == "plan" else _write_formula
    work = _each_file if options.formula is None else of_formula
    try:
        status = work(options, output)
    except (WrongCall, library.LibraryMissing) as error:
        output.message(f"rachdoum: {error}")
        return WRONG_CALL
    if output.documents:
        import json

        whole = output.documents if len(options.files) > 1 else output.documents[0]
        output.table(json.dumps(whole, indent=2) + "\n")
    return status


def main(arguments: Optional[List[str]] = None) -> int:
    """Runs the command and answers its exit status."""
    options = parser().parse_args(arguments)
    try:
        return _run(options, Output())
    except BrokenPipeError:
        _leave_output()
        return TABLE_GIVEN
    except OSError as error:
        _leave_output()
        print(f"rachdoum: the table cannot be written: {error.strerror or error}", file=sys.stderr)
        return WRONG_CALL
    except KeyboardInterrupt:
        return INTERRUPTED


def _leave_output() -> None:
    """Python flushes standard output once more at its end: what is left goes nowhere."""
    os.dup2(os.open(os.devnull, os.O_WRONLY), sys.stdout.fileno())
