"""Reading: whatever way a trial is saved, it is the same trial."""
import unittest

from rachdoum import library, planning
from rachdoum.sheets import read_bytes, read_table
from rachdoum.tables import WrongCall, choose, converted, nest, sheet, shown, slashes
from support import run

TITLES = ["p:Hut", "p:Pier", "t:Gain"]
ROWS = [["north", 1, 10], ["north", 2, 20], ["south", 3, 20], ["south", 4, 10]]
SHEET = b"p:Hut\tp:Pier\tt:Gain\n1\t1\t1\n1\t2\t2\n2\t3\t2\n2\t4\t1\n"


def saved(separator=",", end="\n", last="\n", around="", quote="", encoding="utf-8"):
    """The trial as a program may save it."""
    lines = [separator.join(f"{quote}{around}{field}{around}{quote}" for field in row) for row in [TITLES] + ROWS]
    return (end.join(lines) + last).encode(encoding)


FORMS = {
    "a sheet": SHEET,
    "commas": saved(),
    "semicolons": saved(";"),
    "tabs": saved("\t"),
    "blanks": saved(" "),
    "many blanks": saved("   "),
    "Windows line ends": saved(end="\r\n", last="\r\n"),
    "old Macintosh line ends": saved(end="\r", last="\r"),
    "no last line end": saved(last=""),
    "empty lines": b"\n\n" + saved(end="\n\n", last="\n\n\n"),
    "blanks around fields": saved(around="  "),
    "a byte order mark": saved(encoding="utf-8-sig"),
    "two bytes a character": saved("\t", encoding="utf-16"),
    "quotation marks": saved(quote='"'),
    "a line that names the separator": b"sep=;\r\n" + saved(";"),
    "capital marks": saved().replace(b"p:", b"P:").replace(b"t:", b"T:"),
    "a blank after the mark": saved(";").replace(b"p:", b"p: "),
    "empty columns at the end": saved().replace(b"\n", b",,\n"),
    "empty lines with commas": saved() + b",,\n,,\n",
}


class Forms(unittest.TestCase):
    def test_every_form_is_one_trial(self):
        for name, data in FORMS.items():
            with self.subTest(name):
                self.assertEqual(sheet(read_bytes(data)).text, SHEET)

    def test_the_command_prints_one_table(self):
        expected = planning.skeleton(SHEET).encode()
        for name, data in FORMS.items():
            with self.subTest(name):
                self.assertEqual(run("plan", "--tsv", "-", data=data), (0, expected, ""))

    def test_one_column(self):
        self.assertEqual(sheet(read_bytes(b"p:Hut\nthe north\nthe south\n")).text, b"p:Hut\n1\n2\n")

    def test_lines_of_quoted_fields(self):
        table = read_bytes(b'p:Hut,t:Gain\n"the\nnorth",1\nsouth,\n')
        self.assertEqual((table.rows, table.lines), ((("the north", "1"), ("south", "")), (2, 4)))

    def test_western_letters(self):
        table = read_bytes("p:Hütte;t:Verstärkung\n1;niedrig\n".encode("cp1252"))
        self.assertEqual([column.name for column in table.columns], ["Hütte", "Verstärkung"])

    def test_labels_are_kept_apart(self):
        table = read_bytes(b"p:Hut,t:Gain\n1,a\n01,A\n1.0,a b\n")
        self.assertEqual(sheet(table).text, b"p:Hut\tt:Gain\n1\t1\n2\t2\n3\t3\n")


class Tables(unittest.TestCase):
    def test_what_a_caller_may_have(self):
        columns = {title: [row[i] for row in ROWS] for i, title in enumerate(TITLES)}
        records = [dict(zip(TITLES, row)) for row in ROWS]
        for name, table in {
            "rows": [TITLES] + ROWS, "tuples": tuple(map(tuple, [TITLES] + ROWS)), "columns": columns, "records": records,
            "text": saved().decode(), "bytes": saved(), "a generator": (row for row in [TITLES] + ROWS),
        }.items():
            with self.subTest(name):
                self.assertEqual(sheet(read_table(table)).text, SHEET)

    def test_columns_of_unequal_length(self):
        with self.assertRaises(planning.Refusal) as caught:
            planning.plan({"p:Hut": [1, 2], "t:Gain": [1]})
        self.assertEqual((caught.exception.number, caught.exception.what), (4, "plot 2, Gain: there is no level."))

    def test_nothing(self):
        for table in ([], {}, "", b""):
            with self.assertRaises(planning.Refusal) as caught:
                planning.plan(table)
            self.assertEqual(caught.exception.number, 2)

    def test_choice_of_columns(self):
        table = read_bytes(b"Hut,Note,p:Pier,Gain\n1,x,1,2\n")
        chosen = choose(table, "Hut", "Gain")
        self.assertEqual([(c.name, c.kind) for c in chosen.columns], [("Hut", "p"), ("Pier", "p"), ("Gain", "t")])
        self.assertEqual((chosen.unused, sheet(chosen).text), (("Note",), b"p:Hut\tp:Pier\tt:Gain\n1\t1\t1\n"))

    def test_row_numbers_that_r_writes(self):
        table = choose(read_bytes(b'"","Hut","Gain"\n"1",1,"low"\n"2",1,"high"\n'), "Hut", "Gain")
        self.assertEqual((table.unused, sheet(table).text), ((), b"p:Hut\tt:Gain\n1\t1\n1\t2\n"))

    def test_wrong_choices(self):
        table = read_bytes(b"Hut,Gain\n1,2\n")
        with self.assertRaisesRegex(WrongCall, "there is no column 'Hat': the text has Hut, Gain"):
            choose(table, "Hat")
        with self.assertRaisesRegex(WrongCall, "'Hut' is named as a plot column and as a treatment"):
            choose(table, "Hut", "Hut")

    def test_a_short_line_is_refused_though_its_fields_are_not_used(self):
        table = choose(read_bytes(b"Hut,Gain,Note\n1,1,x\n1,2\n"), "Hut", "Gain")
        self.assertEqual(sheet(table).text, b"p:Hut\tt:Gain\n1\t1\n1\n")

    def test_names_that_the_rules_do_not_take(self):
        table = read_table({"p:A": [1, 2], "t:Column1": [1, 2], "t:Verstärkung": [1, 2], "t:a very long name": [1, 1]})
        self.assertEqual(sheet(table).text.split(b"\n")[0], b"p:Column2\tt:Column1\tt:Column3\tt:Column4")
        self.assertEqual(sheet(table).own, {"Column2": "A", "Column3": "Verstärkung", "Column4": "a very long name"})
        self.assertEqual(sheet(table).show("I(Column2,Column1,Column4)"), "I(A,Column1,a very long name)")
        self.assertEqual(sheet(table).show("S(Column2,Column3)"), "S(A,Verstärkung)")
        self.assertEqual(sheet(table).columns("S(Column2)"), ["A"])
        self.assertEqual(sheet(table, strict=True).own, {})


class Nesting(unittest.TestCase):
    rows = [[hut, pier, sensor] for hut in "ab" for pier in "12" for sensor in "xy"]
    table = read_table([["p:Hut", "p:Pier", "p:Sensor"]] + rows)

    def labels(self, *pairs):
        text = sheet(nest(self.table, pairs)).text.decode().splitlines()[1:]
        return [[int(line.split("\t")[i]) for line in text] for i in range(3)]

    def test_one_pair(self):
        self.assertEqual(self.labels(("Pier", "Hut"))[1:], [[1, 1, 2, 2, 3, 3, 4, 4], [1, 2, 1, 2, 1, 2, 1, 2]])

    def test_a_chain_uses_the_converted_parent_in_any_order(self):
        pairs = [("Pier", "Hut"), ("Sensor", "Pier")]
        self.assertEqual(self.labels(*pairs)[2], [1, 2, 3, 4, 5, 6, 7, 8])
        self.assertEqual(self.labels(*pairs), self.labels(*pairs[::-1]))

    def test_two_parents(self):
        self.assertEqual(self.labels(("Sensor", "Pier"), ("Sensor", "Hut"))[2], [1, 2, 3, 4, 5, 6, 7, 8])

    def test_circles(self):
        for pairs in ([("Pier", "Pier")], [("Pier", "Hut"), ("Hut", "Pier")]):
            with self.assertRaisesRegex(WrongCall, "cannot be nested in each other or in themselves"):
                nest(self.table, pairs)

    def test_a_treatment_cannot_be_nested(self):
        with self.assertRaisesRegex(WrongCall, "only plot columns can be nested, and 'Gain' is none"):
            nest(read_bytes(SHEET), [("Gain", "Hut")])



class Parents(unittest.TestCase):
    """`p:Pier/Hut` in the first line: the library converts it."""

    rows = Nesting.rows

    def names(self, *titles, **options):
        return planning.plot_design([list(titles)] + [row[: len(titles)] for row in self.rows], **options).names

    def test_a_parent(self):
        self.assertEqual(self.names("p:Hut", "p:Pier/Hut"), ("U", "Hut", "Pier", "E"))
        self.assertEqual(self.names("p:Hut", "p: Pier / Hut"), ("U", "Hut", "Pier", "E"))

    def test_a_chain(self):
        self.assertEqual(self.names("p:Hut", "p:Pier/Hut", "p:Sensor/Pier"), ("U", "Hut", "Pier", "E"))
        self.assertEqual(
            self.names("p:Hut", "p:Pier", "p:Sensor/Pier"), ("U", "Hut", "Pier", "I(Hut,Pier)", "Sensor", "E")
        )

    def test_names_that_the_rules_do_not_take(self):
        self.assertEqual(self.names("p:A", "p:Pier no./A", "p:Größe/Pier no."), ("U", "A", "Pier no.", "E"))
        rows = [["p:A", "p:Pier no./A", "p:Column1/h"]] + self.rows
        handed = sheet(slashes(read_table(rows))).text.split(b"\n")[0]
        self.assertEqual(handed, b"p:Column2\tp:Column3/Column2\tp:Column1/Column4")

    def test_a_parent_beside_the_option(self):
        self.assertEqual(self.names("p:Hut", "p:Pier/Hut", "p:Sensor", nested="Sensor/Pier"), ("U", "Hut", "Pier", "E"))

    def test_columns_named_in_the_call(self):
        for titles in (("Hut", "Pier/Hut"), ("Hut", "p:Pier/Hut")):
            for plots in ("Hut,Pier/Hut", "Hut,Pier", ["Pier", "Hut"]):
                self.assertEqual(self.names(*titles, plots=plots), ("U", "Hut", "Pier", "E"))

    def test_a_treatment_may_have_a_slash_in_its_name(self):
        rows = [["p:Hut", "t:km/h"]] + [row[:2] for row in self.rows]
        self.assertEqual(planning.plan(rows).source("km/h").test, "5 df of E")

    def test_levels_in_a_message(self):
        table = _converted([["p:Hut", "p:Pier/Hut", "p:Sensor/Pier"]] + self.rows)
        self.assertEqual([shown(cell) for cell in table.rows[5]], ["b", "1 in Hut b", "y in Pier 1 in Hut b"])

    def test_the_library_and_the_option_agree(self):
        table = [["p:Hut", "p:Pier/Hut", "p:Sensor/Pier"]] + self.rows
        nested = nest(Nesting.table, [("Pier", "Hut"), ("Sensor", "Pier")])
        self.assertEqual(sheet(_converted(table)).text, sheet(nested).text)


def _converted(table):
    read = slashes(read_table(table))
    return converted(read, library.convert(sheet(read).text)[1])


class KeptLevels(unittest.TestCase):
    def test_numbers_stay_and_texts_are_numbered(self):
        table = read_bytes(b"p:Hut,p:Pier,t:Gain,t:Cable\n20417731,a,01,4294967295\n7,b,1,4294967296\n7,a,2,1\n")
        self.assertEqual(sheet(table, keep=True).text.split(b"\n")[1:4], [b"20417731\t1\t1\t1", b"7\t2\t2\t2", b"7\t1\t3\t3"])

    def test_a_missing_level_is_refused(self):
        self.assertEqual(sheet(read_bytes(b"p:Hut\n5\nNA\n"), keep=True).text, b"p:Hut\n5\n0\n")


if __name__ == "__main__":
    unittest.main()
