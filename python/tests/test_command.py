"""The command: every example, its options, its exit statuses, and what it prints where."""
import contextlib
import glob
import io
import json
import os
import resource
import shlex
import subprocess
import sys
import tempfile
import unittest

from rachdoum import library
from support import EXAMPLES, ROOT, run

LATIN = b"Hut,Pier,Gain\n1,1,1\n1,2,2\n1,3,3\n2,1,2\n2,2,3\n2,3,1\n3,1,3\n3,2,1\n3,3,2\n"
KINDS = ["--plots", "Hut,Pier", "--treatments", "Gain"]
CROSSED_TABLE = b"""\
stratum  source    df  tested against
U        U          1  the mean, not tested
         total      1
Hut      total      2
Pier     total      2
E        Gain       2  2 df of E
         residual   2
         total      4
all      total      9
"""
NESTED_TABLE = b"""\
stratum  source    df  tested against
U        U          1  the mean, not tested
         total      1
Hut      total      2
E        Gain       2  4 df of E
         residual   4
         total      6
all      total      9
"""
NOTE = (
    "note: Pier 1 is taken as one pier that all 3 huts share. If these are different piers, number them consecutively, write "
    "p:Pier/Hut in the first line or add --nested Pier/Hut. (--crossed Pier,Hut leaves this note out.)\n  With --nested Pier/Hut the table is:\n"
    + "".join(f"    {line}\n" for line in NESTED_TABLE.decode().splitlines())
)


def bytes_of(path):
    with open(path, "rb") as file:
        return file.read()


def program(*arguments, data=b"", **environment):
    """The command as a process of its own."""
    return subprocess.run(
        [sys.executable, "-m", "rachdoum", *arguments], input=data, stdout=subprocess.PIPE, stderr=subprocess.PIPE,
        env={**os.environ, **environment}, timeout=60,
    )


class Examples(unittest.TestCase):
    def test_the_rules_table_of_each_example(self):
        sheets = sorted(glob.glob(os.path.join(EXAMPLES, "*.sheet")))
        self.assertGreaterEqual(len(sheets), 19)
        for path in sheets:
            with self.subTest(os.path.basename(path)):
                expected = bytes_of(path[: -len("sheet")] + "table")
                status, out, err = run("plan", "--tsv", path)
                self.assertEqual((status, out), (int(expected.startswith(b"refused")), expected))
                self.assertEqual(f"{path}: refused" in err, status == 1)

    def test_as_a_process(self):
        done = program("plan", os.path.join(EXAMPLES, "huts.sheet"))
        expected = b"""\
stratum  source          df  tested against
U        U                1  the mean, not tested
         total            1
Hut      Filter           1  2 df of Hut
         residual         2
         total            3
E        Gain             2  4 df of E
         I(Filter,Gain)   2  4 df of E
         residual         4
         total            8
all      total           12
"""
        self.assertEqual((done.returncode, done.stdout, done.stderr), (0, expected, b""))
        self.assertEqual(program("plan", os.path.join(EXAMPLES, "refused-13.sheet")).returncode, 1)
        self.assertEqual(program("plan", "/nowhere").returncode, 2)

    def test_a_missing_library_is_one_line(self):
        done = program("plan", os.path.join(EXAMPLES, "huts.sheet"), RACHDOUM_LIBRARY="/nowhere.so")
        expected = b"rachdoum: RACHDOUM_LIBRARY names /nowhere.so, and there is no such file\n"
        self.assertEqual((done.returncode, done.stdout, done.stderr), (2, b"", expected))

    def test_a_reader_that_leaves(self):
        for _ in range(3):
            writer = subprocess.Popen(
                [sys.executable, "-m", "rachdoum", "plan", "--json", os.path.join(EXAMPLES, "example-4-extension.sheet")],
                stdout=subprocess.PIPE, stderr=subprocess.PIPE,
            )
            writer.stdout.close()
            self.assertEqual(writer.stderr.read().count(b"Traceback"), 0)
            writer.stderr.close()
            writer.wait()

    def test_streams_that_are_closed_or_full(self):
        command = f"{sys.executable} -m rachdoum plan "
        huts = os.path.join(EXAMPLES, "huts.sheet")
        for arguments, status, message in (
            (f"{huts} > /dev/full", 2, "rachdoum: the table cannot be written: No space left on device\n"),
            (f"{huts} --json > /dev/full", 2, "rachdoum: the table cannot be written: No space left on device\n"),
            (f"{huts} >&-", 0, ""),
            ("- <&-", 2, "rachdoum: -: there is no standard input\n"),
        ):
            with self.subTest(arguments):
                done = subprocess.run(command + arguments, shell=True, stderr=subprocess.PIPE, timeout=60)
                self.assertEqual((done.returncode, done.stderr.decode()), (status, message))

    def test_names_in_a_plain_locale(self):
        data = "p:Hütte,t:Verstärkung\n1,1\n1,2\n2,1\n2,2\n".encode("utf-8")
        done = program("plan", "-", data=data, LC_ALL="C", PYTHONUTF8="0", PYTHONIOENCODING="ascii")
        self.assertEqual((done.returncode, done.stderr), (0, b""))
        self.assertIn(b"Verst\\xe4rkung", done.stdout)


class Tests(unittest.TestCase):
    """What a source is tested against."""

    def test_a_treatment_that_uses_up_its_stratum(self):
        data = b"p:Hut,t:Filter,t:Gain\n1,a,1\n1,a,2\n2,b,1\n2,b,2\n"
        status, out, err = run("plan", "-", data=data)
        self.assertEqual((status, err), (0, ""))
        self.assertEqual(out.decode().splitlines()[3:], [
            "Hut      Filter   1  cannot be tested: Hut has no residual",
            "         total    1",
            "E        Gain     1  cannot be tested: E has no residual",
            "         E        1  cannot be tested: E has no residual",
            "         total    2",
            "all      total    4",
        ])

    def test_a_treatment_without_degrees_of_freedom(self):
        data = b"t:Aa,t:Bb,t:Cc\n1,1,1\n1,2,2\n2,1,2\n2,2,1\n1,1,1\n1,2,2\n2,1,2\n2,2,1\n"
        lines = run("plan", "-", data=data)[1].decode().splitlines()
        self.assertIn("         I(Aa,Bb,Cc)   0  cannot be tested: it has no degrees of freedom of its own", lines)

    def test_fewer_combinations(self):
        data = bytes_of(os.path.join(EXAMPLES, "huts.sheet"))
        expected = b"stratum\tsource\tdf\nU\tU\t1\nU\t=total\t1\nHut\tFilter\t1\nHut\t=residual\t2\nHut\t=total\t3\n"
        expected += b"E\tGain\t2\nE\t=residual\t6\nE\t=total\t8\n=all\t=total\t12\n"
        self.assertEqual(run("plan", "-", "--tsv", "--k", "1", data=data), (0, expected, ""))

    def test_a_refusal_with_fewer_combinations(self):
        data = bytes_of(os.path.join(EXAMPLES, "refused-13.sheet"))
        self.assertEqual(run("plan", "-", "--tsv", "--k", "1", data=data)[:2], (1, b"refused\t13\tHut\tGain\n"))

    def test_names_as_the_user_has_them(self):
        data = "p:A;t:Gain setting;t:Größe\n1;1;1\n1;2;1\n2;1;2\n2;2;2\n3;1;1\n3;2;1\n4;1;2\n4;2;2\n".encode()
        status, out, err = run("plan", "-", data=data)
        self.assertEqual((status, err), (0, ""))
        self.assertEqual(out.decode().splitlines()[3:], [
            "A        Größe                   1  2 df of A",
            "         residual                2",
            "         total                   3",
            "E        Gain setting            1  2 df of E",
            "         I(Gain setting,Größe)   1  2 df of E",
            "         residual                2",
            "         total                   4",
            "all      total                   8",
        ])


class Json(unittest.TestCase):
    def test_a_table(self):
        status, out, err = run("plan", "--json", os.path.join(EXAMPLES, "huts.sheet"))
        document = json.loads(out)
        self.assertEqual((status, err, document["plots"], document["k"], document["notes"]), (0, "", 12, 6, []))
        self.assertEqual(document["strata"][1], {
            "name": "Hut", "df": 3, "residual": 2,
            "sources": [{"name": "Filter", "df": 1, "testable": True, "against": 2, "test": "2 df of Hut"}],
        })
        self.assertEqual(document["treatment_family"][3], {
            "name": "I(Filter,Gain)", "classes": 6, "df": 2, "coarser": ["U", "Filter", "Gain"], "above": ["Filter", "Gain"],
        })

    def test_a_refusal(self):
        path = os.path.join(EXAMPLES, "refused-13.sheet")
        status, out, err = run("plan", "--json", path)
        document = json.loads(out)
        self.assertEqual((status, document["file"]), (1, path))
        refused = document["refused"]
        self.assertEqual((refused["number"], refused["places"], refused["names"]), (13, [2, 2], ["Hut", "Gain"]))
        self.assertIn(refused["what"], err)

    def test_where_a_text_is_refused(self):
        refused = json.loads(run("plan", "--json", os.path.join(EXAMPLES, "refused-04.sheet"))[1])["refused"]
        self.assertEqual((refused["line"], refused["column"]), (3, "Cable"))

    def test_several_files(self):
        paths = [os.path.join(EXAMPLES, name) for name in ("sample.sheet", "refused-09.sheet")]
        status, out, err = run("plan", "--json", *paths)
        self.assertEqual((status, [document["file"] for document in json.loads(out)]), (1, paths))


class Notes(unittest.TestCase):
    def test_numbers_that_start_again(self):
        self.assertEqual(run("plan", "-", *KINDS, data=LATIN), (0, CROSSED_TABLE, NOTE))

    def test_the_other_reading(self):
        self.assertEqual(run("plan", "-", *KINDS, "--nested", "Pier/Hut", data=LATIN), (0, NESTED_TABLE, ""))

    def test_no_note(self):
        for option in (["--quiet"], ["--crossed", "Pier,Hut"], ["--crossed", "Hut, Pier"]):
            self.assertEqual(run("plan", "-", *KINDS, *option, data=LATIN), (0, CROSSED_TABLE, ""))

    def test_consecutive_numbers(self):
        data = b"p:Hut,p:Pier,t:Gain\n" + b"".join(b"%d,%d,%d\n" % (i // 3, i + 1, i % 3 + 1) for i in range(3, 12))
        self.assertEqual(run("plan", "-", data=data), (0, NESTED_TABLE, ""))

    def test_the_slower_column_is_the_parent(self):
        data = b"p:Pier,p:Hut\n" + b"".join(b"%d,%d\n" % (pier, hut) for hut in (1, 2, 3) for pier in (1, 2, 3))
        err = run("plan", "-", data=data)[2]
        self.assertIn("note: Pier 1 is taken as one pier that all 3 huts share.", err)
        self.assertIn("different piers, number them consecutively or add --nested Pier/Hut.", err)

    def test_a_column_that_has_a_parent_already(self):
        rows = [(hut, pier, week) for hut in (1, 2) for pier in (1, 2) for week in (1, 2)]
        data = b"p:Hut,p:Pier/Hut,p:Week\n" + b"".join(b"%d,%d,%d\n" % row for row in rows)
        err = run("plan", "-", data=data)[2]
        self.assertIn("write p:Week/Pier in the first line or add --nested Week/Pier.", err)
        self.assertNotIn("p:Pier/", err)

    def test_combinations_with_a_column_of_their_own(self):
        err = run("plan", os.path.join(EXAMPLES, "example-4.sheet"))[2]
        self.assertEqual([line.split(".")[0] for line in err.splitlines() if line.startswith("note")], [
            "note: Subcolumn 1 is taken as one subcolumn that all 5 rows share",
        ])

    def test_only_the_innermost_parent(self):
        rows = [(hut, 2 * hut + pier, sensor) for hut in (1, 2) for pier in (1, 2) for sensor in (1, 2)]
        data = b"p:Hut,p:Pier,p:Sensor\n" + b"".join(b"%d,%d,%d\n" % row for row in rows)
        err = run("plan", "-", data=data)[2]
        self.assertEqual(err.count("note:"), 1)
        self.assertIn("add --nested Sensor/Pier.", err)

    def test_once_for_each_pair_and_no_more_than_three_tables(self):
        for columns, notes, tables in ((2, 1, 1), (3, 3, 3), (4, 6, 0)):
            titles = ",".join("p:" + name for name in ("Site", "Hut", "Pier", "Week")[:columns])
            rows = [",".join(f"{plot:0{columns}b}").replace("0", "2") for plot in range(2**columns)]
            err = run("plan", "-", data="\n".join([titles] + rows).encode())[2]
            self.assertEqual((err.count("note:"), err.count("the table is:")), (notes, tables))

    def test_in_json(self):
        note = json.loads(run("plan", "-", "--json", *KINDS, data=LATIN)[1])["notes"][0]
        self.assertEqual((note["option"], note["text"][:30]), ("--nested Pier/Hut", "Pier 1 is taken as one pier th"))
        self.assertEqual([(s["name"], s["df"], s["residual"]) for s in note["strata"]], [("U", 1, 0), ("Hut", 2, 2), ("E", 6, 4)])

    def test_columns_that_are_not_used(self):
        err = run("plan", "-", "--plots", "Hut", "--treatments", "Gain", data=LATIN)[2]
        self.assertEqual(err, "standard input: not used: Pier\n")


class Parents(unittest.TestCase):
    """Numbers that start again, told by the first line."""

    OLD = os.path.join(EXAMPLES, "sections.old")
    LATIN = LATIN.replace(b"Hut,Pier,Gain", b"p:Hut,p:Pier/Hut,t:Gain")
    RIGHT = b"p:Pier/Hut,p:Hut,t:Gain\n1,1,1\n2,1,2\n1,2,2\n2,2,1\n"

    def test_the_other_reading(self):
        self.assertEqual(run("plan", "-", data=self.LATIN), (0, NESTED_TABLE, ""))
        self.assertEqual(run("plan", "-", *KINDS, data=self.LATIN), (0, NESTED_TABLE, ""))

    def test_the_rules_table(self):
        self.assertEqual(run("plan", "--tsv", self.OLD), (0, bytes_of(os.path.join(EXAMPLES, "sections.table")), ""))
        path = os.path.join(EXAMPLES, "refused-23.old")
        status, out, err = run("plan", "--tsv", path)
        self.assertEqual((status, out), (1, bytes_of(os.path.join(EXAMPLES, "refused-23.table"))))
        self.assertIn(f"{path}: refused (23): line 1, field 1: ", err)

    def test_a_refusal_of_the_converted_sheet(self):
        data = b"p:Hut,p:Pier/Hut,t:Gain\n1,1,1\n1,2,1\n2,1,1\n2,2,2\n2,2,2\n"
        self.assertEqual(run("plan", "--tsv", "-", data=data)[:2], (1, b"refused\t9\tHut\t-\n"))

    def test_a_name_that_the_rules_do_not_take(self):
        data = b"p:A,p:Pier no./A,t:Gain\n1,1,1\n1,2,2\n2,1,2\n2,2,1\n"
        self.assertEqual(run("plan", "--tsv", "-", data=data)[:2], (1, b"refused\t3\t-\t-\n"))
        self.assertEqual(run("plan", "-", data=data)[::2], (0, ""))

    def test_a_refusal_as_json(self):
        status, out, err = run("plan", "--json", "-", data=self.RIGHT)
        refused = json.loads(out)["refused"]
        self.assertEqual((status, refused["number"], refused["line"], refused["column"]), (1, 23, 1, "Pier"))

    def test_the_remedy_for_a_parent_to_the_right(self):
        self.assertEqual(run("plan", "-", data=self.RIGHT)[0], 1)
        self.assertEqual(run("plan", "-", "--nested", "Pier/Hut", data=self.RIGHT.replace(b"/Hut", b""))[0], 0)

    def test_convert(self):
        new = bytes_of(os.path.join(EXAMPLES, "sections.sheet"))
        self.assertEqual(run("convert", self.OLD), (0, new, ""))
        self.assertEqual(run("convert", "-", data=new), (0, new, ""))
        self.assertEqual(run("plan", "--tsv", "-", data=new)[:2], (0, bytes_of(os.path.join(EXAMPLES, "sections.table"))))

    def test_convert_with_options(self):
        expected = b"p:Hut\tp:Pier\tt:Gain\n1\t1\t1\n1\t2\t2\n1\t3\t3\n2\t4\t2\n2\t5\t3\n2\t6\t1\n3\t7\t3\n3\t8\t1\n3\t9\t2\n"
        self.assertEqual(run("convert", "-", *KINDS, "--nested", "Pier/Hut", data=LATIN), (0, expected, ""))
        self.assertEqual(run("convert", "-", data=self.LATIN), (0, expected, ""))

    def test_convert_refuses(self):
        for data, number in (
            (b"", 2), (b"p:Hut,p:Pier no.\n1,1\n", 3), (b"p:Hut,t:Gain/Hut\n1,1\n", 3), (b"p:Hut\n0\n", 4), (b"p:Hut\n", 5), (self.RIGHT, 23),
        ):
            status, out, err = run("convert", "-", data=data)
            self.assertEqual((status, out), (1, b""))
            self.assertTrue(err.startswith(f"rachdoum: standard input: refused ({number}): "), err)

    def test_each_example_as_the_library_converts_it(self):
        for path in sorted(glob.glob(os.path.join(EXAMPLES, "*.sheet")) + glob.glob(os.path.join(EXAMPLES, "*.old"))):
            with self.subTest(os.path.basename(path)):
                number, expected = library.convert(bytes_of(path))
                self.assertEqual(run("convert", path)[:2], (int(number > 0), expected))


class Formulas(unittest.TestCase):
    """A block formula in place of a file, and its sheet."""

    TABLE = b"""\
stratum  source  df  tested against
U        U        1  the mean, not tested
         total    1
Hut      total    3
E        total    8
all      total   12
"""

    def test_each_example(self):
        paths = sorted(glob.glob(os.path.join(EXAMPLES, "*.formula")))
        self.assertGreaterEqual(len(paths), 5)
        for path in paths:
            with self.subTest(os.path.basename(path)):
                text, table = bytes_of(path).decode("ascii"), bytes_of(path[: -len("formula")] + "table")
                refused = table.startswith(b"refused")
                sheet = b"" if refused else bytes_of(path[: -len("formula")] + "sheet")
                self.assertEqual(run("formula", text)[:2], (int(refused), sheet))
                self.assertEqual(run("plan", "--tsv", "--formula", text)[:2], (int(refused), table))

    def test_the_table(self):
        for words in (["--formula", "Hut=4/Pier=3"], ["--formula=Hut=4/Pier=3"], ["--formula", " Hut = 4 / Pier = 3 "]):
            self.assertEqual(run("plan", *words), (0, self.TABLE, ""))

    def test_names_that_cross_get_no_note(self):
        self.assertEqual(run("plan", "--formula", "Hut=3*Pier=3")[::2], (0, ""))
        sheet = run("formula", "Hut=3*Pier=3")[1]
        self.assertIn("note: Pier 1 is taken as one pier that all 3 huts share.", run("plan", "-", data=sheet)[2])

    def test_names_as_treatments(self):
        status, out, err = run("plan", "--formula", "Block=4*Gain=3", "--treatments", "Gain")
        self.assertEqual((status, err), (0, ""))
        self.assertIn("E        Gain       2  6 df of E", out.decode().splitlines())

    def test_too_many_members(self):
        status, out, err = run("plan", "--tsv", "--formula", "Site=2*Hut=2*Pier=2*Month=2*Week=2*Shift=2")
        self.assertEqual((status, out), (1, b"refused\t8\t-\t-\n"))
        self.assertTrue(err.endswith("  Remedy: Write / and not * before what lies inside something else, or leave out a plot column.\n"), err)
        self.assertEqual(run("plan", "--tsv", "--formula", "(Site=2/Hut=2/Pier=2)*Month=2*Week=2*Shift=2")[0], 0)

    def test_as_json(self):
        status, out, err = run("plan", "--json", "--formula", "Hut=4/Pier=3")
        document = json.loads(out)
        self.assertEqual((status, document["file"], document["plots"], document["notes"]), (0, "the formula", 12, []))
        refused = json.loads(run("plan", "--json", "--formula", "Hut=4/Pier")[1])["refused"]
        self.assertEqual((refused["number"], refused["what"]), (17, "`Pier` has no count."))


class Comparisons(unittest.TestCase):
    """How two factors stand: each answer in words and for programs. Why it is the answer, test_planning.py says."""

    TRIAL = b"p:Hut,p:Pier,p:Week,t:Sensor,t:Gain\n1,1,1,a,1\n1,1,2,a,1\n1,2,1,b,1\n1,2,2,b,2\n2,3,1,c,1\n2,3,2,c,2\n2,4,1,d,2\n2,4,2,d,2\n"
    SENTENCES = {
        ("Pier", "Sensor", "equivalent"):
            "Pier and Sensor are equivalent: plots have the same pier exactly when they have the same sensor.",
        ("Pier", "Hut", "finer"):
            "Pier is finer than Hut: plots with the same pier always have the same hut, but not the other way round.",
        ("Hut", "Pier", "coarser"):
            "Hut is coarser than Pier: plots with the same pier always have the same hut, but not the other way round.",
        ("Hut", "Week", "orthogonal"):
            "Hut and Week are orthogonal, and neither is finer: they cross evenly.",
        ("Hut", "Gain", "not orthogonal"):
            "Hut and Gain are not orthogonal: Hut 1 has 3 of the 4 plots with Gain 1, but 1 of the 4 with Gain 2.",
    }

    def test_each_answer(self):
        self.assertEqual(run("plan", "--tsv", "-", data=self.TRIAL)[:2], (1, b"refused\t12\tGain\tSensor\n"))
        for (first, second, answer), text in self.SENTENCES.items():
            with self.subTest(answer):
                self.assertEqual(run("compare", "-", first, second, data=self.TRIAL), (0, f"{text}\n".encode(), ""))
                line = f"compared\t{first}\t{second}\t{answer}\n".encode()
                self.assertEqual(run("compare", "--tsv", "-", first, second, data=self.TRIAL), (0, line, ""))
                status, out, err = run("compare", "-", first, second, "--json", data=self.TRIAL)
                expected = {"file": "standard input", "first": first, "second": second, "compared": answer, "text": text}
                self.assertEqual((status, json.loads(out), err), (0, expected, ""))

    def test_names_of_refusals(self):
        """Two names that a refusal has for members that are not orthogonal."""
        for path in sorted(glob.glob(os.path.join(EXAMPLES, "refused-1[023].sheet"))):
            first, second = bytes_of(path[: -len("sheet")] + "table").decode("ascii").split()[2:]
            expected = f"compared\t{first}\t{second}\tnot orthogonal\n".encode()
            self.assertEqual(run("compare", "--tsv", path, first, second), (0, expected, ""))

    def test_names_of_the_table(self):
        """Each source against its stratum, which is finer than it or equivalent."""
        path = os.path.join(EXAMPLES, "example-4-extension.sheet")
        lines = [line.split("\t") for line in bytes_of(path[: -len("sheet")] + "table").decode("ascii").splitlines()[1:]]
        pairs = [line[:2] for line in lines if not line[1].startswith("=")]
        self.assertEqual(len(pairs), 8)
        for stratum, source in pairs:
            answer = "equivalent" if stratum == source == "U" else "finer"
            expected = f"compared\t{stratum}\t{source}\t{answer}\n".encode()
            self.assertEqual(run("compare", "--tsv", path, stratum, source), (0, expected, ""))

    def test_no_family(self):
        path = os.path.join(EXAMPLES, "refused-08.sheet")
        self.assertEqual(run("compare", "--tsv", path, "Hut", "Week"), (0, b"compared\tHut\tWeek\torthogonal\n", ""))
        message = f"rachdoum: there is no factor 'I(Hut,Week)': {path} has Site, Hut, Pier, Month, Week, Shift, U, E; "
        message += "its design is refused (8), so some combinations may have no name\n"
        self.assertEqual(run("compare", path, "I(Hut,Week)", "Hut"), (2, b"", message))

    def test_options(self):
        for options, answer in (([], "orthogonal"), (["--nested", "Pier/Hut"], "finer")):
            expected = f"compared\tPier\tHut\t{answer}\n".encode()
            self.assertEqual(run("compare", "-", "Pier", "Hut", *KINDS, "--tsv", *options, data=LATIN), (0, expected, ""))
        old = os.path.join(EXAMPLES, "sections.old")
        self.assertEqual(run("compare", "--tsv", old, "Plant", "E")[1], b"compared\tPlant\tE\tequivalent\n")
        six = bytes_of(os.path.join(EXAMPLES, "refused-11.sheet"))
        names = six.split(b"\n")[0].decode("ascii").replace("t:", "").split("\t")
        both = f"I({names[0]},{names[1]})"
        self.assertEqual(run("compare", "-", both, names[0], data=six)[0], 2)
        self.assertEqual(run("compare", "-", both, names[0], "--k", "2", "--tsv", data=six)[1], f"compared\t{both}\t{names[0]}\tfiner\n".encode())

    def test_refusals(self):
        for data, number in ((b"", 2), (b"Hut\n1\n", 3), (b"p:Hut\n0\n", 4), (b"p:Hut\n", 5), (Parents.RIGHT, 23)):
            status, out, err = run("compare", "-", "Hut", "Pier", data=data)
            self.assertEqual((status, out), (1, b""))
            self.assertTrue(err.startswith(f"rachdoum: standard input: refused ({number}): "), err)
            self.assertEqual(run("compare", "-", "Hut", "Pier", "--tsv", data=data)[:2], (1, f"refused\t{number}\t-\t-\n".encode()))
            self.assertEqual(json.loads(run("compare", "-", "Hut", "Pier", "--json", data=data)[1])["refused"]["number"], number)


class Documents(unittest.TestCase):
    """What the documents show is what the command prints."""

    def document(self, *path):
        with open(os.path.join(ROOT, *path), encoding="utf-8") as file:
            return file.read()

    def side_by_side(self, text):
        """The two columns of the first block with two sheets: text on the left, text on the right."""
        block = text[text.index("numbered anew in each hut  ") :].split("```")[0]
        split = block.index("numbered consecutively")
        lines = block.splitlines()[2:]
        return [[line[:split].rstrip() for line in lines], [line[split:].rstrip() for line in lines]]

    def sheet(self, lines):
        return "\n".join(lines[: lines.index("")] if "" in lines else lines).encode()

    def test_readme(self):
        text = self.document("README.md")
        for lines, table in zip(self.side_by_side(text), (CROSSED_TABLE, NESTED_TABLE)):
            shown = "\n".join(lines[lines.index("") + 1 :]).rstrip("\n") + "\n"
            self.assertEqual(shown, table.decode())
            self.assertEqual(run("plan", "-", "--quiet", data=self.sheet(lines))[:2], (0, table))
        self.assertIn(NOTE.splitlines()[0], text)
        self.assertIn(Formulas.TABLE.decode(), text.split("```\n")[1::2])
        self.assertEqual(run("plan", os.path.join(EXAMPLES, "piers.csv")), (0, CROSSED_TABLE, NOTE))

    def test_refusals(self):
        whole = self.document("docs", "REFUSALS.md")
        for number, names in ((10, "Logger\tPier"), (13, "Pier\tGain")):
            left, right = self.side_by_side(whole[whole.index(f"### {number}. ") :])
            refused = f"refused\t{number}\t{names}\n"
            self.assertIn(refused.strip().replace("\t", "→"), whole)
            self.assertEqual(run("plan", "-", "--tsv", data=self.sheet(left))[:2], (1, refused.encode()))
            status, out, err = run("plan", "-", "--tsv", data=self.sheet(right))
            self.assertEqual((status, err), (0, ""))
            self.assertEqual(run("plan", "-", "--tsv", "--nested", "Pier/Hut", data=self.sheet(left)), (0, out, ""))

    def test_examples(self):
        blocks = self.document("docs", "EXAMPLES.md").split("```\n")[1::2]
        names = ["sample.sheet", "sample.table", "supremum.sheet", "supremum.table", "sections.old", "sections.sheet", "sections.table"]
        names += [f"{name}.{part}" for name in ("hut-pier", "row-column", "row-column-sub") for part in ("sheet", "table")]
        for name in names:
            self.assertIn(self.document("examples", name), blocks, name)

    def test_comparisons(self):
        lines = [line for line in self.document("docs", "EXAMPLES.md").splitlines()]
        calls = [place for place, line in enumerate(lines) if line.startswith("./plan compare ")]
        answers = set()
        for place in calls:
            words = [word.replace("examples/", EXAMPLES + "/") for word in shlex.split(lines[place])[1:]]
            self.assertEqual(run(*words), (0, f"{lines[place + 1]}\n".encode(), ""))
            answers.add(run(*words, "--tsv")[1].split(b"\t")[3])
        self.assertEqual(len(answers), 5)
        readme = self.document("README.md")
        shown = run("compare", os.path.join(EXAMPLES, "huts.sheet"), "Filter", "Hut")[1].decode()
        self.assertIn(f"    ./plan compare examples/huts.sheet Filter Hut\n    {shown}", readme)

    def test_python_in_documents(self):
        for path, expected in ((("README.md",), "1 df of E"), (("docs", "COMMAND.md"), "2 df of E")):
            code = self.document(*path).split("```python\n")[1].split("```")[0]
            with contextlib.redirect_stdout(io.StringIO()) as out:
                exec(code, {})
            self.assertEqual(out.getvalue().splitlines()[-1], expected)


class WrongCalls(unittest.TestCase):
    def refuses(self, *arguments, message, data=LATIN):
        status, out, err = run(*arguments, data=data)
        self.assertEqual((status, out), (2, b""))
        self.assertIn(message, err)
        self.assertNotIn("Traceback", err)

    def test_wrong_calls(self):
        self.refuses(message="required: COMMAND")
        self.refuses("plan", message="one of the arguments FILE --formula is required")
        self.refuses("plan", "-", "--formula", "Hut=2", message="--formula: not allowed with argument FILE")
        self.refuses("plan", "--formula", message="--formula: expected one argument")
        self.refuses("plan", "--formula", "Hut=2", "--nested", "Hut/Hat", message="there is no column 'Hat': the formula has Hut")
        self.refuses("formula", message="required: FORMULA")
        self.refuses("formula", "Hut=2", "--tsv", message="unrecognized arguments: --tsv")
        self.refuses("plot", message="invalid choice: 'plot'")
        self.refuses("convert", message="required: FILE")
        self.refuses("convert", "-", "--tsv", message="unrecognized arguments: --tsv")
        self.refuses("convert", "/nowhere", message="rachdoum: /nowhere: No such file or directory")
        self.refuses("plan", "-", "--k", "7", message="argument --k: invalid choice: 7")
        self.refuses("compare", "-", "Hut", message="required: SECOND")
        self.refuses("compare", "-", "Hut", "Pier", "Gain", message="unrecognized arguments: Gain")
        self.refuses("compare", "-", "Hut", "Pier", "--tsv", "--json", message="not allowed with argument")
        self.refuses("compare", "/nowhere", "Hut", "Pier", message="rachdoum: /nowhere: No such file or directory")
        self.refuses("compare", "-", *KINDS, "Hut", "Hat", message="there is no factor 'Hat': standard input has Hut, Pier, Gain, U, E\n")
        self.refuses("compare", "-", *KINDS, "\x1b[31m", "Hut", message="there is no factor '\\x1b[31m': standard input has Hut")
        self.refuses("plan", "-", "--tsv", "--json", message="not allowed with argument")
        self.refuses("plan", "/nowhere", message="rachdoum: /nowhere: No such file or directory")
        self.refuses("plan", EXAMPLES, message="Is a directory")
        self.refuses("plan", "/nowhere\x1b[31m", message="rachdoum: /nowhere?[31m: No such file or directory")
        self.refuses("plan", "-", "--plots", "Hat", message="there is no column 'Hat': standard input has Hut, Pier, Gain")
        self.refuses("plan", "-", *KINDS, "--nested", "Pier", message="'Pier' is not of the form CHILD/PARENT, such as Pier/Hut")
        self.refuses("plan", "-", *KINDS, "--nested", "Gain/Hut", message="only plot columns can be nested, and 'Gain' is none")
        self.refuses("plan", "-", *KINDS, "--nested", "Pier/Pier", message="cannot be nested in each other or in themselves")
        self.refuses("plan", "-", *KINDS, "--crossed", "Pier", message="--crossed takes two columns, such as Pier,Hut")
        self.refuses("plan", "-", *KINDS, "--crossed", "Pier,Hat", message="there is no column 'Hat'")

    def test_help(self):
        status, out, err = run("plan", "--help")
        self.assertEqual((status, err), (0, ""))
        self.assertIn(b"rachdoum plan trial.csv --nested Pier/Hut", out)

    def test_one_wrong_file_of_several(self):
        status, out, err = run("plan", "/nowhere", os.path.join(EXAMPLES, "sample.sheet"), "--tsv")
        self.assertEqual((status, out), (2, bytes_of(os.path.join(EXAMPLES, "sample.table"))))

    def test_several_files_have_headings(self):
        path = os.path.join(EXAMPLES, "sample.sheet")
        status, out, err = run("plan", path, path)
        self.assertEqual((status, out.decode().count(f"{path}:\n")), (0, 2))

    def test_notes_on_several_files_say_which(self):
        path = os.path.join(EXAMPLES, "example-4.sheet")
        self.assertTrue(run("plan", path, path)[2].startswith(f"{path}: note: Subcolumn 1 is taken as one subcolumn"))


class Large(unittest.TestCase):
    def plan_in_little_memory(self, path):
        """The command in a process that may have half a gigabyte of memory."""
        limit = "import resource, runpy, sys; resource.setrlimit(resource.RLIMIT_AS, (1 << 29, 1 << 29)); "
        start = "sys.argv[0] = 'rachdoum'; runpy.run_module('rachdoum', run_name='__main__')"
        done = subprocess.run(
            [sys.executable, "-c", limit + start, "plan", "--tsv", path], stdout=subprocess.PIPE, stderr=subprocess.PIPE, timeout=60
        )
        self.assertEqual((done.returncode, done.stdout), (1, b"refused\t2\t-\t-\n"))
        self.assertIn(b"refused (2): it is longer than 1,048,576 bytes.", done.stderr)

    def test_a_file_of_a_gigabyte_is_not_read_whole(self):
        with tempfile.NamedTemporaryFile() as file:
            file.truncate(1 << 30)
            self.plan_in_little_memory(file.name)

    def test_an_endless_file(self):
        self.plan_in_little_memory("/dev/zero")

    def processor_time(self, *words, data=b""):
        """The processor's time of a program that ends with 0."""
        before = resource.getrusage(resource.RUSAGE_CHILDREN)
        self.assertEqual(subprocess.run([sys.executable, *words], input=data, stdout=subprocess.DEVNULL, stderr=subprocess.DEVNULL).returncode, 0)
        after = resource.getrusage(resource.RUSAGE_CHILDREN)
        return after.ru_utime + after.ru_stime - before.ru_utime - before.ru_stime

    def test_time(self):
        """240 plots take at most 0.15 s from start to end, or four times Python's own start on a slower machine. The processor's time
        counts, of the best run: the machine may be busy."""
        rows = [f"{hut},{pier},{week},{pier % 2 + 1},{week % 2 + 1}" for hut in range(1, 11) for pier in range(1, 7) for week in range(1, 5)]
        self.assertEqual(len(rows), library.PLOTS)
        data = "\n".join(["p:Hut,p:Pier,p:Week,t:Gain,t:Cable"] + rows).encode()
        most = max(0.15, 4 * min(self.processor_time("-c", "pass") for _ in range(5)))
        taken = []
        while len(taken) < 40 and min(taken, default=most + 1) > most:
            taken.append(self.processor_time("-m", "rachdoum", "plan", "-", data=data))
        self.assertLessEqual(min(taken), most)


if __name__ == "__main__":
    unittest.main()
