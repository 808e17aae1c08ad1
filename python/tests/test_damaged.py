"""Damaged files, each with the message that a person should see. The messages were written by hand."""
import unittest

from support import run

MARK = "Write p: (plot) or t: (treatment) before each name, or add --plots NAMES --treatments NAMES, of "
LEVEL = "A level is only a label: write another number or a word; take out a plot whose level is not known."
FIELDS = "Give each line as many fields as there are columns, separated as in the first line."
EMPTY = "Look whether the right file was given."
NO_TEXT = "Save the sheet as CSV, or as text separated by tabs."
FORM = "a name has 2 to 12 letters or digits, a letter first, without blanks, hyphens or accents"
SIZES = "the same number of plots: add plots to the small ones, or take some out of the large ones."


def table(titles, rows):
    return "\n".join([titles] + rows).encode() + b"\n"


def crossed(titles, levels=2):
    """All combinations, one line each."""
    columns = titles.count(",") + 1
    rows = [[str(plot // levels**i % levels + 1) for i in reversed(range(columns))] for plot in range(levels**columns)]
    return table(titles, [",".join(row) for row in rows])


# name: (the file, the arguments, the number, what is wrong, the remedy)
FILES = {
    "an empty file": (b"", [], 2, "it is empty.", EMPTY),
    "empty lines alone": (b"\r\n\r\n  \r\n", [], 2, "it is empty.", EMPTY),
    "a byte order mark alone": (b"\xef\xbb\xbf", [], 2, "it is empty.", EMPTY),
    "names and no plot": (
        b"p:Hut,t:Gain\n", [], 5, "it has column names and no plot.", "Write one line for each plot below the names.",
    ),
    "names and no plot, without a line end": (
        b"p:Hut\tt:Gain", [], 5, "it has column names and no plot.", "Write one line for each plot below the names.",
    ),
    "no names": (
        b"1,1\n1,2\n", [], 3, "line 1, field 1: `1` is no column name.",
        "Begin with a line that names the columns, such as p:Hut and t:Gain.",
    ),
    "one column without a mark": (
        b"p:Hut,Gain\n1,1\n1,2\n", [], 3, "line 1, field 2: `Gain` is not marked as a plot column or a treatment.",
        MARK + "Hut, Gain.",
    ),
    "no column with a mark, below empty lines": (
        b"\n\nHut;Pier;Gain\n1;1;1\n", [], 3, "line 3, field 1: `Hut` is not marked as a plot column or a treatment.",
        MARK + "Hut, Pier, Gain.",
    ),
    "a title above the names": (
        b"Trial of May\np:Hut,t:Gain\n1,1\n", [], 3, "line 1, field 1: `Trial` is not marked as a plot column or a treatment.",
        MARK + "Trial, of, May.",
    ),
    "two columns with one name": (
        b"p:Hut,t:Hut\n1,1\n2,1\n", [], 3, "line 1, field 2: two columns are called `Hut`.", "Rename one of them.",
    ),
    "a column without a name": (
        b"p:Hut,,t:Gain\n1,x,1\n2,x,1\n", [], 3, "line 1, field 2: a column has no name.",
        "Give it a name, or take the column out.",
    ),
    "a mark without a name": (
        b"p:Hut,t:\n1,1\n2,1\n", [], 3, "line 1, field 2: a column has no name.", "Give it a name, or take the column out.",
    ),
    "seven plot columns": (
        b"p:Aa,p:Bb,p:Cc,p:Dd,p:Ee,p:Ff,p:Gg\n1,1,1,1,1,1,1\n", [], 3,
        "line 1, field 7: `Gg` is plot column number 7, and at most 6 are taken.", "Leave out a plot column.",
    ),
    "five thousand plot columns": (
        ",".join(f"p:Column{i}" for i in range(1, 5001)).encode() + b"\n1\n", [], 2,
        "line 1, field 7: `Column7` is plot column number 7, and at most 6 are taken.", "Leave out a plot column.",
    ),
    "seven treatments": (
        b"t:Aa,t:Bb,t:Cc,t:Dd,p:Hut,t:Ee,t:Ff,t:Gg\n1,1,1,1,1,1,1,1\n", [], 3,
        "line 1, field 8: `Gg` is treatment number 7, and at most 6 are taken.", "Leave out a treatment.",
    ),
    "a column called E": (
        b"p:Hut,t:E\n1,1\n2,1\n", [], 3,
        "line 1, field 2: `E` cannot be a name: U means the whole trial and E every single plot.", "Rename the column.",
    ),
    "a column called like a combination": (
        b"p:Hut;t:I(a)\n1;1\n2;1\n", [], 3,
        "line 1, field 2: `I(a)` cannot be a name: names that begin with I( are the planner's own.", "Rename the column.",
    ),
    "a column called like a grouping that columns share": (
        b"p:S(Hut)\n1\n2\n", [], 3,
        "line 1, field 1: `S(Hut)` cannot be a name: names that begin with S( are the planner's own.", "Rename the column.",
    ),
    "a comma in a name": (
        b"p:Hut;t:Gain, dB\n1;1\n2;1\n", [], 3, "line 1, field 2: `Gain, dB` cannot be a name: a name has no comma.",
        "Rename the column.",
    ),
    "a name with a blank, for the table of the rules": (
        b"p:Hut,t:Gain setting\n1,1\n1,2\n", ["--tsv"], 3,
        f"line 1, field 2: `Gain setting` is no name of the rules: {FORM}.",
        "Rename the column; plan without --tsv takes any name.",
    ),
    "nothing after a slash": (
        b"p:Hut,p:Pier/\n1,1\n1,2\n", [], 3, "line 1, field 2: `Pier/` names no column after the slash.",
        "Write p:Pier, or name the parent, such as p:Pier/Hut.",
    ),
    "two slashes": (
        b"p:Hut,p:Pier/Hut,p:Sensor/Pier/Hut\n1,1,1\n", [], 3, "line 1, field 3: `Sensor/Pier/Hut` has two slashes.",
        "Write p:Sensor/Pier; the parent may have one of its own.",
    ),
    "two columns with one name before the slash": (
        b"p:Hut,p:Pier/Hut,p:Pier\n1,1,1\n", [], 3, "line 1, field 3: two columns are called `Pier`.", "Rename one of them.",
    ),
    "a zero below a wrong parent": (
        b"p:Pier/Hut,p:Hut\n1,1\n0,1\n", [], 4, "line 3, Pier: `0` stands for a missing level.", LEVEL,
    ),
    "241 plots below a wrong parent": (
        table("p:Pier/Hut,p:Hut", ["1,1"] * 241), [], 5, "it has 241 plots, and at most 240 are taken.",
        "Look whether each line is one plot; split a larger trial.",
    ),
    "a parent to the right": (
        b"p:Pier/Hut,p:Hut\n1,1\n2,1\n1,2\n2,2\n", [], 23,
        "line 1, field 1: `Pier/Hut` is numbered anew in Hut, which stands to its right.",
        "Put the column Hut to the left of Pier; or write p:Pier and add --nested Pier/Hut, which takes any order.",
    ),
    "a parent that is a treatment": (
        b"p:Hut,t:Gain,p:Pier/Gain\n1,1,1\n2,1,2\n", [], 23,
        "line 1, field 3: `Pier/Gain` is numbered anew in Gain, which is a treatment.",
        "Name a plot column to its left (Hut), or write p:Pier if its numbers do not start again.",
    ),
    "a column that is its own parent": (
        b"p:Hut,p:Week,p:Pier/Pier\n1,1,1\n2,1,2\n", [], 23, "line 1, field 3: `Pier/Pier` is numbered anew in itself.",
        "Name a plot column to its left (Hut, Week), or write p:Pier if its numbers do not start again.",
    ),
    "a parent that is not there": (
        b"p:Pier/Hat,t:Gain\n1,1\n2,1\n", [], 23,
        "line 1, field 1: `Pier/Hat` is numbered anew in Hat, and there is no such plot column.",
        "Put the plot column that it lies in to its left, or write p:Pier if its numbers do not start again.",
    ),
    "a zero": (
        b"p:Hut,t:Cable\n1,1\n1,0\n2,1\n2,0\n", [], 4, "line 3, Cable: `0` stands for a missing level.", LEVEL,
    ),
    "a field left empty": (
        b"p:Hut;t:Cable\r\n1;1\r\n1;2\r\n;1\r\n2;2\r\n", [], 4, "line 4, Hut: there is no level.",
        "Write the level in every line, also where cells are merged; take out a plot whose level is not known.",
    ),
    "a missing value of R": (
        b"p:Hut t:Gain\n1 1\n1 NA\n", [], 4, "line 3, Gain: `NA` stands for a missing level.", LEVEL,
    ),
    "a line that is too short": (
        b"p:Hut,p:Pier,t:Gain\n1,1,1\n1,2\n", [], 4, "line 3 has 2 fields, the first line has 3.", FIELDS,
    ),
    "a line that is too long": (
        b"p:Hut,t:Gain\n1,1\n1,2,3\n", [], 4, "line 3 has 3 fields, the first line has 2.", FIELDS,
    ),
    "a decimal comma between commas": (
        b"p:Hut,t:Gain\n1,0,5\n1,1,5\n", [], 4, "line 2 has 3 fields, the first line has 2.", FIELDS,
    ),
    "a remark": (
        b"p:Hut,t:Gain\n1,1\n# the second hut\n2,1\n", [], 4, "line 3 has 1 field, the first line has 2.", FIELDS,
    ),
    "commas above semicolons": (
        b"p:Hut,t:Gain\n1;1\n1;2\n", [], 4, "line 2 has 1 field, the first line has 2.", FIELDS,
    ),
    "tabs above blanks": (
        b"p:Hut\tt:Gain\n1 1\n1 2\n", [], 4, "line 2 has 1 field, the first line has 2.", FIELDS,
    ),
    "a name too few": (
        b"p:Hut\n1,1\n1,2\n", [], 4, "line 2 has 2 fields, the first line has 1.", FIELDS,
    ),
    "241 plots": (
        table("p:Hut", [str(plot) for plot in range(1, 242)]), [], 5, "it has 241 plots, and at most 240 are taken.",
        "Look whether each line is one plot; split a larger trial.",
    ),
    "20,000 plots": (
        table("p:Hut,t:Gain", ["1,1"] * 20000), [], 2, "it has 20,000 plots, and at most 240 are taken.",
        "Look whether each line is one plot; split a larger trial.",
    ),
    "a spreadsheet as it is": (b"PK\x03\x04\x14\x00\x06\x00\x08\x00", [], 3, "it is not a text.", NO_TEXT),
    "two bytes a character, without a mark": (
        "p:Hut,t:Gain\n1,1\n".encode("utf-16-le"), [], 3, "it is not a text.", NO_TEXT,
    ),
    "a zero byte in a level": (b"p:Hut\tt:Gain\n1\t1\x00\n", [], 4, "it is not a text.", NO_TEXT),
    "bytes of no alphabet": (b"p:Hut,t:Gain\n1,\x81\n", [], 3, "it is not a text.", NO_TEXT),
    "a quotation mark left open": (
        b'p:Hut,t:Gain\n1,"low\n1,high\n', [], 3,
        "line 2: a quotation mark is not closed (unexpected end of data).", "Close it, or take the quotation marks out.",
    ),
    "two million bytes": (
        b"p:Hut\n" + b"1\n" * 1000000, [], 2, "it is longer than 1,048,576 bytes.",
        "Look whether the right file was given; a trial has at most 240 plots.",
    ),
    "six crossed plot columns": (
        crossed("p:Site,p:Hut,p:Pier,p:Month,p:Week,p:Shift"), [], 8,
        "the plot columns Site (2 levels), Hut (2), Pier (2), Month (2), Week (2) and Shift (2) and their combinations make 63 "
        "groupings, and at most 32 are taken.",
        "If numbers start again (Hut in each site and Pier in each hut), number them consecutively or add --nested Hut/Site "
        "--nested Pier/Hut, which gives a table; otherwise number consecutively what lies inside something else, or leave out a "
        "plot column.",
    ),
    "a pier too few": (
        b"p:Hut,t:Gain\nnorth,1\nnorth,2\nnorth,3\nsouth,1\nsouth,2\n", [], 9, "Hut north has 3 plots, Hut south has 2.",
        f"Give all huts {SIZES}",
    ),
    "a combination used more often": (
        b"p:Hut,p:Week\n1,1\n1,1\n1,2\n2,1\n2,2\n2,2\n", [], 9,
        "Hut 1 with Week 1 has 2 plots, Hut 1 with Week 2 has 1.",
        "Give all classes of I(Hut,Week) the same number of plots: add plots to the small ones, or take some out of the large "
        "ones.",
    ),
    "a hut in a week of its own": (
        b"p:Hut,p:Week\n1,1\n1,2\n2,1\n2,2\n3,3\n3,3\n", [], 9,
        "the class of S(Hut,Week) with lines 2, 3, 4, 5 has 4 plots, the class of S(Hut,Week) with lines 6, 7 has 2.",
        "Give all classes of S(Hut,Week) the same number of plots: add plots to the small ones, or take some out of the large "
        "ones.",
    ),
    "a week that a hut misses": (
        b"p:Hut,p:Week\n1,1\n1,2\n2,1\n2,3\n3,2\n3,3\n", [], 10,
        "Hut 1 has 1 of the 2 plots with Week 1, but 0 of the 2 with Week 3.",
        "If numbers start again (Week in each hut), number them consecutively or add --nested Week/Hut, which gives a table; "
        "otherwise use each level of Hut with each level of Week equally often.",
    ),
    "six crossed treatments": (
        crossed("t:Gain,t:Cable,t:Filter,t:Amplifier,t:Logger,t:Mount"), [], 11,
        "the treatments Gain (2 levels), Cable (2), Filter (2), Amplifier (2), Logger (2) and Mount (2) and their combinations make 63 "
        "groupings, and at most 32 are taken.",
        "Add --k 2, which takes combinations of at most 2 columns; or leave out a treatment, or write two as one with a level for "
        "each combination.",
    ),
    "a gain that has one cable too often": (
        b"t:Gain,t:Cable\nlow,a\nlow,a\nlow,b\nhigh,a\nhigh,b\nhigh,b\n", [], 12,
        "Gain low has 2 of the 3 plots with Cable a, but 1 of the 3 with Cable b.",
        "Use each level of Gain with each level of Cable equally often, or in proportion.",
    ),
    "a hut that has one gain too often": (
        b"p:Hut,t:Gain\n1,1\n1,1\n1,2\n2,1\n2,2\n2,2\n", [], 13,
        "Hut 1 has 2 of the 3 plots with Gain 1, but 1 of the 3 with Gain 2.",
        "Give each level of Hut the same share of each level of Gain, or one level of Gain as a whole.",
    ),
    "piers numbered anew in each hut": (
        b"p:Hut,p:Pier,t:Gain\n1,1,1\n1,2,2\n1,3,3\n2,1,1\n2,2,2\n2,3,3\n3,1,2\n3,2,1\n3,3,3\n", [], 13,
        "Pier 1 has 2 of the 3 plots with Gain 1, but 1 of the 3 with Gain 2.",
        "If numbers start again (Pier in each hut), number them consecutively or add --nested Pier/Hut, which gives a table; "
        "otherwise give each level of Pier the same share of each level of Gain, or one level of Gain as a whole.",
    ),
    "a sensor of its own for each of 32 plots": (
        table(
            "p:Site,p:Hut,p:Pier,p:Week,p:Shift,t:Sensor,t:Gain",
            [",".join([f"{plot:05b}"[i] + "x" for i in range(5)] + [f"s{plot}", f"g{(plot // 8 + plot // 16) % 2}"]) for plot in range(32)],
        ),
        [], 14,
        "32 groupings of the plots and 3 of the treatments lead to more than 32 sources. Sensor has a level of its own for each "
        "plot.",
        "If numbers start again (Hut in each site), number them consecutively or add --nested Hut/Site, which gives a table; "
        "otherwise leave out Sensor: nothing can be tested beside it.",
    ),
}


COUNT = "A count is a whole number from 2 to 240, without leading zeros."
ITEM = "Write a name and its count, such as Pier=3."
MIXED = "Say by brackets which belong together, such as (Row=3*Column=3)/Sub=2 or Row=3*(Column=3/Sub=2)."
NOTHING = "Put a name with its count there, or take the sign out."
CROSS = "Write / if what comes later lies inside, * if the two cross."

# the formula: (the number, what is wrong, the remedy)
FORMULAS = {
    "": (17, "it is empty.", "Write names and counts, such as Hut=4/Pier=3."),
    " \n": (17, "it is empty.", "Write names and counts, such as Hut=4/Pier=3."),
    "/".join(f"Longestnam{i:02}=2" for i in range(1, 18)) + "/Aa": (
        17, "it has 257 bytes, and at most 256 are taken.", "Leave out names, of which at most 6 are taken, or brackets.",
    ),
    "Hut/Pier": (17, "`Hut` has no count.", "Write how many there are, such as Hut=3."),
    "Hut=4/Pier": (17, "`Pier` has no count.", "Write how many there are, such as Pier=3."),
    "Hut=4/Pier=": (17, "`Pier=` has no count.", COUNT),
    "Hut=4/3": (17, f"`3` is no name: {FORM}.", ITEM),
    "Hut=4/=3": (17, f"`=3` is no name: {FORM}.", ITEM),
    "A=2/Bb=2": (17, f"`A` is no name: {FORM}.", ITEM),
    "Hut=4/Pier no = 3": (17, f"`Pier no` is no name: {FORM}.", ITEM),
    "Hütte=4": (17, f"`Hütte` is no name: {FORM}.", ITEM),
    "Hut=4:Pier=3": (17, "`:` is no operator.", CROSS),
    "Hut = 4 + Week = 2": (17, "`+` is no operator.", CROSS),
    "Hut=4.5/Pier=3": (17, "`4.5` cannot be the count of Hut.", COUNT),
    "Hut=1/Pier=3": (17, "`1` cannot be the count of Hut.", COUNT),
    "Hut=04/Pier=3": (17, "`04` cannot be the count of Hut.", COUNT),
    "Hut=241": (17, "`241` cannot be the count of Hut.", COUNT),
    "Hut=4 2": (17, "`4 2` cannot be the count of Hut.", COUNT),
    "Hut=four": (17, "`four` cannot be the count of Hut.", COUNT),
    "Row=3*Column=3/Sub=2": (17, "`*` and `/` are mixed without brackets.", MIXED),
    "Site=2/(Row=3/Sub=2*Column=3)": (17, "`/` and `*` are mixed without brackets.", MIXED),
    "(Row=3*Column=3": (17, "a bracket is opened and not closed.", "Close it, or take it out."),
    "Row=3*Column=3)/Sub=2": (17, "a bracket is closed that was not opened.", "Open it, or take it out."),
    "Hut=4/": (17, "there is nothing after `/`.", NOTHING),
    "*Hut=4": (17, "there is nothing before `*`.", NOTHING),
    "Hut=4//Pier=3": (17, "there is nothing between `/` and `/`.", NOTHING),
    "Hut=4/()": (17, "there is nothing between `(` and `)`.", NOTHING),
    "(Row=3*Column=3)Sub=2": (17, "no operator stands between `)` and `Sub=2`.", CROSS),
    "Hut=4(Pier=3)": (17, "no operator stands between `Hut=4` and `(`.", CROSS),
    "Hut=4/Pier=3*": (17, "`/` and `*` are mixed without brackets.", MIXED),
    "(Hut=4/Pier=3)*Hut=2": (17, "two names are `Hut`.", "Rename one of them."),
    "Aa=2/Bb=2/Cc=2/Dd=2/Ee=2/Ff=2/Gg=2": (18, "it has 7 names, and at most 6 are taken.", "Leave some out."),
    "Hut=12/Pier=24": (18, "its counts 12 and 24 make 288 plots, and at most 240 are taken.", "Lower a count, or split the trial."),
    "Site=10*Hut=10*Pier=20": (
        18, "its counts 10, 10 and 20 make 2,000 plots, and at most 240 are taken.", "Lower a count, or split the trial.",
    ),
}


class DamagedFormulas(unittest.TestCase):
    def test_messages(self):
        for text, (number, what, remedy) in FORMULAS.items():
            with self.subTest(text):
                expected = f"rachdoum: the formula: refused ({number}): {what}\n  Remedy: {remedy}\n"
                self.assertEqual(run("formula", text), (1, b"", expected))
                self.assertEqual(run("plan", "--formula", text), (1, b"", expected))
                self.assertEqual(run("plan", "--tsv", "--formula", text), (1, b"refused\t%d\t-\t-\n" % number, expected))


class DamagedFiles(unittest.TestCase):
    def test_messages(self):
        self.assertGreaterEqual(len(FILES), 30)
        for name, (data, arguments, number, what, remedy) in FILES.items():
            with self.subTest(name):
                status, out, err = run("plan", "-", *arguments, data=data)
                self.assertEqual(err, f"rachdoum: standard input: refused ({number}): {what}\n  Remedy: {remedy}\n")
                self.assertEqual((status, out), (1, b"refused\t3\t-\t-\n" if "--tsv" in arguments else b""))

    def test_the_rules_line_has_the_number(self):
        for name, (data, arguments, number, what, remedy) in FILES.items():
            with self.subTest(name):
                status, out, err = run("plan", "-", "--tsv", data=data)
                self.assertEqual((status, out.split(b"\t")[:2]), (1, [b"refused", str(number).encode()]))


if __name__ == "__main__":
    unittest.main()
