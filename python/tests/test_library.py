"""The entries, byte for byte: what goes in and what comes out is what the C entries take and answer."""
import ctypes
import os
import re
import unittest
from unittest import mock

from rachdoum import library
from support import ROOT

HUTS = b"p:Hut\tt:Gain\n1\t1\n1\t2\n2\t1\n2\t2\n"


def family(*members):
    return b"".join(bytes(member).ljust(240, b"\0") for member in members).ljust(7680, b"\0")


class Entries(unittest.TestCase):
    def test_read_sheet(self):
        number, counts, levels = library.read_sheet(HUTS)
        self.assertEqual((number, counts), (0, (4, 1, 1)))
        self.assertEqual((levels[:4], levels[4:240]), ([1, 1, 2, 2], [0] * 236))
        self.assertEqual(levels[6 * 240 : 6 * 240 + 4], [1, 2, 1, 2])

    def test_read_sheet_refusals(self):
        for text, number in [(b"", 2), (b"x" * 32769, 2), (b"Hut\n", 3), (b"p:Hut\n0\n", 4), (b"p:Hut\n", 5)]:
            self.assertEqual(library.read_sheet(text)[:2], (number, (0, 0, 0)))

    def test_levels(self):
        for level in (1, 65535, 65536, 65537, 999999999, 1000000000, 4294967294, 4294967295):
            self.assertEqual(library.read_sheet(b"p:Hut\n%d\n" % level)[2][0], level)
        for level in (0, 4294967296, 4294967297, 9999999999, 10000000000, 18446744073709551617):
            self.assertEqual(library.read_sheet(b"p:Hut\n%d\n" % level)[:2], (4, (0, 0, 0)))

    def test_levels_with_a_half_in_common(self):
        for a, b in ((1, 65537), (65536, 131072), (65535, 4294967295), (4294901760, 4294967295), (1, 3163095041)):
            text = b"p:Hut\tt:Gain\n%d\t%d\n%d\t%d\n%d\t%d\n%d\t%d\n" % (a, a, a, b, b, a, b, b)
            _, counts, levels = library.read_sheet(text)
            number, answer, first, second = library.full_design(levels, *counts, 6)
            self.assertEqual((number, answer), (0, (0, 0, 3, 2)))
            self.assertEqual(first, family([1, 1, 1, 1], [1, 1, 2, 2], [1, 2, 3, 4]))
            self.assertEqual(second, family([1, 1, 1, 1], [1, 2, 1, 2]))
            self.assertEqual(library.name(text, levels, first, 4, 3, library.PLOT, 2), (0, b"Hut"))
            self.assertEqual(library.skeleton(text), library.skeleton(HUTS))

    def test_plot_design(self):
        _, _, levels = library.read_sheet(HUTS)
        self.assertEqual(library.plot_design(levels, 4, 1), (0, (0, 0, 3), family([1, 1, 1, 1], [1, 1, 2, 2], [1, 2, 3, 4])))
        self.assertEqual(library.plot_design(levels, 0, 1)[:2], (6, (0, 0, 0)))

    def test_full_design(self):
        _, counts, levels = library.read_sheet(HUTS)
        number, answer, first, second = library.full_design(levels, *counts, 6)
        self.assertEqual((number, answer), (0, (0, 0, 3, 2)))
        self.assertEqual(first, family([1, 1, 1, 1], [1, 1, 2, 2], [1, 2, 3, 4]))
        self.assertEqual(second, family([1, 1, 1, 1], [1, 2, 1, 2]))
        self.assertEqual(library.full_design(levels, *counts, 7)[0], 6)

    def test_places_at_fault(self):
        _, counts, levels = library.read_sheet(b"p:Hut\tp:Week\n1\t1\n1\t2\n2\t1\n2\t3\n3\t2\n3\t3\n")
        self.assertEqual(library.full_design(levels, *counts, 6)[:2], (10, (2, 3, 4, 0)))

    def test_relation(self):
        number, answer = library.relation(family([1, 1, 1, 1], [1, 1, 2, 2], [1, 2, 3, 4]), 4, 3)
        self.assertEqual((number, len(answer), answer[:4], answer[33:36], answer[65:68]), (0, 97, (3, 0, 1, 3), (0, 1, 2), (0, 1, 1)))

    def test_degrees(self):
        members = family([1, 1, 1, 1], [1, 1, 2, 2], [1, 2, 1, 2], [1, 2, 2, 1], [1, 2, 3, 4])
        number, answer = library.degrees(members, 4, 5)
        self.assertEqual((number, answer), (0, (1, 1, 1, 1, 0) + (0,) * 27))
        self.assertEqual(library.degrees(members, 4, 33)[0], 15)

    def test_strata(self):
        plots, treatments = family([1] * 4, [1, 1, 2, 2], [1, 2, 3, 4]), family([1] * 4, [1, 2, 1, 2])
        number, answer = library.strata(plots, 3, treatments, 2, 4)
        self.assertEqual((number, answer[:3], answer[32:36]), (0, (1, 3, 0), (0, 1, 1, 0)))

    def test_compare(self):
        square = family([1, 1, 1, 1], [1, 1, 2, 2], [1, 2, 1, 2], [1, 2, 3, 4])
        answers = [[library.compare(square, 4, i, square, 4, j, 4) for j in range(1, 5)] for i in range(1, 5)]
        expected = [[1, 3, 3, 3], [2, 1, 4, 3], [2, 4, 1, 3], [2, 2, 2, 1]]
        self.assertEqual(answers, [[(0, answer) for answer in row] for row in expected])
        for first, second, answer in (
            ("1122", "1122", library.EQUIVALENT), ("112233", "111122", library.FINER), ("111122", "112233", library.COARSER),
            # Within each half 1 x 4 = 2 x 2; rows of 3 and 6 plots, columns of 3 and 6.
            ("11223344", "12123434", library.ORTHOGONAL), ("111222222", "122112222", library.ORTHOGONAL),
            # Classes of the supremum that do not meet; a plot moved.
            ("112233", "121323", library.NOT_ORTHOGONAL), ("111222222", "122112221", library.NOT_ORTHOGONAL),
        ):
            one, other = family(map(int, first)), family(map(int, second))
            self.assertEqual(library.compare(one, 1, 1, other, 1, 1, len(first)), (0, answer), (first, second))

    def test_compare_refusals(self):
        good = family([1, 1, 1, 1], [1, 1, 2, 2])
        numbered, ordered = family([1, 1, 1, 1], [1, 1, 2, 2], [1, 1, 2, 4]), family([1, 2, 1, 2], [1, 1, 2, 2])
        for other, number in (
            ((good, 2, 0), 6), ((good, 2, 3), 6), ((good, 0, 0), 6), ((good, 0, 1), 6), ((good, 33, 33), 15), ((good, 33, 34), 6),
            ((good[:-1], 2, 1), 6), ((good, 2**64 - 1, 2**64 - 1), 15), ((good, 2, 2**32 + 1), 6), ((numbered, 3, 1), 15),
            ((ordered, 2, 1), 15), ((numbered, 2, 1), 0), ((numbered, 3, 4), 6), ((good + b"\7", 2, 1), 0),
        ):
            for first, second in ((other, (good, 2, 1)), ((good, 2, 1), other)):
                answer = library.compare(*first, *second, 4)
                self.assertEqual((answer[0], answer[1] != 0), (number, number == 0), other[1:])
        for plots in (0, 241, 2**32 + 4, 2**64 - 1):
            self.assertEqual(library.compare(good, 2, 1, good, 2, 1, plots), (6, 0))

    def test_name(self):
        _, _, levels = library.read_sheet(HUTS)
        plots = family([1] * 4, [1, 1, 2, 2], [1, 2, 3, 4])
        self.assertEqual(library.name(HUTS, levels, plots, 4, 3, library.PLOT, 2), (0, b"Hut"))
        self.assertEqual(library.name(HUTS, levels, plots, 4, 3, library.TREATMENT, 2), (0, b"S(Hut)"))
        self.assertEqual(library.name(HUTS, levels, plots, 4, 3, library.PLOT, 4), (6, b""))

    def test_names_of_suprema(self):
        text = b"t:Gain\tp:Hut\tp:Week\n" + b"".join(b"%d\t%d\t%d\n" % (u + 1, u // 2 + 1, u // 4 * 2 + u % 2 + 1) for u in range(8))
        _, counts, levels = library.read_sheet(text)
        number, answer, first, second = library.full_design(levels, *counts, 6)
        self.assertEqual((number, answer), (0, (0, 0, 5, 5)))
        names = [library.name(text, levels, first, 8, 5, library.PLOT, place)[1] for place in range(1, 6)]
        self.assertEqual(names, [b"U", b"S(Hut,Week)", b"Hut", b"Week", b"E"])
        names = [library.name(text, levels, second, 8, 5, library.TREATMENT, place)[1] for place in range(1, 6)]
        self.assertEqual(names, [b"U", b"S(Hut,Week)", b"S(Hut)", b"S(Week)", b"E"])
        others = family([1, 2] * 4)
        self.assertEqual(library.name(text, levels, others, 8, 1, library.PLOT, 1), (0, b"#1"))

    def test_the_longest_name(self):
        names = [f"Longestnam{i}" for i in range(10, 22)]
        titles = [("p:" if i < 6 else "t:") + name for i, name in enumerate(names)]
        # Column c joins plots c and c + 1, from 0, and no others: no column is coarser than another.
        rows = [[u if u != c + 1 else c for c in range(12)] for u in range(14)]
        text = "".join("\t".join(row) + "\n" for row in [titles] + [[str(level + 1) for level in row] for row in rows]).encode()
        _, counts, levels = library.read_sheet(text)
        self.assertEqual(counts, (14, 6, 6))
        whole = family([1] * 13 + [2])
        name = f"S({','.join(names)})".encode()
        self.assertEqual(len(name), 158)
        self.assertEqual(library.name(text, levels, whole, 14, 1, library.TREATMENT, 1), (0, name))
        self.assertEqual(library.name(text, levels, whole, 14, 1, library.PLOT, 1), (0, b"#1"))

    def test_missing_levels_of_names(self):
        plots = family([1] * 4, [1, 1, 2, 2], [1, 2, 3, 4])
        for place, kind, number in (
            (0, library.PLOT, 7), (0, library.TREATMENT, 7), (240 * 6, library.PLOT, 0), (240 * 6, library.TREATMENT, 7),
            (4, library.TREATMENT, 0), (240, library.TREATMENT, 0), (240 * 7, library.TREATMENT, 0),
        ):
            _, _, levels = library.read_sheet(HUTS)
            levels[place] = 0
            self.assertEqual(library.name(HUTS, levels, plots, 4, 3, kind, 1), (number, b"" if number else b"U"), (place, kind))

    def test_skeleton(self):
        self.assertEqual(library.skeleton(b"p:Hut\n1\n"), (0, b"stratum\tsource\tdf\nU\tU\t1\nU\t=total\t1\n=all\t=total\t1\n"))

    def test_convert(self):
        old = b"p:Hut\tt:Gain\tp:Pier/Hut\tp:Sensor/Pier\n7\t4294967295\t1\t1\n3\t1\t1\t1\n7\t1\t2\t1\n7\t1\t1\t1\n"
        new = b"p:Hut\tt:Gain\tp:Pier\tp:Sensor\n7\t4294967295\t1\t1\n3\t1\t2\t2\n7\t1\t3\t3\n7\t1\t1\t1\n"
        self.assertEqual(library.convert(old), (0, new))
        self.assertEqual(library.convert(new), (0, new))
        self.assertEqual(library.read_sheet(old)[0], 3)

    def test_convert_refusals(self):
        for text, number in [
            (b"", 2), (b"x" * 32769, 2), (b"p:Hut\tt:Gain/Hut\n1\t1\n", 3), (b"p:Pier/Hut\n0\n", 4), (b"p:Pier/Hut\n", 5),
            (b"p:Pier/Hut\n1\n", 23), (b"p:Pier/Hut\tp:Hut\n1\t1\n", 23), (b"t:Hut\tp:Pier/Hut\n1\t1\n", 23),
        ]:
            self.assertEqual(library.convert(text), (number, b""))

    def test_formula(self):
        for text, titles, columns in [
            (b"Hut=3", b"p:Hut", ["123"]),
            (b"Hut=2/Pier=2", b"p:Hut\tp:Pier", ["1122", "1234"]),
            (b"Hut=2*Week=3", b"p:Hut\tp:Week", ["111222", "123123"]),
            (b"Hut=2/(Pier=2*Week=2)", b"p:Hut\tp:Pier\tp:Week", ["11112222", "11223344", "12123434"]),
            (b"(Hut=2*Week=2)/Pier=2", b"p:Hut\tp:Week\tp:Pier", ["11112222", "11221122", "12345678"]),
            (b"(Hut=2/Pier=2)*Week=2", b"p:Hut\tp:Pier\tp:Week", ["11112222", "11223344", "12121212"]),
            (b"(" * 126 + b"Aa=2" + b")" * 126, b"p:Aa", ["12"]),
        ]:
            rows = b"".join("\t".join(row).encode() + b"\n" for row in zip(*columns))
            self.assertEqual(library.formula(text), (0, titles + b"\n" + rows))

    def test_formula_refusals(self):
        seven = b"/".join(b"%c%c=2" % (letter, letter) for letter in b"abcdefg")
        for text, number in [
            (b"", 17), (b"(" * 126 + b"Aaa=2" + b")" * 126, 17), (b"Aa=2\n", 17), (b"Aa = 2", 17), (b"A=2", 17), (b"Aa=1", 17),
            (b"Aa=241", 17), (b"Aa=02", 17), (b"Aa=2/Aa=2", 17), (b"Aa=2*Bb=2/Cc=2", 17), (b"(Aa=2", 17), (seven + b"/", 17),
            (b"Aa=240*Bb=241", 17), (seven, 18), (b"Aa=121*Bb=2", 18), (b"Aa=240*Bb=240", 18),
        ]:
            self.assertEqual(library.formula(text), (number, b""))

    def test_bytes_with_a_zero_in_them(self):
        self.assertEqual(library.skeleton(b"p:Hut\n1\0\n"), (0, b"refused\t4\t-\t-\n"))
        self.assertEqual(library.formula(b"Hut=2\0"), (17, b""))


class Header(unittest.TestCase):
    """The declarations here are those of the header."""

    with open(os.path.join(ROOT, "include", "rachdoum.h"), encoding="utf-8") as file:
        text = file.read()

    def test_every_entry_is_declared(self):
        self.assertEqual(set(re.findall(r"uint32_t rachdoum_(\w+)\(", self.text)), set(library._SIGNATURES))

    def test_limits(self):
        own = {
            "PLOTS": library.PLOTS, "COLUMNS": library.COLUMNS, "INTERACTION": library.INTERACTIONS, "MEMBERS": library.MEMBERS,
            "TEXT": library.TEXT_BYTES, "LEVELS": library.LEVEL_CELLS, "FAMILY": library.FAMILY_BYTES, "NAME": library.NAME_BYTES,
            "TABLE": library.TABLE_BYTES, "SHEET": library.SHEET_BYTES, "FORMULA": library.FORMULA_BYTES,
        }
        for name, number in re.findall(r"#define RACHDOUM_(\w+) (\d+)", self.text):
            self.assertEqual((name, int(number)), (name, own[name]))

    def test_how_factors_stand(self):
        names = re.findall(r"  RACHDOUM_(\w+) = (\d+)", self.text.split("enum rachdoum_comparison {")[1].split("}")[0])
        self.assertEqual([int(number) for _, number in names], [1, 2, 3, 4, 5])
        for name, number in names:
            self.assertEqual((name, int(number)), (name, getattr(library, name)))

    def test_width_of_a_level(self):
        bits = 8 * ctypes.sizeof(library.LEVEL)
        self.assertRegex(self.text, rf"typedef uint{bits}_t rachdoum_level;|uint{bits}_t \*levels")


class Finding(unittest.TestCase):
    def find(self, value):
        with mock.patch.dict(os.environ, {library.LIBRARY_VARIABLE: value}), mock.patch.object(library, "_loaded", None):
            return library.load()

    def test_missing_library(self):
        with self.assertRaisesRegex(library.LibraryMissing, "RACHDOUM_LIBRARY names /nowhere.so, and there is no such file"):
            self.find("/nowhere.so")

    def test_wrong_library(self):
        with self.assertRaisesRegex(library.LibraryMissing, "is not the planner's library .*: run ./plan"):
            self.find(__file__)

    def test_not_built(self):
        with mock.patch.object(library, "library_paths", lambda: ["/nowhere.so"]), mock.patch.dict(os.environ):
            os.environ.pop(library.LIBRARY_VARIABLE, None)
            with self.assertRaisesRegex(library.LibraryMissing, "not built yet: run ./plan"):
                library._find()

    def test_order(self):
        with mock.patch.dict(os.environ):
            os.environ.pop(library.LIBRARY_VARIABLE, None)
            package = os.path.dirname(os.path.abspath(library.__file__))
            beside, built = library.library_paths()
            self.assertEqual(beside, os.path.join(package, "librachdoum.so"))
            self.assertEqual(built, os.path.join(os.path.dirname(os.path.dirname(package)), "target", "librachdoum.so"))


if __name__ == "__main__":
    unittest.main()
