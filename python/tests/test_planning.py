"""Plans as objects, and each entry for tables as users have them."""
import glob
import os
import unittest

import rachdoum
from rachdoum import Family, Refusal
from rachdoum.nesting import starting_again
from support import EXAMPLES, design

HUTS = {
    "p:Hut": [1, 1, 1, 2, 2, 2, 3, 3, 3, 4, 4, 4],
    "t:Filter": ["b"] * 3 + ["a"] * 6 + ["b"] * 3,
    "t:Gain": [20, 30, 10, 10, 30, 20, 30, 20, 10, 20, 10, 30],
}


class Plans(unittest.TestCase):
    def test_huts(self):
        plan = rachdoum.plan(HUTS)
        self.assertEqual([(s.name, s.degrees, s.residual) for s in plan.strata], [("U", 1, 0), ("Hut", 3, 2), ("E", 8, 4)])
        self.assertEqual([(s.name, s.stratum, s.degrees, s.against, s.testable) for s in plan.sources], [
            ("U", "U", 1, 0, False), ("Filter", "Hut", 1, 2, True), ("Gain", "E", 2, 4, True), ("I(Filter,Gain)", "E", 2, 4, True),
        ])
        self.assertEqual([(m.name, m.classes, m.above) for m in plan.plot_family], [("U", 1, ()), ("Hut", 4, ("U",)), ("E", 12, ("Hut",))])
        with open(os.path.join(EXAMPLES, "huts.table")) as file:
            self.assertEqual(plan.tsv(), file.read())

    def test_every_accepted_example(self):
        for path in sorted(glob.glob(os.path.join(EXAMPLES, "*.sheet"))):
            with open(path[: -len("sheet")] + "table") as file:
                expected = file.read()
            with self.subTest(os.path.basename(path)):
                self.assertEqual(rachdoum.skeleton(rachdoum.read_file(path)), expected)
                if not expected.startswith("refused"):
                    self.assertEqual(rachdoum.plan(rachdoum.read_file(path)).tsv(), expected)

    def test_a_path(self):
        path = os.path.join(EXAMPLES, "huts.sheet")
        self.assertEqual(rachdoum.plan(path), rachdoum.plan(HUTS))
        self.assertTrue(str(rachdoum.plan(path)).startswith("stratum  source"))

    def test_unknown_names(self):
        plan = rachdoum.plan(HUTS)
        with self.assertRaisesRegex(KeyError, "there is no source 'Cable'; there are U, Filter, Gain"):
            plan.source("Cable")
        with self.assertRaisesRegex(KeyError, "there is no stratum 'Week'; there are U, Hut, E"):
            plan.stratum("Week")

    def test_fewer_combinations(self):
        self.assertEqual([s.name for s in rachdoum.plan(HUTS, k=1).sources], ["U", "Filter", "Gain"])

    def test_names_as_the_user_has_them(self):
        plan = rachdoum.plan({"p:A": [1, 1, 2, 2], "t:Gain but longer": [1, 2, 1, 2]})
        self.assertEqual([s.name for s in plan.strata], ["U", "A", "E"])
        self.assertEqual(plan.source("Gain but longer").stratum, "E")

    def test_names_of_what_columns_share(self):
        plan = rachdoum.plan({"p:Pier no.": [1, 1, 2, 2, 3, 3, 4, 4], "t:Sensor": [1, 2, 1, 2, 3, 4, 3, 4]})
        self.assertEqual([s.name for s in plan.sources], ["U", "S(Pier no.,Sensor)", "Sensor"])
        self.assertEqual(plan.source("S(Pier no.,Sensor)").test, "2 df of Pier no.")
        plan = rachdoum.plan({"p:Hut": [1, 1, 1, 1, 2, 2, 2, 2], "t:Sensor": [1, 1, 2, 2, 3, 3, 4, 4]})
        self.assertEqual([s.name for s in plan.sources], ["U", "S(Hut)", "Sensor"])
        self.assertEqual(plan.source("S(Hut)").test, "cannot be tested: Hut has no residual")
        plan = rachdoum.plan({"p:Row": [1, 1, 1, 1, 2, 2, 2, 2], "p:Column": [1, 1, 2, 2, 1, 1, 2, 2], "t:Sensor": list(range(1, 9))})
        self.assertEqual([s.name for s in plan.strata], ["U", "Row", "Column", "I(Row,Column)", "E"])
        self.assertEqual([s.name for s in plan.sources], ["U", "S(Row)", "S(Column)", "#4", "E"])

    def test_degrees_of_freedom_add_up(self):
        accepted = 0
        for seed in range(1, 200):
            titles, rows = design(seed)
            try:
                plan = rachdoum.plan([titles] + rows)
            except Refusal:
                continue
            accepted += 1
            self.assertEqual(sum(stratum.degrees for stratum in plan.strata), len(rows))
            for stratum in plan.strata:
                self.assertEqual(stratum.degrees, stratum.residual + sum(source.degrees for source in stratum.sources))
        self.assertGreater(accepted, 50)

    def test_every_other_reading_is_accepted(self):
        noted = 0
        for seed in range(1, 400):
            titles, rows = design(seed)
            try:
                plan = rachdoum.plan([titles] + rows)
            except Refusal:
                continue
            pairs = starting_again(plan.table)
            notes = rachdoum.notes_on(plan)
            self.assertEqual([(note.child, note.parent) for note in notes], pairs)
            for note in notes:
                if note.other:
                    noted += 1
                    again = rachdoum.plan([titles] + rows, nested=f"{note.child}/{note.parent}")
                    self.assertEqual(note.other.tsv(), again.tsv())
        self.assertGreater(noted, 20)


class Refusals(unittest.TestCase):
    def refusal(self, *arguments, **options):
        with self.assertRaises(Refusal) as caught:
            rachdoum.plan(*arguments, **options)
        return caught.exception

    def test_what_it_carries(self):
        refusal = self.refusal({"p:Hut": [1, 1, 1, 2, 2, 2], "t:Gain": [1, 1, 2, 1, 2, 2]})
        self.assertEqual((refusal.number, refusal.places, refusal.names), (13, (2, 2), ("Hut", "Gain")))
        self.assertEqual(refusal.what, "Hut 1 has 2 of the 3 plots with Gain 1, but 1 of the 3 with Gain 2.")
        self.assertTrue(refusal.remedy.startswith("give each level of Hut the same share"))
        self.assertIn("refused (13)", str(refusal))

    def test_where_it_stands(self):
        refusal = self.refusal("p:Hut,t:Gain\n1,1\n1,0\n")
        self.assertEqual((refusal.number, refusal.line, refusal.column), (4, 3, "Gain"))
        refusal = self.refusal([["p:Hut", "t:Gain"], [1, 1], [1, None]])
        self.assertEqual((refusal.number, refusal.line, refusal.what), (4, None, "plot 2, Gain: there is no level."))

    def test_where_titles_and_rows_of_a_caller_are_wrong(self):
        refusal = self.refusal({"p:Hut": [1], "Gain": [1]})
        self.assertEqual((refusal.number, refusal.line, refusal.column), (3, None, "Gain"))
        self.assertEqual(refusal.what, "column 2: `Gain` is not marked as a plot column or a treatment.")
        refusal = self.refusal([["p:Hut", "t:Gain"], [1, 1], [1]])
        self.assertEqual((refusal.number, refusal.what), (4, "plot 2 has 1 field, there are 2 columns."))

    def test_names_as_the_user_has_them(self):
        refusal = self.refusal({"p:Hut number": ["x", "x", "y"], "t:Gain": [1, 1, 1]})
        self.assertEqual((refusal.number, refusal.names), (9, ("Hut number",)))
        self.assertEqual(refusal.what, "Hut number x has 2 plots, Hut number y has 1.")

    def test_a_grouping_that_columns_share(self):
        refusal = self.refusal({"p:Hut": [1, 1, 2, 2, 3, 3], "p:Week no.": [1, 2, 1, 2, 3, 3]})
        self.assertEqual((refusal.number, refusal.names), (9, ("S(Hut,Week no.)",)))
        self.assertEqual(
            refusal.what,
            "the class of S(Hut,Week no.) with plots 1, 2, 3, 4 has 4 plots, the class of S(Hut,Week no.) with plots 5, 6 has 2.",
        )
        self.assertIn("give all classes of S(Hut,Week no.) the same number of plots", refusal.remedy)

    def test_a_treatment_that_is_a_plot_column(self):
        # What Gain and Cable share is the huts.
        table = {"p:Hut": [1] * 4 + [2] * 4, "t:Gain": [1, 1, 2, 2, 3, 3, 4, 4], "t:Cable": [1, 2, 1, 2, 3, 4, 3, 4]}
        refusal = self.refusal({**table, "t:Filter": [1, 1, 1, 2, 1, 2, 2, 2]})
        self.assertEqual((refusal.number, refusal.names), (12, ("S(Hut)", "Filter")))
        self.assertEqual(refusal.what, "Hut 1 has 3 of the 4 plots with Filter 1, but 1 of the 4 with Filter 2.")

    def test_a_grouping_without_a_name(self):
        # What the combinations of Aa and Cc share with Bb.
        refusal = self.refusal({"p:Aa": [1, 1, 1, 2, 2, 2], "p:Bb": [1, 2, 2, 3, 3, 1], "p:Cc": [1, 2, 2, 2, 1, 1]})
        self.assertEqual((refusal.number, refusal.names), (9, ("#3",)))
        self.assertEqual(
            refusal.what, "the class of #3 with plots 1, 4, 5, 6 has 4 plots, the class of #3 with plots 2, 3 has 2."
        )

    def test_k(self):
        for k in (0, 7, -1):
            refusal = self.refusal({"p:Hut": [1, 2]}, k=k)
            self.assertEqual((refusal.number, refusal.what, refusal.remedy), (6, f"k is {k}.", "k is from 1 to 6."))

    def test_a_nested_level_in_a_message(self):
        table = [["p:Hut", "p:Pier"]] + [[1, 1], [1, 1], [1, 2], [2, 1], [2, 2], [2, 2]]
        refusal = self.refusal(table, nested="Pier/Hut")
        self.assertEqual(refusal.what, "Pier 1 in Hut 1 has 2 plots, Pier 2 in Hut 1 has 1.")
        refusal = self.refusal([["p:Hut", "p:Pier/Hut"]] + table[1:])
        self.assertEqual(refusal.what, "Pier 1 in Hut 1 has 2 plots, Pier 2 in Hut 1 has 1.")

    def test_a_wrong_parent(self):
        table = {"p:Pier/Hut": [1, 1], "p:Hut": [1, 2]}
        refusal = self.refusal(table)
        self.assertEqual((refusal.number, refusal.places, refusal.names, refusal.line, refusal.column), (23, (0, 0), (), None, "Pier"))
        self.assertEqual(refusal.what, "column 1: `Pier/Hut` is numbered anew in Hut, which stands to its right.")
        self.assertEqual(refusal.tsv(), "refused\t23\t-\t-\n")
        self.assertEqual(rachdoum.skeleton(table), "refused\t23\t-\t-\n")


class Entries(unittest.TestCase):
    def test_families_in_and_out(self):
        first, second = rachdoum.full_design(HUTS)
        self.assertEqual((first.names, second.names), (("U", "Hut", "E"), ("U", "Filter", "Gain", "I(Filter,Gain)")))
        self.assertEqual(first.members[1], (1, 1, 1, 2, 2, 2, 3, 3, 3, 4, 4, 4))
        self.assertEqual(rachdoum.degrees(second), (1, 1, 2, 2))
        self.assertEqual(rachdoum.strata(first, second), ((1, 2, 3, 3), (0, 2, 4)))
        self.assertEqual(rachdoum.relation(second).coarser, ((), (1,), (1,), (1, 2, 3)))
        self.assertEqual(rachdoum.relation(second).above, ((), (1,), (1,), (2, 3)))
        self.assertEqual([rachdoum.name(HUTS, second, place, treatment=True) for place in (1, 2, 3, 4)], list(second.names))

    def test_refused_families(self):
        for family in (Family(2, ()), Family(2, ((2, 1),)), Family(2, ((1, 2), (1, 1))), Family(2, ((1, 2),) * 33)):
            with self.assertRaises(Refusal) as caught:
                rachdoum.degrees(family)
            self.assertEqual(caught.exception.number, 15)
        with self.assertRaises(Refusal) as caught:
            rachdoum.strata(Family(2, ((1, 1),)), Family(2, ((1, 2),)))
        self.assertEqual(caught.exception.number, 16)
        with self.assertRaises(Refusal) as caught:
            rachdoum.name(HUTS, rachdoum.plot_design(HUTS), 4)
        self.assertEqual(caught.exception.number, 6)

    def test_the_plot_design_alone(self):
        table = {"p:Hut": [1, 1, 2, 2], "t:Gain": [1, 2, 1, 1]}
        self.assertEqual(rachdoum.plot_design(table).names, ("U", "Hut", "E"))
        with self.assertRaises(Refusal) as caught:
            rachdoum.plot_design({"p:Hut": [1, 1, 2], "t:Gain": [1, 2, 1]})
        self.assertEqual((caught.exception.number, caught.exception.names), (9, ("Hut",)))

    def test_convert(self):
        table = {"p:Hut": [7, 7, 3, 3], "p:Pier/Hut": ["a", "b", "a", "a"], "t:Gain": [10, 20, 20, 10]}
        self.assertEqual(rachdoum.convert(table), "p:Hut\tp:Pier\tt:Gain\n7\t1\t10\n7\t2\t20\n3\t3\t20\n3\t3\t10\n")
        nested = {"p:Hut": [7, 7, 3, 3], "p:Pier": [1, 2, 1, 1]}
        self.assertEqual(rachdoum.convert(nested, nested="Pier/Hut"), "p:Hut\tp:Pier\n7\t1\n7\t2\n3\t3\n3\t3\n")
        for wrong, number in (({}, 2), ({"p:A": [1]}, 3), ({"p:Hut": [0]}, 4), ({"p:Hut": []}, 5), ({"p:Pier/Hut": [1]}, 23)):
            with self.assertRaises(Refusal) as caught:
                rachdoum.convert(wrong)
            self.assertEqual(caught.exception.number, number)

    def test_formula(self):
        sheet = "p:Hut\tp:Pier\n1\t1\n1\t2\n2\t3\n2\t4\n"
        for text in ("Hut=2/Pier=2", " Hut = 2 /\tPier = 2\n", "(Hut=2)/( Pier=2 )"):
            self.assertEqual(rachdoum.formula(text), sheet)
        for text, number in (("", 17), ("Hut 1=2", 17), ("Hut=1 2", 17), ("Hütte=2", 17), ("Hut=2\0", 17), ("Hut=12/Pier=24", 18)):
            with self.assertRaises(Refusal) as caught:
                rachdoum.formula(text)
            refusal = caught.exception
            self.assertEqual((refusal.number, refusal.source, refusal.tsv()), (number, "the formula", f"refused\t{number}\t-\t-\n"))

    def test_the_plan_of_a_formula(self):
        plan = rachdoum.plan(rachdoum.formula("(Row=3*Column=3)/Sub=2"))
        self.assertEqual([(s.name, s.degrees) for s in plan.strata], [("U", 1), ("Row", 2), ("Column", 2), ("I(Row,Column)", 4), ("E", 9)])
        source = rachdoum.plan(rachdoum.formula("Block=4*Gain=3"), treatments="Gain").source("Gain")
        self.assertEqual((source.stratum, source.degrees, source.against), ("E", 2, 6))

    def test_levels(self):
        levels = rachdoum.read_sheet({"Hut": ["n", "s"], "Gain": [5, 5]}, plots=["Hut"], treatments=["Gain"])
        self.assertEqual((levels.plots, levels.plot_columns, levels.treatment_columns), (2, ((1, 2),), ((1, 1),)))


class Comparisons(unittest.TestCase):
    """How two factors stand. The answers follow from the definition, with the numbers of plots in the comments."""

    TRIAL = {
        "p:Hut": [1, 1, 1, 1, 2, 2, 2, 2], "p:Pier": [1, 1, 2, 2, 3, 3, 4, 4], "p:Week": [1, 2, 1, 2, 1, 2, 1, 2],
        "t:Sensor": ["a", "a", "b", "b", "c", "c", "d", "d"], "t:Gain": [1, 1, 1, 2, 1, 2, 2, 2],
    }
    # Aa with Cc tells b0 and b2 of the plot's number apart, Bb b1 and b2: they share b2. Xx with Yy and Bb share b1.
    HASH = {
        "p:Aa": [1, 2, 1, 2, 2, 1, 2, 1], "p:Bb": [1, 1, 2, 2, 3, 3, 4, 4], "p:Cc": [1, 2] * 4,
        "t:Xx": [1, 2, 2, 1] * 2, "t:Yy": [1, 2] * 4,
    }

    def answers(self, table, expected, **options):
        for first, second, answer in expected:
            with self.subTest(f"{first} {second}"):
                found = rachdoum.compare(table, first, second, **options)
                self.assertEqual((found.answer, found.first, found.second), (answer, first, second))

    def test_columns_of_a_refused_design(self):
        with self.assertRaises(Refusal) as caught:
            rachdoum.plan(self.TRIAL)
        self.assertEqual(caught.exception.number, 12)
        self.answers(self.TRIAL, [
            ("Pier", "Sensor", "equivalent"), ("Sensor", "Pier", "equivalent"), ("Gain", "Gain", "equivalent"),
            ("Pier", "Hut", "finer"), ("E", "Gain", "finer"), ("Gain", "U", "finer"), ("Sensor", "Hut", "finer"),
            ("Hut", "Pier", "coarser"), ("U", "E", "coarser"), ("Hut", "Sensor", "coarser"),
            # 2 x 8 = 4 x 4; 1 x 8 = 2 x 4
            ("Hut", "Week", "orthogonal"), ("Week", "Pier", "orthogonal"), ("Sensor", "Week", "orthogonal"),
            # 3 x 8 and 4 x 4; 2 x 8 and 2 x 4; 3 x 8 and 4 x 4
            ("Hut", "Gain", "not orthogonal"), ("Gain", "Pier", "not orthogonal"), ("Week", "Gain", "not orthogonal"),
        ])

    def test_members_of_a_refused_design(self):
        # 12 leaves the plot family and the first treatment family.
        self.answers(self.TRIAL, [
            ("I(Hut,Week)", "Hut", "finer"), ("Week", "I(Hut,Week)", "coarser"), ("I(Hut,Week)", "Pier", "orthogonal"),
            ("I(Sensor,Gain)", "Gain", "finer"), ("I(Hut,Week)", "Gain", "not orthogonal"),
        ])

    def test_what_columns_share(self):
        table = {"p:Pier": [1, 1, 2, 2, 3, 3, 4, 4], "t:Sensor": [1, 2, 1, 2, 3, 4, 3, 4]}
        self.answers(table, [
            ("Pier", "S(Pier,Sensor)", "finer"), ("S(Pier,Sensor)", "E", "coarser"), ("Pier", "Sensor", "orthogonal"),
        ])
        table = {"p:Hut": [1, 1, 1, 1, 2, 2, 2, 2], "t:Gain": [1, 1, 2, 2, 3, 3, 4, 4], "t:Cable": [1, 2, 1, 2, 3, 4, 3, 4]}
        self.answers(table, [("S(Hut)", "Hut", "equivalent"), ("S(Hut)", "Gain", "coarser")])

    def test_places(self):
        self.answers(self.HASH, [
            ("p:#2", "t:#2", "orthogonal"), ("p:#2", "p:#2", "equivalent"), ("p:#2", "Bb", "coarser"), ("I(Xx,Yy)", "t:#2", "finer"),
        ])
        with self.assertRaisesRegex(rachdoum.WrongCall, "'#2' is a grouping of the plots and another of the treatments: write p:#2 or t:#2"):
            rachdoum.compare(self.HASH, "#2", "Bb")
        text = rachdoum.compare(self.HASH, "t:#2", "Bb").text
        self.assertTrue(text.startswith("t:#2 is coarser than Bb: plots with the same level of Bb always have the same class of t:#2,"), text)
        table = {"p:Aa": [1, 1, 1, 2, 2, 2], "p:Bb": [1, 2, 2, 3, 3, 1], "p:Cc": [1, 2, 2, 2, 1, 1]}
        self.answers(table, [("#3", "Bb", "coarser"), ("#3", "p:#3", "equivalent"), ("Aa", "#3", "not orthogonal")])

    def test_marks_and_blanks(self):
        found = rachdoum.compare(self.TRIAL, " p:Pier ", "I(Hut, Week)")
        self.assertEqual((found.first, found.second, found.answer), ("Pier", "I(Hut,Week)", "orthogonal"))
        with self.assertRaisesRegex(rachdoum.WrongCall, "there is no factor 't:Pier'"):
            rachdoum.compare(self.TRIAL, "t:Pier", "Hut")

    def test_names_as_the_user_has_them(self):
        table = {"Gain setting": [1, 2, 1, 2], "A": ["x", "x", "y", "y"], "Größe": [1, 2, 3, 4]}
        options = {"plots": ["A"], "treatments": ["Gain setting", "Größe"]}
        self.answers(table, [("Größe", "E", "equivalent"), ("A", "Gain setting", "orthogonal"), ("A", "Größe", "coarser")], **options)
        self.assertEqual(
            rachdoum.compare(table, "A", "Größe", **options).text,
            "A is coarser than Größe: plots with the same level of Größe always have the same level of A, but not the other way round.",
        )

    def test_nested_columns(self):
        piers = {"p:Hut": [1, 1, 2, 2], "p:Pier": [1, 2, 1, 2]}
        self.answers(piers, [("Pier", "Hut", "orthogonal")])
        self.answers(piers, [("Pier", "Hut", "finer"), ("Pier", "E", "equivalent")], nested="Pier/Hut")
        self.answers({"p:Hut": [1, 1, 2, 2], "p:Pier/Hut": [1, 2, 1, 2]}, [("Pier", "Hut", "finer")])

    def test_one_plot(self):
        self.answers({"p:Hut": [1]}, [("Hut", "U", "equivalent"), ("U", "E", "equivalent")])

    def test_few_combinations(self):
        columns = {f"t:{name}": [plot >> i & 1 for plot in range(64)] for i, name in enumerate(("Aa", "Bb", "Cc", "Dd", "Ee", "Ff"))}
        labelled = {name: [level + 1 for level in column] for name, column in columns.items()}
        self.answers(labelled, [("Aa", "Bb", "orthogonal"), ("Aa", "E", "coarser")])
        with self.assertRaisesRegex(rachdoum.WrongCall, r"there is no factor 'I\(Aa,Bb\)': .*; its design is refused \(11\)"):
            rachdoum.compare(labelled, "I(Aa,Bb)", "Aa")
        self.answers(labelled, [("I(Aa,Bb)", "Aa", "finer")], k=2)

    def test_unknown_names(self):
        for names in (("Cable", "Hut"), ("I(Hut,Gain)", "Hut"), ("#9", "Hut")):
            message = f"there is no factor {names[0]!r}: the table has Hut, Filter, Gain, U, E, I(Filter,Gain)"
            for first, second in (names, names[::-1]):
                with self.assertRaises(rachdoum.WrongCall) as caught:
                    rachdoum.compare(HUTS, first, second)
                self.assertEqual(str(caught.exception), message)

    def test_refusals_of_the_table(self):
        for table, number in (({}, 2), ({"Hut": [1]}, 3), ({"p:Hut": [0]}, 4), ({"p:Hut": []}, 5), ({"p:Pier/Hut": [1]}, 23)):
            with self.assertRaises(Refusal) as caught:
                rachdoum.compare(table, "Hut", "Hat")
            self.assertEqual(caught.exception.number, number)


if __name__ == "__main__":
    unittest.main()
