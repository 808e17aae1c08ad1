"""Random designs: the command's tables are the library's, and those of the second implementation.

RACHDOUM_REFERENCE names the second implementation's program; RACHDOUM_DESIGNS how many designs are tried, RACHDOUM_SEED the first.
"""
import ctypes
import json
import os
import random
import re
import subprocess
import unittest

from rachdoum import library
from rachdoum.formulas import fault
from rachdoum.groupings import uneven
from support import design, formula, run, sheet_bytes, with_parents

DESIGNS = int(os.environ.get("RACHDOUM_DESIGNS", "2000"))
SEED = int(os.environ.get("RACHDOUM_SEED", "1"))
REFERENCE = os.environ.get("RACHDOUM_REFERENCE")


def direct(text, name="skeleton"):
    """What an entry prints, called with a declaration and memory of this test's own; for a refusal the line of it."""
    entry = getattr(ctypes.CDLL(library._find()), f"rachdoum_{name}")
    entry.restype = ctypes.c_uint32
    out, length = (ctypes.c_ubyte * 32768)(), (ctypes.c_uint64 * 1)()
    number = entry(ctypes.c_char_p(text), ctypes.c_size_t(len(text)), out, ctypes.c_size_t(32768), length)
    return b"refused\t%d\t-\t-\n" % number if number else bytes(out)[: length[0]]


def second_source(text, name="skeleton"):
    return subprocess.run([REFERENCE, "--fast", name], input=text, stdout=subprocess.PIPE, check=True).stdout


def as_csv(titles, rows):
    """The same design as a spreadsheet saves it: texts as levels, commas, Windows line ends, no last line end."""
    lines = [",".join(titles)] + [", ".join(f"level {field}" for field in row) for row in rows]
    return "\r\n".join(lines).encode("utf-8")


def lines_of_aligned(text):
    """The aligned table read back: stratum, source and degrees of freedom of each line."""
    lines, stratum = [], ""
    for line in text.decode("utf-8").splitlines()[1:]:
        parts = line.split()
        if not line.startswith(" "):
            stratum, parts = parts[0], parts[1:]
        lines.append((stratum, parts[0], parts[1]))
    return lines


def lines_of_tsv(text):
    fields = [tuple(line.split("\t")) for line in text.decode("ascii").splitlines()[1:]]
    return [tuple(field.lstrip("=") for field in line) for line in fields]


def lines_of_json(document):
    lines = []
    for stratum in document["strata"]:
        lines += [(stratum["name"], source["name"], str(source["df"])) for source in stratum["sources"]]
        if stratum["sources"] and stratum["residual"]:
            lines.append((stratum["name"], "residual", str(stratum["residual"])))
        lines.append((stratum["name"], "total", str(stratum["df"])))
    return lines + [("all", "total", str(document["plots"]))]


class RandomDesigns(unittest.TestCase):
    def check(self, seed):
        titles, rows = design(seed)
        text = sheet_bytes(titles, rows)
        expected = direct(text)
        if REFERENCE:
            self.assertEqual(second_source(text), expected, "the library and the second implementation differ")
        refused = expected.startswith(b"refused")
        for data in (text, as_csv(titles, rows)):
            status, out, err = run("plan", "--tsv", "--quiet", "-", data=data)
            self.assertEqual((status, out), (int(refused), expected))
        status, out, err = run("plan", "-", "--quiet", data=text)
        if refused:
            number = expected.split(b"\t")[1].decode()
            self.assertEqual((status, out), (1, b""))
            self.assertTrue(err.startswith(f"rachdoum: standard input: refused ({number}): "), err)
            self.try_remedy(text, err)
        else:
            self.assertEqual(lines_of_aligned(out), lines_of_tsv(expected))
            whole = json.loads(run("plan", "-", "--json", "--quiet", data=text)[1])
            self.assertEqual(lines_of_json(whole), lines_of_tsv(expected))
        return refused

    def try_remedy(self, text, err):
        """What a remedy says to add does give a table."""
        options = [part for pair in re.findall(r"(--nested) ([^ ,]+)", err) for part in pair]
        options += [part for pair in re.findall(r"(--k) (\d)", err) for part in pair]
        if options:
            self.tried += 1
            self.assertEqual(run("plan", "-", "--quiet", *options, data=text)[0], 0, err)

    def test_designs(self):
        refused = self.tried = 0
        for seed in range(SEED, SEED + DESIGNS):
            with self.subTest(seed=seed):
                refused += self.check(seed)
        self.assertGreaterEqual(self.tried, DESIGNS // 100)
        self.assertGreater(refused, DESIGNS // 10)
        self.assertGreater(DESIGNS - refused, DESIGNS // 10)


class RandomParents(unittest.TestCase):
    """Random designs with parents in the first line: the command prints the table of the converted sheet, and that sheet."""

    def check(self, seed):
        titles, rows = design(seed)
        titles = with_parents(seed, titles)
        text = sheet_bytes(titles, rows)
        sheet = direct(text, "convert")
        if REFERENCE:
            self.assertEqual(second_source(text, "convert"), sheet, "the library and the second implementation differ")
        refused = sheet.startswith(b"refused")
        expected = sheet if refused else direct(sheet)
        for data in (text, as_csv(titles, rows)):
            status, out, err = run("plan", "--tsv", "--quiet", "-", data=data)
            self.assertEqual((status, out), (int(expected.startswith(b"refused")), expected), err)
        self.assertEqual(run("convert", "-", data=text)[:2], (1, b"") if refused else (0, sheet))
        return refused, "/" in "".join(titles)

    def test_designs(self):
        seen = [self.check(seed) for seed in range(SEED, SEED + max(DESIGNS // 4, 50))]
        self.assertGreater(sum(refused for refused, _ in seen), len(seen) // 50)
        self.assertGreater(sum(parents and not refused for refused, parents in seen), len(seen) // 8)


class RandomFormulas(unittest.TestCase):
    """Random formulas: the command prints the sheet and its table, which is refused by 8 or not at all, and finds what is wrong."""

    def check(self, seed):
        text = formula(seed)
        sheet = direct(text.encode(), "formula")
        if REFERENCE:
            self.assertEqual(second_source(text.encode(), "formula"), sheet, "the library and the second implementation differ")
        self.assertEqual(fault(text) is None, sheet != b"refused\t17\t-\t-\n", text)
        refused = sheet.startswith(b"refused")
        expected = sheet if refused else direct(sheet)
        spaced = re.sub("([=/*()])", r"  \1 ", text)
        if " " not in text:
            self.assertEqual(run("formula", "--", spaced)[:2], (1, b"") if refused else (0, sheet), text)
            status, out, err = run("plan", "--tsv", f"--formula={text}")
            self.assertEqual((status, out), (int(expected.startswith(b"refused")), expected), err)
        if not refused and expected.startswith(b"refused"):
            self.assertEqual((expected, text.count("=")), (b"refused\t8\t-\t-\n", library.COLUMNS), text)
        return expected.split(b"\t")[1] if expected.startswith(b"refused") else b""

    def test_formulas(self):
        seen = [self.check(seed) for seed in range(SEED, SEED + max(DESIGNS // 2, 200))]
        for number, least in ((b"", 4), (b"17", 10), (b"18", 20), (b"8", 200)):
            self.assertGreaterEqual(seen.count(number), len(seen) // least, number)


def orthogonal(first, second):
    """The rules' own words: in each class K of the supremum, |A and B| x |K| = |A| x |B|."""
    plots = range(len(first))
    reach = [{other for other in plots if first[other] == first[plot] or second[other] == second[plot]} for plot in plots]
    for _ in plots:
        reach = [set().union(*(reach[other] for other in near)) for near in reach]
    for whole in reach:
        for a in {first[plot] for plot in whole}:
            for b in {second[plot] for plot in whole}:
                both = sum(first[p] == a and second[p] == b for p in plots)
                if both * len(whole) != first.count(a) * second.count(b):
                    return False
    return True


def stands(first, second):
    """How the first of two columns stands to the second, by the rules' own words."""
    plots = range(len(first))
    below, above = (
        all(two[a] == two[b] for a in plots for b in plots if one[a] == one[b]) for one, two in ((first, second), (second, first))
    )
    if below or above:
        return "equivalent" if below and above else "finer" if below else "coarser"
    return "orthogonal" if orthogonal(first, second) else "not orthogonal"


class RandomComparisons(unittest.TestCase):
    """Two factors stand as the rules say: columns, whatever becomes of the design, members of a family as its relation has it, and
    the two names of a refusal."""

    def compared(self, text, first, second):
        status, out, err = run("compare", "--tsv", "-", first, second, data=text)
        self.assertEqual((status, err), (0, ""))
        heading, *names, answer = out.decode("ascii").rstrip("\n").split("\t")
        self.assertEqual((heading, names), ("compared", [first, second]))
        return answer

    def check(self, chance, seed):
        titles, rows = design(seed)
        text, columns = sheet_bytes(titles, rows), list(zip(*rows))
        if len(rows) <= 36:
            a, b = (chance.randrange(len(titles)) for _ in range(2))
            answer = self.compared(text, titles[a][2:], titles[b][2:])
            self.assertEqual(answer, stands(columns[a], columns[b]))
            self.seen[answer] = self.seen.get(answer, 0) + 1
        printed = direct(text).decode("ascii")
        if printed.startswith(("refused\t10", "refused\t12", "refused\t13")):
            names = printed.split()[2:]
            marks = {"10": "pp", "12": "tt", "13": "pt"}[printed.split()[1]]
            names = [f"{mark}:{name}" if name.startswith("#") else name for mark, name in zip(marks, names)]
            self.assertEqual(self.compared(text, *names), "not orthogonal")
        elif not printed.startswith("refused"):
            whole = json.loads(run("plan", "-", "--json", "--quiet", data=text)[1])
            first, second = (chance.choice(whole["plot_family"]) for _ in range(2))
            expected = "equivalent" if first == second else "finer" if second["name"] in first["coarser"] else ""
            expected = expected or ("coarser" if first["name"] in second["coarser"] else "orthogonal")
            names = [f"p:{f['name']}" if f["name"].startswith("#") else f["name"] for f in (first, second)]
            self.assertEqual(self.compared(text, *names), expected)

    def test_designs(self):
        chance, self.seen = random.Random(SEED), {}
        for seed in range(SEED, SEED + max(DESIGNS // 4, 200)):
            with self.subTest(seed=seed):
                self.check(chance, seed)
        self.assertEqual(len(self.seen), 5)
        self.assertGreaterEqual(min(self.seen.values()), 3, self.seen)


class Evenness(unittest.TestCase):
    def test_an_uneven_meeting_is_found_exactly_where_there_is_one(self):
        chance, seen = random.Random(SEED), {True: 0, False: 0}
        for _ in range(3000):
            plots = chance.choice([4, 6, 8])
            first = [chance.randrange(chance.choice([2, 3])) for _ in range(plots)]
            second = [chance.randrange(chance.choice([2, 3])) for _ in range(plots)]
            if chance.random() < 0.3:
                second = [plot % 2 + 2 * (plot >= plots // 2) for plot in range(plots)]
                first = sorted(first)
            found = uneven(first, second)
            seen[found is None] += 1
            self.assertEqual(found is None, orthogonal(first, second), (first, second))
            if found:
                meets = lambda b: sum(x == found.one and y == b for x, y in zip(first, second))
                self.assertEqual((found.often, found.seldom), (meets(found.most), meets(found.least)))
                self.assertEqual((found.often_of, found.seldom_of), (second.count(found.most), second.count(found.least)))
        self.assertGreater(min(seen.values()), 100)


if __name__ == "__main__":
    unittest.main()
