"""Any file whatever gives a table, a refusal or a message, and never a traceback."""
import glob
import os
import random
import time
import unittest

from support import EXAMPLES, design, run, sheet_bytes

FILES = int(os.environ.get("RACHDOUM_FILES", "3000"))
SEED = int(os.environ.get("RACHDOUM_SEED", "1"))
PIECES = [
    b"\t", b"\n", b"\r\n", b"\r", b",", b";", b'"', b"'", b" ", b"\0", b"\xff", b"\xef\xbb\xbf", b"\xff\xfe", b"0", b"1", b"65536",
    b"-1", b"NA", b"p:", b"t:", b"p:Hut", b"t:Gain", b"/", b"/Hut", b"p:Pier/Hut", b"sep=", b"=", b"#", b"(", b"I(", b"S(", b"\xc3\xa4", b"\xe2\x80\xa8",
    b"\x1f", b"\x1b[31m", b"U", b"E", b"p:p:", b"99999999999999999999999", b"4294967295", b"4294967296",
    b"\xed\xa0\x80", b"\xf0\x9f\x8c\xb2",
]
OPTIONS = [
    [], [], [], ["--tsv"], ["--json"], ["--quiet"], ["--k", "2"], ["--plots", "Hut"], ["--plots", "Plot1", "--treatments", "Treat1"],
    ["--nested", "Plot2/Plot1"], ["--nested", "Pier/Hut", "--crossed", "Pier,Hut"], ["--tsv", "--k", "1"],
    ["--nested", "/"], ["--nested", "Hut/Hut"], ["--nested", "Plot3/Plot2/Plot1"], ["--crossed", ","], ["--plots", ","],
    ["--plots", "Plot1", "--treatments", "Treat1,Plot1"], ["--plots", "\x1b[31m"],
]


def sheets():
    for path in sorted(glob.glob(os.path.join(EXAMPLES, "*.sheet")) + glob.glob(os.path.join(EXAMPLES, "*.old"))):
        with open(path, "rb") as file:
            yield file.read()


def damaged(chance, data):
    """A text with some bytes left out, doubled, moved or replaced."""
    for _ in range(chance.randint(1, 6)):
        start = chance.randint(0, len(data))
        end = min(len(data), start + chance.choice([0, 1, 1, 2, 8, 40]))
        piece = chance.choice([b"", b"", chance.choice(PIECES), data[start:end] * 2, bytes([chance.randrange(256)])])
        data = data[:start] + piece + data[end:]
    return data


def anything(chance, known):
    kind = chance.random()
    if kind < 0.15:
        return bytes(chance.randrange(256) for _ in range(chance.choice([1, 5, 50, 500])))
    if kind < 0.4:
        return b"".join(chance.choice(PIECES) for _ in range(chance.randint(1, 40)))
    if kind < 0.7:
        return damaged(chance, chance.choice(known))
    text = sheet_bytes(*design(chance.randrange(10**6)))
    text = text.replace(b"\t", chance.choice([b"\t", b",", b";", b" ", b" , "]))
    return damaged(chance, text.replace(b"\n", chance.choice([b"\n", b"\r\n", b"\r"])))


MILLION = 1 << 20
LARGE = {
    "commas": b"," * MILLION,
    "tabs": b"\t" * MILLION,
    "line ends": b"\n" * MILLION,
    "quotation marks": b'"' * MILLION,
    "one field": b"x" * MILLION,
    "one marked name": b"p:" + b"x" * (MILLION - 2),
    "one name in many columns": b"p:A," * (MILLION // 4),
    "many names": b",".join(b"p:A %d" % number for number in range(90000)),
    "many parents": b",".join(b"p:A%d/A %d" % (number, number) for number in range(60000)),
    "one long parent": b"p:A/" + b"x" * (MILLION - 4),
    "many slashes": b"p:A" + b"/" * (MILLION - 3),
    "many columns without a mark": b",".join(b"A%d" % number for number in range(90000)),
    "many plots": b"p:A,t:B\n" + b"1,2\n" * 200000,
    "many levels": b"p:A\n" + b"\n".join(b"%d" % number for number in range(1, 120000)),
    "many lines of many lengths": b"\n".join(b"," * number for number in range(1400)),
    "a long level": b"p:A,t:B\n" + b"y" * 400000 + b",1\n" + b"y" * 400000 + b",2\nz,1\n",
}


class AnyFile(unittest.TestCase):
    def test_large_files(self):
        """At most a million bytes are read, and they take no long time and make no long message."""
        for name, data in LARGE.items():
            for options in ([], ["--plots", "A", "--treatments", "B"]):
                with self.subTest(name, options=options):
                    start = time.process_time()
                    status, out, err = run("plan", "-", *options, data=data[:MILLION])
                    self.assertIn(status, (1, 2))
                    self.assertLess(len(err), 2000)
                    self.assertLess(time.process_time() - start, 10)

    def ended(self, command, data, options):
        """Runs a command on a file, looks at what it prints, and answers its exit status."""
        status, out, err = run(command, "-", *options, data=data)
        if status == 0:
            self.assertTrue(out)
        elif status == 1:
            self.assertRegex(err, r"rachdoum: standard input: refused \(\d+\): .+\n  Remedy: .+\n$")
        else:
            self.assertRegex(err, r"rachdoum: .+\n$")
            self.assertEqual(out, b"")
        self.assertTrue(all(c.isprintable() or c == "\n" for c in err), err)
        self.assertTrue(all(c.isprintable() or c in "\n\t" for c in out.decode("utf-8")), out)
        return status

    def no_traceback(self, command, files, choice):
        chance, known, seen = random.Random(SEED), list(sheets()), {0: 0, 1: 0, 2: 0}
        for number in range(files):
            data, options = anything(chance, known), chance.choice(choice)
            with self.subTest(number=number, data=data, options=options):
                seen[self.ended(command, data, options)] += 1
        self.assertGreater(min(seen.values()), files // 100)

    def test_no_traceback(self):
        self.no_traceback("plan", FILES, OPTIONS)

    def test_no_traceback_of_convert(self):
        columns = [options for options in OPTIONS if set(options[::2]) <= {"--plots", "--treatments", "--nested"}]
        self.no_traceback("convert", FILES // 4, columns)

    def test_no_traceback_of_compare(self):
        names = ["Hut", "Gain", "Plot1", "Plot2", "Treat1", "U", "E", "I(Plot1,Plot2)", "#3", "p:#4", "t:Gain", "", "\udc80", ","]
        taken = [options for options in OPTIONS if not {"--crossed", "--quiet"} & set(options)]
        self.no_traceback("compare", FILES // 4, [[a, b] + options for options in taken for a in names for b in names[:7]])

    def test_no_traceback_of_formulas(self):
        chance, pieces = random.Random(SEED), [piece.decode("utf-8", "surrogateescape") for piece in PIECES]
        pieces += ["=", "/", "*", "(", ")", "Hut", "Pier", "2", "240", "Hut=2", "Pier=3", "(Row=3*Column=3)", " "] * 3
        for number in range(FILES // 4):
            text = "".join(chance.choice(pieces) for _ in range(chance.randint(0, 12)))
            with self.subTest(text=text):
                for words in (["formula", "--", text], ["plan", f"--formula={text}"]):
                    status, out, err = run(*words)
                    self.assertIn(status, (0, 1))
                    if status == 1:
                        self.assertRegex(err, r"^rachdoum: the formula: refused \(\d+\): .+\n  Remedy: .+\n$")
                    self.assertTrue(all(c.isprintable() or c == "\n" for c in err), err)


if __name__ == "__main__":
    unittest.main()
