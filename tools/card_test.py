#!/usr/bin/env python3
"""Tests tools/card.py: its pictures against what the printer writes, what README.md shows of it, and its errors."""
import re
import struct
import subprocess
import sys
import tempfile
import unittest
import xml.etree.ElementTree as xml
from pathlib import Path
from textwrap import dedent, indent

ROOT = Path(__file__).resolve().parent.parent
SVG = "{http://www.w3.org/2000/svg}"
SLOT = re.compile(r"slot (\d+): asked (-?\d+) to (-?\d+)(?:, left (-?\d+) to (-?\d+), mark (\d))?")
WHOLE = "card a\nlen 1\nh 0\nwindows 0 0\ncovered 0 0\nk 0\n"

# A text, and what is said of it.
MISTAKES = [
    ("# Nothing.\n", ": no card in it"),
    ("len 1", ": line 1: a line before the first card"),
    ("card a\nlen", ": line 2: len takes one number, not 0"),
    ("card a\nslot 1", ": line 2: slot takes two numbers, not 1"),
    ("card a\n\n# Wide.\nlen 256", ": line 4: len 256 is not within 0 to 255"),
    ("card a\nslot -2147483649 0", ": line 2: slot -2147483649 is not within -2147483648 to 2147483647"),
    ("card a\nk 0.5", ": line 2: k takes whole numbers, not 0.5"),
    ("\ufeffcard a\r\n\tk\t1 2", ": line 2: k takes one number, not 2"),
    ("card a\nsettle 0", ": line 2: settle 0: a card of form 1 is read with settle 1, and has no field for another"),
    ("card a\nsettle 9", ": line 2: settle 9 is not within 0 to 8"),
    ("card a\nbytes 0x", ": line 2: bytes takes bytes of two hexadecimal digits, not 0x"),
    ("card a\nslots 1 2", ": line 2: no line begins with slots"),
    ("card a/b", ": line 1: card takes the name of a file, not 'a/b'"),
    ("card", ": line 1: card takes the name of a file, not ''"),
    ("card a\ncard a", ": line 2: a second card a"),
    (WHOLE.replace("h 0\n", ""), ": card a: no line for h"),
    (WHOLE + "len 1", ": card a: two lines for len"),
    (WHOLE + "end 54", ": line 7: end takes two bytes, not 1"),
    (WHOLE + "slot 0 0\n" * 256, ": card a: n 256 is not within 0 to 255"),
]


def run(*arguments, stdout=subprocess.PIPE):
    command = [sys.executable, ROOT / "tools/card.py", *arguments]
    return subprocess.run(command, stdout=stdout, stderr=subprocess.PIPE, text=True)


def number(element, name):
    return float(element.get(name))


def request(data):
    """The threshold and the load ranges of a card that is not refused."""
    n = data[-14]
    return struct.unpack_from("<i", data, len(data) - 7)[0], list(struct.iter_unpack("<ii", data[-16 - 8 * n:-16]))


class Drawn:
    """What a picture shows."""

    def __init__(self, file):
        self.root = xml.parse(file).getroot()
        groups = self.all("g", "slot")
        self.words = [[word and int(word) for word in SLOT.fullmatch(group[0].text).groups()] for group in groups]
        self.bars = [group[1:] for group in groups]
        self.middles = [number(bars[0], "x") + number(bars[0], "width") / 2 for bars in self.bars]

    def all(self, tag, kind):
        return self.root.findall(f"{SVG}{tag}[@class='{kind}']")

    def marks(self):
        """Each band is a window, each arch a bridge."""
        marks = [0] * len(self.bars)
        for band in self.all("rect", "window"):
            left = number(band, "x")
            inside = [i for i, x in enumerate(self.middles) if left < x < left + number(band, "width")]
            for i in inside:
                marks[i] = 1 if i == inside[0] else 2
        for arch in self.all("path", "bridge"):
            _, start, _, _, _, _, width, _ = arch.get("d").split()
            marks[self.middles.index(float(start) + float(width) / 2)] = 3
        return marks

    def listing(self):
        """In the printer's words."""
        lines = [text.text for text in self.all("text", "message")]
        lines += [text.text.replace("..", " ") for text in self.all("text", "count")]
        if not self.all("text", "message"):
            lines += [f"{i} {lowest} {highest} {mark}"
                      for (i, _, _, lowest, highest, _), mark in zip(self.words, self.marks())]
        return "".join(line + "\n" for line in lines)

    def parts(self):
        """Of each slot the bar above and the bar below the threshold, None where there is none."""
        for bars in self.bars:
            threshold = number(self.all("line", "threshold")[0], "y1")
            sides = {number(bar, "y") < threshold: bar for bar in bars}
            yield sides.get(True), sides.get(False)


class Test(unittest.TestCase):
    def setUp(self):
        folder = tempfile.TemporaryDirectory()
        self.addCleanup(folder.cleanup)
        self.file = Path(folder.name, "file.svg")

    def pictures(self):
        """Each card of examples/, and what its picture shows."""
        for card in sorted(ROOT.glob("examples/*.card")):
            self.assertEqual(run("draw", card, self.file).stderr, "")
            yield card, Drawn(self.file)

    def test_pictures_show_what_the_printer_writes(self):
        for card, drawn in self.pictures():
            self.assertEqual(drawn.listing(), card.with_suffix(".out").read_text(), card)
            rows = [words[0] for words in drawn.words], [words[5] for words in drawn.words if words[5] is not None]
            self.assertEqual([text.text for text in drawn.all("text", "number")], list(map(str, sum(rows, []))), card)

    def test_bars_are_what_was_asked(self):
        """Each part is on its side of the threshold, as the plan's load, as left or as cut."""
        def kind(there, left, planned):
            return ("plan" if planned else "left" if left else "cut") if there else None

        for card, drawn in self.pictures():
            k, ranges = request(card.read_bytes()) if drawn.bars else (0, [])
            self.assertEqual([tuple(words[1:3]) for words in drawn.words], ranges, card)
            for (_, lowest, highest, least, most, mark), bars in zip(drawn.words, drawn.parts()):
                if mark is None:
                    least, most = lowest, highest
                wanted = kind(highest > k, most > k, mark in (1, 2)), kind(lowest <= k, least <= k, mark in (0, 3))
                self.assertEqual(tuple(None if bar is None else bar.get("class") for bar in bars), wanted, card)

    def test_higher_loads_are_drawn_higher(self):
        for card, drawn in self.pictures():
            k = request(card.read_bytes())[0] if drawn.bars else 0
            tops, feet = [], []
            for (_, lowest, highest, *_), (above, below) in zip(drawn.words, drawn.parts()):
                for bar, least, most in (above, max(lowest, k + 1), highest), (below, lowest, min(highest, k)):
                    if bar is not None:
                        tops.append((most, -number(bar, "y")))
                        feet.append((least, -number(bar, "y") - number(bar, "height")))
            for edges in tops, feet:
                heights = [height for _, height in sorted(edges)]
                self.assertEqual(heights, sorted(heights), card)

    def test_readme(self):
        """It shows a card's answer and picture as they are, and a text that makes case A."""
        readme = (ROOT / "README.md").read_text()
        self.assertIn(indent((ROOT / "examples/upper-ford.out").read_text(), "    "), readme)
        self.assertEqual(run("draw", ROOT / "examples/upper-ford.card", self.file).stderr, "")
        self.assertEqual(self.file.read_text(), (ROOT / "docs/upper-ford.svg").read_text())
        self.file.write_text(dedent(re.search(r"(?m)(^    card north-gate\n(    .+\n)+)", readme)[1]))
        self.assertEqual(run("make", self.file, self.file.parent).stderr, "")
        made = self.file.parent / "north-gate.card"
        self.assertEqual(made.read_bytes(), (ROOT / "examples/case-a.card").read_bytes())

    def test_settle_line(self):
        """It alters no byte of a card."""
        made = self.file.with_name("a.card")
        for text in WHOLE, WHOLE + "settle 1\n":
            self.file.write_text(text)
            self.assertEqual(run("make", self.file, self.file.parent).stderr, "")
            self.assertEqual(made.read_bytes(), bytes.fromhex("0000 00 01 00 0000 0000 00000000 01 5443"))

    def test_mistakes_in_a_text(self):
        for text, words in MISTAKES:
            with self.subTest(text=text):
                self.file.write_text(text)
                ended = run("make", self.file, self.file.parent)
                self.assertEqual((ended.returncode, ended.stderr), (1, f"tools/card.py: {self.file}{words}\n"))

    def test_missing_files(self):
        whole, none = ROOT / "examples/cards.txt", self.file
        for arguments in ("show", none), ("make", none, "."), ("check", none, "."), ("check", whole, none), \
                ("draw", none, none):
            with self.subTest(arguments=arguments):
                ended = run(*arguments)
                self.assertEqual((ended.returncode, ended.stderr),
                                 (1, f"tools/card.py: {none}: No such file or directory\n"))

    def test_picture_in_place_of_a_card(self):
        self.file.write_bytes(b"kept")
        card = self.file.rename(self.file.with_suffix(".card"))
        self.assertEqual(run("draw", card, card).returncode, 1)
        self.assertEqual(card.read_bytes(), b"kept")

    def test_full_output(self):
        with open("/dev/full", "w") as full:
            ended = run("show", ROOT / "examples/case-a.card", stdout=full)
        self.assertEqual((ended.returncode, ended.stderr),
                         (1, "tools/card.py: standard output: No space left on device\n"))

    def test_usage(self):
        for arguments in (), ("show",), ("shew", "x"), ("draw", "x"):
            ended = run(*arguments)
            self.assertEqual((ended.returncode, ended.stderr[:6]), (1, "usage:"))


if __name__ == "__main__":
    unittest.main()
