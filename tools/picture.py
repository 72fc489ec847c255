"""A request and its plan as a picture (SVG), from a card and what the plan printer writes for it.

A load is a cell of the scale, and the threshold line lies between the cells of k and k + 1, so that what is over lies
wholly above it. A slot's range is at most two bars then, its over part and its under part, and each is left or cut.
"""
import xml.etree.ElementTree as xml
from collections import namedtuple

# What the printer writes: a message, or its lines of counts, each a word with numbers, and its slots.
Answer = namedtuple("Answer", "message counts slots")
Slot = namedtuple("Slot", "number lowest highest mark")

UNCOVERED, FIRST, LATER, BRIDGE = range(4)

# In pixels: the picture's least width, where the bars begin, a line of text; all loads, a unit of load, one load, what
# a window's band has above and below them.
LEAST_WIDTH, LEFT, TOP, LINE = 620, 124, 84, 18
LOADS, MOST_UNIT, LEAST_CELL, MARGIN = 200, 36, 6, 12
STYLE = """
text { font: 12px sans-serif; fill: #222 }
text.title { font-size: 16px; font-weight: bold }
text.message { font-size: 16px; fill: #a3271b }
text.number { text-anchor: middle }
text.axis { text-anchor: end }
rect.window { fill: #ffe7b5; stroke: #d8981b }
path.bridge { fill: none; stroke: #b3471d; stroke-width: 3 }
rect.plan { fill: #23628f }
rect.left { fill: #a8cce6 }
rect.cut { fill: url(#hatched); stroke: #999; stroke-dasharray: 2 2 }
line.threshold { stroke: #a3271b; stroke-width: 1.5 }
"""


def answer(printed):
    """The printer's text, taken apart."""
    lines = [line.split() for line in printed.splitlines()]
    if lines[0][0] in ("no", "refused"):
        return Answer(" ".join(lines[0]), [], [])
    counts = [line for line in lines if line[0].isalpha()]
    return Answer("", counts, [Slot(*map(int, line)) for line in lines[len(counts):]])


def add(parent, tag, content=None, **attributes):
    """One element more. `class_` stands for `class`, `_` in another name for `-`."""
    words = {name.rstrip("_").replace("_", "-"): str(value) for name, value in attributes.items()}
    element = xml.SubElement(parent, tag, words)
    element.text = content
    return element


def span(numbers):
    return "..".join(map(str, numbers))


def heading(row):
    """Where the foot of a line of text stands, of those above the bars."""
    return 28 + LINE * row


def canvas(width, height, title):
    width = max(LEAST_WIDTH, width, 2 * LINE + 11 * len(title))
    svg = xml.Element("svg", xmlns="http://www.w3.org/2000/svg", width=str(width), height=str(height),
                      viewBox=f"0 0 {width} {height}")
    add(svg, "title", title)
    add(svg, "style", STYLE)
    hatched = add(svg, "pattern", id="hatched", width=6, height=6, patternUnits="userSpaceOnUse",
                  patternTransform="rotate(45)")
    add(hatched, "path", d="M 0 0 V 6", stroke="#999", stroke_width=2)
    add(svg, "rect", width=width, height=height, fill="white")
    add(svg, "text", title, class_="title", x=LINE, y=heading(0))
    return svg


class Picture:
    """A card with its slots as the printer has them, or as asked and without marks."""

    def __init__(self, title, card, slots):
        self.card, self.slots, self.planned = card, slots, slots[0].mark is not None
        self.lowest = min(lowest for lowest, _ in card.slots)
        self.highest = max(highest for _, highest in card.slots)
        over = max(1, self.highest - card.k)
        under = max(1, card.k + 1 - self.lowest)
        self.unit = min(LOADS / (over + under), MOST_UNIT)
        self.cell = max(self.unit, LEAST_CELL)
        self.threshold = round(TOP + MARGIN + self.cell + self.unit * (over - 1))
        self.bottom = round(self.threshold + self.cell + self.unit * (under - 1) + MARGIN)
        self.width = max(20, min(44, 720 // len(slots)))
        self.svg = canvas(self.x(len(slots)) + LINE, self.bottom + 5 * LINE, title)

    def x(self, number):
        """The left edge of a slot."""
        return LEFT + self.width * number

    def edges(self, load):
        """The upper and the lower edge of the cell of a load."""
        if load > self.card.k:
            lower = self.threshold - self.unit * (load - self.card.k - 1)
            return lower - self.cell, lower
        upper = self.threshold + self.unit * (self.card.k - load)
        return upper, upper + self.cell

    def draw(self, counts):
        self.draw_heading(counts)
        self.draw_windows()
        for slot in self.slots:
            self.draw_slot(slot)
        self.draw_scale()
        self.draw_row("slot", 1, lambda slot: slot.number)
        if self.planned:
            self.draw_row("mark", 2, lambda slot: slot.mark)
            self.draw_legend()

    def draw_heading(self, counts):
        card = self.card
        add(self.svg, "text", f"asked: k {card.k}, len {card.len}, h {card.h}, windows {span(card.windows)}, "
            f"covered {span(card.covered)}; loads in hundredths of a percent", x=LINE, y=heading(1))
        if counts:
            add(self.svg, "text", "answer:", x=LINE, y=heading(2))
        for place, (word, *numbers) in enumerate(counts):
            add(self.svg, "text", f"{word} {span(numbers)}", class_="count", x=LINE + 58 + 110 * place, y=heading(2))

    def draw_windows(self):
        """A band behind each window, and an arch over each bridge."""
        for first in (slot.number for slot in self.slots if slot.mark == FIRST):
            end = first + 1
            while end < len(self.slots) and self.slots[end].mark in (LATER, BRIDGE):
                end += 1
            add(self.svg, "rect", class_="window", x=self.x(first) + 2, width=self.x(end) - self.x(first) - 4,
                y=TOP, height=self.bottom - TOP, rx=5)
        for slot in self.slots:
            if slot.mark == BRIDGE:
                add(self.svg, "path", class_="bridge",
                    d=f"M {self.x(slot.number) + 4} {self.threshold - 4} q {self.width / 2 - 4} -24 {self.width - 8} 0")

    def draw_slot(self, slot):
        """The over part and the under part of a slot; the plan's load lies in the dark one."""
        k, (lowest, highest) = self.card.k, self.card.slots[slot.number]
        group = add(self.svg, "g", class_="slot")
        left = f", left {slot.lowest} to {slot.highest}, mark {slot.mark}" if self.planned else ""
        add(group, "title", f"slot {slot.number}: asked {lowest} to {highest}{left}")
        self.draw_part(group, slot, (FIRST, LATER), slot.highest > k, max(lowest, k + 1), highest)
        self.draw_part(group, slot, (UNCOVERED, BRIDGE), slot.lowest <= k, lowest, min(highest, k))

    def draw_part(self, group, slot, marks, left, lowest, highest):
        """A bar from the lowest to the highest load, where there is a load in between."""
        if lowest <= highest:
            kind = "plan" if slot.mark in marks else "left" if left else "cut"
            upper, lower = self.edges(highest)[0], self.edges(lowest)[1]
            add(group, "rect", class_=kind, x=self.x(slot.number) + 6, width=self.width - 12, y=f"{upper:.2f}",
                height=f"{lower - upper:.2f}")

    def draw_scale(self):
        """The threshold, and beside it the lowest and the highest load, where there is room for their numbers."""
        y = self.threshold
        add(self.svg, "line", class_="threshold", x1=LEFT, x2=self.x(len(self.slots)), y1=y, y2=y)
        self.label(f"k = {self.card.k}", y)
        taken = [y]
        for load in sorted({self.lowest, self.highest} - {self.card.k}):
            middle = round(sum(self.edges(load)) / 2)
            if all(abs(middle - other) >= 14 for other in taken):
                self.label(load, middle)
                taken.append(middle)

    def draw_row(self, words, row, number):
        """A number for each slot, under the bars."""
        y = self.bottom + LINE * row
        self.label(words, y)
        for slot in self.slots:
            add(self.svg, "text", str(number(slot)), class_="number", x=self.x(slot.number + 0.5), y=y + 4)

    def label(self, words, y):
        add(self.svg, "text", str(words), class_="axis", x=LEFT - 6, y=y + 4)

    def draw_legend(self):
        legend, x, y = add(self.svg, "g"), LINE, self.bottom + 4 * LINE
        for kind, words in ("plan", "the plan's load"), ("left", "left as well"), ("cut", "cut"), ("window", "window"):
            add(legend, "rect", class_=kind, x=x, y=y - 11, width=16, height=12)
            add(legend, "text", words, x=x + 22, y=y)
            x += 44 + 7 * len(words)
        add(legend, "path", class_="bridge", d=f"M {x} {y} q 8 -18 16 0")
        add(legend, "text", "bridge", x=x + 22, y=y)


def drawing(title, card, printed):
    """The picture as text. There is no card where the printer refuses it, and only the refusal is drawn."""
    message, counts, slots = answer(printed)
    if card is None:
        svg = canvas(0, TOP, title)
    else:
        picture = Picture(title, card, slots or [Slot(i, *asked, None) for i, asked in enumerate(card.slots)])
        picture.draw(counts)
        svg = picture.svg
    if message:
        add(svg, "text", message, class_="message", x=LINE, y=heading(2))
    xml.indent(svg)
    return xml.tostring(svg, encoding="unicode") + "\n"
