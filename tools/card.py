#!/usr/bin/env python3
"""Form 1 files ("cards") as text, text as cards, and cards as pictures.

    tools/card.py show FILE.card            print a card as text
    tools/card.py make TEXT FOLDER          write the cards of a text into a folder
    tools/card.py check TEXT FOLDER         fail where the cards of a text are not those in the folder
    tools/card.py draw FILE.card OUT.svg    draw a card with its plan, by the printer, which `make plan` builds

A text has a section for each card:

    card NAME
    len 3
    h 0
    windows 0 1          least and most
    covered 0 4
    k 0
    slot 1 3             lowest and highest load; a line for each slot, in their order
    note free words      the note before the records, as UTF-8

Form 1 has no field for the settle count: every card is read with 1. A line `settle 1` may say so, and no other.

Lines for other notes, and for cards that the reader refuses, where they overrule what would be written:

    distance 24          the distance back
    n 0                  the number of slots
    form 2               the form byte
    end 54 44            the last two bytes, hexadecimal
    bytes 00 ff          a note of other bytes, hexadecimal
    fill 4073            a note of that many bytes FF
    cut 1                that many bytes less at the front

"show" prints lines that make the same card again, if it has a trailer at all. Lines that begin with # are comments.
"""
import struct
import subprocess
import sys
from collections import namedtuple
from contextlib import contextmanager
from pathlib import Path

from picture import drawing

PRINTER = Path(__file__).resolve().parent.parent / "target/bin/printer"
TRAILER = struct.Struct("<HBBBBBBBiB2s")
RECORD = struct.Struct("<ii")
END = b"\x54\x43"
SETTLE = 1

Card = namedtuple("Card", "note slots distance n len h windows covered k form end")

BYTE, DISTANCE, SIZE, LOAD = (0, 2**8 - 1), (0, 2**16 - 1), (0, 2**20 - 1), (-2**31, 2**31 - 1)
# The lines with numbers: how many, and from where to where each may lie.
NUMBERS = {
    "len": (1, BYTE), "h": (1, BYTE), "windows": (2, BYTE), "covered": (2, BYTE), "k": (1, LOAD), "slot": (2, LOAD),
    "distance": (1, DISTANCE), "n": (1, BYTE), "form": (1, BYTE), "fill": (1, SIZE), "cut": (1, SIZE),
    "settle": (1, (0, 8)),
}


class Wrong(Exception):
    """What a person can mend, in one line."""


@contextmanager
def place(name):
    """Puts the place before what is wrong there, or before what the system says."""
    try:
        yield
    except Wrong as wrong:
        raise Wrong(f"{name}: {wrong}") from None
    except OSError as error:
        raise Wrong(f"{name}: {error.strerror}") from None


def read(file):
    with place(file):
        return Path(file).read_bytes()


def write(file, data):
    with place(file):
        Path(file).write_bytes(data)


def say(text):
    with place("standard output"), open(1, "w", encoding="utf-8", closefd=False) as output:
        output.write(text)


def within(word, number):
    least, most = NUMBERS[word][1]
    if not least <= number <= most:
        raise Wrong(f"{word} {number} is not within {least} to {most}")
    return number


def numbers(word, rest):
    try:
        found = tuple(map(int, rest.split()))
    except ValueError:
        raise Wrong(f"{word} takes whole numbers, not {rest}") from None
    count = NUMBERS[word][0]
    if len(found) != count:
        raise Wrong(f"{word} takes {('one number', 'two numbers')[count - 1]}, not {len(found)}")
    for number in found:
        within(word, number)
    return found if count > 1 else found[0]


def hexadecimal(word, rest):
    try:
        return bytes.fromhex(rest)
    except ValueError:
        raise Wrong(f"{word} takes bytes of two hexadecimal digits, not {rest}") from None


def parsed(word, rest):
    """A line of a section: which part of a card it gives, and what that is."""
    if word == "note":
        return word, rest.encode()
    if word == "bytes":
        return "note", hexadecimal(word, rest)
    if word == "end":
        end = hexadecimal(word, rest)
        if len(end) != len(END):
            raise Wrong(f"{word} takes two bytes, not {len(end)}")
        return word, end
    if word == "fill":
        return "note", b"\xff" * numbers(word, rest)
    if word == "settle" and numbers(word, rest) != SETTLE:
        raise Wrong(f"{word} {rest}: a card of form 1 is read with {word} {SETTLE}, and has no field for another")
    if word in NUMBERS:
        return word, numbers(word, rest)
    raise Wrong(f"no line begins with {word}")


def card_bytes(parts):
    """The bytes of one section."""
    slots = [value for part, value in parts if part == "slot"]
    given = {}
    for part, value in parts:
        if part in given and part != "slot":
            raise Wrong(f"two lines for {part}")
        given[part] = value
    missing = {"len", "h", "windows", "covered", "k"} - given.keys()
    if missing:
        raise Wrong(f"no line for {min(missing)}")
    trailer = TRAILER.pack(
        within("distance", given.get("distance", RECORD.size * len(slots))),
        within("n", given.get("n", len(slots))),
        given["len"],
        given["h"],
        *given["windows"],
        *given["covered"],
        given["k"],
        given.get("form", 1),
        given.get("end", END),
    )
    records = b"".join(RECORD.pack(*slot) for slot in slots)
    return (given.get("note", b"") + records + trailer)[given.get("cut", 0):]


def add_line(sections, line):
    """Adds a line of a text to its sections, each a name and the parts so far."""
    if not line or line.startswith("#"):
        return
    word, *rest = line.split(None, 1)
    rest = "".join(rest)
    if word == "card":
        if not rest or not rest.isprintable() or "/" in rest:
            raise Wrong(f"{word} takes the name of a file, not {rest!r}")
        if rest in dict(sections):
            raise Wrong(f"a second card {rest}")
        sections.append((rest, []))
    elif not sections:
        raise Wrong("a line before the first card")
    else:
        sections[-1][1].append(parsed(word, rest))


def cards(data):
    """The bytes of each card of a text, by its name."""
    try:
        lines = data.decode("utf-8-sig").split("\n")
    except UnicodeDecodeError:
        raise Wrong("no text in UTF-8") from None
    sections = []
    for number, line in enumerate(lines, 1):
        with place(f"line {number}"):
            add_line(sections, line.strip())
    if not sections:
        raise Wrong("no card in it")
    made = {}
    for name, parts in sections:
        with place(f"card {name}"):
            made[name] = card_bytes(parts)
    return made


def cards_of(source):
    data = read(source)
    with place(source):
        return cards(data)


def card_of(data):
    """The parts of a card of at least 16 bytes."""
    front, trailer = data[:-TRAILER.size], data[-TRAILER.size:]
    distance, n, length, h, w0, w1, c0, c1, k, form, end = TRAILER.unpack(trailer)
    start = len(front) - RECORD.size * min(n, len(front) // RECORD.size)
    slots = list(RECORD.iter_unpack(front[start:]))
    return Card(front[:start], slots, distance, n, length, h, (w0, w1), (c0, c1), k, form, end)


def note_line(note):
    """The line of a note that is not empty."""
    if not note.strip(b"\xff"):
        return f"fill {len(note)}"
    words = note.decode(errors="replace")
    return f"note {words}" if words.isprintable() and words.strip().encode() == note else f"bytes {note.hex(' ')}"


def text(name, data):
    """A card as a section; of less than a trailer as a comment."""
    if len(data) < TRAILER.size:
        return f"card {name}\n# {len(data)} bytes: {data.hex(' ')}\n"
    card = card_of(data)
    lines = [f"card {name}", f"len {card.len}", f"h {card.h}", "windows {} {}".format(*card.windows),
             "covered {} {}".format(*card.covered), f"k {card.k}"]
    if card.note:
        lines.append(note_line(card.note))
    lines += [f"slot {lowest} {highest}" for lowest, highest in card.slots]
    if card.n != len(card.slots):
        lines.append(f"n {card.n}")
    if card.distance != RECORD.size * len(card.slots):
        lines.append(f"distance {card.distance}")
    if card.form != 1:
        lines.append(f"form {card.form}")
    if card.end != END:
        lines.append(f"end {card.end.hex(' ')}")
    return "".join(line + "\n" for line in lines)


def show(file):
    say(text(Path(file).stem, read(file)))


def make(source, folder):
    for name, data in cards_of(source).items():
        write(Path(folder, name + ".card"), data)


def check(source, folder):
    """Each card is there, is what its section says, and is made again from what `show` prints; no other is there."""
    made = cards_of(source)
    with place(folder):
        wrong = {file.stem for file in Path(folder).iterdir() if file.suffix == ".card"} ^ made.keys()
    for name, data in made.items():
        if name in wrong or read(Path(folder, name + ".card")) != data:
            wrong.add(name)
        elif len(data) >= TRAILER.size and cards(text(name, data).encode())[name] != data:
            wrong.add(name)
    if wrong:
        raise Wrong(f"not as {source} has them: {', '.join(sorted(wrong))}")


def draw(file, out):
    if Path(out).suffix != ".svg":
        raise Wrong(f"{out}: the name of a picture ends in .svg")
    data = read(file)
    if not PRINTER.exists():
        raise Wrong(f"no printer at {PRINTER}; `make plan` builds it")
    with place(PRINTER):
        printed = subprocess.run([PRINTER], input=data, capture_output=True, check=True).stdout.decode("ascii")
    card = None if printed.startswith("refused") else card_of(data)
    title = "".join(c if c.isprintable() else "?" for c in Path(file).stem)
    write(out, drawing(title, card, printed).encode())


COMMANDS = {"show": (show, 1), "make": (make, 2), "check": (check, 2), "draw": (draw, 2)}


def run(arguments):
    if arguments and arguments[0] in ("-h", "--help"):
        return say(__doc__)
    command, count = COMMANDS.get(arguments[0] if arguments else "", (None, 0))
    if command is None or len(arguments) != 1 + count:
        usage = __doc__.split("\n\n")[1]
        sys.exit(f"usage:\n{usage}\n`tools/card.py --help` says more")
    command(*arguments[1:])


if __name__ == "__main__":
    try:
        run(sys.argv[1:])
    except (Wrong, subprocess.SubprocessError) as error:
        sys.exit(f"tools/card.py: {error}")
