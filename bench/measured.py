"""What the bench has measured: the tables in a folder, as `bench --csv` writes them, or as the documents show them."""
import csv
import re
from dataclasses import dataclass
from pathlib import Path

HEAD = re.compile(r"^(.*) \((ns|per second|MB/s|bytes)\)$")
PLACE = re.compile(r"<!-- bench (\w+) -->\n(.*?)<!-- end -->\n", re.DOTALL)
# a figure as a document shows it: the number, its unit of time, and the ratio that is left out
SHOWN = re.compile(r"^([\d.,]+)(?: (ns|µs|ms|s))?(?: \(.*\))?$")
NANOSECONDS = {None: 1, "ns": 1, "µs": 1e3, "ms": 1e6, "s": 1e9}


@dataclass
class Table:
    """A case: its run and question, the heads of its words and of its figures, ours first, and its lines."""

    name: str
    run: list
    question: str
    unit: str
    heads: list
    ways: list
    lines: list  # of (words, figures)

    def chosen(self, **words):
        """The lines whose words are these, by the heads' first words."""
        places = {head.split()[0]: place for place, head in enumerate(self.heads)}
        return [it for it in self.lines if all(it[0][places[head]] == word for head, word in words.items())]


def read(folder, name):
    """The table of a case, or None where it isn't there."""
    file = Path(folder) / f"{name}.csv"
    if not file.exists():
        return None
    with file.open(encoding="utf-8", newline="") as text:
        run, question = (text.readline()[2:].strip() for _ in range(2))
        head, *records = csv.reader(text)
    ways = [HEAD.match(it) for it in head]
    words = sum(it is None for it in ways)
    lines = [(it[:words], [float(cell) for cell in it[words:]]) for it in records]
    unit = ways[words][2]
    return Table(name, run.split(" | "), question, unit, head[:words], [it[1] for it in ways[words:]], lines)


def read_document(text, name):
    """The table of a case as a document shows it, with its rounded figures and no run, or None where it isn't there."""
    place = next((it[2] for it in PLACE.finditer(text) if it[1] == name), "")
    head, _, *records = [it.strip("| ").split(" | ") for it in place.splitlines() if it.startswith("|")] or [[], []]
    heads = [it[0].lower() + it[1:] for it in head]
    words = next((at for at, it in enumerate(heads) if it.startswith("ours")), None)
    if words is None:
        return None
    return Table(name, [], "", "", heads[:words], heads[words:], [(it[:words], [figure(cell) for cell in it[words:]]) for it in records])


def run_in(text):
    """The day and the machine of the run, as a document shows them."""
    shown = next(it[2] for it in PLACE.finditer(text) if it[1] == "run")
    return " ".join(shown.split()).partition(": ")[2].rstrip(".")


def figure(cell):
    """The figure of a document's cell, a time in nanoseconds."""
    digits, unit = SHOWN.match(cell).groups()
    return float(digits.replace(",", "")) * NANOSECONDS[unit]


def number(word):
    """The number that a word begins with, as `10,000` or `0.1 %`."""
    return float(word.split()[0].replace(",", ""))
