"""Tables and layers in lines of a terminal, beside each other: a line has the rows of a key, and what changes them."""
from __future__ import annotations

import os
import shutil
from typing import Callable, Dict, Iterable, List, Mapping, NamedTuple, Optional, Sequence, TextIO, Tuple

from ._cells import INT, Cell, Column, Row
from ._layers import DELETE, INSERT, MODIFY, Entry

GAP = 3
MORE = ".."
#: The colours of a terminal, by their numbers.
BOLD, RED, GREEN, YELLOW = 1, 31, 32, 33


class Piece(NamedTuple):
    """A part of a line, in one colour, or in none: 0."""

    text: str
    colour: int = 0


Line = List[Piece]
Block = List[Line]


class Terminal:
    """Where lines go. A terminal takes colours, and lines as long as it is wide; a file takes whole lines, plain."""

    def __init__(self, out: TextIO) -> None:
        self.out = out
        self.width = shutil.get_terminal_size().columns if out.isatty() else None
        # no-color.org: a NO_COLOR that isn't empty asks for none
        plain = os.environ.get("NO_COLOR") or os.environ.get("TERM") == "dumb"
        self.has_colours = out.isatty() and not plain

    def write(self, lines: Iterable[Line], more: int) -> None:
        """Writes lines, and how many more there are."""
        for line in lines:
            print("".join(self._painted(piece) for piece in fitted(line, self.width)), file=self.out)
        if more > 0:
            print(f".. {more:,} more", file=self.out)

    def _painted(self, piece: Piece) -> str:
        if not self.has_colours or not piece.colour:
            return piece.text
        return f"\x1b[{piece.colour}m{piece.text}\x1b[0m"


def fitted(line: Line, width: Optional[int]) -> Line:
    """A line without the blanks at its end, cut to a width."""
    pieces = list(line)
    while pieces and not pieces[-1].text.rstrip():
        pieces.pop()
    if pieces:
        pieces[-1] = pieces[-1]._replace(text=pieces[-1].text.rstrip())
    if width is None or length_of(pieces) <= width:
        return pieces
    kept: Line = []
    left = max(width - len(MORE), 0)
    for piece in pieces:
        kept.append(piece._replace(text=piece.text[:left]))
        left -= len(kept[-1].text)
    return [*kept, Piece(MORE[:width])]


def length_of(line: Iterable[Piece]) -> int:
    return sum(len(piece.text) for piece in line)


def beside(blocks: Sequence[Block]) -> List[Line]:
    """Blocks of equally many lines beside each other."""
    widths = [max(map(length_of, block)) + GAP for block in blocks]
    return [
        [piece for part, width in zip(parts, widths) for piece in (*part, Piece(" " * (width - length_of(part))))] for parts in zip(*blocks)
    ]


# ---- tables


def spelled(cell: Cell) -> str:
    """A cell as it is in a line of a terminal."""
    if isinstance(cell, bool):
        return "true" if cell else "false"
    return "".join(it if it.isprintable() else it.encode("unicode_escape").decode() for it in str(cell))


def table_block(columns: Sequence[Column], rows: Sequence[Optional[Row]]) -> Block:
    """A table in lines of one width, the heading first; None is an empty line."""
    cells = [[f"{column.name}{'*' if column.key else ''}" for column in columns]]
    cells += [["" for _ in columns] if row is None else [spelled(cell) for cell in row] for row in rows]
    widths = [max(len(line[place]) for line in cells) for place in range(len(columns))]
    right = [column.type == INT for column in columns]
    lines = [
        "  ".join(it.rjust(width) if at_right else it.ljust(width) for it, width, at_right in zip(line, widths, right)) for line in cells
    ]
    return [[Piece(lines[0], BOLD)], *([Piece(line)] for line in lines[1:])]


# ---- layers


class Laid(NamedTuple):
    """A layer's entries by the keys of their rows."""

    title: str
    entries: Mapping[Row, Sequence[Entry]]


def laid(title: str, entries: Iterable[Entry], row_of: Callable[[Entry], Row], key: int) -> Laid:
    """A layer's entries by the keys of their rows: ``row_of`` is the row that a modify changes."""
    keyed: Dict[Row, List[Entry]] = {}
    for entry in entries:
        cells = entry.values if entry.kind in (INSERT, DELETE) else row_of(entry)
        keyed.setdefault(cells[:key], []).append(entry)
    return Laid(title, keyed)


def layer_block(layer: Laid, keys: Sequence[Row]) -> Block:
    """A layer in lines, one for each key. The entries of a key are at one SID."""
    return [[], *(_entries_line(layer.entries.get(key, ())) for key in keys)]


def _entries_line(entries: Sequence[Entry]) -> Line:
    if not entries:
        return []
    words = [(Piece(_word(entry), _COLOURS[entry.kind]), Piece(" ")) for entry in entries]
    return [*(piece for word in words for piece in word), Piece(f"at {entries[0].sid}")]


_COLOURS = {INSERT: GREEN, DELETE: RED, MODIFY: YELLOW}


def _word(entry: Entry) -> str:
    """The change of an entry, as +25,Dee,4 or -20 or qty=5."""
    if entry.kind == INSERT:
        return f"+{_fields(entry.values)}"
    if entry.kind == DELETE:
        return f"-{_fields(entry.values)}"
    return f"{spelled(entry.column or '')}={spelled(entry.values[0])}"


def _fields(cells: Row) -> str:
    """Cells as a record of CSV."""
    return ",".join(_field(spelled(cell)) for cell in cells)


def _field(text: str) -> str:
    return '"' + text.replace('"', '""') + '"' if "," in text or '"' in text else text


def layers_beside(
    columns: Sequence[Column],
    stable: Sequence[Row],
    layers: Sequence[Laid],
    image: Sequence[Row],
    open_layers: Sequence[Laid],
) -> List[Line]:
    """The stable table, the layers over it, its image, and the layers of open transactions, in ascending key."""
    key = sum(column.key for column in columns)
    below, above = ({row[:key]: row for row in rows} for rows in (stable, image))
    keys = sorted({*below, *above, *(it for layer in (*layers, *open_layers) for it in layer.entries)})
    blocks: List[Tuple[str, Block]] = [
        ("table", table_block(columns, [below.get(it) for it in keys])),
        *((layer.title, layer_block(layer, keys)) for layer in layers),
        ("image", table_block(columns, [above.get(it) for it in keys])),
        *((layer.title, layer_block(layer, keys)) for layer in open_layers),
    ]
    return beside([[[Piece(title, BOLD)], *block] for title, block in blocks])
