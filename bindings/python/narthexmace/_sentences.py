"""How sentences show names, texts, values and keys: as those of the library do, which docs/ERRORS.md describes."""
from __future__ import annotations

import re
import reprlib
from typing import Any, Sequence

#: How many characters of a text are shown.
_SHOWN = 64
_ESCAPES = {"\n": r"\n", "\r": r"\r", "\t": r"\t", '"': r"\"", "\\": r"\\"}
#: A name that is read as one without quotes.
_PLAIN = re.compile("[0-9A-Za-z_\u00c0-\U0010ffff]+")

_REPR = reprlib.Repr()
_REPR.maxother = _REPR.maxlong = 80


def _escaped(character: str) -> str:
    number = ord(character)
    if character in _ESCAPES:
        return _ESCAPES[character]
    if number < 32 or 0x7F <= number < 0xA0:
        return f"\\x{number:02x}"
    return f"\\u{number:04x}" if 0xD800 <= number < 0xE000 else character


def quoted(text: str) -> str:
    """A name or a text in quotes, with control characters escaped, and dots behind it if it is cut."""
    return '"' + "".join(map(_escaped, text[:_SHOWN])) + ('"' if len(text) <= _SHOWN else '"..')


def value_shown(value: object) -> str:
    """A value that was given for a cell."""
    return quoted(value) if isinstance(value, str) else _REPR.repr(value)


def key_shown(names: Sequence[str], cells: Sequence[Any]) -> str:
    """A key, with the names of its columns."""
    return ", ".join(f"{name if _PLAIN.fullmatch(name) else quoted(name)}={_cell(cell)}" for name, cell in zip(names, cells))


def _cell(cell: object) -> str:
    if isinstance(cell, str):
        return quoted(cell)
    return str(cell).lower() if isinstance(cell, bool) else str(cell)


def many(count: int, what: str) -> str:
    """A number of things."""
    return f"{count} {what}" if count == 1 else f"{count} {what}s"


def wanted(count: int) -> str:
    """How many are wanted."""
    return f"{count} {'is' if count == 1 else 'are'} wanted"
