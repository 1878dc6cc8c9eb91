"""The sequential table under snapshot isolation, as a dict: what each call of a transaction is answered.

It is written from the rules alone (docs/DEFINITIONS.md) and shares no code with the package. A row is a tuple, whose
first cells are its key; a transaction has what it does to each key as one effect:

    ("ins", row)  ("del",)  ("mod", {column: cell})  ("rep", row)
"""
from typing import Any, Dict, List, Optional, Tuple

Row = Tuple[Any, ...]
Key = Tuple[Any, ...]
Effect = Tuple[Any, ...]


def order(key: Key) -> Tuple[Any, ...]:
    """What keys are sorted by: texts by their bytes."""
    return tuple(cell.encode() if isinstance(cell, str) else cell for cell in key)


def after(effect: Effect, row: Optional[Row]) -> Optional[Row]:
    """The row that is at a key after an effect."""
    if effect[0] == "del":
        return None
    if effect[0] == "mod":
        assert row is not None
        return tuple(effect[1].get(place, cell) for place, cell in enumerate(row))
    return effect[1]


def clash(one: Effect, other: Effect, by_row: bool) -> bool:
    """Whether two effects on one key can't both be kept."""
    if one[0] == "ins" or other[0] == "ins":
        return one[0] == other[0]
    if one[0] == "mod" and other[0] == "mod":
        return by_row or bool(set(one[1]) & set(other[1]))
    return True


class Table:
    """A table with the effects of all commits."""

    def __init__(self, rows: List[Row], key_columns: int, limit: int, recent: int, by_row: bool) -> None:
        self.key_columns, self.limit, self.recent, self.by_row = key_columns, limit, recent, by_row
        self.rows: Dict[Key, Row] = {row[:key_columns]: row for row in rows}
        self.commits: List[Dict[Key, Effect]] = []
        self.versions = [self.rows]  # by number
        self.base = 0

    def begin(self, number: Optional[int] = None) -> "Client":
        """A transaction over the newest table, or over that of a number."""
        return Client(self, len(self.commits) if number is None else number)

    def trim(self) -> None:
        self.base = len(self.commits)

    def kept(self) -> int:
        """Of how many of the last commits the changes are kept."""
        return min(self.recent, len(self.commits) - self.base)

    def image(self, number: Optional[int] = None) -> List[Row]:
        rows = self.rows if number is None else self.versions[number]
        return [rows[key] for key in sorted(rows, key=order)]


class Client:
    """A transaction: its snapshot, and its effects."""

    def __init__(self, table: Table, number: int) -> None:
        self.table = table
        self.version = number
        self.rows = dict(table.versions[number])
        self.effects: Dict[Key, Effect] = {}

    # ---- writes

    def insert(self, row: Row) -> str:
        key = row[: self.table.key_columns]
        if key in self.rows:
            return "Duplicate"
        if len(self.rows) >= self.table.limit:
            return "Full"
        self.effects[key] = ("rep" if key in self.effects else "ins", row)
        self.rows[key] = row
        return "Done"

    def delete(self, key: Key) -> str:
        if key not in self.rows:
            return "Missing"
        if self.effects.get(key, ("",))[0] == "ins":
            del self.effects[key]
        else:
            self.effects[key] = ("del",)
        del self.rows[key]
        return "Done"

    def set(self, key: Key, column: int, cell: Any) -> str:
        if key not in self.rows:
            return "Missing"
        kind, *rest = self.effects.get(key, ("mod", {}))
        row = after(("mod", {column: cell}), self.rows[key])
        assert row is not None
        self.effects[key] = (kind, {**rest[0], column: cell}) if kind == "mod" else (kind, row)
        self.rows[key] = row
        return "Done"

    # ---- going back

    def saved(self) -> Tuple[Dict[Key, Row], Dict[Key, Effect]]:
        return dict(self.rows), dict(self.effects)

    def go_back(self, saved: Tuple[Dict[Key, Row], Dict[Key, Effect]]) -> None:
        self.rows, self.effects = saved

    # ---- reads

    def keys(self) -> List[Key]:
        return sorted(self.rows, key=order)

    def image(self) -> List[Row]:
        return [self.rows[key] for key in self.keys()]

    def rank(self, key: Key) -> Tuple[int, bool]:
        return sum(order(other) < order(key) for other in self.rows), key in self.rows

    # ---- the end

    def commit(self) -> Tuple[str, int]:
        """The reply, and the number of the newest table after it."""
        table, number = self.table, len(self.table.commits)
        if not self.effects:
            return "Committed", self.version
        if self.version < table.base or number - self.version > table.recent:
            return "TooOld", number
        since = table.commits[self.version :]
        if any(clash(effect, commit[key], table.by_row) for commit in since for key, effect in self.effects.items()
               if key in commit):  # fmt: skip
            return "Conflict", number
        rows = dict(table.rows)
        for key, effect in self.effects.items():
            row = after(effect, rows.get(key))
            if row is None:
                rows.pop(key, None)
            else:
                rows[key] = row
        if len(rows) > table.limit:
            return "Full", number
        table.rows = rows
        table.commits.append(self.effects)
        table.versions.append(rows)
        return "Committed", number + 1
