"""A table in ranges as a dataframe of Dask's."""
from __future__ import annotations

from contextlib import suppress
from typing import TYPE_CHECKING, Any, Dict, Optional, Sequence, Tuple

import dask
import dask.dataframe
import pandas
from distributed import Actor, get_client
from distributed import TimeoutError as NotYet

from ._cells import INT, LEAST, MOST, TEXT
from ._errors import Misuse, TypeMismatch
from ._frames import dtype_of
from ._ranges_calls import Range, workers_of
from ._ranges_errors import Gone, TimedOut
from ._ranges_layout import Layout
from ._ranges_owner import Owner, owner_here
from ._ranges_turns import Deadline
from ._sentences import value_shown
from ._snapshot import Snapshot

if TYPE_CHECKING:
    from dask.dataframe import DataFrame

#: For how many seconds a worker that doesn't own a range waits for the rows of one that does.
_SECONDS = 60.0
#: For how many seconds at a time: in between the scheduler says whether that worker is there.
_LOOK = 0.5
_GONE = "the worker that had the range is gone, and the version with it: ask for a frame again"
#: The least and the greatest cell of a type that may be an index: of texts, those of up to 4,096 bytes.
_ENDS = {INT: (LEAST, MOST), TEXT: ("", "\U0010ffff" * 1024)}


def frame_of(ranges: Sequence[Range], layout: Layout, vector: Sequence[int], names: Optional[Sequence[str]]) -> "DataFrame":
    """A dataframe with a part for each range at its version, which the range's owner reads when it is computed."""
    types = {it.name: dtype_of(it.type, format_) for it, format_ in zip(layout.columns, layout.formats)}
    for name in names or ():
        if name not in types:
            raise TypeMismatch(f"there is no column {value_shown(name)}")
    key = layout.key
    index = key[0].name if len(key) == 1 and key[0].type in _ENDS and layout.formats[0] is None else None
    taken = {name: types[name] for name in (types if names is None else names) if name != index}
    meta = pandas.DataFrame({name: pandas.Series([], dtype=type_) for name, type_ in taken.items()})
    divisions: Optional[Tuple[Any, ...]] = None
    if index is not None:
        meta.index = pandas.Index([], dtype=types[index], name=index)
        least, most = _ENDS[key[0].type]
        divisions = (least, *(bound[0] for bound in layout.bounds), most)
    parts = []
    for it, version in zip(ranges, vector):
        assert it.task is not None
        with dask.annotate(workers=[it.address], allow_other_workers=True):
            parts.append(_part(it.key, it.address, it.task.key, version, taken, index))
    return dask.dataframe.from_delayed(parts, meta=meta, divisions=divisions, verify_meta=False)


@dask.delayed(pure=True)  # type: ignore[misc]
def _part(key: str, address: str, actor: str, version: int, types: Dict[str, str], index: Optional[str]) -> pandas.DataFrame:
    """The rows of a range at a version: read where it is, or, where another worker has the task, fetched from there."""
    owner = owner_here(key)
    if owner is not None:
        return owner.read(version, _rows_of, (types, index))
    try:
        client = get_client()
    except ValueError:
        raise Misuse("a frame is computed by its cluster: compute(scheduler=client), where it isn't Dask's default")
    answer = Actor(Owner, address, actor).map(version, _rows_of, (types, index))
    deadline = Deadline(_SECONDS)
    try:
        while deadline.left() and address in workers_of(client, deadline):  # else Dask tries for as long as it may
            with suppress(NotYet, TimeoutError):
                return answer.result(timeout=_LOOK)
    except (OSError, ValueError, KeyError, TimedOut) as why:
        raise Gone(_GONE) from why
    raise Gone(_GONE)


def _rows_of(table: Snapshot, types: Dict[str, str], index: Optional[str]) -> pandas.DataFrame:
    rows = table.to_pandas([*types] if index is None else [index, *types])
    return rows if index is None else rows.set_index(index)
