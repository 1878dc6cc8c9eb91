"""Arrow's C streams from both sides, by the published rules and ctypes alone: a consumer, which looks at each rule that can be seen, and
a producer, which counts the structs that aren't released. Neither shares code with the package."""
import ctypes
import struct
from array import array
from ctypes import CFUNCTYPE, POINTER, c_char_p, c_int, c_int64, c_void_p, create_string_buffer
from typing import Any, Dict, Iterator, List, Optional, Sequence, Tuple


class Schema(ctypes.Structure):
    pass


class Array(ctypes.Structure):
    pass


class Stream(ctypes.Structure):
    pass


PS, PA, PT = POINTER(Schema), POINTER(Array), POINTER(Stream)
ENDS_SCHEMA, ENDS_ARRAY, ENDS_STREAM = CFUNCTYPE(None, PS), CFUNCTYPE(None, PA), CFUNCTYPE(None, PT)
GETS_SCHEMA, GETS_ARRAY = CFUNCTYPE(c_int, PT, PS), CFUNCTYPE(c_int, PT, PA)
SAYS = CFUNCTYPE(c_void_p, PT)
Schema._fields_ = [
    ("format", c_char_p), ("name", c_char_p), ("metadata", c_void_p), ("flags", c_int64), ("n_children", c_int64),
    ("children", POINTER(PS)), ("dictionary", PS), ("release", ENDS_SCHEMA), ("private_data", c_void_p),
]  # fmt: skip
Array._fields_ = [
    ("length", c_int64), ("null_count", c_int64), ("offset", c_int64), ("n_buffers", c_int64), ("n_children", c_int64),
    ("buffers", POINTER(c_void_p)), ("children", POINTER(PA)), ("dictionary", PA), ("release", ENDS_ARRAY),
    ("private_data", c_void_p),
]  # fmt: skip
Stream._fields_ = [
    ("get_schema", GETS_SCHEMA), ("get_next", GETS_ARRAY), ("get_last_error", SAYS), ("release", ENDS_STREAM),
    ("private_data", c_void_p),
]  # fmt: skip

pointer_of = ctypes.pythonapi.PyCapsule_GetPointer
pointer_of.restype, pointer_of.argtypes = c_void_p, [ctypes.py_object, c_char_p]
_new = ctypes.pythonapi.PyCapsule_New
_new.restype, _new.argtypes = ctypes.py_object, [c_void_p, c_char_p, c_void_p]
STREAM, SCHEMA = b"arrow_array_stream", b"arrow_schema"

#: How numbers lie: array's code of each format.
NUMBERS = {
    "c": "b", "C": "B", "s": "h", "S": "H", "i": "i", "I": "I", "l": "q", "L": "Q", "f": "f", "g": "d", "tdD": "i", "tdm": "q",
    "tts": "i", "ttm": "i", "ttu": "q", "ttn": "q", "tDs": "q", "tDm": "q", "tDu": "q", "tDn": "q",
}  # fmt: skip


def code_of(format_: str) -> Optional[str]:
    return "q" if format_.startswith("ts") else NUMBERS.get(format_)


# ---- the consumer


class WritesFailed(Exception):
    """What a stream says of why it failed."""


def _bytes(address: Optional[int], count: int) -> bytes:
    if not count:
        return b""
    assert address, "a buffer of cells is null"
    return ctypes.string_at(address, count)


def bits_of(address: int, first: int, count: int) -> List[bool]:
    whole = _bytes(address, (first + count + 7) // 8)
    return [bool(whole[place >> 3] >> (place & 7) & 1) for place in range(first, first + count)]


def _numbers(code: str, address: Optional[int], first: int, count: int) -> List[Any]:
    size = struct.calcsize(code)
    return list(memoryview(_bytes(address, (first + count) * size)[first * size :]).cast(code)) if count else []


def cells_of(format_: str, it: Array, first: int, count: int) -> List[Any]:
    """The cells of an array between two places of its batch; a null is None."""
    assert it.length >= 0 and it.offset >= 0 and it.null_count >= -1
    is_text = format_ in ("u", "U")
    assert it.n_buffers == (3 if is_text else 2), (format_, it.n_buffers)
    first += it.offset
    valid = bits_of(it.buffers[0], first, count) if it.buffers[0] else [True] * count
    if it.buffers[0]:
        assert count < it.length or it.null_count in (-1, valid.count(False)), "null_count isn't that of the bits"
    else:
        assert it.null_count <= 0, "nulls without bits"
    cells: List[Any]
    if is_text:
        ends = _numbers("q" if format_ == "U" else "i", it.buffers[1], first, count + 1)
        assert ends[0] >= 0 and all(one <= other for one, other in zip(ends, ends[1:])), "offsets descend"
        data = _bytes(it.buffers[2], ends[-1])
        cells = [data[one:other].decode() for one, other in zip(ends, ends[1:])]
    elif format_ == "b":
        cells = bits_of(it.buffers[1], first, count)
    elif format_.startswith("d:"):
        words = _numbers("q", it.buffers[1], 2 * first, 2 * count)
        cells = [high * 2**64 + low % 2**64 for low, high in zip(words[::2], words[1::2])]
    else:
        code = code_of(format_)
        assert code, format_
        cells = _numbers(code, it.buffers[1], first, count)
    return [cell if there else None for cell, there in zip(cells, valid)]


class Consumer:
    """Over the address of a stream, which is moved here: whoever had it has a released one."""

    def __init__(self, address: int) -> None:
        self.stream, self.schema = Stream(), Schema()
        ctypes.memmove(ctypes.byref(self.stream), address, ctypes.sizeof(Stream))
        Stream.from_address(address).release = ENDS_STREAM()
        self.done(self.stream.get_schema(self.stream, self.schema))
        assert self.schema.format == b"+s" and self.schema.release
        self.fields = fields_of(self.schema)

    def done(self, code: int) -> None:
        if code:
            said = self.stream.get_last_error(self.stream)
            raise WritesFailed(code, ctypes.string_at(said).decode() if said else None)

    def batches(self) -> Iterator[Array]:
        """Each batch, which is released when the next one is asked for."""
        while True:
            batch = self.next()
            if batch is None:
                return
            yield batch
            batch.release(batch)
            assert not batch.release, "a release leaves its mark out"

    def next(self) -> Optional[Array]:
        batch = Array()
        self.done(self.stream.get_next(self.stream, batch))
        if not batch.release:
            return None
        assert batch.n_children == len(self.fields) and batch.n_buffers == 1 and not batch.buffers[0]
        for place, (_, _, flags) in enumerate(self.fields):
            child = batch.children[place].contents
            assert child.length >= batch.length + batch.offset and child.release
            assert flags & 2 or child.null_count in (0, -1), "nulls of what isn't nullable"
        return batch

    def cells(self, batch: Array) -> List[List[Any]]:
        return [
            cells_of(format_, batch.children[place].contents, batch.offset, batch.length)
            for place, (_, format_, _) in enumerate(self.fields)
        ]

    def rows(self) -> List[Tuple[Any, ...]]:
        rows: List[Tuple[Any, ...]] = []
        for batch in self.batches():
            cells = self.cells(batch)
            rows += zip(*cells) if cells else [()] * batch.length
        assert self.next() is None, "after the end comes the end again"
        return rows

    def __del__(self) -> None:
        self.close()

    def close(self) -> None:
        if self.schema.release:
            self.schema.release(self.schema)
            assert not self.schema.release
        if self.stream.release:
            self.stream.release(self.stream)
            assert not self.stream.release


def fields_of(schema: Schema) -> List[Tuple[str, str, int]]:
    """The name, the format and the flags of each column."""
    fields = [schema.children[place].contents for place in range(schema.n_children)]
    assert all(field.release and not field.n_children and not field.dictionary for field in fields)
    return [(field.name.decode(), field.format.decode(), field.flags) for field in fields]


def consumed(thing: Any, requested: Any = None) -> Consumer:
    """A consumer of what has a stream."""
    capsule = thing.__arrow_c_stream__(requested)
    return Consumer(pointer_of(capsule, STREAM))


def rows_of(thing: Any) -> List[Tuple[Any, ...]]:
    consumer = consumed(thing)
    try:
        return consumer.rows()
    finally:
        consumer.close()


# ---- the producer


def packed(booleans: Sequence[bool], first: int = 0) -> bytes:
    """Bits, with so many before the first one that say the contrary."""
    out = bytearray((first + len(booleans) + 15) // 8)
    for place, boolean in enumerate([*(not boolean for boolean in booleans[:1] * first), *booleans]):
        out[place >> 3] |= boolean << (place & 7)
    return bytes(out)


def buffers_of(format_: str, cells: Sequence[Any], before: int) -> List[Optional[bytes]]:
    """The buffers of cells, with so many others before them: what a slice passes over."""
    if format_ == "b":
        return [None, packed(cells, before)]
    if format_ in ("u", "U"):
        texts = [b"\xff"] * before + [cell.encode() for cell in cells]
        ends = [0]
        for text in texts:
            ends.append(ends[-1] + len(text))
        return [None, array("i" if format_ == "u" else "q", ends).tobytes(), b"".join(texts) + b"\xff"]
    if format_ == "vu":
        return _views([b"\xff" * 20] * before + [cell.encode() for cell in cells])
    if format_.startswith("d:"):
        words = [0xFF] * 2 * before + [word for cell in cells for word in (cell, cell >> 63)]
        return [None, array("q", words).tobytes()]
    return [None, array(code_of(format_) or "", [0] * before + list(cells)).tobytes()]


def _views(texts: Sequence[bytes]) -> List[Optional[bytes]]:
    out, data = b"", [b"", b""]
    for place, text in enumerate(texts):
        if len(text) <= 12:
            out += struct.pack("<i12s", len(text), text)
        else:
            which = place % 2
            out += struct.pack("<i4sii", len(text), text[:4], which, len(data[which]))
            data[which] += text
    return [None, out, data[0] + b"\xff", data[1] + b"\xff", array("q", map(len, data)).tobytes()]


_SAID = create_string_buffer(b"made to fail")


class Column:
    """A column of a producer: its name and its format, and whether its texts go by a dictionary with indices of a format."""

    def __init__(self, name: str, format_: str, index: Optional[str] = None) -> None:
        self.name, self.format, self.index = name, format_, index


class Producer:
    """Streams of batches that are given as rows. Each struct that is handed out is counted in ``live`` until it is released.

    ``offsets`` are how many cells stand before a batch's in each array: in its struct, and in each column's own. With
    ``has_bits`` each column says of each cell that it is there, but for the one of ``null_at``: its row and its column.
    """

    def __init__(
        self,
        columns: Sequence[Column],
        batches: Sequence[Sequence[Sequence[Any]]],
        offsets: Tuple[int, int] = (0, 0),
        fails_at: Optional[int] = None,
        has_bits: bool = False,
        null_at: Optional[Tuple[int, int]] = None,
    ) -> None:
        self.columns, self.batches, self.offsets, self.fails_at = columns, batches, offsets, fails_at
        self.has_bits, self.null_at = has_bits, null_at
        self.live = 0
        self._kept: List[Any] = []
        self._at: Dict[int, int] = {}
        self._ends = (ENDS_SCHEMA(self._end), ENDS_ARRAY(self._end), ENDS_STREAM(self._end))
        self._part_ends = (ENDS_SCHEMA(self._end_part), ENDS_ARRAY(self._end_part))
        self._calls = (GETS_SCHEMA(self._schema), GETS_ARRAY(self._next), SAYS(lambda stream: ctypes.addressof(_SAID)))

    @staticmethod
    def _end_part(it: Any) -> None:
        it.contents.release = type(it.contents.release)()

    def _end(self, it: Any) -> None:
        self._end_part(it)
        self.live -= 1

    def _keep(self, it: Any) -> Any:
        self._kept.append(it)
        return it

    def __arrow_c_stream__(self, requested_schema: Any = None) -> Any:
        stream = self._keep(Stream(*self._calls, self._ends[2]))
        self.live += 1
        self._at[ctypes.addressof(stream)] = 0
        return _new(ctypes.addressof(stream), STREAM, None)

    def _schema(self, stream: Any, out: Any) -> int:
        fields = []
        for column in self.columns:
            field = Schema(name=column.name.encode(), format=column.format.encode(), flags=2, release=self._part_ends[0])
            if column.index is not None:
                values = self._keep(Schema(name=b"", format=field.format, release=self._part_ends[0]))
                field.format, field.dictionary = column.index.encode(), ctypes.pointer(values)
            fields.append(self._keep(field))
        children = self._keep((PS * len(fields))(*map(ctypes.pointer, fields)))
        made = Schema(format=b"+s", name=b"", n_children=len(fields), children=children, release=self._ends[0])
        ctypes.memmove(out, ctypes.byref(made), ctypes.sizeof(made))
        self.live += 1
        return 0

    def _array(self, length: int, offset: int, buffers: Sequence[Optional[bytes]]) -> Array:
        rooms = [None if buffer is None else self._keep(create_string_buffer(buffer, max(len(buffer), 1))) for buffer in buffers]
        at = self._keep((c_void_p * len(rooms))(*(None if room is None else ctypes.addressof(room) for room in rooms)))
        return self._keep(Array(length=length, offset=offset, n_buffers=len(rooms), buffers=at, release=self._part_ends[1]))

    def _column(self, column: Column, cells: Sequence[Any], null: Optional[int]) -> Array:
        whole, own = self.offsets
        values = sorted(set(cells)) or [""]
        if column.index is None:
            buffers = buffers_of(column.format, cells, whole + own)
        else:
            buffers = buffers_of(column.index, [values.index(cell) for cell in cells], whole + own)
        if self.has_bits and cells:
            buffers[0] = packed([place != null for place in range(len(cells))], whole + own)
        made = self._array(len(cells) + whole, own, buffers)
        if buffers[0] is not None:
            made.null_count = -1
        if column.index is None:
            return made
        made.dictionary = ctypes.pointer(self._array(len(values), own, buffers_of(column.format, values, own)))
        return made

    def _next(self, stream: Any, out: Any) -> int:
        at = self._at[ctypes.addressof(stream.contents)]
        if at == self.fails_at:
            return 5
        ctypes.memset(out, 0, ctypes.sizeof(Array))
        if at == len(self.batches):
            return 0
        self._at[ctypes.addressof(stream.contents)] += 1
        rows, before = self.batches[at], sum(map(len, self.batches[:at]))
        null, where = (None, None) if self.null_at is None else (self.null_at[0] - before, self.null_at[1])
        children = [
            self._column(column, [row[place] for row in rows], null if place == where else None)
            for place, column in enumerate(self.columns)
        ]
        pointers = self._keep((PA * len(children))(*map(ctypes.pointer, children)))
        made = Array(
            length=len(rows), offset=self.offsets[0], n_buffers=1, n_children=len(children), children=pointers,
            buffers=self._keep((c_void_p * 1)()), release=self._ends[1],
        )  # fmt: skip
        ctypes.memmove(out, ctypes.byref(made), ctypes.sizeof(made))
        self.live += 1
        return 0
