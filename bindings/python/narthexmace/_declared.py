"""Python's values for the ints of a declared column: float, date, datetime, Decimal, or None."""
from __future__ import annotations

import re
import struct
from datetime import date, datetime, timedelta, timezone
from decimal import Decimal
from typing import Any, Callable, NamedTuple, Optional

from ._errors import TypeMismatch
from ._sentences import value_shown

LEAST, MOST = -(2**63), 2**63 - 1
_EPOCH_DAY = date(1970, 1, 1).toordinal()
#: How many microseconds a unit of a timestamp has; those of nanoseconds have no datetime.
_UNITS = {"s": 1_000_000, "m": 1000, "u": 1}
_TIMESTAMP = re.compile(r"ts([smu]):(.*)")
_DECIMAL = re.compile(r"d:(\d+),(-?\d+)(?:,128)?")


class Declared(NamedTuple):
    """How the ints of a column go to Python and come back."""

    value: Callable[[int], Any]
    number: Callable[[Any], int]
    #: The unit in which numpy's dates and times are made values of Python's: none is of another column.
    unit: Optional[str] = None


def declared_as(format_: str) -> Optional[Declared]:
    """The declaration of a format; None where a column's values are its ints, as for times and durations."""
    if format_.startswith("?"):
        return _with_nulls(declared_as(format_[1:]) or Declared(int, _number))
    if format_ == "g":
        return Declared(_double_of, _number_of_double)
    if format_ == "tdD":
        return Declared(_date_of, _number_of_date, "D")
    if found := _TIMESTAMP.fullmatch(format_):
        return _timestamps(_UNITS[found[1]], bool(found[2]))
    if found := _DECIMAL.fullmatch(format_):
        return _decimals(int(found[1]), int(found[2]))
    return None


def unit_of(format_: str) -> Optional[int]:
    """How many microseconds the unit of a timestamp has; None of another format."""
    found = _TIMESTAMP.fullmatch(format_)
    return None if found is None else _UNITS[found[1]]


def _wrong(value: object, what: str) -> TypeMismatch:
    return TypeMismatch(f"{value_shown(value)} is not {what}")


def _number(value: object) -> int:
    if isinstance(value, bool) or not hasattr(value, "__index__"):
        raise _wrong(value, "an int")
    return _bounded(value.__index__(), value)


def _bounded(number: int, value: object) -> int:
    if not LEAST <= number <= MOST:
        raise TypeMismatch(f"{value_shown(value)} is not a number of 64 bits")
    return number


def _with_nulls(kind: Declared) -> Declared:
    """The same with None, which is stored as the least number: no other value has that number."""

    def value(number: int) -> Any:
        return None if number == LEAST else kind.value(number)

    def number(value: Any) -> int:
        if value is None:
            return LEAST
        found = kind.number(value)
        if found == LEAST:
            raise TypeMismatch(f"{value_shown(value)} has the number that stands for None")
        return found

    return Declared(value, number, kind.unit)


def in_order(bits: int) -> int:
    """The 64 bits of a double as the number that is kept, whose order is that of doubles; and back."""
    return bits ^ MOST if bits < 0 else bits


def _double_of(number: int) -> float:
    return float(struct.unpack("d", struct.pack("q", in_order(number)))[0])


def _number_of_double(value: Any) -> int:
    if isinstance(value, (bool, str)) or not hasattr(value, "__float__"):
        raise _wrong(value, "a float")
    return in_order(int(struct.unpack("q", struct.pack("d", float(value)))[0]))


def _date_of(number: int) -> Any:
    """A date, or the int where no date of Python's is so far."""
    day = number + _EPOCH_DAY
    return date.fromordinal(day) if 1 <= day <= date.max.toordinal() else number


def _number_of_date(value: Any) -> int:
    if isinstance(value, datetime) or not isinstance(value, date):
        return _number_far(value, "a date")
    return value.toordinal() - _EPOCH_DAY


def _number_far(value: Any, what: str) -> int:
    """The int that stands for itself where Python has no value: it is taken back."""
    if isinstance(value, bool) or not isinstance(value, int):
        raise _wrong(value, what)
    return _bounded(value, value)


def _timestamps(unit: int, has_zone: bool) -> Declared:
    """Those of a zone are datetimes of UTC, and others have none."""
    epoch = datetime(1970, 1, 1, tzinfo=timezone.utc if has_zone else None)
    what = "a datetime with a time zone" if has_zone else "a datetime without a time zone"

    def value(number: int) -> Any:
        try:
            return epoch + timedelta(microseconds=number * unit)
        except OverflowError:
            return number

    def number(value: Any) -> int:
        if not isinstance(value, datetime) or (value.tzinfo is not None) != has_zone:
            return _number_far(value, what)
        if getattr(value, "nanosecond", 0):  # of pandas
            raise TypeMismatch(f"{value_shown(value)} is not a whole number of the column's unit")
        whole, rest = divmod((value - epoch) // timedelta(microseconds=1), unit)
        if rest:
            raise TypeMismatch(f"{value_shown(value)} is not a whole number of the column's unit")
        return whole

    return Declared(value, number, "us")


def _decimals(digits: int, scale: int) -> Declared:
    most = 10**digits

    def value(number: int) -> Decimal:
        return Decimal((int(number < 0), tuple(map(int, str(abs(number)))), -scale))

    def number(value: Any) -> int:
        if isinstance(value, (bool, float, str)) or not isinstance(value, (int, Decimal)):
            raise _wrong(value, "a Decimal")
        sign, figures, exponent = Decimal(value).as_tuple()
        if not isinstance(exponent, int):
            raise _wrong(value, "a finite Decimal")
        whole, power = int("".join(map(str, figures))), exponent + scale
        if power > 40 or power < -len(figures) and whole:
            raise TypeMismatch(f"{value_shown(value)} is not a decimal of {digits} digits, {scale} of them behind the point")
        if power < 0:
            whole, rest = divmod(whole, 10**-power)
        else:
            whole, rest = whole * 10**power, 0
        if rest or whole >= most:
            raise TypeMismatch(f"{value_shown(value)} is not a decimal of {digits} digits, {scale} of them behind the point")
        return _bounded(-whole if sign else whole, value)

    return Declared(value, number)
