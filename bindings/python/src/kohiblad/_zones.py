"""Zone maps of typed columns: the least and the greatest value of each block of rows."""
import ctypes
import struct
from datetime import date, datetime, timedelta
from typing import Any, Callable, Dict, List, Optional, Tuple, Union

from . import _library as library
from ._library import exports
from ._scalars import Date, Timestamp, date_of, decimals_of, timestamp_of

_EPOCH = datetime(1970, 1, 1)
# The calls of the types, and their structs: the limits, and whether there is a value.
_KINDS: Dict[str, Tuple[Callable[..., int], struct.Struct]] = {
    "int64": (exports.zones_int64, struct.Struct("=qqQ")),
    "uint64": (exports.zones_uint64, struct.Struct("=QQQ")),
    "decimal": (exports.zones_decimal, struct.Struct("=QqQqQ")),
    "date": (exports.zones_date, struct.Struct("=iiQ")),
    "timestamp": (exports.zones_int64, struct.Struct("=qqQ")),
}


class Zones:
    """The least and the greatest value of each block of rows, as Python values.

    A block in which no row has a value has None for both. A reader who wants the values of a range
    passes over the blocks where ``may_hold`` is False, and need not test the values of those where
    ``all_within`` is True.
    """
    __slots__ = ("block_rows", "least", "greatest", "_limits", "_number_of", "_rows")
    # How many rows a block has; the last may have fewer.
    block_rows: int
    least: List[Any]
    greatest: List[Any]
    # The same as they are compared, or None without a value; and what makes such of a value.
    _limits: List[Optional[Tuple[Any, Any]]]
    _number_of: Callable[[Any], Any]
    _rows: int

    def __init__(self) -> None:
        raise TypeError("zones are made by Typed.zones")

    def __len__(self) -> int:
        """How many blocks there are."""
        return len(self._limits)

    @property
    def has_value(self) -> List[bool]:
        """Of each block whether some row of it has a value."""
        return [it is not None for it in self._limits]

    def rows(self, block: int) -> range:
        """The numbers of the rows of a block."""
        start = range(0, self._rows, self.block_rows)[block]
        return range(start, min(start + self.block_rows, self._rows))

    def may_hold(self, low: Any = None, high: Any = None) -> List[bool]:
        """Of each block whether some value may be from ``low`` to ``high``, both included.

        False says that none is: there is none, or all are below ``low``, or all above ``high``.
        None is no limit. TypeError: the limit is of another type than the values.
        """
        low, high = map(self._limit_of, (low, high))
        return [it is not None and (low is None or it[1] >= low) and (high is None or it[0] <= high)
                for it in self._limits]

    def all_within(self, low: Any = None, high: Any = None) -> List[bool]:
        """Of each block whether it has a value, and all are from ``low`` to ``high``.

        None is no limit. TypeError: the limit is of another type than the values.
        """
        low, high = map(self._limit_of, (low, high))
        return [it is not None and (low is None or it[0] >= low) and (high is None or it[1] <= high)
                for it in self._limits]

    def _limit_of(self, value: Any) -> Any:
        return None if value is None else self._number_of(value)

    def __repr__(self) -> str:
        return f"<Zones, {len(self):,} blocks of {self.block_rows:,} rows>"


def _days_of(value: Union[date, Date]) -> int:
    if isinstance(value, Date):
        return value.days
    if not isinstance(value, date) or isinstance(value, datetime):
        raise TypeError(f"a limit of dates is a date, not {type(value).__name__}")
    return date.toordinal(value) - _EPOCH.toordinal()


def _micros_of(value: Union[datetime, Timestamp]) -> int:
    if isinstance(value, Timestamp):
        return value.micros
    if not isinstance(value, datetime) or value.tzinfo is not None:
        raise TypeError(f"a limit of timestamps is a datetime without a zone, not {value!r}")
    return (value - _EPOCH) // timedelta(microseconds=1)


def _itself(value: Any) -> Any:
    return value


def zones_of(name: str, scale: int, values: memoryview, states: memoryview,
             block_rows: int) -> Zones:
    """The zones of a typed column. TypeError: its type has none. ValueError: no row in a block."""
    kind = name.partition(" ")[0]
    if kind not in _KINDS:
        raise TypeError(f"a column of the type {name} has no zones")
    it = Zones.__new__(Zones)
    it.block_rows, it._rows = library.int_of(block_rows), len(states)
    if it.block_rows < 1:
        raise ValueError(f"a block has at least 1 row, not {it.block_rows}")
    numbers = _numbers_of(*_KINDS[kind], values, states, min(it.block_rows, it._rows))
    makers: Dict[str, Callable[[Any], Any]] = {"date": date_of, "timestamp": timestamp_of}
    maker = makers.get(kind, _itself)
    it.least, it.greatest = [None] * len(numbers), [None] * len(numbers)
    for block, limits in enumerate(numbers):
        if limits is not None:
            it.least[block], it.greatest[block] = map(maker, decimals_of(limits, scale))
    numbers_of: Dict[str, Callable[[Any], Any]] = {"date": _days_of, "timestamp": _micros_of}
    it._number_of = numbers_of.get(kind, _itself)
    it._limits = numbers
    if it._number_of is _itself:
        it._limits = [limits and (it.least[block], it.greatest[block])
                      for block, limits in enumerate(numbers)]
    return it


def _numbers_of(call: Callable[..., int], form: struct.Struct, values: memoryview,
                states: memoryview, block_rows: int) -> List[Optional[Tuple[int, int]]]:
    """The limits of each block by their numbers, and None if it has no value."""
    rows = len(states)
    if not rows:
        return []
    blocks = -(-rows // block_rows)
    room = ctypes.create_string_buffer(blocks * form.size)
    count = ctypes.c_size_t()
    buffers: List[Any] = [values.obj, states.obj]
    at = [it.buffer_info()[0] for it in buffers]
    status = call(at[0], rows, at[1], rows, block_rows, room, blocks, ctypes.addressof(count))
    if status:
        raise library.error_of(status)
    return [_limits_of(*numbers) if has_value else None
            for *numbers, has_value in form.iter_unpack(room.raw)]


def _limits_of(*numbers: int) -> Tuple[int, int]:
    """The two limits, of which each of a decimal comes as a low and a high word."""
    if len(numbers) == 2:
        return numbers[0], numbers[1]
    low, high, greatest_low, greatest_high = numbers
    return high << 64 | low, greatest_high << 64 | greatest_low
