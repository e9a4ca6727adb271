"""The members of all rows at the end of a path, as a column of values of one type.

docs/TYPED.md says which members fit which type. The rows come in batches, so that an interrupt from
the keyboard ends a long call between two of them.
"""
import array
import ctypes
from itertools import islice
from typing import (Any, Callable, Dict, Iterable, Iterator, List, NamedTuple, NoReturn, Optional,
                    Protocol, Sequence, Tuple, Union, overload)

from . import _arrays as arrays
from . import _capsules as capsules
from . import _iso as iso
from . import _library as library
from ._changes import Step, document_of_path, name_of_path, path_text
from ._document import Document
from ._errors import KohibladError, UnfitError, warn
from ._library import exports
from ._scalars import Interval, date_of, decimal_of, decimals_of, timestamp_of, timestamp_tz_of
from ._zones import Zones, zones_of

BATCH = 2048

_MOST_SCALE = 255
_MOST_SHOWN = 70
# Of a decimal of Arrow with 128 bits.
_MOST_DIGITS = 38
_FORMATS = {"int64": b"l", "uint64": b"L", "boolean": b"b", "text": b"U", "date": b"tdD",
            "timestamp": b"tsu:", "timestamp_tz": b"+s", "interval": b"tin", "binary": b"Z",
            "nothing": b"n", "mixed": b"n"}
# The children of a timestamp with a zone, which Arrow has for a whole column alone.
_ZONED = (capsules.Child(b"timestamp", b"tsu:UTC"), capsules.Child(b"offset_seconds", b"i"))
_NO_VALUES = ("nothing", "mixed")
# Their values have as many bytes each as they like.
_OF_BYTES = ("text", "binary")
# Values of two words, each a struct of the library: with the fields of numpy's, by their offsets.
_STRUCTS = {"timestamp_tz": (("timestamp", "datetime64[us]", 0), ("offset_seconds", "int32", 8)),
            "interval": (("months", "int32", 0), ("days", "int32", 4), ("micros", "int64", 8))}
_WITHOUT_SCALE = ("boolean", "int64", "uint64", "text", "date", "timestamp", *_STRUCTS, "binary",
                  *_NO_VALUES)
# What makes Python values of the values of these types.
_MAKERS: Dict[str, Callable[[Any], Any]] = {"boolean": bool, "date": date_of,
                                            "timestamp": timestamp_of}
# The states of rows of a type that has no values, where those of another type have some.
_WITHOUT_VALUES = bytes([library.ROW_ABSENT, library.ROW_UNFIT, library.ROW_NULL,
                         library.ROW_UNFIT, library.ROW_NO_DOCUMENT, *range(5, 256)])
# And where what does not fit counts as null.
_UNFIT_AS_NULL = bytes([library.ROW_ABSENT, library.ROW_VALUE, library.ROW_NULL, library.ROW_NULL,
                        library.ROW_NULL, *range(5, 256)])
_IS_ONE = bytes([48, 49, *254 * [48]])
_UNFIT, _NO_DOCUMENT = bytes([library.ROW_UNFIT]), bytes([library.ROW_NO_DOCUMENT])
_VALUE = bytes([library.ROW_VALUE])

_BUFFERS = ("states", "values", "offsets", "texts")
# The kinds of members, each with the fields of a survey that count it.
_KINDS = {"number": ("int64s", "uint64s", "decimal64s", "decimal128s"), "text": ("texts",),
          "boolean": ("booleans",), "date": ("dates",), "timestamp": ("timestamps",),
          "timestamp_tz": ("zoned_timestamps",), "interval": ("intervals",),
          "binary": ("binaries",), "array": ("arrays",), "object": ("objects",),
          "opaque": ("opaques",)}
_EXTENSION_KINDS = {0x00: "binary", 0x10: "date", 0x20: "timestamp", 0x30: "timestamp_tz",
                    0x40: "interval"}
_WITHOUT_TYPE = ("array", "object", "opaque")
_MOST_TOLD = 3

# A member that does not fit; bytes that are no document are kept as they are.
Unfit = Tuple[int, Union[Document, bytes]]


class Batch(NamedTuple):
    """Some rows, by addresses, as the library takes them."""
    first: int
    length: int
    data: int
    # Where the rows begin and end in the data.
    begin: int
    end: int
    offsets: int
    # Within which calls read the rows, none of which nests deeper.
    depth: int
    # What has the memory.
    owner: Any


class HasRows(Protocol):
    """What has the bytes of rows."""
    def bytes_at(self, row: int) -> bytes: ...


class Rows(HasRows, Protocol):
    """What a column of documents has for the calls here, in memory that does not change."""
    @property
    def length(self) -> int: ...
    # Whether each row that has bytes is known to be a document.
    @property
    def are_documents(self) -> bool: ...
    def batches(self) -> Iterator[Batch]: ...


class Survey(NamedTuple):
    """What the members of rows are: in how many rows they are what a count is named after.

    Numbers are counted by the kind in which they are stored; whole numbers that are not negative
    are mostly ``uint64s``. ``absent`` are the rows that have no such member, or are missing.
    """
    rows: int
    not_documents: int
    absent: int
    nulls: int
    booleans: int
    int64s: int
    uint64s: int
    decimal64s: int
    decimal128s: int
    texts: int
    binaries: int
    dates: int
    timestamps: int
    zoned_timestamps: int
    intervals: int
    opaques: int
    arrays: int
    objects: int
    # The least and the greatest number of digits after the point; 0 if there is no number.
    least_scale: int
    greatest_scale: int
    # Of a number without its point.
    most_digits: int
    # In bytes.
    longest_text: int

    @property
    def numbers(self) -> int:
        """How many members are numbers, of any kind."""
        return self.int64s + self.uint64s + self.decimal64s + self.decimal128s


def survey_of(batches: Iterable[Batch], steps: Tuple[Step, ...]) -> Survey:
    path = document_of_path(steps)
    totals = [0] * len(library.SURVEY_COUNTS)
    least_scale, greatest_scale, most_digits, longest_text, has_numbers = 0, 0, 0, 0, False
    for batch in batches:
        it = exports.survey(batch.data, batch.end, batch.offsets, batch.length + 1, path, len(path),
                            batch.depth)
        if it.status != library.OK:
            raise library.error_of(it.status)
        totals = [total + getattr(it, name)
                  for total, name in zip(totals, library.SURVEY_COUNTS)]
        if it.int64s or it.uint64s or it.decimal64s or it.decimal128s:
            least_scale = min(least_scale, it.least_scale) if has_numbers else it.least_scale
            has_numbers = True
        greatest_scale = max(greatest_scale, it.greatest_scale)
        most_digits = max(most_digits, it.most_digits)
        longest_text = max(longest_text, it.longest_text)
    return Survey(*[*totals, least_scale, greatest_scale, most_digits, longest_text])


def has_member(rows: Rows, steps: Tuple[Step, ...]) -> bool:
    """Whether a row has something at the end of a path."""
    return any(it.absent < it.rows for it in
               (survey_of([batch], steps) for batch in rows.batches()))


def possible_types(survey: Survey) -> List[str]:
    """The types of which the first that holds all members is the least, or mixed if none does."""
    members = survey.rows - survey.not_documents - survey.absent - survey.nulls
    if survey.numbers and survey.numbers == members:
        return ["int64", "uint64", f"decimal {survey.greatest_scale}", "mixed"]
    counts = {"nothing": 0, "boolean": survey.booleans, "text": survey.texts, "date": survey.dates,
              "timestamp": survey.timestamps, "timestamp_tz": survey.zoned_timestamps,
              "interval": survey.intervals, "binary": survey.binaries}
    return [next((name for name, count in counts.items() if count == members), "mixed")]


class Typed(library.Fixed, Sequence[Any]):
    """The member of each row as a value of one type, and None where a row has none.

    It is a sequence of Python values: int, Decimal, bool, str, date, datetime, Interval and bytes,
    and Date, Timestamp or TimestampTz where Python has no such date. Its buffers can be read
    without a copy, also by numpy: ``states``, a byte for each row, ``values``, where a row without
    a value has 0, of texts ``offsets`` and ``texts``, and of binary values ``offsets`` and
    ``values``.

    The state of a row is 0 if it has no such member, 1 if it has a value, 2 if the member is null,
    3 if it is another that does not fit, and 4 if the row is not a document.
    """
    __slots__ = ("type", "scale", "path", "unfit", "states", "values", "offsets", "texts", "_rows",
                 "_mixture", "__weakref__")
    # As docs/TYPED.md names them: boolean, int64, uint64, decimal 2, text, date, timestamp,
    # timestamp_tz, interval, binary, nothing or mixed.
    type: str
    # How many digits come after the point.
    scale: int
    path: Tuple[Step, ...]
    # How many rows have the states 3 and 4, or had them before they were taken as null.
    unfit: int
    states: memoryview
    # Of the format q or Q, of booleans B; of dates i, the days from 1970-01-01, and of timestamps q,
    # the microseconds. A decimal has two words of the format Q, the low one first, as Arrow's
    # decimal128. A timestamp with a zone has two of the format q, the microseconds in UTC, and the
    # offset in seconds in the low half of the second; an interval too, in the first the months in
    # the low half and the days in the high one, and the microseconds. Of binary values B, all their
    # bytes. Texts, nothing and mixed have none.
    values: memoryview
    # Of the format q, one more than there are rows: the text of row k goes from offsets[k] to
    # offsets[k + 1] in the UTF-8 that is `texts`, and so does a binary value in `values`.
    offsets: memoryview
    texts: memoryview
    _rows: Optional[HasRows]
    # Of the type mixed, what says why it has no values.
    _mixture: Optional["_Mixture"]

    def __init__(self) -> None:
        raise TypeError("typed members are made by Column.extract")

    def __len__(self) -> int:
        return len(self.states)

    @overload
    def __getitem__(self, index: int) -> Any: ...
    @overload
    def __getitem__(self, index: slice) -> List[Any]: ...

    def __getitem__(self, index: Union[int, slice]) -> Any:
        """The value of a row, or a list of those of a slice."""
        rows = range(len(self.states))[index]
        self._warn_of_mixture()
        return self._at(rows) if isinstance(rows, int) else list(map(self._at, rows))

    def _at(self, row: int) -> Any:
        if self.states[row] != library.ROW_VALUE:
            return None
        if self.type == "text":
            return str(self.texts[self.offsets[row]:self.offsets[row + 1]], "utf-8")
        if self.type == "binary":
            return bytes(self.values[self.offsets[row]:self.offsets[row + 1]])
        if self.type.startswith("decimal"):
            return decimal_of(_int128(*self.values[2 * row:2 * row + 2]), self.scale)
        if self.type in _STRUCTS:
            return next(_of_structs(self.type, self.values[2 * row:2 * row + 2]))
        value = self.values[row]
        return _MAKERS[self.type](value) if self.type in _MAKERS else value

    def __iter__(self) -> Iterator[Any]:
        return iter(self.to_list())

    def to_list(self) -> List[Any]:
        """The values of all rows, as Python values."""
        self._warn_of_mixture()
        if self.type in _NO_VALUES:
            return [None] * len(self.states)
        values: Iterable[Any] = self.values
        if self.type == "text":
            values = (str(self.texts[start:end], "utf-8")
                      for start, end in zip(self.offsets, self.offsets[1:]))
        elif self.type == "binary":
            values = (bytes(self.values[start:end])
                      for start, end in zip(self.offsets, self.offsets[1:]))
        elif self.type in _MAKERS:
            values = map(_MAKERS[self.type], self.values)
        elif self.type.startswith("decimal"):
            values = decimals_of(map(_int128, self.values[::2], self.values[1::2]), self.scale)
        elif self.type in _STRUCTS:
            values = _of_structs(self.type, self.values)
        return [value if state == library.ROW_VALUE else None
                for value, state in zip(values, self.states)]

    def _warn_of_mixture(self) -> None:
        if self._mixture is not None:
            warn(self._mixture.words())

    @property
    def rest(self) -> List[Unfit]:
        """The rows that do not fit, by their numbers, each with its member as a document.

        Of a row that is not a document it has the bytes. The list is made each time that it is
        asked for, from the rows. It is empty if what does not fit was taken as null.
        """
        rows, path = self._rows, document_of_path(self.path)
        if rows is None:
            return []
        return [(row, _member_of(rows.bytes_at(row), path) if state == library.ROW_UNFIT
                 else rows.bytes_at(row))
                for row, state in enumerate(self.states) if state >= library.ROW_UNFIT]

    @property
    def numpy(self) -> Any:
        """The values as an array of numpy, where a row without a value has 0.

        It has the memory of ``values``, and cannot be written to. Decimals are whole numbers
        without their point, of 64 bits where all fit, and else Python's in a copy. Timestamps are
        of the type datetime64[us], to which the least of 64 bits is not a time. With a zone they
        are structs with the fields timestamp, in UTC, and offset_seconds; intervals have months,
        days and micros. Dates are a copy of the type datetime64[D], and texts and binary values a
        copy with None where a row has none. ImportError: there is no numpy.
        """
        np = arrays.numpy_module()
        self._warn_of_mixture()
        if self.type in _NO_VALUES:
            return np.zeros(len(self.states), dtype="uint8")
        if self.type in _OF_BYTES:
            return arrays.of_objects(self.to_list())
        if self.type == "boolean":
            return np.asarray(self.values).view(bool)
        if self.type == "date":
            return np.asarray(self.values).astype("datetime64[D]")
        if self.type == "timestamp":
            return np.asarray(self.values).view("datetime64[us]")
        if self.type in _STRUCTS:
            names, formats, offsets = map(list, zip(*_STRUCTS[self.type]))
            return np.asarray(self.values).view(np.dtype({
                "names": names, "formats": formats, "offsets": offsets, "itemsize": 16}))
        if not self.type.startswith("decimal"):
            return np.asarray(self.values)
        words = np.asarray(self.values).view("int64")
        return arrays.of_decimals(words[::2], words[1::2], lambda: list(
            map(_int128, self.values[::2], self.values[1::2])))

    @property
    def is_set(self) -> Any:
        """Which rows have a value, as an array of numpy. ImportError: there is no numpy."""
        return arrays.numpy_module().asarray(self.states) == library.ROW_VALUE

    @property
    def masked(self) -> Any:
        """``numpy`` with a mask of the rows that have no value. ImportError: there is no numpy."""
        states = arrays.numpy_module().asarray(self.states)
        return arrays.masked(self.numpy, states != library.ROW_VALUE)

    def to_pandas(self, *, floats: bool = False) -> Any:
        """The values as a series of pandas, in which a row without one is missing.

        It is of the type Int64, UInt64, boolean or string, and of dates and timestamps one of
        datetime64, with a zone in UTC; other values, and dates that pandas has not, are Python's,
        as decimals; with ``floats`` these are the nearest doubles. ImportError: there is no pandas.
        """
        return arrays.series_of(self, name_of_path(self.path), floats)

    def __reduce__(self) -> Tuple[Any, ...]:
        """The column for pickle: a copy, with the rows of its rest alone."""
        kept = {} if self._rows is None else {
            row: self._rows.bytes_at(row) for row, state in enumerate(self.states)
            if state >= library.ROW_UNFIT}
        fields = {"type": self.type, "scale": self.scale, "path": self.path, "unfit": self.unfit,
                  "_mixture": self._mixture}
        # The arrays that have the memory of the buffers.
        owners = {name: getattr(self, name).obj for name in _BUFFERS}
        return _restored, (fields, owners, None if self._rows is None else kept)

    def zones(self, block_rows: int = 4096) -> Zones:
        """The least and the greatest value of each block of so many rows; the last may have fewer.

        TypeError: the values are booleans, texts or bytes, or the type has none. ValueError: a
        block has no row.
        """
        return zones_of(self.type, self.scale, self.values, self.states, block_rows)

    def __arrow_c_schema__(self) -> Any:
        """A capsule of the type: integers of 64 bits, Decimal128, Boolean, LargeUtf8, LargeBinary,
        Date32, Timestamp in microseconds without a zone, or Null. A timestamp with a zone is a
        struct of a Timestamp in UTC and the offset as Int32, and an interval one of months, days
        and nanoseconds."""
        if self.type.startswith("decimal"):
            return capsules.schema_capsule(f"d:{_MOST_DIGITS},{self.scale}".encode())
        return capsules.schema_capsule(_FORMATS[self.type],
                                       children=_ZONED if self.type == "timestamp_tz" else ())

    def __arrow_c_array__(self, requested_schema: Any = None) -> Tuple[Any, Any]:
        """Capsules of the type and of the array, which has the memory of ``values`` or ``texts``.

        A row without a value is null. Of booleans a copy with a bit for each row is handed out, and
        a copy of timestamps with a zone and of intervals. A schema that is requested is not looked
        at, as the interface allows. ValueError: a decimal has more than the 38 digits that Arrow's
        have, or an interval more nanoseconds than 64 bits hold.
        """
        self._warn_of_mixture()
        length = len(self.states)
        nulls = length - bytes(self.states).count(library.ROW_VALUE)
        buffers: List[Any] = [_bits_of(self.states) if nulls else None]
        children: List[Any] = []
        if self.type in _NO_VALUES:
            buffers = []
        elif self.type in _OF_BYTES:
            data = self.texts if self.type == "text" else self.values
            buffers += [self.offsets.obj, data.obj]
        elif self.type == "boolean":
            buffers.append(_bits_of(self.values))
        elif self.type == "timestamp_tz":
            children = [array.array("q", self.values[::2].tobytes()), _halves(self.values)[2::4]]
        elif self.type == "interval":
            buffers.append(self._intervals_of_arrow())
        else:
            if self.type.startswith("decimal"):
                self._expect_few_digits()
            buffers.append(self.values.obj)
        addresses, below = list(map(_address_of, buffers)), list(map(_address_of, children))
        return self.__arrow_c_schema__(), capsules.array_capsule(
            length, nulls, 0, addresses, (self, buffers, children), below)

    def __arrow_c_stream__(self, requested_schema: Any = None) -> Any:
        """A capsule of a stream that has the array of ``__arrow_c_array__`` alone."""
        return capsules.stream_capsule(self)

    def _expect_few_digits(self) -> None:
        limit = 10**_MOST_DIGITS
        high = self.values[1::2]
        # Most numbers are far below the limit.
        if all(it < limit >> 64 or it >= (1 << 64) - (limit >> 64) for it in high):
            return
        for row, number in enumerate(map(_int128, self.values[::2], high)):
            if not -limit < number < limit:
                raise ValueError(f"row {row}: Arrow's decimals have {_MOST_DIGITS} digits at most, "
                                 f"not those of {number}")

    def _intervals_of_arrow(self) -> Any:
        """The intervals with nanoseconds in place of microseconds."""
        words = array.array("q", self.values.tobytes())
        try:
            words[1::2] = array.array("q", [1000 * it for it in words[1::2]])
        except OverflowError:
            row, micros = next(it for it in enumerate(words[1::2])
                               if not -1 << 63 <= 1000 * it[1] < 1 << 63)
            raise ValueError(f"row {row}: Arrow's intervals have nanoseconds of 64 bits, not those "
                             f"of {micros} microseconds") from None
        return words

    def __repr__(self) -> str:
        return f"<Typed {self.type}, {len(self):,} rows>"


def _halves(words: memoryview) -> Any:
    """The halves of words of 64 bits, the low ones first."""
    return array.array("i", words.tobytes())


def _of_structs(name: str, words: memoryview) -> Iterator[Any]:
    """What values of a type that are structs stand for, each of two words."""
    halves = _halves(words)
    if name == "timestamp_tz":
        return map(timestamp_tz_of, words[::2], halves[2::4])
    return map(Interval, halves[::4], halves[1::4], words[1::2])


class _KeptRows:
    """The rows of the rest of a column, by their numbers."""

    def __init__(self, rows: Dict[int, bytes]) -> None:
        self._rows = rows

    def bytes_at(self, row: int) -> bytes:
        return self._rows[row]


def _restored(fields: Dict[str, Any], owners: Dict[str, Any],
              kept: Optional[Dict[int, bytes]]) -> Typed:
    """The column that pickle made these of."""
    return library.with_fields(
        Typed, **fields, _rows=None if kept is None else _KeptRows(kept),
        **{name: memoryview(it).toreadonly() for name, it in owners.items()})


def _bits_of(flags: memoryview) -> bytearray:
    """A bit for each byte, which is 1 where the byte is; the first is the lowest of its byte."""
    digits = bytes(flags).translate(_IS_ONE)
    return bytearray(int(b"0" + digits[::-1], 2).to_bytes(max(len(digits) + 7, 8) // 8, "little"))


def _address_of(buffer: Any) -> Optional[int]:
    """Where an array or bytearray is, as long as it is kept and keeps its size."""
    if buffer is None:
        return None
    if isinstance(buffer, array.array):
        return buffer.buffer_info()[0]
    return ctypes.addressof((ctypes.c_char * len(buffer)).from_buffer(buffer))


def _int128(low: int, high: int) -> int:
    """The number that two words without a sign are."""
    return (high << 64 | low) - (1 << 128 if high >> 63 else 0)


def _member_of(row: bytes, path: bytes) -> Document:
    """The document of the member that a row has at the end of a path."""
    place = exports.get_path(row, len(row), path, len(path),
                             library.fitting(library.LEVEL_STACK, row))
    if place.status != library.OK:
        raise library.error_of(place.status)
    payload = library.payload_of(row, place)
    if place.type == library.TYPE_CONTAINER:
        return Document(payload)
    return Document(library.scalar_document(place.type, payload))


def type_of(text: str) -> Tuple[str, int]:
    """A type as it is named, and its scale. ValueError: there is none of this name."""
    if not isinstance(text, str):
        raise TypeError(f"a type is a str, not {type(text).__name__}")
    if text in _WITHOUT_SCALE:
        return text, 0
    name, _, digits = text.partition(" ")
    if name == "decimal" and digits.isdecimal() and digits.isascii() \
            and int(digits) <= _MOST_SCALE:
        return f"decimal {int(digits)}", int(digits)
    raise ValueError(f"{text!r} is no type: there are {', '.join(_WITHOUT_SCALE)} and decimal with a "
                     f"scale up to {_MOST_SCALE}, as decimal 2")


def names_of(types: Iterable[Optional[str]]) -> List[Optional[str]]:
    """The types, each as it is named in a survey; None stays. ValueError: there is no such type."""
    if isinstance(types, str):
        raise TypeError(f"the types are a list: for one type give [{types!r}]")
    return [None if it is None else type_of(it)[0] for it in types]


class _Places:
    """Where the members of some names are in the rows of a batch."""

    def __init__(self, names: List[str]) -> None:
        self._numbers = {name: number for number, name in enumerate(names)}
        self._names = document_of_path(tuple(names))
        self._room = ctypes.create_string_buffer(library.PLACE_SIZE * len(names) * BATCH)

    def locate(self, batch: Batch, is_known: bool) -> None:
        """Finds the members in a batch. Rows that are known to be documents are not checked."""
        status = library.locate[is_known](
            batch.data, batch.end, batch.offsets, batch.length + 1, self._names, len(self._names),
            batch.depth, ctypes.addressof(self._room), len(self._numbers) * batch.length)
        if status != library.OK:
            raise library.error_of(status)

    def of(self, name: str, batch: Batch) -> Tuple[int, int, int]:
        """The address of the first place of a name, how many places there are from there on, and
        the step from one to the next."""
        number, step = self._numbers[name], len(self._numbers)
        return (ctypes.addressof(self._room) + library.PLACE_SIZE * number,
                step * batch.length - number, step)


class _Filled:
    """The buffers of a column of one type, which are filled batch by batch."""

    def __init__(self, name: str, steps: Tuple[Step, ...], exact: bool, length: int) -> None:
        self.name, self.scale = type_of(name)
        self.steps, self._path = steps, document_of_path(steps)
        self.states = array.array("B", [0]) * length
        code, self._words, self._calls, self._options = self._layout(
            library.EXACT if exact else library.BY_VALUE)
        self._call = self._calls[0]
        # Where the members of the batch are, if they are taken at places.
        self._places: Optional[Tuple[int, int, int]] = None
        self.values = array.array(code, [0]) * (self._words * length)
        self.offsets, self.texts = array.array("q", [0]), bytearray()
        self.unfit = 0
        # The library writes texts, or binary values, and their offsets of one batch here.
        self._room = ctypes.create_string_buffer(1)
        self._ends = array.array("Q", [0]) * (BATCH + 1)

    def _layout(self, fit: int) -> Tuple[str, int, library.Takes, Tuple[int, ...]]:
        """The format of the values, how many words each has, the calls that take them, with a check
        of the rows, without and at places, and what these take of their own."""
        if self.name.startswith("decimal"):
            return "Q", 2, library.take_decimal, (fit, self.scale)
        code, words, calls, has_fit = {
            "int64": ("q", 1, library.take_int64, True),
            "uint64": ("Q", 1, library.take_uint64, True),
            "text": ("Q", 0, library.take_text, False),
            "date": ("i", 1, library.take_date, False),
            "timestamp": ("q", 1, library.take_timestamp, False),
            "timestamp_tz": ("q", 2, library.take_timestamp_tz, False),
            "interval": ("q", 2, library.take_interval, False),
            "binary": ("B", 0, library.take_binary, False),
            "boolean": ("B", 1, library.take_boolean, False),
        }.get(self.name, ("B", 0, library.take_boolean, False))
        return code, words, calls, (fit,) if has_fit else ()

    def _members(self, batch: Batch) -> Tuple[Any, ...]:
        if self._places is not None:
            return (batch.data, batch.end, *self._places)
        return (batch.data, batch.end, batch.offsets, batch.length + 1, self._path, len(self._path),
                batch.depth)

    def _states_at(self, batch: Batch) -> Tuple[int, int]:
        return self.states.buffer_info()[0] + batch.first, batch.length

    def _take(self, batch: Batch) -> Any:
        """What the library says of a batch, which it took."""
        if self.name in _OF_BYTES:
            return self._take_texts(batch)
        if self.name in _NO_VALUES:
            return self._take_none(batch)
        values = self.values.buffer_info()[0] + self.values.itemsize * self._words * batch.first
        return self._call(*self._members(batch), *self._options, values, batch.length,
                          *self._states_at(batch))

    def _take_texts(self, batch: Batch) -> Any:
        # No text or binary value is longer than its row.
        room = batch.end - batch.begin
        if room > len(self._room):
            self._room = ctypes.create_string_buffer(room)
        length = ctypes.c_size_t()
        taken = self._call(*self._members(batch), self._room, len(self._room),
                           ctypes.addressof(length), self._ends.buffer_info()[0],
                           batch.length + 1, *self._states_at(batch))
        if taken.status == library.OK:
            ends = memoryview(self._ends)[1:batch.length + 1]
            self.offsets.extend(map(len(self.texts).__add__, ends))
            self.texts += memoryview(self._room)[:length.value]
        return taken

    def _take_none(self, batch: Batch) -> Any:
        scratch = ctypes.create_string_buffer(batch.length)
        taken = self._call(*self._members(batch), scratch, batch.length, *self._states_at(batch))
        states = self._states_of(batch).translate(_WITHOUT_VALUES)
        self.states[batch.first:batch.first + batch.length] = array.array("B", states)
        taken.unfit = states.count(_UNFIT) + states.count(_NO_DOCUMENT)
        return taken

    def _states_of(self, batch: Batch) -> bytes:
        return self.states[batch.first:batch.first + batch.length].tobytes()

    def fill(self, rows: Rows, *, is_known: bool, is_trial: bool, refuses: bool = False) -> bool:
        """Takes all rows, and returns whether it did: a trial ends at a member that does not fit.

        Rows that are known to be documents are not checked. UnfitError, InvalidDocumentError: what
        does not fit is refused, and some row does not.
        """
        self._call = self._calls[is_known]
        for batch in rows.batches():
            taken = self._take(batch)
            if taken.status != library.OK:
                raise library.error_of(taken.status)
            if not taken.unfit:
                continue
            if is_trial and _UNFIT in self._states_of(batch):
                return False
            self.unfit += taken.unfit
            if refuses:
                self.refuse_first(rows)
        return True

    def fill_at(self, batch: Batch, places: _Places) -> None:
        """Takes the rows of a batch, whose members are at places."""
        self._call = self._calls[2]
        self._places = places.of(str(self.steps[0]), batch)
        taken = self._take(batch)
        if taken.status != library.OK:
            raise library.error_of(taken.status)
        self.unfit += taken.unfit

    def read_texts(self, rows: Rows) -> None:
        """Takes the texts of dates and timestamps among the members that do not fit."""
        read = iso.READERS.get(self.name)
        if read is None or not self.unfit:
            return
        texts = _Filled("text", self.steps, False, rows.length)
        texts.fill(rows, is_known=rows.are_documents, is_trial=False)
        data = bytes(texts.texts)
        for row, (begin, end) in enumerate(zip(texts.offsets, texts.offsets[1:])):
            numbers = read(data[begin:end]) if begin < end else None
            if numbers is not None:
                self._put(row, numbers)
                self.states[row] = library.ROW_VALUE
                self.unfit -= 1

    def _put(self, row: int, numbers: iso.Numbers) -> None:
        """Puts the value of a row, which a date or timestamp is stored as."""
        self.values[self._words * row] = numbers[0]
        if len(numbers) == 2:
            # The offset is the low half of the second word.
            self.values[2 * row + 1] = numbers[1] & 0xFFFFFFFF

    def first_text(self, rows: Rows) -> Optional[bytes]:
        """The first text among the members of the rows."""
        texts = _Filled("text", self.steps, False, rows.length)
        texts.fill(rows, is_known=rows.are_documents, is_trial=False)
        row = texts.states.tobytes().find(_VALUE)
        return None if row < 0 else bytes(texts.texts[texts.offsets[row]:texts.offsets[row + 1]])

    def refuse_first(self, rows: Rows) -> NoReturn:
        """UnfitError, InvalidDocumentError: the first row that does not fit."""
        states = self.states.tobytes()
        raise self._refusal(rows, min(at for at in map(states.find, (_UNFIT, _NO_DOCUMENT))
                                      if at >= 0))

    def _refusal(self, rows: Rows, row: int) -> KohibladError:
        """Why a row does not fit."""
        data = rows.bytes_at(row)
        if self.states[row] == library.ROW_NO_DOCUMENT:
            error = library.error_of(library.INVALID_JSONB, "the row is no document")
        else:
            wanted = {"mixed": "no one type", "nothing": "not nothing"}.get(self.name)
            shown = str(_member_of(data, self._path))
            if len(shown) > _MOST_SHOWN:
                shown = shown[:_MOST_SHOWN - 3] + "..."
            error = UnfitError(library.OTHER_KIND, library.status_name(library.OTHER_KIND),
                               f"{wanted or 'no ' + self.name} at {Document(self._path)}: {shown}")
        error.row, error.place = row, f"row {row}"
        return error

    def shows_documents(self) -> bool:
        """Whether the rows were all documents."""
        return _NO_DOCUMENT not in self.states.tobytes()

    def typed(self, rows: Rows, unfit: str) -> Typed:
        states = self.states
        if self.name == "timestamp_tz" and states:
            # The padding after an offset may hold any bytes.
            unused = memoryview(self.values).cast("B").cast("i")[3::4]
            unused[:] = memoryview(array.array("i", [0]) * len(unused))
        if unfit == "null" and self.unfit:
            states = array.array("B", states.tobytes().translate(_UNFIT_AS_NULL))
        values: Any = self.values
        texts: Any = self.texts
        if self.name == "binary":
            values, texts = texts, values
        buffers = {"states": states, "values": values, "offsets": self.offsets, "texts": texts}
        return library.with_fields(
            Typed, type=self.name, scale=self.scale, path=self.steps, unfit=self.unfit,
            _rows=rows if unfit == "rest" and self.unfit else None,
            _mixture=_Mixture(rows, self.steps) if self.name == "mixed" else None,
            **{name: memoryview(it).toreadonly() for name, it in buffers.items()})


class _Mixture:
    """Why no one type holds the members of rows."""

    def __init__(self, rows: Rows, steps: Tuple[Step, ...]) -> None:
        self._rows, self._steps = rows, steps
        self._words: Optional[str] = None

    def words(self) -> str:
        """What is usual, and the first rows that have something else."""
        if self._words is None:
            survey = survey_of(self._rows.batches(), self._steps)
            counts: List[Tuple[int, str]] = [(sum(getattr(survey, it) for it in names), kind)
                                             for kind, names in _KINDS.items()]
            usual = max(counts, key=lambda it: it[0])[1]
            odd = [f"row {row}: {kind}" for row, kind in
                   islice(self._odd_rows(usual, survey.greatest_scale), _MOST_TOLD)]
            found = f": most rows have a {usual} there, but {', '.join(odd)}" if odd else ""
            self._words = f"the column of {path_text(self._steps)} is mixed, a type without " \
                          f"values{found}; name a type for it, and what does not fit is its rest"
        return self._words

    def _odd_rows(self, usual: str, scale: int) -> Iterator[Tuple[int, str]]:
        """The rows that have a member of another kind than the usual one, and its kind."""
        name = f"decimal {scale}" if usual == "number" else usual
        column = _Filled("nothing" if usual in _WITHOUT_TYPE else name, self._steps, False,
                         self._rows.length)
        column.fill(self._rows, is_known=self._rows.are_documents, is_trial=False)
        states, path = column.states.tobytes(), document_of_path(self._steps)
        row = states.find(_UNFIT)
        while row >= 0:
            kind = _kind_of(_member_of(self._rows.bytes_at(row), path))
            if kind != usual:
                yield row, kind
            row = states.find(_UNFIT, row + 1)

    def __reduce__(self) -> Tuple[Any, ...]:
        return _told_mixture, (self.words(),)


def _told_mixture(words: str) -> _Mixture:
    it = _Mixture.__new__(_Mixture)
    it._words = words
    return it


def _kind_of(member: Document) -> str:
    if member.kind == "extension":
        data = bytes(member)
        return _EXTENSION_KINDS.get(exports.as_extension(data, len(data)).tag, "opaque")
    return {"string": "text"}.get(member.kind, member.kind)


def least_type(rows: Rows, steps: Tuple[Step, ...], exact: bool) -> str:
    """The first type that holds all members."""
    found, _ = _of_least_type(rows, steps, exact, rows.are_documents)
    return found if isinstance(found, str) else found.name


def extract(rows: Rows, members: Iterable[Tuple[Tuple[Step, ...], Optional[str]]], unfit: str,
            exact: bool, iso_dates: bool = False) -> List[Typed]:
    """For each path the column of a type, or of the least one if none is named."""
    wanted, is_known = list(members), rows.are_documents
    located = _located(rows, wanted, exact, is_known)
    columns = []
    for number, (steps, name) in enumerate(wanted):
        column = located.get(number)
        if column is None:
            refuses = unfit == "error" and not iso_dates
            column = _filled(rows, steps, name, refuses, exact, is_known)
        if iso_dates:
            column = _with_texts(rows, column, name)
        else:
            _tell_of_texts(rows, column)
        if unfit == "error" and column.unfit:
            column.refuse_first(rows)
        # Rows that were checked for one member are not checked again for the next ones.
        is_known = is_known or column.shows_documents()
        columns.append(column.typed(rows, unfit))
    return columns


def _tell_of_texts(rows: Rows, column: _Filled) -> None:
    """Warns if a column of dates or timestamps has no value, and the first text is one."""
    read = iso.READERS.get(column.name)
    if read is None or not column.unfit or _VALUE in column.states.tobytes():
        return
    text = column.first_text(rows)
    if text is not None and read(text) is not None:
        warn(f"no row has a {column.name} at {path_text(column.steps)}, but texts as "
             f"{text.decode()}: iso_dates reads them")


def _with_texts(rows: Rows, column: _Filled, name: Optional[str]) -> _Filled:
    """A column with its texts of dates and timestamps, or where no type is named a column of these
    if it holds all members."""
    if name is not None or column.name not in ("text", "mixed"):
        column.read_texts(rows)
        return column
    text = column.first_text(rows)
    found = None if text is None else iso.type_of_text(text)
    if found is None:
        return column
    other = _Filled(found, column.steps, False, rows.length)
    other.fill(rows, is_known=rows.are_documents, is_trial=False)
    other.read_texts(rows)
    return column if _UNFIT in other.states.tobytes() else other


def _located(rows: Rows, members: List[Tuple[Tuple[Step, ...], Optional[str]]], exact: bool,
             is_known: bool) -> Dict[int, _Filled]:
    """The columns of the members of a type that have a name alone as their path, by their numbers,
    if there are several names: each row is walked once for all of them."""
    named = {number: (steps, name) for number, (steps, name) in enumerate(members)
             if name is not None and len(steps) == 1 and isinstance(steps[0], str)}
    # In the order of their bytes, which is that of their characters.
    names = sorted({str(steps[0]) for steps, _ in named.values()})
    if len(names) < 2:
        return {}
    columns = {number: _Filled(name, steps, exact, rows.length)
               for number, (steps, name) in named.items()}
    places = _Places(names)
    for batch in rows.batches():
        places.locate(batch, is_known)
        for column in columns.values():
            column.fill_at(batch, places)
    return columns


def _filled(rows: Rows, steps: Tuple[Step, ...], name: Optional[str], refuses: bool, exact: bool,
            is_known: bool) -> _Filled:
    """The column of a type, or of the least one if none is named."""
    found: Union[str, _Filled, None] = name
    if found is None:
        found, is_known = _of_least_type(rows, steps, exact, is_known)
    if isinstance(found, str):
        column = _Filled(found, steps, exact, rows.length)
        column.fill(rows, is_known=is_known, is_trial=False, refuses=refuses)
        return column
    if refuses and found.unfit:
        found.refuse_first(rows)
    return found


def _of_least_type(rows: Rows, steps: Tuple[Step, ...], exact: bool,
                   is_known: bool) -> Tuple[Union[str, _Filled], bool]:
    """The column of the least type, or its name if no column of it was tried; and whether the rows
    are known to be documents by then."""
    # If the first rows have some values of such a type, and it holds all members, it is the least.
    guess = possible_types(survey_of(islice(rows.batches(), 1), steps))[0]
    if guess in ("boolean", "int64", "text", "date", "timestamp", *_STRUCTS, "binary"):
        column = _Filled(guess, steps, exact, rows.length)
        if column.fill(rows, is_known=is_known, is_trial=True):
            return column, is_known
    survey = survey_of(rows.batches(), steps)
    is_known = is_known or not survey.not_documents
    *tried, last = possible_types(survey)
    for name in tried:
        column = _Filled(name, steps, exact, rows.length)
        if name != guess and column.fill(rows, is_known=is_known, is_trial=True):
            return column, is_known
    return last, is_known
