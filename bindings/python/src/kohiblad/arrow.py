"""Columns of documents that Arrow has, by its C data interface: no row is copied on the way.

    >>> from kohiblad import Document
    >>> from kohiblad.arrow import Column
    >>> column = Column.of([Document.of({"id": 2}), None, Document.of({"id": 1})])
    >>> len(column), column[0], column.sorted_order()
    (3, <ObjectDocument {"id":2}>, [2, 0, 1])
    >>> again = Column.from_arrow(column)
    >>> again[2]
    <ObjectDocument {"id":1}>
    >>> column.survey("id").uint64s, column.extract(["id"])[0].to_list()
    (2, [2, None, 1])

``pyarrow.array``, and each other library that knows ``__arrow_c_array__``, takes a ``Column``: as
LargeBinary, of the extension type ``kohiblad``. ``Column.from_arrow`` takes what such a library has
of the types Binary and LargeBinary, also a slice. A column of the members of all rows, which
``Column.extract`` takes, is handed out in the same way, as integers, decimals, booleans, texts,
dates, timestamps or intervals.
"""
import array
import ctypes
import heapq
import itertools
import operator
import sys
import weakref
from ctypes import byref, c_int32, c_int64, c_size_t
from typing import (Any, Iterable, Iterator, List, Mapping, NamedTuple, Optional, Protocol,
                    Sequence, Tuple, Union, overload)

from . import _arrays as arrays
from . import _capsules as capsules
from . import _library as library
from . import _typed as typed
from ._changes import DocumentPath, Step, path_text, steps_of, warn_of_missing
from ._document import Document, path_error, steps_of_name, steps_of_text
from ._errors import KohibladError, OutOfMemoryError, TooDeepError, warn
from ._library import exports
from ._stack import DEPTH
from ._typed import Survey, Typed
from ._zones import Zones

__all__ = ["Column", "Survey", "Typed", "Zones", "frame"]

EXTENSION_NAME = b"kohiblad"
_LARGE_BINARY, _BINARY = b"Z", b"z"
# So the text of a path begins, where a path is given.
_TEXT_STARTS = ("$.", "$[")
# The offsets of so many rows, and one more, have addresses.
_MOST_ROWS = sys.maxsize // 16
# So many rows are sorted, and so many offsets tested, between two looks for a signal.
_SORTED_AT_ONCE, _TESTED_AT_ONCE = 8192, 1 << 20


class HasArrow(Protocol):
    """What a library that knows Arrow's C data interface has for an array."""

    def __arrow_c_array__(self, requested_schema: Any = None) -> Tuple[Any, Any]: ...


def _metadata() -> bytes:
    """The pairs that make a type of Arrow an extension type."""
    pairs = ((b"ARROW:extension:name", EXTENSION_NAME), (b"ARROW:extension:metadata", b""))
    texts = [it for pair in pairs for it in pair]
    return bytes(c_int32(len(pairs))) + b"".join(bytes(c_int32(len(it))) + it for it in texts)


class _Rows(NamedTuple):
    """The rows of a column where they are in memory. No subclass of a column answers for it."""
    length: int
    # One more than there are rows, from the row `first` on.
    offsets: Any
    data: int
    validity: Optional[int]
    first: int
    kept: Tuple[Any, ...]
    # Whether each row that has bytes is known to be a document: those of Arrow are not.
    are_documents: bool

    def is_missing(self, row: int) -> bool:
        if self.validity is None:
            return False
        byte, bit = divmod(self.first + row, 8)
        return not ctypes.c_uint8.from_address(self.validity + byte).value >> bit & 1

    def bytes_at(self, row: int) -> bytes:
        start, end = self.offsets[self.first + row:self.first + row + 2]
        return ctypes.string_at(self.data + start, end - start)

    def copied(self) -> Tuple[bytes, Any, List[int]]:
        """The bytes of the rows, where each begins and the last ends, and the missing rows."""
        offsets = array.array("q", self.offsets[self.first:self.first + self.length + 1])
        begin, end = offsets[0], offsets[-1]
        return (ctypes.string_at(self.data + begin, end - begin),
                array.array("q", (it - begin for it in offsets)),
                list(filter(self.is_missing, range(self.length))))

    def known(self) -> Optional[List[bytes]]:
        """The bytes of all rows, if each is known to be a document."""
        if not self.are_documents or self.validity is not None:
            return None
        data, offsets, _ = self.copied()
        return list(map(data.__getitem__, map(slice, offsets, offsets[1:])))

    def offsets_at(self, row: int) -> int:
        """The address of the offset of a row."""
        return ctypes.addressof(self.offsets) + 8 * (self.first + row)

    def depth_of(self, first: int, count: int) -> int:
        """The depth within which calls read some rows. TooDeepError: one nests deeper than the
        thread's stack carries."""
        depth = library.depth_left(library.LEVEL_STACK)
        if depth < DEPTH:
            for row in range(first, first + count):
                if not self.is_missing(row):
                    self.expect_carried(row, depth)
        return depth

    def expect_carried(self, row: int, depth: int) -> None:
        """TooDeepError: a row nests deeper."""
        try:
            library.expect_carried(self.bytes_at(row), depth)
        except TooDeepError as error:
            error.row, error.place = row, f"row {row}"
            raise

    def sorted_run(self, first: int, count: int) -> List[int]:
        """The numbers of some rows, in their order. Raises as `depth_of`."""
        order, depth = (c_size_t * count)(), self.depth_of(first, count)
        status = exports.sort(self.data, self.offsets[self.first + first + count],
                              self.offsets_at(first), count + 1, depth, order, count)
        if status != library.OK:
            raise library.error_of(status)
        numbers = [first + row for row in order]
        return numbers if self.validity is None else sorted(numbers, key=self.is_missing)

    def rank(self, row: int) -> Tuple[int, bytes]:
        """What sorts as the row does: a document by its key, before what is none, and that before
        what is missing."""
        if self.is_missing(row):
            return 2, b""
        data = self.bytes_at(row)
        try:
            return 0, library.key_of(data)
        except OutOfMemoryError:
            raise
        except KohibladError:
            self.expect_carried(row, library.depth_left(library.LEVEL_STACK))
            return 1, b""

    def batches(self) -> Iterator[typed.Batch]:
        for first in range(0, self.length, typed.BATCH):
            yield self._batch(first, min(typed.BATCH, self.length - first))

    def _batch(self, first: int, count: int) -> typed.Batch:
        """Some rows where they are, or a copy where a missing row has bytes.

        Raises as `depth_of`.
        """
        at, depth = self.first + first, self.depth_of(first, count)
        if any(self.offsets[at + row] < self.offsets[at + row + 1]
               for row in self._missing(first, count)):
            missing = set(self._missing(first, count))
            rows = [b"" if row in missing else self.bytes_at(first + row) for row in range(count)]
            data = ctypes.create_string_buffer(b"".join(rows))
            ends = array.array("q", [0, *itertools.accumulate(map(len, rows))])
            return typed.Batch(first, count, ctypes.addressof(data), 0, ends[-1],
                               ends.buffer_info()[0], depth, (data, ends))
        return typed.Batch(first, count, self.data, self.offsets[at], self.offsets[at + count],
                           self.offsets_at(first), depth, self)

    def _missing(self, first: int, count: int) -> Iterator[int]:
        """The numbers of the missing rows among some, counted from the first of these."""
        if self.validity is None:
            return
        byte, bit = divmod(self.first + first, 8)
        flags = ctypes.string_at(self.validity + byte, (bit + count + 7) // 8)
        missing = ~(int.from_bytes(flags, "little") >> bit) & (1 << count) - 1
        while missing:
            row = missing.bit_length() - 1
            yield row
            missing ^= 1 << row


class Column(library.Fixed, Sequence[Optional[Document]]):
    """Documents in a row, some of which may be missing, in memory that Arrow understands.

    A document is copied, and checked, when it is read: InvalidDocumentError, if it is not one.
    """
    __slots__ = ("_rows", "__weakref__")
    _rows: _Rows

    def __init__(self) -> None:
        raise TypeError("a column is made by Column.of or Column.from_arrow")

    @classmethod
    def of(cls, documents: Iterable[Optional[Document]]) -> "Column":
        """The column of documents; None is a row that is missing."""
        capsules.release_some()
        data, offsets, validity = bytearray(), array.array("q", [0]), bytearray()
        are_documents = True
        for row, document in enumerate(documents):
            if row % 8 == 0:
                validity.append(0)
            if document is not None:
                validity[-1] |= 1 << row % 8
                stored = bytes(document)
                # A subclass may hand out other bytes.
                are_documents = are_documents and stored is getattr(document, "_data", None)
                data += stored
            offsets.append(len(data))
        has_all = all(validity[row // 8] >> row % 8 & 1 for row in range(len(offsets) - 1))
        # An empty buffer has no address.
        data, validity = data or bytearray(1), validity or bytearray(1)
        at = [(ctypes.c_char * len(it)).from_buffer(it) for it in (data, validity)]
        return cls._new(len(offsets) - 1, offsets.buffer_info()[0], ctypes.addressof(at[0]),
                        None if has_all else ctypes.addressof(at[1]), 0, (offsets, *at),
                        are_documents)

    @classmethod
    def _new(cls, length: int, offsets: int, data: int, validity: Optional[int], first: int,
             kept: Tuple[Any, ...], are_documents: bool) -> "Column":
        words = (c_int64 * (first + length + 1)).from_address(offsets)
        return library.with_fields(cls, _rows=_Rows(length, words, data, validity, first, kept,
                                                    are_documents))

    @classmethod
    def from_arrow(cls, source: HasArrow) -> "Column":
        """The column of an array of Arrow, whose memory it keeps until it is freed.

        TypeError: the array is neither Binary nor LargeBinary. ValueError: it was released before,
        or is no such array: it has other parts, lacks a buffer that its rows need, or its offsets
        do not ascend. What is refused is left to the source. Offsets of 32 bits are widened. The
        interface does not say how long buffers are, so that they are as long as the array says is
        the source's word.
        """
        capsules.release_some()
        schema_capsule, array_capsule = source.__arrow_c_array__()
        schema = capsules.Schema.from_address(
            capsules.pointer_of(schema_capsule, capsules.SCHEMA_NAME))
        given = capsules.Array.from_address(
            capsules.pointer_of(array_capsule, capsules.ARRAY_NAME))
        if not schema.release or not given.release:
            raise ValueError("the array was released, or taken by another")
        if schema.format not in (_LARGE_BINARY, _BINARY):
            raise TypeError(f"a column of documents is binary, not of format {schema.format!r}")
        _check_parts(schema, given)
        offsets, kept = _offsets_of(given, schema.format == _BINARY)
        validity, _, data = given.buffers[:3]
        taken, owner = capsules.Array(), _Owner()
        # An empty array needs no memory, and without data no row has a byte.
        column = cls._new(given.length, offsets, data or offsets,
                          validity if given.null_count else None,
                          given.offset if given.length else 0, (owner, kept), False)
        ctypes.memmove(byref(taken), byref(given), ctypes.sizeof(capsules.Array))
        given.release = capsules.Release(0)
        # At the end of the program others may still read the column.
        weakref.finalize(owner, _end, taken).atexit = False
        return column

    @classmethod
    def _restored(cls, data: bytes, offsets: Any, missing: List[int]) -> "Column":
        """The column of rows, which are checked when they are read."""
        validity = bytearray(b"\xff" * (len(offsets) // 8 + 1))
        for row in missing:
            validity[row // 8] ^= 1 << row % 8
        # An empty buffer has no address.
        at = [(ctypes.c_char * len(it)).from_buffer(it) for it in (bytearray(data) or bytearray(1),
                                                                   validity)]
        return cls._new(len(offsets) - 1, offsets.buffer_info()[0], ctypes.addressof(at[0]),
                        ctypes.addressof(at[1]) if missing else None, 0, (offsets, *at), False)

    def __reduce__(self) -> Tuple[Any, ...]:
        """The column for pickle: a copy of its rows."""
        return type(self)._restored, self._rows.copied()

    def __repr__(self) -> str:
        return f"<Column of {self._rows.length:,} documents>"

    def to_pandas(self) -> Any:
        """The documents as a series of pandas, with None for a row that is missing.

        ImportError: there is no pandas.
        """
        documents = [self._row(row) for row in range(self._rows.length)]
        return arrays.pandas_module().Series(arrays.of_objects(documents))

    def __len__(self) -> int:
        return self._rows.length

    @overload
    def __getitem__(self, index: int) -> Optional[Document]: ...
    @overload
    def __getitem__(self, index: slice) -> "Column": ...

    def __getitem__(self, index: Union[int, slice]) -> Union[Optional[Document], "Column"]:
        """The document of a row, None if it is missing; or the column of a slice."""
        it = self._rows
        rows = range(it.length)[index]
        if isinstance(rows, int):
            return self._row(rows)
        if rows.step == 1:
            return self._new(len(rows), ctypes.addressof(it.offsets), it.data, it.validity,
                             it.first + rows.start, (self,), it.are_documents)
        return Column.of(map(self._row, rows))

    def _row(self, row: int) -> Optional[Document]:
        return None if self._rows.is_missing(row) else Document(self._rows.bytes_at(row))

    def __iter__(self) -> Iterator[Optional[Document]]:
        return map(self._row, range(self._rows.length))

    def sorted_order(self) -> List[int]:
        """The numbers of the rows, in the order of the documents; missing ones are last.

        Rows that are not documents of at most ``DEPTH`` levels come after all that are. Signals are
        handled meanwhile.
        """
        rows = self._rows
        runs = [rows.sorted_run(first, min(_SORTED_AT_ONCE, rows.length - first))
                for first in range(0, rows.length, _SORTED_AT_ONCE)]
        # Of equal documents the first comes first, since the runs do.
        return list(heapq.merge(*runs, key=rows.rank)) if len(runs) > 1 else sum(runs, [])

    def survey(self, path: DocumentPath) -> Survey:
        """Counts what the members of the rows at the end of a path are.

        >>> texts = ['{"price": 5}', '{"price": 1.5}', '{"price": null}', '{"sku": "k7"}']
        >>> column = Column.of(map(Document.parse, texts))
        >>> counts = column.survey("price")
        >>> counts.rows, counts.absent, counts.nulls, counts.numbers, counts.greatest_scale
        (4, 1, 1, 2, 1)

        The path is one as for ``extract``. Rows need not be documents: those that are none
        have a count of their own.
        """
        return typed.survey_of(self._rows.batches(), _steps_of(path))

    def least_type(self, path: DocumentPath, *, exact: bool = False) -> str:
        """The first type that holds the members of all rows at the end of a path.

        >>> Column.of([Document.of({"price": 5})]).least_type("price")
        'int64'

        It is nothing, boolean, int64, uint64, decimal with the greatest scale, as decimal 2, text,
        date, timestamp, timestamp_tz, interval, binary or mixed, which are tried in this order.
        Null is held by each, and rows that are no documents do not count.
        """
        return typed.least_type(self._rows, _steps_of(path), exact)

    def extract(self, paths: Iterable[DocumentPath],
                types: Optional[Iterable[Optional[str]]] = None, *, unfit: str = "rest",
                exact: bool = False, iso_dates: bool = False) -> List[Typed]:
        """The members of the rows at the end of each path, as columns of values of one type.

        >>> texts = ['{"price": 5}', '{"price": "1.5"}', '{"sku": "k7"}', '{"price": 1.50}']
        >>> column = Column.of(map(Document.parse, texts))
        >>> prices, skus = column.extract(["price", "sku"], ["decimal 2", None])
        >>> prices.to_list(), prices.rest
        ([Decimal('5.00'), None, None, Decimal('1.50')], [(1, <ScalarDocument "1.5">)])
        >>> skus.type, skus.to_list()
        ('text', [None, None, 'k7', None])

        A path is one as for ``Document.set``, so a str is a key; but one that begins with ``$.`` or
        ``$[`` is the text of a path, as ``$.at.town``, and a list has such a key. A type is
        boolean, int64, uint64, text, date, timestamp, timestamp_tz, interval, binary, decimal with
        a scale, as decimal 2, or nothing or mixed, which have no values. Where none is named it is
        the ``least_type``. A number fits if it equals a value of the type, or, if it is ``exact``,
        if the value gives its kind and digits back.

        With ``iso_dates`` texts of RFC 3339, a profile of ISO 8601, fit the types of dates and
        timestamps too: ``2026-11-29`` date, ``2026-11-29T12:30:00.5`` timestamp, as a clock shows
        it, and the same with ``Z`` or ``+02:00`` after it timestamp_tz, in UTC with its offset.
        Where no type is named and all texts of a member are such of one type, it is that. A text
        that no value is exactly does not fit, as one with a leap second, or with more digits than
        those of microseconds.

        >>> days = Column.of(Document.of({"day": it}) for it in ("2026-11-29", "2026-02-29", None))
        >>> days.extract(["day"], ["date"], iso_dates=True)[0].to_list()
        [datetime.date(2026, 11, 29), None, None]

        The rows of a column that was made of documents are not checked again, nor are those of
        Arrow for the second path and the later ones, unless one of them is not a document.

        What ``unfit`` says is done with members that do not fit, but for null, and with rows that
        are no documents: the ``rest`` keeps them, they count as null, or the first is an error.
        UnfitError: such a member. InvalidDocumentError: such a row. ValueError: there is no such
        type, or there are not as many types as paths. TypeError: the paths are one str. PathError:
        a text is no path, or no row has a key that leads somewhere as the text of a path.

        KohibladWarning: there are rows, and none of them has a member; or none has a date of the
        type that is named, and the first text is one that ``iso_dates`` reads. A column of the type
        mixed warns when its values are read, and names the first rows that are not as most.
        """
        if isinstance(paths, str):
            raise TypeError(f"the paths are a list: for one path give [{paths!r}]")
        given = list(paths)
        if unfit not in ("rest", "null", "error"):
            raise ValueError(f"what does not fit is rest, null or error, not {unfit!r}")
        steps = list(map(_steps_of, given))
        names = typed.names_of([None] * len(steps) if types is None else types)
        if len(names) != len(steps):
            raise ValueError(f"there are {len(steps)} paths and {len(names)} types")
        columns = typed.extract(self._rows, zip(steps, names), unfit, exact, iso_dates)
        self._tell_missing([(path, it.path) for path, it in zip(given, columns)
                            if len(it) and not any(bytes(it.states))])
        return columns

    def _tell_missing(self, members: List[Tuple[DocumentPath, Tuple[Step, ...]]]) -> None:
        """Warns of members that no row has. PathError: one is given as a str that is no key, but
        leads somewhere as the text of a path."""
        for path, _ in members:
            meant = steps_of_name(path) if isinstance(path, str) else None
            if meant and typed.has_member(self._rows, meant):
                raise path_error(f"no row has the key {path!r}: for the path that it is as a text "
                                 f"give {list(meant)}, or {path_text(meant)!r}")
        if members:
            warn_of_missing([steps for _, steps in members])

    def __arrow_c_schema__(self) -> Any:
        """A capsule of the type: LargeBinary, of the extension type ``kohiblad``."""
        return capsules.schema_capsule(_LARGE_BINARY, _metadata())

    def __arrow_c_array__(self, requested_schema: Any = None) -> Tuple[Any, Any]:
        """Capsules of the type and of the array, which has this column's memory.

        A schema that is requested is not looked at, as the interface allows.
        """
        rows = self._rows
        nulls = sum(map(rows.is_missing, range(rows.length))) if rows.validity else 0
        addresses = rows.validity, ctypes.addressof(rows.offsets), rows.data
        return self.__arrow_c_schema__(), capsules.array_capsule(rows.length, nulls, rows.first,
                                                                 addresses, rows)


def frame(column: Union[Column, Iterable[Optional[Document]]], members: Mapping[str, DocumentPath],
          types: Optional[Mapping[str, Optional[str]]] = None, *, unfit: str = "rest",
          exact: bool = False, iso_dates: bool = False, floats: bool = False) -> Any:
    """A frame of pandas with a column for each name, of the members at the end of its path.

    >>> rows = [Document.of({"at": {"town": "Oslo"}, "id": 1}), Document.of({"id": 2})]
    >>> frame(rows, {"town": "$.at.town", "id": "id"})  # doctest: +SKIP
       town  id
    0  Oslo   1
    1  <NA>   2

    The rows are a column, or documents. ``types`` are of some names, and the others have the least
    type; they, the paths, ``unfit``, ``exact`` and ``iso_dates`` are as for ``Column.extract``, and
    ``floats`` is as for ``Typed.to_pandas``. ImportError: there is no pandas. KohibladWarning: a
    member does not fit its type, and as of ``Column.extract``. KeyError: a type is of none of the
    names.
    """
    arrays.pandas_module()
    rows = column if isinstance(column, Column) else Column.of(column)
    wanted = {} if types is None else types
    if not wanted.keys() <= members.keys():
        raise KeyError(*sorted(wanted.keys() - members.keys())[:1])
    columns = rows.extract(members.values(), map(wanted.get, members), unfit=unfit, exact=exact,
                           iso_dates=iso_dates)
    for name, it in zip(members, columns):
        if it.unfit and it.type != "mixed":
            first = next((row for row, state in enumerate(it.states) if state > library.ROW_NULL),
                         None)
            warn(f"{name}: no {it.type} in {it.unfit:,} of {len(it):,} rows"
                 + ("" if first is None else f", first in row {first}"))
    return arrays.frame_of([it.to_pandas(floats=floats) for it in columns], list(members))


def _steps_of(path: DocumentPath) -> Tuple[Step, ...]:
    """The steps of a path, which may be the text of one."""
    if isinstance(path, str) and path.startswith(_TEXT_STARTS):
        return steps_of_text(path)
    return steps_of(path)


def _check_parts(schema: Any, given: Any) -> None:
    """ValueError: an array of binary rows has not these parts."""
    has_others = schema.n_children or schema.dictionary or given.n_children or given.dictionary
    if has_others or given.n_buffers != 3 or not given.buffers:
        raise ValueError("an array of binary rows has three buffers and no other part")
    if not 0 <= given.length <= _MOST_ROWS or not 0 <= given.offset <= _MOST_ROWS - given.length:
        raise ValueError(f"no array has {given.length} rows from the row {given.offset} on")
    if not -1 <= given.null_count <= given.length:
        raise ValueError(f"of {given.length} rows {given.null_count} cannot be missing")
    if given.null_count > 0 and not given.buffers[0]:
        raise ValueError("the array does not say which rows are missing")


def _offsets_of(given: Any, is_narrow: bool) -> Tuple[int, Any]:
    """The address of the offsets as words of 64 bits, and what keeps these words.

    ValueError: they are missing, they do not ascend, or what they point at is missing.
    """
    count, address = given.offset + given.length + 1, given.buffers[1]
    if not given.length:
        empty = array.array("q", [0])
        return empty.buffer_info()[0], empty
    if not address:
        raise ValueError("the array has rows and no offsets")
    word: Any = c_int32 if is_narrow else c_int64
    words: Any = memoryview((word * count).from_address(address))
    offsets = words.cast("B").cast("i" if is_narrow else "q")
    used = offsets[given.offset:]
    if used[0] < 0 or not _ascend(used):
        raise ValueError("the offsets of the array do not ascend")
    if used[0] < used[-1] and not given.buffers[2]:
        raise ValueError("the array has rows and no data")
    if not is_narrow:
        return address, None
    wide = array.array("q", offsets)
    return wide.buffer_info()[0], wide


def _ascend(offsets: memoryview) -> bool:
    return all(all(map(operator.le, offsets[at:at + _TESTED_AT_ONCE], offsets[at + 1:]))
               for at in range(0, len(offsets), _TESTED_AT_ONCE))


class _Owner:
    """What has the memory of an array that was taken, until nothing refers to it."""
    __slots__ = ("__weakref__",)


def _end(taken: Any) -> None:
    if taken.release:
        taken.release(ctypes.addressof(taken))
