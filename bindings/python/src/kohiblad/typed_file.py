"""Files of typed columns: rows of which chosen members are kept in typed buffers.

    >>> from kohiblad import Document
    >>> from kohiblad.typed_file import TypedFile
    >>> rows = [Document.parse('{"at": 5, "price": 1.50, "sku": "k7"}'), Document.of({"at": None})]
    >>> file = TypedFile(TypedFile.build(rows, {"at": "int64", "price": "decimal 2"}))
    >>> file.column("price")[0], list(file.column("at")), file[0]
    (Decimal('1.50'), [5, None], <ObjectDocument {"at":5,"price":1.50,"sku":"k7"}>)

docs/TYPED.md has the format, and says which members are kept in a column.
"""
import array
import ctypes
from functools import partial
from itertools import accumulate
from typing import (Any, Callable, Dict, Iterable, Iterator, List, Mapping, Sequence, Tuple, Union,
                    cast, overload)

from . import _arrays as arrays
from . import _library as library
from ._changes import document_of_path, edited, warn_of_missing
from ._document import Document, path_error, steps_of_name
from ._exports import TypedColumn
from ._iso import READERS
from ._library import exports
from ._scalars import (Date, Interval, Timestamp, TimestampTz, date_of, decimal_of,
                       document_of_raw_date, document_of_timestamp, document_of_timestamp_tz,
                       timestamp_of, timestamp_tz_of)
from ._target import File, target_of
from .arrow import Column

_TYPES = ("boolean", "int64", "uint64", "decimal", "text", "date", "timestamp", "timestamp_tz",
          "interval", "binary")
_MOST_SCALE = 255
# How many bytes the number of a row has.
_SIZES = {"boolean": 1, "int64": 8, "uint64": 8, "decimal": 16, "text": 8, "date": 4,
          "timestamp": 8, "timestamp_tz": 12, "interval": 16, "binary": 8}
# Their values have as many bytes each as they like.
_OF_BYTES = ("text", "binary")


def _signed(data: memoryview) -> int:
    return int.from_bytes(data, "big", signed=True)


def _unsigned(data: memoryview) -> int:
    return int.from_bytes(data, "big")


# What makes Python values of the numbers of rows.
_MAKERS: Dict[str, Callable[[memoryview], Any]] = {
    "boolean": lambda it: it[0] != 0,
    "int64": _signed,
    "uint64": _unsigned,
    "date": lambda it: date_of(_signed(it)),
    "timestamp": lambda it: timestamp_of(_signed(it)),
    "timestamp_tz": lambda it: timestamp_tz_of(_signed(it[:8]), _signed(it[8:])),
    "interval": lambda it: Interval(_signed(it[:4]), _signed(it[4:8]), _signed(it[8:])),
}
# The types that numpy has for the numbers of rows; it has no dates of 32 bits.
_FORMS: Dict[str, Any] = {
    "boolean": "u1", "int64": ">i8", "uint64": ">u8", "date": ">i4", "timestamp": ">M8[us]",
    "timestamp_tz": [("timestamp", ">M8[us]"), ("offset_seconds", ">i4")],
    "interval": [("months", ">i4"), ("days", ">i4"), ("micros", ">i8")],
}
# Those of which numpy makes a copy.
_COPIES = {"boolean": "bool", "date": "datetime64[D]"}


def _bytes_of_type(name: str) -> bytes:
    """The two bytes that the library has for a type. ValueError: there is no such type."""
    word, space, scale = name.partition(" ")
    if word not in _TYPES or bool(space) != (word == "decimal"):
        raise ValueError(f"no type of a stored column: {name!r}")
    if not space:
        return bytes([_TYPES.index(word), 0])
    if not scale.isdecimal() or not scale.isascii() or int(scale) > _MOST_SCALE:
        raise ValueError(f"no scale from 0 to {_MOST_SCALE}: {name!r}")
    return bytes([_TYPES.index(word), int(scale)])


def _built(rows: List[bytes], _kept: Any, *words: Any) -> bytes:
    """What a call makes of rows, for which something is kept at an address until it ends."""
    return library.result_of(*words, library.fitting(library.EDIT_LEVEL_STACK, *rows))


# What makes the document of a value of the numbers that a text is read as.
_DOCUMENTS: Dict[str, Callable[..., bytes]] = {
    "date": lambda days: document_of_raw_date(Date(days)),
    "timestamp": lambda micros: document_of_timestamp(Timestamp(micros)),
    "timestamp_tz": lambda micros, offset: document_of_timestamp_tz(TimestampTz(micros, offset)),
}


def _with_dates(rows: List[bytes], types: Mapping[str, str]) -> List[bytes]:
    """The rows with the values that the texts at the keys of dates and timestamps are."""
    for name, kind in types.items():
        if kind in _DOCUMENTS:
            rows = [_with_date(row, name, kind) for row in rows]
    return rows


def _with_date(row: bytes, name: str, kind: str) -> bytes:
    place = exports.find_key(row, len(row), *_key_of(name))
    if place.status or place.type != library.TYPE_STRING:
        return row
    numbers = READERS[kind](library.payload_of(row, place))
    return row if numbers is None else edited(row, (name,), library.PUT, _DOCUMENTS[kind](*numbers))


def _bytes_of_rows(documents: Iterable[Any]) -> List[bytes]:
    """The bytes of documents, or of those of Python values. Rows of a column that are known to be
    documents are not checked again."""
    known = documents._rows.known() if type(documents) is Column else None
    if known is not None:
        return known
    return [bytes(it if isinstance(it, Document) else Document.of(it)) for it in documents]


def _tell_missing(rows: List[bytes], names: List[str]) -> None:
    """Warns of keys that no row has. PathError: one leads somewhere as the text of a path."""
    missing = names if rows else []
    for row in rows:
        if not missing:
            return
        missing = [it for it in missing if exports.find_key(row, len(row), *_key_of(it)).status]
    for name in missing:
        meant = steps_of_name(name)
        if meant and any(_leads_somewhere(row, document_of_path(meant)) for row in rows):
            raise path_error(f"no row has the key {name!r}: a column of a file has the members at "
                             "a key, and not those at the end of a path")
    if missing:
        warn_of_missing([(it,) for it in missing])


def _key_of(name: str) -> Tuple[bytes, int]:
    data = name.encode()
    return data, len(data)


def _leads_somewhere(row: bytes, path: bytes) -> bool:
    """Whether a row has something at the end of a path."""
    depth = library.fitting(library.LEVEL_STACK, row)
    status: int = exports.get_path(row, len(row), path, len(path), depth).status
    return status == library.OK


class _PyBuffer(ctypes.Structure):
    """What Python tells of the memory of an object."""
    _fields_ = [("buf", ctypes.c_void_p), ("obj", ctypes.c_void_p), ("len", ctypes.c_ssize_t),
                ("itemsize", ctypes.c_ssize_t), ("readonly", ctypes.c_int),
                ("ndim", ctypes.c_int), ("format", ctypes.c_char_p),
                ("shape", ctypes.c_void_p), ("strides", ctypes.c_void_p),
                ("suboffsets", ctypes.c_void_p), ("internal", ctypes.c_void_p)]


def _address_of(view: memoryview) -> int:
    """Where the bytes are, which stay there as long as the view is used."""
    told = _PyBuffer()
    ctypes.pythonapi.PyObject_GetBuffer(ctypes.py_object(view), ctypes.byref(told), 0)
    address = told.buf or 0
    ctypes.pythonapi.PyBuffer_Release(ctypes.byref(told))
    return address


class StoredColumn(library.Fixed, Sequence[Any]):
    """A column of a file: its values, and its buffers where they lie in the file.

    A value is a bool, an int, a Decimal or a str, of the types date, timestamp, timestamp_tz,
    interval and binary what ``Document.value`` makes of such a value, and None where a row has none
    in the column. ``flags`` has a bit for each row, the first of eight in the lowest; ``numbers``
    is what docs/TYPED.md says for the type, the highest byte first, and of texts and binary values
    offsets, one more than there are rows; ``texts`` has their bytes.
    """
    __slots__ = ("name", "type", "flags", "numbers", "texts", "_length", "_word", "_scale")

    name: str
    type: str
    flags: memoryview
    numbers: memoryview
    texts: memoryview
    _length: int
    _word: str
    _scale: int

    def __init__(self, told: TypedColumn, file: memoryview, length: int) -> None:
        def cut(at: int, size: int) -> memoryview:
            return file[at:at + size]
        word = _TYPES[told.type]
        library.set_fields(
            self, name=str(cut(told.name, told.name_length), "utf-8"), _word=word,
            _scale=told.scale, type=f"decimal {told.scale}" if word == "decimal" else word,
            flags=cut(told.flags, told.flags_length),
            numbers=cut(told.numbers, told.numbers_length),
            texts=cut(told.texts, told.texts_length), _length=length)

    def __len__(self) -> int:
        return self._length

    @overload
    def __getitem__(self, row: int) -> Any: ...
    @overload
    def __getitem__(self, row: slice) -> List[Any]: ...

    def __getitem__(self, row: Union[int, slice]) -> Any:
        if isinstance(row, slice):
            return [self._value(it) for it in range(*row.indices(self._length))]
        index = library.int_of(row)
        if not -self._length <= index < self._length:
            raise IndexError("row out of range")
        return self._value(index % self._length)

    def __iter__(self) -> Iterator[Any]:
        return map(self._value, range(self._length))

    def _number(self, row: int) -> memoryview:
        size = _SIZES[self._word]
        return self.numbers[size * row:size * (row + 1)]

    def _bytes_at(self, row: int) -> memoryview:
        return self.texts[_unsigned(self._number(row)):_unsigned(self._number(row + 1))]

    def _value(self, row: int) -> Any:
        if not self.flags[row // 8] >> row % 8 & 1:
            return None
        if self._word in _OF_BYTES:
            data = self._bytes_at(row)
            return bytes(data) if self._word == "binary" else str(data, "utf-8")
        if self._word == "decimal":
            return decimal_of(_signed(self._number(row)), self._scale)
        return _MAKERS[self._word](self._number(row))

    @property
    def numpy(self) -> Any:
        """The values as an array of numpy, where a row without a value has 0, in the file's memory.

        Booleans and dates are a copy, of the types bool and datetime64[D], and texts and binary
        values a copy with None where a row has none. Decimals are whole numbers without their
        point, of 64 bits where all fit, and else Python's in a copy. Timestamps are of the type
        datetime64[us], to which the least of 64 bits is not a time; with a zone they are structs
        with the fields timestamp, in UTC, and offset_seconds; intervals have months, days and
        micros. ImportError: there is no numpy.
        """
        np = arrays.numpy_module()
        if self._word in _OF_BYTES:
            return arrays.of_objects(list(self))
        if self._word == "decimal":
            words = np.frombuffer(self.numbers, ">i8")
            return arrays.of_decimals(words[1::2], words[::2], self._digits)
        numbers = np.frombuffer(self.numbers, _FORMS[self._word])
        return numbers.astype(_COPIES[self._word]) if self._word in _COPIES else numbers

    def _digits(self) -> List[int]:
        """The decimals without their point."""
        return [_signed(self._number(row)) for row in range(self._length)]

    @property
    def is_set(self) -> Any:
        """Which rows have a value, as an array of numpy. ImportError: there is no numpy."""
        np = arrays.numpy_module()
        return np.unpackbits(np.frombuffer(self.flags, "u1"), count=self._length,
                             bitorder="little").astype(bool)

    @property
    def masked(self) -> Any:
        """``numpy`` with a mask of the rows that have no value. ImportError: there is no numpy."""
        return arrays.masked(self.numpy, ~self.is_set)

    def to_pandas(self, *, floats: bool = False) -> Any:
        """The values as a series of pandas, as ``kohiblad.arrow.Typed.to_pandas`` has it."""
        return arrays.series_of(self, self.name, floats)

    def __reduce__(self) -> Tuple[Any, ...]:
        """The column for pickle: a copy."""
        fields = {it: getattr(self, it) for it in ("name", "type", "_length", "_word", "_scale")}
        buffers = {it: bytes(getattr(self, it)) for it in ("flags", "numbers", "texts")}
        return _restored, (fields, buffers)

    def __repr__(self) -> str:
        return f"<StoredColumn {self.name!r} of {self._length:,} rows, {self.type}>"


def _restored(fields: Dict[str, Any], buffers: Dict[str, bytes]) -> StoredColumn:
    """The column that pickle made these of."""
    return library.with_fields(StoredColumn, **fields,
                               **{name: memoryview(it) for name, it in buffers.items()})


class TypedFile(library.Fixed, Sequence[Document]):
    """The rows of a file of typed columns, which are read where they lie.

    ``data`` is any object with bytes, as ``bytes`` or an ``mmap.mmap``; it is used as long as the
    file is, and nothing of it is copied. All of it is checked, unless ``check`` is false: then only
    lengths are, if there is a column, and a row is checked when it is read. InvalidDocumentError:
    the bytes are no such file; ``name`` says why. TooDeepError: the rest of a row nests too deep.
    TypeError: the object has no bytes.
    """
    __slots__ = ("_view", "_at", "_size", "_length", "_columns", "_is_checked")

    _view: memoryview
    _at: int
    _size: int
    _length: int
    _columns: Dict[str, StoredColumn]
    _is_checked: bool

    def __init__(self, data: Any, *, check: bool = True) -> None:
        view = memoryview(data).cast("B")
        library.set_fields(self, _view=view, _at=_address_of(view), _size=len(view),
                           _is_checked=bool(check))
        told = self._told()
        if check or not told:
            checked = exports.check_typed_file(self._at, self._size,
                                               library.depth_left(library.LEVEL_STACK))
            if checked.status != library.OK:
                raise library.error_of(checked.status)
            length = checked.rows
        else:
            length = told[0].rows
        columns = (StoredColumn(it, view, length) for it in told)
        library.set_fields(self, _length=length, _columns={it.name: it for it in columns})

    def _told(self) -> Any:
        """The columns as the library tells them."""
        count = ctypes.c_size_t()
        told: Any = (TypedColumn * 0)()
        while True:
            status = exports.typed_columns(self._at, self._size, ctypes.addressof(told),
                                           len(told), ctypes.addressof(count))
            if status != library.NO_ROOM:
                break
            told = (TypedColumn * count.value)()
        if status != library.OK:
            raise library.error_of(status)
        return told

    @staticmethod
    def build(documents: Iterable[Any], types: Mapping[str, str], *,
              iso_dates: bool = False) -> bytes:
        """The bytes of a file of rows, with a column for the members at each key of ``types``.

        ``documents`` are documents or Python values, as for ``Document.of``. A type is boolean,
        int64, uint64, text, date, timestamp, timestamp_tz, interval, binary, or decimal with a
        scale, as decimal 2. A member is kept in its column if it is a value of the type with its
        kind and its digits, and else in the rest of its row. ValueError: there is no such type.
        InvalidDocumentError: a row exceeds a limit of the format. PathError: no row has a key that
        leads somewhere as the text of a path. KohibladWarning: there are rows, and none of them has
        a member at a key.

        With ``iso_dates`` texts that fit a column of dates or timestamps, as for
        ``kohiblad.arrow.Column.extract``, are kept in it, and the rows have these values then, in
        place of the texts.
        """
        names = sorted(types, key=str.encode)
        kinds = b"".join(_bytes_of_type(types[name]) for name in names)
        listed = bytes(Document.of(names))
        rows = _bytes_of_rows(documents)
        if iso_dates:
            rows = _with_dates(rows, types)
        _tell_missing(rows, names)
        data = b"".join(rows)
        end = len(data)
        offsets = array.array("Q", accumulate(map(len, rows), initial=0))
        # Each column has at most 16 bytes and a bit for a row.
        guess = 2 * end + len(rows) * (17 * len(names) + 8) + 64 * len(names) + 64
        words = (exports.build_typed_file, guess, data, end, offsets.buffer_info()[0],
                 len(offsets), listed, len(listed), kinds, len(kinds))
        if library.is_long(data):
            return cast(bytes, library.attended(guess, _built, rows, offsets, *words))
        return _built(rows, offsets, *words)

    @classmethod
    def write(cls, file: File, documents: Iterable[Any], types: Mapping[str, str], *,
              iso_dates: bool = False) -> int:
        """Writes the file that ``build`` makes, and returns how many bytes it has.

        ``file`` is a path, or a file that is open for bytes. At a path the file is there once all
        of it was written.
        """
        data = cls.build(documents, types, iso_dates=iso_dates)
        with target_of(file) as target:
            target.write(data)
        return len(data)

    def __len__(self) -> int:
        return self._length

    @overload
    def __getitem__(self, row: int) -> Document: ...
    @overload
    def __getitem__(self, row: slice) -> List[Document]: ...

    def __getitem__(self, row: Union[int, slice]) -> Any:
        if isinstance(row, slice):
            return [self.row(it) for it in range(*row.indices(self._length))]
        index = library.int_of(row)
        if not -self._length <= index < self._length:
            raise IndexError("row out of range")
        return self.row(index % self._length)

    def row(self, index: int) -> Document:
        """The canonical document of a row, counted from 0: its rest with the members that are kept
        in columns. InvalidDocumentError: the row is out of form. TooDeepError: its rest nests too
        deep. IndexError: there is no such row."""
        if not 0 <= index < self._length:
            raise IndexError("row out of range")
        return Document(library.result_of(exports.typed_row, 0, self._at, self._size, index,
                                          library.depth_left(library.EDIT_LEVEL_STACK)))

    @property
    def columns(self) -> List[StoredColumn]:
        """The columns, in the order of their names."""
        return list(self._columns.values())

    def column(self, name: str) -> StoredColumn:
        """The column of this name. KeyError: there is none."""
        return self._columns[name]

    def to_pandas(self, *, floats: bool = False) -> Any:
        """The columns as a frame of pandas: what is in the rest of a row is missing in it.

        ImportError: there is no pandas.
        """
        return arrays.frame_of([it.to_pandas(floats=floats) for it in self._columns.values()],
                               list(self._columns))

    def __reduce__(self) -> Tuple[Any, ...]:
        """The file for pickle: a copy of its bytes."""
        return partial(type(self), check=self._is_checked), (bytes(self._view),)

    def __repr__(self) -> str:
        return f"<TypedFile of {self._length:,} rows and {len(self._columns):,} columns>"
