"""The exports of libkohiblad, by ctypes.

ctypes releases Python's lock during each call. No export may get a null pointer, and ``bytes``
never are one, also when they are empty.

The extension module ``_native`` makes the calls of most programs in C, if it was built. It is
handed the addresses of the same exports.
"""
import ctypes
import operator
import os
import struct
import threading
from ctypes import c_char_p, c_size_t, c_void_p
from functools import lru_cache
from typing import (Any, Callable, Dict, Generator, Iterator, List, Optional, Sequence, Tuple, Type,
                    TypeVar, Union)

from . import __version__, _stack
from ._errors import (ExtensionError, InvalidDocumentError, InvalidTextError, KohibladError,
                      NumberError, OutOfMemoryError, PathError, QueryError, TooDeepError,
                      TooManyStepsError)
from ._exports import PROTOTYPES, Cursor, Place, SurveyCounts, Truth, TypedColumn, ValueKind
from ._stack import DEPTH

FILE_NAME = "libkohiblad.so.0.9"
OLDEST_VERSION = 9000

OK = 0
INVALID_EOF = 1
INVALID_JSONB = 2
INVALID_JSONB_NUMBER = 5
INVALID_JSONB_EXTENSION = 6
INVALID_UTF8 = 7
INVALID_JSON = 9
OUT_OF_MEMORY = 10
NO_ROOM = 11
NONE = 12
TOO_DEEP = 13
OTHER_KIND = 14
BAD_NUMBER = 17
TOO_MANY_STEPS = 18
BAD_MAGIC = 19
UNKNOWN_VERSION = 20
TRAILING_DATA = 21
WRONG_LENGTH = 22
OUT_OF_FORM = 23
NOT_READ_BACK = 24
# Why a path of SQL/JSON is given up, from the first on.
PATH_ERRORS = range(25, 36)

# What `edit` does at the end of a path.
PUT = 0
INSERT = 1
REMOVE = 2
CREATE = 3

# Which members `pick` keeps.
NAMED = 0
OTHERS = 1

# When a number fits a column of numbers.
BY_VALUE = 0
EXACT = 1

# What a row has in a column of one type.
ROW_ABSENT = 0
ROW_VALUE = 1
ROW_NULL = 2
ROW_UNFIT = 3
ROW_NO_DOCUMENT = 4

# Of steps.
NO_LIMIT = 2**64 - 1

# The stack that is enough for each level of a document: of most calls, of those that edit, and of a
# merge patch.
LEVEL_STACK, EDIT_LEVEL_STACK, PATCH_LEVEL_STACK = 1024, 2048, 2432
# What a path of SQL/JSON takes of stack at most, and for each character that may nest it.
PATH_STACK, _PATH_LEVEL_STACK = 1 << 20, 12 << 10
_NESTING = b"([?!+-*/%<>=&|"
# How many bytes of a document a level takes at least, but for the last one.
_LEVEL_SIZE = 8

# The tags of headers.
HEADER_TAG_MASK = 0xE0
SCALAR = 0x20
OBJECT = 0x40
ARRAY = 0x80

TYPE_NULL = 0x00000000
TYPE_STRING = 0x10000000
TYPE_NUMBER = 0x20000000
TYPE_FALSE = 0x30000000
TYPE_TRUE = 0x40000000
TYPE_CONTAINER = 0x50000000
TYPE_EXTENSION = 0x60000000

ARRAY_KIND = 5
OBJECT_KIND = 6
_TYPE_MASK = 0x70000000
# The most bytes that a child may have.
MOST_CHILD_BYTES = 0x0FFFFFFF
# The bytes of a document before the payload of its scalar.
SCALAR_FRONT = 8
# The longest payload of a number: a decimal of 128 bits in its old form.
_LONGEST_NUMBER = 19

_ERRORS: Dict[int, Type[KohibladError]] = {
    INVALID_EOF: InvalidDocumentError,
    INVALID_JSONB: InvalidDocumentError,
    INVALID_JSONB_NUMBER: NumberError,
    INVALID_JSONB_EXTENSION: ExtensionError,
    INVALID_UTF8: InvalidTextError,
    INVALID_JSON: InvalidTextError,
    OUT_OF_MEMORY: OutOfMemoryError,
    TOO_DEEP: TooDeepError,
    OTHER_KIND: PathError,
    BAD_NUMBER: InvalidTextError,
    TOO_MANY_STEPS: TooManyStepsError,
    BAD_MAGIC: InvalidDocumentError,
    UNKNOWN_VERSION: InvalidDocumentError,
    TRAILING_DATA: InvalidDocumentError,
    WRONG_LENGTH: InvalidDocumentError,
    OUT_OF_FORM: InvalidDocumentError,
    NOT_READ_BACK: InvalidDocumentError,
    **dict.fromkeys(PATH_ERRORS, QueryError),
}


def _open() -> ctypes.CDLL:
    """The library that KOHIBLAD_LIBRARY names, or of this package, or of the system."""
    beside = os.path.join(os.path.dirname(os.path.abspath(__file__)), FILE_NAME)
    path = os.environ.get("KOHIBLAD_LIBRARY") or (beside if os.path.exists(beside) else FILE_NAME)
    try:
        return ctypes.CDLL(path)
    except OSError as error:
        raise ImportError(f"kohiblad needs its library: {error}; install it, or set "
                          "KOHIBLAD_LIBRARY to its path") from None


_library = _open()


class _Exports:
    """The exports by their names without kohiblad_, each from its first use on."""

    def __getattr__(self, name: str) -> Callable[..., Any]:
        if name not in PROTOTYPES:
            raise AttributeError(f"there is no export {name}")
        function = _library["kohiblad_" + name]
        function.restype, *function.argtypes = PROTOTYPES[name]
        setattr(self, name, function)
        return function


exports = _Exports()
if exports.version() < OLDEST_VERSION:
    raise ImportError(f"kohiblad needs {FILE_NAME} of version {OLDEST_VERSION}, not "
                      f"{exports.version()}")


def _has_native() -> bool:
    """Whether the extension module is to be used: it is there, and KOHIBLAD_NATIVE is not 0.

    ImportError: KOHIBLAD_NATIVE is 1, and the module is missing or of another version.
    """
    wish = os.environ.get("KOHIBLAD_NATIVE")
    if wish == "0":
        return False
    try:
        from . import _native
    except ImportError as error:
        if wish == "1":
            raise ImportError(f"KOHIBLAD_NATIVE is 1, but there is no extension module: {error}")
        return False
    if _native.VERSION == __version__:
        return True
    if wish == "1":
        raise ImportError(f"KOHIBLAD_NATIVE is 1, but the extension module {_native.__file__} is "
                          f"of version {_native.VERSION}, not {__version__}")
    return False


IS_NATIVE: bool = _has_native()
if IS_NATIVE:
    from . import _native as native

# How deep documents may nest for calls that take so many bytes of stack for each level, here and
# now: what is left of the thread's stack carries that depth, which is at most DEPTH.
depth_left: Callable[[int], int] = native.depth_left if IS_NATIVE else _stack.depth_left
# The same for calls over some bytes or texts.
depth_of: Callable[..., int] = \
    (lambda level_stack, *data: native.depth_left(level_stack)) if IS_NATIVE else _stack.depth_of


def export_address(name: str) -> int:
    """The address of an export, named without kohiblad_."""
    return ctypes.cast(_library["kohiblad_" + name], c_void_p).value or 0


Takes = Tuple[Callable[..., Any], Callable[..., Any], Callable[..., Any]]


def _take(name: str) -> Takes:
    """The call that takes the members of rows, the one that does not check the rows, and the one
    that takes them at places."""
    return (getattr(exports, f"take_{name}"), getattr(exports, f"take_{name}_unchecked"),
            getattr(exports, f"take_{name}_at"))


take_int64 = _take("int64")
take_uint64 = _take("uint64")
take_decimal = _take("decimal")
take_boolean = _take("boolean")
take_text = _take("text")
take_binary = _take("binary")
take_date = _take("date")
take_timestamp = _take("timestamp")
take_timestamp_tz = _take("timestamp_tz")
take_interval = _take("interval")
locate = (exports.locate, exports.locate_unchecked)
PLACE_SIZE = ctypes.sizeof(Place)
# The counts of a survey: in how many rows a member is what each is named after.
SURVEY_COUNTS = [name for name, *_ in SurveyCounts._fields_][5:]


class Fixed:
    """What has fields by which the library is called: nobody can assign them."""
    __slots__ = ()

    def __setattr__(self, name: str, value: Any) -> None:
        if any(name in getattr(it, "__slots__", ()) for it in type(self).__mro__):
            raise AttributeError(f"{name} of a {type(self).__name__} cannot be assigned")
        object.__setattr__(self, name, value)

    def __delattr__(self, name: str) -> None:
        self.__setattr__(name, None)
        object.__delattr__(self, name)


_Made = TypeVar("_Made", bound=Fixed)
_Result = TypeVar("_Result")


def set_fields(it: Fixed, **fields: Any) -> None:
    for name, value in fields.items():
        object.__setattr__(it, name, value)


def with_fields(cls: Type[_Made], **fields: Any) -> _Made:
    """A new object with these fields."""
    it = cls.__new__(cls)
    set_fields(it, **fields)
    return it


def int_of(number: Any) -> int:
    """A whole number as a plain int: that of a subclass is what its base type says."""
    return int.__index__(operator.index(number))


def bytes_of(data: Any, expected: str) -> bytes:
    """The bytes of an object that has some. TypeError, with what was expected: it has none."""
    if type(data) is bytes:
        return data
    if isinstance(data, bytes):
        return bytes.__getitem__(data, slice(None))
    try:
        return bytes(memoryview(data))
    except TypeError:
        raise TypeError(f"{expected}, not {type(data).__name__}") from None


# A cursor, the place of a key and the place of a value: one unpack is quicker than five fields.
_STATE = struct.Struct("=24x 8xQQ 4xIQQ")
_STATE_SIZE = ctypes.sizeof(Cursor) + 2 * ctypes.sizeof(Place)
_PLACE = struct.Struct("=4xIQQ")


class _Room:
    """Memory that the library writes a result and its length to."""
    USUAL_SIZE = 1 << 16
    __slots__ = ("size", "buffer", "length", "address", "length_address")

    def __init__(self, size: int) -> None:
        self.size = size
        self.buffer = ctypes.create_string_buffer(size)
        self.length = c_size_t()
        self.address = ctypes.addressof(self.buffer)
        self.length_address = ctypes.addressof(self.length)


# Rooms that no call uses now: to make one takes longer than most calls. A call takes one out, so
# neither another thread nor a signal handler can write to it.
_spare_rooms: List[_Room] = []


def _room_of(size: int) -> _Room:
    if size > _Room.USUAL_SIZE:
        return _Room(size)
    try:
        return _spare_rooms.pop()
    except IndexError:
        return _Room(_Room.USUAL_SIZE)


def _length_of(data: Union[str, bytes]) -> int:
    """The length of a text or bytes: that of a subclass is what its base type says."""
    return str.__len__(data) if isinstance(data, str) else bytes.__len__(data)


def guess_of(data: Union[str, bytes]) -> int:
    """How many bytes the result of a call over a text or bytes may be."""
    return 2 * _length_of(data) + 64


def result_of(call: Callable[..., int], guess: int, *arguments: Any) -> bytes:
    """The bytes that a call writes; `guess` is how many they may be.

    If they are more, the call is made again with enough room.
    """
    room = _room_of(guess)
    status = call(*arguments, room.address, room.size, room.length_address)
    while status == NO_ROOM:
        room = _Room(room.length.value)
        status = call(*arguments, room.address, room.size, room.length_address)
    if status != OK:
        raise error_of(status)
    result = ctypes.string_at(room.address, room.length.value)
    if room.size == _Room.USUAL_SIZE:
        _spare_rooms.append(room)
    return result


def too_deep(depth: int) -> KohibladError:
    """The exception for a document that nests deeper than the thread's stack carries."""
    return error_of(TOO_DEEP, f"it nests more than {depth:,} deep, which is what the stack that is "
                              "left to this thread carries")


def fitting(level_stack: int, *documents: bytes) -> int:
    """The depth within which a call reads these documents that takes so much stack for each level.

    TooDeepError: one nests deeper.
    """
    depth = depth_of(level_stack, *documents)
    if depth < DEPTH:
        for it in documents:
            if len(it) // _LEVEL_SIZE >= depth and not exports.check(it, len(it), depth):
                raise too_deep(depth)
    return depth


def result_of_document(call: Callable[..., int], guess: int, document: bytes,
                       *arguments: Any) -> bytes:
    """The bytes that a call writes for a document, as `result_of`."""
    return result_of(call, guess, document, len(document), *arguments,
                     fitting(LEVEL_STACK, document))


def expect_carried(data: bytes, depth: int) -> None:
    """TooDeepError: bytes, which need be no document, nest deeper than the stack carries."""
    if depth < DEPTH and len(data) // _LEVEL_SIZE >= depth \
            and not exports.check(data, len(data), depth) and _nests_deeper(data, depth):
        raise too_deep(depth)


def _nests_deeper(data: bytes, depth: int) -> bool:
    """Whether arrays and objects in bytes, which need be no document, nest deeper than this."""
    opened = [(0, len(data), 1)]
    while opened:
        begin, size, level = opened.pop()
        if level > depth:
            return True
        try:
            opened += [(at, length, level + 1)
                       for _, _, type_, at, length in member_places(data, begin, size)
                       if type_ == TYPE_CONTAINER and level + length // _LEVEL_SIZE >= depth]
        except KohibladError:
            pass  # There is a fault, and nothing to read after it.
    return False


def key_of(data: bytes) -> bytes:
    """The comparable key of bytes, which need be no document: then the call is refused."""
    return result_of(exports.key, guess_of(data), data, len(data), fitting(LEVEL_STACK, data))


# A call over so many bytes may take a tenth of a second.
_LONG_BYTES = 1 << 21
# Enough of stack for each call, whatever its documents.
_AMPLE_STACK = 4 << 20


def is_long(data: Any) -> bool:
    """Whether a call over a text or bytes may take so long that signals are to be handled."""
    return isinstance(data, (str, bytes)) and _length_of(data) >= _LONG_BYTES


def attended(guess: int, call: Callable[..., Any], *arguments: Any) -> Any:
    """What a long call returns, during which signals are handled; `guess` is as in `result_of`.

    Python handles them in the main thread alone, so that this one waits there while another makes
    the call. If a handler raises an exception, what the call makes is dropped when it ends. If
    there is no memory for another thread beside the result, this one makes the call.
    """
    has_stack = not 0 < threading.stack_size() < _AMPLE_STACK
    if threading.current_thread() is not threading.main_thread() or not has_stack:
        return call(*arguments)
    results: List[Tuple[Any, Optional[BaseException]]] = []
    is_done = threading.Event()

    def make() -> None:
        try:
            results.append((call(*arguments), None))
        except BaseException as error:
            results.append((None, error))
        finally:
            is_done.set()

    if not _has_started(make, guess):
        return call(*arguments)
    is_done.wait()
    result, error = results.pop()
    try:
        if error is not None:
            raise error
        return result
    finally:
        del error


def made_of(data: Any, call: Callable[..., _Result], *arguments: Any) -> _Result:
    """What a call over a text or bytes returns; if it is long, signals are handled meanwhile."""
    if not is_long(data):
        return call(*arguments)
    result: _Result = attended(guess_of(data), call, *arguments)
    return result


def _has_started(make: Callable[[], None], size: int) -> bool:
    """Starts a thread, unless its stack would leave less memory than so many bytes."""
    kept: List[bytes] = []

    def run() -> None:
        kept.clear()
        make()

    try:
        kept.append(bytes(size))
        threading.Thread(target=run, daemon=True).start()
    except (MemoryError, RuntimeError):
        return False
    return True


def keys_of(call: Callable[..., int], document: bytes) -> List[int]:
    """The keys of an index that a call writes for a document."""
    size, depth = len(document), fitting(LEVEL_STACK, document)
    # There are at most size / 4, each of eight bytes.
    room = _room_of(2 * size)
    status = call(document, size, depth, room.address, room.size // 8, room.length_address)
    if status != OK:
        raise error_of(status)
    keys = memoryview(ctypes.string_at(room.address, 8 * room.length.value)).cast("Q").tolist()
    if room.size == _Room.USUAL_SIZE:
        _spare_rooms.append(room)
    return keys


def path_of_text(document: bytes, text: bytes) -> bytes:
    """The document of the path that a text gives in a document.

    PathError: the text is not a path.
    """
    return result_of(exports.path_in, guess_of(text), document, len(document), text, len(text),
                     fitting(LEVEL_STACK, document))


def expect_path_carried(path: bytes) -> None:
    """TooDeepError: a path may nest deeper than the stack that is left to this thread carries."""
    levels = 2 + len(path) - len(path.translate(None, _NESTING))
    if not depth_left(min(PATH_STACK, levels * _PATH_LEVEL_STACK)):
        raise error_of(TOO_DEEP, "the path may take more stack than is left to this thread")


def path_values(document: bytes, path: bytes, variables: bytes, silent: bool) -> bytes:
    """The document of the array of all values that a path of SQL/JSON gives."""
    expect_path_carried(path)
    if IS_NATIVE:
        made: bytes = native.path_query(document, path, variables, silent)
        return made
    return result_of(exports.path_query, guess_of(document), document, len(document), path,
                     len(path), variables, len(variables), silent,
                     fitting(LEVEL_STACK, document, variables))


def path_truth(call: Callable[..., Truth], document: bytes, path: bytes, variables: bytes,
               silent: bool) -> Truth:
    """What a call says of a path of SQL/JSON."""
    expect_path_carried(path)
    return call(document, len(document), path, len(path), variables, len(variables), silent,
                fitting(LEVEL_STACK, document, variables))


def status_name(status: int) -> str:
    """The library's name of a status."""
    return result_of(exports.status_name, 0, status).decode()


def error_of(status: int, message: str = "") -> KohibladError:
    """The exception for a status."""
    return _ERRORS.get(status, KohibladError)(status, status_name(status), message)


def is_true(truth: Truth) -> bool:
    """What a call says of a document."""
    if truth.status != OK:
        raise error_of(truth.status)
    return bool(truth.value)


def children(document: bytes) -> Iterator[Tuple[bytes, int, bytes]]:
    """The key, type and payload of each child of an array or object; an item's key is empty."""
    size = len(document)
    state = ctypes.create_string_buffer(_STATE_SIZE)
    cursor = ctypes.addressof(state)
    key_place = cursor + ctypes.sizeof(Cursor)
    place = key_place + ctypes.sizeof(Place)
    status = exports.begin(document, size, cursor)
    while status == OK:
        status = exports.next(document, size, cursor, key_place, place)
        if status == OK:
            key_at, key_size, type_, at, length = _STATE.unpack_from(state)
            yield document[key_at:key_at + key_size], type_, document[at:at + length]
    if status != NONE:
        raise error_of(status)


def run_nested(open_one: Callable[[Any], Generator[Any, Any, _Result]], outermost: Any) -> _Result:
    """What the generator of the outermost value returns, with no recursion.

    A generator yields each value inside it that has a generator too, and is sent its result.
    Documents nest deeper than Python's calls.
    """
    opened = [open_one(outermost)]
    sent: Any = None
    while True:
        try:
            opened.append(open_one(opened[-1].send(sent)))
            sent = None
        except StopIteration as finished:
            opened.pop()
            result: _Result = finished.value
            if not opened:
                return result
            sent = result


def _address_of(document: bytes) -> int:
    """Where bytes are in memory. They stay there as long as anything refers to them."""
    return ctypes.cast(c_char_p(document), c_void_p).value or 0


def member_places(document: bytes, at: int, size: int) -> Iterator[Tuple[int, int, int, int, int]]:
    """The offset and length of each child's key, and the type, offset and length of the child.

    The children are those of the array or object at an offset. Nothing is copied, and all offsets
    are those in the whole document. The key of an array's item has the length 0.
    """
    address = _address_of(document) + at
    state = ctypes.create_string_buffer(_STATE_SIZE)
    cursor = ctypes.addressof(state)
    key_place = cursor + ctypes.sizeof(Cursor)
    place = key_place + ctypes.sizeof(Place)
    status = exports.begin(address, size, cursor)
    while status == OK:
        status = exports.next(address, size, cursor, key_place, place)
        if status == OK:
            key_at, key_size, type_, child_at, length = _STATE.unpack_from(state)
            yield at + key_at, key_size, type_, at + child_at, length
    if status != NONE:
        raise error_of(status)


def kind_at(document: bytes, at: int, size: int) -> ValueKind:
    """The kind of the document at an offset in another one, and how many children it has."""
    it: ValueKind = exports.kind(_address_of(document) + at, size)
    return it


def header_status(data: bytes) -> int:
    """OK if the first word is of an array or object, NONE if of a scalar, or an error's status."""
    cursor = Cursor()
    status: int = exports.begin(data, len(data), ctypes.addressof(cursor))
    return status


def place_of_path(document: bytes, steps: Sequence[Union[bytes, int]]) \
        -> Optional[Tuple[int, int, int]]:
    """The type, offset and length at the end of a path; None: it leads nowhere.

    A text among the steps is given in UTF-8.
    """
    front = _address_of(document)
    type_, at, size = TYPE_CONTAINER, 0, len(document)
    for step in steps:
        if type_ != TYPE_CONTAINER:
            return None
        if isinstance(step, bytes):
            place = exports.find_key(front + at, size, step, len(step))
        else:
            it = exports.kind(front + at, size)
            number = step if step >= 0 else it.count + step
            if it.kind != ARRAY_KIND or not 0 <= number < it.count:
                return None
            place = exports.find_index(front + at, size, number)
        if place.status != OK:
            return None
        type_, at, size = place.type, at + place.offset, place.length
    return type_, at, size


def payload_of(document: bytes, place: Place) -> bytes:
    """The bytes at a place."""
    offset = place.offset
    return document[offset:offset + place.length]


def build(call: Callable[..., int], rows: Sequence[bytes]) -> bytes:
    """What `build_array` or `build_object` make of rows that were checked before."""
    # Those of an object are keys and values in turn.
    depth = fitting(LEVEL_STACK, *(rows[1::2] if call is exports.build_object else rows))
    offsets = (c_size_t * (len(rows) + 1))()
    end = 0
    for index, row in enumerate(rows, 1):
        end += len(row)
        offsets[index] = end
    guess = end + 4 * len(rows) + 8
    count = len(offsets)
    return result_of(call, guess, b"".join(rows), end, ctypes.addressof(offsets), count, depth)


def _document_of_part(type_: int, payload: bytes) -> bytes:
    size = len(payload)
    return result_of(exports.copy, size + SCALAR_FRONT, type_, payload, size)


@lru_cache(maxsize=256)
def _front_of(type_: int, size: int) -> bytes:
    """What a scalar's document has before its payload, which depends on type and length alone."""
    return _document_of_part(type_, bytes(size))[:SCALAR_FRONT]


def scalar_document(type_: int, payload: bytes) -> bytes:
    """The document of a scalar, given its type and payload.

    Numbers are short and many, so what comes before their payloads is asked for once.
    """
    size = len(payload)
    if size > _LONGEST_NUMBER:
        return _document_of_part(type_, payload)
    return _front_of(type_, size) + payload


def scalar_parts(document: bytes) -> Tuple[int, bytes]:
    """The type and payload of a scalar's document."""
    return int.from_bytes(document[4:SCALAR_FRONT], "big") & _TYPE_MASK, document[SCALAR_FRONT:]
