"""The structs of Arrow's C data interface, and the capsules in which they are handed out.

Others may use what they took as long as they like: it is kept until they release it.
"""
import atexit
import ctypes
import errno
import itertools
import sys
from ctypes import POINTER, c_char_p, c_int, c_int64, c_void_p
from typing import (Any, Callable, Dict, List, NamedTuple, Optional, Protocol, Sequence, Tuple,
                    Type, Union)

from . import _library as library

if library.IS_NATIVE:
    from . import _native as native

SCHEMA_NAME, ARRAY_NAME = b"arrow_schema", b"arrow_array"
_STREAM_NAME = b"arrow_array_stream"
_NULLABLE = 2


class Schema(ctypes.Structure):
    pass


class Array(ctypes.Structure):
    pass


Release = ctypes.CFUNCTYPE(None, c_void_p)
Schema._fields_ = [("format", c_char_p), ("name", c_char_p), ("metadata", c_void_p),
                   ("flags", c_int64), ("n_children", c_int64), ("children", POINTER(c_void_p)),
                   ("dictionary", c_void_p), ("release", Release), ("private_data", c_void_p)]
Array._fields_ = [("length", c_int64), ("null_count", c_int64), ("offset", c_int64),
                  ("n_buffers", c_int64), ("n_children", c_int64), ("buffers", POINTER(c_void_p)),
                  ("children", POINTER(c_void_p)), ("dictionary", c_void_p), ("release", Release),
                  ("private_data", c_void_p)]


class Stream(ctypes.Structure):
    """Arrays one after another, by calls that return 0 or an error's number."""


_Get = ctypes.CFUNCTYPE(c_int, c_void_p, c_void_p)
_GetError = ctypes.CFUNCTYPE(c_void_p, c_void_p)
Stream._fields_ = [("get_schema", _Get), ("get_next", _Get), ("get_last_error", _GetError),
                   ("release", Release), ("private_data", c_void_p)]
_Struct = Union[Type[Schema], Type[Array], Type[Stream]]

# What others still use, by the numbers that they have as private data.
_exported: Dict[int, Tuple[Any, ...]] = {}


def _releaser(struct: _Struct) -> Any:
    """A C function that ends the use of a struct and of its children, and marks it."""
    def release(address: int) -> None:
        it = struct.from_address(address)
        for row in range(getattr(it, "n_children", 0)):
            child = struct.from_address(it.children[row])
            # One that was moved is released where it is now.
            if child.release:
                child.release(it.children[row])
        _exported.pop(it.private_data or 0, None)
        it.release = Release(0)
    return _kept(Release(release))


def _kept(function: Any) -> Any:
    """The same function, which is never freed: others may call it at the end of the program."""
    ctypes.pythonapi.Py_IncRef(ctypes.py_object(function))
    return function


_new_number: Callable[[], int]
if library.IS_NATIVE:
    _release_schema, _release_array, _release_stream = map(Release, native.releases(_exported))
    _new_number = native.new_use
    atexit.register(native.end_uses)
else:
    _release_schema, _release_array = _releaser(Schema), _releaser(Array)
    _release_stream = _releaser(Stream)
    _new_number = itertools.count(1).__next__

_new_capsule = ctypes.PYFUNCTYPE(ctypes.py_object, c_void_p, c_char_p, c_void_p)(
    ("PyCapsule_New", ctypes.pythonapi))
pointer_of = ctypes.PYFUNCTYPE(c_void_p, ctypes.py_object, c_char_p)(
    ("PyCapsule_GetPointer", ctypes.pythonapi))

# Capsules that were handed out, with their structs, by the addresses of these. They have no
# destructor: one by ctypes would run Python code while an exception is raised that ends the use of
# the capsule, and lose it.
_handed_out: Dict[int, Tuple[Any, Any]] = {}
# They are looked through each time that a column is made or handed out while they are so few, and
# else when they are twice as many as were in use.
_FEW = 64
_bound = _FEW


def release_unused() -> None:
    """Releases the structs of capsules that nobody has any more, unless a consumer took them."""
    global _bound
    # Each is looked at once, and taken out by its address, which no other has meanwhile.
    for address, entry in _handed_out.copy().items():
        # One reference is that of the entry, and one that of the call.
        if sys.getrefcount(entry[0]) > 2:
            continue
        # None: another thread released it.
        if _handed_out.pop(address, None) is not None and entry[1].release:
            entry[1].release(address)
    _bound = max(_FEW, 2 * len(_handed_out))


def release_some() -> None:
    if len(_handed_out) < _FEW or len(_handed_out) > _bound:
        release_unused()


class Child(NamedTuple):
    """A part of each value of a struct of Arrow, which none is without: its name and its format."""
    name: bytes
    form: bytes


def schema_capsule(form: bytes, metadata: bytes = b"", children: Sequence[Child] = ()) -> Any:
    """A capsule of the type that a format names, whose values may be missing."""
    return _capsule(_schema(form, b"", metadata, [_schema(it.form, it.name, b"", ())
                                                  for it in children]), SCHEMA_NAME)


def _schema(form: bytes, name: bytes, metadata: bytes, children: Sequence[Any]) -> Any:
    number, pairs, parts = _new_number(), ctypes.create_string_buffer(metadata), _parts(children)
    it = Schema(form, name, ctypes.addressof(pairs) if metadata else None, _NULLABLE,
                len(children), parts, None, _release_schema, number)
    _exported[number] = (form, name, pairs, children, parts)
    return it


def _parts(children: Sequence[Any]) -> Any:
    """The addresses of structs, which their parent keeps."""
    return (c_void_p * len(children))(*map(ctypes.addressof, children)) if children else None


def array_capsule(length: int, nulls: int, first: int, addresses: Sequence[Optional[int]],
                  owner: Any, children: Sequence[Optional[int]] = ()) -> Any:
    """A capsule of an array, whose buffers the owner keeps; and of its children, each of which has
    values at an address."""
    return _capsule(_array(length, nulls, first, addresses, owner,
                           [_array(length, 0, first, (None, it), owner, ()) for it in children]),
                    ARRAY_NAME)


def _array(length: int, nulls: int, first: int, addresses: Sequence[Optional[int]], owner: Any,
           children: Sequence[Any]) -> Any:
    number, buffers = _new_number(), (c_void_p * len(addresses))(*addresses)
    parts = _parts(children)
    it = Array(length, nulls, first, len(addresses), len(children), buffers, parts, None,
               _release_array, number)
    _exported[number] = (owner, buffers, children, parts)
    return it


class HasCapsules(Protocol):
    """What is handed out as an array."""

    def __arrow_c_schema__(self) -> Any: ...
    def __arrow_c_array__(self) -> Tuple[Any, Any]: ...


def stream_capsule(source: HasCapsules) -> Any:
    """A capsule of a stream that has one array, which is that of a source."""
    _, given = source.__arrow_c_array__()
    number = _new_number()
    _exported[number] = (source, [given])
    it = Stream(_get_schema, _get_next, _get_last_error, _release_stream, number)
    return _capsule(it, _STREAM_NAME)


def _source_of(stream: int) -> Tuple[HasCapsules, List[Any]]:
    """What a stream is of, and the capsule of its array unless that was taken."""
    source, left = _exported[Stream.from_address(stream).private_data]
    return source, left


def _write_schema(stream: int, out: int) -> None:
    source, _ = _source_of(stream)
    _move(source.__arrow_c_schema__(), Schema, SCHEMA_NAME, out)


def _write_next(stream: int, out: int) -> None:
    """Writes the array, and after it one that is released, which is the end."""
    _, left = _source_of(stream)
    if left:
        _move(left.pop(), Array, ARRAY_NAME, out)
    else:
        ctypes.memset(out, 0, ctypes.sizeof(Array))


def _move(capsule: Any, struct: _Struct, name: bytes, out: int) -> None:
    """Moves the struct of a capsule, which is released there then."""
    address = pointer_of(capsule, name)
    ctypes.memmove(out, address, ctypes.sizeof(struct))
    struct.from_address(address).release = Release(0)


def _get(write: Callable[[int, int], None]) -> Any:
    """The call of a stream by which a consumer asks for a struct."""
    def call(stream: int, out: int) -> int:
        # An exception would be printed, and the consumer would read what was not written.
        try:
            write(stream, out)
        except BaseException:
            return errno.ENOMEM
        return 0
    return _kept(_Get(call))


_get_schema, _get_next = map(_get, (_write_schema, _write_next))
_get_last_error = _kept(_GetError(lambda stream: None))


def _capsule(it: Any, name: bytes) -> Any:
    release_some()
    address = ctypes.addressof(it)
    capsule = _new_capsule(address, name, None)
    _handed_out[address] = capsule, it
    return capsule
