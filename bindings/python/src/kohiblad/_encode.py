"""Python values as documents.

A value that JSON can express becomes its text, which the library parses in one call. Only the
containers around extension values and documents are built of their children's documents.
"""
import json.encoder
from collections.abc import Mapping
from datetime import date, datetime
from decimal import Decimal
from typing import (Any, Callable, Dict, Generator, List, Optional, Sequence, SupportsBytes, Type,
                    Union, cast)

from . import _library as library
from . import _scalars as scalars
from ._errors import FloatError, InvalidTextError, TooDeepError
from ._expected import fault_of, refused_str
from ._library import exports
from ._stack import DEPTH

if library.IS_NATIVE:
    from . import _native as native

# A JSON text, or a document.
Encoded = Union[str, bytes]
# Encodes a container: yields each child that is no plain scalar, and is sent what it became.
Encoder = Generator[Any, Encoded, Encoded]

# The JSON text of a str. Not all type checkers know its name.
text_of_str: Callable[[str], str] = getattr(json.encoder, "encode_basestring")


def parse(text: Union[str, bytes], depth: int = DEPTH, exponents: bool = True) -> bytes:
    """The document of a JSON text, whose numbers may have exponents or not."""
    if library.IS_NATIVE:
        return bytes(native.parse(text, depth, exponents))
    data = bytes_of_text(text)
    depth = min(depth, library.depth_of(library.LEVEL_STACK, data))
    try:
        return library.result_of(exports.parse, library.guess_of(data), data, len(data), depth,
                                 exponents)
    except (InvalidTextError, TooDeepError):
        raise fault_of(data, depth, exponents) from None


def bytes_of_text(text: Union[str, bytes]) -> bytes:
    """The UTF-8 of a JSON text."""
    if isinstance(text, str):
        return _utf8(text)
    return library.bytes_of(text, "a JSON text is a str or bytes")


def encode(value: Any, document_type: Type[SupportsBytes]) -> bytes:
    """The document of a value; a `document_type` inside it is taken as its bytes."""
    def encoder_of(child: Any, level: int) -> Union[Encoded, Encoder]:
        open_container = _ENCODERS.get(type(child))
        if open_container is None:
            encoded = encode_other(child, level, document_type)
            if encoded is not None:
                return encoded
            open_container = _object_encoder if isinstance(child, Mapping) else _array_encoder
        _expect(level < DEPTH)
        return open_container(child)

    return _document_of(_run(value, encoder_of))


def encode_other(value: Any, level: int, document_type: Type[SupportsBytes]) -> Optional[Encoded]:
    """A scalar, or a document at a level of the value that is encoded; None for a container."""
    if isinstance(value, document_type):
        document, most = bytes(value), DEPTH - level
        depth = library.depth_of(library.LEVEL_STACK, document)
        if depth < most and not exports.check(document, len(document), depth):
            raise library.too_deep(depth)
        _expect(exports.check(document, len(document), min(most, depth)))
        return document
    write = _writer_of(value)
    return write(value) if write else None


def _expect(is_within: bool) -> None:
    if not is_within:
        raise library.error_of(library.TOO_DEEP, f"the value nests more than {DEPTH} deep")


def _run(value: Any, encoder_of: Callable[[Any, int], Union[Encoded, Encoder]]) -> Encoded:
    """Encodes a value. It does not recurse, since values may nest deeper than Python's calls."""
    opened: List[Encoder] = []
    current = encoder_of(value, 0)
    while True:
        if isinstance(current, (str, bytes)):
            if not opened:
                return current
            sent: Any = current
        else:
            opened.append(current)
            sent = None
        try:
            current = encoder_of(opened[-1].send(sent), len(opened))
        except StopIteration as finished:
            opened.pop()
            current = finished.value


def _array_encoder(items: Sequence[Any]) -> Encoder:
    encoded: List[Encoded] = []
    for item in items:
        write = _WRITERS.get(type(item))
        encoded.append(write(item) if write else (yield item))
    texts = _texts_of(encoded)
    if texts is not None:
        return "[" + ",".join(texts) + "]"
    return library.build(exports.build_array, [_document_of(it) for it in encoded])


def _object_encoder(members: "Mapping[Any, Any]") -> Encoder:
    names: List[str] = []
    encoded: List[Encoded] = []
    for name, value in members.items():
        if not isinstance(name, str):
            raise TypeError(f"the key {name!r} is no str")
        write = _WRITERS.get(type(value))
        names.append(name)
        encoded.append(write(value) if write else (yield value))
    texts = _texts_of(encoded)
    if texts is not None:
        pairs = zip(map(text_of_str, names), texts)
        return "{" + ",".join([f"{name}:{value}" for name, value in pairs]) + "}"
    rows: List[bytes] = []
    for name, value in zip(names, encoded):
        rows += (_utf8(name), _document_of(value))
    return library.build(exports.build_object, rows)


def _texts_of(encoded: List[Encoded]) -> Optional[List[str]]:
    """The same list if all of it are texts."""
    return None if bytes in map(type, encoded) else cast(List[str], encoded)


def _document_of(encoded: Encoded) -> bytes:
    return parse(encoded) if isinstance(encoded, str) else encoded


def _utf8(text: str) -> bytes:
    try:
        return str.encode(text)
    except UnicodeEncodeError as error:
        raise refused_str(text, error) from None


def _refuse_float(value: float) -> Encoded:
    raise FloatError(f"documents have exact numbers: pass a Decimal, not the float {value!r}")


_WRITERS: Dict[type, Callable[[Any], Encoded]] = {
    type(None): lambda value: "null",
    bool: lambda value: "true" if value else "false",
    int: scalars.text_of_int,
    float: _refuse_float,
    Decimal: scalars.text_of_decimal,
    str: text_of_str,
    bytes: scalars.document_of_bytes,
    bytearray: scalars.document_of_bytes,
    memoryview: scalars.document_of_bytes,
    date: scalars.document_of_date,
    datetime: scalars.document_of_datetime,
    scalars.Date: scalars.document_of_raw_date,
    scalars.Timestamp: scalars.document_of_timestamp,
    scalars.TimestampTz: scalars.document_of_timestamp_tz,
    scalars.Interval: scalars.document_of_interval,
    scalars.Opaque: scalars.document_of_opaque,
}


_ENCODERS: Dict[type, Callable[[Any], Encoder]] = {
    dict: _object_encoder,
    list: _array_encoder,
    tuple: _array_encoder,
}


def _writer_of(value: Any) -> Optional[Callable[[Any], Encoded]]:
    """How a scalar of any type is written, as an IntEnum; None for a container."""
    for base in type(value).__mro__:
        if base in _WRITERS:
            return _WRITERS[base]
    if isinstance(value, (list, tuple, Mapping)):
        return None
    raise TypeError(f"{type(value).__name__} has no form in a document")
