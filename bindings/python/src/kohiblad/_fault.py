"""The first fault of bytes that are not a document, in the order of docs/FORMAT.md.

The library decides: which headers have a kind, where each payload is, and whether a payload or a
document inside is right. This file goes to the first part that the library refuses, and reads an
entry word only to say what is wrong with it.
"""
from typing import NamedTuple, Tuple

from . import _library as library
from ._errors import KohibladError
from ._library import exports
from ._parts import EXTENSIONS, KINDS, WORD
from ._stack import DEPTH

_SCALAR_HEADER = library.scalar_document(library.TYPE_NULL, b"")[:WORD]
_EMPTY_TYPES = (library.TYPE_NULL, library.TYPE_FALSE, library.TYPE_TRUE)


class Fault(NamedTuple):
    """A fault of bytes: where it is, the library's name for it, and what is wrong."""
    offset: int
    name: str
    reason: str


class _Found(Exception):
    """A fault of an array, an object or a scalar, by its place in that and its status."""

    def __init__(self, offset: int, status: int, reason: str) -> None:
        super().__init__(offset, status, reason)
        self.offset, self.status, self.reason = offset, status, reason


def fault_of(data: bytes) -> Fault:
    """The first fault of bytes that are not a document of at most DEPTH.

    TooDeepError: they nest deeper than the thread's stack carries, so that it is not known.
    """
    begin, end = 0, len(data)
    depth = library.depth_left(library.LEVEL_STACK)
    library.expect_carried(data, depth)
    for level in range(DEPTH + 1):
        try:
            inner_begin, inner_end = _faulty_child(data[begin:end], level, depth)
        except _Found as found:
            name = library.status_name(found.status)
            return Fault(begin + found.offset, name, found.reason)
        begin, end = begin + inner_begin, begin + inner_end
    raise AssertionError("a fault is at most DEPTH levels down")


def _faulty_child(data: bytes, level: int, depth: int) -> Tuple[int, int]:
    """Where the first array or object with a fault is among the parts. _Found: the fault is here.

    The data are what is so many levels down: the whole, or an array or object in it. They are
    looked at within a depth.
    """
    keys, count = _counts(data, level)
    end = WORD * (1 + count)
    if len(data) < end:
        raise _Found(len(data) // WORD * WORD, library.INVALID_EOF, "an entry word is cut off")
    # Keys and values of an object lie as the items of an array do, and so does a scalar.
    array = (library.ARRAY << 24 | count).to_bytes(WORD, "big") + data[WORD:]
    places = library.member_places(array, 0, len(array))
    key, fault_of_keys = None, None
    for number in range(count):
        entry = WORD * (1 + number)
        word = int.from_bytes(data[entry:entry + WORD], "big")
        if not _is_entry(word, data[:WORD] == _SCALAR_HEADER):
            raise _Found(entry, library.INVALID_JSONB, "the word is not an entry")
        try:
            _, _, type_, begin, length = next(places)
        except KohibladError:
            raise _Found(entry, library.INVALID_JSONB,
                         "the payload of this entry runs past the end") from None
        end = begin + length
        payload = data[begin:end]
        if type_ != library.TYPE_CONTAINER:
            _test_payload(type_, payload, begin)
        elif library.header_status(payload) == library.NONE \
                or not exports.check(payload, length, min(DEPTH - level - 1, depth)):
            return begin, end
        if number < keys and not fault_of_keys:
            if type_ != library.TYPE_STRING:
                fault_of_keys = _Found(entry, library.INVALID_JSONB, "a key is not a string")
            elif key is not None and payload <= key:
                fault_of_keys = _Found(begin, library.INVALID_JSONB,
                                       "a key is not greater than the one before it")
            key = payload
    raise fault_of_keys or _Found(end, library.INVALID_JSONB, "bytes are left over")


def _counts(data: bytes, level: int) -> Tuple[int, int]:
    """How many keys there are, and how many parts. _Found: the header has a fault."""
    if len(data) < WORD:
        raise _Found(0, library.INVALID_EOF, "there is no whole header")
    status = library.header_status(data)
    if status == library.INVALID_JSONB:
        raise _Found(0, status, "the header is of no kind")
    if status == library.NONE:
        if level:
            raise _Found(0, library.INVALID_JSONB, "the header of a scalar is inside a container")
        if data[:WORD] != _SCALAR_HEADER:
            raise _Found(0, library.INVALID_JSONB, "the header of a scalar has a count")
        return 0, 1
    if level == DEPTH:
        raise _Found(0, library.TOO_DEEP, f"it nests more than {DEPTH:,} deep")
    it = library.kind_at(data, 0, len(data))
    return (it.count, 2 * it.count) if it.kind == library.OBJECT_KIND else (0, it.count)


def _is_entry(word: int, is_scalars: bool) -> bool:
    """Whether a word is a type that an entry may have here, and a length if the type has one."""
    length = word & library.MOST_CHILD_BYTES
    type_ = word - length
    if type_ == library.TYPE_CONTAINER:
        return not is_scalars
    return type_ in KINDS and not (length and type_ in _EMPTY_TYPES)


def _test_payload(type_: int, payload: bytes, at: int) -> None:
    """_Found: the payload of a scalar has a fault."""
    scalar = library.scalar_document(type_, payload)
    if exports.check(scalar, len(scalar), 0):
        return
    status, reason = library.INVALID_JSONB_EXTENSION, "the payload has no tag of an extension value"
    if type_ == library.TYPE_STRING:
        status, reason = library.INVALID_UTF8, "the text is not UTF-8"
    elif type_ == library.TYPE_NUMBER:
        status, reason = library.INVALID_JSONB_NUMBER, "the payload is not that of a number"
    elif payload and payload[0] in EXTENSIONS:
        status = library.INVALID_JSONB_NUMBER
        reason = f"the payload of {EXTENSIONS[payload[0]]} has another length"
    raise _Found(at, status, reason)
