"""A look-up in a document in a file, of which only the slices that it needs are read.

The library says which bytes are needed next: of each array or object on the way the header and the
entry words, of an object the keys too, and at the end the value.
"""
import os
from typing import TYPE_CHECKING, Any, Optional, Tuple

from . import _changes as changes
from . import _library as library
from ._changes import Step
from ._document import Document, ScalarDocument
from ._exports import Place
from ._library import exports

if TYPE_CHECKING:
    from typing import Protocol

    class Seekable(Protocol):
        """What slices are read of: a file that is open for bytes, or a sqlite3.Blob."""

        def read(self, __size: int) -> bytes: ...
        def seek(self, __offset: int, __origin: int = ...) -> Any: ...
        def tell(self) -> int: ...

# So many bytes are read at once, of which most documents have their keys in the first.
_LEAST_READ = 4096


def read_path(file: "Seekable", *steps: Step, offset: int = 0, size: Optional[int] = None,
              default: Any = None) -> Any:
    """The value at the end of a path in one document in a file, or the default if the path leads
    nowhere. No more of a long document is read than that takes: the entry words and keys of each
    array and object on the way, and the value.

    >>> import io
    >>> file = io.BytesIO(bytes(Document.parse('{"id": 7, "tags": ["a", {"of": null}]}')))
    >>> read_path(file, "id"), read_path(file, "tags", -1), read_path(file, "none", default="-")
    (7, <ObjectDocument {"of":null}>, '-')

    ``file`` is open for bytes and can seek, as a file or a ``sqlite3.Blob``; where it stands
    afterwards is not said. The document begins at ``offset`` and has ``size`` bytes; without it, it
    goes on to the end. Steps and values are as of ``Document.get_path``. InvalidDocumentError: the
    file ends within what is read, or what is read shows that there is no document; the rest is not
    checked.
    """
    if size is None:
        # The seek of a sqlite3.Blob returns None.
        file.seek(0, os.SEEK_END)
        size = file.tell() - offset
    slices = _Slices(file, offset)
    type_, at, length = library.TYPE_CONTAINER, 0, max(size, 0)
    for step in map(changes.step_of, steps):
        place = slices.find(at, length, step) if type_ == library.TYPE_CONTAINER else None
        if place is None:
            return default
        type_, at, length = place
    return _value_of(type_, slices.read(at, at + length))


def _value_of(type_: int, payload: bytes) -> Any:
    if type_ != library.TYPE_CONTAINER:
        payload = library.result_of(exports.copy, len(payload) + library.SCALAR_FRONT, type_,
                                    payload, len(payload))
    document = Document(payload)
    return document.value() if isinstance(document, ScalarDocument) else document


class _Slices:
    """The bytes of a file from an offset on, of which those that were read last are kept."""

    def __init__(self, file: "Seekable", offset: int) -> None:
        self._file, self._offset = file, offset
        self._begin, self._bytes = 0, b""

    def _read_file(self, begin: int, end: int) -> bytes:
        self._file.seek(self._offset + begin)
        data = self._file.read(end - begin)
        if len(data) != end - begin:
            raise library.error_of(library.INVALID_EOF, "the file ends within the document")
        return data

    def _at_hand(self, begin: int, end: int) -> bytes:
        """What was read before of the bytes from one place to another."""
        if not self._begin <= begin <= self._begin + len(self._bytes):
            return b""
        return self._bytes[begin - self._begin:end - self._begin]

    def read(self, begin: int, end: int) -> bytes:
        """The bytes from one place to another."""
        found = self._at_hand(begin, end)
        if len(found) < end - begin:
            found += self._read_file(begin + len(found), end)
            self._begin, self._bytes = begin, found
        return found

    def find(self, at: int, size: int, step: Step) -> Optional[Tuple[int, int, int]]:
        """The type, place and length of the child to which a step leads; None: it leads nowhere."""
        needed = 0
        while True:
            prefix = self.read(at, at + min(max(needed, _LEAST_READ), size))
            place = _find_in(prefix, size, step)
            if place.status == library.NONE:
                return None
            if place.status == library.OK:
                return place.type, at + place.offset, place.length
            if place.status != library.INVALID_EOF or place.length == 0:
                raise library.error_of(place.status)
            needed = place.length


def _find_in(prefix: bytes, size: int, step: Step) -> Place:
    if isinstance(step, str):
        try:
            name = step.encode()
        except UnicodeEncodeError:
            return Place(status=library.NONE)
        found: Place = exports.find_key_in_prefix(prefix, len(prefix), size, name, len(name))
        return found
    if step < 0:
        it = exports.kind(prefix, len(prefix))
        if it.status != library.OK:
            raise library.error_of(it.status)
        step += int(it.count)
    if step < 0:
        return Place(status=library.NONE)
    item: Place = exports.find_index_in_prefix(prefix, len(prefix), size, step)
    return item
