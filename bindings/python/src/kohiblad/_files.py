"""Files of documents, and of JSON lines.

A file of documents has each document after its length: eight bytes, the most significant first. Two
such files joined are a file of both.
"""
import contextlib
import os
import stat
import time
from typing import IO, Any, Callable, Iterable, Iterator, Optional, Tuple

from . import _library as library
from ._document import Document
from ._errors import KohibladError
from ._target import File, target_of

# Takes how many documents were read or written, of how many bytes, and how many bytes there are.
Report = Callable[[int, int, Optional[int]], Any]
# Takes why a line is left out.
Refused = Callable[[KohibladError], Any]

LENGTH_BYTES = 8
_READ_AT_ONCE = 1 << 20
_SECONDS_BETWEEN_REPORTS = 0.5
_GZIP = b"\x1f\x8b"


def read(file: File, *, progress: Optional[Report] = None) -> Iterator[Document]:
    """The documents of a file of documents, one after another, so that one is in memory at a time.

    ``file`` is a path or a file that is open for bytes, which stays open. ``progress`` is called
    twice a second and at the end, with the number of documents, that of their bytes, and that of
    all bytes, or None where it is not known. InvalidDocumentError: the bytes at a document are
    none, or the file ends within it; its ``place`` names the file and the number of the document.
    """
    return _reading(file, progress, lambda source, name, count: (
        count(document, LENGTH_BYTES + len(bytes(document)))
        for document in stored_documents(source, name)))


def read_lines(file: File, *, exponents: bool = True,
               progress: Optional[Report] = None) -> Iterator[Document]:
    """The documents of JSON lines (NDJSON), one after another; empty lines are left out.

    As ``read``, and each line as by ``Document.parse``. InvalidTextError, TooDeepError: as there;
    ``line`` is the number of the line from 1, ``offset`` the byte in it, and ``place`` names the
    file and the line.
    """
    return _reading(file, progress, lambda source, name, count: (
        count(document, size)
        for document, size in _sized_lines(source, name, exponents)))


def write(file: File, documents: Iterable[Any], *, progress: Optional[Report] = None) -> int:
    """Writes a file of documents, and returns how many there are.

    ``documents`` are documents or Python values, as for ``Document.of``. At a path the file is
    there once all of it is on the device: an error leaves what was there before. ``progress`` is as
    of ``read``, without the number of all bytes.
    """
    with target_of(file) as target:
        counter = _Counter(progress, None)
        for it in documents:
            data = stored(it if isinstance(it, Document) else Document.of(it))
            target.write(data)
            counter.add(len(data))
        counter.end()
        return counter.rows


def stored(document: Document) -> bytes:
    """The bytes of a document after their length."""
    data = bytes(document)
    return len(data).to_bytes(LENGTH_BYTES, "big") + data


def documents_of_lines(file: IO[bytes], name: str,
                       refused: Optional[Refused] = None) -> Iterator[Document]:
    """The documents of JSON lines; empty lines are left out, and with ``refused``, which is called
    with the error, also those that are no document."""
    return (document for document, _ in _sized_lines(file, name, True, refused))


def stored_documents(file: IO[bytes], name: str) -> Iterator[Document]:
    """The documents of a file that has each after its length."""
    number = 1
    while True:
        place = f"{name}: document {number}"
        prefix = file.read(LENGTH_BYTES)
        if not prefix:
            return
        size = int.from_bytes(prefix, "big")
        data = _read(file, size) if len(prefix) == LENGTH_BYTES else b""
        if len(prefix) < LENGTH_BYTES or len(data) < size:
            raise _at(place, library.error_of(library.INVALID_EOF, _ends_within(prefix)))
        try:
            document = Document(data)
        except KohibladError as error:
            raise _at(place, error) from None
        yield document
        number += 1


def _ends_within(prefix: bytes) -> str:
    # No document has 2**56 bytes, so this is no length.
    if prefix[0]:
        return "the file ends within it; for JSON lines there are `read_lines` and `encode`"
    return "the file ends within it"


def _read(file: IO[bytes], size: int) -> bytes:
    """Up to `size` bytes. Memory is taken as they come, since a wrong length may be huge."""
    parts = []
    while size:
        part = file.read(min(size, _READ_AT_ONCE))
        if not part:
            break
        parts.append(part)
        size -= len(part)
    return b"".join(parts)


def _sized_lines(file: IO[bytes], name: str, exponents: bool,
                 refused: Optional[Refused] = None) -> Iterator[Tuple[Document, int]]:
    """The document of each line that is not empty, and how many bytes were read for it."""
    size = 0
    for number, line in enumerate(file, 1):
        size += len(line)
        text = line.rstrip(b"\r\n")
        if not text.strip():
            continue
        try:
            document = Document.parse(text, exponents=exponents)
        except KohibladError as error:
            if number == 1 and line.startswith(_GZIP):
                error = library.error_of(error.status, "the file is compressed by gzip")
            error.line = number
            _at(f"{name}: line {number}", error)
            if not refused or error.status == library.OUT_OF_MEMORY:
                raise error from None
            refused(error)
            continue
        yield document, size
        size = 0


def _at(place: str, error: KohibladError) -> KohibladError:
    error.place = place
    return error


class _Counter:
    """Counts documents and their bytes, and reports them from time to time."""

    def __init__(self, progress: Optional[Report], all_bytes: Optional[int]) -> None:
        self.rows = 0
        self._bytes = 0
        self._progress = progress
        self._all_bytes = all_bytes
        self._next_time = time.monotonic() + _SECONDS_BETWEEN_REPORTS

    def add(self, size: int) -> None:
        self.rows += 1
        self._bytes += size
        if self._progress and time.monotonic() >= self._next_time:
            self._next_time = time.monotonic() + _SECONDS_BETWEEN_REPORTS
            self.end()

    def end(self) -> None:
        if self._progress:
            self._progress(self.rows, self._bytes, self._all_bytes)


_Count = Callable[[Document, int], Document]


def _reading(file: File, progress: Optional[Report],
             documents: Callable[[IO[bytes], str, _Count], Iterator[Document]]) \
        -> Iterator[Document]:
    """The documents of a file, which is opened at once and closed after the last of them."""
    files = contextlib.ExitStack()
    if isinstance(file, (str, bytes, os.PathLike)):
        source: IO[bytes] = files.enter_context(open(file, "rb"))
        name = os.fsdecode(file)
    else:
        source, name = file, str(getattr(file, "name", "the file"))
    counter = _Counter(progress, rest_of(source))

    def count(document: Document, size: int) -> Document:
        counter.add(size)
        return document

    def rows() -> Iterator[Document]:
        with files:
            yield from documents(source, name, count)
            counter.end()

    return rows()


def rest_of(source: IO[bytes]) -> Optional[int]:
    """How many bytes are to be read. None: it is not known, as of a pipe."""
    try:
        status = os.fstat(source.fileno())
        return status.st_size - source.tell() if stat.S_ISREG(status.st_mode) else None
    except (AttributeError, OSError):
        return None
