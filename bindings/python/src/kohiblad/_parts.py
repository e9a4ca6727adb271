"""The parts of a document with the places of their bytes, as ``python -m kohiblad show`` has them.

The library says what there is: kinds, counts, the places of keys and children, and the texts of
scalars. Of the layout this file knows the words alone: a header is one, and after it each part has
one, the items of an array, or the keys of an object and then its values.
"""
from typing import Iterator, NamedTuple, Optional

from . import _library as library
from ._errors import printable
from ._library import exports

WORD = 4
KINDS = {library.TYPE_NULL: "null", library.TYPE_FALSE: "boolean", library.TYPE_TRUE: "boolean",
         library.TYPE_STRING: "string", library.TYPE_NUMBER: "number",
         library.TYPE_EXTENSION: "extension"}
EXTENSIONS = {0x00: "binary", 0x10: "date", 0x20: "timestamp", 0x30: "timestamp with time zone",
              0x40: "interval"}
_MOST_SHOWN = 60


class Part(NamedTuple):
    """A value or a key of a document, and the places of its bytes in the whole."""
    level: int
    label: str             # what leads to it: an index, or a key as a text; empty for the whole
    kind: str              # array, object, scalar (the whole), a scalar's own kind, or key
    meaning: str
    is_last: bool          # in the array or object around it
    entry: Optional[int]   # where its entry word is; the whole has none
    begin: int             # where its payload is
    own_end: int           # where its own bytes end: of an array or object those of the header
    end: int

    @property
    def title(self) -> str:
        if self.kind == "key":
            return f"key {self.label}"
        return f"{self.label}: {self.meaning}" if self.label else self.meaning

    @property
    def has_parts(self) -> bool:
        return self.kind in ("array", "object", "scalar")


def counted(count: int, unit: str) -> str:
    """A count with its unit, as `2 bytes`."""
    return f"{count:,} {unit}" if count == 1 else f"{count:,} {unit}s"


def _shown(text: str) -> str:
    """The text as it is printed, cut where it is long."""
    text = printable(text)
    if len(text) <= _MOST_SHOWN:
        return text
    return text[:_MOST_SHOWN - 1] + "…"


def _text_of(scalar: bytes) -> str:
    """The JSON text of a scalar's document, to be shown."""
    text = library.result_of(exports.print, library.guess_of(scalar), scalar, len(scalar), 0)
    return _shown(text.decode())


def _meaning_of(type_: int, payload: bytes) -> str:
    scalar = library.scalar_document(type_, payload)
    size = len(scalar)
    meaning = _text_of(scalar)
    if type_ == library.TYPE_EXTENSION:
        tag = exports.as_extension(scalar, size).tag
        meaning = f"{EXTENSIONS.get(tag) or f'opaque, tag {tag:02x}'} {meaning}"
    if library.result_of(exports.canonical, size, scalar, size, 0) != scalar:
        meaning += " (old form)"
    return meaning


def _part(document: bytes, level: int, label: str, is_last: bool, entry: Optional[int], type_: int,
          at: int, length: int) -> Part:
    """The part for a value, given its type and the place of its payload."""
    end = at + length
    if type_ != library.TYPE_CONTAINER:
        meaning = _meaning_of(type_, document[at:end])
        return Part(level, label, KINDS[type_], meaning, is_last, entry, at, end, end)
    it = library.kind_at(document, at, length)
    kind = "array" if it.kind == library.ARRAY_KIND else "object"
    meaning = f"{kind} of {it.count:,}"
    return Part(level, label, kind, meaning, is_last, entry, at, at + WORD, end)


def _inside(document: bytes, whole: Part) -> Iterator[Part]:
    """The parts of an array or object, without what is in these."""
    level, size = whole.level + 1, whole.end - whole.begin
    is_object = whole.kind == "object"
    count = library.kind_at(document, whole.begin, size).count
    entries = whole.begin + WORD
    value_entries = entries + WORD * count if is_object else entries
    places = library.member_places(document, whole.begin, size)
    for number, (key_at, key_size, type_, at, length) in enumerate(places):
        label = f"{number:,}"
        if is_object:
            key_end = key_at + key_size
            label = _text_of(library.scalar_document(library.TYPE_STRING, document[key_at:key_end]))
            yield Part(level, label, "key", label, False, entries + WORD * number, key_at, key_end,
                       key_end)
        yield _part(document, level, label, number == count - 1, value_entries + WORD * number,
                    type_, at, length)


def parts_of(document: bytes) -> Iterator[Part]:
    """The parts of a document, each before those inside it, and a member's key before its value.

    Together their entry words and own bytes are all bytes of the document, each once.
    """
    size = len(document)
    if library.header_status(document) == library.NONE:
        type_, payload = library.scalar_parts(document)
        yield Part(0, "", "scalar", "scalar", True, None, 0, WORD, size)
        yield _part(document, 1, "", True, WORD, type_, size - len(payload), len(payload))
        return
    opened = [iter([_part(document, 0, "", True, None, library.TYPE_CONTAINER, 0, size)])]
    while opened:
        part = next(opened[-1], None)
        if part is None:
            opened.pop()
            continue
        yield part
        if part.has_parts:
            opened.append(_inside(document, part))
