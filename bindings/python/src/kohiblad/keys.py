"""Keys for stores that sort byte strings: of some members of a document, and of ranges.

    >>> from decimal import Decimal
    >>> from kohiblad import Document
    >>> from kohiblad.keys import above, key_of, key_of_members
    >>> row = Document.parse('{"id": 7, "city": "Oslo", "price": 99.50}')
    >>> key_of_members(row, ["city", "price"]) == key_of("Oslo", Decimal("99.5"))
    True
    >>> low, high = key_of("Oslo", 50), key_of("Oslo", 100)
    >>> low <= key_of_members(row, ["city", "price"]) < high
    True
    >>> key_of("Oslo") <= key_of_members(row, ["city", "price"]) < above(key_of("Oslo"))
    True

A key has the comparable keys of its values in a row, and compares by its bytes as a tuple of the
values does: no comparable key begins another. docs/COMPARABLE.md says what is proved of them.
"""
from typing import Any, Iterable, Optional, Sequence, Tuple, Union, cast

from ._document import ArrayDocument, Document, ObjectDocument
from ._errors import InvalidTextError

__all__ = ["MISSING", "Member", "above", "key_of", "key_of_members"]

# The key of a member that is not there. It is below all comparable keys, and begins none.
MISSING = b"\0"

# A name, or the names and indexes that lead to a part.
Member = Union[str, Sequence[Union[str, int]]]


def key_of(*values: Any) -> bytes:
    """The key of Python values or documents: their comparable keys in a row.

    Raises as ``Document.of``.
    """
    return b"".join(Document.of(value).key() for value in values)


def key_of_members(document: Document, members: Iterable[Member],
                   cut: Optional[int] = None) -> bytes:
    """The key of some members, each a name or a list of names and indexes, in this order.

    ``MISSING`` has the place of a member that is not there. With ``cut`` only so many bytes of the
    beginning are returned. A cut key is a lower bound: it is never above the whole one, and where
    two that were cut to one length differ, the whole keys compare as they do.
    """
    if cut is not None and cut < 0:
        raise ValueError("a key is cut to 0 bytes or more")
    return _whole_key(document, tuple(members))[:cut]


def _whole_key(document: Document, members: Tuple[Member, ...]) -> bytes:
    if all(type(it) is str for it in members):
        try:
            return document.member_key(*cast(Tuple[str, ...], members))
        except InvalidTextError:
            pass  # A name with half of a surrogate pair, which no member has.
    return b"".join(_key_at(document, it) for it in members)


def _key_at(document: Document, member: Member) -> bytes:
    part = document
    for step in [member] if isinstance(member, str) else member:
        try:
            if isinstance(part, ObjectDocument) and isinstance(step, str):
                part = part.member(step)
            elif isinstance(part, ArrayDocument) and not isinstance(step, str):
                part = part.item(step)
            else:
                return MISSING
        except LookupError:
            return MISSING
    return part.key()


def above(key: bytes) -> bytes:
    """The least byte string above all that begin with a key: the end of their half-open range.

    ValueError: there is none, of no bytes and of ``FF`` alone; no key of values is one of these.
    """
    beginning = key.rstrip(b"\xff")
    if not beginning:
        raise ValueError("no byte string is above all that begin with these bytes")
    return beginning[:-1] + bytes([beginning[-1] + 1])
