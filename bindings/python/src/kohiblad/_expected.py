"""Where a text stops being JSON, and why, in words: what could have come there, and what came.

The library says where a text stops, and the classes of what could have come. The words are those
of the function kohiblad_fault_words in kohiblad.h.
"""
import re
from typing import List, Optional, Tuple

from . import _library as library
from ._errors import KohibladError
from ._library import exports

_MOST_QUOTED = 20
_MOST_OF_A_NUMBER = 40
# What may come in a text, by the bits of the library's classes.
_CLASSES = ("the rest of a string", "a value", "a key", "an escape", "a hexadecimal digit",
            "the other half of a surrogate pair", "a digit", "a sign", "'.'", "':'", "','", "']'",
            "'}'", "an exponent", "'a'", "'e'", "'l'", "'r'", "'s'", "'u'", "the end")


def fault_of(text: bytes, depth: int, exponents: bool) -> KohibladError:
    """Why a text is refused, and where."""
    fault = exports.text_fault(text, len(text), depth, exponents)
    offset: Optional[int] = fault.offset
    if fault.status == library.BAD_NUMBER:
        message = _of_number(text, fault.offset, exponents)
    elif fault.status == library.INVALID_JSON:
        message = _of_syntax(text, fault.offset, depth, exponents)
    elif fault.status == library.TOO_DEEP:
        offset = _depth_end(text, depth, exponents)
        message = f"more brackets than {depth:,} are open at byte {offset}"
    elif fault.status == library.INVALID_UTF8:
        offset, message = not_utf8(text)
    else:
        return library.error_of(fault.status)
    error = library.error_of(fault.status, message)
    error.offset = offset
    return error


def _depth_end(text: bytes, depth: int, exponents: bool) -> int:
    """The place of the first bracket that is too deep: no shorter beginning is refused for it."""
    def is_too_deep(size: int) -> bool:
        fault = exports.text_fault(text, size, depth, exponents)
        return bool(fault.status == library.TOO_DEEP)

    # By greater and greater beginnings, since the place is most often near the front.
    least, most = 0, min(2 * depth + 1, len(text))
    while not is_too_deep(most):
        least, most = most + 1, min(2 * most, len(text))
    while least < most:
        middle = (least + most) // 2
        if is_too_deep(middle):
            most = middle
        else:
            least = middle + 1
    return least - 1


def not_utf8(text: bytes) -> Tuple[int, str]:
    """Where a text has the first character that is not UTF-8, and what to say of it."""
    try:
        text.decode()
    except UnicodeDecodeError as error:
        return error.start, f"no UTF-8 at byte {error.start}, found 0x{text[error.start]:02x}"
    raise ValueError("the text is UTF-8")


def quoted_path(text: object) -> str:
    """What to say of a text that is not a path."""
    shown = text if isinstance(text, str) else bytes(text).decode(errors="replace")  # type: ignore
    if len(shown) > 3 * _MOST_QUOTED:
        shown = shown[:3 * _MOST_QUOTED] + ".."
    return f"the text is not a path: {shown!r}"


def _of_number(text: bytes, offset: int, exponents: bool) -> str:
    front = re.search(rb"[-+.0-9eE]*\Z", text[max(offset - _MOST_OF_A_NUMBER, 0):offset])
    back = re.match(rb"[-+.0-9eE]*", text[offset:offset + _MOST_OF_A_NUMBER])
    number = b"".join(it[0] for it in (front, back) if it).decode()
    if len(number) > _MOST_OF_A_NUMBER:
        number = number[:_MOST_OF_A_NUMBER] + ".."
    faults = "unfinished or too long" if exponents else "unfinished, too long, or has an exponent"
    return f"at byte {offset} of a number that is {faults}, in {number!r}"


def _of_syntax(text: bytes, offset: int, depth: int, exponents: bool) -> str:
    expected = _expected(text, depth, exponents)
    found = f"at byte {offset}, found {_found(text, offset)}"
    if not expected:
        return found
    listed = ", ".join(expected[:-1]) + " or " if len(expected) > 1 else ""
    return f"expected {listed}{expected[-1]} {found}"


def _found(text: bytes, offset: int) -> str:
    """What is at a byte: a word, or one character."""
    if offset == len(text):
        return "the end"
    rest = text[offset:offset + 4 * _MOST_QUOTED + 4].decode(errors="ignore")
    if rest.startswith("\ufeff"):
        return "a byte order mark"
    if rest[0] < " " or rest[0] == "\x7f":
        return f"0x{text[offset]:02x}"
    word = re.match(r"[A-Za-z0-9_\u0080-\U0010ffff]+", rest)
    shown = word[0] if word else rest[0]
    if len(shown) > _MOST_QUOTED:
        shown = shown[:_MOST_QUOTED] + ".."
    quote = '"' if shown == "'" else "'"
    return quote + shown + quote


def _expected(text: bytes, depth: int, exponents: bool) -> List[str]:
    """What can come where a text stops being JSON but white space, in words."""
    classes = exports.text_expected(text, len(text), depth, exponents).classes
    return [name for bit, name in enumerate(_CLASSES) if classes >> bit & 1]


def refused_str(text: str, error: UnicodeEncodeError) -> KohibladError:
    """The error for a str that has half of a surrogate pair."""
    refused = library.error_of(library.INVALID_UTF8, str(error))
    refused.offset = len(text[:error.start].encode())
    return refused
