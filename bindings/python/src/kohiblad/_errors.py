"""What is raised for input that cannot be read or stored, and what is warned of."""
import json
import re
import sys
import warnings
from types import FrameType
from typing import Optional

# Control characters, separators of lines, what changes the direction or the look of the text around
# it, and bytes of a name that are no UTF-8. The program `kohiblad` has the same.
_ESCAPED = re.compile(r"[\0-\x1f\x7f-\x9f\xad\u061c\u180e\u200b-\u200f\u2028-\u202e"
                      r"\u2060-\u206f\ud800-\udfff\ufeff\U000e0000-\U000e0fff]")


def printable(text: str) -> str:
    """The text with escapes, as JSON has them, for what a terminal might take for a command."""
    return _ESCAPED.sub(lambda it: json.dumps(it[0])[1:-1], text)


class KohibladWarning(UserWarning):
    """What is asked for is in no row, or the rows have it in kinds that no one type holds, so that
    the answer has no values."""


def warn(words: str) -> None:
    """Warns of something at the line that called the package."""
    level = 1
    frame: Optional[FrameType] = sys._getframe()
    while frame is not None and _is_ours(frame):
        level, frame = level + 1, frame.f_back
    warnings.warn(printable(words), KohibladWarning, stacklevel=level)


def _is_ours(frame: FrameType) -> bool:
    return str(frame.f_globals.get("__name__")).partition(".")[0] == __name__.partition(".")[0]


class KohibladError(ValueError):
    """A call of the library was refused.

    ``status`` is the number of the header's ``enum kohiblad_status``, and ``name`` the library's
    name for it, as ``InvalidJson``. For a document or a line of a file ``place`` names it, as
    ``rows.ndjson: line 3``, and ``line`` is the number of the line. For a row of a column ``row``
    is its number from 0. In its words no character is one that a terminal might take for a command:
    such are escaped, as JSON has them.
    """
    place = ""
    line: Optional[int] = None
    row: Optional[int] = None
    # In a text, where there is one.
    offset: Optional[int] = None

    def __init__(self, status: int, name: str, message: str = "") -> None:
        message = printable(message)
        super().__init__(status, name, message)
        self.status = status
        self.name = name
        self.message = message

    def __str__(self) -> str:
        return ": ".join(it for it in (printable(self.place), self.name, self.message) if it)


class InvalidDocumentError(KohibladError):
    """The bytes are no document of the depth that is allowed, or a limit of the format is passed.

    Such limits are 2**28 - 1 bytes for a text or a nested value, and 2**29 - 1 children.
    """


class InvalidTextError(KohibladError):
    """The text is not UTF-8 or not JSON, or has a number that is unfinished or has too many digits.

    ``name`` is ``InvalidUtf8``, ``InvalidJson`` or ``BadNumber``: the last if the text stops being
    JSON in such a number. ``offset`` is where it stops: how many bytes of it in UTF-8 begin some
    JSON text, or for ``InvalidUtf8`` where the first character begins that is not UTF-8.
    """


class PathError(KohibladError):
    """The text is not a path.

    Of a path of SQL/JSON ``offset`` is the byte where it stops being one, and ``report`` the text
    about that place, with a caret under it on the next line, and what may come there.
    """
    report = ""

    def __str__(self) -> str:
        told = ": ".join(it for it in (printable(self.place), self.message or self.name) if it)
        return ":\n".join(it for it in (told, self.report) if it)


class QueryError(KohibladError):
    """A path of SQL/JSON is given up: ``name`` says why, as ``MemberNotFound``."""


class NumberError(KohibladError):
    """The number is not finite, or has more than 128 bits or 255 digits after its point."""


class ExtensionError(KohibladError):
    """A field of the extension value is past its range, or its tag is none."""


class TooDeepError(KohibladError):
    """A text or a value nests deeper than is allowed.

    Of a text ``offset`` is the place of the first bracket that is too deep.
    """


class TooManyStepsError(KohibladError):
    """The answer takes more steps than were allowed, so it is not known."""


class UnfitError(KohibladError):
    """The member of a row is no value of the type that was asked for. ``row`` is the first such."""


class OutOfMemoryError(KohibladError, MemoryError):
    """The library was refused memory."""


class FloatError(TypeError):
    """A float was given: documents have exact numbers, and a float rarely is the number meant.

    Pass ``Decimal("0.1")`` or ``Decimal(str(number))`` instead.
    """
