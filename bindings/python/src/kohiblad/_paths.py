"""Paths of SQL/JSON: texts that ask a document for values."""
import json
import re
from typing import Any, List, Match, Union, cast

from . import _library as library
from ._changes import Step
from ._encode import bytes_of_text
from ._errors import KohibladError, PathError, printable
from ._library import exports

# How many characters of a path are shown.
_MOST_SHOWN = 60
# What the words about a refused path may take.
_REPORT_SIZE = 512

# A step to one child, as `str` of a path writes it, and a path of such steps alone.
_STEP = r'\."(?:[^"\\]|\\.)*"|\[\d+\]|\[last(?: - \d+)?\]|\[last \+ 1\]'
_STEPS = re.compile(rf"(?:strict )?\$((?:{_STEP})*)")
# The index that is past the last item of every array.
_PAST = 2**64 - 1


class Path:
    """A path of SQL/JSON that was read: it can be asked of many documents.

    >>> Path("$.lines[*] ? (@.price > $least)")
    Path('$."lines"[*]?(@."price" > $"least")')

    ``text`` is the path as it was given, and ``str`` the one form that all texts of the same path
    have. PathError: the text is no path; its words show the place, and what may come there.
    """
    __slots__ = ("_data",)
    _data: bytes

    def __init__(self, text: Union[str, bytes]) -> None:
        data = bytes_of_text(text)
        library.expect_path_carried(data)
        fault = exports.path_fault(data, len(data))
        if fault.status != library.OK:
            raise _error_of_fault(data, fault)
        object.__setattr__(self, "_data", data)

    def __setattr__(self, name: str, value: Any) -> None:
        raise AttributeError("a path does not change")

    @property
    def text(self) -> str:
        return self._data.decode()

    def __str__(self) -> str:
        data = self._data
        library.expect_path_carried(data)
        return library.result_of(exports.path_print, library.guess_of(data), data,
                                 len(data)).decode()

    def __repr__(self) -> str:
        return f"Path({str(self)!r})"

    def __eq__(self, other: object) -> bool:
        if not isinstance(other, Path):
            return NotImplemented
        return str(self) == str(other)

    def __hash__(self) -> int:
        return hash(str(self))

    def __reduce__(self) -> Any:
        return Path, (self.text,)


# A path: its text, or one that was read before.
PathText = Union[str, bytes, Path]


def steps_of(path: Path) -> List[Step]:
    """The steps of a path of keys and indexes. PathError: it has others."""
    found = _STEPS.fullmatch(str(path))
    if not found:
        raise library.error_of(library.OTHER_KIND,
                               f"the path may have keys and indexes alone: {_shown(path._data)!r}")
    return [_step_of(it) for it in re.finditer(_STEP, found[1])]


def _step_of(step: Match[str]) -> Step:
    written = step[0]
    if written.startswith("."):
        return cast(str, json.loads(written[1:]))
    if written == "[last + 1]":
        return _PAST
    less = written[1:-1].replace("last", "").replace(" - ", "")
    return -1 - int(less or 0) if "last" in written else int(less)


def data_of_path(path: PathText) -> bytes:
    """The bytes of the text of a path, which need be none."""
    return path._data if isinstance(path, Path) else bytes_of_text(path)


def path_refused(path: bytes, status: int) -> KohibladError:
    """The error of a path that is refused, or given up, with this status."""
    if status == library.OTHER_KIND:
        return _error_of_fault(path, exports.path_fault(path, len(path)))
    return library.error_of(status, f"the path {_shown(path)!r}" if path else "")


def _error_of_fault(path: bytes, fault: Any) -> KohibladError:
    """The error of a text that is no path, which shows its place."""
    if fault.status != library.OTHER_KIND:
        return library.error_of(fault.status)
    error = library.error_of(fault.status, "the text is not a path")
    report = library.result_of(exports.path_report, _REPORT_SIZE, path, len(path)).decode()
    error.offset = fault.offset
    cast(PathError, error).report = "\n".join(map(printable, report.split("\n")))
    return error


def _shown(path: bytes) -> str:
    shown = path.decode(errors="replace")
    return printable(shown[:_MOST_SHOWN] + ".." if len(shown) > _MOST_SHOWN else shown)
