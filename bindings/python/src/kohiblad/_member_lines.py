"""What ``python -m kohiblad survey`` and ``extract`` write, and how they read their arguments."""
import argparse
import os
from datetime import date
from decimal import Decimal
from importlib import import_module
from typing import IO, Any, Callable, Dict, Iterator, Sequence, Tuple

from . import _library as library
from ._changes import Step, warn_of_missing
from ._document import steps_of_text
from ._errors import KohibladError, PathError
from ._scalars import Date, Interval, Timestamp, TimestampTz
from ._typed import type_of
from .arrow import Column, Survey, Typed

# The names of the counts, as `kohiblad survey` writes them.
_COUNTS = (("rows", "rows"), ("not a document", "not_documents"), ("absent", "absent"),
           ("null", "nulls"), ("boolean", "booleans"), ("int64", "int64s"), ("uint64", "uint64s"),
           ("decimal64", "decimal64s"), ("decimal128", "decimal128s"), ("date", "dates"),
           ("timestamp", "timestamps"), ("timestamp_tz", "zoned_timestamps"),
           ("interval", "intervals"), ("binary", "binaries"), ("opaque", "opaques"),
           ("text", "texts"), ("array", "arrays"), ("object", "objects"),
           ("length", "longest_text"), ("digits", "most_digits"))
# The type that is the least one.
_LEAST = "least"
_NUMPY_ENDINGS = (".npy", ".npz")


class MemberError(Exception):
    """What was extracted cannot be written so."""


def add_survey_options(command: argparse.ArgumentParser) -> None:
    _add_path(command)
    _add_exact(command)


def add_extract_options(command: argparse.ArgumentParser) -> None:
    _add_path(command)
    command.add_argument("type", metavar="TYPE", type=_type,
                         help="boolean, int64, uint64, text, date, timestamp, timestamp_tz, "
                              "interval, binary, decimal with a scale, as 'decimal 2', or least: "
                              "the first of these that holds all members")
    command.add_argument("--and", dest="others", metavar=("PATH", "TYPE"), nargs=2,
                         action="append", default=[],
                         help="another member, after FILE; may be repeated")
    command.add_argument("--unfit", choices=("empty", "error"), default="empty",
                         help="what is done with members that do not fit and rows that are no "
                              "documents: empty writes no value and counts them on standard error, "
                              "error ends at the first")
    _add_exact(command)
    command.add_argument("--iso-dates", action="store_true",
                         help="read texts of RFC 3339 (ISO 8601) where the type is date, timestamp "
                              "or timestamp_tz, and find these types as the least")


def _add_path(command: argparse.ArgumentParser) -> None:
    command.add_argument("path", metavar="PATH", type=_path,
                         help="the member: $ and then .name, .\"any name\" or [0] for each step")


def _add_exact(command: argparse.ArgumentParser) -> None:
    command.add_argument("--exact", action="store_true",
                         help="a number fits only if the type gives its kind and digits back")


def _path(text: str) -> Tuple[str, Tuple[Step, ...]]:
    """A path as a text, and its steps."""
    try:
        return text, steps_of_text(text)
    except PathError as error:
        raise argparse.ArgumentTypeError(error.message) from None
    except KohibladError as error:
        raise argparse.ArgumentTypeError(f"{text!r}: {error}") from None


def _type(text: str) -> str:
    if text == _LEAST:
        return text
    try:
        return type_of(text)[0]
    except ValueError as error:
        raise argparse.ArgumentTypeError(str(error)) from None


def survey_lines(column: Column, options: argparse.Namespace) -> Iterator[bytes]:
    """The least type of the members, and what they are, with no line for what is 0."""
    _, steps = options.path
    counts: Survey = column.survey(steps)
    if counts.rows and counts.absent == counts.rows:
        warn_of_missing([steps])
    lines = [("type", column.least_type(steps, exact=options.exact))]
    lines += [(name, str(getattr(counts, field))) for name, field in _COUNTS
              if field == "rows" or getattr(counts, field)]
    if counts.numbers:
        lines.append(("scales", f"{counts.least_scale} {counts.greatest_scale}"))
    return (f"{name} {value}\n".encode() for name, value in lines)


def extracted(column: Column, options: argparse.Namespace) -> Dict[str, Typed]:
    """The columns of the members that are named, by the texts of their paths."""
    members = [(options.path, options.type)]
    for path, type_ in options.others:
        try:
            members.append((_path(path), _type(type_)))
        except argparse.ArgumentTypeError as error:
            raise MemberError(str(error)) from None
    names = [text for (text, _), _ in members]
    if len(set(names)) < len(names):
        raise MemberError("a member is named twice")
    types = [None if it == _LEAST else it for _, it in members]
    unfit = "error" if options.unfit == "error" else "rest"
    columns = column.extract([steps for (_, steps), _ in members], types, unfit=unfit,
                             exact=options.exact, iso_dates=options.iso_dates)
    return dict(zip(names, columns))


def unfit_lines(columns: Dict[str, Typed]) -> Iterator[str]:
    """What to say of the members that do not fit."""
    for name, typed in columns.items():
        if typed.unfit:
            yield f"{name}: no value of the type {typed.type} in {typed.unfit:,} of " \
                  f"{len(typed):,} rows"


def is_numpy(path: str) -> bool:
    """Whether the ending of a file's name says that it has arrays of numpy."""
    return os.path.splitext(path)[1] in _NUMPY_ENDINGS


def csv_lines(columns: Dict[str, Typed]) -> Iterator[bytes]:
    """A line for each row: its number from 0, and its values, of which a text is quoted and bytes
    are in hexadecimal, quoted if there are none."""
    yield _line(["row", *map(_quoted, columns)])
    cells = [map(_writer(it.type), it.to_list()) for it in columns.values()]
    for row, values in enumerate(zip(*cells)):
        yield _line([str(row), *values])


def _line(cells: Sequence[str]) -> bytes:
    return (",".join(cells) + "\n").encode()


def _quoted(text: str) -> str:
    return '"' + text.replace('"', '""') + '"'


def _writer(type_: str) -> Callable[[Any], str]:
    """What writes a value of a type; a row without one has nothing."""
    def write(value: Any) -> str:
        if value is None:
            return ""
        if isinstance(value, str):
            return _quoted(value)
        if isinstance(value, bytes):
            return value.hex() or _quoted("")
        if isinstance(value, (date, Date, Timestamp, TimestampTz, Interval)):
            return value.isoformat()
        # A Decimal has no exponent so.
        return format(value, "f") if isinstance(value, Decimal) else str(value)

    if type_ == "boolean":
        return lambda value: "" if value is None else "true" if value else "false"
    return write


def write_numpy(columns: Dict[str, Typed], path: str, target: IO[bytes]) -> None:
    """Writes arrays of numpy: for .npy one, all of whose rows have a value; for .npz the values and
    the states of each member, and the scale of decimals.

    MemberError: there is no numpy, or the arrays cannot have these values.
    """
    try:
        np = import_module("numpy")
    except ImportError:
        raise MemberError(f"{path}: needs numpy") from None
    arrays = {name: _array(np, name, it) for name, it in columns.items()}
    if path.endswith(".npy"):
        if len(columns) > 1:
            raise MemberError(f"{path}: one array for {len(columns)} members: write .npz")
        for name, typed in columns.items():
            empty = len(typed) - bytes(typed.states).count(library.ROW_VALUE)
            if empty:
                raise MemberError(f"{name}: {empty:,} rows have no value: write .npz, which says "
                                  "which")
            np.save(target, arrays[name], allow_pickle=False)
        return
    for name, typed in columns.items():
        arrays[f"{name} states"] = np.asarray(typed.states)
        if typed.type.startswith("decimal"):
            arrays[f"{name} scale"] = np.array(typed.scale)
    np.savez(target, **arrays)


def _array(np: Any, name: str, typed: Typed) -> Any:
    if typed.type == "text":
        texts = [it or "" for it in typed.to_list()]
        if any(it.endswith("\0") for it in texts):
            raise MemberError(f"{name}: a text ends with a zero character, which numpy drops")
        return np.array(texts, dtype=str)
    if typed.type == "binary":
        values = [it or b"" for it in typed.to_list()]
        if any(it.endswith(b"\0") for it in values):
            raise MemberError(f"{name}: a binary value ends with a zero, which numpy drops")
        return np.array(values, dtype=bytes)
    found = typed.numpy
    if found.dtype == object:
        raise MemberError(f"{name}: a number is past 64 bits without its point")
    return found if len(found) == len(typed) else np.zeros(len(typed), dtype="int64")
