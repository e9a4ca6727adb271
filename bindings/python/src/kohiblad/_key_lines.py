"""What ``python -m kohiblad keys`` and ``range`` write, and how they read their arguments."""
import argparse
import json
from typing import List, Optional, Sequence

from . import keys
from ._document import ArrayDocument, Document
from ._errors import KohibladError

# The document as a whole is at the end of no steps.
_WHOLE: List[keys.Member] = [[]]


def add_key_options(command: argparse.ArgumentParser) -> None:
    command.add_argument("--member", dest="members", action="append", metavar="NAME",
                         help="a member of the key; repeated, the key has the values in this order")
    command.add_argument("--path", dest="members", action="append", metavar="JSON", type=_path,
                         help='a part of the key that is deeper, as ["at","town"] or ["tags",0]')
    command.add_argument("--cut", type=_length, metavar="BYTES",
                         help="write only so many bytes of the beginning of each key")
    command.add_argument("--rowbinary", action="store_true",
                         help="write the key and the document as a row of ClickHouse's RowBinary")


def add_range_options(command: argparse.ArgumentParser) -> None:
    command.add_argument("low", metavar="LOW", type=_bound,
                         help='the first values, as a JSON array: ["Oslo",100]')
    command.add_argument("high", metavar="HIGH", type=_bound, nargs="?",
                         help="the values that end the range and are not in it; if there are none, "
                              "it has all keys that begin with LOW")


def key_line(document: Document, options: argparse.Namespace) -> bytes:
    """The key of the members in hexadecimal, or that of the document if none is named."""
    return _key(document, options).hex().encode() + b"\n"


def key_row(document: Document, options: argparse.Namespace) -> bytes:
    """The key and the document, as two values of the type String in RowBinary."""
    return b"".join(_leb128(len(it)) + it for it in (_key(document, options), bytes(document)))


def range_lines(low: Sequence[Document], high: Optional[Sequence[Document]]) -> bytes:
    """The first key of a half-open range, and the key that ends it, in hexadecimal."""
    first = keys.key_of(*low)
    end = keys.above(first) if high is None else keys.key_of(*high)
    return f"{first.hex()}\n{end.hex()}\n".encode()


def _key(document: Document, options: argparse.Namespace) -> bytes:
    return keys.key_of_members(document, options.members or _WHOLE, options.cut)


def _leb128(number: int) -> bytes:
    """A number by seven bits a byte, the lowest first."""
    written = b""
    while number > 127:
        written += bytes([number & 127 | 128])
        number >>= 7
    return written + bytes([number])


def _length(text: str) -> int:
    if not text.isdecimal():
        raise argparse.ArgumentTypeError(f"{text}: not a number of bytes")
    return int(text)


def _path(text: str) -> keys.Member:
    try:
        steps = json.loads(text)
    except ValueError as error:
        raise argparse.ArgumentTypeError(f"{text}: {error}") from None
    if not isinstance(steps, list) or not all(type(it) in (str, int) for it in steps):
        raise argparse.ArgumentTypeError(f"{text}: a path is an array of names and indexes")
    return steps


def _bound(text: str) -> List[Document]:
    try:
        array = Document.parse(text)
    except KohibladError as error:
        raise argparse.ArgumentTypeError(f"{text}: {error}") from None
    if not isinstance(array, ArrayDocument) or not len(array):
        raise argparse.ArgumentTypeError(f"{text}: a bound is an array of the values of a key")
    return [array.item(index) for index in range(len(array))]
