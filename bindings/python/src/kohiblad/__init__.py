"""Binary JSON documents that are read, compared and sorted in place, by the library libkohiblad.

    >>> from kohiblad import Document
    >>> row = Document.parse('{"id": 7, "price": 1.50, "tags": ["new"]}')
    >>> row["price"], row["tags"][0]
    (Decimal('1.50'), 'new')

Numbers are exact: whole ones and decimals of 128 bits. There is no floating point.
"""
__version__ = "0.9.0"  # before the imports, since a module that is imported reads it

from ._changes import DocumentPath
from ._document import (ArrayDocument, Document, ObjectDocument, ScalarDocument, Value, dumps,
                        loads)
from ._errors import (ExtensionError, FloatError, InvalidDocumentError, InvalidTextError,
                      KohibladError, KohibladWarning, NumberError, OutOfMemoryError, PathError,
                      QueryError, TooDeepError, TooManyStepsError, UnfitError)
from ._files import read, read_lines, write
from ._library import IS_NATIVE
from ._paths import Path
from ._scalars import Date, Interval, Opaque, Scalar, Timestamp, TimestampTz
from ._slices import read_path
from ._stack import DEPTH

__all__ = ["ArrayDocument", "DEPTH", "Date", "Document", "DocumentPath", "ExtensionError",
           "FloatError", "IS_NATIVE", "Interval", "InvalidDocumentError", "InvalidTextError",
           "KohibladError", "KohibladWarning", "NumberError", "ObjectDocument", "Opaque",
           "OutOfMemoryError", "Path", "PathError", "QueryError", "Scalar", "ScalarDocument",
           "Timestamp", "TimestampTz", "TooDeepError", "TooManyStepsError", "UnfitError", "Value",
           "dumps", "loads", "read", "read_lines", "read_path", "write"]
