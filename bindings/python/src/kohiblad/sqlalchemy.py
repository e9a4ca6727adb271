"""A column type of SQLAlchemy that holds documents, as ``Column("doc", KohibladType)``.

In PostgreSQL it is the extension's type ``kohiblad``, whose operators its expressions have; in
other databases it is a column of the documents' bytes. A value that is written is a document or a
Python value, and one that is read a document. None is NULL, and ``Document.of(None)`` JSON's null.
"""
# Whether SQLAlchemy has types depends on its version and on the stubs that are installed.
# mypy: ignore-errors
from typing import Any, Optional

from sqlalchemy import Boolean, Float, Integer, LargeBinary, Numeric, Text, cast, literal
from sqlalchemy.dialects.postgresql import ARRAY
from sqlalchemy.dialects.postgresql.base import ischema_names
from sqlalchemy.sql.elements import BinaryExpression, ClauseElement
from sqlalchemy.types import TypeDecorator, UserDefinedType

from ._document import Document
from .sql import read_text, write_text

# The operators of a value, and of its text.
_AS_TEXT = {"->": "->>", "#>": "#>>"}


class _PostgresType(UserDefinedType):
    cache_ok = True

    def get_col_spec(self, **_: Any) -> str:
        return "kohiblad"


class _PathType(UserDefinedType):
    cache_ok = True

    def get_col_spec(self, **_: Any) -> str:
        return "jsonpath"


class KohibladType(TypeDecorator):
    impl = LargeBinary
    cache_ok = True

    class comparator_factory(TypeDecorator.Comparator):
        """The operations of ``JSONB``, with its names; values may be expressions too."""

        def __getitem__(self, key: Any) -> Any:  # doc -> key, doc #> keys
            operator = "#>" if isinstance(key, (tuple, list)) else "->"
            return self.expr.op(operator, return_type=KohibladType())(_step(key))

        @property
        def astext(self) -> Any:  # doc ->> key of doc -> key, and doc #>> '{}' of doc
            expr = self.expr
            operator = getattr(getattr(expr, "operator", None), "opstring", None)
            if isinstance(expr, BinaryExpression) and operator in _AS_TEXT:
                return expr.left.op(_AS_TEXT[operator], return_type=Text())(expr.right)
            return self.text_of(())

        def text_of(self, key: Any) -> Any:  # doc ->> key, doc #>> keys
            operator = "#>>" if isinstance(key, (tuple, list)) else "->>"
            return self.expr.op(operator, return_type=Text())(_step(key))

        def as_string(self) -> Any:
            return self.astext

        def as_integer(self) -> Any:
            return cast(self.astext, Integer())

        def as_float(self) -> Any:
            return cast(self.astext, Float())

        def as_numeric(self, precision: int, scale: int, asdecimal: bool = True) -> Any:
            return cast(self.astext, Numeric(precision, scale, asdecimal=asdecimal))

        def as_boolean(self) -> Any:
            return cast(self.astext, Boolean())

        def contains(self, other: Any, **_: Any) -> Any:  # doc @> other
            return self.expr.bool_op("@>")(_operand(other, KohibladType()))

        def contained_by(self, other: Any) -> Any:  # doc <@ other
            return self.expr.bool_op("<@")(_operand(other, KohibladType()))

        def has_key(self, key: Any) -> Any:  # doc ? key
            return self.expr.bool_op("?")(_operand(key, Text()))

        def has_any(self, keys: Any) -> Any:  # doc ?| keys
            return self.expr.bool_op("?|")(_operand(keys, ARRAY(Text())))

        def has_all(self, keys: Any) -> Any:  # doc ?& keys
            return self.expr.bool_op("?&")(_operand(keys, ARRAY(Text())))

        def path_exists(self, path: Any) -> Any:  # doc @? path
            return self.expr.bool_op("@?")(cast(_operand(path, Text()), _PathType()))

        def path_match(self, path: Any) -> Any:  # doc @@ path
            return self.expr.bool_op("@@")(cast(_operand(path, Text()), _PathType()))

        def delete_path(self, keys: Any) -> Any:  # doc #- keys
            return self.expr.op("#-", return_type=KohibladType())(_operand(keys, ARRAY(Text())))

        def concat(self, other: Any) -> Any:  # doc || other
            return self.expr.op("||", return_type=KohibladType())(_operand(other, KohibladType()))

        __add__ = concat

    def load_dialect_impl(self, dialect: Any) -> Any:
        is_postgres = dialect.name == "postgresql"
        return dialect.type_descriptor(_PostgresType() if is_postgres else LargeBinary())

    def process_bind_param(self, value: Any, dialect: Any) -> Any:
        if value is None:
            return None
        return write_text(value) if dialect.name == "postgresql" else bytes(Document.of(value))

    def process_result_value(self, value: Any, dialect: Any) -> Optional[Document]:
        is_text = value is None or dialect.name == "postgresql"
        return read_text(value) if is_text else Document(value)


def _operand(value: Any, type_: Any) -> Any:
    """A value of a type, or the expression that it is already."""
    is_expression = isinstance(value, ClauseElement) or hasattr(value, "__clause_element__")
    return value if is_expression else literal(value, type_)


def _step(key: Any) -> Any:
    """A key, an index, or the keys and indexes of a path."""
    if isinstance(key, (tuple, list)):
        return literal([str(it) for it in key], ARRAY(Text()))
    return _operand(key, Integer() if isinstance(key, int) else Text())


# For tables that are reflected.
ischema_names["kohiblad"] = KohibladType
