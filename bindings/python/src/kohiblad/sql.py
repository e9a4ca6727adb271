"""Documents as the texts that a column of PostgreSQL's type ``kohiblad`` has in a driver.

>>> write_text({"price": 5}), read_text('{"price": 1.50}')
('\\\\x40000001100000052000000270726963654005', <ObjectDocument {"price":1.50}>)
"""
from typing import Any, Optional, Union

from ._document import Document


def read_text(text: Union[str, bytes, None]) -> Optional[Document]:
    """The document of a column's text: a JSON text, or ``\\x`` and its bytes in hexadecimal.

    None is of NULL. Raises as ``Document.parse`` and ``Document``.
    """
    if text is None:
        return None
    if isinstance(text, bytes):
        text = text.decode()
    if text.startswith("\\x"):
        return Document(bytes.fromhex(text[2:]))
    return Document.parse(text)


def write_text(value: Any) -> str:
    """The text for a column of a document, or of a Python value as for ``Document.of``.

    It has the bytes, in hexadecimal, so that also extension values stay what they are.
    """
    document = value if isinstance(value, Document) else Document.of(value)
    return "\\x" + bytes(document).hex()
