"""Documents: checked bytes, read in place."""
import re
import sys
from decimal import Decimal
from functools import lru_cache, total_ordering
from json import JSONDecoder
from typing import (TYPE_CHECKING, Any, Callable, Dict, Generator, ItemsView, Iterator, KeysView,
                    List, Mapping, Optional, Pattern, Sequence, SupportsIndex, Tuple, Type, Union,
                    ValuesView, cast, overload)

from . import _changes as changes
from . import _library as library
from . import _scalars as scalars
from ._changes import DocumentPath, Step
from ._encode import bytes_of_text, encode, encode_other, parse
from ._errors import KohibladError, PathError, TooDeepError, warn
from ._expected import fault_of, quoted_path
from ._exports import Place
from ._library import IS_NATIVE, exports
from ._paths import Path, PathText, data_of_path, path_refused, steps_of
from ._scalars import Scalar, scalar_of
from ._stack import DEPTH

if IS_NATIVE:
    from . import _native as native

_KINDS = ("null", "boolean", "number", "string", "extension", "array", "object")
_MOST_SHOWN = 70
# So many steps of `contains` take less than a tenth of a second. It begins anew with more, so that
# an interrupt from the keyboard ends it.
_FIRST_STEPS = 1 << 20
# A path is followed by copies, which the extension module makes, in documents that are no longer.
_MOST_COPIED = 4096
# What a path leads to that leads nowhere.
_NOTHING = object()

Value = Union[Scalar, List[Any], Dict[str, Any]]
# A child of an array or object, as it is read.
Child = Union[Scalar, "Document"]

_value_of_json: Callable[[str], Value] = JSONDecoder(parse_float=Decimal).decode


@total_ordering
class Document:
    """A JSON value as the bytes of a binary document, read in place and never changed.

    ``Document(data)`` takes bytes that were stored, and checks them once. ``Document.parse`` reads
    a JSON text and ``Document.of`` takes a Python value. The result is an ``ObjectDocument``, which
    is a ``Mapping``, an ``ArrayDocument``, which is a ``Sequence``, or a ``ScalarDocument``.

    Documents are ordered, compared and hashed by what they mean: 5 and 5.0 are equal. The first
    comparison makes the document's key, which is kept. Documents are equal to documents alone.
    """
    __slots__ = ("_data", "_key", "__weakref__")
    _data: bytes
    _key: Optional[bytes]

    if TYPE_CHECKING:
        # Arrays and objects have these; which kind a text has shows when the program runs.
        def __getitem__(self, key: Any) -> Any: ...
        def __iter__(self) -> Iterator[Any]: ...
        def __len__(self) -> int: ...
        def __contains__(self, it: object) -> bool: ...
        def __or__(self, other: Any) -> "Document": ...
        def __ror__(self, other: Any) -> "Document": ...
        def __add__(self, other: Any) -> "Document": ...
        def __radd__(self, other: Any) -> "Document": ...
        def member(self, name: str) -> "Document": ...
        def item(self, index: SupportsIndex) -> "Document": ...

    def __new__(cls, data: Union[bytes, bytearray, memoryview], depth: int = DEPTH) -> "Document":
        """The document of stored bytes.

        ``depth`` is how deep it may nest, from 0 to 1,000: a scalar has depth 0, an array or object
        one more than its deepest child, and at least 1. InvalidDocumentError: the bytes are no
        document of that depth. TooDeepError: they nest deeper than the thread's stack carries, as
        each call says that walks a document.
        """
        if library.is_long(data):
            return cast(Document, library.attended(0, _checked, data, depth))
        return _checked(data, depth)

    @classmethod
    def parse(cls, text: Union[str, bytes], depth: int = DEPTH, *,
              exponents: bool = True) -> "Document":
        """The document of a JSON text, as a str or in UTF-8.

        Of a key that comes twice the last value stays. A number with an exponent means exactly its
        value, ``1e5`` the whole number 100000; with ``exponents=False`` it is refused. ``depth`` is
        how deep brackets may nest, from 0 to 1,000, but no deeper than the thread's stack carries.
        InvalidTextError: the text is no JSON or not UTF-8, or has a number that is refused or has
        too many digits, and its `offset` says where; TooDeepError; InvalidDocumentError: it is past
        a limit of the format.
        """
        if library.is_long(text):
            return cast(Document, library.attended(library.guess_of(text), _parsed, text, depth,
                                                   exponents))
        return _parsed(text, depth, exponents)

    @classmethod
    def of(cls, value: Any) -> "Document":
        """The document of a Python value.

        It may consist of None, bool, int, Decimal, str, bytes, date, datetime, Date, Timestamp,
        TimestampTz, Interval, Opaque, Document, list, tuple and mappings with keys that are str.
        FloatError: a float; NumberError: a number past 128 bits or 255 digits after its point;
        InvalidTextError: half of a surrogate pair; TooDeepError: it nests more than 1,000 deep;
        TypeError: a value of another type.
        """
        if IS_NATIVE:
            document = native.of(value)
            if document is not None:
                return document
        return _of_checked(encode(value, Document))

    @property
    def kind(self) -> str:
        """null, boolean, number, string, extension, array or object."""
        if IS_NATIVE:
            return _KINDS[native.kind(self._data)]
        return _KINDS[exports.kind(self._data, len(self._data)).kind]

    def value(self) -> Value:
        """The whole document as Python values.

        Numbers come as an int, or with digits after the point as a Decimal with these digits;
        extension values as bytes, date, datetime, Interval or Opaque, or as Date, Timestamp or
        TimestampTz where Python has no such date.
        """
        if IS_NATIVE:
            return native.value(self._data)
        # Without extension values the JSON text says all, and Python's reader of it is quicker.
        if not _may_have_extensions(self._data):
            try:
                return _value_of_json(str(self))
            except (RecursionError, TooDeepError):
                pass
        return library.run_nested(_decoder, self._data)

    def key(self) -> bytes:
        """The comparable key: keys compare by their bytes as documents do, and hash alike."""
        if self._key is None:
            call = native.key if IS_NATIVE else library.key_of
            self._key = library.made_of(self._data, call, self._data)
        return self._key

    def member_key(self, *names: str) -> bytes:
        """The keys of some members in a row, which compare by their bytes as these members do.

        >>> row = Document.parse('{"city": "Oslo", "price": 99}')
        >>> row.member_key("city", "size") == row.member("city").key() + b"\\0"
        True

        A zero byte, below all keys, has the place of a member that is not there. ``kohiblad.keys``
        has keys of parts that are deeper. Raises as ``pick``.
        """
        _expect_names(names)
        listed = changes.document_of_path(tuple(map(str.__str__, names)))
        return self._written(exports.member_key, library.guess_of(self._data), listed, len(listed))

    def canonical(self) -> "Document":
        """The same document with each value in the one form that is written today.

        InvalidDocumentError: that form is past a limit of the format.
        """
        if IS_NATIVE:
            return _of_checked(library.made_of(self._data, native.to_canonical, self._data))
        return _of_checked(self._written(exports.canonical, library.guess_of(self._data)))

    def contains(self, other: Any, steps: Optional[int] = None) -> bool:
        """Whether this document contains another, or a Python value.

        >>> row = Document.parse('{"id": 7, "tags": ["a", "b"]}')
        >>> row.contains({"tags": ["b"]}), row.contains({"tags": ["c"]})
        (True, False)

        An object contains the objects whose keys it has, with values that contain theirs; an array
        those arrays for each of whose items it has one that contains it, in any order; a scalar
        what equals it; and this document, if it is an array, also a scalar among its items.

        For arrays in arrays this may take a step for each pair of values. TooManyStepsError: it
        takes more than ``steps``. There is a step for each pair of values that are compared, each
        byte of two texts of one length, and each member that is passed on the way to a key, with
        each byte of its own. ``steps`` suffice that are the product of what both documents have of
        values, keys, and bytes in texts, keys and binary values. While it takes long, signals are
        handled.
        """
        other_data = _data_of(other)
        size, other_size = len(self._data), len(other_data)
        depth = library.fitting(library.LEVEL_STACK, self._data, other_data)
        budget = _budget_of(steps)
        allowed = min(_FIRST_STEPS, budget)
        while True:
            truth = exports.contains(self._data, size, other_data, other_size, depth, allowed)
            if truth.status != library.TOO_MANY_STEPS or allowed == budget:
                return library.is_true(truth)
            allowed = min(4 * allowed, budget)

    def has_key(self, name: str) -> bool:
        """Whether an object has this key, an array this text among its items, or it is this text.

        >>> [Document.of(it).has_key("a") for it in ({"a": 1}, ["a", 1], "a", {"b": "a"})]
        [True, True, True, False]
        """
        if not isinstance(name, str):
            raise TypeError(f"a key is a str, not {type(name).__name__}")
        data = _utf8_of_name(name)
        if data is None:
            return False
        return self._is_true(exports.exists, data)

    def has_any_key(self, *names: str) -> bool:
        """Whether ``has_key`` is true of one of the names, in one walk; of no names it is not.

        >>> row = Document.parse('{"id": 7, "tags": []}')
        >>> row.has_any_key("id", "size"), row.has_any_key("size"), row.has_any_key()
        (True, False, False)
        """
        return self._is_true(exports.exists_any, changes.document_of_path(_names_of_keys(names)))

    def has_all_keys(self, *names: str) -> bool:
        """Whether ``has_key`` is true of all the names, in one walk; of no names it is.

        >>> row = Document.parse('{"id": 7, "tags": []}')
        >>> row.has_all_keys("tags", "id"), row.has_all_keys("id", "size"), row.has_all_keys()
        (True, False, True)
        """
        found = _names_of_keys(names)
        if len(found) < len(names):
            return False
        return self._is_true(exports.exists_all, changes.document_of_path(found))

    def get_path(self, *steps: Step, default: Any = None) -> Any:
        """The value at the end of a path, or the default if the path leads nowhere.

        >>> row = Document.parse('{"id": 7, "tags": ["a", {"of": null}]}')
        >>> row.get_path("tags", -1, "of", default="none"), row.get_path("tags", 5, default="none")
        (None, 'none')
        >>> row.get_path("tags", 1)
        <ObjectDocument {"of":null}>

        A str leads to the value of a key of an object, an int to an item of an array, from the end
        if it is negative. A scalar comes as a Python value, and an array or object as a document.
        PathError: there is no such key, but it leads somewhere as the text of a path.
        """
        path = tuple(map(changes.step_of, steps))
        found = self._value_at(path)
        if found is not _NOTHING:
            return found
        meant = steps_of_name(path[0]) if len(path) == 1 else None
        if meant and self._value_at(meant) is not _NOTHING:
            raise path_error(f"no key is {path[0]!r}: for the path that it is as a text write "
                             f"get_path({', '.join(map(repr, meant))})")
        return default

    def _value_at(self, path: Tuple[Step, ...]) -> Any:
        """The value at the end of a path, or _NOTHING if it leads nowhere."""
        if not path:
            return self.value() if isinstance(self, ScalarDocument) else self
        if IS_NATIVE and len(self._data) <= _MOST_COPIED:
            return self._child_at(path)
        found: List[Union[bytes, int]] = []
        for step in path:
            data = _utf8_of_name(step) if isinstance(step, str) else step
            if data is None:
                return _NOTHING
            found.append(data)
        place = library.place_of_path(self._data, found)
        if place is None:
            return _NOTHING
        type_, at, size = place
        return _child_of(type_, self._data[at:at + size])

    def select(self, path: PathText, variables: Any = None, *,
               silent: bool = False) -> List["Child"]:
        """All values that a path of SQL/JSON gives, in their order.

        >>> row = Document.parse('{"tags": [{"of": 1}, {"of": null}, {}]}')
        >>> row.select("$.tags[*].of"), row.select("$.tags[last]"), row.select("$.none[*]")
        ([1, None], [<ObjectDocument {}>], [])
        >>> row.select("$.tags[*] ? (@.of < $most)", {"most": 5}), row.select("$.tags.size()")
        ([<ObjectDocument {"of":1}>], [3])

        The path is a text or a ``Path``; docs/PATHS.md has the language. ``variables`` is a dict or
        an object document: each member is the variable of this name. Scalars come as Python values,
        and arrays and objects as documents. PathError: it is no path. QueryError: the path is given
        up, as ``strict $.none`` is; with ``silent`` the values before that are the answer, and only
        a variable that is not given is an error.
        """
        data = data_of_path(path)
        try:
            found = library.made_of(self._data, library.path_values, self._data, data,
                                    _variables_of(variables), silent)
        except KohibladError as error:
            raise path_refused(data, error.status) from None
        return list(cast(ArrayDocument, _of_checked(found)))

    def matches(self, path: PathText, variables: Any = None, *,
                silent: bool = False) -> Optional[bool]:
        """What a test says of this document: None if it is unknown.

        >>> row = Document.parse('{"total": 120, "note": "n/a"}')
        >>> row.matches("$.total > 100"), row.matches("$.note > 100")
        (True, None)

        The path is to give one value, a boolean or null. QueryError: it gives another, or the path
        is given up; with ``silent`` the answer is then None.
        """
        return self._truth_of(exports.path_match, path, variables, silent)

    def exists(self, path: PathText, variables: Any = None, *,
               silent: bool = False) -> Optional[bool]:
        """Whether a path gives a value of this document.

        >>> row = Document.parse('{"lines": [{"price": 3}, {"price": 5}]}')
        >>> row.exists("$.lines[*] ? (@.price > 4)"), row.exists("$.none")
        (True, False)

        A test always gives one: ``matches`` says which. QueryError: the path is given up before it
        is known; with ``silent`` the answer is then None.
        """
        return self._truth_of(exports.path_exists, path, variables, silent)

    def _truth_of(self, call: Any, path: PathText, variables: Any,
                  silent: bool) -> Optional[bool]:
        data = data_of_path(path)
        truth = library.path_truth(call, self._data, data, _variables_of(variables), silent)
        if truth.status == library.NONE:
            return None
        if truth.status != library.OK:
            raise path_refused(data, truth.status)
        return bool(truth.value)

    def path_of(self, text: Union[str, bytes]) -> List[Step]:
        """The steps that a text gives in this document, for ``get_path``, ``set`` and the others.

        >>> row = Document.parse('{"id": 7, "tags": ["a", {"b/c": null}]}')
        >>> row.path_of("/tags/1/b~1c"), row.path_of("{tags,-1}"), row.path_of("$.tags[0]")
        (['tags', 1, 'b/c'], ['tags', -1], ['tags', 0])
        >>> row.set(row.path_of("/tags/-"), "c").get_path("tags", -1)
        'c'

        The text is a JSON pointer (RFC 6901), a list as PostgreSQL writes an array of texts, or a
        path as for ``select`` of keys and indexes alone, where ``[last + 1]`` is past the last
        item; SQLite's ``[#-1]`` is read too. Of a pointer and a list this document decides which
        names are keys and which are indexes: a name is a key, but in an array ``0``, and other
        digits that do not begin with ``0``, are an index, ``-1`` is the last item, and ``-`` is
        past it, as a great index. PathError: the text is none of these.
        """
        data = bytes_of_text(text)
        if data.lstrip().startswith((b"$", b"lax", b"strict")) and b"[#" not in data:
            return steps_of(Path(data))
        try:
            path = library.path_of_text(self._data, data)
        except PathError as error:
            raise library.error_of(error.status, quoted_path(text)) from None
        return cast(List[Step], _of_checked(path).value())

    def _child_at(self, path: Sequence[Step]) -> Any:
        """As ``_value_at``, by a copy of each array and object on the way."""
        child: Child = self
        try:
            for step in path:
                if isinstance(child, ObjectDocument) and isinstance(step, str):
                    child = native.member(child._data, step)
                elif isinstance(child, ArrayDocument) and isinstance(step, int):
                    child = native.item(child._data, step)
                else:
                    return _NOTHING
        except LookupError:
            return _NOTHING
        return child

    def set(self, path: DocumentPath, value: Any, *, create: bool = False) -> "Document":
        """A new document with a value, or another document, at the end of a path.

        >>> row = Document.parse('{"id": 7, "tags": ["a", "b"]}')
        >>> row.set("id", 8), row.set(["tags", 5], "c").get_path("tags")
        (<ObjectDocument {"id":8,"tags":["a","b"]}>, <ArrayDocument ["a","b","c"]>)

        A path is a str, the key of an object; an int, the index of an item in an array, from the
        end if it is negative; or a sequence of these. What is there is replaced. A key that is not
        there is added; an index past the last item adds the value at the end, and one before the
        first at the front. At the empty path the value itself is the result. If a step before the
        last leads nowhere, or the last one is of the wrong kind, nothing changes: ``get_path`` says
        whether it leads somewhere.

        With ``create`` the objects and arrays that the path lacks are made: an object where a str
        follows, and an array where an int does. An index may then be that of an item, or one past
        the last; otherwise nothing changes.

        >>> Document.of({}).set(["at", "towns", 0], "Oslo", create=True)
        <ObjectDocument {"at":{"towns":["Oslo"]}}>

        The result is in the one form that is written today, as of ``canonical``. Raises as
        ``Document.of`` for the value. TypeError: a step is no str and no int; InvalidTextError: a
        step has half of a surrogate pair; TooDeepError: the result would nest more than 1,000
        deep; InvalidDocumentError: it is past a limit of the format.
        """
        edit = library.CREATE if create else library.PUT
        return _of_checked(changes.edited(self._data, changes.steps_of(path), edit,
                                          _data_of(value)))

    def insert(self, path: DocumentPath, value: Any) -> "Document":
        """A new document with a value, or another document, put in at a path.

        >>> Document.parse("[1,2]").insert(0, 5), Document.parse("[1,2]").insert(-1, 5)
        (<ArrayDocument [5,1,2]>, <ArrayDocument [1,5,2]>)
        >>> Document.parse('{"a": 1}').insert("b", 2).insert("a", 3)
        <ObjectDocument {"a":1,"b":2}>

        Into an array the value comes before the item at the index, as by the ``insert`` of a list.
        To an object the member is added; a key that is there keeps its value. At the empty path
        nothing changes. Otherwise as ``set``.
        """
        return _of_checked(changes.edited(self._data, changes.steps_of(path), library.INSERT,
                                          _data_of(value)))

    def without(self, *paths: DocumentPath) -> "Document":
        """A new document without what is at some paths, of which each is one as for ``set``.

        >>> row = Document.parse('{"id": 7, "ok": true, "tags": ["a", "b"]}')
        >>> row.without("id", "ok"), row.without(["tags", -1], "none")
        (<ObjectDocument {"tags":["a","b"]}>, <ObjectDocument {"id":7,"ok":true,"tags":["a"]}>)

        They are removed in turn, so an index counts the items that are left. A path that leads
        nowhere removes nothing. Otherwise as ``set``.
        """
        return _of_checked(changes.without(self._data, paths))

    def pick(self, *names: str) -> "Document":
        """A new document of an object with those of its members alone whose keys are named.

        >>> row = Document.parse('{"id": 7, "ok": true, "price": 1.50}')
        >>> row.pick("price", "id", "size")
        <ObjectDocument {"id":7,"price":1.50}>

        What is no object stays whole. The result is in the one form that is written today, as of
        ``canonical``. TypeError: a name is no str; InvalidTextError: it has half of a surrogate
        pair; InvalidDocumentError: the result is past a limit of the format.
        """
        _expect_names(names)
        return _of_checked(changes.picked(self._data, tuple(map(str.__str__, names)),
                                          library.NAMED))

    def distinct(self) -> "Document":
        """A new array of the items without those that are equal to one before them.

        >>> Document.parse('[1, 2, 1.0, 2, 3]').distinct()
        <ArrayDocument [1,2,3]>

        A document that is no array is the one item, here and in ``intersection``, ``difference``
        and ``overlaps``. TooDeepError: the array would nest more than 1,000 deep.
        InvalidDocumentError: it is past a limit of the format.
        """
        return _of_checked(changes.of_items(exports.array_distinct, self._data))

    def intersection(self, other: Any) -> "Document":
        """A new array of the items that another document, or a Python value, has too.

        >>> Document.of([1, 2, 2, 3]).intersection([3, 2, 2, 2])
        <ArrayDocument [2,2,3]>

        Of equal items there are as many as both have. Raises as ``Document.of`` for the other
        value, and otherwise as ``distinct``.
        """
        return _of_checked(changes.of_items(exports.array_intersection, self._data,
                                            _data_of(other)))

    def difference(self, other: Any) -> "Document":
        """A new array of the items without one for each equal item of another document or value.

        >>> Document.of([1, 2, 2, 3]).difference([2, 4])
        <ArrayDocument [1,2,3]>

        Of equal items the first ones go. Raises as ``intersection``.
        """
        return _of_checked(changes.of_items(exports.array_except, self._data, _data_of(other)))

    def overlaps(self, other: Any) -> bool:
        """Whether an item is equal to one of another document, or of a Python value.

        >>> row = Document.parse('[1, "a", [2]]')
        >>> row.overlaps([0, [2]]), row.overlaps([2])
        (True, False)
        """
        other_data = _data_of(other)
        depth = library.fitting(library.LEVEL_STACK, self._data, other_data)
        return library.is_true(exports.array_overlap(self._data, len(self._data), other_data,
                                                     len(other_data), depth))

    def merge(self, patch: Any) -> "Document":
        """A new document, changed by a merge patch: a Python value or a document, as in RFC 7396.

        >>> row = Document.parse('{"id": 7, "at": {"town": "Oslo", "zip": "0150"}}')
        >>> row.merge({"id": 8, "at": {"zip": None}})
        <ObjectDocument {"at":{"town":"Oslo"},"id":8}>

        A member that is null in the patch is removed, one that is an object is patched by it, and
        another value is put. A patch that is no object replaces the whole. Raises as ``set``.
        """
        return _of_checked(changes.merged(self._data, _data_of(patch)))

    def without_nulls(self) -> "Document":
        """A new document without the members that are null, in each object in it.

        >>> Document.parse('{"id": 7, "seen": null, "at": {"zip": null}}').without_nulls()
        <ObjectDocument {"at":{},"id":7}>
        >>> Document.parse('[null, {"a": null}]').without_nulls()
        <ArrayDocument [null,{}]>

        Items of arrays that are null stay, and so does a document that is null itself. The result
        is in the one form that is written today, as of ``canonical``.
        """
        return _of_checked(changes.without_nulls(self._data))

    def index_keys(self) -> List[int]:
        """For each scalar a hash of it and of the keys around it, from 0 to 2**64 - 1.

        >>> row = Document.parse('{"id": 7, "tags": ["a", "b"]}')
        >>> set(row.index_keys()) >= set(Document.of({"tags": ["b"]}).index_keys())
        True

        A document that contains another has each of its keys. So an index that lists the documents
        of each key finds all that contain a given one; two scalars may have one hash, so ask
        ``contains`` of what is found. A document without scalars has no key, as ``{"a": []}``.
        """
        return library.made_of(self._data, library.keys_of, exports.index_keys, self._data)

    def top_keys(self) -> List[int]:
        """A hash of each key of an object, of each text among an array's items, or of a text.

        >>> row = Document.parse('{"id": 7, "tags": ["a", "b"]}')
        >>> Document.of("id").top_keys()[0] in row.top_keys()
        True

        If ``has_key(name)`` is true, the document has the one top key of ``Document.of(name)``.
        They are apart from those of ``index_keys``, so one index can hold both.
        """
        return library.made_of(self._data, library.keys_of, exports.top_keys, self._data)

    def pretty(self) -> str:
        """The JSON text on lines, indented by two spaces."""
        if IS_NATIVE:
            return library.made_of(self._data, native.to_pretty, self._data)
        # It may be hundreds of times as long as the document, so its length is counted first.
        return self._written(exports.pretty, 0).decode()

    def __str__(self) -> str:
        """The JSON text without white space; members are sorted by their keys."""
        if IS_NATIVE:
            return library.made_of(self._data, native.to_string, self._data)
        return self._written(exports.print, library.guess_of(self._data)).decode()

    def _written(self, call: Any, guess: int, *arguments: Any) -> bytes:
        data = self._data
        return library.made_of(data, library.result_of_document, call, guess, data, *arguments)

    def _is_true(self, call: Any, other: bytes) -> bool:
        """What a call says of the document and a name, or the document of names."""
        depth = library.fitting(library.LEVEL_STACK, self._data)
        return library.is_true(call(self._data, len(self._data), other, len(other), depth))

    def __bytes__(self) -> bytes:
        return self._data

    def __repr__(self) -> str:
        return f"<{type(self).__name__} {_shown(str(self))}>"

    def __conform__(self, protocol: Any) -> Optional[bytes]:
        """The bytes where the module sqlite3 binds a document to a statement."""
        sqlite3 = sys.modules.get("sqlite3")
        is_asked = sqlite3 is not None and protocol is getattr(sqlite3, "PrepareProtocol", None)
        return self._data if is_asked else None

    def __eq__(self, other: object) -> bool:
        if not isinstance(other, Document):
            if isinstance(other, (dict, list, tuple)):
                warn(f"a document never equals a {type(other).__name__}: compare its value()")
            return NotImplemented
        return self._data == other._data or self.key() == other.key()

    def __lt__(self, other: "Document") -> bool:
        if not isinstance(other, Document):
            return NotImplemented
        return self.key() < other.key()

    def __hash__(self) -> int:
        return hash(self.key())

    def __reduce__(self) -> Tuple[Any, ...]:
        return Document, (self._data,)


class ScalarDocument(Document):
    """The document of null, a boolean, a number, a string or an extension value."""
    __slots__ = ()

    def value(self) -> Scalar:
        """The scalar as a Python value."""
        if IS_NATIVE:
            return cast(Scalar, native.value(self._data))
        return scalar_of(*library.scalar_parts(self._data))


class _Container(Document):
    """What arrays and objects have in common: children, which are decoded when they are read.

    A child is a Python value if it is a scalar, and else a document.
    """
    __slots__ = ()

    def __len__(self) -> int:
        if IS_NATIVE:
            return native.count(self._data)
        count: int = exports.kind(self._data, len(self._data)).count
        return count

    def _child(self, place: Place) -> Child:
        return _child_of(place.type, library.payload_of(self._data, place))

    def _document_at(self, place: Place) -> Document:
        payload = library.payload_of(self._data, place)
        if place.type != library.TYPE_CONTAINER:
            payload = library.scalar_document(place.type, payload)
        return _of_checked(payload)

    def _names(self) -> Iterator[str]:
        if IS_NATIVE:
            return native.names(self._data)
        return (name for name, _ in self._members())

    def _values(self) -> Iterator[Child]:
        if IS_NATIVE:
            return native.values(self._data)
        return (_child_of(type_, payload) for _, type_, payload in library.children(self._data))

    def _members(self) -> Iterator[Tuple[str, Child]]:
        if IS_NATIVE:
            return native.pairs(self._data)
        return ((key.decode(), _child_of(type_, payload))
                for key, type_, payload in library.children(self._data))


class ArrayDocument(_Container, Sequence[Child]):
    """An array: a ``Sequence`` that decodes the items that are read, and a slice as a list."""
    __slots__ = ()

    @overload
    def __getitem__(self, index: SupportsIndex) -> Child: ...

    @overload
    def __getitem__(self, index: slice) -> List[Child]: ...

    def __getitem__(self, index: Union[SupportsIndex, slice]) -> Union[Child, List[Child]]:
        if IS_NATIVE and type(index) is int:
            return native.item(self._data, index)
        if isinstance(index, slice):
            return list(self)[index]
        place = exports.find_index(self._data, len(self._data), self._number_of(index))
        return self._child(place)

    def _number_of(self, index: SupportsIndex) -> int:
        """The number from 0 of an item, whose index may be negative. Errors are as of lists."""
        if not hasattr(type(index), "__index__"):
            type_name = type(index).__name__
            raise TypeError(f"array indices must be integers or slices, not {type_name}")
        try:
            return range(len(self))[index]
        except IndexError:
            raise IndexError("array index out of range") from None

    def item(self, index: SupportsIndex) -> Document:
        """An item as a document, also if it is a scalar.

        >>> Document.parse("[1.50, null]").item(0)
        <ScalarDocument 1.50>
        """
        number = self._number_of(index)
        return self._document_at(exports.find_index(self._data, len(self._data), number))

    def __add__(self, other: Any) -> "ArrayDocument":
        """The items of both: of this array, and of another or of a list or tuple.

        >>> Document.parse("[1, 2]") + ["a"]
        <ArrayDocument [1,2,"a"]>
        """
        if not isinstance(other, (ArrayDocument, list, tuple)):
            return NotImplemented
        return cast(ArrayDocument, _of_checked(changes.concat(self._data, _data_of(other))))

    def __radd__(self, other: Any) -> "ArrayDocument":
        if not isinstance(other, (list, tuple)):
            return NotImplemented
        return cast(ArrayDocument, _of_checked(changes.concat(_data_of(other), self._data)))

    def __iter__(self) -> Iterator[Child]:
        return self._values()

    def __reversed__(self) -> Iterator[Child]:
        return reversed(list(self))

    def index(self, value: Any, *bounds: int) -> int:
        """The index of the first item that is equal to a value. ValueError: there is none."""
        return list(self).index(value, *bounds)


class ObjectDocument(_Container, Mapping[str, Child]):
    """An object: a ``Mapping`` that decodes the members that are read, sorted by their keys."""
    __slots__ = ()

    def __getitem__(self, name: str) -> Child:
        if IS_NATIVE and type(name) is str:
            return native.member(self._data, name)
        place = self._find(name)
        if place is None:
            raise KeyError(name)
        return self._child(place)

    def member(self, name: str) -> Document:
        """The value of a member as a document, also if it is a scalar.

        >>> Document.parse('{"price": 1.50}').member("price")
        <ScalarDocument 1.50>
        """
        place = self._find(name)
        if place is None:
            raise KeyError(name)
        return self._document_at(place)

    def __or__(self, other: Any) -> "ObjectDocument":
        """The members of both: of this object, and of another or of a mapping, whose values stay.

        >>> Document.parse('{"a": 1, "b": 2}') | {"b": 3}
        <ObjectDocument {"a":1,"b":3}>
        """
        if not isinstance(other, Mapping):
            return NotImplemented
        return cast(ObjectDocument, _of_checked(changes.concat(self._data, _data_of(other))))

    def __ror__(self, other: Any) -> "ObjectDocument":
        if not isinstance(other, Mapping):
            return NotImplemented
        return cast(ObjectDocument, _of_checked(changes.concat(_data_of(other), self._data)))

    def __contains__(self, name: object) -> bool:
        if IS_NATIVE and type(name) is str:
            return native.contains(self._data, name)
        return self._find(name) is not None

    def __iter__(self) -> Iterator[str]:
        return self._names()

    def keys(self) -> "_Keys":
        return _Keys(self)

    def items(self) -> "_Items":
        return _Items(self)

    def values(self) -> "_Values":
        return _Values(self)

    def _find(self, name: object) -> Optional[Place]:
        """The place of a member. A name that is no str, or has no UTF-8, is no member's."""
        if not isinstance(name, str):
            # As of a dict: TypeError for a list, which has no hash.
            hash(name)
            return None
        data = _utf8_of_name(name)
        if data is None:
            return None
        place = exports.find_key(self._data, len(self._data), data, len(data))
        return place if place.status == library.OK else None


class _Keys(KeysView[str]):
    """The keys, which are shown."""
    _mapping: ObjectDocument

    def __repr__(self) -> str:
        return f"keys({_shown(repr(list(self)))})"


class _Items(ItemsView[str, Child]):
    """The members in one pass, where Mapping's own view finds each by its key."""
    _mapping: ObjectDocument

    def __iter__(self) -> Iterator[Tuple[str, Child]]:
        return self._mapping._members()

    def __repr__(self) -> str:
        return f"items({_shown(repr(list(self)))})"


class _Values(ValuesView[Child]):
    """The values in one pass."""
    _mapping: ObjectDocument

    def __iter__(self) -> Iterator[Child]:
        return self._mapping._values()

    def __repr__(self) -> str:
        return f"values({_shown(repr(list(self)))})"


def _shown(text: str) -> str:
    """A text that may be long, cut to a part of a line."""
    return text if len(text) <= _MOST_SHOWN else text[:_MOST_SHOWN - 3] + "..."


_CLASSES: Dict[int, Type[Document]] = {
    library.SCALAR: ScalarDocument,
    library.OBJECT: ObjectDocument,
    library.ARRAY: ArrayDocument,
}


def _of_checked(data: bytes) -> Document:
    """The document of bytes that are known to be one of at most DEPTH."""
    document = object.__new__(_CLASSES[data[0] & library.HEADER_TAG_MASK])
    document._data, document._key = data, None
    return document


def _data_of(value: Any) -> bytes:
    """The bytes of a document, or of that of a Python value."""
    return (value if isinstance(value, Document) else Document.of(value))._data


def _variables_of(variables: Any) -> bytes:
    """The bytes of the document of variables; none if there are none."""
    if variables is None:
        return b""
    found = variables if isinstance(variables, Document) else Document.of(variables)
    if not isinstance(found, ObjectDocument):
        raise TypeError(f"variables are a dict or an object, not {type(variables).__name__}")
    return found._data


def steps_of_text(text: Union[str, bytes]) -> Tuple[Step, ...]:
    """The steps of the text of a path. PathError: it is none, or does not lead to one value."""
    data = bytes_of_text(text)
    try:
        path = library.result_of(exports.path_of_text, library.guess_of(data), data,
                                 len(data))
    except PathError:
        raise path_error(quoted_path(text)) from None
    return tuple(cast(List[Step], _of_checked(path).value()))


def steps_of_name(name: Step) -> Optional[Tuple[Step, ...]]:
    """The steps that are meant by a name which is the text of a path, as ``$.at.town``, or what
    comes after its ``$.``; None: it is no such name."""
    if not isinstance(name, str) or not any(it in name for it in ".["):
        return None
    try:
        return steps_of_text(name if name.startswith("$") else f"$.{name}")
    except KohibladError:
        return None


def path_error(message: str) -> KohibladError:
    return library.error_of(library.OTHER_KIND, message)


def _expect_names(names: Sequence[Any]) -> None:
    for name in names:
        if not isinstance(name, str):
            raise TypeError(f"a key is a str, not {type(name).__name__}")


def _utf8_of_name(name: str) -> Optional[bytes]:
    """The name in UTF-8. None: it has half of a surrogate pair, so it is no member's."""
    try:
        return str.encode(name)
    except UnicodeEncodeError:
        return None


def _names_of_keys(names: Sequence[Any]) -> Tuple[str, ...]:
    """Those of the names that a key can have: one with half of a surrogate pair has no UTF-8."""
    _expect_names(names)
    return tuple(str.__str__(it) for it in names if _utf8_of_name(it) is not None)


def _budget_of(steps: Optional[int]) -> int:
    """The number of steps that the library is given, of which the greatest is no limit."""
    if steps is None:
        return library.NO_LIMIT
    steps = library.int_of(steps)
    if steps < 0:
        raise ValueError("the steps are to be 0 or more")
    return min(steps, library.NO_LIMIT)


def _checked(data: Any, depth: int) -> Document:
    """The document of stored bytes. InvalidDocumentError: they are none."""
    if IS_NATIVE:
        return native.check(data, depth)
    data, depth = _bytes_of_stored(data), _checked_depth(depth)
    within = min(depth, library.depth_of(library.LEVEL_STACK, data))
    if not exports.check(data, len(data), within):
        raise _no_document(data, depth, within)
    return _of_checked(data)


def _parsed(text: Any, depth: int, exponents: bool) -> Document:
    """The document of a JSON text."""
    if IS_NATIVE:
        return native.parse(text, depth, exponents)
    return _of_checked(parse(text, _checked_depth(depth), bool(exponents)))


def _checked_depth(depth: int) -> int:
    depth = library.int_of(depth)
    if not 0 <= depth <= DEPTH:
        raise ValueError(f"the depth is to be from 0 to {DEPTH}")
    return depth


def _bytes_of_stored(data: Any) -> bytes:
    return library.bytes_of(data, "Document takes stored bytes (Document.parse: a text)")


def _no_document(data: bytes, depth: int, within: int) -> KohibladError:
    """Why bytes are refused that are no document within a depth: that which was given, or that of
    the thread's stack."""
    if within < depth:
        try:
            library.expect_carried(data, within)
        except TooDeepError as error:
            return error
    return library.error_of(library.INVALID_JSONB, f"no document of depth {depth} or less")


def _child_of(type_: int, payload: bytes) -> Child:
    if type_ == library.TYPE_CONTAINER:
        return _of_checked(payload)
    return scalar_of(type_, payload)


def _may_have_extensions(data: bytes) -> bool:
    """False only if there are none, by their entries: a type, and a length less than the data's."""
    most = len(data) >> 16
    return most > 255 or _extension_entry(most).search(data) is not None


@lru_cache(maxsize=None)
def _extension_entry(most: int) -> Pattern[bytes]:
    """The first two bytes of an extension value's entry, whose second is at most `most`."""
    return re.compile(b"\x60[\0-" + re.escape(bytes([most])) + b"]")


def _decoder(data: bytes) -> Generator[bytes, Any, Value]:
    """Reads the value of an array or object. It yields each one inside it, to be sent its value."""
    keys, values = [], []
    for key, type_, payload in library.children(data):
        keys.append(key)
        is_container = type_ == library.TYPE_CONTAINER
        values.append((yield payload) if is_container else scalar_of(type_, payload))
    if data[0] & library.HEADER_TAG_MASK == library.ARRAY:
        return values
    return {key.decode(): value for key, value in zip(keys, values)}


def loads(text: Union[str, bytes]) -> Value:
    """The Python values of a JSON text: ``json.loads`` with each decimal as a ``Decimal``.

    Members are sorted by their keys. Raises as ``Document.parse``.
    """
    if IS_NATIVE and not library.is_long(text):
        return native.loads(text)
    return Document.parse(text).value()


def dumps(value: Any) -> str:
    """The JSON text of a Python value, as of ``str(Document.of(value))``.

    It is that of ``json.dumps`` with ``separators=(",", ":")`` and ``ensure_ascii=False``, with the
    members sorted by the bytes of their keys. Extension values become strings, as README says.
    Raises as ``Document.of``.
    """
    if IS_NATIVE:
        text = native.dumps(value)
        if text is not None:
            return text
    return str(_of_checked(encode(value, Document)))


if IS_NATIVE:
    native.bind(
        library.export_address,
        {"scalar_document": ScalarDocument, "object_document": ObjectDocument,
         "array_document": ArrayDocument, "data_slot": vars(Document)["_data"],
         "key_slot": vars(Document)["_key"], "decimal": Decimal, "bytes_of_text": bytes_of_text,
         "bytes_of_stored": _bytes_of_stored, "checked_depth": _checked_depth,
         "error_of": library.error_of, "fault_of": fault_of, "no_document": _no_document,
         "too_deep": library.too_deep,
         "extension_of": scalars.extension_of,
         "encode_other": lambda value, level: encode_other(value, level, Document),
         "text_of_int": scalars.text_of_int,
         "text_of_decimal": scalars.text_of_decimal})
