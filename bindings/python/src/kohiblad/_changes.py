"""Documents that are changed, from bytes to bytes: paths, edits and merge patches.

The library makes each copy, in the one form that is written today.
"""
import re
from collections.abc import Sequence as AnySequence
from typing import Any, Callable, Dict, Iterable, Sequence, Tuple, Union

from . import _library as library
from ._encode import parse, text_of_str
from ._errors import KohibladError, warn
from ._library import exports
from ._stack import DEPTH

if library.IS_NATIVE:
    from . import _native as native

Step = Union[str, int]
DocumentPath = Union[Step, Sequence[Step]]

# A name that is not quoted in the text of a path.
_PLAIN_NAME = re.compile("[A-Za-z_][A-Za-z0-9_]*")
# What may be an escape in a name that is quoted.
_ESCAPED = re.compile(r'["\\]')
# No array has so many items, so what is further away is as far.
_FAR = 1 << 32
# The documents of paths that were used lately: most programs use the same few for many documents.
_kept_paths: Dict[Tuple[Step, ...], bytes] = {}
_MOST_KEPT = 256


def step_of(step: Any) -> Step:
    """A step as a plain str, or as an int that is not far past any array."""
    if isinstance(step, str):
        return str.__str__(step)
    if hasattr(type(step), "__index__") and not isinstance(step, bool):
        return max(-_FAR, min(library.int_of(step), _FAR))
    raise TypeError(f"a step of a path is a str or an int, not {type(step).__name__}")


def steps_of(path: Any) -> Tuple[Step, ...]:
    """The steps of a path: a str, an int, or a sequence of them."""
    if type(path) is str:
        return (path,)
    if isinstance(path, AnySequence) and not isinstance(path, (str, bytes, bytearray, memoryview)):
        return tuple(map(step_of, path))
    return (step_of(path),)


def path_text(steps: Sequence[Step]) -> str:
    """The steps as the text of a path, or as a JSON text where a key has a quote or a backslash: not
    all who read such texts take these alike.

    >>> path_text(["tags", -1, "any name"])
    '$.tags[#-1]."any name"'
    """
    if any(isinstance(it, str) and _ESCAPED.search(it) for it in steps):
        return _json_of(steps)
    return "$" + "".join(map(_text_of_step, steps))


def _text_of_step(step: Step) -> str:
    if isinstance(step, str):
        return "." + (step if _PLAIN_NAME.fullmatch(step) else f'"{step}"')
    return f"[{step}]" if step >= 0 else f"[#{step}]"


def name_of_path(steps: Sequence[Step]) -> str:
    """The key that a path is, or else its text."""
    return steps[0] if len(steps) == 1 and isinstance(steps[0], str) else path_text(steps)


def warn_of_missing(paths: Iterable[Sequence[Step]], advice: str = "") -> None:
    """Warns that no row has something at the end of some paths, and adds what to do."""
    warn(f"no row has a value at {', '.join(map(path_text, paths))}{advice}")


def _json_of(steps: Sequence[Step]) -> str:
    return "[" + ",".join(text_of_str(it) if isinstance(it, str) else str(it)
                          for it in steps) + "]"


def document_of_path(steps: Tuple[Step, ...]) -> bytes:
    """The document of some steps, or of names."""
    document = _kept_paths.get(steps)
    if document is None:
        document = parse(_json_of(steps))
        if len(document) <= _MOST_KEPT:
            if len(_kept_paths) >= _MOST_KEPT:
                _kept_paths.clear()
            _kept_paths[steps] = document
    return document


def edited(data: bytes, steps: Tuple[Step, ...], edit: int, value: bytes = b"") -> bytes:
    """A document after an edit at the end of a path.

    TooDeepError: it would nest too deep. InvalidDocumentError: it is past a limit of the format.
    """
    path, depth = document_of_path(steps), library.fitting(library.EDIT_LEVEL_STACK, data)
    if edit == library.CREATE and len(steps) > depth:
        return _not_created(data, steps, depth)
    # Each level of the value takes four bytes, so that most documents need no look at them.
    if len(steps) + len(value) // 4 > depth \
            and not exports.check(value, len(value), max(depth - len(steps), 0)):
        return _unchanged(data, path, edit, depth)
    return _edited(data, path, edit, value)


def _unchanged(data: bytes, path: bytes, edit: int, depth: int) -> bytes:
    """A document after an edit whose value is too deep for the end of the path.

    TooDeepError: the value would be put there, so that another value gives another document. The
    library is not asked to put it: the deeper its result, the more stack it needs.
    """
    document, other = (_edited(data, path, edit, library.scalar_document(type_, b""))
                       for type_ in (library.TYPE_NULL, library.TYPE_TRUE))
    if document != other:
        raise _too_deep("document", depth)
    return document


def _not_created(data: bytes, steps: Tuple[Step, ...], depth: int) -> bytes:
    """A document in which a path is to be made that has more steps than the result may nest.

    TooDeepError: it would be made. At what is in the way nothing changes.
    """
    front = document_of_path(steps[:depth])
    place = exports.get_path(data, len(data), front, len(front), depth)
    if place.status == library.OK:
        # It is a scalar, so that the rest leads nowhere.
        return _edited(data, document_of_path(steps), library.REMOVE, b"")
    return _unchanged(data, front, library.CREATE, depth)


def _too_deep(name: str, depth: int) -> KohibladError:
    """The exception for a result that would nest deeper than it may, or than the stack carries."""
    if depth < DEPTH:
        return library.too_deep(depth)
    return library.error_of(library.TOO_DEEP, f"the {name} would nest more than {DEPTH} deep")


def _edited(data: bytes, path: bytes, edit: int, value: bytes) -> bytes:
    if library.IS_NATIVE:
        return native.edit(data, path, edit, value)
    return library.result_of(exports.edit, len(data) + len(path) + len(value) + 64, data,
                             len(data), path, len(path), edit, value, len(value), DEPTH)


def without(data: bytes, paths: Sequence[Any]) -> bytes:
    """A document after what is at each of the paths is removed, in turn."""
    if len(paths) > 1 and _is_object(data) and all(isinstance(it, str) for it in paths):
        return picked(data, tuple(map(str.__str__, paths)), library.OTHERS)
    for path in paths:
        data = edited(data, steps_of(path), library.REMOVE)
    return data


def picked(data: bytes, names: Tuple[str, ...], kept: int) -> bytes:
    """An object with the members that are named alone, or with all others."""
    listed = document_of_path(names)
    return library.result_of_document(exports.pick, len(data) + 64, data, listed, len(listed), kept)


def _is_object(data: bytes) -> bool:
    return data[0] & library.HEADER_TAG_MASK == library.OBJECT


def concat(left: bytes, right: bytes) -> bytes:
    """Two objects or two arrays as one."""
    if library.IS_NATIVE:
        return native.concat(left, right)
    return library.result_of(exports.concat, len(left) + len(right) + 64, left, len(left), right,
                             len(right), library.fitting(library.EDIT_LEVEL_STACK, left, right))


def merged(target: bytes, patch: bytes) -> bytes:
    """A document after a merge patch, RFC 7396. It nests no deeper than the deeper of both."""
    if library.IS_NATIVE:
        return native.merge_patch(target, patch)
    return library.result_of(exports.merge_patch, len(target) + len(patch) + 64, target,
                             len(target), patch, len(patch),
                             library.fitting(library.PATCH_LEVEL_STACK, target, patch))


def of_items(call: Callable[..., int], data: bytes, *others: bytes) -> bytes:
    """The array that a call on arrays as sets makes of one or two documents.

    TooDeepError: it would nest too deep, since the first document is no array.
    """
    crossed = [argument for it in (data, *others) for argument in (it, len(it))]
    depth = library.fitting(library.LEVEL_STACK, data, *others)
    result = library.result_of(call, len(data) + 64, *crossed, depth)
    is_array = data[0] & library.HEADER_TAG_MASK == library.ARRAY
    if not is_array and not exports.check(result, len(result), depth):
        raise _too_deep("array", depth)
    return result


def without_nulls(data: bytes) -> bytes:
    """A document without the members that are null, in each object in it."""
    if library.IS_NATIVE:
        return native.strip_nulls(data)
    return library.result_of_document(exports.strip_nulls, len(data) + 64, data)
