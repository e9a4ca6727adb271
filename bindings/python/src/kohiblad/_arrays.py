"""Arrays of numpy and series of pandas of columns: of members that were taken out of rows, and of
those of a file."""
from importlib import import_module
from typing import Any, Callable, Iterable, List, Optional, Protocol, Sequence

# Whole numbers below, and powers of ten up to this, are doubles, so that the quotient of two is the
# nearest one.
_EXACT_DOUBLES, _EXACT_POWER = 1 << 53, 22


class HasArrays(Protocol):
    """A column of values of one type."""
    @property
    def type(self) -> str: ...
    @property
    def numpy(self) -> Any: ...
    @property
    def is_set(self) -> Any: ...
    def __iter__(self) -> Any: ...


def numpy_module() -> Any:
    """numpy. ImportError: it is not installed."""
    return _module("numpy")


def pandas_module() -> Any:
    """pandas. ImportError: it is not installed."""
    return _module("pandas")


def _module(name: str) -> Any:
    try:
        return import_module(name)
    except ImportError as error:
        raise ImportError(f"this needs {name}: install it, as by `pip install {name}` or Debian's "
                          f"package python3-{name} ({error})", name=name) from None


def of_objects(values: Sequence[Any]) -> Any:
    """An array of Python's values."""
    objects = numpy_module().empty(len(values), dtype=object)
    # Not all at once: numpy would look into values that are sequences.
    for row, value in enumerate(values):
        objects[row] = value
    return objects


def of_decimals(low: Any, high: Any, values: Callable[[], List[int]]) -> Any:
    """Whole numbers of two words with a sign, the low and the high ones: of 64 bits if all fit, in
    the memory of the low words, and else Python's, which a call returns."""
    return low if (high == low >> 63).all() else of_objects(values())


def masked(values: Any, is_missing: Any) -> Any:
    """Values with a mask of those that are missing."""
    return numpy_module().ma.MaskedArray(values, is_missing)


def series_of(column: HasArrays, name: Optional[str], floats: bool) -> Any:
    """The values as a series of pandas, in which a row without one is missing.

    ImportError: there is no pandas, or no numpy.
    """
    pandas, word = pandas_module(), column.type.partition(" ")[0]
    values: Any = None
    if word in ("int64", "uint64"):
        values = pandas.arrays.IntegerArray(column.numpy.astype(word), ~column.is_set)
    elif word == "boolean":
        values = pandas.arrays.BooleanArray(column.numpy.astype(bool), ~column.is_set)
    elif word == "text":
        values = pandas.array(of_objects(list(column)), dtype="string")
    elif word in ("date", "timestamp", "timestamp_tz"):
        values = _times_of(pandas, column, word)
    elif word == "decimal" and floats:
        values = _doubles_of(column)
    return pandas.Series(of_objects(list(column)) if values is None else values, name=name)


def _times_of(pandas: Any, column: HasArrays, word: str) -> Any:
    """A series of times. None: pandas has none for some of them."""
    np, is_set = numpy_module(), column.is_set
    values = column.numpy["timestamp"] if word == "timestamp_tz" else column.numpy
    values = values.astype("datetime64[D]" if word == "date" else "datetime64[us]")
    if np.isnat(values[is_set]).any():
        return None
    values[~is_set] = np.datetime64("NaT")
    try:
        series = pandas.Series(values)
    except pandas.errors.OutOfBoundsDatetime:
        return None
    return series.dt.tz_localize("UTC") if word == "timestamp_tz" else series


def _doubles_of(column: HasArrays) -> Any:
    """The decimals as the nearest doubles, and NaN where there is none."""
    np, scale, values = numpy_module(), int(column.type.partition(" ")[2]), column.numpy
    if values.dtype != object and scale <= _EXACT_POWER \
            and (abs(values.clip(-_EXACT_DOUBLES, _EXACT_DOUBLES)) < _EXACT_DOUBLES).all():
        return np.where(column.is_set, values / 10.0**scale, np.nan)
    return np.array([np.nan if it is None else float(it) for it in column], dtype="float64")


def frame_of(series: Iterable[Any], names: Sequence[str]) -> Any:
    """A frame of pandas of some series, under their names."""
    pandas = pandas_module()
    return pandas.DataFrame(dict(zip(names, series)), columns=list(names))
