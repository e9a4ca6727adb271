"""Scalars: numbers, and the extension values with their Python types."""
from datetime import date, datetime, timedelta, timezone
from decimal import Context, Decimal
from typing import Iterable, NamedTuple, Union, cast

from . import _iso as iso
from . import _library as library
from ._errors import NumberError
from ._library import exports

if library.IS_NATIVE:
    from . import _native as native


class Date(NamedTuple):
    """A date that no ``datetime.date`` can be: days from 1970-01-01."""
    days: int

    def isoformat(self) -> str:
        """The date in ISO 8601, with a sign and more digits where the year needs them.

        >>> Date(3_000_000).isoformat(), Date(-800_000).isoformat()
        ('+10183-09-21', '-0221-09-04')
        """
        return iso.date_text(self.days)

    def __str__(self) -> str:
        return self.isoformat()


class Timestamp(NamedTuple):
    """A timestamp that no ``datetime`` can be: microseconds from 1970-01-01 00:00."""
    micros: int

    def isoformat(self) -> str:
        """The timestamp in ISO 8601, as that of a ``Date``.

        >>> Timestamp(3_000_000 * 86_400 * 10**6 + 5).isoformat()
        '+10183-09-21T00:00:00.000005'
        """
        return iso.timestamp_text(self.micros)

    def __str__(self) -> str:
        return self.isoformat()


class TimestampTz(NamedTuple):
    """A timestamp with a zone that no aware ``datetime`` can be.

    Microseconds from 1970-01-01 00:00 UTC, and the zone's offset in seconds.
    """
    micros: int
    offset: int

    def isoformat(self) -> str:
        """The timestamp in its zone, in ISO 8601, as that of a ``Date``.

        >>> TimestampTz(3_000_000 * 86_400 * 10**6, -5400).isoformat()
        '+10183-09-20T22:30:00-01:30'
        """
        return iso.timestamp_text(self.micros, self.offset)

    def __str__(self) -> str:
        return self.isoformat()


class Interval(NamedTuple):
    """An interval of months, days and microseconds, which are kept apart."""
    months: int
    days: int
    micros: int

    def isoformat(self) -> str:
        """The interval as a duration of ISO 8601, in which each part has a sign of its own.

        >>> Interval(14, -3, 5_400_000_000).isoformat(), Interval(0, 0, -1500).isoformat()
        ('P1Y2M-3DT1H30M', 'PT-0.0015S')
        """
        return iso.interval_text(self.months, self.days, self.micros)

    def __str__(self) -> str:
        return self.isoformat()


class Opaque(NamedTuple):
    """An extension value of a newer kind: its tag (0x50, 0x60 to 0xF0), and its data."""
    tag: int
    data: bytes


Scalar = Union[None, bool, int, Decimal, str, bytes, date, datetime, Date, Timestamp, TimestampTz,
               Interval, Opaque]

_BINARY, _DATE, _TIMESTAMP, _TIMESTAMP_TZ, _INTERVAL = 0x00, 0x10, 0x20, 0x30, 0x40
_EPOCH = datetime(1970, 1, 1)
_MICRO = timedelta(microseconds=1)
# Wide enough for all digits of a number, and for 255 after its point.
_EXACT = Context(prec=300)
_MOST_SCALE = 255
_LEAST, _MOST = -(1 << 127), (1 << 127) - 1


def scalar_of(type_: int, payload: bytes) -> Scalar:
    """The Python value of a scalar in a checked document."""
    if type_ == library.TYPE_STRING:
        return payload.decode()
    if type_ == library.TYPE_NUMBER:
        return _number_of(library.scalar_document(type_, payload))
    if type_ == library.TYPE_EXTENSION:
        return _extension_of(library.scalar_document(type_, payload))
    return None if type_ == library.TYPE_NULL else type_ == library.TYPE_TRUE


def _number_of(document: bytes) -> Union[int, Decimal]:
    number = exports.as_decimal(document, len(document))
    if number.status:
        raise library.error_of(number.status)
    return decimal_of(number.high << 64 | number.low, number.scale)


def decimal_of(digits: int, scale: int) -> Union[int, Decimal]:
    """The number with these digits, so many of them after the point."""
    return Decimal(digits).scaleb(-scale, _EXACT) if scale else digits


def decimals_of(numbers: Iterable[int], scale: int) -> Iterable[Union[int, Decimal]]:
    """The numbers with these digits, so many of them after the point."""
    if not scale:
        return numbers
    return (Decimal(it).scaleb(-scale, _EXACT) for it in numbers)


def _extension_of(document: bytes) -> Scalar:
    it = exports.as_extension(document, len(document))
    if it.status:
        raise library.error_of(it.status)
    return extension_of(it.tag, it.value, it.months, it.days, it.seconds,
                        library.payload_of(document, it))


def extension_of(tag: int, value: int, months: int, days: int, seconds: int,
                 data: bytes) -> Scalar:
    """The extension value with these fields, as the library has them."""
    if tag == _DATE:
        return date_of(value)
    if tag == _TIMESTAMP:
        return timestamp_of(value)
    if tag == _TIMESTAMP_TZ:
        return timestamp_tz_of(value, seconds)
    if tag == _INTERVAL:
        return Interval(months, days, value)
    return data if tag == _BINARY else Opaque(tag, data)


def date_of(days: int) -> Union[date, Date]:
    """The date so many days from 1970-01-01."""
    try:
        return _EPOCH.date() + timedelta(days=days)
    except OverflowError:
        return Date(days)


def timestamp_of(micros: int) -> Union[datetime, Timestamp]:
    """The timestamp so many microseconds from 1970-01-01 00:00."""
    try:
        return _EPOCH + timedelta(microseconds=micros)
    except OverflowError:
        return Timestamp(micros)


def timestamp_tz_of(micros: int, offset: int) -> Union[datetime, TimestampTz]:
    """The timestamp so many microseconds from 1970-01-01 00:00 UTC, in the zone of an offset."""
    try:
        zone = timezone(timedelta(seconds=offset))
        local = _EPOCH + timedelta(microseconds=micros + offset * 10**6)
    except (OverflowError, ValueError):
        return TimestampTz(micros, offset)
    return local.replace(tzinfo=zone)


# What a value is, its base type says: a subclass may answer each call otherwise, as a `Decimal`
# with a `__str__` of its own. So the calls here are those of the base types.

def text_of_int(value: int) -> str:
    """The JSON text of a whole number. NumberError: it has more than 128 bits."""
    number = int.__index__(value)
    if not _LEAST <= number <= _MOST:
        bits = number.bit_length()
        raise _number_error(f"a whole number of {bits} bits; the most is 128, signed")
    return int.__repr__(number)


def text_of_decimal(value: Decimal) -> str:
    """The JSON text of a decimal, with all its digits and no exponent.

    NumberError: it is not finite, or has more than 128 bits or 255 digits after its point.
    """
    text = Decimal.__str__(value)
    if not Decimal.is_finite(value):
        raise _number_error(f"{text} is no number of JSON")
    if len(text) < 39 and "E" not in text.upper():
        return text
    _, digits, exponent = Decimal.as_tuple(value)
    exponent = cast(int, exponent)
    if exponent < -_MOST_SCALE:
        raise _number_error(f"{-exponent} digits after the point; the most are {_MOST_SCALE}")
    # A number of 40 digits has more than 128 bits, so that a huge exponent is never written out.
    is_short = not any(digits) or len(digits) + max(exponent, 0) < 40
    text = Decimal.__format__(value, "f") if is_short else ""
    if not text or not _LEAST <= int(text.replace(".", "")) <= _MOST:
        raise _number_error("a decimal of more than 128 bits without its point")
    return text


def _number_error(message: str) -> NumberError:
    status = library.INVALID_JSONB_NUMBER
    return NumberError(status, library.status_name(status), message)


def document_of_bytes(value: Union[bytes, bytearray, memoryview]) -> bytes:
    return _extension(_BINARY, data=library.bytes_of(value, "binary data are bytes"))


def document_of_date(value: date) -> bytes:
    return _extension(_DATE, date.toordinal(value) - _EPOCH.toordinal())


def document_of_datetime(value: datetime) -> bytes:
    """The document of a timestamp, with a zone if it is aware.

    ValueError: the zone's offset is no whole number of seconds.
    """
    offset = datetime.utcoffset(value)
    local = datetime.combine(date.fromordinal(date.toordinal(value)), datetime.time(value))
    micros = (local - _EPOCH) // _MICRO
    if offset is None:
        return _extension(_TIMESTAMP, micros)
    seconds, rest = divmod(timedelta.__floordiv__(offset, _MICRO), 10**6)
    if rest:
        raise ValueError(f"the zone's offset {offset} is no whole number of seconds")
    return _extension(_TIMESTAMP_TZ, micros - seconds * 10**6, seconds=seconds)


def document_of_raw_date(value: Date) -> bytes:
    return _extension(_DATE, value.days)


def document_of_timestamp(value: Timestamp) -> bytes:
    return _extension(_TIMESTAMP, value.micros)


def document_of_timestamp_tz(value: TimestampTz) -> bytes:
    return _extension(_TIMESTAMP_TZ, value.micros, seconds=value.offset)


def document_of_interval(value: Interval) -> bytes:
    return _extension(_INTERVAL, value.micros, months=value.months, days=value.days)


def document_of_opaque(value: Opaque) -> bytes:
    if value.tag < 0x50:
        raise library.error_of(library.INVALID_JSONB_EXTENSION, f"{value.tag} is no opaque tag")
    data = library.bytes_of(value.data, "the data of an Opaque are bytes")
    return _extension(value.tag, data=data)


def _extension(tag: int, value: int = 0, months: int = 0, days: int = 0, seconds: int = 0,
               data: bytes = b"") -> bytes:
    tag, value, months, days, seconds = map(library.int_of, (tag, value, months, days, seconds))
    for field, bits in ((tag, 33), (value, 64), (months, 32), (days, 32), (seconds, 32)):
        if not -(1 << bits - 1) <= field < 1 << bits - 1:
            raise library.error_of(library.INVALID_JSONB_EXTENSION, f"{field} has over {bits} bits")
    if library.IS_NATIVE:
        return native.of_extension(tag, value, months, days, seconds, data)
    return library.result_of(exports.of_extension, len(data) + 32, tag, value, months, days,
                             seconds, data, len(data))
