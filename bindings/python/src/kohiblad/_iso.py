"""Dates and timestamps as texts of RFC 3339, a profile of ISO 8601.

A date is as ``2026-11-29``, a timestamp as ``2026-11-29T12:30:00`` with as many digits after a
point as one likes, and one with a zone has ``Z`` or an offset as ``+02:00`` after it; ``t``, ``z``
and a blank for ``T`` are read too, as the RFC allows. A text is read only if the value is exactly
what it says: no leap second, and nothing past the microseconds.
"""
import re
from datetime import date
from functools import lru_cache
from typing import Callable, Dict, Optional, Tuple

# What a value is stored as: days, or microseconds, and the offset of its zone in seconds.
Numbers = Tuple[int, ...]

_EPOCH_DAY = date(1970, 1, 1).toordinal()
# After so many years, of so many days, the calendar is the same.
_YEARS, _DAYS = 400, 146_097
_SECONDS = 86_400
_DATE = re.compile(rb"([0-9]{4})-([0-9]{2})-([0-9]{2})")
_TIMESTAMP = re.compile(rb"([0-9]{4}-[0-9]{2}-[0-9]{2})[Tt ]([01][0-9]|2[0-3]):([0-5][0-9]):"
                        rb"([0-5][0-9])(?:\.([0-9]{1,6})([0-9]*))?"
                        rb"(?:([Zz])|([+-])([01][0-9]|2[0-3]):([0-5][0-9]))?")


@lru_cache(maxsize=4096)
def _days_of(text: bytes) -> Optional[int]:
    """The days of a date from 1970-01-01. None: the text is none."""
    found = _DATE.fullmatch(text)
    if not found:
        return None
    year, month, day = map(int, found.groups())
    # Python has no year 0, which RFC 3339 has.
    periods = 0 if year else 1
    try:
        ordinal = date(year + _YEARS * periods, month, day).toordinal()
    except ValueError:
        return None
    return ordinal - _DAYS * periods - _EPOCH_DAY


def _numbers_of_date(text: bytes) -> Optional[Numbers]:
    days = _days_of(text)
    return None if days is None else (days,)


def _wall_time_of(text: bytes) -> Optional[Tuple[int, Optional[int]]]:
    """The microseconds of a timestamp as a clock shows them, and the offset of its zone."""
    found = _TIMESTAMP.fullmatch(text)
    if not found:
        return None
    day, hour, minute, second, micros, below, utc, sign, hours, minutes = found.groups()
    days = _days_of(day)
    if days is None or (below and below.strip(b"0")):
        return None
    seconds = days * _SECONDS + 3600 * int(hour) + 60 * int(minute) + int(second)
    value = seconds * 10**6 + (int(micros.ljust(6, b"0")) if micros else 0)
    if utc:
        return value, 0
    if not sign:
        return value, None
    offset = 3600 * int(hours) + 60 * int(minutes)
    return value, -offset if sign == b"-" else offset


def _numbers_of_timestamp(text: bytes) -> Optional[Numbers]:
    found = _wall_time_of(text)
    return (found[0],) if found and found[1] is None else None


def _numbers_of_timestamp_tz(text: bytes) -> Optional[Numbers]:
    micros, offset = _wall_time_of(text) or (0, None)
    return None if offset is None else (micros - offset * 10**6, offset)


# By the names of the types, what reads a text as the numbers of a value. None: it is no such value.
READERS: Dict[str, Callable[[bytes], Optional[Numbers]]] = {
    "date": _numbers_of_date, "timestamp": _numbers_of_timestamp,
    "timestamp_tz": _numbers_of_timestamp_tz}


def type_of_text(text: bytes) -> Optional[str]:
    """The type whose value a text is, or None."""
    return next((name for name, read in READERS.items() if read(text) is not None), None)


def date_text(days: int) -> str:
    """The date so many days from 1970-01-01, which may have more digits of its year than four."""
    periods, day = divmod(days + _EPOCH_DAY - 1, _DAYS)
    it = date.fromordinal(day + 1)
    year = it.year + _YEARS * periods
    # An expanded year of ISO 8601 has a sign.
    shown = f"{year:04}" if 0 <= year <= 9999 else f"{year:+05}"
    return f"{shown}-{it.month:02}-{it.day:02}"


def timestamp_text(micros: int, offset: Optional[int] = None) -> str:
    """The timestamp of so many microseconds from 1970-01-01 00:00, or in UTC with an offset."""
    seconds, below = divmod(micros + (offset or 0) * 10**6, 10**6)
    days, second = divmod(seconds, _SECONDS)
    shown = f"{date_text(days)}T{_clock_text(second)}" + (f".{below:06}" if below else "")
    if offset is None:
        return shown
    clock = _clock_text(abs(offset))
    return shown + ("-" if offset < 0 else "+") + (clock[:-3] if clock.endswith(":00") else clock)


def _clock_text(seconds: int) -> str:
    return f"{seconds // 3600:02}:{seconds // 60 % 60:02}:{seconds % 60:02}"


def interval_text(months: int, days: int, micros: int) -> str:
    """The interval as a duration of ISO 8601, each part of which has its own sign."""
    years, months = _parts_of(months, 12)
    minutes, micros = _parts_of(micros, 60 * 10**6)
    hours, minutes = _parts_of(minutes, 60)
    whole, below = _parts_of(micros, 10**6)
    second = ""
    if micros:
        fraction = f".{abs(below):06}".rstrip("0") if below else ""
        second = ("-" if micros < 0 else "") + f"{abs(whole)}{fraction}S"
    dates = "".join(f"{it}{name}" for it, name in ((years, "Y"), (months, "M"), (days, "D")) if it)
    times = "".join(f"{it}{name}" for it, name in ((hours, "H"), (minutes, "M")) if it) + second
    return "P" + dates + ("T" + times if times else "") if dates or times else "PT0S"


def _parts_of(number: int, size: int) -> Tuple[int, int]:
    """How often a size is in a number, and what is left, both with its sign."""
    whole, left = divmod(abs(number), size)
    return (-whole, -left) if number < 0 else (whole, left)
