"""What the extension in C leaves to Python: other forms of texts than the proved reader's, texts of durations, and fractions.

A text in another form is written anew in the form of the proved reader, which then reads it. So whether there is such a date or
time, and which one it is, comes from there. Nothing here is proved.
"""
import datetime
import itertools
import operator
import re
from typing import Any, NoReturn

from .text_error import TextError

_DATE = (
    r"(?P<year>[-+]?[0-9]{4,6})-(?P<month>[0-9]{2})-(?P<day>[0-9]{2})"
    r"|(?P<compact>[0-9]{8})"
    r"|(?P<iso_year>[0-9]{4})(?:-W(?P<week>[0-9]{2})(?:-(?P<weekday>[0-9]))?|W(?P<compact_week>[0-9]{2})(?P<compact_weekday>[0-9])?)"
)
_CLOCK = (
    r"(?P<hour>[0-9]{2})(?::(?P<minute>[0-9]{2})(?::(?P<second>[0-9]{2})(?:[.,](?P<fraction>[0-9]{1,9}))?)?"
    r"|(?P<compact_minute>[0-9]{2})(?:(?P<compact_second>[0-9]{2})(?:[.,](?P<compact_fraction>[0-9]{1,9}))?)?)?"
)
_OFFSET = r"(?P<offset>Z|[-+][0-9:.,]+)?"
_OF_OFFSET = re.compile(
    r"(?P<sign>[-+])(?P<hours>[0-9]{2})(?:(?P<colon>:?)(?P<minutes>[0-9]{2})(?:(?P=colon)(?P<seconds>[0-9]{2})(?:[.,](?P<fraction>[0-9]{1,9}))?)?)?"
)
_OF_DATE = re.compile(_DATE)
# (any character separates, but that behind a weekday with a hyphen is no digit)
_OF_DATE_TIME = re.compile(rf"(?:{_DATE})(?:(?(weekday)[^0-9]|.){_CLOCK}{_OFFSET})?", re.S)
_OF_TIME = re.compile(rf"T?{_CLOCK}{_OFFSET}")
_OF_DURATION = re.compile(
    r"(?P<sign>[-+]?)P(?=[0-9T])(?:(?P<weeks>[0-9]+)W)?(?:(?P<days>[0-9]+)D)?"
    r"(?:T(?=[0-9])(?:(?P<hours>[0-9]+)H)?(?:(?P<minutes>[0-9]+)M)?(?:(?P<seconds>[0-9]+)(?:[.,](?P<fraction>[0-9]{1,9}))?S)?)?"
)
_SECOND, _MINUTE, _HOUR, _DAY = 10**9, 60 * 10**9, 3_600 * 10**9, 86_400 * 10**9


# ---- texts that are read


def _date_of(kind: Any, found: re.Match[str]) -> Any:
    """The date of a type whose name was found in a text."""
    if found["iso_year"]:
        week = found["week"] or found["compact_week"]
        return kind.from_iso_week(int(found["iso_year"]), int(week), int(found["weekday"] or found["compact_weekday"] or 1))
    if found["compact"]:
        return kind(int(found["compact"][:4]), int(found["compact"][4:6]), int(found["compact"][6:]))
    return kind.fromisoformat(f"{found['year']}-{found['month']}-{found['day']}")


def date_of_text(kind: Any, text: str) -> Any:
    """The date of a compact text or an ISO week, or None if the text has neither form."""
    found = _OF_DATE.fullmatch(text)
    return _date_of(kind, found) if found and not found["year"] else None


def _zone_of(text: str) -> datetime.timezone:
    """The time zone of the text of an offset; a ValueError if it is none, or not within a day."""
    if text == "Z":
        return datetime.timezone.utc
    found = _OF_OFFSET.fullmatch(text)
    if not found or int(found["minutes"] or 0) > 59 or int(found["seconds"] or 0) > 59:
        raise ValueError(f"{text!r} is no text of an offset")
    microseconds = int((found["fraction"] or "").ljust(6, "0")[:6])
    parts = {name: int(found[name] or 0) for name in ("hours", "minutes", "seconds")}
    length = datetime.timedelta(**parts, microseconds=microseconds)
    return datetime.timezone(-length if found["sign"] == "-" else length) if length else datetime.timezone.utc


def _clock_of(found: re.Match[str]) -> str:
    """The time of day that was found in a text, in the form of the proved reader."""
    minute = found["minute"] or found["compact_minute"] or "00"
    second = found["second"] or found["compact_second"] or "00"
    fraction = found["fraction"] or found["compact_fraction"]
    return f"{found['hour'] or '00'}:{minute}:{second}" + (f".{fraction}" if fraction else "")


def date_time_of_text(kind: Any, text: str) -> Any:
    """The date-time of a text in another form of datetime's than the proved reader's, or None if it has none of them."""
    from ._calendar import Date

    found = _OF_DATE_TIME.fullmatch(text)
    if not found:
        return None
    plain = f"{_date_of(Date, found)}T{_clock_of(found)}"
    if found["offset"]:
        return kind.fromisoformat(plain).replace(tzinfo=_zone_of(found["offset"]))
    return kind.fromisoformat(plain) if plain != text else None


def zoned_again(kind: Any, date: Any, clock: tuple[int, int, int, int], zone: Any, fold: int) -> Any:
    """The date-time with a time zone that was pickled."""
    return kind(date, *clock, tzinfo=zone, fold=fold)


def clock_of_text(text: str) -> str | None:
    """The time of day of a text in one of datetime's forms, in the form of the proved reader, or None if it has none of them."""
    found = _OF_TIME.fullmatch(text)
    if found and found["offset"]:
        raise ValueError(f"{text!r} has an offset, and a Time has no time zone")
    return _clock_of(found) if found else None


def nanoseconds_of_text(text: str) -> int:
    """The nanoseconds of an ISO 8601 duration of weeks, days, hours, minutes and seconds."""
    found = _OF_DURATION.fullmatch(text)
    if not found:
        raise ValueError(f"{text!r} is no text of a duration")
    units = {"weeks": 7 * _DAY, "days": _DAY, "hours": _HOUR, "minutes": _MINUTE, "seconds": _SECOND}
    whole = sum(int(found[name] or 0) * unit for name, unit in units.items()) + int((found["fraction"] or "").ljust(9, "0"))
    return -whole if found["sign"] == "-" else whole


# ---- the bytes that datetime pickles


def _bytes_of(state: Any, length: int) -> bytes | None:
    """The bytes that datetime pickles, of which Python 2 made a text; None for other bytes and texts."""
    try:
        found: bytes = state.encode("latin-1") if isinstance(state, str) else state
    except UnicodeEncodeError:
        return None
    return found if len(found) == length else None


def date_of_state(kind: Any, arguments: tuple[Any, ...]) -> Any:
    """The date of a type that datetime pickled as these arguments, or None if they are no such."""
    found = _bytes_of(arguments[0], 4)
    if len(arguments) > 1 or not found or not 1 <= found[2] <= 12:
        return None
    return kind(int.from_bytes(found[:2], "big"), found[2], found[3])


def date_time_of_state(kind: Any, arguments: tuple[Any, ...]) -> Any:
    """The date-time of a type that datetime pickled as these arguments, or None if they are no such. The highest digit of the month is the fold."""
    found = _bytes_of(arguments[0], 10)
    if len(arguments) > 2 or not found or not 1 <= found[2] % 128 <= 12:
        return None
    parts = int.from_bytes(found[:2], "big"), found[2] % 128, *found[3:7], int.from_bytes(found[7:], "big")
    return kind(*parts, *arguments[1:], fold=found[2] // 128)


# ---- parts of a sequence of instances


def slice_of(rule: Any, part: slice) -> list[Any]:
    """The instances of a slice; with a number below 0 it is taken of all of them."""
    if any(it is not None and it < 0 for it in (part.start, part.stop, part.step)):
        return list(rule)[part]
    return list(itertools.islice(rule, part.start, part.stop, part.step))


# ---- texts that are refused


def refuse(text: str, said: str, start: int, end: int) -> NoReturn:
    """Raises a TextError, of which start and end are given as bytes of UTF-8."""
    encoded = text.encode()
    start, end = (len(encoded[:it].decode(errors="ignore")) for it in (start, end))
    raise TextError(said, text, start, max(start, end))


# ---- texts that are written


def _fraction(nanoseconds: int) -> str:
    """The digits of a fraction of a second: three, six or nine of them."""
    digits = f"{nanoseconds:09}"
    return digits[:3] if digits.endswith("000000") else digits[:6] if digits.endswith("000") else digits


def text_of_duration(duration: Any) -> str:
    """The text of a duration as timedelta has it, with nine digits of a second where six do not hold it."""
    days, rest = divmod(duration.nanoseconds, _DAY)
    minutes, nanoseconds = divmod(rest, _MINUTE)
    text = f"{minutes // 60}:{minutes % 60:02}:{nanoseconds // _SECOND:02}"
    if days:
        text = f"{days} day{'' if abs(days) == 1 else 's'}, {text}"
    fraction = nanoseconds % _SECOND
    return f"{text}.{fraction:09}" if fraction % 1_000 else f"{text}.{fraction // 1_000:06}" if fraction else text


def text_of_offset(offset: Any) -> str:
    """The text of an offset from UTC, such as +02:00, with seconds and a fraction where it has them; empty for None."""
    if offset is None:
        return ""
    minutes, rest = divmod(abs(offset.nanoseconds), _MINUTE)
    text = f"{'-' if offset.nanoseconds < 0 else '+'}{minutes // 60:02}:{minutes % 60:02}"
    seconds, fraction = divmod(rest, _SECOND)
    digits = f".{fraction:09}" if fraction % 1_000 else f".{fraction // 1_000:06}" if fraction else ""
    return f"{text}:{seconds:02}{digits}" if rest else text


def iso_text_of_duration(duration: Any) -> str:
    """The text of a duration by ISO 8601, such as -P1DT2H30M4.500S."""
    whole = duration.nanoseconds
    days, rest = divmod(abs(whole), _DAY)
    parts = {"H": rest // _HOUR, "M": rest // _MINUTE % 60, "S": rest // _SECOND % 60}
    clock = "".join(f"{count}{unit}" for unit, count in parts.items() if count and unit != "S")
    if rest % _SECOND:
        clock += f"{parts['S']}.{_fraction(rest % _SECOND)}S"
    elif parts["S"] or not (days or clock):
        clock += f"{parts['S']}S"
    return f"{'-' if whole < 0 else ''}P{f'{days}D' if days else ''}{'T' if clock else ''}{clock}"


def repr_of_duration(duration: Any) -> str:
    """The call that makes a duration again, of the parts of timedelta that are not 0, and nanoseconds."""
    names = ("days", "seconds", "microseconds")
    parts = [f"{name}={getattr(duration, name)}" for name in names if getattr(duration, name)]
    if duration.nanoseconds % 1_000:
        parts.append(f"nanoseconds={duration.nanoseconds % 1_000}")
    return f"{type(duration).__name__}({', '.join(parts) or 0})"


# ---- fractions, which are rounded once, to a whole number and half to even


def rounded(numerator: int, denominator: int) -> int:
    """The whole number that is nearest to a fraction, and of two the even one."""
    if denominator < 0:
        numerator, denominator = -numerator, -denominator
    whole, rest = divmod(numerator, denominator)
    return whole + (2 * rest > denominator or (2 * rest == denominator and whole % 2 == 1))


def ratio_of(number: Any) -> tuple[int, int]:
    """The fraction that a number is."""
    if not isinstance(number, float):
        return operator.index(number), 1
    ratio = number.as_integer_ratio()
    if not isinstance(ratio, tuple):
        raise TypeError(f"as_integer_ratio answers {type(ratio).__name__}, and no tuple")
    if len(ratio) != 2:
        raise ValueError(f"as_integer_ratio answers a tuple of {len(ratio)}, and not of 2")
    return ratio


def sum_of_fractions(whole: int, parts: list[tuple[float, int]]) -> int:
    """The whole nanoseconds of some, and of numbers of units of so many nanoseconds."""
    numerator, denominator = whole, 1
    for number, unit in parts:
        over, under = ratio_of(number)
        numerator, denominator = numerator * under + over * unit * denominator, denominator * under
    return rounded(numerator, denominator)


def product(nanoseconds: int, factor: float) -> int:
    """The nanoseconds times a number."""
    over, under = ratio_of(factor)
    return rounded(nanoseconds * over, under)


def quotient(nanoseconds: int, divisor: float) -> int:
    """The nanoseconds divided by a number."""
    over, under = ratio_of(divisor)
    if over == 0:
        raise ZeroDivisionError("a duration is divided by 0")
    return rounded(nanoseconds * under, over)
