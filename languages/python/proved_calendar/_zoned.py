"""Date-times in a time zone: what the zone answers, and the way from UTC and from the clock of this machine.

A zone is any `datetime.tzinfo`. It is asked about the `datetime.datetime` that shows the same time. Nothing here is proved.
"""
import datetime
import importlib.resources
import os
import re
import time as c_time
import zoneinfo
from typing import Any

from ._calendar import DateTime, Duration, Zone

_DAY = Duration(days=1)
_DAY_SECONDS = 86_400


def _shown(moment: Any, zone: Any, fold: int) -> datetime.datetime:
    """The datetime of a zone that shows the same time, without what is below a microsecond."""
    date = moment.date
    if not 1 <= date.year <= 9999:
        raise OverflowError(f"year {date.year}: a time zone is asked about the years 1 to 9999")
    clock = moment.hour, moment.minute, min(moment.second, 59), moment.microsecond
    return datetime.datetime(date.year, date.month, date.day, *clock, zone, fold=fold)


def _theirs(moment: Any) -> datetime.datetime:
    """The datetime with the same zone that shows the same time, without what is below a microsecond."""
    try:
        found: datetime.datetime = DateTime.to_datetime(moment)
    except (OverflowError, ValueError):
        found = _shown(moment, moment.tzinfo, moment.fold)
    return found


def asked(moment: Any, name: str) -> Any:
    """What the zone of a date-time answers to a method of tzinfo; None without a zone."""
    zone = moment.tzinfo
    if zone is None:
        return None
    if isinstance(zone, Zone):
        return getattr(zone, name)(moment)
    return getattr(zone, name)(None if isinstance(zone, datetime.timezone) else _theirs(moment))


def length_asked(moment: Any, name: str) -> Duration | None:
    """The same, where the answer has to be a length of less than a day, or None."""
    length = asked(moment, name)
    if length is None:
        return None
    if not isinstance(length, (datetime.timedelta, Duration)):
        raise TypeError(f"tzinfo.{name}() answers None or a timedelta, not {type(length).__name__}")
    found = length if isinstance(length, Duration) else Duration.from_timedelta(length)
    if abs(found) >= _DAY:
        raise ValueError(f"tzinfo.{name}() answers less than a day either way, not {found}")
    return found


def utc_offset(moment: Any) -> Duration | None:
    """How far the clock of a date-time is ahead of UTC, or None without a zone."""
    return length_asked(moment, "utcoffset")


def wanted(zone: Any) -> Any:
    """A zone that is given; a TypeError if it is none."""
    if zone is not None and not isinstance(zone, datetime.tzinfo):
        raise TypeError(f"None or a tzinfo is wanted, not {type(zone).__name__}")
    return zone


# ---- from UTC


def _of_offsets(moment: Any, zone: Any) -> Any:
    """The date-time of a zone that has the method of tzinfo itself, as that has it."""
    at = moment.replace(tzinfo=zone)
    offset, saving = at.utcoffset(), at.dst()
    if offset is None or saving is None:
        raise ValueError("the time zone has no offset")
    at += offset - saving
    saving = at.dst()
    if saving is None:
        raise ValueError("the time zone has no offset")
    return at + saving


def from_utc(moment: Any, zone: Any) -> Any:
    """The date-time of a zone at the instant at which UTC shows a date-time, which has no other zone."""
    if isinstance(zone, datetime.timezone):
        return (moment + zone.utcoffset(None)).replace(tzinfo=zone)
    if isinstance(zone, Zone):
        return zone.fromutc(moment.replace(tzinfo=zone, fold=0))
    if type(zone).fromutc is datetime.tzinfo.fromutc:
        return _of_offsets(moment, zone)
    shown = type(moment).from_datetime(zone.fromutc(_shown(moment, zone, 0)))
    return shown if shown.nanosecond == moment.nanosecond else shown.replace(nanosecond=moment.nanosecond)


# ---- the clock of this machine


def _local_seconds(timestamp: int) -> int:
    """What the local clock shows at a POSIX timestamp, as seconds since 1970."""
    return timestamp + c_time.localtime(timestamp).tm_gmtoff


def of_timestamp(kind: Any, microseconds: int) -> Any:
    """The local time, of a type, at some microseconds since 1970."""
    seconds, part = divmod(microseconds, 10**6)
    shown = _local_seconds(seconds)
    # (a clock that was put back in the day before shows the time twice)
    before = shown - (_local_seconds(seconds - _DAY_SECONDS) + _DAY_SECONDS)
    fold = int(before < 0 and _local_seconds(seconds + before) == shown)
    moment = kind.from_seconds(shown, part * 1_000)
    return moment.replace(fold=1) if fold else moment


def timestamp_of_local(moment: Any) -> int:
    """The POSIX timestamp, in whole seconds, of what the local clock shows; by the fold where it shows it twice or skips it."""
    shown: int = moment.seconds
    offsets = [_local_seconds(at) - at for at in (shown - _DAY_SECONDS, shown + _DAY_SECONDS)]
    found = [at for at in (shown - it for it in offsets) if _local_seconds(at) == shown]
    if found:
        return max(found) if moment.fold else min(found)
    skipped = [shown - it for it in offsets]
    return min(skipped) if moment.fold else max(skipped)


def utc_of(moment: Any) -> Any:
    """The date-time without a zone that UTC shows; of one without an offset, by the clock of this machine."""
    offset = length_asked(moment, "utcoffset")
    if offset is not None:
        return moment.replace(tzinfo=None, fold=0) - offset
    at = timestamp_of_local(moment)
    # (as datetime has it, which moves a time that the clock skips by the offset at its timestamp)
    return type(moment).from_seconds(moment.seconds - (_local_seconds(at) - at), moment.nanosecond)


def at_offset(local: Any, seconds: int) -> Any:
    """The date-time of a clock that is so many seconds ahead of UTC."""
    return local.replace(tzinfo=datetime.timezone(datetime.timedelta(seconds=seconds)) if seconds else datetime.timezone.utc)


def local_zone(utc: Any) -> datetime.timezone:
    """The offset that the clock of this machine has where UTC shows a date-time."""
    it = c_time.localtime(utc.seconds)
    return datetime.timezone(datetime.timedelta(seconds=it.tm_gmtoff), it.tm_zone)


def as_time_zone(moment: Any, tz: Any) -> Any:
    """The date-time at the same instant by the clock of a time zone, or of this machine if it is None."""
    is_utc = moment.tzinfo is datetime.timezone.utc and not moment.fold
    utc = moment if is_utc and wanted(tz) is not None else utc_of(moment)
    zone = local_zone(utc) if wanted(tz) is None else tz
    return moment if zone is moment.tzinfo else from_utc(utc, zone)


# ---- schedules in other zones


def _own_zone(zone: Any) -> Zone:
    """The Zone that stands for a ZoneInfo, by its key, or for a fixed offset of whole seconds."""
    if isinstance(zone, datetime.timezone) and not zone.utcoffset(None).microseconds:
        behind = -zone.utcoffset(None) // datetime.timedelta(seconds=1)
        minutes, second = divmod(abs(behind), 60)
        return Zone.from_rule(f"UTC{'-' * (behind < 0)}{minutes // 60}:{minutes % 60:02}:{second:02}")
    if isinstance(zone, zoneinfo.ZoneInfo) and zone.key is not None:
        return Zone(zone.key)
    raise ValueError(f"a schedule goes by a Zone, a ZoneInfo with a key or a fixed offset, not by {zone!r}: make a Zone, or one by Zone.from_tzif")


def schedule_by_other_zone(schedule: Any, method: str, moment: Any, until: Any, zone: Any) -> Any:
    """What a method of a schedule answers for a date-time in a zone that is no Zone; its date-times are in that zone."""
    start = moment if isinstance(moment, DateTime) else DateTime.from_datetime(moment)
    start = start.astimezone(_own_zone(zone))
    if method == "iterate":
        return (it.astimezone(zone) for it in schedule.iterate(start, until))
    found = getattr(schedule, method)(start)
    return found.astimezone(zone) if isinstance(found, DateTime) else found


# ---- files of zones

_KEY = re.compile(r"[A-Za-z0-9_+-]+(?:/[A-Za-z0-9_+-]+)*")


def bytes_of_zone(key: str) -> bytes:
    """The bytes of the file of a zone, from where zoneinfo looks; a ValueError if there is none."""
    if _KEY.fullmatch(key):
        for folder in zoneinfo.TZPATH:
            path = os.path.join(folder, *key.split("/"))
            if os.path.isfile(path):
                with open(path, "rb") as it:
                    return it.read()
        found = _of_tzdata(key)
        if found is not None:
            return found
    raise ValueError(f"no time zone is named {key!r}")


def _of_tzdata(key: str) -> bytes | None:
    """The bytes of the same from the package tzdata, if it is there."""
    try:
        file = importlib.resources.files("tzdata").joinpath("zoneinfo", *key.split("/"))
    except ModuleNotFoundError:
        return None
    return file.read_bytes() if file.is_file() else None
