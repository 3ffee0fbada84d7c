"""The proleptic Gregorian calendar of half a million years, by functions that are proved to return what counting gives."""
from ._calendar import (
    BusinessCalendar, Date, DateTime, Duration, IsoCalendarDate, Pattern, Rule, Schedule, Zone, __version__, day_count,
    days_in_month, days_until, easter, is_leap_year,
)
from .text_error import TextError
from .weekday import Weekday
from . import _members  # (gives the types above what is written in Python)
from .calendar_text import CalendarText
from .instant import Instant
from .rule_set import RuleSet
from .time_of_day import Time
from .timed_schedule import TimedSchedule

del _members
__version__ = __version__.replace("-dev", ".dev0")  # (as pip writes it)

__all__ = [
    "BusinessCalendar", "CalendarText", "Date", "DateTime", "Duration", "Instant", "IsoCalendarDate", "Pattern", "Rule", "RuleSet", "Schedule", "TextError", "Time", "TimedSchedule", "Weekday", "Zone",
    "__version__",
    "day_count", "days_in_month", "days_until", "easter", "is_leap_year",
]
