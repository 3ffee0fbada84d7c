"""Weekdays."""
from enum import IntEnum


class Weekday(IntEnum):
    """A day of the week, from 1 for Monday to 7 for Sunday (ISO 8601)."""

    MONDAY = 1
    TUESDAY = 2
    WEDNESDAY = 3
    THURSDAY = 4
    FRIDAY = 5
    SATURDAY = 6
    SUNDAY = 7
