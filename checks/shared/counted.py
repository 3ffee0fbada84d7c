"""The proleptic Gregorian calendar, durations and times of day by counting, in Python's whole numbers: what the checks hold the
libraries and caltool to.

A date is its day number: 1 January of year 1 is day 1. Years, months and days are counted from the leap rule and the month
lengths alone; in the years 1 to 9999 Python's datetime answers in their place. A time of day is a second and a fraction, which is
10^9 or more in a leap second; durations are whole nanoseconds. Nothing here is taken from the sources that it is a check of.
"""
import bisect
import datetime

FIRST_YEAR, LAST_YEAR = -262_143, 262_142
NANOS = 10**9
DAY = 86_400 * NANOS
# The longest duration, either way.
LONGEST = (2**63 - 1) * 10**6


def is_leap(year):
    return year % 4 == 0 and (year % 100 != 0 or year % 400 == 0)


def month_lengths(year):
    return [31, 29 if is_leap(year) else 28, 31, 30, 31, 30, 31, 31, 30, 31, 30, 31]


# The days before each year of the 400 that begin with year 1, and before the year after them.
BEFORE = [0]
for counted in range(1, 401):
    BEFORE.append(BEFORE[-1] + sum(month_lengths(counted)))


def days_before(year):
    cycles, rest = divmod(year - 1, 400)
    return cycles * BEFORE[400] + BEFORE[rest]


FIRST_DAY, LAST_DAY = days_before(FIRST_YEAR) + 1, days_before(LAST_YEAR + 1)


def is_date(number):
    return FIRST_DAY <= number <= LAST_DAY


def in_range(number):
    return number if number is not None and is_date(number) else None


# ---- the names of a day


def day_of(year, month, day):
    """The number of a calendar date, or None."""
    if 1 <= year <= 9999:
        try:
            return datetime.date(year, month, day).toordinal()
        except (ValueError, OverflowError):
            return None
    if not (FIRST_YEAR <= year <= LAST_YEAR and 1 <= month <= 12 and 1 <= day <= month_lengths(year)[month - 1]):
        return None
    return days_before(year) + sum(month_lengths(year)[: month - 1]) + day


def name_of(number):
    """Year, month and day of a number, which may lie past the calendar's ends."""
    if 1 <= number <= datetime.date.max.toordinal():
        date = datetime.date.fromordinal(number)
        return date.year, date.month, date.day
    cycles, rest = divmod(number - 1, BEFORE[400])
    within = bisect.bisect_right(BEFORE, rest) - 1
    year, rest = 400 * cycles + within + 1, rest - BEFORE[within]
    for month, length in enumerate(month_lengths(year), 1):
        if rest < length:
            return year, month, rest + 1
        rest -= length


def day_in_year(year, ordinal):
    """The number of an ordinal date, or None."""
    first = day_of(year, 1, 1)
    return first + ordinal - 1 if first is not None and 1 <= ordinal <= sum(month_lengths(year)) else None


def ordinal_of(number):
    return number - days_before(name_of(number)[0])


def weekday_of(number):
    """From 0, Monday: day 1 was one."""
    return (number - 1) % 7


def week_of(number):
    """The ISO year and week: those of the Thursday in the same week."""
    thursday = number - weekday_of(number) + 3
    year = name_of(thursday)[0]
    return year, (thursday - days_before(year) - 1) // 7 + 1


def day_of_week_date(year, week, weekday):
    """The number of an ISO week date, or None; weekdays count from 1, Monday."""
    fourth = days_before(year) + 4
    monday = fourth - weekday_of(fourth) + 7 * (week - 1)
    return in_range(monday + weekday - 1) if week >= 1 and week_of(monday) == (year, week) else None


def day_of_month(year, month, weekday, count):
    """The number of a month's first, second .. Monday, which is weekday 1, or other weekday, or None."""
    first = day_of(year, month, 1)
    if first is None or count == 0:
        return None
    return day_of(year, month, 1 + (weekday - 1 - weekday_of(first)) % 7 + 7 * (count - 1))


def first_of_week(number, start):
    """The last day on or before a date with the weekday start, 1 for Monday; it may be no date."""
    return number - (weekday_of(number) + 1 - start) % 7


def first_on(number, members):
    """The first date from a date on with a weekday of a set, whose lowest bit stands for Monday; or None."""
    return next((it for it in range(number, min(number + 7, LAST_DAY + 1)) if members >> weekday_of(it) & 1), None)


# ---- moves


def month_move(number, count):
    """The same day that many months on, or the last of a shorter month; or None."""
    year, month, day = name_of(number)
    year, month = divmod(12 * year + month - 1 + count, 12)
    if not FIRST_YEAR <= year <= LAST_YEAR:
        return None
    return day_of(year, month + 1, min(day, month_lengths(year)[month]))


def years_between(number, base):
    """The whole years from the base to a date, or None before the base."""
    (year, *rest), (base_year, *base_rest) = name_of(number), name_of(base)
    years = year - base_year - (rest < base_rest)
    return years if years >= 0 else None


def is_time(hour, minute, second, nano):
    """Whether there is this time: a leap fraction stands at second 59 alone."""
    return hour < 24 and minute < 60 and second < 60 and nano < (2 * NANOS if second == 59 else NANOS)


def land(second, fraction, length):
    """Days, second and fraction where a move ends, on the line that holds the start's own leap second and no other."""
    place = second * NANOS + fraction + length
    leap = (second + 1) * NANOS if fraction >= NANOS else None
    if leap is not None and leap <= place < leap + NANOS:
        return 0, second, place - second * NANOS
    if leap is not None and place >= leap + NANOS:
        place -= NANOS
    days, rest = divmod(place, DAY)
    return days, *divmod(rest, NANOS)


def apart(time, other):
    """The first time less the second, in nanoseconds, with a second more where a leap second lies between them."""
    (second, fraction), (other_second, other_fraction) = time, other
    between = (second > other_second and other_fraction >= NANOS) - (second < other_second and fraction >= NANOS)
    return (second - other_second + between) * NANOS + fraction - other_fraction
