"""A program that uses every kind of call, for `mypy --strict`: each name has the type that the call is to have."""
import datetime
from fractions import Fraction

from proved_calendar import (
    BusinessCalendar, Date, DateTime, Duration, Instant, Pattern, Rule, RuleSet, Schedule, TextError, Time, Weekday, Zone, day_count, days_in_month, days_until, easter,
    is_leap_year,
)


class Day(Date):
    """A class of a user, whose objects stay of it."""


day: Date = Date(2024, 2, 29) + 1
same: Date = 1 + Date.fromisoformat("2024-02-28")
before: Date = day - datetime.timedelta(1) - Duration(days=1)
apart: int = (day - before) + (day - datetime.date(2024, 2, 29)) + (datetime.date(2024, 2, 29) - day)
own: Day = Day.fromordinal(1).replace(day=2) + 3
weekday: Weekday = day.isoweekday()
year, week, of_week = day.isocalendar()
again: Date = Date.from_iso_week(year, week, of_week)
number: int = day.isocalendar().weekday + day.weekday()
first: Date = day.first_on([Weekday.MONDAY, 7]).week_first_day(Weekday.SUNDAY)
theirs: datetime.date = day.to_date()

moment: DateTime = DateTime(day, 23, 59, 60) + Duration(seconds=1) - datetime.timedelta(1)
length: Duration = moment - DateTime.from_seconds(0)
passed: Duration = (moment - datetime.datetime(2024, 2, 29)) + (datetime.datetime(2024, 2, 29) - moment)
longer: Duration = datetime.timedelta(1) + abs(-length) - datetime.timedelta(2)
is_long: bool = bool(longer) and longer > length
standard: datetime.datetime = DateTime.from_datetime(datetime.datetime(2024, 2, 29)).to_datetime()
delta: datetime.timedelta = Duration.from_timedelta(datetime.timedelta(1)).to_timedelta()

noon: DateTime = DateTime(2024, 2, 29, 12, microsecond=5).add_months(1)
clock: Time = DateTime.combine(day, Time(12, 30)).time.replace(hour=1, nanosecond=7)
theirs_together: DateTime = DateTime.combine(datetime.date(2024, 2, 29), datetime.time(12), None).round(datetime.timedelta(hours=1))
now: DateTime = DateTime.now()
half: Duration = longer / 2 + 1.5 * Duration(1, hours=2.5) - Duration.fromisoformat("PT1H")
share: float = half / datetime.timedelta(1) + half.total_seconds()
count: int = half // Duration(seconds=1) + divmod(half, Duration(1))[0] + half.days
is_same: bool = day == theirs and day < datetime.date.max and noon <= standard and half > delta
shown: str = noon.isoformat(" ", "minutes") + f"{day:%d/%m/%Y}" + noon.strftime("%H") + half.isoformat() + clock.isoformat("seconds")
ends: list[DateTime] = [DateTime.min, DateTime.max, DateTime.min + DateTime.resolution]

pattern: Pattern = Pattern("%d.%m.%Y")
read: Date = pattern.parse_date(pattern.format(day) or pattern.format(standard) or pattern.text)
read_time: DateTime = Pattern("%F %T").parse_date_time(f"{day} 12:30:00")

daily: Schedule = Schedule("@daily")
due: list[DateTime] = list(daily.iterate(moment, standard)) if daily.is_due(moment) else []
next_due: DateTime | None = daily.next_after(standard) or daily.prev_before(moment)
try:
    Schedule("0 25 * * *")
except TextError as error:
    wrong: str = error.text[error.start:error.end]
berlin: Zone = Zone("Europe/Berlin")
in_berlin: DateTime = Zone.from_rule("JST-9").fromutc(moment) if berlin.key else DateTime.now(berlin)
there: datetime.datetime = standard.astimezone(berlin)
firings: list[DateTime] = list(daily.iterate(in_berlin, there))
lengths: tuple[Duration, ...] = berlin.offsets(moment)
fridays: Rule[Date] = Rule("FREQ=WEEKLY;BYDAY=FR", day)
meetings: Rule[DateTime] = Rule("FREQ=WEEKLY;COUNT=3", moment)
without: RuleSet[Date] = RuleSet([fridays], [day, theirs], except_dates=[day + 7])
third: Date = fridays[2]
found: DateTime | None = meetings.after(moment) or meetings.before(standard, inc=True)
several: list[Date] = [*fridays[:3], *without[:2], *without.between(day, day + 30), *fridays.xafter(day, 2)]
is_one: bool = day in fridays or day in without or meetings.count() == 3
open_days: BusinessCalendar = BusinessCalendar([day, theirs], weekend=(Weekday.FRIDAY, 6))
reached: Date = open_days.roll(open_days.add(theirs, 3), "modified_following")
are_open: int = open_days.is_open(day) + open_days.between(day, theirs) + len(open_days.holidays) + sum(open_days.weekend)
euro: BusinessCalendar = BusinessCalendar.known("target", 2024, easter(2025).year)
part: Fraction = day_count(day, theirs, "thirty_360")

instant: Instant = Instant.fromisoformat("2024-02-29T12:00:00Z") + longer - datetime.timedelta(1)
since: Duration = instant - Instant.from_datetime(standard)
shown_there: DateTime = instant.astimezone(datetime.timezone.utc)
zoned: DateTime = DateTime(2024, 2, 29, tzinfo=datetime.timezone.utc, fold=1).astimezone()
offset: Duration | None = zoned.utcoffset()
zone: datetime.tzinfo | None = zoned.tzinfo

days: int = days_in_month(2024, 2) + days_until({1, 2}, Weekday.FRIDAY) + is_leap_year(2024)
text: str = f"{day:>12} {moment}" + day.isoformat()

match moment:
    case DateTime(Date(the_year, 2), hour):
        hours: int = the_year + hour
