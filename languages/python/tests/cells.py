"""An example of each layer in Python. What stands behind `=` is what its line prints. checks/packages/cells.py looks for these parts."""
from proved_calendar import Date, DateTime

# == texts read
print(Date.fromisoformat("2024-02-29").weekday())  # = 3

# == patterns
from proved_calendar import Pattern

print(Pattern("%d.%m.%Y").format(Date(2024, 2, 29)))  # = 29.02.2024
print(Date(2024, 2, 29).strftime("%d.%m.%Y"))  # = 29.02.2024

# == schedules
from proved_calendar import Schedule

print(Schedule("30 4 1,15 * fri").next_after(DateTime(2024, 2, 9, 4, 30)))  # = 2024-02-15T04:30:00

# == schedules in a zone
from proved_calendar import Zone

nightly = Schedule("30 2 * * *").iterate(DateTime(2024, 3, 30, tzinfo=Zone("Europe/Berlin")))
print(next(nightly), next(nightly))  # = 2024-03-30T02:30:00+01:00 2024-03-31T03:00:00+02:00

# == schedules with seconds
from proved_calendar import TimedSchedule

print(TimedSchedule("*/15 30 4 * * *").next_after(DateTime(2024, 2, 9, 4, 30, 15)))  # = 2024-02-09T04:30:30

# == recurrence rules
from proved_calendar import Rule, RuleSet

fridays = Rule("FREQ=MONTHLY;BYDAY=-1FR", Date(2024, 1, 1))
print(fridays.after(Date(2024, 1, 1)))  # = 2024-01-26
print(*RuleSet([fridays], [Date(2024, 2, 1)], except_dates=[Date(2024, 1, 26)])[:2])  # = 2024-02-01 2024-02-23

# == rules and calendars in a zone
from proved_calendar import CalendarText

daily = CalendarText("DTSTART;TZID=Europe/Berlin:20240330T023000\nRRULE:FREQ=DAILY")
print(*daily[:2])  # = 2024-03-30T02:30:00+01:00 2024-03-31T03:30:00+02:00

# == open days
from proved_calendar import BusinessCalendar

print(BusinessCalendar([Date(2024, 3, 29), Date(2024, 4, 1)]).add(Date(2024, 3, 28), 2))  # = 2024-04-03

# == holidays
print(*BusinessCalendar.known("target", 2024, 2024).holidays[1:3])  # = 2024-03-29 2024-04-01

# == Easter
from proved_calendar import easter

print(easter(2024))  # = 2024-03-31

# == day counts
from proved_calendar import day_count

print(day_count(Date(2024, 1, 31), Date(2024, 3, 1), "actual_360"))  # = 1/12

# == zones
berlin = Zone("Europe/Berlin")
print(DateTime.fromisoformat("2024-07-01T10:00:00Z").astimezone(berlin))  # = 2024-07-01T12:00:00+02:00
print(len(berlin.offsets(DateTime(2024, 3, 31, 2, 30))))  # = 0

# == columns
import numpy
import proved_calendar.dask
import proved_calendar.pandas
from dask import dataframe
from pandas import Series
from proved_calendar import columns

dates = numpy.array(["2024-01-31", "NaT"], "M8[D]")
print(*columns.add_months(dates, 1))  # = 2024-02-29 NaT
series = Series(dates.astype("M8[ns]"))
print(*series.proved.add_months(1).dt.date)  # = 2024-02-29 NaT
print(*dataframe.from_pandas(series, npartitions=1).proved.add_months(1).compute().dt.date)  # = 2024-02-29 NaT
