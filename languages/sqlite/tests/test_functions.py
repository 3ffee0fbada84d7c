"""Calls every function of the extension with answers that are known from outside, with NULL, wrong types, wrong texts, and at the
ends of the calendar.

    test_functions.py PATH    the path of the extension, without its `.so`

The last line is `N passed, M failed`.
"""
import datetime
import sqlite3
import sys

# The 1,000 open days from 28 March 2024 on, as holidays.
FOUR_YEARS = ",".join(
    str(it) for it in (datetime.date(2024, 3, 28) + datetime.timedelta(number) for number in range(1400)) if it.isoweekday() < 6
)[:10_999]
# How errors end: an answer looks at another year, or years are wrong.
KNOWN = "the holidays are known from 2024 to 2026 alone, and another year is looked at"
ONCE = "years are wanted once, as in 2024..2026"
ANSWERS = {
    "is_date('2024-02-29')": 1, "is_date('2023-02-29')": 0, "is_date('')": 0, "is_date(20240229)": 0, "is_date(x'32')": 0,
    "is_date('2024-02-29 12:00:00')": 0, "is_date('2024-02-29' || char(0))": 0, "is_date(1.5)": 0,
    "add_days('2024-02-28', 2)": "2024-03-01", "add_days('2024-03-01', -2)": "2024-02-28", "add_days('2024-03-01', 0)": "2024-03-01",
    "add_months('2024-01-31', 1)": "2024-02-29", "add_months('2024-02-29', -12)": "2023-02-28",
    "days_between('2024-01-01', '2025-01-01')": 366, "days_between('2025-01-01', '2024-01-01')": -366,
    "years_between('2000-02-29', '2024-02-28')": 23, "years_between('2000-02-29', '2024-02-29')": 24,
    "years_between('2024-01-02', '2024-01-01')": None,
    "weekday('2024-02-26')": 1, "weekday('2024-03-03')": 7, "iso_week('2024-02-29')": 9, "iso_week('2020-12-31')": 53,
    "iso_year('2021-01-01')": 2020, "iso_year('2024-12-30')": 2025, "day_of_year('2024-12-31')": 366, "day_of_year('2023-12-31')": 365,
    "days_in_month('2024-02-01')": 29, "days_in_month('2023-02-01')": 28, "days_in_month('2023-12-31')": 31,
    # years with a sign, and the ends of the calendar
    "add_days('9999-12-31', 1)": "+10000-01-01", "add_days('0000-01-01', -1)": "-0001-12-31", "add_days('+10000-01-01', -1)": "9999-12-31",
    "add_days('-262143-01-01', 191491528)": "+262142-12-31", "weekday('+262142-12-31')": 1, "weekday('-262143-01-01')": 4,
    "days_between('-262143-01-01', '+262142-12-31')": 191491528, "iso_week('-262143-01-01')": 1, "day_of_year('-262143-01-01')": 1,
    "easter(2024)": "2024-03-31", "easter(1583)": "1583-04-10",
    # open days
    "add_open_days('2024-03-28', 2, '2024-03-29,2024-04-01')": "2024-04-03", "add_open_days('2024-03-28', 2, ' 2024-04-01 ,2024-03-29\n2024-03-29')": "2024-04-03",
    "add_open_days('2024-03-28', 2, '')": "2024-04-01", "add_open_days('2024-03-28', 2, '', '')": "2024-03-30",
    "add_open_days('2024-03-28', 2, '', '56')": "2024-04-01", "add_open_days('2024-03-30', 0, '2024-03-30')": "2024-04-01",
    "add_open_days('2024-03-30', -1, '2024-03-29')": "2024-03-28", "add_open_days('2024-03-28', 1, '2024-03-29', '67')": "2024-04-01",
    "open_days('2024-03-25', '2024-04-08', '2024-03-29,2024-04-01')": 8, "open_days('2024-04-08', '2024-03-25', '')": -10,
    "open_days('2024-03-25', '2024-04-08', '2024-04-01', '7')": 11, "open_days('2024-03-25', '2024-03-25', '')": 0,
    "roll('2024-03-31', 'following', '2024-03-29')": "2024-04-01", "roll('2024-03-31', 'Modified-Following', '2024-03-29')": "2024-03-28",
    "roll('2024-03-31', 'preceding', '')": "2024-03-29", "roll('2024-06-01', 'modified-preceding', '')": "2024-06-03",
    "roll('2024-03-31', 'unadjusted', '')": "2024-03-31", "roll('2024-04-02', 'nearest-isda', '2024-04-02')": "2024-04-01",
    "roll('2024-04-02', 'nearest-quantlib', '2024-04-02')": "2024-04-03", "roll('2024-03-31', 'following', '', '17')": "2024-04-02",
    f"add_open_days('2024-03-28', 1, '{FOUR_YEARS}')": "2028-01-27",
    # the years of which holidays are known
    "add_open_days('2026-12-30', 1, 'target 2024..2026')": "2026-12-31", "add_open_days('2024-03-28', 2, '2024..2026,TARGET 2024-04-02')": "2024-04-04",
    "add_open_days('1999-12-30', -1, 'target 1990..1999')": "1999-12-29", "open_days('2026-01-01', '2027-01-01', 'target 2024..2026')": 256,
    "open_days('2027-01-01', '2026-01-01', 'target 2024..2026')": -256, "open_days('2024-01-01', '2025-01-01', 'us_federal target 2024..2024')": 247,
    "open_days('2021-01-01', '2022-01-01', 'us_federal 2021..2021')": 249, "open_days('2021-01-01', '2022-01-01', 'us_federal 2021..2021', '7')": 301,
    "open_days('-0001-01-01', '2023-01-01', '-0001..+12030')": 528036, "open_days('+262142-01-01', '+262142-12-31', 'japan +262142..+262142')": 247,
    "roll('2022-12-31', 'preceding', '2022..2022')": "2022-12-30", "roll('2022-12-31', 'following', '2022..2023')": "2023-01-02",
    "roll('+262142-12-31', 'nearest-quantlib', '+262142-12-31')": "+262142-12-28",
    "year_fraction('30/360', '2024-01-31', '2024-03-31')": 60 / 360, "year_fraction('30E/360', '2024-02-29', '2024-03-31')": 31 / 360,
    "year_fraction('Actual/Actual', '2023-07-01', '2024-07-01')": (184 * 366 + 182 * 365) / (365 * 366),
    "year_fraction('actual/360', '2024-12-31', '2024-01-01')": -365 / 360, "year_fraction('actual/365', '2024-01-01', '2024-12-31')": 1.0,
    # schedules
    "next_due('0 9 * * mon-fri', '2024-03-01')": "2024-03-01 09:00:00", "next_due('0 9 * * mon-fri', '2024-03-01T09:00:00')": "2024-03-04 09:00:00",
    "next_due('@daily', '2024-02-28 23:59:59.999')": "2024-02-29 00:00:00", "next_due('@daily', '9999-12-31')": "+10000-01-01 00:00:00",
    "next_due('@daily', '2016-12-31 23:59:60')": "2017-01-01 00:00:00", "next_due('0 0 30 2 *', '2024-01-01')": None,
    "next_due('@daily', '+262142-12-31')": None, "last_due('@daily', '-262143-01-01')": None,
    "last_due('@daily', '2024-02-29')": "2024-02-28 00:00:00", "last_due('@daily', '2024-02-29 00:00:01')": "2024-02-29 00:00:00",
    "last_due('@daily', '0000-01-01')": "-0001-12-31 00:00:00",
    "is_due('30 4 * * *', '2024-02-29 04:30:00')": 1, "is_due('30 4 * * *', '2024-02-29 04:30:01')": 0, "is_due('@daily', '2024-02-29')": 1,
}
REFUSALS = {
    "weekday('2024-02-30')": "weekday: '2024-02-30' is no date: byte 8: the month has 29 days",
    "weekday('2024-00-01')": "weekday: '2024-00-01' is no date: byte 5: the month is 0",
    "weekday('2024-13-01')": "weekday: '2024-13-01' is no date: byte 5: the month is above 12",
    "weekday('-2024-01-00')": "weekday: '-2024-01-00' is no date: byte 9: the day is 0",
    "weekday('2024-1-01')": "weekday: '2024-1-01' is no date: byte 6: not of this form",
    "weekday('')": "weekday: '' is no date: byte 0: not of this form", "weekday('-')": "weekday: '-' is no date: byte 1: not of this form",
    "weekday('-204-01-01')": "weekday: '-204-01-01' is no date: byte 4: not of this form",
    "weekday('+9999-01-01')": "weekday: '+9999-01-01' is no date: byte 5: not of this form",
    "weekday('12024-01-01')": "weekday: '12024-01-01' is no date: byte 4: not of this form",
    "weekday('-0000-01-01')": "weekday: '-0000-01-01' is no date: byte 0: the year is not of this form",
    "weekday('+262143-01-01')": "weekday: '+262143-01-01' is no date: byte 0: the year is not from -262143 to 262142",
    "weekday('+999999-99-99')": "weekday: '+999999-99-99' is no date: byte 0: the year is not from -262143 to 262142",
    "weekday('2024-02-29 12:00:00')": "weekday: '2024-02-29 12:00:00' is no date: byte 10: not of this form",
    "weekday('2024-02-29' || char(0))": "weekday: '2024-02-29' is no date: byte 10: not of this form",
    "weekday('it''s')": "weekday: 'it''s' is no date: byte 0: not of this form",
    "weekday(printf('%.900c', 'é'))": f"weekday: '{80 * 'é'}' is no date: byte 0: not of this form",
    "weekday(cast(x'ff32' AS TEXT))": "",
    "add_days('2024-02-29', 191491529)": "add_days: the answer is not from -262143-01-01 to +262142-12-31",
    "add_days('2024-02-29', -9223372036854775807 - 1)": "add_days: the answer is not from -262143-01-01 to +262142-12-31",
    "add_months('2024-02-29', 9223372036854775807)": "add_months: the answer is not from -262143-01-01 to +262142-12-31",
    "add_days('-262143-01-01', -1)": "add_days: the answer is not from -262143-01-01 to +262142-12-31",
    "add_days('2024-02-29', 1.5)": "add_days: a whole number is wanted, and not '1.5'",
    "add_months('2024-02-29', '1')": "add_months: a whole number is wanted, and not '1'",
    "add_months('2024-02-29', x'31')": "add_months: a whole number is wanted, and not '1'",
    "days_between('2024-02-29', '2024-02-31')": "days_between: '2024-02-31' is no date: byte 8: the month has 29 days",
    "years_between('2024-02-31', '2024-02-29')": "years_between: '2024-02-31' is no date: byte 8: the month has 29 days",
    "easter(262143)": "easter: the answer is not from -262143-01-01 to +262142-12-31",
    "easter(4294969320)": "easter: the answer is not from -262143-01-01 to +262142-12-31", "easter('2024')": "easter: a whole number is wanted, and not '2024'",
    "add_open_days('2024-03-28', 2, '2024-03-29,2024-04-31')": "add_open_days: '2024-03-29,2024-04-31' is no list of dates: byte 19: the month has 30 days",
    "add_open_days('2024-03-28', 2, '2024-03-29;2024-04-01')": "add_open_days: '2024-03-29;2024-04-01' is no list of dates: byte 10: not of this form",
    "add_open_days('2024-03-28', 2, 'x')": "add_open_days: 'x' is no list of dates: byte 0: not of this form",
    "add_open_days('2024-03-28', 2, 20240329)": "add_open_days: a list of dates is a text, and not a number",
    "add_open_days('2024-03-28', 2, '', '68')": "add_open_days: '68' is no weekend: byte 1: digits from 1 for Monday to 7 are wanted",
    "add_open_days('2024-03-28', 2, '', '0')": "add_open_days: '0' is no weekend: byte 0: digits from 1 for Monday to 7 are wanted",
    "add_open_days('2024-03-28', 2, '', 67)": "add_open_days: a weekend is a text, and not a number",
    "add_open_days('2024-03-28', 2, '', '1234567')": "add_open_days: the answer is not from -262143-01-01 to +262142-12-31",
    "add_open_days('2024-03-28', 9223372036854775807, '')": "add_open_days: the answer is not from -262143-01-01 to +262142-12-31",
    "add_open_days('2024-03-32', 1, '')": "add_open_days: '2024-03-32' is no date: byte 8: the month has 31 days",
    "add_open_days('2024-03-28', '1', '')": "add_open_days: a whole number is wanted, and not '1'",
    f"add_open_days('2024-03-28', 1, '{FOUR_YEARS} 2028-01-27')": "add_open_days: a calendar has at most 1000 holidays",
    "add_open_days('2026-12-30', 2, 'target 2024..2026')": f"add_open_days: {KNOWN}", "add_open_days('2027-01-01', -1, 'target 2024..2026')": f"add_open_days: {KNOWN}",
    "add_open_days('2024-01-01', -1, '2024..2026')": f"add_open_days: {KNOWN}", "add_open_days('2024-12-31', 1, '2024..2026', '1234567')": f"add_open_days: {KNOWN}",
    "add_open_days('1999-01-01', -1, 'target 1990..1999')": "add_open_days: the holidays are known from 1999 to 1999 alone, and another year is looked at",
    "add_open_days('2006-12-29', -1, 'target japan 2000..2026')": "add_open_days: the holidays are known from 2007 to 2026 alone, and another year is looked at",
    "open_days('2026-01-01', '2027-01-02', 'target 2024..2026')": f"open_days: {KNOWN}", "open_days('2023-12-31', '2024-01-01', '2024..2026')": f"open_days: {KNOWN}",
    "roll('2022-12-31', 'following', '2022..2022')": "roll: the holidays are known from 2022 to 2022 alone, and another year is looked at",
    "roll('2022-12-31', 'nearest-quantlib', '2022..2022')": "roll: the holidays are known from 2022 to 2022 alone, and another year is looked at",
    "open_days('2021-01-01', '2022-01-01', 'us_federal')": "open_days: the years of us_federal are wanted too, as in 'us_federal 2024..2026'",
    "open_days('2021-01-01', '2022-01-01', 'target 1990..1998')": "open_days: the holidays of target are known from 1999 on",
    "open_days('2021-01-01', '2022-01-01', 'us_federal 1971..2171')": "open_days: a calendar has at most 1000 holidays",
    "open_days('2021-01-01', '2022-01-01', 'us_federal japan 2000..2050')": "open_days: a calendar has at most 1000 holidays",
    "open_days('2021-01-01', '2022-01-01', 'target' || char(0) || ' 2021..2021')": "open_days: 'target' is no list of dates: byte 0: not of this form",
    "open_days('2021-01-01', '2022-01-01', 'target 2020..2020 2021..2021')": f"open_days: 'target 2020..2020 2021..2021' is no list of dates: byte 18: {ONCE}",
    "open_days('2021-01-01', '2022-01-01', 'target 2022..2021')": f"open_days: 'target 2022..2021' is no list of dates: byte 7: {ONCE}",
    "open_days('2021-01-01', '2022-01-01', 'target 202..2021')": f"open_days: 'target 202..2021' is no list of dates: byte 7: {ONCE}",
    "open_days('2021-01-01', '2022-01-01', 'target ..2021')": f"open_days: 'target ..2021' is no list of dates: byte 7: {ONCE}",
    "open_days('2021-01-01', '2022-01-01', 'target 2021...2022')": f"open_days: 'target 2021...2022' is no list of dates: byte 7: {ONCE}",
    "open_days('2021-01-01', '2022-01-01', 'target 2021..20220101')": f"open_days: 'target 2021..20220101' is no list of dates: byte 7: {ONCE}",
    "open_days('2021-01-01', '2022-01-01', 'target 2021..+262143')": f"open_days: 'target 2021..+262143' is no list of dates: byte 7: {ONCE}",
    "open_days('x', '2024-03-28', '')": "open_days: 'x' is no date: byte 0: not of this form",
    "open_days('2024-03-28', '2024-03', '')": "open_days: '2024-03' is no date: byte 7: not of this form",
    "open_days('2024-03-28', '2024-03-28', 'x')": "open_days: 'x' is no list of dates: byte 0: not of this form",
    "roll('2024-03-31', 'up', '')": "roll: 'up' is no roll, such as following", "roll('2024-03-31', '', '')": "roll: '' is no roll, such as following",
    "roll('2024-03-31', 'following' || char(0), '')": "roll: 'following' is no roll, such as following",
    "roll('2024-03-31', 'following' || char(0) || printf('%.1000000c', 'x'), '')": "roll: 'following' is no roll, such as following",
    "roll('2024-03-31', 'followin', '')": "roll: 'followin' is no roll, such as following", "roll('2024-03-31', 1, '')": "roll: a roll is a text, and not a number",
    "roll('2024-03', 'following', '')": "roll: '2024-03' is no date: byte 7: not of this form",
    "roll('2024-03-31', 'following', '', '1234567')": "roll: the answer is not from -262143-01-01 to +262142-12-31",
    "year_fraction('act', '2024-01-31', '2024-03-31')": "year_fraction: 'act' is no day count, such as actual/360",
    "year_fraction('30/360', '2024-01-31', '2024-02-31')": "year_fraction: '2024-02-31' is no date: byte 8: the month has 29 days",
    "year_fraction('30/360', '2024-02-31', '2024-02-01')": "year_fraction: '2024-02-31' is no date: byte 8: the month has 29 days",
    "next_due('0 25 * * *', '2024-03-01')": "next_due: '0 25 * * *' is no schedule: hour, byte 2: a number that is out of range",
    "next_due('', '2024-03-01')": "next_due: '' is no schedule: byte 0: nothing stands there",
    "next_due(5, '2024-03-01')": "next_due: a schedule is a text, and not a number",
    "next_due('@daily', '2024-03-01 24:00:00')": "next_due: '2024-03-01 24:00:00' is no date-time: byte 11: the hour is above 23",
    "next_due('@daily', '2024-03-01 23:60:00')": "next_due: '2024-03-01 23:60:00' is no date-time: byte 14: the minute is above 59",
    "next_due('@daily', '2024-03-01 23:59:61')": "next_due: '2024-03-01 23:59:61' is no date-time: byte 17: the second is above 60",
    "last_due('@daily', '2024-03-01 23:59')": "last_due: '2024-03-01 23:59' is no date-time: byte 16: not of this form",
    "is_due('@daily', '2024-03-01 23:59:00.')": "is_due: '2024-03-01 23:59:00.' is no date-time: byte 20: not of this form",
    "is_due('@daily', '2024-03-01 23:59:00Z')": "is_due: '2024-03-01 23:59:00Z' is no date-time: byte 19: not of this form",
    "is_due('@daily', '2024-03-01 23:59:00.1234567890')": "is_due: '2024-03-01 23:59:00.1234567890' is no date-time: byte 29: not of this form",
    "is_due('@daily', '2024-03-32T00:00:00')": "is_due: '2024-03-32T00:00:00' is no date-time: byte 8: the month has 31 days",
    "is_due('@daily', 0)": "is_due: a date-time is a text, and not a number",
}
# Functions by the most of their arguments, and the optional ones of some.
OPTIONAL = {"add_open_days": 1, "open_days": 1, "roll": 1}
SCALARS = {
    "easter": 1, "add_open_days": 4, "open_days": 4, "roll": 4, "year_fraction": 3,
    "is_date": 1, "add_days": 2, "add_months": 2, "days_between": 2, "years_between": 2, "weekday": 1, "iso_week": 1, "iso_year": 1,
    "day_of_year": 1, "days_in_month": 1, "next_due": 2, "last_due": 2, "is_due": 2,
}
TABLES = {
    "SELECT day FROM days_of('2024-02-28', '2024-03-01')": ["2024-02-28", "2024-02-29", "2024-03-01"],
    "SELECT day FROM days_of('2024-02-28', '2024-03-01', 2)": ["2024-02-28", "2024-03-01"],
    "SELECT day FROM days_of('2024-03-01', '2024-02-26', -3)": ["2024-03-01", "2024-02-27"],
    "SELECT day FROM days_of('2024-03-01', '2024-03-01')": ["2024-03-01"],
    "SELECT day FROM days_of('2024-03-02', '2024-03-01')": [], "SELECT day FROM days_of('2024-03-01', '2024-03-02', -1)": [],
    "SELECT day FROM days_of('2024-03-01', '2024-03-02', 9223372036854775807)": ["2024-03-01"],
    "SELECT day FROM days_of('2024-03-02', '2024-03-01', -9223372036854775807 - 1)": ["2024-03-02"],
    "SELECT day FROM days_of('+262142-12-30', '+262142-12-31')": ["+262142-12-30", "+262142-12-31"],
    "SELECT day FROM days_of('-262143-01-02', '-262143-01-01', -1)": ["-262143-01-02", "-262143-01-01"],
    "SELECT count(*) FROM days_of('0000-01-01', '9999-12-31')": [3652425],
    "SELECT max(rowid) FROM days_of('2024-01-01', '2024-12-31')": [366],
    "SELECT given_step || given_until FROM days_of('2024-03-01', '2024-03-02', 1) LIMIT 1": ["12024-03-02"],
    "SELECT given_step FROM days_of('2024-03-01', '2024-03-01')": [None],
    "SELECT day FROM days_of WHERE given_from = '2024-03-01' AND given_until = '2024-03-01'": ["2024-03-01"],
    "SELECT day FROM days_of WHERE given_from = '2024-03-01' AND given_until = '2024-03-01' AND given_until = '2024-03-02'": [],
    "SELECT due FROM due_between('@daily', '2024-02-28', '2024-03-01')": ["2024-02-29 00:00:00", "2024-03-01 00:00:00"],
    "SELECT due FROM due_between('@daily', '2024-02-28 00:00:00', '2024-02-28 23:59:59')": [],
    "SELECT due FROM due_between('@daily', '2024-03-01', '2024-02-28')": [],
    "SELECT due FROM due_between('0 0 30 2 *', '2024-03-01', '+262142-12-31')": [],
    "SELECT count(*) FROM due_between('* * * * *', '2024-03-01', '2024-03-02')": [1440],
    "SELECT count(*) FROM due_between('*/15 * * * *', '2024-03-01', '2024-03-01 16:00:00')": [64],
    "SELECT count(DISTINCT due) FROM due_between('* * * * *', '2024-03-01', '2024-03-01 02:08:00')": [128],
    "SELECT due FROM due_between('* * * * *', '2024-03-01', '+262142-12-31') LIMIT 1 OFFSET 9999": ["2024-03-07 22:40:00"],
    "SELECT due FROM (SELECT '@daily' AS s UNION SELECT '@yearly') j, due_between(j.s, '2023-12-31', '2024-01-02') ORDER BY s, due":
        ["2024-01-01 00:00:00", "2024-01-02 00:00:00", "2024-01-01 00:00:00"],
    "SELECT count(*) FROM due_between(j.s, '2023-12-31', '2024-01-02') JOIN (SELECT '@daily' AS s UNION SELECT '@yearly') j": [3],
    "SELECT a.day || b.day FROM days_of('2024-01-01', '2024-01-02') a, days_of(a.day, '2024-01-02') b ORDER BY 1":
        ["2024-01-012024-01-01", "2024-01-012024-01-02", "2024-01-022024-01-02"],
}
TABLES |= {
    "SELECT day FROM rule_dates('FREQ=MONTHLY;BYDAY=-1FR', '2024-01-01', '2024-02-29')": ["2024-01-26", "2024-02-23"],
    "SELECT day FROM rule_dates('RRULE:FREQ=MONTHLY;COUNT=2', '2024-01-31', '2025-01-01')": ["2024-01-31", "2024-03-31"],
    "SELECT day FROM rule_dates('FREQ=YEARLY;BYMONTH=2;BYMONTHDAY=29', '2024-02-29', '2028-02-29')": ["2024-02-29", "2028-02-29"],
    "SELECT day FROM rule_dates('FREQ=MONTHLY;BYMONTH=2;BYMONTHDAY=30', '2024-02-29', '+262142-12-31')": [],
    "SELECT day FROM rule_dates('FREQ=DAILY', '2024-03-02', '2024-03-01')": [],
    "SELECT day FROM rule_dates('FREQ=DAILY', '+262142-12-30', '+262142-12-31')": ["+262142-12-30", "+262142-12-31"],
    "SELECT count(*) || ' ' || count(DISTINCT day) FROM rule_dates('FREQ=DAILY', '2024-01-01', '2024-07-10')": ["192 192"],
    "SELECT count(*) FROM rule_dates('FREQ=DAILY', '2024-01-01', '2024-03-04')": [64], "SELECT count(*) FROM rule_dates('FREQ=DAILY;COUNT=100', '2024-01-01', '2025-01-01')": [100],
    "SELECT count(DISTINCT day) || ' ' || max(day) FROM rule_dates('FREQ=DAILY;COUNT=100000', '2024-01-01', '+262142-12-31')": ["100000 2297-10-15"],
    "SELECT count(DISTINCT s || day) FROM (SELECT '2024-01-01' AS s UNION SELECT '2025-01-01') j, rule_dates('FREQ=DAILY;COUNT=300', j.s, '+262142-12-31')": [600],
    "SELECT day FROM rule_dates('FREQ=DAILY', '0000-01-01', '+262142-12-31') LIMIT 1 OFFSET 9999": ["0027-05-18"],
    "SELECT group_concat(day, ' ') FROM holidays_of('TARGET', 2024, 2024)": ["2024-01-01 2024-03-29 2024-04-01 2024-05-01 2024-12-25 2024-12-26"],
    "SELECT min(day) || ' ' || max(day) || ' ' || count(*) FROM holidays_of('us_federal', 2020, 2021)": ["2020-01-01 2021-12-31 22"],
    "SELECT group_concat(day, ' ') FROM holidays_of('england_and_wales', 2022, 2022)":
        ["2022-01-03 2022-04-15 2022-04-18 2022-05-02 2022-06-02 2022-06-03 2022-08-29 2022-09-19 2022-12-26 2022-12-27"],
    "SELECT group_concat(day, ' ') FROM holidays_of('nyse', 2021, 2021)":
        ["2021-01-01 2021-01-18 2021-02-15 2021-04-02 2021-05-31 2021-07-05 2021-09-06 2021-11-25 2021-12-24"],
    "SELECT max(day) FROM holidays_of('fedwire', 2021, 2021)": ["2021-11-25"],
    "SELECT group_concat(day, ' ') FROM holidays_of('germany', 2017, 2017)":
        ["2017-04-14 2017-04-17 2017-05-01 2017-05-25 2017-06-05 2017-10-03 2017-10-31 2017-12-25 2017-12-26"],
    "SELECT group_concat(day, ' ') FROM holidays_of('france', 2024, 2024)":
        ["2024-01-01 2024-04-01 2024-05-01 2024-05-08 2024-05-09 2024-05-20 2024-08-15 2024-11-01 2024-11-11 2024-12-25"],
    "SELECT group_concat(day, ' ') FROM holidays_of('japan', 2026, 2026)":
        ["2026-01-01 2026-01-02 2026-01-12 2026-02-11 2026-02-23 2026-03-20 2026-04-29 2026-05-04 2026-05-05 2026-05-06 "
         "2026-07-20 2026-08-11 2026-09-21 2026-09-22 2026-09-23 2026-10-12 2026-11-03 2026-11-23 2026-12-31"],
    "SELECT day FROM holidays_of('target', 2024, 2023)": [], "SELECT count(*) FROM holidays_of('target', -262143, 0)": [0],
    "SELECT count(*) FROM holidays_of('target', 2024, 2423)": [1944],
}
TABLE_REFUSALS = {
    "rule_dates('FREQ=DAYLY', '2024-03-01', '2024-03-02')": "rule_dates: 'FREQ=DAYLY' is no rule: byte 5: FREQ: not DAILY, WEEKLY, MONTHLY or YEARLY",
    "rule_dates('', '2024-03-01', '2024-03-02')": "rule_dates: '' is no rule: byte 0: empty",
    "rule_dates(1, '2024-03-01', '2024-03-02')": "rule_dates: a rule is a text, and not a number",
    "rule_dates('FREQ=DAILY', '2024-03-32', '2024-03-02')": "rule_dates: '2024-03-32' is no date: byte 8: the month has 31 days",
    "rule_dates('FREQ=DAILY', '2024-03-01', 'x')": "rule_dates: 'x' is no date: byte 0: not of this form",
    "rule_dates('FREQ=DAILY', '2024-03-01')": "rule_dates: it needs 3 arguments",
    "holidays_of('quantlib', 2024, 2024)": "holidays_of: 'quantlib' is no calendar, such as target",
    "holidays_of('target', '2024', 2024)": "holidays_of: a whole number is wanted, and not '2024'",
    "holidays_of('target', 2024, 2024.5)": "holidays_of: a whole number is wanted, and not '2024.5'",
    "holidays_of('target', -262144, 2024)": "holidays_of: the years are not from -262143 to 262141",
    "holidays_of('target', 2024, 262142)": "holidays_of: the years are not from -262143 to 262141",
    "holidays_of('target', 2024)": "holidays_of: it needs 3 arguments",
    "days_of('2024-03-01', '2024-03-02', 0)": "days_of: a step of 0 days leads nowhere",
    "days_of('2024-03-01', '2024-03-02', 1.5)": "days_of: a whole number is wanted, and not '1.5'",
    "days_of('2024-03-01', '2024-03-32')": "days_of: '2024-03-32' is no date: byte 8: the month has 31 days",
    "days_of('x', '2024-03-02')": "days_of: 'x' is no date: byte 0: not of this form",
    "days_of('2024-03-01')": "days_of: it needs 2 arguments", "days_of": "days_of: it needs 2 arguments",
    "days_of('2024-03-01', '2024-03-02', 1, 1)": "too many arguments on days_of() - max 3",
    "due_between('@daily', '2024-03-01')": "due_between: it needs 3 arguments",
    "due_between('@dayly', '2024-03-01', '2024-03-02')": "due_between: '@dayly' is no schedule: byte 0: an unknown nickname",
    "due_between('@daily', '2024-03-01', 'x')": "due_between: 'x' is no date-time: byte 0: not of this form",
    "due_between(1, '2024-03-01', '2024-03-02')": "due_between: a schedule is a text, and not a number",
}
passed = failed = 0


def count(is_right, what):
    """Counts a fact, and tells of it if it does not hold."""
    global passed, failed
    if is_right:
        passed += 1
    else:
        failed += 1
        print(f"FAILED: {what}")


def asked(db, query):
    """The first column of the rows, or what is wrong."""
    try:
        return [row[0] for row in db.execute(query)]
    except (sqlite3.Error, UnicodeDecodeError) as it:
        return str(it)


def equal(db, query, wanted):
    told = asked(db, query)
    count(told == wanted, f"{query} gives {told!r}, and not {wanted!r}")


def test_answers(db):
    for call, wanted in ANSWERS.items():
        equal(db, f"SELECT {call}", [wanted])
    for call, wanted in REFUSALS.items():
        if wanted:
            equal(db, f"SELECT {call}", wanted)
        else:
            # (a text that is no UTF-8, which Python cannot show)
            count(isinstance(asked(db, f"SELECT {call}"), str), f"{call} is no error")


def test_nulls(db):
    """NULL in any place gives NULL, whatever the others are, and no rows."""
    for name, places in SCALARS.items():
        for place in range(places):
            values = ["NULL" if it == place else "'wrong'" for it in range(places)]
            equal(db, f"SELECT {name}({', '.join(values)})", [None])
        for wrong in (places + 1, places - OPTIONAL.get(name, 0) - 1):
            told = asked(db, f"SELECT {name}({', '.join(['NULL'] * wrong)})")
            count(told == f"wrong number of arguments to function {name}()", f"{name} takes {wrong} arguments: {told}")
    for place in range(3):
        values = ", ".join("NULL" if it == place else "'wrong'" for it in range(3))
        equal(db, f"SELECT * FROM days_of({values})", [])
        equal(db, f"SELECT * FROM due_between({values})", [])
        equal(db, f"SELECT * FROM rule_dates({values})", [])
        equal(db, f"SELECT * FROM holidays_of({values})", [])


def test_tables(db):
    for query, wanted in TABLES.items():
        equal(db, query, wanted)
    for call, wanted in TABLE_REFUSALS.items():
        equal(db, f"SELECT * FROM {call}", wanted)


def test_uses(db, old):
    """No name is one of SQLite's. Indexes and views take the functions, in a schema that is not trusted too."""
    new = {it: flags for it, flags in db.execute("SELECT name, flags FROM pragma_function_list") if it in SCALARS}
    for name in SCALARS:
        count(name not in old and name in new, f"{name} is SQLite's own, or not there")
        # 0x800 is for deterministic functions, 0x200000 for innocuous ones
        count(new.get(name, 0) & 0x200800 == 0x200800, f"{name} has the flags {new.get(name)}")
    db.execute("PRAGMA trusted_schema = OFF")
    db.execute("CREATE TABLE people(born TEXT, week INT AS (iso_week(born)))")
    db.execute("CREATE TABLE visits(day TEXT CHECK (is_date(day)))")
    db.execute("CREATE INDEX by_weekday ON people(weekday(born))")
    db.execute("CREATE VIEW days AS SELECT day FROM days_of('2024-02-28', '2024-03-01')")
    db.execute("INSERT INTO people VALUES ('2000-02-29')")
    equal(db, "SELECT week FROM people WHERE weekday(born) = 2", [9])
    equal(db, "SELECT count(*) FROM days", [3])
    equal(db, "INSERT INTO visits VALUES ('2001-02-29')", "CHECK constraint failed: is_date(day)")
    equal(db, "INSERT INTO people VALUES ('2001-02-29')", "iso_week: '2001-02-29' is no date: byte 8: the month has 28 days")
    # (holidays that are constant, and others)
    db.execute("CREATE TABLE closed(day TEXT, list TEXT)")
    db.executemany("INSERT INTO closed VALUES ('2024-03-28', ?)", [("2024-03-29",), ("",), ("2024-04-01,2024-03-29",)])
    equal(db, "SELECT add_open_days(day, 1, list) FROM closed", ["2024-04-01", "2024-03-29", "2024-04-02"])
    equal(db, "SELECT add_open_days(day, 1, '2024-03-29') FROM closed", ["2024-04-01", "2024-04-01", "2024-04-01"])
    equal(db, "SELECT roll(day, 'following', '2024-03-28', substr('674', 1, 2 + length(list) / 20)) FROM closed", ["2024-03-29"] * 3)
    equal(db, "SELECT open_days(day, '2024-04-08', (SELECT group_concat(list) FROM closed)) FROM closed", [5, 5, 5])
    # (rows that holidays_of gives, with their years in front)
    db.execute("CREATE TABLE target AS SELECT day FROM holidays_of('target', 2024, 2026)")
    years = "(SELECT '2024..2026 ' || group_concat(day) FROM target)"
    equal(db, f"SELECT add_open_days(day, 2, {years}) FROM closed", ["2024-04-03"] * 3)
    equal(db, f"SELECT add_open_days('2026-12-30', 2, {years})", f"add_open_days: {KNOWN}")
    equal(db, "SELECT add_open_days('2026-12-30', 1 + (rowid = 3), 'target 2024..2026') FROM closed", f"add_open_days: {KNOWN}")
    # (the schedule differs from row to row, and is constant in the second query)
    db.execute("CREATE TABLE jobs(s TEXT, m TEXT)")
    db.executemany("INSERT INTO jobs VALUES (?, ?)", [("@daily", "2024-01-01"), ("@yearly", "2024-01-01"), ("@daily", "2024-01-02")])
    equal(db, "SELECT next_due(s, m) FROM jobs", ["2024-01-02 00:00:00", "2025-01-01 00:00:00", "2024-01-03 00:00:00"])
    equal(db, "SELECT next_due('@daily', m) FROM jobs", ["2024-01-02 00:00:00", "2024-01-02 00:00:00", "2024-01-03 00:00:00"])


def test_encoding(path):
    """A database whose texts are UTF-16."""
    db = loaded(path, "PRAGMA encoding = 'UTF-16le'")
    db.execute("CREATE TABLE days AS SELECT '2024-02-29' AS day")
    equal(db, "SELECT add_months(day, 12) FROM days", ["2025-02-28"])
    equal(db, "SELECT weekday('é')", "weekday: 'é' is no date: byte 0: not of this form")


def loaded(path, first="SELECT 1"):
    """A new database in memory, with the extension."""
    db = sqlite3.connect(":memory:")
    db.execute(first)
    db.enable_load_extension(True)
    db.load_extension(path)
    db.enable_load_extension(False)
    return db


def main():
    old = {row[0] for row in sqlite3.connect(":memory:").execute("SELECT name FROM pragma_function_list")}
    db = loaded(sys.argv[1])
    test_answers(db)
    test_nulls(db)
    test_tables(db)
    test_uses(db, old)
    test_encoding(sys.argv[1])
    print(f"{passed} passed, {failed} failed")
    return 1 if failed else 0


if __name__ == "__main__":
    sys.exit(main())
