#!/usr/bin/env python3
"""Compares the eight given calendars with QuantLib 1.29, and those of Germany, France and Japan with python3-holidays 0.10.1.

    python3 -m checks.layers.given_calendars

The holidays are those that checks/layers/business.py writes a second time, and to which it holds the library. Each calendar is compared on
the workdays from its first year to 2040. A difference fails unless it is listed here with its reason, and so does a reason that no
day needs. Both packages are Debian's: quantlib-python and python3-holidays. A part is not run where its package is missing.
"""
import datetime
import importlib.util
import os
import sys

from checks.layers.business import GIVEN, easter

from debian import PYTHON

Date = datetime.date
LAST_YEAR = 2040
LAENDER = ("BW", "BY", "BE", "BB", "HB", "HH", "HE", "MV", "NI", "NW", "RP", "SL", "SN", "ST", "SH", "TH")
MOVED_FOR_THE_GAMES = (Date(2021, 7, 22), Date(2021, 7, 23), Date(2021, 8, 9))
LEFT_FOR_THE_GAMES = (Date(2021, 7, 19), Date(2021, 8, 11), Date(2021, 10, 11))
BEFORE_ITS_LAW = (Date(1983, 1, 17), Date(1984, 1, 16), Date(1985, 1, 21))


def after_easter(*days):
    """Whether a date lies so many days after Easter."""
    return lambda it: it.toordinal() - easter(it.year) in days


def on(month, day):
    """Whether a date is of a month and a day of it."""
    return lambda it: (it.month, it.day) == (month, day)


# The decided differences from QuantLib: the calendar, who has the day as a holiday, which days, and why.
DECIDED = [
    ("us_federal", "ours", lambda it: it == Date(2021, 6, 18), "Juneteenth became law on 17 June 2021; QuantLib begins with 2022"),
    ("us_federal", "theirs", lambda it: it in BEFORE_ITS_LAW, "King's birthday is a holiday from 1986 on (Public Law 98-144)"),
    ("england", "ours", lambda it: it == Date(1981, 7, 29), "the wedding of the Prince of Wales, by royal proclamation"),
    ("fedwire", "theirs", lambda it: it in BEFORE_ITS_LAW, "King's birthday is a holiday from 1986 on (Public Law 98-144)"),
    ("fedwire", "theirs", on(6, 18), "Juneteenth on a Saturday: the Federal Reserve Banks stay open on Friday, as on other holidays"),
    ("nyse", "ours", lambda it: it == Date(2025, 1, 9), "mourning for President Carter, after QuantLib 1.29"),
    ("germany", "ours", lambda it: it == Date(2017, 10, 31), "all Länder had Reformation Day in 2017"),
    ("germany", "theirs", after_easter(60), "some Länder alone have Corpus Christi"),
    ("germany", "theirs", on(12, 24), "banks close on Christmas Eve, which no Land has as a holiday"),
    ("france", "ours", after_easter(39, 50), "Ascension Day and Whit Monday, which QuantLib has on 10 and 21 May of each year"),
    ("france", "theirs", lambda it: on(5, 10)(it) or on(5, 21)(it), "10 and 21 May, the days of one year"),
]

# Those from python3-holidays.
DECIDED_BY_HOLIDAYS = [
    ("japan", "ours", lambda it: (it.month, it.day) in ((12, 31), (1, 2), (1, 3)), "banks are closed, on days that are no national holidays"),
    ("japan", "ours", lambda it: it in MOVED_FOR_THE_GAMES, "holidays of 2021 that were moved for the Olympic Games (Act No. 68 of 2020)"),
    ("japan", "theirs", lambda it: it in LEFT_FOR_THE_GAMES, "the days from which they were moved"),
    ("japan", "ours", on(2, 24), "the Emperor's Birthday on a Sunday is kept on Monday (article 3(2)); python3-holidays has this in 2020 alone"),
]


def workdays(dates, first):
    """The dates from Monday to Friday from a year on."""
    return {it for it in dates if it.weekday() < 5 and first <= it.year <= LAST_YEAR}


def ours_of(name):
    """The holidays of a given calendar; those of the year after the last too, since a day can be kept in the year before."""
    of, first = GIVEN[name]
    return workdays((it for year in range(first, LAST_YEAR + 2) for it in of(year)), first)


def of_quantlib():
    """The holidays of each calendar by QuantLib."""
    import QuantLib as quantlib

    states, kingdom = quantlib.UnitedStates, quantlib.UnitedKingdom
    calendars = {
        "us_federal": states(states.Settlement), "target": quantlib.TARGET(), "england": kingdom(kingdom.Settlement),
        "fedwire": states(states.FederalReserve), "nyse": states(states.NYSE),
        "germany": quantlib.Germany(quantlib.Germany.Settlement), "france": quantlib.France(quantlib.France.Settlement),
        "japan": quantlib.Japan(),
    }
    for name, calendar in calendars.items():
        first = GIVEN[name][1]
        days = calendar.holidayList(quantlib.Date(1, 1, first), quantlib.Date(31, 12, LAST_YEAR), False)
        yield name, workdays((Date(it.year(), it.month(), it.dayOfMonth()) for it in days), first)


def of_holidays():
    """The holidays of Germany, which are those of each Land, of France and of Japan by python3-holidays."""
    import holidays

    first = GIVEN["germany"][1]
    years = range(first, LAST_YEAR + 1)
    yield "germany", workdays(set.intersection(*(set(holidays.Germany(prov=it, years=years)) for it in LAENDER)), first)
    for name, country in (("france", holidays.France), ("japan", holidays.Japan)):
        first = GIVEN[name][1]
        yield name, workdays(country(years=range(first, LAST_YEAR + 1)), first)


def undecided(name, differences, decided):
    """The differences of a calendar that have no reason, and the reasons that no difference has."""
    left, unused = set(differences), []
    for of, whose, is_meant, why in decided:
        meant = {it for it in differences if of == name and it[0] == whose and is_meant(it[1])}
        if of == name and not meant:
            unused.append(why)
        left -= meant
    return sorted(left), unused


def compare(peer, calendars, decided):
    """Compares the calendars of a peer; how many are as expected, and how many are not."""
    passed = failed = 0
    for name, theirs in calendars:
        ours = ours_of(name)
        differences = {*(("ours", it) for it in ours - theirs), *(("theirs", it) for it in theirs - ours)}
        left, unused = undecided(name, differences, decided)
        print(f"{name}: {len(ours)} holidays, {len(differences)} decided otherwise than by {peer}")
        for whose, it in left:
            print(f"  undecided: {it} is {whose} alone")
        for why in unused:
            print(f"  no day differs for this reason: {why}")
        passed, failed = passed + (not left and not unused), failed + bool(left or unused)
    return passed, failed


def main():
    if importlib.util.find_spec("QuantLib") is None and sys.executable != PYTHON and os.path.exists(PYTHON):
        os.execv(PYTHON, [PYTHON, *sys.orig_argv[1:]])
    passed = failed = 0
    for module, package, calendars, decided in (
        ("QuantLib", "quantlib-python", of_quantlib, DECIDED), ("holidays", "python3-holidays", of_holidays, DECIDED_BY_HOLIDAYS),
    ):
        if importlib.util.find_spec(module) is None:
            print(f"not run: the calendars of {module}, since there is no {package}")
            continue
        good, bad = compare(module, calendars(), decided)
        passed, failed = passed + good, failed + bad
    print(f"{passed} passed, {failed} failed")
    return 1 if failed else 0


if __name__ == "__main__":
    sys.exit(main())
