#!/usr/bin/env python3
"""Holds chrono_cron to a second reading of schedules, which tries days and minutes one after another.

    python3 -m checks.layers.cron [--rows N] [--seed N]      (20,000 generated rows, and ten times as many texts of fields and of schedules, from seed 1, if left out)
    python3 -m checks.layers.cron --write                    (its rows in crates/rows_layers/stdin made again)

A schedule is read here from its text of five fields, and a moment is due by the definition: its month, its hour and its minute are
listed, and so are its day of the month and its weekday, or one of these where neither text begins with `*`. A schedule whose minutes or hours begin
with `*` follows the clock, which its row and its written text have to keep. Days that a field names by
the month's end, its workdays or its weeks (`L`, `L-3`, `LW`, `15W`, `5L`, `5#2`) are picked from a list of the month's days. The next due moment is
found by trying each day from the start's on, and each minute of a day that passes, to the end of the calendar; a schedule of which
no day passes in 400 years, in which days and weekdays come again, is never due. Calendar dates are those of checks/shared/counted.py.

The rows of schedules in crates/rows_layers/stdin are held to it, some answers that are written out, and generated ones: schedules with wide and with narrow fields, starts at
both ends of the calendar, in leap seconds, at due moments and beside them; and for twelve schedules the next moment after every minute of
a year, and all that the iterator gives, held to the minutes of a year that are due by the definition.

Texts of fields, and texts near to these, are read here by a grammar of its own, which spells each number of the field, and the sets are held to those that
`read_field` reads. Whole texts, those of crontab(5)'s manual page among them, and texts that differ from right ones by a byte changed, put in or left out, are
read here and by `read_schedule`. The text of a schedule is written here a second time; each that tells its schedule is read back here, by a reader of whole texts with
names, nicknames and named days, and has to give the same sets. What is told of a text that is none stands in a table: the field, the byte and the fault.
"""
import argparse
import functools
import os
import random
import re
import sys
from datetime import date as Date

from checks.shared.counted import FIRST_DAY, LAST_DAY, day_of, name_of, weekday_of
from checks.shared.row_programs import NO_PROGRAM, PROGRAM, STDIN, failed_rows, standing_rows, write_rows

FIELDS = ((0, 59), (0, 23), (1, 31), (1, 12), (0, 7))
CYCLE = 146_097
MONTHS = "jan feb mar apr may jun jul aug sep oct nov dec".split()
WEEKDAYS = "sun mon tue wed thu fri sat".split()
# The names of a field's numbers, and the number of the first.
NAMES = {"numbers": ([], 0), "months": (MONTHS, 1), "weekdays": (WEEKDAYS, 0)}
FIELD_NAMES = ("numbers", "numbers", "numbers", "months", "weekdays")
NICKNAMES = {"@yearly": "0 0 1 1 *", "@annually": "0 0 1 1 *", "@monthly": "0 0 1 * *", "@weekly": "0 0 * * 0"}
NICKNAMES |= {"@daily": "0 0 * * *", "@midnight": "0 0 * * *", "@hourly": "0 * * * *"}

# Texts of crontab(5)'s manual page, and days that are rare, late or never.
KNOWN = (
    "5 0 * * *",
    "15 14 1 * *",
    "0 22 * * 1-5",
    "23 0-23/2 * * *",
    "5 4 * * 0",
    "5 4 * * 7",
    "0 4 8-14 * *",
    "30 4 1,15 * 5",
    "* * * * *",
    "*/15 9-17 * * 1-5",
    "0 0 29 2 *",
    "0 0 29 2 1",
    "0 0 */2 * 1",
    "0 0 1-31/2 * 1",
    "0 0 30 2 *",
    "0 0 30 2 1",
    "0 0 31 4,6,9,11 *",
    "0 0 31 * *",
    "59 23 31 12 *",
    "0 0 1 1 *",
    "0 0 13 * 5",
    "7-59/13 3,21 28-31 2,3 2-6/2",
    "0 12 L * *",
    "30 6 L-3,L-27 * *",
    "0 0 LW * *",
    "15 9 15W * *",
    "0 0 1W,31W * *",
    "0 0 30W 2 *",
    "0 18 * * 5L",
    "0 0 * * 5#5",
    "0 0 * 2 1#5",
    "0 0 1,LW * 1#1,7L",
    "45 23 L * */2",
)
# Texts of single fields, by the place of the field: those of the manual page, and some that are none.
FIELD_TEXTS = (
    (0, "*/5 1-5,10-20/5 0-59 00 59 60 5, ,5 5-3 5/2 */0 */99 */100 005 -5 5- 1-2-3 * ** *,* +5 1,,2"),
    (1, "0-23/2 1,2,3 0-4,8-12 0-23 24 8-11 23-24"),
    (2, "8-14 1,15 0 31 32 1-31/2 */7 mon"),
    (3, "jan DEC jan-mar Jan,Jul 1-12/3 0 13 sun january j 1-mar jan-feb-mar */jan"),
    (4, "sun mon-fri MON,wed 5-7 fri-7 sat-sun fri-sun 7 8 0-7 1-5 tues */2 jan"),
)
# Schedules that are due seldom, of which 400 years are gone through: of the first, all leap days.
CYCLES = ("0 0 29 2 *", "0 0 29 2 1", "0 0 13 * 5", "59 23 31 12 *", "0 0 * 2 1#5", "0 0 LW 2 *")
YEARS = KNOWN[:1] + KNOWN[3:4] + KNOWN[7:11] + KNOWN[12:14] + KNOWN[17:19] + KNOWN[26:27] + KNOWN[31:32]
# Items that name days: of the field of days, and of that of weekdays.
NAMED = re.compile(r"L(?:-\d+)?|LW|\d+W|\dL|\d#\d")


def numbers_of(text, low, high):
    """The numbers that a field lists; a step is counted from the first of its range."""
    listed = set()
    for item in text.split(",") if text else ():
        span, _, step = item.partition("/")
        first, last = (low, high) if span == "*" else (int(it) for it in (span.split("-") * 2)[:2])
        listed |= set(range(first, last + 1, int(step or 1)))
    return listed


@functools.cache
def spellings(low, high, names):
    """Which number of a range each text spells: in one digit or two, or by its name in small letters."""
    listed, first = NAMES[names]
    found = {}
    for number in range(low, high + 1):
        found[str(number)] = found[f"{number:02}"] = number
        if first <= number < first + len(listed):
            found[listed[number - first]] = number
    return found


def item_numbers(item, low, high, names):
    """The numbers that an item of a field lists, or None if it is none: `*`, a number, a range, or steps through one of the last two kinds of span."""
    spelled = spellings(low, high, names)
    span, slash, step = item.partition("/")
    if slash and not (re.fullmatch("[0-9]{1,3}", step) and int(step)):
        return None
    if span == "*":
        first, last = low, high
    elif "-" in span:
        first, _, last = span.partition("-")
        first, last = spelled.get(first.lower(), high + 1), spelled.get(last.lower(), -1)
    else:
        first = last = spelled.get(span.lower(), -1) if not slash else -1
    if not low <= first <= last <= high:
        return None
    return {it for it in range(first, last + 1) if (it - first) % int(step or 1) == 0}


def field_numbers(text, low, high, names):
    """The numbers that a field lists, or None if its text is no field."""
    items = [item_numbers(it, low, high, names) for it in text.split(",")]
    return None if None in items else set().union(*items)


def named_number(item, place):
    """What an item of the field of days (2) or of weekdays (4) names, as the set it belongs to and a number there, or None."""
    small, days, weekdays = item.lower(), spellings(1, 31, "numbers"), spellings(0, 7, "weekdays")
    if place == 2:
        if small in ("l", "lw"):
            return ("ends", 0) if small == "l" else ("last", 0)
        if small[:2] == "l-" and small[2:] in spellings(1, 30, "numbers"):
            return "ends", int(small[2:])
        return ("nearest", days[small[:-1]]) if small[-1:] == "w" and small[:-1] in days else None
    if small[-1:] == "l" and small[:-1] in weekdays:
        return "lasts", weekdays[small[:-1]] % 7
    day, mark, nth = small.partition("#")
    if mark and day in weekdays and nth in spellings(1, 5, "numbers"):
        return "nths", 7 * (int(nth) - 1) + weekdays[day] % 7
    return None


def read_schedule(text):
    """The eleven numbers of the schedule that a text tells, as a row has them, or None if the text is none."""
    words = [it for it in re.split("[ \t]", text) if it]
    if len(words) == 1:
        words = NICKNAMES.get(words[0].lower(), words[0]).split(" ")
    if len(words) != 5:
        return None
    sets, named = [], {"ends": set(), "nearest": set(), "last": set(), "lasts": set(), "nths": set()}
    for place, word in enumerate(words):
        plain = []
        for item in word.split(","):
            found = named_number(item, place) if place in (2, 4) else None
            if found:
                named[found[0]].add(found[1])
            else:
                plain.append(item)
        numbers = [item_numbers(it, *FIELDS[place], FIELD_NAMES[place]) for it in plain]
        if None in numbers:
            return None
        sets.append(set().union(*numbers))
    sets[4] = {it % 7 for it in sets[4]}
    either = words[2][0] != "*" and words[4][0] != "*"
    follows = "*" in (words[0][0], words[1][0])
    return row_words(sets, named["ends"], named["nearest"], named["lasts"], named["nths"], bool(named["last"]), either, follows)


def row_words(sets, ends, nearest, lasts, nths, last, either, follows):
    """A schedule as the numbers of a row: each set as the number whose binary digits are its members, and 2 more where it follows the clock."""
    words = [str(sum(1 << it for it in numbers)) for numbers in (*sets, ends, nearest, lasts, nths)]
    return " ".join([*words, str(int(last)), str(int(either) + 2 * int(follows))])


def written(words):
    """The text of the schedule that the numbers of a row tell, as it is to be written."""
    *digits, last, marks = map(int, words.split())
    either, follows = marks & 1, marks & 2
    minutes, hours, days, months, weekdays, ends, nearest, lasts, nths = ([it for it in range(64) if number >> it & 1] for number in digits)
    full = [set(range(low, min(high, 6 if low == 0 and high == 7 else high) + 1)) <= set(it) for (low, high), it in zip(FIELDS, (minutes, hours, days, months, weekdays))]
    by_day, by_weekday = full[2], full[4]
    if not by_day and not by_weekday:
        by_day = 1 in days
        by_weekday = not by_day and 0 in weekdays
    by_hour = full[1] or not full[0] and 0 in hours
    by_minute = full[0] or not by_hour and 0 in minutes
    texts = []
    for place, (numbers, starred) in enumerate(((minutes, follows and by_minute), (hours, follows and by_hour), (days, by_day and not either), (months, full[3]), (weekdays, by_weekday and not either))):
        low, high = FIELDS[place] if place < 4 else (0, 6)
        items, numbers = [], [it for it in numbers if low <= it <= high]
        if starred:
            items = ["*" if full[place] else f"*/{high - low + 1}"]
        if items != ["*"]:
            begins = [it for it in numbers if it - 1 not in numbers]
            stops = [it for it in numbers if it + 1 not in numbers]
            items += [f"{first}" if first == stop else f"{first}-{stop}" for first, stop in zip(begins, stops)]
        if place == 2:
            items += ["L" if it == 0 else f"L-{it}" for it in ends if it < 31] + ["LW"] * last + [f"{it}W" for it in nearest if 1 <= it <= 31]
        if place == 4:
            items += [f"{it}L" for it in lasts if it < 7] + [f"{it % 7}#{it // 7 + 1}" for it in nths if it < 35]
        texts.append(",".join(items))
    return " ".join(texts)


def mutated(chosen, text):
    """A text that is near to another: bytes taken away, put in, doubled or turned, or two texts mixed."""
    text = list(text)
    for _ in range(chosen.choice((0, 1, 1, 1, 2, 3))):
        place = chosen.randrange(len(text) + 1)
        kind = chosen.randrange(4)
        if kind == 0:
            del text[place : place + 1]
        elif kind == 1:
            text.insert(place, chosen.choice("0123456789*-/,#LWljanfrisu@?~ "))
        elif kind == 2:
            text[place : place + 1] = chosen.choice(("*", "/", "-", ",", "0", "7", "31", "60", "00", "jan", "SUN", "L", "W"))
        elif text:
            turned = text[place % len(text)]
            text[place % len(text)] = turned.swapcase() if turned.isalpha() else chr(ord(turned) ^ 1)
    return "".join(text)


def field_row(place, text):
    low, high = FIELDS[place]
    numbers = field_numbers(text, low, high, FIELD_NAMES[place])
    answer = "none" if numbers is None else sum(1 << it for it in numbers)
    return f"field {low} {high} {FIELD_NAMES[place]} {text} = {answer}"


def field_rows(count, seed):
    """Rows of texts of fields and of texts near to these; of these the number that are fields."""
    chosen, rows, fields = random.Random(seed), [], 0
    while len(rows) < count:
        place = chosen.randrange(5)
        text = field_text(chosen, *FIELDS[place])
        if place > 2:
            listed, first = NAMES[FIELD_NAMES[place]]
            text = re.sub(r"(?<![/\d])\d+", lambda it: listed[int(it[0]) - first] if int(it[0]) < first + len(listed) and chosen.random() < 0.5 else it[0], text)
        text = mutated(chosen, text).replace(" ", "")
        rows.append(field_row(place, text))
        fields += not rows[-1].endswith("none")
    return rows, fields


def is_told(words):
    """Whether a text tells the schedule of a row: no field is empty, and a field can begin with `*` where one of two has to."""
    *digits, last, marks = map(int, words.split())
    either, follows = marks & 1, marks & 2
    minutes, hours, days, months, weekdays, ends, nearest, lasts, nths = digits
    some = minutes and hours and months and (days or ends or nearest or last) and (weekdays or lasts or nths)
    return bool(some and (either or days == 2**32 - 2 or days & 2 or weekdays & 1) and (not follows or minutes & 1 or hours & 1))


def text_rows(count, seed):
    """Rows of schedules and their texts: of schedules that texts tell, and of any sets. Each text that tells its schedule is read back here."""
    chosen, rows, back = random.Random(seed), [], 0
    while len(rows) < count:
        words = Schedule(schedule_text(chosen), False).words()
        if chosen.random() < 0.5:
            sets = [{it for it in range(low, min(high, 6 if high == 7 else high) + 1) if chosen.random() < wide} for (low, high), wide in zip(FIELDS, [chosen.choice((0.03, 0.3, 0.9, 1)) for _ in FIELDS])]
            named = [{it for it in range(first, last) if chosen.random() < rare} for (first, last), rare in zip(((0, 31), (1, 32), (0, 7), (0, 35)), [chosen.choice((0, 0, 0.1, 0.9)) for _ in range(4)])]
            words = row_words(sets, *named, chosen.random() < 0.3, chosen.random() < 0.5, chosen.random() < 0.5)
        text = written(words)
        if is_told(words):
            back += 1
            if read_schedule(text) != words:
                sys.exit(f"{text}: is read back as {read_schedule(text)}, and not as {words}")
        rows.append(f"text {words} = {text}")
    return rows, back


def month_of(day):
    """The days of a day's month, in order."""
    return range(day - name_of(day)[2] + 1, next(it for it in range(day + 1, day + 33) if name_of(it)[2] == 1))


def cron_weekday(day):
    """The weekday of a day, from 0 for Sunday."""
    return (weekday_of(day) + 1) % 7


def named_day(item, days):
    """The one of a month's days that an item names, or None."""
    workdays = [it for it in days if cron_weekday(it) not in (0, 6)]
    if item == "LW":
        return workdays[-1]
    if item[-1] == "W":
        place = int(item[:-1])
        return min(workdays, key=lambda it: abs(it - days[place - 1])) if place <= len(days) else None
    if item[0] == "L":
        before = int(item[2:] or 0)
        return days[-1 - before] if before < len(days) else None
    chosen = [it for it in days if cron_weekday(it) == int(item[0]) % 7]
    if item[1] == "L":
        return chosen[-1]
    return chosen[int(item[2]) - 1] if int(item[2]) <= len(chosen) else None


class Schedule:
    """A schedule by its text."""

    def __init__(self, text, whole=True):
        fields = text.split()
        self.named = [[it for it in fields[place].split(",") if NAMED.fullmatch(it)] for place in (2, 4)]
        self.months = {}
        fields = [",".join(it for it in field.split(",") if not NAMED.fullmatch(it)) for field in fields]
        self.sets = [numbers_of(it, *FIELDS[i]) for i, it in enumerate(fields)]
        self.sets[4] = {it % 7 for it in self.sets[4]}
        fields = text.split()
        self.either = not fields[2].startswith("*") and not fields[4].startswith("*")
        self.follows = fields[0].startswith("*") or fields[1].startswith("*")
        self.minutes = [it for it in range(1440) if it // 60 in self.sets[1] and it % 60 in self.sets[0]]
        self.is_never = whole and not any(self.is_day(it) for it in range(1, CYCLE + 1))

    def words(self):
        by_day, by_weekday = self.named
        ends = {int(it[2:] or 0) for it in by_day if it[0] == "L" and it != "LW"}
        nearest = {int(it[:-1]) for it in by_day if it[0] != "L"}
        lasts = {int(it[0]) % 7 for it in by_weekday if it[1] == "L"}
        nths = {7 * (int(it[2]) - 1) + int(it[0]) % 7 for it in by_weekday if it[1] == "#"}
        return row_words(self.sets, ends, nearest, lasts, nths, "LW" in by_day, self.either, self.follows)

    def named_in_month(self, day):
        """The days of a day's month that the items of each of the two fields name."""
        key = name_of(day)[:2]
        if key not in self.months:
            days = month_of(day)
            self.months[key] = [{named_day(it, days) for it in items} for items in self.named]
        return self.months[key]

    def is_day(self, day):
        _, month, of_month = name_of(day)
        by_day, by_weekday = of_month in self.sets[2], cron_weekday(day) in self.sets[4]
        if month in self.sets[3] and any(self.named):
            named = self.named_in_month(day)
            by_day, by_weekday = by_day or day in named[0], by_weekday or day in named[1]
        return month in self.sets[3] and (by_day or by_weekday if self.either else by_day and by_weekday)

    def is_due(self, day, second, fraction):
        return self.is_day(day) and second // 60 in self.minutes and second % 60 == 0 and fraction == 0

    def next(self, day, second, fraction):
        """The minutes from day 0 to the first due moment after a start, or None."""
        for later in range(day, day if self.is_never else LAST_DAY + 1):
            if self.is_day(later):
                for minute in self.minutes:
                    if (later, 60 * minute, 0) > (day, second, fraction):
                        return later * 1440 + minute
        return None

    def prev(self, day, second, fraction):
        """The minutes from day 0 to the last due moment before a start, or None."""
        for earlier in range(day, day if self.is_never else FIRST_DAY - 1, -1):
            if self.is_day(earlier):
                for minute in reversed(self.minutes):
                    if (earlier, 60 * minute, 0) < (day, second, fraction):
                        return earlier * 1440 + minute
        return None

    def year(self, day):
        """The sum of the next moments after each minute of 365 days, in 64 digits with a sign."""
        next_one, total = self.next(day + 364, 1439 * 60, 0), 0
        for minute in range((day + 365) * 1440 - 1, day * 1440 - 1, -1):
            total += next_one or 0
            if self.is_due(minute // 1440, minute % 1440 * 60, 0):
                next_one = minute
        return (total + 2**63) % 2**64 - 2**63

    def cycle(self, day, second, fraction):
        """The same as `dues` over 400 years."""
        return self.dues(day, second, fraction, CYCLE)

    def dues(self, day, second, fraction, days=365):
        """The due moments after a start up to so many days past its date, each added to 31 times what came before, in 64 digits with a sign."""
        total = 0
        for later in range(day, min(day + days, LAST_DAY) + 1):
            if self.is_day(later):
                for minute in self.minutes:
                    if (later, 60 * minute, 0) > (day, second, fraction):
                        total = (total * 31 + later * 1440 + minute) % 2**64
        return (total + 2**63) % 2**64 - 2**63


def field_text(chosen, low, high):
    """The text of a field: wide or narrow, of one item or of some."""
    kind = chosen.randrange(6)
    if kind == 0:
        return "*"
    if kind == 1:
        return f"*/{chosen.randint(1, high + 1)}"
    items = []
    for _ in range(chosen.choice((1, 1, 1, 2, 3))):
        first, last = sorted((chosen.randint(low, high), chosen.randint(low, high)))
        items.append(chosen.choice((f"{first}", f"{first}-{last}", f"{first}-{last}/{chosen.randint(1, 9)}")))
    return ",".join(items)


def named_item(chosen, place):
    """An item that names a day, in the field of days or in that of weekdays."""
    if place == 2:
        return chosen.choice(("L", f"L-{chosen.randint(0, 30)}", "LW", f"{chosen.randint(1, 31)}W", f"{chosen.choice((1, 2, 28, 30, 31))}W"))
    return chosen.choice((f"{chosen.randint(0, 7)}L", f"{chosen.randint(0, 7)}#{chosen.randint(1, 5)}"))


def schedule_text(chosen):
    if chosen.random() < 0.2:
        return chosen.choice(KNOWN)
    texts = [field_text(chosen, *it) for it in FIELDS]
    for place in range(5):
        if chosen.random() < 0.4:
            texts[place] = "*"
    for place in (2, 4):
        if chosen.random() < 0.3:
            named = [named_item(chosen, place) for _ in range(chosen.choice((1, 1, 2)))]
            kept = [texts[place]] if texts[place][0] != "*" and chosen.random() < 0.3 else []
            texts[place] = ",".join(kept + named)
    return " ".join(texts)


def start_of(chosen, schedule):
    """A start: any, at an end of the calendar, in a leap second, or at or beside a due moment."""
    day = chosen.choice((chosen.randint(730_000, 750_000), chosen.randint(FIRST_DAY, LAST_DAY)))
    if chosen.random() < 0.15:
        day = chosen.choice((FIRST_DAY, LAST_DAY)) + chosen.choice((-1, 1)) * chosen.randint(0, 800)
        day = min(max(day, FIRST_DAY), LAST_DAY)
    minute = chosen.choice(schedule.minutes or [0]) if chosen.random() < 0.5 else chosen.randrange(1440)
    second = 60 * minute + chosen.choice((0, 0, 0, 1, 59, chosen.randrange(60)))
    fraction = chosen.choice((0, 0, 1, 999_999_999))
    if second % 60 == 59 and chosen.random() < 0.5:
        fraction += 10**9
    return day, second, fraction


def row_of(call, schedule, start):
    if call in ("year", "walk"):
        answer = schedule.year(start[0])
    elif call == "due":
        answer = int(schedule.is_due(*start))
    elif call == "never":
        answer = int(schedule.is_never or not schedule.minutes)
    else:
        answer = getattr(schedule, call)(*start)
    words = " ".join(str(it) for it in start)
    return f"{call} {schedule.words()} {words} = {'none' if answer is None else answer}"


def generated(count, seed):
    """Rows of chosen schedules, some starts for each; of these the number with days that are named."""
    chosen, rows, named = random.Random(seed), [], 0
    while len(rows) < count:
        schedule = Schedule(schedule_text(chosen))
        named += 5 * any(schedule.named)
        for _ in range(5):
            start = start_of(chosen, schedule)
            rows.append(row_of(chosen.choice(("next", "next", "prev", "prev", "due", "never")), schedule, start))
    return rows, named


def known():
    """The rows that stand in the repository: the known schedules from starts that say most."""
    starts = [(day_of(2024, 2, 28), 86_399, 1_500_000_000), (day_of(2096, 2, 29), 0, 0), (day_of(2023, 12, 31), 86_340, 0)]
    starts += [(FIRST_DAY, 0, 0), (FIRST_DAY, 0, 1), (LAST_DAY, 86_340, 0), (LAST_DAY, 86_399, 1_999_999_999)]
    starts += [(day_of(2024, 2, 9), 16_199, 999_999_000), (day_of(2024, 2, 9), 16_200, 0), (day_of(2024, 2, 9), 16_200, 1)]
    schedules = [Schedule(it) for it in KNOWN]
    rows = [row_of(call, schedule, start) for schedule in schedules for start in starts for call in ("next", "prev", "due")]
    rows += [row_of("never", schedule, starts[0]) for schedule in schedules]
    rows += [field_row(place, text) for place, texts in FIELD_TEXTS for text in texts.split(" ")]
    rows += [f"text {schedule.words()} = {written(schedule.words())}" for schedule in schedules]
    rows += [*read_rows(), *error_rows()]
    # The iterator from the ends of the calendar and from within it: past the last due moment it has to have ended.
    return rows + [row_of("dues", schedule, start) for schedule in schedules for start in starts[:1] + starts[3:8]]


# Answers written out, so that a change of the reading above is seen: a call, a schedule, a start and the moment that is answered.
WRITTEN_OUT = """\
next | 0 0 29 2 * | 2096-02-29 00:00:00.0 | 2104-02-29 00:00
prev | 0 0 29 2 * | 2096-02-29 00:00:00.0 | 2092-02-29 00:00
next | 30 4 1,15 * 5 | 2024-02-09 04:29:59.999999999 | 2024-02-09 04:30
next | 30 4 1,15 * 5 | 2024-02-09 04:30:00.0 | 2024-02-15 04:30
prev | 30 4 1,15 * 5 | 2024-02-09 04:30:00.0 | 2024-02-02 04:30
next | 0 0 */2 * 1 | 2024-03-01 00:00:00.0 | 2024-03-11 00:00
prev | 0 0 */2 * 1 | 2024-03-01 00:00:00.0 | 2024-02-19 00:00
next | 0 0 1-31/2 * 1 | 2024-03-01 00:00:00.0 | 2024-03-03 00:00
next | 0 0 13 * 5 | 2024-09-01 00:00:00.0 | 2024-09-06 00:00
next | 0 0 * * 7 | 2024-02-29 00:00:00.0 | 2024-03-03 00:00
next | 0 0 30 2 1 | 2024-01-31 00:00:00.0 | 2024-02-05 00:00
prev | 0 0 30 2 1 | 2024-01-31 00:00:00.0 | 2023-02-27 00:00
next | 0 0 30 2 * | 2024-01-01 00:00:00.0 | none
prev | 0 0 30 2 * | 2024-01-01 00:00:00.0 | none
next | 59 23 31 12 * | 2024-12-31 23:58:59.0 | 2024-12-31 23:59
next | 59 23 31 12 * | 2024-12-31 23:59:00.0 | 2025-12-31 23:59
next | 0 0 1 1 * | 2016-12-31 23:59:59.1500000000 | 2017-01-01 00:00
next | 0 12 L * * | 2024-05-30 12:00:00.0 | 2024-05-31 12:00
prev | 0 0 L-3 * * | 2024-03-01 00:00:00.0 | 2024-02-26 00:00
next | 0 0 LW * * | 2024-03-01 00:00:00.0 | 2024-03-29 00:00
next | 0 0 LW * * | 2024-03-29 00:00:00.0 | 2024-04-30 00:00
next | 0 0 1W * * | 2024-06-01 00:00:00.0 | 2024-06-03 00:00
next | 0 0 15W * * | 2024-06-01 00:00:00.0 | 2024-06-14 00:00
next | 0 0 15W * * | 2024-09-01 00:00:00.0 | 2024-09-16 00:00
prev | 0 0 31W * * | 2024-04-01 00:00:00.0 | 2024-03-29 00:00
next | 0 0 31W * * | 2024-04-01 00:00:00.0 | 2024-05-31 00:00
next | 0 0 30W 2 * | 2024-01-01 00:00:00.0 | none
next | 0 0 * * 5L | 2024-02-01 00:00:00.0 | 2024-02-23 00:00
next | 0 0 * * 5#5 | 2024-02-23 00:00:00.0 | 2024-03-29 00:00
next | 0 0 * 2 1#5 | 2024-03-01 00:00:00.0 | 2044-02-29 00:00
next | 0 0 1,LW * 1#1,7L | 2024-06-01 00:00:00.0 | 2024-06-03 00:00"""


def written_out():
    """The rows of these answers."""
    for line in WRITTEN_OUT.splitlines():
        call, text, start, answer = line.split(" | ")
        date, clock = start.split()
        (hour, minute, second), fraction = map(int, clock.partition(".")[0].split(":")), clock.partition(".")[2]
        if answer != "none":
            day, at = answer.split()
            answer = Date.fromisoformat(day).toordinal() * 1440 + int(at[:2]) * 60 + int(at[3:])
        start = f"{Date.fromisoformat(date).toordinal()} {hour * 3600 + minute * 60 + second} {int(fraction)}"
        yield f"{call} {Schedule(text).words()} {start} = {answer}"


# Texts written out with the text that their schedule is written as, or `none`.
READ_OUT = """\
@hourly | 0 * * * *
@yearly | 0 0 1 1 *
@weekly | 0 0 * * 0
@DAILY | 0 0 * * *
@reboot | none
*/120 5-20/100 * * * | */60,0 5 * * *
*/1000 * * * * | none
*/15 9-17 * jan,MAR mon-fri | */60,0,15,30,45 9-17 * 1,3 1-5
0 */6 * * * | 0 */24,0,6,12,18 * * *
0-59 0-23 * * * | 0-59 0-23 * * *
0-59 */1 * * * | * * * * *
5 4 * * sun | 5 4 * * 0
5 4 * * fri-7 | 5 4 * * 0,5-6
0 0 */2 * 1 | 0 0 */31,1,3,5,7,9,11,13,15,17,19,21,23,25,27,29,31 * 1
0 0 1-7 * */7 | 0 0 */31,1-7 * 0
0 0 1-31 * 1 | 0 0 1-31 * 1
30 6 l,3,lw,15w,L-3 * 5L,fri#2 | 30 6 3,L,L-3,LW,15W * 5L,5#2
0 0 L-31 * * | none
0 0 * * 1#6 | none
0 0 * * | none
0 0 * * * * | none
60 0 * * * | none
0 0 * * fri-mon | none
0 0 ? * * | none"""


# Whole texts with a start and the next moments that are due after it, by what the manual page says that they mean, or by a calendar: all its examples, its
# nicknames, names in either case, both numbers of Sunday, and days that are named.
DUE_OUT = """\
5 0 * * * | 2024-02-28 00:05 | 2024-02-29 00:05, 2024-03-01 00:05
15 14 1 * * | 2024-02-01 14:15 | 2024-03-01 14:15, 2024-04-01 14:15
0 22 * * 1-5 | 2024-03-01 22:00 | 2024-03-04 22:00, 2024-03-05 22:00
23 0-23/2 * * * | 2024-02-28 22:22 | 2024-02-28 22:23, 2024-02-29 00:23, 2024-02-29 02:23
5 4 * * sun | 2024-02-25 04:05 | 2024-03-03 04:05, 2024-03-10 04:05
0 */4 1 * mon | 2024-02-29 12:00 | 2024-03-01 00:00, 2024-03-01 04:00
0 */4 1 * mon | 2024-03-01 16:00 | 2024-03-01 20:00, 2024-03-04 00:00, 2024-03-04 04:00
0 0 */2 * sun | 2024-03-01 00:00 | 2024-03-03 00:00, 2024-03-17 00:00, 2024-03-31 00:00
0 4 8-14 * * | 2024-03-13 04:00 | 2024-03-14 04:00, 2024-04-08 04:00
30 4 1,15 * 5 | 2024-03-01 04:30 | 2024-03-08 04:30, 2024-03-15 04:30, 2024-03-22 04:30
30 4 1,15 * 5 | 2024-06-28 04:30 | 2024-07-01 04:30, 2024-07-05 04:30
@yearly | 2024-02-28 23:59 | 2025-01-01 00:00, 2026-01-01 00:00
@annually | 2024-02-28 23:59 | 2025-01-01 00:00, 2026-01-01 00:00
@monthly | 2024-02-28 23:59 | 2024-03-01 00:00, 2024-04-01 00:00
@weekly | 2024-02-28 23:59 | 2024-03-03 00:00, 2024-03-10 00:00
@daily | 2024-02-28 23:59 | 2024-02-29 00:00, 2024-03-01 00:00
@midnight | 2024-02-28 23:59 | 2024-02-29 00:00, 2024-03-01 00:00
@hourly | 2024-02-28 22:59 | 2024-02-28 23:00, 2024-02-29 00:00, 2024-02-29 01:00
0 1,2,5,9 * * * | 2024-02-28 05:00 | 2024-02-28 09:00, 2024-02-29 01:00, 2024-02-29 02:00
0 0-4,8-12 * * * | 2024-02-28 03:00 | 2024-02-28 04:00, 2024-02-28 08:00, 2024-02-28 09:00
0 8-11 * * * | 2024-02-28 10:00 | 2024-02-28 11:00, 2024-02-29 08:00
0 0-23/2 * * * | 2024-02-28 20:00 | 2024-02-28 22:00, 2024-02-29 00:00
0 */2 * * * | 2024-02-28 20:00 | 2024-02-28 22:00, 2024-02-29 00:00
0 0,2,4,6,8,10,12,14,16,18,20,22 * * * | 2024-02-28 20:00 | 2024-02-28 22:00, 2024-02-29 00:00
1-9/2 * * * * | 2024-02-28 23:06 | 2024-02-28 23:07, 2024-02-28 23:09, 2024-02-29 00:01
0 0 1 JAN,jul * | 2024-02-28 23:59 | 2024-07-01 00:00, 2025-01-01 00:00
0 0 1 Nov-dec * | 2024-02-28 23:59 | 2024-11-01 00:00, 2024-12-01 00:00, 2025-11-01 00:00
0 12 * * mON-Fri | 2024-02-29 12:00 | 2024-03-01 12:00, 2024-03-04 12:00
0 0 * * 0 | 2024-02-28 23:59 | 2024-03-03 00:00, 2024-03-10 00:00
0 0 * * 7 | 2024-02-28 23:59 | 2024-03-03 00:00, 2024-03-10 00:00
0 0 * * 5-7 | 2024-02-28 23:59 | 2024-03-01 00:00, 2024-03-02 00:00, 2024-03-03 00:00, 2024-03-08 00:00
0 0 L * * | 2024-02-01 00:00 | 2024-02-29 00:00, 2024-03-31 00:00
0 0 L-3 * * | 2024-02-01 00:00 | 2024-02-26 00:00, 2024-03-28 00:00
0 0 LW * * | 2024-03-01 00:00 | 2024-03-29 00:00, 2024-04-30 00:00
0 0 15W * * | 2024-06-01 00:00 | 2024-06-14 00:00, 2024-07-15 00:00, 2024-08-15 00:00
0 0 * * 5L | 2024-02-01 00:00 | 2024-02-23 00:00, 2024-03-29 00:00
0 0 * * 5#2 | 2024-02-01 00:00 | 2024-02-09 00:00, 2024-03-08 00:00
0 0 lw * FRIl | 2024-04-01 00:00 | 2024-04-26 00:00, 2024-04-30 00:00
\t  0\t0 1,15w,l  * * | 2024-06-01 00:00 | 2024-06-14 00:00, 2024-06-30 00:00, 2024-07-01 00:00"""

# Whole texts that are none: no time to tell, a nickname in other case, too few fields and too many, numbers past a field's range, ranges backwards, steps
# behind a number, empty items, names in the wrong field or too long, and days that no month names.
NONE_OUT = """@reboot;;@Dayly;@;@daily 0;;@every 5m;TZ=UTC 0 0 * * *;  ;*;* * * *;* * * * * *;0 0 * * * # daily;60 * * * *;* 24 * * *;* * 0 * *;* * 32 * *;* * * 0 *;* * * 13 *;* * * * 8\
;*/0 * * * *;*/1000 * * * *;*/000 * * * *;*/0x1 * * * *;*/10x * * * *;*/x10 * * * *;5/2 * * * *;5-3 * * * *;0-60 * * * *;1,,2 * * * *;1, * * * *;,1 * * * *;1- * * * *;-1 * * * *;+1 * * * *;1.5 * * * *;005 * * * *\
;** * * * *;~ * * * *;* * ? * *;* * * feb-jan *;* * * january *;* * * mon *;* * mon * *;* * * * jan;* * * * sunday;* * * * sat-sun;mon * * * *;* L * * *;L * * * *\
;* * L-0 * *;* * L-31 * *;* * L- * *;* * L/2 * *;* * 0W * *;* * 32W * *;* * W * *;* * WL * *;* * 1-5W * *;* * 5L * *;* * 5#2 * *;* * * L *;* * * * L;* * * * LW\
;* * * * 8L;* * * * 5#0;* * * * 5#6;* * * * #2;* * * * 5#;* * * * 5W;* * * * 1-5L;0 0 * * 0,""".split(";")


def minutes_from(text):
    """The minutes from day 0 to a moment that is written out."""
    date, clock = text.split()
    return Date.fromisoformat(date).toordinal() * 1440 + int(clock[:2]) * 60 + int(clock[3:])


def due_out():
    """The texts that are written out, each with the minutes to its start and to the moments behind it."""
    for line in DUE_OUT.splitlines():
        text, start, dues = line.split(" | ")
        yield text, minutes_from(start), [minutes_from(it) for it in dues.split(", ")]


def read_rows():
    """The rows of whole texts that stand in the repository."""
    for text, start, dues in due_out():
        yield f"dues_of {start // 1440} {start % 1440 * 60} 0 {text} = {' '.join(map(str, dues))}"
    texts = [*KNOWN, *dict.fromkeys(it for it, _, _ in due_out()), *(it.split(" | ")[0] for it in READ_OUT.splitlines())]
    for text in dict.fromkeys(texts + NONE_OUT):
        yield read_row(text)


def read_row(text):
    return f"read {text} = {read_schedule(text) or 'none'}"


def near_rows(count, seed):
    """Rows of whole texts, each of a right one with a byte changed, put in or left out; of these the number that are right."""
    chosen, rows, right = random.Random(seed), [], 0
    others = [chr(it) for it in range(32, 127)] + list("\t\v\f\0\x1f\x7f\xe9")
    likely = list("0123456789*-/,#@LWlwjanfrisu \t")
    while len(rows) < count:
        words = (chosen.choice(RIGHT) if chosen.random() < 0.2 else schedule_text(chosen)).split(" ")
        for place, first in ((3, 1), (4, 0)):
            if len(words) == 5 and chosen.random() < 0.5:
                words[place] = named_numbers(chosen, words[place], NAMES[FIELD_NAMES[place]][0], first)
        text = chosen.choice((" ", " ", " ", "  ", "\t")).join(words)
        place, byte = chosen.randrange(len(text) + 1), chosen.choice(chosen.choice((likely, others)))
        kind = chosen.randrange(3)
        text = text[:place] + byte * (kind < 2) + text[place + (kind != 1) :]
        rows.append(read_row(text))
        right += not rows[-1].endswith("= none")
    return rows, right


def named_numbers(chosen, text, names, first):
    """A field in which some numbers are written as names, and some of these in other case."""
    case = chosen.choice((str.lower, str.upper, str.title))
    some = lambda it: case(names[int(it[0]) - first]) if 0 <= int(it[0]) - first < len(names) and chosen.random() < 0.5 else it[0]
    return re.sub(r"(?<![/\d#])\d+(?!\d)", some, text)


def are_due_out():
    """Whether the reader here reads these texts so, and those that are none."""
    for text, start, dues in due_out():
        schedule, found = Schedule(written(read_schedule(text))), []
        while len(found) < len(dues):
            start = schedule.next(start // 1440, start % 1440 * 60, 0)
            found.append(start)
        if found != dues:
            print(f"{text}: is due at {found}, and not at {dues}")
            return False
    return not any(read_schedule(it) for it in NONE_OUT)


# Right texts that near misses begin with, beside those that are made.
RIGHT = [*NICKNAMES, *KNOWN, *dict.fromkeys(it for it, _, _ in due_out())]


# Texts that are no schedule's, each with the field, the byte and the fault that are told of it, and right ones, with `none`.
ERROR_OUT = """\
 | none 0 empty
  \t | none 3 empty
@reboot | none 0 reboot
 @REBOOT 5 | none 1 reboot
 @Dayly | none 1 nickname
@daily 0 | none 8 few
* | none 1 few
* * * * | none 7 few
* * * *\t | none 8 few
* * * * * * | none 10 many
0 0 * * *  # daily | none 11 many
60 * * * * | minute 0 range
 5 24 * * * | hour 3 range
* * 0 * * | day 4 range
* * 1,32 * * | day 6 range
* * * 13 * | month 6 range
* * * 1-13 * | month 8 range
* * * * 8 | weekday 8 range
61 24 32 13 8 | minute 0 range
0\t24 32 13 8 | hour 2 range
0  0  32 13 8 | day 6 range
0 0 1 13 8 | month 6 range
*/0 * * * * | minute 2 zero
0,0-30/00 * * * * | minute 7 zero
*/100 * * * * | none
*/000 * * * * | minute 2 zero
*/1000 * * * * | minute 2 range
*/12x * * * * | minute 2 number
*/ * * * * | minute 2 empty
* */x * * * | hour 4 name
*/2/3 * * * * | minute 2 number
5/2 * * * * | minute 1 step
* * * jan/2 * | month 9 step
60/2 * * * * | minute 0 range
5-3 * * * * | minute 2 turned
5-3/2 * * * * | minute 2 turned
5-60/2 * * * * | minute 2 range
60-70 * * * * | minute 0 range
1-2-3 * * * * | minute 2 number
1- * * * * | minute 2 empty
-1 * * * * | minute 0 empty
1,,2 * * * * | minute 2 empty
1, * * * * | minute 2 empty
, * * * * | minute 0 empty
+1 * * * * | minute 0 number
005 * * * * | minute 0 number
** * * * * | minute 0 number
* * ? * * | day 4 number
* * * feb-jan * | month 10 turned
* * * january * | month 6 long
* * * 1-marx * | month 8 long
* * * ja * | month 6 name
* * mon * * | day 4 name
* L * * * | hour 2 name
* * * * mon-sun | weekday 12 turned
* * * * 1,sunday | weekday 10 long
* * * * monday#2 | weekday 8 long
* * L,L-31 * * | day 8 range
* * L-0 * * | day 6 range
* * L- * * | day 6 empty
* * L-x * * | day 6 name
* * LW,32W * * | day 7 range
* * 0W * * | day 4 range
* * 100W * * | day 4 number
* * xW * * | day 4 name
* * W * * | day 4 name
* * 15W,L,32 * * | day 10 range
* * * * 5L,5#6 | weekday 13 range
* * * * 5#0 | weekday 10 range
* * * * 8#2 | weekday 8 range
* * * * #2 | weekday 8 empty
* * * * 5# | weekday 10 empty
* * * * 8l,1 | weekday 8 range
* * * * 1-5L | weekday 10 number
* * * * L | weekday 8 name
* * * * 5#2,8 | weekday 12 range
* * * * * | none
 @daily | none
@DAILY | none
	@Every 5m | none 1 every
@every 1 2 3 4 5 | none 0 every
@every | none 0 every
TZ=UTC 0 0 * * * | none 0 zone
 CRON_TZ=UTC @daily | none 1 zone
CRON_TZ 0 0 * * * | none 16 many
TZ 0 0 * * * | none 11 many
@daily 0 | none 8 few
0 0 L,15W jan-mar 5#2,7L | none"""


def error_rows():
    """The rows of these texts, each of which the reader here takes for a schedule's or not as the row does."""
    for line in ERROR_OUT.splitlines():
        text, _, answer = line.rpartition(" | ")
        if (read_schedule(text) is None) == (answer == "none"):
            sys.exit(f"{text}: is not to be answered by {answer}")
        yield f"error {text} = {answer}"


def are_leap_days():
    """Whether the due moments of `0 0 29 2 *` in 400 years are the 97 leap days, each counted by its year."""
    leap_days = [day_of(it, 2, 29) for it in range(2000, 2400) if it % 4 == 0 and (it % 100 or it % 400 == 0)]
    total = 0
    for day in leap_days:
        total = (total * 31 + day * 1440) % 2**64
    return len(leap_days) == 97 and (total + 2**63) % 2**64 - 2**63 == Schedule(CYCLES[0]).cycle(day_of(2000, 1, 1), 0, 0)


def are_read_out():
    """Whether the reader here reads these texts so."""
    for line in READ_OUT.splitlines():
        text, expected = line.split(" | ")
        words = read_schedule(text)
        if (written(words) if words else "none") != expected:
            print(f"{text}: is read as {words and written(words)}, and not as {expected}")
            return False
    return all(read_schedule(it) == Schedule(it, False).words() for it in KNOWN)


def main():
    parser = argparse.ArgumentParser()
    parser.add_argument("--rows", type=int, default=20_000)
    parser.add_argument("--seed", type=int, default=1)
    parser.add_argument("--write", action="store_true")
    arguments = parser.parse_args()
    if arguments.write:
        write_rows("cron", known())
        return 0
    standing = standing_rows("cron")
    passed, failed = int(standing == known()), int(standing != known())
    if failed:
        print(f"the rows of schedules in {STDIN} are others than this reading gives")
    read_out = are_read_out() and are_due_out() and are_leap_days()
    passed, failed = passed + int(read_out), failed + int(not read_out)
    if not os.path.exists(PROGRAM):
        print(f"not run: the rows by the program, since {NO_PROGRAM}")
        print(f"{passed} passed, {failed} failed")
        return failed
    start = (day_of(2023, 11, 15), 0, 0)
    chosen, named = generated(arguments.rows, arguments.seed)
    near, fields = field_rows(10 * arguments.rows, arguments.seed)
    texts, back = text_rows(arguments.rows, arguments.seed)
    misses, right_ones = near_rows(10 * arguments.rows, arguments.seed)
    for name, rows in (
        ("standing rows", standing),
        ("answers written out", list(written_out())),
        (f"generated rows, {named} with days that are named", chosen),
        (f"fields and near misses, {fields} of them fields", near),
        (f"texts of schedules, {back} of them read back here", texts),
        (f"whole texts with a byte changed, put in or left out, {right_ones} of them right", misses),
        ("years of minutes", [row_of("year", Schedule(it), start) for it in YEARS]),
        ("years of minutes by walks", [row_of("walk", Schedule(it), start) for it in YEARS[:3]]),
        ("iterators over 400 years", [row_of("cycle", Schedule(it), start) for it in CYCLES]),
        ("iterators over years", [row_of("dues", Schedule(it), start) for it in YEARS]),
    ):
        others = failed_rows("cron", rows)
        print(f"{name}: {len(rows)}, {others} of them answered otherwise (seed {arguments.seed})")
        passed, failed = passed + int(not others), failed + int(others > 0)
    print(f"{passed} passed, {failed} failed")
    return int(failed > 0)


if __name__ == "__main__":
    sys.exit(main())
