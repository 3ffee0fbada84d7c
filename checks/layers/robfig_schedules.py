#!/usr/bin/env python3
"""Holds the dialect of robfig/cron in timed_cron to a second reading of its texts, and to the library itself.

    python3 -m checks.layers.robfig_schedules [--cases N] [--texts N] [--seed N]      (3,000 cases and 10,000 texts from seed 1, if left out)

A case is a text of five fields or a nickname, a start, and the next or the last minute at which the schedule is due. This script reads the text for
itself and goes through the days one by one. It has to tell the right answers from those of wrong readings, of which WRONG names each.
The texts are such with some of their bytes changed. The library has to read those, and only those, that this script reads.

robfig/cron 3.0.1, Debian's golang-github-robfig-cron-dev, is asked for the next minutes of all cases and texts by its `ParseStandard`. It looks five
years ahead at most. It reads more than its documentation says, and these texts are asked as `normal` spells them:

  - It drops empty items: `1,,2` is `1,2`. A field without items is never due, so a text with one is not asked.
  - It drops what stands between `*-` or `?-` and a step: `*-5/2` is `*/2`.
  - Its numbers may have a sign in front and any digits: `+5` and `005` are 5. A step may be greater than 999.

It reads a nickname in small letters with no blanks about it. Here letters have either case, and blanks may stand there.
"""
import argparse
import os
import random
import re
import subprocess
import tempfile

from checks import TOP
from checks.layers.timed_schedules import DAY_NAMES, FIRST, LAST, LINES, PROGRAM, WEEKDAY_NAMES, Walked
from checks.zones.zoned_schedules import end
from repositories import answers_in_parts, put_program

LIBRARY = "/usr/share/gocode/src/github.com/robfig/cron"
MONTHS = "JAN FEB MAR APR MAY JUN JUL AUG SEP OCT NOV DEC".split()
WEEKDAYS = "SUN MON TUE WED THU FRI SAT".split()
# The least and the greatest number of each field, and its names from the least on.
FIELDS = ((0, 59, ()), (0, 23, ()), (1, 31, ()), (1, 12, MONTHS), (0, 6, WEEKDAYS))
NICKNAMES = {"@yearly": "0 0 1 1 *", "@annually": "0 0 1 1 *", "@monthly": "0 0 1 * *", "@weekly": "0 0 * * 0", "@daily": "0 0 * * *",
             "@midnight": "0 0 * * *", "@hourly": "0 * * * *"}
ITEM = re.compile(r"(?:(?P<all>[*?])|(?P<first>\d\d?|[A-Za-z]{3})(?:-(?P<last>\d\d?|[A-Za-z]{3}))?)(?:/(?P<step>\d{1,3}))?", re.A)
# Readings that are wrong, each of which has to change an answer.
WRONG = ("Sunday is 1", "a star by twos restricts nothing", "a question mark restricts", "both fields of days have to match", "one field of days is enough",
         "a number by steps is alone", "the last number of a range is left out", "a star in a list restricts")
# What is put into a text in place of some of its bytes.
SPOILED = (*"0123456789*?,-/+LW#@ \t", "**", "60", "24", "32", "13", "7", "/0", "/1", "/1000", "SUN", "dec", "Monday")
ERRORS = (
    ("* * * * 7", "weekday, byte 8: a number that is out of range"),
    ("* * * * SUN-7", "weekday, byte 12: a number that is out of range"),
    ("* * * * FRI-MON", "weekday, byte 12: a range whose end is below its beginning"),
    ("* 22-2 * * *", "hour, byte 5: a range whose end is below its beginning"),
    ("* * L * *", "day of the month, byte 4: an unknown name"),
    ("* * 15W * *", "day of the month, byte 4: no number of one digit or two"),
    ("* * * * 5#2", "weekday, byte 8: no number of one digit or two"),
    ("*/0 * * * *", "minute, byte 2: a step of 0"),
    ("1,,2 * * * *", "minute, byte 2: nothing stands there"),
    ("*-5 * * * *", "minute, byte 0: no number of one digit or two"),
    ("* * * JANUARY *", "month, byte 6: a name of more than three letters"),
    ("60 24 32 13 7", "minute, byte 0: a number that is out of range"),
    ("0 0 * * * *", "byte 10: too many fields"),
    ("0 0 * *", "byte 7: too few fields"),
    ("@dayly", "byte 0: an unknown nickname"),
    ("@every 5m", "byte 0: an interval, which is no schedule"),
    ("@reboot", "byte 0: the start of a machine, which is no schedule"),
    ("TZ=UTC 0 0 * *", "byte 0: a time zone, which no schedule has"),
    ("CRON_TZ=UTC 0 0 * * *", "byte 0: a time zone, which no schedule has"),
)


def number(text, low, high, names):
    """The number of a field that a text writes or names; None if it is none."""
    found = low + names.index(text.upper()) if text.upper() in names else int(text) if text.isdigit() else None
    return found if found is not None and low <= found <= high else None


def item_of(text, low, high, names, wrong):
    """The numbers that an item lists, and whether it is a star by ones; None if it is no item."""
    parts = ITEM.fullmatch(text)
    if not parts:
        return None
    step = int(parts["step"] or 1)
    first, last = (low, high) if parts["all"] else (number(parts["first"], low, high, names), number(parts["last"] or parts["first"], low, high, names))
    if first is None or last is None or first > last or step == 0:
        return None
    if parts["step"] and not parts["last"] and wrong != "a number by steps is alone":
        last = high
    if parts["last"] and wrong == "the last number of a range is left out":
        last -= 1
    is_star = bool(parts["all"]) and (step == 1 or wrong == "a star by twos restricts nothing")
    return set(range(first, last + 1, step)), is_star and not (parts["all"] == "?" and wrong == "a question mark restricts")


class Robfig(Walked):
    """A text of robfig/cron, read by this script."""

    def __init__(self, text, wrong=None):
        words, self.wrong = [it for it in re.split(r"[ \t]+", text) if it], wrong
        if len(words) == 1:
            words = NICKNAMES.get(words[0].lower(), "").split()
        fields = [[item_of(it, *field, wrong) for it in word.split(",")] for word, field in zip(words, FIELDS)]
        self.is_read = len(words) == 5 and all(it for field in fields for it in field)
        if not self.is_read:
            return
        minutes, hours, self.days, self.months, self.weekdays = (set().union(*(numbers for numbers, _ in field)) for field in fields)
        self.times = [0], sorted(minutes), sorted(hours)
        stars = [any(is_star and not (wrong == "a star in a list restricts" and len(fields[at]) > 1) for _, is_star in fields[at]) for at in (2, 4)]
        self.either = not any(stars) and wrong != "both fields of days have to match" or wrong == "one field of days is enough"

    def has(self, day):
        """Whether it is due on a day."""
        listed = day.day in self.days, day.isoweekday() % 7 + (self.wrong == "Sunday is 1") in self.weekdays
        return day.month in self.months and (any(listed) if self.either else all(listed))


def item(random_, low, high, names):
    """An item of a field, with a name in letters of either case for some numbers."""
    first = random_.randint(low, high)
    last = random_.randint(first, high)
    shown = [random_.choice((str.upper, str.lower, str.title))(names[it - low]) if names and random_.random() < 0.4 else f"{it}" for it in (first, last)]
    step = random_.choice(("", "", "/1", f"/{random_.randint(1, high)}"))
    return random_.choice((f"{shown[0]}", f"{shown[0]}{step}", f"{shown[0]}-{shown[1]}{step}", f"*{step}", f"?{step}"))


def robfig_text(random_):
    """A text of five fields, or a nickname."""
    if random_.random() < 0.03:
        return random_.choice([*NICKNAMES])
    wide = (0.1, 0.2, 0.3, 0.5, 0.3)
    return " ".join(random_.choice("**?") if random_.random() < part else ",".join(item(random_, *field) for _ in range(random_.choice((1, 1, 1, 2, 3))))
                    for field, part in zip(FIELDS, wide))


def spoiled(random_, text):
    """A text with some of its bytes changed, left out or put in."""
    for _ in range(random_.choice((1, 1, 2))):
        at = random_.randrange(len(text))
        text = text[:at] + random_.choice(("", random_.choice(SPOILED), random_.choice("0123456789*?,-/"))) + text[at + random_.randrange(2) :]
    if random_.random() < 0.1:
        text = text.replace(text.split()[-1] if text.split() else " ", random_.choice((*DAY_NAMES, *WEEKDAY_NAMES)))
    return text


def normal(text):
    """A text as the library's parser takes it; None if one of its fields has no items, so that it is never due."""
    def spelled(it):
        span, slash, step = it.partition("/")
        span = re.sub(r"^([*?])-.*", r"\1", span)
        span = "-".join(re.sub(r"^\+?0*(\d)", r"\1", part) for part in span.split("-"))
        step = re.sub(r"^\+?0*(\d)", r"\1", step)
        return span + slash + ("999" if re.fullmatch(r"\d{4,}", step) else step)

    words = [[spelled(it) for it in word.split(",") if it] for word in text.split()]
    return " ".join(",".join(items) for items in words) if all(words) else None


def library_answers(room, questions):
    """The answers of robfig/cron to `START TEXT`, or None if it is not there."""
    if not os.path.isdir(LIBRARY):
        return None
    env = {**os.environ, "GOPATH": "/usr/share/gocode", "GO111MODULE": "off", "GOCACHE": f"{room}/go", "TZ": "UTC"}
    try:
        built = subprocess.run(["go", "build", "-o", f"{room}/robfig", f"{TOP}/checks/layers/robfig.go"], env=env, capture_output=True, text=True)
    except FileNotFoundError:
        return None
    if built.returncode:
        return None
    said = subprocess.run([f"{room}/robfig"], input="".join(f"{it}\n" for it in questions), capture_output=True, text=True)
    return said.stdout.splitlines()


def unlike(question, answer):
    """How the library's answer to `START TEXT` differs from that of this script; None if it does not."""
    start, text = question.split(" ", 1)
    if text.startswith("@"):
        return None if (answer != "refused") == (text in NICKNAMES) else f"{question}: the library has {answer}"
    schedule = Robfig(normal(text) or text)
    if (answer != "refused") != schedule.is_read:
        return None if normal(text) is None else f"{question}: the library has {answer}"
    if not schedule.is_read:
        return None
    due = schedule.found("next", int(start))
    # (the library looks five years ahead)
    if answer == "none":
        return None if due is None or due - int(start) > 5 * 365 * 86_400 else f"{question}: the library has none"
    return None if f"{due}" == answer else f"{question}: the library has {answer}, not {due}"


def robfig_cases(count, random_):
    """Cases, each with the answer of this script."""
    while count > 0:
        text, start = robfig_text(random_), random_.randrange(FIRST, LAST)
        schedule = Robfig(text)
        due = schedule.found("next", start)
        for call in ("next", "prev"):
            for at in [start] if due is None else [start, due, due - 1, due + 1]:
                answer = schedule.found(call, at)
                # (None may be later than the script looks)
                if answer is not None:
                    yield f"robfig-{call} {at} {text}", f"{answer} true"
                    count -= 1


def found_out(rows):
    """The wrong readings that change no answer."""
    asked = [(it.removeprefix("robfig-").split(" ", 2), answer) for it, answer in rows]
    for wrong in WRONG:
        if not any(f"{Robfig(text, wrong).found(call, int(start))} true" != answer for (call, start, text), answer in asked[:1_000]):
            yield wrong


def main():
    parser = argparse.ArgumentParser(description=__doc__.partition("\n")[0])
    parser.add_argument("--cases", type=int, default=3_000)
    parser.add_argument("--texts", type=int, default=10_000)
    parser.add_argument("--seed", type=int, default=1)
    options = parser.parse_args()
    random_ = random.Random(options.seed)
    rows = list(robfig_cases(options.cases, random_))
    others = [f"{it}: changes no answer" for it in found_out(rows)]
    asked = [it.split(" ", 1)[1] for it, _ in rows if it.startswith("robfig-next")]
    texts = [spoiled(random_, robfig_text(random_)) for _ in range(options.texts)]
    asked += [f"{FIRST} {it}" for it in texts]
    rows += [(f"robfig-reads 0 {it}", "true" if Robfig(it).is_read else "false") for it in texts]
    rows += [(f"robfig-next 0 {text}", error) for text, error in ERRORS]
    with tempfile.TemporaryDirectory(prefix="robfig-") as room:
        told = library_answers(room, asked)
        folder = put_program(room, "timed", ["chrono_datetime", "chrono_instant", "timed_cron"], PROGRAM)
        answers = [it.strip() for it in answers_in_parts(room, folder, [it for it, _ in rows], LINES)]
    if told is None:
        print("not run: robfig/cron beside timed_cron, which needs golang-go and golang-github-robfig-cron-dev")
    else:
        print(f"robfig/cron was asked for {len(told)} answers, and refused {told.count('refused')} texts")
        others += [it for it in map(unlike, asked, told) if it]
    end(rows, answers, compared=len(told or ()), others=others)


if __name__ == "__main__":
    main()
