#!/usr/bin/env python3
"""Measures how long the program dates takes until its first line, over short commands that are made here.

    benches/dates_quick.py [PROGRAM] [--commands N] [--seed N]      (crates/dates/out/dates and 10,000 commands from seed 1, if left out)

Each command has at most 80 bytes. Half of them are those of checks/programs/dates_commands.py, and the others are made of words that lead far: years up to the
calendar's ends, great counts, rules and schedules that are seldom due, sequences that leave most days out. A command that has no answer, or is wrong, counts until it
ends. Those above the limit are timed again, three times and alone, and the best time counts. The ten slowest are printed, and the exit status is 1 if
one takes more than half a second.
"""
import argparse
import os
import random
import subprocess
import sys
import tempfile
import time
from concurrent.futures import ThreadPoolExecutor

TOP = os.path.dirname(os.path.dirname(os.path.abspath(__file__)))
sys.path.insert(0, TOP)
sys.path.insert(0, os.path.join(TOP, "tools"))
from checks.programs import dates_commands  # noqa: E402
from debian import restart_without  # noqa: E402

MOST_BYTES, LIMIT, PATIENCE = 80, 0.5, 20

DAYS = ("2024-02-29", "0001-01-01", "1970-01-01", "1999-12-31", "2007-01-01", "2100-02-28", "9999-12-31", "+12024-07-04", "+262142-12-31", "-262143-01-01")
TIMES = ("T00:00", "T12:34:56", "T23:59Z", "T01:30+05:30", "T23:59:59.999")
ZONES = ("Europe/Berlin", "America/New_York", "Asia/Tokyo", "Pacific/Apia", "Australia/Lord_Howe", "UTC")
CALENDARS = ("us-federal", "target", "england", "fedwire", "nyse", "germany", "france", "japan", "target,nyse", "england,france")
WEEKENDS = ("none", "sun", "fri,sat", "sat,sun")
UNITS = ("d", "w", "m", "y", "b", "h", "min", "s")
COUNTS = (1, 2, 3, 5, 7, 12, 30, 84, 100, 365, 400, 4800, 99_999, 1_000_000, 95_000_000)
SKIPS = ("sat,sun", "mon-fri", "mon-sat", "thu", "mon-sun", "fri-wed", "sun")
MEASURES = ("d", "w", "mo", "y", "b", "ymd", "w,d", "y,mo,d", "h", "min", "s", "act/act", "30/360")
CRON = ("* * * * *", "0 0 30 2 *", "0 0 29 2 1", "0 0 29 2 *", "59 23 31 12 *", "*/7 */5 * * 1", "0 0 31 4,6,9,11 *", "0 2 * * *", "@daily", "@yearly", "0 0 1 1 7")
FREQUENCIES = ("YEARLY", "MONTHLY", "WEEKLY", "DAILY", "HOURLY", "MINUTELY", "SECONDLY")
PARTS = ("BYDAY=MO", "BYDAY=FR", "BYDAY=5MO", "BYDAY=-1SU", "BYMONTH=2", "BYMONTHDAY=29", "BYMONTHDAY=31", "BYMONTHDAY=-31", "BYYEARDAY=366", "BYWEEKNO=53", "BYSETPOS=5", "BYSETPOS=-1", "BYSETPOS=366",
         "INTERVAL=7", "INTERVAL=9999", "COUNT=99999", "COUNT=9999999", "SKIP=BACKWARD", "SKIP=FORWARD", "BYHOUR=25", "BYHOUR=3", "BYMINUTE=59")


# What is piped into the commands that are made here.
LINE = b"2024-02-29 04:30 started\n"


def any_time(chance):
    return chance.choice(DAYS) + chance.choice(TIMES)


def any_start(chance):
    return chance.choice(DAYS) + chance.choice(("", "", "", *TIMES))


def span(chance):
    return f"{chance.choice(('', '', '-'))}{chance.choice(COUNTS)}{chance.choice(UNITS)}"


def closing(chance):
    """Options that close days."""
    words = ["--calendar", chance.choice(CALENDARS)] if chance.random() < 0.6 else []
    return words + (["--weekend", chance.choice(WEEKENDS)] if chance.random() < 0.3 else [])


def counted(chance):
    return ["--count", str(chance.choice((1, 2, 1000)))] if chance.random() < 0.5 else []


def of_add(chance):
    words = [span(chance) for _ in range(chance.choice((1, 1, 2)))]
    return ["add", any_start(chance), *words, *(closing(chance) if any(it.endswith("b") for it in words) else ())]


def of_diff(chance):
    measure = chance.choice(MEASURES)
    return ["diff", any_start(chance), any_start(chance), "in", measure, *(closing(chance) if measure == "b" else ())]


def of_seq(chance):
    end = [chance.choice(DAYS)] if chance.random() < 0.4 else []
    skip = ["--skip", chance.choice(SKIPS)] if chance.random() < 0.7 else []
    return ["seq", any_start(chance), *end, *([span(chance)] if chance.random() < 0.8 else []), *skip, *counted(chance), *(closing(chance) if chance.random() < 0.3 else ())]


def of_due(chance):
    zone = ["--zone", chance.choice(ZONES)] if chance.random() < 0.4 else []
    dialect = ["--dialect", chance.choice(("seconds", "quartz", "robfig", "cronie"))] if chance.random() < 0.2 else []
    return [chance.choice(("next", "prev")), chance.choice(CRON), "--from", chance.choice(DAYS) + "T00:00", *zone, *dialect, *counted(chance)]


def of_rule(chance):
    rule = ";".join([f"FREQ={chance.choice(FREQUENCIES)}", *chance.sample(PARTS, chance.choice((0, 1, 2, 3)))])
    since = ["--from", any_start(chance)] if chance.random() < 0.4 else []
    zone = ["--zone", chance.choice(ZONES)] if chance.random() < 0.2 else []
    return ["rule", rule, "--start", any_start(chance), *since, *zone, *counted(chance)]


def of_explain(chance):
    return ["explain", chance.choice((*CRON, f"FREQ={chance.choice(FREQUENCIES)};{chance.choice(PARTS)}"))]


def of_cal(chance):
    return ["cal", chance.choice(("2024", "2024-02", "Feb 2024", "+262142", *DAYS)), *closing(chance)]


def of_zone(chance):
    year = ["--year", chance.choice(("2024", "1900", "+262142"))] if chance.random() < 0.5 else []
    return ["zone", chance.choice((*ZONES, "Berlin", "Nowhere")), *year] if chance.random() < 0.5 else ["in", chance.choice(ZONES), any_time(chance)]


def of_grep(chance):
    return ["grep", chance.choice(("--from", "--to", "--on")), chance.choice((*DAYS, "thu")), "-"]


def of_period(chance):
    name = chance.choice(("first", "last", "round", "roll", "open", "week", "weekday"))
    day = chance.choice(DAYS)
    behind = {"first": ["year"], "last": ["quarter"]}.get(name, [])
    more = {"round": ["friday"], "roll": ["modified-following"]}.get(name, [])
    return [name, *behind, day, *more, *(closing(chance) if name in ("roll", "open") else ())]


MAKERS = {of_add: 8, of_diff: 8, of_seq: 12, of_due: 8, of_rule: 14, of_explain: 3, of_cal: 3, of_zone: 4, of_grep: 2, of_period: 5}


def drawn(chance, count, folder):
    """So many commands as their words and what is piped into them, each once."""
    files = dates_commands.days_of_files(chance, folder)
    found = {}
    while len(found) < count:
        if len(found) < count // 2:
            asked = dates_commands.commands(chance, files, 1)[0]
            words, given = tuple(asked.words), asked.given
        else:
            words, given = tuple(chance.choices(list(MAKERS), list(MAKERS.values()))[0](chance)), LINE
        if size(words) <= MOST_BYTES:
            found[words] = given
    return list(found.items())


def size(words):
    """The bytes of a command, with a blank before each word and marks around one that has blanks."""
    return len("dates".encode()) + sum(len(it.encode()) + 1 + 2 * (" " in it or ";" in it or not it) for it in words)


def first_line(program, words, given):
    """The seconds until the first line is written, or the program ends without one."""
    began = time.monotonic()
    with subprocess.Popen([program, *words], stdin=subprocess.PIPE, stdout=subprocess.PIPE, stderr=subprocess.DEVNULL) as started:
        try:
            started.stdin.write(given)
            started.stdin.close()
        except BrokenPipeError:
            pass
        os.set_blocking(started.stdout.fileno(), False)
        while started.poll() is None and time.monotonic() - began < PATIENCE:
            if started.stdout.read(1):
                break
            time.sleep(0.001)
        spent = time.monotonic() - began
        started.kill()
    return spent


def main():
    wanted = argparse.ArgumentParser(description=__doc__, formatter_class=argparse.RawDescriptionHelpFormatter)
    wanted.add_argument("program", nargs="?", default=dates_commands.DATES)
    wanted.add_argument("--commands", type=int, default=10_000)
    wanted.add_argument("--seed", type=int, default=1)
    given = wanted.parse_args()
    if not os.path.exists(given.program):
        sys.exit(f"there is no {given.program}: `rt run` in crates/dates builds it")
    restart_without(dates_commands.numpy)
    if dates_commands.numpy is None:
        sys.exit("not run: there is no numpy or no dateutil")
    with tempfile.TemporaryDirectory() as folder:
        asked = drawn(random.Random(given.seed), given.commands, folder)
        with ThreadPoolExecutor(os.cpu_count()) as runners:
            times = list(runners.map(lambda it: first_line(given.program, *it), asked))
        slowest = sorted(zip(times, asked), key=lambda it: -it[0])
        slow = [it for it in slowest if it[0] > LIMIT]
        again = [(min(first_line(given.program, *it) for _ in range(3)), it) for _, it in slow]
        slowest = sorted(again + slowest[len(slow):], key=lambda it: -it[0])
    for seconds, (words, _) in slowest[:10]:
        print(f"{seconds:6.3f} s  dates {' '.join(words)}")
    above = sum(seconds > LIMIT for seconds, _ in slowest)
    print(f"{len(asked)} commands of at most {MOST_BYTES} bytes from seed {given.seed}, {above} above {LIMIT} s")
    return 1 if above else 0


if __name__ == "__main__":
    sys.exit(main())
