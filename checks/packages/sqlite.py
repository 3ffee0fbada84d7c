#!/usr/bin/env python3
"""The SQLite extension as its users load it, beside Python's datetime and croniter.

    python3 -m checks.packages.sqlite [DATES [SEED]]

It takes the static libraries of crates/calendar_c and crates/layers_c as checks/packages/languages.py does, and makes the
package by tools/packages/sqlite.py in a temporary folder. languages/sqlite/tests call every function. Each function of dates is then
called with 20,000 drawn dates, or so many, and the answers have to be datetime's. Those of schedules have to be croniter's. The
queries of languages/sqlite/README.md are run by the program sqlite3, and have to print what the page says. Each line of
languages/sqlite/wrong_lines.txt has to fail the tests. The tests run under valgrind too.

It needs a Python whose module sqlite3 loads extensions, which Debian's does. What could not be run is named.
"""
import calendar
import datetime
import os
import random
import re
import shutil
import sqlite3
import subprocess
import sys
import tempfile

import packages
from checks import TOP
from checks.shared.results import LANGUAGES, Results, read, run, succeeds
from checks.shared.wrong_lines import edits, planted
from library import make_package
from packages import sqlite

try:
    from croniter import croniter
except ImportError:
    croniter = None

FOLDER = f"{LANGUAGES}/sqlite"
TEST = f"{FOLDER}/tests/test_functions.py"
DEBIANS = "/usr/bin/python3"
COUNTS = (r"(\d+) passed, \d+ failed", r"\d+ passed, (\d+) failed")
FIRST, LAST = datetime.date.min.toordinal(), datetime.date.max.toordinal()
SCHEDULES = (
    "0 9 * * mon-fri", "30 4 1,15 * fri", "*/15 * * * *", "0 0 29 2 *", "59 23 31 12 *", "5-10 */3 * jan,jul *", "0 0 * * 0", "0 12 l * *",
    "@daily", "@hourly", "@weekly", "@monthly", "@yearly",
)


def loads_extensions():
    """Whether the module sqlite3 of this Python loads extensions."""
    return hasattr(sqlite3.Connection, "enable_load_extension")


def load(path):
    """A new database in memory, with the extension."""
    db = sqlite3.connect(":memory:")
    db.enable_load_extension(True)
    db.load_extension(path.removesuffix(".so"))
    return db


# ---- drawn arguments


def months_later(date, months):
    """The date that many months later, or the last day of a shorter month; None beyond Python's years."""
    year, month = divmod(12 * date.year + date.month - 1 + months, 12)
    if not datetime.MINYEAR <= year <= datetime.MAXYEAR:
        return None
    return date.replace(year, month + 1, min(date.day, calendar.monthrange(year, month + 1)[1]))


def years_from(base, date):
    """The whole years; None if the date is before the base."""
    return None if date < base else date.year - base.year - ((date.month, date.day) < (base.month, base.day))


def draw(numbers):
    """Two dates, a number of days and a number of months."""
    one, other = (datetime.date.fromordinal(numbers.randint(FIRST, LAST)) for _ in range(2))
    if numbers.random() < 0.25:
        one = one.replace(day=1) - datetime.timedelta(days=1) if one.toordinal() > 31 else one
    return one, other, numbers.randint(FIRST, LAST) - one.toordinal(), numbers.choice((numbers.randint(-30, 30), numbers.randint(-50_000, 50_000)))


def answers_of(one, other, days, months):
    """What the functions below have to answer."""
    moved = months_later(one, months)
    return (
        1, one.isoweekday(), *one.isocalendar()[1::-1], one.timetuple().tm_yday, calendar.monthrange(one.year, one.month)[1],
        (one + datetime.timedelta(days)).isoformat(), moved and moved.isoformat(), (other - one).days, years_from(one, other),
    )


QUERY = """
SELECT is_date(a), weekday(a), iso_week(a), iso_year(a), day_of_year(a), days_in_month(a), add_days(a, n), add_months(a, m),
       days_between(a, b), years_between(a, b)
FROM drawn ORDER BY rowid
"""


def compare_dates(results, db, numbers, count):
    """Functions of dates beside datetime. A month beyond Python's years is left out."""
    drawn = [draw(numbers) for _ in range(count)]
    db.execute("CREATE TABLE drawn(a TEXT, b TEXT, n INTEGER, m INTEGER)")
    db.executemany("INSERT INTO drawn VALUES (?, ?, ?, ?)", [(a.isoformat(), b.isoformat(), n, m) for a, b, n, m in drawn])
    for arguments, told in zip(drawn, db.execute(QUERY)):
        wanted = answers_of(*arguments)
        told = [None if place == 7 and wanted[7] is None else it for place, it in enumerate(told)]
        results.count(told == list(wanted), f"{arguments}: {told}, and datetime gives {wanted}")


def compare_schedules(results, db, numbers, count):
    """Functions of schedules beside croniter."""
    if croniter is None:
        print("not run: schedules beside croniter's, since there is no croniter")
        return
    for schedule in SCHEDULES:
        for _ in range(count):
            start = datetime.datetime(1970, 1, 1) + datetime.timedelta(seconds=numbers.randint(0, 4 * 10**9))
            found = croniter(schedule, start)
            wanted = [found.get_next(datetime.datetime) for _ in range(3)]
            told = db.execute("SELECT due FROM due_between(?, ?, ?)", (schedule.upper(), str(start), str(wanted[2]))).fetchall()
            results.count([it for it, in told] == [str(it) for it in wanted], f"{schedule} from {start}: {told}, and croniter gives {wanted}")
            told = db.execute("SELECT next_due(?1, ?2), is_due(?1, ?3), last_due(?1, ?4)", (schedule, str(start), str(wanted[0]), str(wanted[1]))).fetchone()
            results.count(told == (str(wanted[0]), 1, str(wanted[0])), f"{schedule} from {start}: {told}, and croniter gives {wanted}")


# ---- what is run


def run_page(results, path):
    """The queries of the page, by the program sqlite3."""
    if not shutil.which("sqlite3"):
        print("not run: the queries of the page, since there is no sqlite3")
        return
    queries = re.findall(r"^```sql\n(.*?)^```$", read(f"{FOLDER}/README.md"), re.M | re.S)
    results.count(len(queries) == 5, f"the page has {len(queries)} queries")
    for query in queries:
        code, _, wanted = query.rpartition(";\n")
        words = ["sqlite3", "-bail", "-cmd", f".load {path.removesuffix('.so')}", ":memory:"]
        told = succeeds(results, words, input=f"{code};\n")
        results.count(told == wanted.replace("-- ", ""), f"{query} prints\n{told}")


def run_watched(results, path):
    """The tests where each read and write is watched."""
    if not shutil.which("valgrind"):
        print("not run: the tests of the SQLite extension under valgrind, since there is none")
        return
    words = ["valgrind", "-q", "--error-exitcode=9", "--leak-check=no", sys.executable, TEST, path.removesuffix(".so")]
    run(results, "test_functions.py under valgrind", words, COUNTS, env=dict(os.environ, PYTHONMALLOC="malloc"))


def try_wrong_lines(results, room, libraries):
    """Each wrong line fails the tests."""
    found = 0
    for number, edit in enumerate(edits("sqlite"), 1):
        path = f"{room}/{sqlite.NAME}"
        sqlite.compile_extension(TOP, planted("sqlite", f"{room}/planted", edit), libraries, path)
        words = [sys.executable, TEST, path.removesuffix(".so")]
        ran = subprocess.run(words, stdout=subprocess.PIPE, stderr=subprocess.STDOUT, text=True, errors="replace")
        results.count(ran.returncode, f"wrong line {number} of languages/sqlite is not found: {edit}\n{ran.stdout[-1500:]}")
        found += ran.returncode != 0
    print(f"wrong lines in the SQLite extension: {found} found", flush=True)
    results.count(found >= 10, "languages/sqlite has fewer than ten wrong lines that its tests find")


def test(results, room, count, seed):
    """All of it."""
    (path, *_), libraries = make_package(room, "sqlite")
    if not loads_extensions():
        print(f"not run: the tests of the SQLite extension, since no Python here loads extensions; {os.path.basename(path)} is built")
    else:
        numbers = random.Random(seed)
        run(results, "test_functions.py", [sys.executable, TEST, path.removesuffix(".so")], COUNTS)
        compare_dates(results, load(path), numbers, count)
        compare_schedules(results, load(path), numbers, max(1, count // 1000))
        run_watched(results, path)
        try_wrong_lines(results, room, libraries)
    run_page(results, path)


def main():
    if not loads_extensions() and os.path.exists(DEBIANS) and os.path.realpath(sys.executable) != os.path.realpath(DEBIANS):
        os.execv(DEBIANS, [DEBIANS, *sys.orig_argv[1:]])
    results, count, seed = Results(), *(int(it) for it in (sys.argv[1:] + ["20000", "4711"][len(sys.argv) - 1 :]))
    try:
        with tempfile.TemporaryDirectory(prefix="sqlite-") as room:
            test(results, room, count, seed)
    except packages.Missing as it:
        print(f"not run: the SQLite extension, since there is {it}")
    except RuntimeError as it:
        results.count(False, f"the SQLite extension is not made: {it}")
    print(f"{results.passed} passed, {results.failed} failed")
    return 1 if results.failed else 0


if __name__ == "__main__":
    sys.exit(main())
