#!/usr/bin/env python3
"""Holds the package for JavaScript to what it is made of, and its page to caltool.

    python3 -m checks.packages.javascript
    python3 -m checks.packages.javascript --picture FILE      (only takes a picture of the page, as docs/page.png is one)

The package is made as `tools/dist javascript` makes it, in a temporary folder. The exports of its three modules have to be
those of calendar.h, with columns apart, but for those that C alone has, and those of calendar_layers.h. Each is called by the wrapper and has
a test of its name, but for columns that change in place. checks/packages/peer_answers.py draws cases of the layers, with the answers of other programs. In a
project of its own, to which the package is put as npm puts it, node runs the tests, the example of the README and,
where there is a tsc, a file of types. Ten wrong lines are then planted in the wrapper, one at a time, and the tests
have to fail on each.

In a headless Chromium the package is compared with the browser's own Temporal, and the page is used as a user uses it, in a zone
and at a moment that it is given. Cron lines, wrong ones too, are typed, and what is shown compared with a walk minute by minute.
In zones near changes of the clock it is the cron of checks/zones/zoned_schedules.py that walks. All zones are compared with zoneinfo.
Lines are typed and their answers compared with those of caltool (the program, if it is built, or else the calendar of
checks/programs/fuzz.py); months, distances and rows of dates are compared with Python's datetime and with the calendar that counts
(checks/shared/counted.py); what can be reached by the keyboard has to have a name that a screen reader reads; nothing may be wider than
a narrow screen, and texts have to stand out from what is behind them, in light and in dark.
"""
import base64
import datetime
import json
import os
import random
import re
import shutil
import subprocess
import sys
import tempfile
import zoneinfo

import debian
import packages
import zone_texts
from checks import TOP
from checks.packages import cells, hosts, languages, layers_c
from checks.programs import fuzz
from checks.shared import chromium, counted
from checks.shared.results import Results, read, serves
from checks.shared.wrong_lines import planted, tried
from checks.zones import zoned_schedules
from packages import javascript

FOLDER = f"{TOP}/languages/javascript"
# How many bytes each module has at most.
LARGEST = {"module": 22_000, "columns_module": 9_000, "layers_module": 290_000}
# Zones on whose changes the browser's database and the machine's agree. (Not Dublin, whose day of 1925-10-04 begins otherwise in Chromium
# than in Python.)
ZONES = ("Europe/Berlin", "America/New_York", "Australia/Lord_Howe", "America/Sao_Paulo", "Asia/Beirut", "Asia/Kathmandu", "Pacific/Apia",
         "Europe/London")
MONTHS = "January February March April May June July August September October November December".split()
WEEKDAYS = "Monday Tuesday Wednesday Thursday Friday Saturday Sunday".split()
# The zone of the machine and the present moment, as the page sees them.
OWN_ZONE, PRESENT = "Europe/Berlin", datetime.datetime(2024, 3, 30, 0, 15, 7, tzinfo=datetime.timezone.utc)
STILL_CLOCK = f"""(() => {{ const at = {int(PRESENT.timestamp())}_000, Real = Date;
  Date = class extends Real {{ constructor(...given) {{ super(...(given.length ? given : [at])); }} static now() {{ return at; }} }}; }})()"""


def is_at(hour, minute):
    """Whether a moment shows a time of the clock."""
    return lambda it: (it.hour, it.minute) == (hour, minute)


# Cron lines in words, and when they are due, as cron's manual has it.
SCHEDULES = (
    ("* * * * *", "Every minute", lambda it: True),
    ("@hourly", "Every hour", lambda it: it.minute == 0),
    ("5 * * * *", "Every hour at minute 5", lambda it: it.minute == 5),
    ("*/15 9-17 * * mon-fri", "Every 15 minutes from 09:00 to 17:45, on Mondays to Fridays",
     lambda it: it.minute % 15 == 0 and 9 <= it.hour <= 17 and it.weekday() < 5),
    ("0 */2 * * *", "Every 2 hours from 00:00 on", lambda it: it.minute == 0 and it.hour % 2 == 0),
    ("1,2,9 3,9 * * *", "At minutes 1, 2 and 9 of hours 3 and 9, every day", lambda it: it.minute in (1, 2, 9) and it.hour in (3, 9)),
    ("0 18 L * *", "At 18:00, on the last day of the month",
     lambda it: is_at(18, 0)(it) and (it + datetime.timedelta(days=1)).month != it.month),
    ("0 9 * * 1#1", "At 09:00, on the 1st Monday of the month", lambda it: is_at(9, 0)(it) and it.weekday() == 0 and it.day <= 7),
    ("0 0 */2 3,4 1", "At 00:00, on the 1st, 3rd, 5th, 7th, 9th, 11th, 13th, 15th, 17th, 19th, 21st, 23rd, 25th, 27th, 29th and 31st of the month if "
     "it is a Monday, in March and April", lambda it: is_at(0, 0)(it) and it.day % 2 == 1 and it.month in (3, 4) and it.weekday() == 0),
    ("30 4 1,15 * fri", "At 04:30, on the 1st and 15th of the month, and on Fridays",
     lambda it: is_at(4, 30)(it) and (it.day in (1, 15) or it.weekday() == 4)),
    ("30 4 12 * *", "At 04:30, on the 12th of the month", lambda it: is_at(4, 30)(it) and it.day == 12),
)
def days_of_2024(is_day):
    """The days of 2024 that pass a test."""
    return [it for it in (datetime.date(2024, 1, 1) + datetime.timedelta(n) for n in range(366)) if is_day(it)]


# Rules, and their days of 2024 from 1 January on.
RULES = (
    ("FREQ=MONTHLY;BYDAY=-1FR", days_of_2024(lambda it: it.weekday() == 4 and (it + datetime.timedelta(7)).month != it.month)),
    ("FREQ=MONTHLY;BYMONTHDAY=31", days_of_2024(lambda it: it.day == 31)),
    ("FREQ=DAILY;COUNT=40", days_of_2024(lambda it: it < datetime.date(2024, 2, 10))),
    ("FREQ=YEARLY;BYMONTH=11;BYDAY=4TH", days_of_2024(lambda it: it.month == 11 and it.weekday() == 3 and 22 <= it.day <= 28)),
    ("FREQ=DAILY", days_of_2024(lambda it: True)),
)
# Lines that are wrong: the part that is marked, and what is said of it.
WRONG_SCHEDULES = (
    ("0 25 * * *", "25", "hour: a number that is out of range"),
    ("0 1,99 * * *", "99", "hour: a number that is out of range"),
    ("* * * foo *", "foo", "month: an unknown name"),
    ("* * * *", "\u00a0", "too few fields"),
)


# Cron lines in zones near changes of the clock: the zone as it is typed and as zoneinfo has it, the line, a local start, days in which it is due five
# times, and what is said of times that the clock skips.
ZONED = (
    ("UTC", "UTC", "30 2 * * *", "2024-03-29T12:00", 7, ""),
    ("europe/berlin", "Europe/Berlin", "30 2 * * *", "2024-03-29T12:00", 7, "02:30 on Sunday 31 March 2024"),
    ("CET-1CEST,M3.5.0,M10.5.0/3", "Europe/Berlin", "30 2 * * *", "2024-03-29T12:00", 7, "02:30 on Sunday 31 March 2024"),
    ("<+01>-1<+02>,M3.5.0,M10.5.0/3", "Africa/Ceuta", "30 2 * * *", "2024-10-25T12:00", 7, ""),
    ("Europe/Berlin", "Europe/Berlin", "10,50 2 * * *", "2024-03-30T02:20", 7, "02:10 on Sunday 31 March 2024"),
    ("Europe/Berlin", "Europe/Berlin", "30 2 * * *", "2024-10-25T12:00", 7, ""),
    ("America/New_York", "America/New_York", "30 * * * *", "2024-11-02T23:00", 2, ""),
    ("America/New_York", "America/New_York", "30 * * * *", "2024-03-09T23:00", 2, ""),
    ("US/Pacific", "US/Pacific", "0,30 2 * * 0", "2024-02-28T12:00", 20, "02:00 on Sunday 10 March 2024"),
    ("Australia/Lord_Howe", "Australia/Lord_Howe", "15 2 * * *", "2024-10-03T12:00", 7, "02:15 on Sunday 6 October 2024"),
    ("Asia/Kathmandu", "Asia/Kathmandu", "0 0 * * *", "1985-12-30T00:00", 7, "00:00 on Wednesday 1 January 1986"),
    ("Africa/Casablanca", "Africa/Casablanca", "30 2 * * *", "2024-03-08T12:00", 7, ""),
    ("Africa/Casablanca", "Africa/Casablanca", "30 2 * * *", "2024-04-12T12:00", 7, "02:30 on Sunday 14 April 2024"),
    ("Africa/Casablanca", "Africa/Casablanca", "30 2 20,29 4,8 *", "2012-04-01T00:00", 390,
     "02:30 on Sunday 29 April 2012, and a time on 1 more day"),
    # (a gap of three hours or more is a correction of the clock, which nothing catches up)
    ("Pacific/Apia", "Pacific/Apia", "0 12 * * *", "2011-12-28T00:00", 8, ""),
    ("Europe/Moscow", "Europe/Moscow", "30 2 * * 0", "2010-03-14T00:00", 50, "02:30 on Sunday 28 March 2010"),
    ("America/Sao_Paulo", "America/Sao_Paulo", "59 23 * * *", "2018-02-15T12:00", 7, ""),
)
# What is typed for a zone and is none: the part that is marked, and what is said of it.
WRONG_ZONES = (
    ("Europe/Berln", "Berln", "no zone has this name"),
    ("Europa/Berlin", "Europa/Berlin", "no zone has this name; there is Europe/Berlin"),
    ("new york", "new york", "no zone has this name; there is America/New_York"),
    ("", "\u00a0", "a zone is missing"),
    ("CET-1CEST,M3.5.0,M13.5.0/3", "M13.5.0/3", "no day stands there on which the clock is set"),
    ("CET-1CEST", "\u00a0", "the days of daylight time are missing"),
    ("<+05>+30", "+30", "the offset is a day or more"),
)


class Findings(Results):
    """What passed and failed, of values too."""

    def equal(self, found, wanted, what):
        """Counts whether what was found is what was wanted."""
        self.count(found == wanted, f"{what}: {found!r}, and it has to be {wanted!r}")


# ---- in node

# So many seconds may all tests of the package take. Some wrong lines make a search go on and on.
LONGEST = "240"


def make_project(room, package):
    """A project that has the package as npm puts it, and the tests."""
    shutil.rmtree(room, ignore_errors=True)
    shutil.copytree(package, f"{room}/node_modules/proved-calendar")
    shutil.copytree(f"{FOLDER}/test", f"{room}/test")
    with open(f"{room}/package.json", "w", encoding="utf-8") as it:
        it.write('{ "type": "module", "private": true }\n')
    return room


def run_tests(project):
    """Runs the tests in a project: what passed and failed, and what was printed. Tests that do not end have failed."""
    names = [f"test/{it}" for it in sorted(os.listdir(f"{project}/test")) if it.endswith(".test.js")]
    ran = subprocess.run(
        ["timeout", LONGEST, "node", "--test", *names], cwd=project, stdout=subprocess.PIPE, stderr=subprocess.STDOUT, text=True
    )
    passed, failed = (sum(int(it) for it in re.findall(rf"^# {name} (\d+)$", ran.stdout, re.M)) for name in ("pass", "fail"))
    return passed, failed or int(ran.returncode != 0 or not passed), ran.stdout


def exports_of(module):
    """What a module of WebAssembly imports, and the functions that it exports."""
    script = "const m = new WebAssembly.Module(require('fs').readFileSync(process.argv[1]));"
    script += "console.log(JSON.stringify([WebAssembly.Module.imports(m), WebAssembly.Module.exports(m)]))"
    with tempfile.NamedTemporaryFile(suffix=".wasm") as it:
        it.write(module)
        it.flush()
        ran = subprocess.run(["node", "-e", script, it.name], check=True, capture_output=True, text=True)
    imports, exports = json.loads(ran.stdout)
    return imports, sorted(it["name"] for it in exports if it["kind"] == "function")


# What changes columns in place, which is of no use where a copy of them lies in the module's memory.
IN_PLACE = "_in_place"


def wanted_exports():
    """Of each module the functions that it has to have, how the wrapper calls one, and the files of tests that are named after them."""
    text = re.sub(r"/\*.*?\*/", "", read(layers_c.HEADER), flags=re.S)
    header = languages.for_packages(languages.of_header())
    return {
        "module": ([it for it in header if not re.fullmatch(languages.COLUMNS, it)], "library", ("calls",)),
        "columns_module": ([it for it in header if it.startswith("calendar_column_")], "library", ("columns",)),
        "layers_module": (layers_c.functions_of_header(text), "layers", ("layers", "columns")),
    }


def compare_exports(results, bytes_of_modules):
    """The modules have the functions of the headers, and import nothing; each is called by the wrapper, and has a test of its name."""
    wrapper = "\n".join(read(f"{FOLDER}/src/{it}.js") for it in javascript.SOURCES)
    for source, (wanted, held_by, tests) in wanted_exports().items():
        imports, exports = exports_of(bytes_of_modules[source])
        results.equal(imports, [], f"imports of {source}")
        results.equal(exports, sorted(wanted), f"functions of {source}")
        tests = "\n".join(read(f"{FOLDER}/test/{it}.test.js") for it in tests)
        for name in (it for it in wanted if not it.endswith(IN_PLACE)):
            results.count(re.search(rf"\b{held_by}\.{name}\b", wrapper), f"the wrapper does not call {name}")
            short = name.removeprefix("calendar_")
            results.count(re.search(rf'test\("{short}"|^const FIELDS = .*\b{short}:', tests, re.M), f"no test is named {short}")


def compare_example(results, project):
    """The examples of the README print what stands beside their lines."""
    for number, example in enumerate(re.findall(r"^```js\n(.*?)^```$", read(f"{FOLDER}/README.md"), re.M | re.S)):
        wanted = re.findall(r"^ *console\.log\(.*\); // (.*)$", example, re.M)
        with open(f"{project}/example{number}.js", "w", encoding="utf-8") as it:
            it.write(example)
        ran = subprocess.run(["node", f"example{number}.js"], cwd=project, capture_output=True, text=True)
        results.equal(ran.stdout.splitlines(), wanted, f"example {number} of languages/javascript/README.md {ran.stderr[-2000:]}")
        results.count(wanted, f"example {number} of languages/javascript/README.md prints nothing")


def compare_size(results, bytes_of_modules):
    """The modules are small: they hold the functions, and no memory that is filled at the start."""
    for source, it in bytes_of_modules.items():
        results.count(len(it) <= LARGEST[source], f"{source} has {len(it):,} bytes, which is above {LARGEST[source]:,}")


def check_types(results, project):
    """The types, by the compiler of TypeScript; a wrong call in the file has to be found."""
    if not shutil.which("tsc"):
        print("not run: the types of the package for JavaScript, since there is no tsc")
        return
    words = ["tsc", "--noEmit", "--strict", "--target", "es2022", "--module", "es2022", "--moduleResolution", "node", "types.ts"]
    right = read(f"{FOLDER}/test/types.ts")
    wrong = (right.replace("largestUnit: \"weeks\"", "largestUnit: \"fortnights\""), right.replace('"modifiedFollowing"', '"later"'))
    for text, is_right in ((right, True), *((it, False) for it in wrong)):
        with open(f"{project}/types.ts", "w", encoding="utf-8") as it:
            it.write(text)
        ran = subprocess.run(words, cwd=project, stdout=subprocess.PIPE, stderr=subprocess.STDOUT, text=True)
        results.count((ran.returncode == 0) == is_right, f"{' '.join(words)}: {ran.stdout[-2000:]}")


def compare_peers(results, project):
    """The layers beside croniter, dateutil and numpy, on 20,000 drawn cases each."""
    with open(f"{project}/answers.txt", "w", encoding="utf-8") as it:
        ran = subprocess.run([debian.PYTHON, "-m", "checks.packages.peer_answers"], stdout=it, stderr=subprocess.PIPE, text=True)
    if ran.returncode:
        print(f"not run: the layers beside other programs: {ran.stderr.strip()[-200:] or 'there is no croniter, dateutil or numpy'}")
        return
    words = ["node", "test/peers.js", "answers.txt"]
    ran = subprocess.run(words, cwd=project, stdout=subprocess.PIPE, stderr=subprocess.STDOUT, text=True, timeout=600)
    results.count(ran.returncode == 0, f"{' '.join(words)}: {ran.stdout[-2000:]}")
    if ran.returncode == 0:
        answer = json.loads(ran.stdout)
        print(f"beside other programs: alike {answer['alike']}, left out {answer['leftOut']}, {len(answer['differ'])} otherwise", flush=True)
        for kind, count in answer["alike"].items():
            results.count(count >= 20_000, f"too few answers on {kind} were compared: {count}")
        for it in answer["differ"]:
            results.count(False, it[:1000])


def try_wrong_lines(results, room, bytes_of_modules):
    """Each wrong line in the wrapper fails its tests."""

    def attempt(place, edit):
        folder = planted("javascript", f"{place}/planted", edit)
        package = javascript.make_package(TOP, folder, bytes_of_modules, f"{place}/package")
        return run_tests(make_project(f"{place}/project", package))[:2]

    found = 0
    for number, (edit, (passed, failed)) in enumerate(tried("javascript", room, attempt), 1):
        results.count(failed, f"wrong line {number} of languages/javascript passes all {passed} tests: {edit}")
        found += bool(failed)
    print(f"wrong lines in the wrapper: {found} found", flush=True)
    results.count(found >= 10, "languages/javascript has fewer than ten wrong lines that its tests find")


def in_node(results, room, package, bytes_of_modules):
    if not serves("node", hosts.least_node()):
        print(f"not run: the tests in JavaScript, since there is no node {hosts.least_node()} or later")
        return
    compare_exports(results, bytes_of_modules)
    project = make_project(f"{room}/project", package)
    passed, failed, printed = run_tests(project)
    print(f"node: {passed} passed, {failed} failed", flush=True)
    results.passed, results.failed = results.passed + passed, results.failed + failed
    if failed:
        print(printed[-4000:], flush=True)
    compare_example(results, project)
    cells.run(results, "JavaScript", ["node", "test/cells.js"], cwd=project)
    compare_size(results, bytes_of_modules)
    check_types(results, project)
    compare_peers(results, project)
    try_wrong_lines(results, room, bytes_of_modules)


# ---- in Chromium


def compare_temporal(results, page):
    """The package beside the browser's own Temporal."""
    if page.run("typeof Temporal") != "object":
        print("not run: the package beside Temporal, since this Chromium has none")
        return
    compare_calls(results, page, "temporal", "1, 2_000", 40_000)
    found = {it: f"/usr/share/zoneinfo/{it}" for it in ZONES if os.path.exists(f"/usr/share/zoneinfo/{it}")}
    if not found:
        print("not run: zones beside Temporal, since there is no /usr/share/zoneinfo")
        return
    files = {}
    for name, path in found.items():
        with open(path, "rb") as it:
            files[name] = base64.b64encode(it.read()).decode()
    compare_calls(results, page, "temporal_zones", f"1, 1_000, {json.dumps(files)}", 10_000)


def compare_calls(results, page, name, given, least):
    """What the expression of a file tells of calls that both answer."""
    text = read(f"{FOLDER}/test/{name}.js")
    answer = page.run(f"{text[text.index('(async'):].rstrip()}({given})")
    print(f"{name}.js: {answer['alike']:,} calls answered alike, {len(answer['differ'])} otherwise", flush=True)
    results.count(answer["alike"] > least, f"too few calls of {name}.js were compared with Temporal")
    for it in answer["differ"]:
        results.count(False, it[:1000])


def caltool_answers(lines):
    """The answers of caltool to some lines: the program's, if it is built."""
    if not os.path.exists(fuzz.CALTOOL):
        print("not run: the page beside caltool itself, since there is no crates/caltool/out/caltool: checks/programs/fuzz.py answers for it")
        return [fuzz.answer(it.encode()) for it in lines]
    ran = subprocess.run([fuzz.CALTOOL], input="\n".join(lines) + "\n", capture_output=True, text=True, check=True, timeout=120)
    return ran.stdout.splitlines()


def drawn_lines(count):
    """Lines of checks/programs/fuzz.py that a field of one line can hold."""
    chance, lines = random.Random(1), []
    while len(lines) < count:
        line = fuzz.a_line(chance).decode("latin-1")
        if line.isascii() and line.isprintable():
            lines.append(line)
    return lines


def use_lines(results, page):
    """Lines are answered as caltool answers them: some typed, and many by the function behind the field."""
    examples = page.run("[...document.querySelectorAll('#examples button')].map((it) => it.ariaLabel.split(':')[0])")
    results.equal(sorted(it.split()[0] for it in examples), sorted(fuzz.COMMANDS), "the examples of the page")
    lines = [*examples, "", "ymd 2023 2 29", "ymd 2024 2", *drawn_lines(3_000)]
    wanted = caltool_answers(lines)
    for line, answer in list(zip(lines, wanted))[:60]:
        page.type("#line", line)
        results.equal(page.text("#answer"), answer, f"the page's answer to {line!r}")
    answers = page.run(f"import('answers').then((it) => {json.dumps(lines)}.map(it.answerOf))")
    differ = [it for it in zip(lines, answers, wanted) if it[1] != it[2]]
    results.count(not differ, f"the page answers otherwise than caltool: {differ[:5]}")
    page.run("document.querySelectorAll('#examples button')[2].click()")
    results.equal(page.text("#answer"), "2021-01-03 737793 Sun 2020-W53 3", "the answer to the third example")


def label_of(number):
    """What a screen reader reads of a day in the sheet."""
    year, month, day = counted.name_of(number)
    names = f"{WEEKDAYS[counted.weekday_of(number)]} {day} {MONTHS[month - 1]} {fuzz.year_text(year)}"
    return f"{names}, week {counted.week_of(number)[1]}, day {counted.ordinal_of(number)} of the year, day number {number}"


def compare_sheet(results, page, year, month):
    """The days of a month in the sheet, the weeks beside them, and what the chosen day is called."""
    first = counted.day_of(year, month, 1)
    days = range(first, first + counted.month_lengths(year)[month - 1])
    results.equal(page.run("[...document.querySelectorAll('#sheet td button')].map((it) => it.ariaLabel)"),
                  [label_of(it) for it in days], f"the days of {year}-{month}")
    weeks = list(dict.fromkeys(f"W{counted.week_of(it)[1]:02}" for it in days))
    results.equal(page.run("[...document.querySelectorAll('#sheet tbody th')].map((it) => it.textContent)"), weeks, f"weeks of {year}-{month}")
    columns = page.run("[...document.querySelectorAll('#sheet td button')].map((it) => it.parentNode.cellIndex)")
    results.equal(columns, [counted.weekday_of(it) + 1 for it in days], f"the columns of {year}-{month}")
    chosen = page.run("document.querySelector('#sheet [aria-selected=\"true\"] button').dataset.date")
    number = next((it for it in days if fuzz.date_text(it) == chosen), None)
    year_of_week, week = counted.week_of(number)
    names = [chosen, WEEKDAYS[counted.weekday_of(number)], f"{fuzz.year_text(year_of_week)}-W{week:02}-{counted.weekday_of(number) + 1}",
             f"{fuzz.year_text(year)}-{counted.ordinal_of(number):03}", f"{number:,}"]
    results.equal(page.run("[...document.querySelectorAll('#names dd')].map((it) => it.textContent)"), names, f"the names of {chosen}")


def use_month(results, page):
    """Months are chosen by their fields, by buttons and by the keyboard."""
    today = in_zone(PRESENT, OWN_ZONE)
    compare_sheet(results, page, today.year, today.month)
    for year, month in ((2024, 2), (2021, 1), (2020, 12), (-1, 2), (10_000, 1), (262_142, 12), (-262_143, 1)):
        page.type("#year", str(year))
        page.run(f"(() => {{ const it = document.querySelector('#month'); it.value = '{month}'; it.dispatchEvent(new Event('change')); }})()")
        compare_sheet(results, page, year, month)
    page.run("document.querySelector('#earlier').click()")
    results.count("beyond the calendar" in page.text("#month-trouble"), "the month before the first is not refused")
    page.type("#year", "300000")
    results.count("300000" in page.text("#month-trouble"), "the year 300000 is not refused")
    page.type("#year", "2024")
    page.run("document.querySelector('#later').click()")
    compare_sheet(results, page, 2024, 2)
    page.run("document.querySelector('#sheet [data-date=\"2024-02-29\"]').click()")
    chosen = "document.activeElement.dataset.date"
    for key, wanted in (("ArrowRight", "2024-03-01"), ("ArrowUp", "2024-02-23"), ("ArrowDown", "2024-03-01"), ("ArrowLeft", "2024-02-29"),
                        ("Home", "2024-02-26"), ("End", "2024-03-03"), ("PageUp", "2024-02-03"), ("PageDown", "2024-03-03")):
        page.press(key)
        results.equal(page.run(chosen), wanted, f"the day that {key} leads to")
    compare_sheet(results, page, 2024, 3)


def marked(page):
    """The fields that are marked as wrong."""
    return page.run("[...document.querySelectorAll('[aria-invalid]')].map((it) => it.id)")


def dues(is_due, start, count):
    """The first moments after a start at which something is due, found minute by minute."""
    found, moment = [], start.replace(second=0, microsecond=0)
    while len(found) < count:
        moment += datetime.timedelta(minutes=1)
        if is_due(moment):
            found.append(moment)
    return found


def moments(page):
    """The times that are shown, with their offsets."""
    return page.run("[...document.querySelectorAll('#due li')].map((it) => it.dataset.moment)")


def is_refused(results, page, field, text, wrong, reason):
    """A text in a field is wrong: a part of it is marked below the field, and what is wrong is said there."""
    page.type(f"#{field}", text)
    place = f"document.querySelector('#{field}-trouble')"
    results.equal(page.run(f"[...{place}.querySelectorAll('mark')].map((it) => it.textContent)"), [wrong], f"the mark in {text!r}")
    results.equal(page.run(f"{place}.querySelector('.at').textContent"), text + wrong * (wrong == "\u00a0"), f"the text of {text!r}")
    results.equal(page.text(f"#{field}-trouble span"), reason, f"what is wrong with {text!r}")
    results.equal((marked(page), moments(page)), ([field], []), f"the field marked at {text!r}, and what is due")


def use_schedule(results, page):
    """Cron lines in words with their next five times, and what is wrong with a line, at its place."""
    start = datetime.datetime(2024, 2, 9, 4, 30, 15, tzinfo=datetime.timezone.utc)
    page.type("#zone", "UTC")
    page.type("#after", start.replace(tzinfo=None).isoformat())
    for text, words, is_due in SCHEDULES:
        page.type("#cron", text)
        results.equal(page.text("#cron-words"), f"{words}.", f"{text!r} in words")
        results.equal(moments(page), [it.isoformat() for it in dues(is_due, start, 5)], f"the next times of {text!r}")
    results.equal(page.text("#due li"), "04:30 UTC +00:00\nMonday 12 February 2024\n3 days later", "what is shown of a time")
    for row in WRONG_SCHEDULES:
        is_refused(results, page, "cron", *row)
        results.equal(page.text("#cron-words"), "", f"the words of {row[0]!r}")
    page.type("#cron", "0 0 30 2 *")
    results.equal(page.text("#cron-trouble"), "no date is due after that", "what is said of a schedule that is never due")
    page.type("#after", "2024-02-30")
    results.equal(marked(page), ["after"], "the fields marked at a start that is none")
    results.equal(page.text("#after-trouble"), '"2024-02-30": no text of a date-time', "what is said of a start that is none")
    page.run("document.querySelector('#now').click()")
    results.equal((marked(page), page.text("#after-trouble")), ([], ""), "the fields marked now")
    page.run("document.querySelector('#cron-examples button').click()")
    results.count(page.text("#cron-words"), "an example of a cron line shows nothing")


def in_zone(moment, name):
    """What the clock of a zone shows at a moment."""
    return moment.astimezone(zoneinfo.ZoneInfo(name))


def zoned_dues(name, text, start, days, count):
    """The first moments after a local start at which a cron runs a job in a zone, found minute by minute."""
    zone, schedule = zoneinfo.ZoneInfo(name), zoned_schedules.Schedule(text)
    first = int(datetime.datetime.fromisoformat(start).replace(tzinfo=zone).timestamp())
    minutes = list(zoned_schedules.walk(zone, first - zoned_schedules.DAY, first + days * zoned_schedules.DAY))
    run = zoned_schedules.cron(minutes, schedule, *zoned_schedules.policy_of(schedule, "-", "vixie"))
    return [datetime.datetime.fromtimestamp(it, zone) for it in run if it > first][:count]


def name_shown(moment, is_numbered=False):
    """What the page shows of the zone at a moment: the name, unless it is a number, and the offset."""
    name, offset = moment.tzname(), moment.isoformat()[-6:]
    return offset if is_numbered or name[0] in "+-" else f"{name} {offset}"


def is_moved(moment, text):
    """Whether a cron line does not list what the clock shows at a moment, at which it is due as a gap ends."""
    minute = (moment.replace(tzinfo=None) - datetime.datetime(1970, 1, 1)) // datetime.timedelta(minutes=1)
    return not zoned_schedules.Schedule(text).is_planned(minute)


def which_of(moment):
    """Which of two it is, of a time that the clock shows twice; the empty text for another."""
    is_twice = moment.utcoffset() != moment.replace(fold=1 - moment.fold).utcoffset()
    return ("first", "second")[moment.fold] if is_twice else ""


def use_zone(results, page):
    """The next times in zones near changes of the clock, now in each zone, and what is wrong with a zone, at its place."""
    for typed, name, text, start, days, skipped in ZONED:
        page.type("#zone", typed)
        page.type("#after", start)
        page.type("#cron", text)
        wanted, what = zoned_dues(name, text, start, days, 5), f"{text!r} in {typed} from {start}"
        results.equal((len(wanted), moments(page)), (5, [it.isoformat() for it in wanted]), f"the next times of {what}")
        shown = page.run("[...document.querySelectorAll('#due .zone')].map((it) => it.textContent)")
        results.equal(shown, [name_shown(it, typed[0] == "<") for it in wanted], f"the offsets of {what}")
        note = skipped and f"The clock skips {skipped}, so it is due as the gap ends."
        results.equal(page.text("#skipped"), note, f"what is said of gaps by {what}")
        smalls = page.run("[...document.querySelectorAll('#due small')].map((it) => it.textContent)")
        results.equal([", for " in it for it in smalls], [is_moved(it, text) for it in wanted], f"times of gaps by {what}")
        results.equal([" ".join(re.findall(r", the (\w+) of two", it)) for it in smalls], [which_of(it) for it in wanted], f"times of folds by {what}")
    for row in WRONG_ZONES:
        is_refused(results, page, "zone", *row)
        results.equal(page.text("#cron-words"), "At 23:59, every day.", f"the words beside the zone {row[0]!r}")
    use_now(results, page)


def use_now(results, page):
    """The time after which it is due is now in each zone that is chosen, until another is typed."""
    page.type("#zone", OWN_ZONE)
    page.run("document.querySelector('#now').click()")
    for name in (OWN_ZONE, "America/New_York", "Asia/Kathmandu"):
        page.type("#zone", name)
        now = in_zone(PRESENT, name).replace(tzinfo=None).isoformat()
        results.equal(page.run("document.querySelector('#after').value"), now, f"now in {name}")
    page.type("#after", "2024-10-27T02:30+01:00")
    page.type("#zone", OWN_ZONE)
    page.type("#cron", "45 * * * *")
    results.equal(page.run("document.querySelector('#after').value"), "2024-10-27T02:30+01:00", "a time that was typed, in another zone")
    results.equal(moments(page)[0], "2024-10-27T02:45:00+01:00", "the next time after the second hour of two")


def use_keys(results, page):
    """A zone is chosen by the keyboard alone."""
    page.type("#after", "2024-07-01T12:00")
    page.type("#cron", "0 8 * * *")
    page.press("Tab")
    page.call("Input.insertText", text="Asia/Kolkata")
    results.equal((page.run("document.activeElement.id"), moments(page)[0]), ("zone", "2024-07-02T08:00:00+05:30"), "a zone by the keyboard")
    while page.run("document.activeElement.closest('#zone-examples')") is None:
        page.press("Tab")
    example = page.run("document.activeElement.textContent")
    page.press("Enter")
    results.equal((example, page.run("document.activeElement.value")), (OWN_ZONE, OWN_ZONE), "the first example of a zone, by the keyboard")
    results.equal(moments(page)[0], "2024-07-02T08:00:00+02:00", "the next time in that zone")
    page.run("document.activeElement.blur()")
    page.click("#zone")
    page.call("Input.insertText", text="Asia/Tokyo")
    results.equal(page.run("document.querySelector('#zone').value"), "Asia/Tokyo", "what is typed after a click into the zone")
    names = page.run("[...document.querySelector('#zone').list.options].map((it) => it.value)")
    results.count({"UTC", "Europe/Berlin", "Asia/Tokyo"} <= set(names) <= zoneinfo.available_timezones(), f"the names that are offered: {names}")


def compare_zones(results, page):
    """The offset and the name of each zone at drawn instants and around changes of the clock, beside zoneinfo."""
    chance, asked = random.Random(1), {}
    for name, file in zone_texts.files(zone_texts.FOLDER).items():
        changes = [it for it, _ in zone_texts.parts(file)[2] if it > -5_000_000_000]
        near = [it - less for it in chance.sample(changes, min(len(changes), 10)) for less in (0, 1)]
        asked[name] = [*near, *(chance.randrange(-4_000_000_000, 6_000_000_000) for _ in range(20))]
    script = """import('zones').then(({ zoneOf }) => Object.entries(ASKED).map(([name, seconds]) => {
        const { zone, nameAt } = zoneOf(name);
        return seconds.map((it) => `${zone.offsetAt(BigInt(it))} ${nameAt(it)}`);
    }))"""
    for (name, seconds), found in zip(asked.items(), page.run(script.replace("ASKED", json.dumps(asked)))):
        there = [in_zone(datetime.datetime.fromtimestamp(0, datetime.timezone.utc) + datetime.timedelta(seconds=it), name) for it in seconds]
        wanted = [f"{int(it.utcoffset().total_seconds())} {it.tzname()}" for it in there]
        differ = [it for it in zip(seconds, found, wanted) if it[1] != it[2]]
        results.count(not differ, f"{name} is otherwise than in zoneinfo: {differ[:3]}")
    results.count(len(asked) > 400, f"too few zones were compared: {len(asked)}")


def use_rule(results, page):
    """The days of rules, marked in a year, beside dateutil where it is installed, and what is wrong with a rule, at its place."""
    page.type("#rule-start", "2024-01-01")
    page.type("#rule-year", "2024")
    for text, days in RULES:
        page.type("#rule", text)
        wanted = [it.isoformat() for it in days]
        results.equal(page.run("[...document.querySelectorAll('#year-sheet [data-date]')].map((it) => it.dataset.date)"), wanted, f"days of {text}")
        told = f"{len(days)} day{'' if len(days) == 1 else 's'} in 2024"
        results.equal(page.text("#rule-words strong"), told, f"the days of {text} in words")
    results.equal(page.run("document.querySelectorAll('#year-sheet table').length"), 12, "months of the year")
    cells = "[...document.querySelectorAll('#year-sheet td')].filter((it) => it.textContent).length"
    results.equal(page.run(cells), 366, "days of the year 2024")
    columns = "[...document.querySelectorAll('#year-sheet [data-date]')].map((it) => it.cellIndex)"
    page.type("#rule", "FREQ=MONTHLY;BYDAY=-1FR")
    results.equal(page.run(f"new Set({columns}).size + '/' + {columns}[0]"), "1/4", "the column of Fridays")
    results.count("the next one after 2024 is Friday 31 January 2025" in page.text("#rule-words"), "the next day of a rule is not told")
    page.type("#rule", "FREQ=YEARLY;BYMONTH=5,13")
    results.equal(page.run("document.querySelector('#rule-trouble mark').textContent"), "13", "the mark in a wrong rule")
    results.equal((page.text("#rule-words"), marked(page)), ("", ["rule"]), "what else is shown of a wrong rule")
    page.type("#rule", "FREQ=DAILY")
    page.type("#rule-year", "300000")
    results.equal(marked(page), ["rule-year"], "the fields marked at a year that there is not")
    page.type("#rule-year", "2024")
    page.run("document.querySelectorAll('#rule-examples button')[3].click()")
    results.equal(page.text("#rule-words strong"), "10 days in 2024", "the fourth example of a rule")


def use_open_days(results, page):
    """Open days between two dates, and wrong holidays at their place."""
    page.type("#from", "2024-03-01")
    page.type("#to", "2024-04-01")
    for holidays, wanted in (("", 21), ("2024-03-29", 20), ("2024-04-01, 2024-03-29;2024-03-30", 20), ("2024-03-29 2024-03-28", 19)):
        page.type("#holidays", holidays)
        results.equal(page.text("#open strong"), f"{wanted} open days", f"open days with the holidays {holidays!r}")
    page.type("#holidays", "2024-03-29 2024-04-01")
    page.type("#to", "2024-03-29")
    results.count("Friday 29 March 2024 is closed; the next open day is Tuesday 2 April 2024" in page.text("#open"), "a closed day is not told")
    page.run("document.querySelector('#weekend input').click()")
    results.equal(page.text("#open strong"), "16 open days", "open days without Mondays")
    page.run("document.querySelector('#weekend input').click()")
    page.type("#to", "2024-04-01")
    page.run("(() => { const it = document.querySelector('#known'); it.value = 'target'; it.dispatchEvent(new Event('change')); })()")
    held = "2024-01-01 2024-03-29 2024-04-01 2024-05-01 2024-12-25 2024-12-26"
    results.equal((page.run("document.querySelector('#holidays').value"), page.text("#open strong")), (held, "20 open days"), "the holidays of TARGET")
    page.type("#holidays", "2024-03-29, 2024-02-30")
    results.equal(page.run("document.querySelector('#holidays-trouble mark').textContent"), "2024-02-30", "the holiday that is marked")
    results.equal((page.text("#holidays-trouble span"), marked(page), page.text("#open")), ("no date", ["holidays"], ""), "what a wrong holiday shows")
    page.type("#holidays", "")


def use_between(results, page):
    """The days between two dates."""
    for one, other in (("2024-02-29", "2025-02-28"), ("2025-02-28", "2024-02-29"), ("2024-02-29", "2024-02-29"), ("0001-01-01", "9999-12-31")):
        page.type("#from", one)
        page.type("#to", other)
        days = (datetime.date.fromisoformat(other) - datetime.date.fromisoformat(one)).days
        results.equal(page.text("#between strong"), f"{days:,} day{'' if abs(days) == 1 else 's'}", f"days from {one} to {other}")
    page.run("document.querySelector('#swap').click()")
    results.equal(page.text("#between strong"), "-3,652,058 days", "days after a swap")
    page.type("#from", "2024-02-30")
    results.equal(page.text("#between"), '"2024-02-30": no text of a date', "what is said of 2024-02-30")
    results.equal(page.run("document.querySelector('#from').getAttribute('aria-invalid')"), "true", "whether the field is marked")
    results.equal(marked(page), ["from"], "the fields marked at 2024-02-30")
    page.type("#from", "2024-02-29")
    page.type("#to", "")
    results.equal(marked(page), ["to"], "the fields marked at an empty date")
    page.type("#to", "2024-02-29")
    results.equal(page.run("document.querySelector('#from').hasAttribute('aria-invalid')"), False, "whether the field is still marked")


def use_row(results, page):
    """Dates every so many months."""
    for text, step, count in (("2024-01-31", 1, 12), ("2024-02-29", 12, 8), ("2024-05-31", -1, 6)):
        page.type("#start", text)
        page.type("#step", str(step))
        page.type("#count", str(count))
        start = datetime.date.fromisoformat(text)
        moved = [datetime.date.fromordinal(counted.month_move(start.toordinal(), step * it)) for it in range(count)]
        leaves = page.run("[...document.querySelectorAll('#row li')].map((it) => [it.dataset.date, it.className])")
        results.equal(leaves, [[f"{it}", "short" if it.day < start.day else ""] for it in moved], f"every {step} months from {text}")
        gaps = ["start", *(f"{(b - a).days} days" for a, b in zip(moved, moved[1:]))]
        results.equal(page.run("[...document.querySelectorAll('#row .gap')].map((it) => it.textContent)"), gaps, f"days between from {text}")
    page.type("#start", "+262142-12-31")
    page.type("#step", "1")
    results.count("the calendar ends after 1" in page.text("#row-trouble"), "the end of the calendar is not told")
    results.equal(marked(page), [], "the fields marked where the calendar ends")
    page.type("#step", "")
    results.equal(marked(page), ["step"], "the fields marked at an empty step")
    page.type("#step", "1")
    page.type("#start", "2024-02-30")
    results.equal(marked(page), ["start"], "the fields marked at a start that is none")
    page.type("#start", "2024-01-31")


def read_aloud(results, page):
    """What can be reached has a role and a name; tables and rows have theirs."""
    page.call("Accessibility.enable")
    nodes = page.call("Accessibility.getFullAXTree")["nodes"]
    kinds = {"button", "textbox", "combobox", "spinbutton", "grid", "list", "region", "status", "checkbox"}
    named = [(it["role"]["value"], it.get("name", {}).get("value", "")) for it in nodes if it.get("role", {}).get("value") in kinds]
    for kind, name in named:
        results.count(name or kind in ("status", "list"), f"a {kind} of the page has no name")
    wanted = {("textbox", "A command and its numbers"), ("textbox", "From"), ("textbox", "To"), ("combobox", "Month"), ("spinbutton", "Year"),
              ("button", "The month before"), ("spinbutton", "Months apart"), ("region", "Ask a line"), ("list", "The dates"),
              ("textbox", "Cron line"), ("combobox", "Time zone"), ("textbox", "After"), ("textbox", "Rule"), ("combobox", "Holidays of"), ("list", "The next five times"), ("checkbox", "Monday"), ("textbox", "and on the holidays")}
    results.equal(wanted - set(named), set(), "what a screen reader does not find")
    page.run("document.querySelector('#cron').focus()")
    reached = []
    for _ in range(90):
        reached.append(page.run("document.activeElement.id || document.activeElement.dataset.date && 'day' || ''"))
        page.press("Tab")
    for it in ("cron", "zone", "after", "now", "rule", "rule-start", "rule-year", "known", "from", "to", "swap", "holidays", "month", "year", "earlier", "today", "later", "day", "line", "start", "step",
               "count", "row"):
        results.count(it in reached, f"the Tab key does not reach {it}")


CONTRAST = """((names) => {
  const light = (rgb) => rgb.slice(0, 3).map((it) => it / 255).map((it) => (it <= 0.04045 ? it / 12.92 : ((it + 0.055) / 1.055) ** 2.4))
    .reduce((sum, it, index) => sum + it * [0.2126, 0.7152, 0.0722][index], 0);
  const parts = (text) => text.match(/[\\d.]+/g).map(Number);
  const behind = (it) => { for (; it; it = it.parentElement) { const rgb = parts(getComputedStyle(it).backgroundColor);
    if (rgb.length < 4 || rgb[3] === 1) return rgb; } return [255, 255, 255]; };
  return names.map((name) => { const it = document.querySelector(name); const [a, b] = [light(parts(getComputedStyle(it).color)), light(behind(it))];
    return [name, (Math.max(a, b) + 0.05) / (Math.min(a, b) + 0.05)]; });
})"""
# What is read on the page, and what of a wrong zone.
READ = ("h1", "header p", "label", ".help", "#answer", "#sheet caption", "#sheet th", "#sheet td button", "#sheet td small",
        '#sheet [aria-selected="true"] button', "#names dt", "#names dd", "#between strong", "#open strong", "#cron-words", "#due li",
        "#due strong", "#due small", "#due .zone", "#skipped", "legend", ".check", "#year-sheet caption", "#year-sheet td",
        "#year-sheet mark", "#rule-words strong", "#row .month", "#row .gap", "#today", "#line", "footer p")
READ_OF_WRONG = ("#zone-trouble span", "#zone-trouble mark", "#zone-trouble .at")


def fit(results, page, width):
    """Nothing is wider than the page."""
    results.equal(page.run("document.documentElement.scrollWidth <= innerWidth"), True, f"whether the page fits {width} pixels")


def stand_out(results, page, scheme, names):
    """Texts stand out from what is behind them."""
    for name, ratio in page.run(f"{CONTRAST}({json.dumps(names)})"):
        results.count(ratio >= 4.5, f"{name} in {scheme} has a contrast of {ratio:.2f}, less than 4.5")


def look(results, page, path):
    """Light and dark, wide and narrow: nothing is cut off, and texts stand out from what is behind them."""
    papers = set()
    for scheme in ("light", "dark"):
        page.call("Emulation.setEmulatedMedia", features=[{"name": "prefers-color-scheme", "value": scheme}])
        for width in (1_120, 390, 320):
            page.call("Emulation.setDeviceMetricsOverride", width=width, height=900, deviceScaleFactor=1, mobile=width < 500)
            page.open(path)
            fit(results, page, width)
            page.type("#after", "2024-03-30T12:00")
            page.type("#cron", "30 2 * * *")
            page.type("#zone", "CET-1CEST-2,M3.5.0/02:00:00,M10.5.0/03:00:00")
            results.count(page.text("#skipped"), f"no gap is told at {width} pixels")
            fit(results, page, width)
            stand_out(results, page, scheme, READ)
            page.type("#zone", "CET-1CEST-2,M3.5.0/02:00:00,M13.5.0/03:00:00")
            fit(results, page, width)
            stand_out(results, page, scheme, READ_OF_WRONG)
        papers.add(page.run("getComputedStyle(document.body).backgroundColor"))
    results.count(len(papers) == 2, "the page is as bright in dark as in light")


def use_without_module(results, page, path):
    """Where the module does not load the page says so."""
    script = "WebAssembly.Module = function () { throw new WebAssembly.CompileError('none'); };"
    added = page.call("Page.addScriptToEvaluateOnNewDocument", source=script)
    page.open(path)
    told = page.text("#trouble")
    results.count("does not load here" in told and "Firefox" in told, f"a page without its module says {told!r}")
    page.call("Page.removeScriptToEvaluateOnNewDocument", identifier=added["identifier"])
    page.events.clear()


def stop_clock(page):
    """Gives the pages that are opened from now on a zone of the machine, and a present moment that stays."""
    page.call("Emulation.setTimezoneOverride", timezoneId=OWN_ZONE)
    page.call("Page.addScriptToEvaluateOnNewDocument", source=STILL_CLOCK)


def open_elsewhere(results, page, path):
    """The page begins in the zone of the machine, of whatever name, and in UTC if it does not have that zone."""
    for name, wanted in (("Etc/GMT+5", "Etc/GMT+5"), ("Asia/Calcutta", "Asia/Calcutta"), ("Mars/Olympus", "UTC")):
        source = f"Intl.DateTimeFormat.prototype.resolvedOptions = () => ({{ timeZone: {json.dumps(name)} }})"
        added = page.call("Page.addScriptToEvaluateOnNewDocument", source=source)
        page.open(path)
        results.equal(page.run("document.querySelector('#zone').value"), wanted, f"the zone of a machine in {name}")
        now = in_zone(PRESENT, wanted).replace(tzinfo=None).isoformat()
        results.equal(page.run("document.querySelector('#after').value"), now, f"now on a machine in {name}")
        page.call("Page.removeScriptToEvaluateOnNewDocument", identifier=added["identifier"])


def in_chromium(results, path):
    if not chromium.found():
        print("not run: the page, since there is no chromium")
        return
    with chromium.Chromium() as page:
        use_without_module(results, page, path)
        stop_clock(page)
        page.open(path)
        results.equal(page.run("document.querySelector('#trouble').hidden"), True, "whether the page has no trouble to tell")
        results.equal(page.text("#answer"), "2024-02-29 738945 Thu 2024-W09 60", "the first answer of the page")
        shown = [page.run(f"document.querySelector('#{it}').value") for it in ("zone", "after")]
        results.equal(shown, [OWN_ZONE, in_zone(PRESENT, OWN_ZONE).replace(tzinfo=None).isoformat()], "the first zone and time of the page")
        for use in (use_schedule, use_zone, use_keys, compare_zones, use_rule, use_open_days, use_between, use_month, use_lines, use_row, read_aloud, compare_temporal):
            use(results, page)
        look(results, page, path)
        open_elsewhere(results, page, path)
        results.equal(page.faults(), [], "what the page threw")
        results.equal(page.run("performance.getEntriesByType('resource').filter((it) => !it.name.startsWith('data:')).map((it) => it.name)"), [],
                      "what the page loads")


def take_picture(path):
    """A picture of the page in spring 2024, in few colours, so that its file is small."""
    with tempfile.TemporaryDirectory(prefix="javascript-") as room, chromium.Chromium() as page:
        size = {"width": 1_040, "deviceScaleFactor": 1, "mobile": True}
        page.call("Emulation.setEmulatedMedia", features=[{"name": "prefers-color-scheme", "value": "light"}])
        page.call("Emulation.setDeviceMetricsOverride", height=900, **size)
        stop_clock(page)
        page.open(javascript.make(TOP, None, room)[1])
        page.type("#after", "2024-03-15T04:30:00")
        page.type("#year", "2024")
        page.run("(() => { const it = document.querySelector('#month'); it.value = '2'; it.dispatchEvent(new Event('change')); })()")
        page.run("(() => { document.querySelector('#sheet [data-date=\"2024-02-29\"]').click(); document.activeElement.blur(); })()")
        height = page.run("document.documentElement.scrollHeight")
        page.call("Emulation.setDeviceMetricsOverride", height=height, **size)
        picture = page.picture({"x": 0, "y": 0, "width": 1_040, "height": height, "scale": 0.7}, colours=64)
    with open(path, "wb") as it:
        it.write(picture)


def main():
    if sys.argv[1:2] == ["--picture"]:
        take_picture(sys.argv[2])
        return 0
    results = Findings()
    with tempfile.TemporaryDirectory(prefix="javascript-") as room:
        try:
            bytes_of_modules = javascript.modules(TOP)
            package, page = javascript.make(TOP, None, f"{room}/dist")
        except packages.Missing as it:
            print(f"not run: the package for JavaScript, since there is {it}")
            print("0 passed, 1 failed")
            return 1
        in_node(results, room, package, bytes_of_modules)
        hosts.compare(results, bytes_of_modules)
        in_chromium(results, page)
    print(f"{results.passed} passed, {results.failed} failed")
    return 1 if results.failed else 0


if __name__ == "__main__":
    sys.exit(main())
