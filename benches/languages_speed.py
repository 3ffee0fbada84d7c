#!/usr/bin/env python3
"""Measures calls of the calendar from C, Python and Rust, each beside that language's own, in one run: how many times as fast ours are.

    benches/languages_speed.py [COUNT]        (20 million from C and Rust if left out, and a hundredth of them from Python)

Beside C's stand the calls `timegm`, `gmtime_r`, `strftime` and `strptime` of its library, beside Python's its `datetime`, and
beside Rust's chrono. It needs crates/calendar_c/out/libcalendar_c.a, which `rt lib` leaves there, a C compiler, what the wheel
needs, and librust-chrono-dev with cargo. C and Rust are linked with the library itself, without optimisation across the call; for
Python the wheel is made, and most of what a call takes there is Python's own. A second table has each call from Python beside
datetime's, as benches/languages/python_calls.py times them.

The programs of benches/languages make each call on the same pseudo-random arguments, from the 400 years from 1800 on, and print
the sum of the answers, which has to be the same before any is timed. They take turns in 21 rounds over all calls, and the best
run counts, by processor time, less that of `none`, which draws, looks up and adds without a call.
"""
import os
import subprocess
import sys
import tempfile
import zipfile

from calls import COMPARED, best_times, compare_sums

TOP = os.path.dirname(os.path.dirname(os.path.abspath(__file__)))
sys.path.insert(0, os.path.join(TOP, "tools"))
import packages  # noqa: E402
from debian import build_over_chrono  # noqa: E402
from packages import python  # noqa: E402

LIBRARY = os.path.join(TOP, "crates", "calendar_c", "out", "libcalendar_c.a")
LAYERS = os.path.join(TOP, "crates", "layers_c", "out", "liblayers_c.a")
SOURCES = os.path.join(TOP, "benches", "languages")

# What each language is timed beside, and with how many calls fewer.
LANGUAGES = {"C": ("libc", 1), "Python": ("datetime", 100), "Rust": ("chrono", 1)}
CALLS = {
    "name_to_number": "C Python Rust",
    "number_to_name": "C Python Rust",
    "iso_week": "Python Rust",
    "add_days": "Python Rust",
    "add_months": "Rust",
    "write_date": "C Python Rust",
    "read_date": "C Python Rust",
    "date_time_add": "Python Rust",
    "date_time_since": "Python Rust",
}
NOTES = """
`number_to_name` is read as year, month and day, and `iso_week` as ISO year and week, with a call of ours for each. Dates are moved
by up to 100,000 days or 1,200 months. C's library writes and reads a date by way of `struct tm`. What `date_time_add` reaches is read
from Rust as day number and second of the day."""


def build(folder):
    """The programs of the languages; Python's finds the package by the environment."""
    compiler = ["cc", "-std=c99", "-O2", f"-I{os.path.join(TOP, 'languages', 'c')}"]
    subprocess.run([*compiler, f"{SOURCES}/c_sums.c", LIBRARY, "-o", f"{folder}/c_sums"], check=True)
    packages.build(LIBRARY, folder)
    packages.build(LAYERS, folder, packages.LAYERS)
    _, wheel = sorted(python.make(TOP, folder, f"{folder}/dist"))
    with zipfile.ZipFile(wheel) as it:
        it.extractall(f"{folder}/python")
    os.environ["PYTHONPATH"] = f"{folder}/python"
    os.environ["CALENDAR_FOLDER"] = folder
    rust = build_over_chrono(folder, "benches/languages/rust_sums")
    return {"C": f"{folder}/c_sums", "Python": f"{SOURCES}/python_sums.py", "Rust": rust}


def runs_of(language, program):
    """Each call, by whom it is made, in which program, and its name there."""
    yield "none", "none", program, "none"
    for call, languages in CALLS.items():
        if language in languages.split():
            for who in ("ours", "theirs"):
                yield call, who, program, f"{who}.{call}"


def cells(best, call, count):
    """Of a call from a language: the nanoseconds of theirs and of ours, and how often our time goes into theirs."""
    if (call, "ours") not in best:
        return ["", "", ""]
    ours, theirs = ((best[call, who] - best["none", "none"]) / count * 1e9 for who in ("ours", "theirs"))
    return [f"{theirs:.1f}", f"{ours:.1f}", f"{theirs / ours:.2f}"]


def main():
    count = int(sys.argv[1]) if len(sys.argv) > 1 else 20_000_000
    tables = {}
    with tempfile.TemporaryDirectory() as folder:
        for language, program in build(folder).items():
            runs, fewer = list(runs_of(language, program)), LANGUAGES[language][1]
            compare_sums(runs, COMPARED // fewer)
            tables[language] = best_times(runs, count // fewer)
        words = [python.python(), f"{SOURCES}/python_calls.py"]
        of_python = subprocess.run(words, check=True, stdout=subprocess.PIPE, text=True).stdout
        version = subprocess.run([words[0], "--version"], check=True, stdout=subprocess.PIPE, text=True).stdout.strip()
    print("Nanoseconds a call, and how many times as fast as a language's own calendar ours is\n")
    heads = [f"{own} | from {language} | times as fast" for language, (own, _) in LANGUAGES.items()]
    print(f"| Call | {' | '.join(heads)} |\n|---{'|---' * 9}|")
    for call in CALLS:
        row = [it for name, best in tables.items() for it in cells(best, call, count // LANGUAGES[name][1])]
        print(f"| `{call}` | {' | '.join(row)} |")
    print(NOTES)
    print(f"\nFrom {version}, each call\n\n| Kind | Call | datetime | ours | times as fast |\n|---|---|---|---|---|\n{of_python}", end="")


if __name__ == "__main__":
    main()
