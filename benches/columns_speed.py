#!/usr/bin/env python3
"""Measures the columns of the calendar beside the same calls one by one, chrono, numpy and plain loops of C, in one run.

    benches/columns_speed.py [MILLIONS]        (100 million elements in the second table if left out)

It needs a C compiler, the kit's own for the loops of C (`rt doc` tells where it lies) and crates/calendar_c/out/libcalendar_c.a,
which `rt lib` leaves there. A second library, crates/calendar_c/out/libcalendar_c-v3.a, made by `rt lib --cpu x86-64-v3` and kept
under that name, is measured too if it is there. With librust-chrono-dev and cargo chrono stands beside them, and with numpy, of this
interpreter or Debian's, numpy.

Each program fills a column with dates of the 400 years from 1800 on, compares the answers before any is timed, and then makes all calls
in turn; the least time of each counts, by processor time, as nanoseconds an element. In the first table a column has 32,768
elements, which the second cache holds; in the second as many millions as were asked for. The loops of C are built twice: with the
flags by which the kit compiles Rattle, and by -O3 alone, in the columns that say plain.
"""
import os
import shutil
import subprocess
import sys
import tempfile

TOP = os.path.dirname(os.path.dirname(os.path.abspath(__file__)))
sys.path.insert(0, os.path.join(TOP, "tools"))
from debian import build_over_chrono  # noqa: E402

OUT = os.path.join(TOP, "crates", "calendar_c", "out")
SOURCES = os.path.join(TOP, "benches", "columns")
LIBRARIES = {"x86-64-v2": f"{OUT}/libcalendar_c.a", "x86-64-v3": f"{OUT}/libcalendar_c-v3.a"}
CALLS = (
    "weekdays", "years", "ordinals", "split", "iso_weeks", "join", "add_days", "add_months", "days_between", "from_unix_days",
    "to_unix_days", "add_days_in_place", "add_months_in_place", "count_dates", "write_dates", "read_dates", "add_days_each",
    "add_days_each_in_place", "first_on",
)
SHORT, ROUNDS = 32_768, 60
# What the kit passes to its compiler besides -O3 and the level. The two that end in `licm` keep a loop from holding constants in registers.
KIT_FLAGS = (
    "-no-trap-after-noreturn", "-expand-div-rem-bits=64", "-expand-fp-convert-bits=64", "-trap-unreachable", "-no-x86-call-frame-opt",
    "-disable-machine-licm", "-disable-postra-machine-licm", "-sink-common-insts=false",
)
INTERPRETERS = (sys.executable, "/usr/bin/python3")


def kit_compiler():
    """The compiler by which the kit makes machine code."""
    page = subprocess.run(["rt", "doc"], check=True, capture_output=True, text=True).stdout.strip()
    return os.path.join(os.path.dirname(page), "toolchain", "bin", "clang")


def build(room, level, library):
    """The program for a level of processors: the library, and the loops of C by the same compiler."""
    program, loops = f"{room}/columns-{level}", []
    for name, flags in (("limit", [word for it in KIT_FLAGS for word in ("-mllvm", it)]), ("plain", ["-DPLAIN"])):
        loops.append(f"{room}/{name}-{level}.o")
        compiler = [kit_compiler(), "-O3", f"-march={level}", *flags, "-c", f"{SOURCES}/limits.c", "-o", loops[-1]]
        subprocess.run(compiler, check=True)
    headers = f"-I{os.path.join(TOP, 'languages', 'c')}"
    words = ["cc", "-std=c99", "-O2", headers, f"{SOURCES}/columns_timed.c", *loops, library, "-o", program]
    subprocess.run(words, check=True)
    return program


def interpreter_with_numpy():
    """An interpreter that has numpy, if there is one."""
    for it in INTERPRETERS:
        if shutil.which(it) and not subprocess.run([it, "-c", "import numpy"], capture_output=True).returncode:
            return it
    return None


def programs(room):
    """What is measured, by its name in the table."""
    found = {level: [build(room, level, library)] for level, library in LIBRARIES.items() if os.path.exists(library)}
    if not found:
        sys.exit(f"there is no {LIBRARIES['x86-64-v2']}: run `rt lib` in crates/calendar_c")
    if shutil.which("cargo"):
        found["chrono"] = [build_over_chrono(room, "benches/columns/chrono_columns_timed")]
    else:
        print("not run: chrono, since there is no cargo")
    python = interpreter_with_numpy()
    if python:
        found["numpy"] = [python, f"{SOURCES}/numpy_columns_timed.py"]
    else:
        print("not run: numpy, since there is none")
    return found


def times(words, count, rounds):
    """The nanoseconds of each call and of whom, as a program prints them."""
    printed = subprocess.run([*words, str(count), str(rounds)], check=True, capture_output=True, text=True).stdout
    return {(call, who): float(taken) for call, who, taken in (line.split() for line in printed.splitlines())}


def table(measured, levels):
    """The rows of a table: ours, one by one, the loops of C and the copy of each level, and then chrono and numpy."""
    titles = ("ours", "one by one", "loop of C", "times as fast", "plain", "times as fast", "copy")
    heads = [f"{it} {level}" for level in levels for it in titles]
    print("| Column | " + " | ".join([*heads, "chrono", "numpy"]) + " |")
    print("|---" * (len(heads) + 3) + "|")
    for call in CALLS:
        cells = []
        for level in levels:
            taken = {who: measured[level].get((call, who)) for who in ("ours", "single", "limit", "plain", "copy")}
            ratios = {who: taken[who] / taken["ours"] if taken[who] else None for who in ("limit", "plain")}
            shown = (taken["ours"], taken["single"], taken["limit"], ratios["limit"], taken["plain"], ratios["plain"], taken["copy"])
            cells += [f"{it:.2f}" if it else "" for it in shown]
        for who in ("chrono", "numpy"):
            taken = measured.get(who, {}).get((call, who))
            cells.append(f"{taken:.1f}" if taken else "")
        print(f"| `{call}` | " + " | ".join(cells) + " |")


def main():
    millions = int(sys.argv[1]) if len(sys.argv) > 1 else 100
    with tempfile.TemporaryDirectory() as room:
        found = programs(room)
        levels = [it for it in LIBRARIES if it in found]
        for count, rounds in ((SHORT, ROUNDS), (millions * 1_000_000, 3)):
            print(f"\nNanoseconds an element, in columns of {count:,}\n")
            table({who: times(words, count, rounds) for who, words in found.items()}, levels)


if __name__ == "__main__":
    main()
