#!/usr/bin/env python3
"""Measures single calls of the calendar beside the same calls of chrono, in one run: how many times as fast ours are.

    benches/calls.py [--chrono FOLDER] [--instructions] [COUNT]

It makes COUNT calls of each: 20 million if left out, 100,000 with --instructions, which counts instructions by valgrind in place
of the time. A busy machine does not change those. FOLDER is the package of another version of chrono than Debian's.

It proves and builds benches/timed_chrono over what is proved of the libraries here. It needs librust-chrono-dev with cargo:
benches/chrono_timed is the twin over that library.

A call of a date is made of a `NaiveDate`, as a user makes it, and of both stored forms, by their own calls and those of
`chrono_calendar::forms` that a `NaiveDate` makes. One field alone stands beside the bare formula for it, which the twin has.
All make each call on the same pseudo-random arguments and print the sum of the answers, which has to be the same before any is
timed. They take turns in 21 rounds over all calls, and the best run counts, by processor time, less that of `none`, which
draws, looks up and adds without a call. No call waits for the answer of the one before, so what a processor does of a call
beside the next drawing is not seen.
"""
import argparse
import os
import re
import subprocess
import sys
import tempfile

TOP = os.path.dirname(os.path.dirname(os.path.abspath(__file__)))
sys.path[:0] = [f"{TOP}/tools"]
from debian import build_over_chrono  # noqa: E402
from repositories import build_apart  # noqa: E402

ROUNDS = 21

# Calls of each whose answers are compared before any is timed.
COMPARED = 1_000_000

# Calls of a date: one field of it, more than one, names and numbers, moves, and two dates.
FIELDS = ["year", "ordinal", "month", "day", "weekday"]
OF_DATES = [
    *FIELDS,
    "year_month_day",
    "iso_week",
    "to_days",
    "from_days",
    "ymd_to_days",
    "from_ymd",
    "succ",
    "add_few_days",
    "add_days",
    "add_months",
    "diff",
    "compare",
]
OTHERS = [
    "time_add",
    "moment_add",
    "far_moment_add",
    "far_add_months",
    "moment_diff",
    "duration_add",
    "new_num_seconds",
    "print_date",
    "print_moment",
    "print_duration",
    "read_date",
]
# Calls that are made beside Debian's chrono alone.
OF_INSTANTS = ["timestamp", "to_offset", "write_rfc3339", "read_rfc3339"]
NOTES = """
`from_days` is read as year, month and day, `ymd_to_days` as a day number; `from_ymd`, `succ` and the moves as year and ordinal.
`add_few_days` is by 1 to 30 days, `add_days` by up to 100,000, `add_months` by up to 1,200 months on or back. All these dates are of the
years 1800 to 2199; those of `far_add_months` and `far_moment_add` are of all years. Durations are up to 1,000,000,000 seconds on or back,
with nanoseconds. Beside `new_num_seconds` stand later versions' `TimeDelta::new` and `num_seconds`, written by hand: chrono 0.4.23 has no
`new`.
The three that print write dates and date-times of all years, and these durations, into an array of bytes; chrono 0.4.23 prints
durations otherwise, so the text of later versions stands beside ours, written by hand in pieces as those write it.
`read_date` reads a text such as `2024-02-29` as a day number; beside it stand the digits read by hand in Rust, unchecked, and
chrono's `from_ymd_opt`.
The calls of instants are beside Debian's chrono alone. `to_offset` takes a date-time of UTC to an offset, and reads what its clock
shows. The texts of RFC 3339 have milliseconds; chrono writes into a `String`."""


def timed(program, call, count):
    """The processor time of a run, and the sum that it printed."""
    with subprocess.Popen([program, call, str(count)], stdout=subprocess.PIPE) as ran:
        printed = ran.stdout.read()
        _, status, used = os.wait4(ran.pid, 0)
        ran.returncode = os.waitstatus_to_exitcode(status)
    if ran.returncode:
        sys.exit(f"{program} {call} ended with status {ran.returncode}")
    return used.ru_utime + used.ru_stime, printed


def instructions(program, call, count):
    """The instructions of a run."""
    words = ["valgrind", "--tool=callgrind", f"--callgrind-out-file={os.devnull}", program, call, str(count)]
    ran = subprocess.run(words, stdout=subprocess.DEVNULL, stderr=subprocess.PIPE, check=True)
    return int(re.search(rb"Collected *: *(\d+)", ran.stderr).group(1))


def compare_sums(runs, count=COMPARED):
    """Ends the program unless all who make a call print the same sum."""
    sums = {}
    for call, who, program, words in runs:
        _, printed = timed(program, words, count)
        if sums.setdefault(call, printed) != printed:
            sys.exit(f"{call}: the sums are not the same, so nothing was timed")


def best_times(runs, count):
    """The least time of each call by each who makes it."""
    best = {}
    for _ in range(ROUNDS):
        for call, who, program, words in runs:
            taken, _ = timed(program, words, count)
            best[call, who] = min(taken, best.get((call, who), taken))
    return best


def counts_of_instructions(runs, count):
    """The instructions of each call by each who makes it, less those of a run that makes it once, in units of which 10^9 are one."""
    return {(call, who): (instructions(program, words, count) - instructions(program, words, 1)) / 1e9 for call, who, program, words in runs}


def all_runs(ours, chrono, others):
    """Each call, by whom it is made, in which program, and its name there."""
    for call in ["none", *OF_DATES, *others]:
        yield call, "ours", ours, call
        yield call, "chrono", chrono, call
        if call in OF_DATES:
            yield call, "counted", ours, f"counted.{call}"
            yield call, "packed", ours, f"packed.{call}"
        if call in FIELDS:
            yield call, "formula", chrono, f"formula.{call}"


def row(best, call, count):
    """The line of a call: nanoseconds of a call by each, and how often our time goes into that of another."""

    def of(who):
        base = "chrono" if who in ("chrono", "formula") else "ours"
        return (best[call, who] - best["none", base]) / count * 1e9 if (call, who) in best else None

    def ratio(who, other):
        return f"{of(other) / of(who):.2f}" if of(other) is not None and of(who) and of(who) >= 0.1 else ""

    times = [f"{of(who):.2f}" if of(who) is not None else "" for who in ("chrono", "ours", "counted", "packed", "formula")]
    ratios = [ratio("ours", "chrono"), ratio("counted", "chrono"), ratio("packed", "chrono"), ratio("ours", "formula")]
    return f"| `{call}` | " + " | ".join(times + ratios) + " |"


def main():
    parser = argparse.ArgumentParser(description="Measures single calls of the calendar beside the same calls of chrono.")
    parser.add_argument("--chrono", metavar="FOLDER", help="the package of another version of chrono than Debian's")
    parser.add_argument("--instructions", action="store_true", help="count instructions in place of the time")
    parser.add_argument("count", nargs="?", type=int)
    arguments = parser.parse_args()
    count = arguments.count or (100_000 if arguments.instructions else 20_000_000)
    with tempfile.TemporaryDirectory() as folder:
        others = OTHERS if arguments.chrono else OTHERS + OF_INSTANTS
        runs = list(all_runs(build_apart(folder, "benches/timed_chrono"), build_over_chrono(folder, "benches/chrono_timed", arguments.chrono), others))
        compare_sums(runs)
        best = counts_of_instructions(runs, count) if arguments.instructions else best_times(runs, count)
    unit = "instructions" if arguments.instructions else "nanoseconds"
    print(f"{count} calls of each, in {unit} a call, and how many times as fast as chrono's ours are (last: as the bare formula)\n")
    print("| Call | chrono | `NaiveDate` | `CountedForm` | `PackedForm` | formula | ours | counted | packed | by formula |")
    print("|---|---|---|---|---|---|---|---|---|---|")
    for call in [*OF_DATES, *others]:
        print(row(best, call, count))
    print(NOTES)


if __name__ == "__main__":
    main()
