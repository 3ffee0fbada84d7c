#!/usr/bin/env python3
"""Measures the calls of chrono_business, and beside them numpy's, in one run.

    benches/business_speed.py [COUNT]        (5 million if left out)

Saturday and Sunday are the weekend, and the federal holidays of the United States from 2020 to 2030 the holidays. Each call is
made on pseudo-random dates of the years 2019 to 2030, and a count goes to another such date, `add_open_days` up to 4,095 days on.
The best of seven rounds counts, by processor time, less that of drawing the dates alone. numpy's calls go over an array of as many
dates, so that what is compared is the time for an element.

It proves and builds benches/timed_business over what is proved of the libraries here. The comparison needs python3-numpy.
"""
import os
import resource
import subprocess
import sys
import tempfile
import time

TOP = os.path.dirname(os.path.dirname(os.path.abspath(__file__)))
sys.path[:0] = [TOP, f"{TOP}/tools"]
from checks.layers import business  # noqa: E402
from repositories import build_apart  # noqa: E402

ROUNDS = 7
NUMPY = {"is_open": "is_busday", "open_days": "busday_count", "add_open_days": "busday_offset"}


def processor_time(words, text):
    """The processor time of a program that reads the text."""
    before = resource.getrusage(resource.RUSAGE_CHILDREN).ru_utime
    subprocess.run(words, input=text, stdout=subprocess.DEVNULL, text=True, check=True)
    return resource.getrusage(resource.RUSAGE_CHILDREN).ru_utime - before


def of_numpy(calendar, count):
    """The best time of each of numpy's calls for one element, in nanoseconds."""
    numpy = business.numpy
    epoch = business.Date(1970, 1, 1).toordinal()
    holidays = numpy.array([it - epoch for it in calendar.holidays], "datetime64[D]")
    days = numpy.busdaycalendar(calendar.week, holidays)
    drawn = numpy.random.default_rng(1)
    first, second = ((drawn.integers(0, 4096, count) + 737_200 - epoch).astype("datetime64[D]") for _ in range(2))
    steps = drawn.integers(0, 4096, count)
    calls = {
        "is_open": lambda: numpy.is_busday(first, busdaycal=days),
        "open_days": lambda: numpy.busday_count(first, second, busdaycal=days),
        "add_open_days": lambda: numpy.busday_offset(first, steps, "backward", busdaycal=days),
    }
    best = {}
    for name, call in calls.items():
        times = []
        for _ in range(ROUNDS):
            start = time.process_time()
            call()
            times.append(time.process_time() - start)
        best[name] = min(times) / count * 1e9
    return best


def main():
    business.restart_without(business.numpy)
    count = int(sys.argv[1]) if len(sys.argv) > 1 else 5_000_000
    days = [it.toordinal() for year in range(2020, 2031) for it in business.federal(year)]
    calendar = business.Calendar("1111100", days, min(days), min(days))
    text = " ".join(map(str, calendar.holidays)) + "\n"
    names = ["none", *NUMPY]
    with tempfile.TemporaryDirectory(prefix="business-") as room:
        timed = build_apart(room, "benches/timed_business")
        best = {it: min(processor_time([timed, it, str(count)], text) for _ in range(ROUNDS)) / count * 1e9 for it in names}
    beside = of_numpy(calendar, min(count, 1_000_000)) if business.numpy else {}
    if not beside:
        print("not run: numpy's calls, since there is no numpy")
    print("| Call | ns | numpy | ns | times as fast |\n|---|---|---|---|---|")
    for name, other in NUMPY.items():
        taken = best[name] - best["none"]
        by = f"{beside[name]:.0f} | {beside[name] / taken:.1f}" if beside else "- | -"
        print(f"| `{name}` | {taken:.0f} | `{other}` | {by} |")


if __name__ == "__main__":
    main()
