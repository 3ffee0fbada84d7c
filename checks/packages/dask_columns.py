#!/usr/bin/env python3
"""Columns of dates over a Dask cluster of processes on this machine, beside one process.

    python3 -m checks.packages.dask_columns [--dates N] [--workers K ..]

Four million dates are drawn, or N, in blocks of a million. Each block is named, moved by months, written as texts and read again, and each
fiftieth date moved by open days and rolled, by `map_blocks`. One process does this first. Then clusters of 1, 2 and 4 workers do, or of K, each of which is a
process that the others reach over 127.0.0.1. What each block gives has to be the same, by its checksums, and so has a Series of Dask
beside one of pandas. The time of each is printed, and the most memory that a process took, which has a bound however many dates there
are. `--dates 100000000` takes a minute of four cores.

It needs Debian's Python with numpy, pandas, dask and distributed, and what the wheel needs. What could not be run is named.
"""
import argparse
import logging
import os
import resource
import sys
import tempfile
import time
import zipfile
import zlib

import packages
from checks import TOP
from checks.shared.results import Results
from debian import restart_without
from library import LAYERS, find_library
from packages import python

try:
    import dask
    import dask.array
    import dask.dataframe
    import numpy
    import pandas
    from distributed import Client, LocalCluster
except ImportError:
    dask = None

BLOCK = 1_000_000
# The bytes that a process may take: numpy, pandas and Dask themselves take about 200 million.
MOST = 600 * 2**20
# The days from 1970 of the first date, and how many there are to draw from: the years 1900 to 2099.
FIRST, SPAN = -25_567, 73_049


def install(room):
    """Makes the wheel, and lets this process and those that it starts import what is in it; whether that went well."""
    calendar, layers = find_library(), find_library(LAYERS)
    if not calendar or not layers:
        return False
    packages.build(calendar, room)
    packages.build(layers, room, packages.LAYERS)
    _, wheel = sorted(python.make(TOP, room, f"{room}/dist"))
    with zipfile.ZipFile(wheel) as it:
        it.extractall(f"{room}/python")
    sys.path.insert(0, f"{room}/python")
    os.environ["PYTHONPATH"] = f"{room}/python"
    return True


# ---- what is done with a block


def drawn(numbers):
    """Pseudo-random dates, which follow from the numbers of their places."""
    return (numbers * 2_654_435_761 % 2_147_483_647 % SPAN + FIRST).astype("M8[D]")


def checksums(dates, calendar):
    """Names, moves and texts of dates, each as one checksum."""
    from proved_calendar import columns

    texts, few = columns.texts(dates), dates[::50]
    found = [*columns.fields(dates), *columns.iso_weeks(dates), columns.weekdays(dates), columns.add_months(dates, 1), texts,
             columns.from_texts(texts), columns.is_open(few, calendar), columns.add_open_days(few, 5, calendar),
             columns.roll(few, "modified_following", calendar)]
    return numpy.array([[zlib.crc32(it) for it in found]])


def in_one_process(count, calendar):
    """The checksums of each block, one after another."""
    starts = range(0, count, BLOCK)
    return numpy.concatenate([checksums(drawn(numpy.arange(it, min(it + BLOCK, count))), calendar) for it in starts])


def by_blocks(count, calendar):
    """The same as an array of Dask: each block becomes one row."""
    dates = dask.array.arange(count, chunks=BLOCK).map_blocks(drawn, dtype="M8[D]")
    width = checksums(drawn(numpy.arange(1)), calendar).shape[1]
    rows = (1,) * len(dates.chunks[0])
    return dates.map_blocks(checksums, calendar, dtype="int64", new_axis=1, chunks=(rows, (width,)))


def most_memory():
    """The most bytes that this process ever had in memory."""
    return resource.getrusage(resource.RUSAGE_SELF).ru_maxrss * 1024


# ---- clusters


def of_series(results, calendar):
    """A Series of Dask beside one of pandas, and an error in one of its partitions."""
    import proved_calendar.dask  # noqa: F401  (it registers the accessors)

    series = pandas.Series(drawn(numpy.arange(100_000)).astype("M8[ns]"), name="due")
    parts = dask.dataframe.from_pandas(series, npartitions=8)
    for name, arguments in (("fields", ()), ("texts", ()), ("add_months", (1,)), ("add_open_days", (5, calendar)), ("next_due", ("30 4 1,15 * fri",))):
        found, wanted = getattr(parts.proved, name)(*arguments).compute(), getattr(series.proved, name)(*arguments)
        results.count(found.equals(wanted), f"a Series of Dask has other {name} than one of pandas")
    try:
        dask.dataframe.from_pandas(pandas.Series(["2024-02-29", "2024-02-30"]), npartitions=2).proved.from_texts().compute()
        results.count(False, "an invalid text on a worker raises no error here")
    except ValueError as it:
        results.count("'2024-02-30' at 1" in str(it), f"an invalid text on a worker raises {it}")


def with_workers(results, workers, count, calendar, wanted):
    """Compares the blocks of a cluster with those of one process, and prints its time and its memory."""
    # (workers tell of the error that is meant, and of those that end late)
    where = {"host": "127.0.0.1", "dashboard_address": None, "silence_logs": logging.CRITICAL}
    with LocalCluster(n_workers=workers, threads_per_worker=1, processes=True, **where) as cluster, Client(cluster) as client:
        addresses = list(client.scheduler_info()["workers"])
        results.count(len(addresses) == workers and all(it.startswith("tcp://127.0.0.1:") for it in addresses), f"the workers are {addresses}")
        # (each worker imports what it needs before the time is taken)
        client.run(checksums, drawn(numpy.arange(1)), calendar)
        began = time.perf_counter()
        found = by_blocks(count, calendar).compute()
        took = time.perf_counter() - began
        results.count(numpy.array_equal(found, wanted), f"{workers} workers give other answers than one process")
        if workers == 2:
            of_series(results, calendar)
        most = max(client.run(most_memory).values())
        results.count(most < MOST, f"a worker took {most:,} bytes, more than {MOST:,}")
    print(f"{workers} worker{'s' * (workers > 1)}: {took:.2f} seconds, {count / took / 1e6:.1f} million dates a second, "
          f"{most / 2**20:.0f} MiB in the largest", flush=True)


def test(results, count, numbers_of_workers):
    """All of it."""
    from proved_calendar import BusinessCalendar, Date

    holidays = [Date(year, month, day) for year in range(1990, 2030) for month, day in ((1, 1), (5, 1), (12, 25), (12, 26))]
    calendar = BusinessCalendar(holidays)
    began = time.perf_counter()
    wanted = in_one_process(count, calendar)
    took = time.perf_counter() - began
    print(f"{count:,} dates\none process: {took:.2f} seconds, {count / took / 1e6:.1f} million dates a second", flush=True)
    for workers in numbers_of_workers:
        with_workers(results, workers, count, calendar, wanted)
    results.count(most_memory() < MOST, f"one process took {most_memory():,} bytes, more than {MOST:,}")


def main():
    words = argparse.ArgumentParser(description=__doc__, formatter_class=argparse.RawDescriptionHelpFormatter)
    words.add_argument("--dates", type=int, default=4_000_000, metavar="N")
    words.add_argument("--workers", type=int, nargs="+", default=[1, 2, 4], metavar="K")
    asked, results = words.parse_args(), Results()
    restart_without(dask)
    if dask is None:
        print("not run: columns over a cluster, since there is no dask with distributed, numpy and pandas")
    else:
        with tempfile.TemporaryDirectory(prefix="dask-") as room:
            try:
                is_there = install(room)
                results.count(is_there, "the static libraries are not there, and `rt lib` does not build them")
                if is_there:
                    test(results, asked.dates, asked.workers)
            except packages.Missing as it:
                print(f"not run: columns over a cluster, since there is {it}")
    print(f"{results.passed} passed, {results.failed} failed")
    return 1 if results.failed else 0


if __name__ == "__main__":
    sys.exit(main())
