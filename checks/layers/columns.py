#!/usr/bin/env python3
"""Holds the columns of the library for C to its single calls, to numpy, and to vector code.

    python3 -m checks.layers.columns

The static library is the one that checks/packages/languages.py takes or builds. Of its machine code, for x86-64-v2, the loop of each column
is read: it has to have so many packed multiplications and comparisons, so that an edit which makes a loop scalar is found. That the
count finds one is tried on two loops of C that differ by `&&` for `&`, the one built to vector code and the other not.

Then checks/layers/columns.c is built and run: all 191,491,529 dates and 100,000 numbers beyond each end by columns beside single calls,
names and counts at the ends of their types, and columns of 0 to 70 elements at each place in memory, between bytes that have to
stay. The same is asked of the second library, for x86-64-v3, where the processor has AVX2. Last, all 3,652,059 days of Python's
datetime are split, joined and moved beside numpy, by a shared object of the first library.
"""
import ctypes
import os
import re
import shutil
import subprocess
import sys
import tempfile

from checks import TOP
from checks.shared.results import Results, run
from library import build_higher, find_library

SOURCE = f"{TOP}/checks/layers/columns.c"
HEADERS = f"{TOP}/languages/c"

# How many packed multiplications and comparisons the loop of each column has at least. The loop of `first_on` asks a set of each date,
# which is no vector code. Of texts that are written it is the loop that names the dates of a block.
NEEDED = {
    "weekdays": (2, 3), "years": (4, 3), "ordinals": (4, 3), "split": (7, 4), "iso_weeks": (8, 4), "join": (6, 13), "add_days": (0, 8),
    "add_days_each": (0, 6), "add_months": (14, 7), "days_between": (0, 5), "from_unix_days": (0, 5), "to_unix_days": (0, 6),
    "first_on": (0, 0), "add_days_in_place": (0, 8), "add_days_each_in_place": (0, 6), "add_months_in_place": (14, 7), "count_dates": (0, 3),
    "write_dates": (7, 4), "read_dates": (10, 20),
}

MULTIPLICATION = r"v?pmul\w+"
COMPARISON = r"v?pcmp\w+|v?p(?:min|max)[su][bwdq]"

# A loop that a compiler makes vector code of, and the same with a load that waits for a condition.
PLANTS = """
void straight(const int *restrict a, const int *restrict b, int *restrict out, unsigned long n)
{
    for (unsigned long i = 0; i < n; i++) out[i] = (a[i] > 3) & (b[i] > 5) ? a[i] * 1461 : -1;
}
void waiting(const int *restrict a, const int *restrict b, int *restrict out, unsigned long n)
{
    for (unsigned long i = 0; i < n; i++) out[i] = a[i] > 3 && b[i] > 5 ? a[i] * 1461 : -1;
}
"""

# Interpreters of which one may have numpy.
INTERPRETERS = (sys.executable, "/usr/bin/python3")


# ---- machine code


def functions_of(binary):
    """The instructions of each function, as address, name and operands."""
    listed = subprocess.run(["objdump", "-d", "--no-show-raw-insn", binary], check=True, capture_output=True, text=True).stdout
    found, here = {}, []
    for line in listed.splitlines():
        head = re.fullmatch(r"[\da-f]+ <(\w+)>:", line)
        if head:
            here = found.setdefault(head[1], [])
        step = re.match(r" *([\da-f]+):\t(\w+) *(.*)", line)
        if step:
            here.append((int(step[1], 16), step[2], step[3]))
    return found


def packed_in_loop(steps):
    """The packed multiplications and comparisons of that loop of a function which has the most."""
    most = (0, 0)
    for address, name, operands in steps:
        target = re.match(r"[\da-f]+", operands)
        if name.startswith("j") and target and int(target[0], 16) <= address:
            inside = [it for at, it, _ in steps if int(target[0], 16) <= at <= address]
            counts = tuple(sum(bool(re.fullmatch(kind, it)) for it in inside) for kind in (MULTIPLICATION, COMPARISON))
            most = max(most, counts, key=sum)
    return most


def compare_machine_code(results, library):
    """Whether the loop of each column is vector code."""
    functions = functions_of(library)
    columns = {it.removeprefix("calendar_column_"): steps for it, steps in functions.items() if it.startswith("calendar_column_")}
    results.count(columns.keys() == NEEDED.keys(), f"the columns of the library are {sorted(columns)}")
    for name, steps in sorted(columns.items()):
        found, needed = packed_in_loop(steps), NEEDED.get(name, (0, 0))
        enough = all(one >= other for one, other in zip(found, needed))
        results.count(enough, f"calendar_column_{name}: {found} packed multiplications and comparisons in its loop, not {needed}")


def try_plant(results, room):
    """Whether the count tells vector code from a loop with a load that waits for a condition."""
    with open(f"{room}/plant.c", "w", encoding="utf-8") as it:
        it.write(PLANTS)
    subprocess.run(["cc", "-O3", "-march=x86-64-v2", "-c", "plant.c"], cwd=room, check=True)
    functions = functions_of(f"{room}/plant.o")
    results.count(min(packed_in_loop(functions["straight"])) > 0, "a loop of vector code is taken for a scalar one")
    results.count(packed_in_loop(functions["waiting"]) == (0, 0), "a scalar loop is taken for vector code")


# ---- numpy


def call(library, name, *columns):
    """Calls a column with arrays of numpy, each with its length, and numbers."""
    words = []
    for it in columns:
        words += [ctypes.c_int32(it)] if isinstance(it, int) else [ctypes.c_void_p(it.ctypes.data), ctypes.c_size_t(len(it))]
    function = getattr(library, f"calendar_column_{name}")
    function.restype = ctypes.c_bool
    return function(*words)


def beside_numpy(path):
    """All days of Python's datetime by columns and by numpy; prints what passed and failed."""
    import numpy as np

    results, library = Results(), ctypes.CDLL(path)
    days = np.arange("0001-01-01", "10000-01-01", dtype="datetime64[D]")
    n = len(days)
    results.count(n == 3_652_059, "Python's datetime has 3,652,059 days")
    room = {it: np.zeros(n, it) for it in ("int32", "uint8", "uint16", "int64")}
    dates, years, months, ordinals = np.zeros(n, "int32"), room["int32"], room["uint8"], room["uint16"]
    results.count(call(library, "from_unix_days", days.astype("int64"), dates), "from_unix_days answers")
    results.count((dates == np.arange(1, n + 1)).all(), "from_unix_days counts as toordinal does")
    of_months, of_years = days.astype("datetime64[M]"), days.astype("datetime64[Y]")
    day = np.zeros(n, "uint8")
    call(library, "split", dates, years, months, day)
    results.count((years == of_years.astype("int64") + 1970).all(), "split: years")
    results.count((months == of_months.astype("int64") % 12 + 1).all(), "split: months")
    results.count((day == (days - of_months).astype("int64") + 1).all(), "split: days")
    again = np.zeros(n, "int32")
    call(library, "join", years, months, day, again)
    results.count((again == dates).all(), "join")
    call(library, "ordinals", dates, ordinals)
    results.count((ordinals == (days - of_years).astype("int64") + 1).all(), "ordinals")
    weekdays = np.zeros(n, "uint8")
    call(library, "weekdays", dates, weekdays)
    results.count((weekdays == (days.astype("int64") + 3) % 7 + 1).all(), "weekdays")
    thursdays = days + (4 - weekdays.astype("int64")).astype("timedelta64[D]")
    weeks, iso_years = np.zeros(n, "uint8"), np.zeros(n, "int32")
    call(library, "iso_weeks", dates, iso_years, weeks)
    results.count((iso_years == thursdays.astype("datetime64[Y]").astype("int64") + 1970).all(), "iso_weeks: years")
    results.count((weeks == (thursdays - thursdays.astype("datetime64[Y]")).astype("int64") // 7 + 1).all(), "iso_weeks: weeks")
    unix = room["int64"]
    call(library, "to_unix_days", dates, unix)
    results.count((unix == days.astype("int64")).all(), "to_unix_days")
    for count in (1, -1, 12, 1201):
        call(library, "add_months", dates, count, again)
        moved = of_months + np.timedelta64(count, "M")
        last = (moved + np.timedelta64(1, "M")).astype("datetime64[D]") - np.timedelta64(1, "D")
        wanted = np.minimum(moved.astype("datetime64[D]") + (days - of_months), last).astype("int64") + 719_163
        results.count((again == wanted).all(), f"add_months by {count}")
    texts = np.zeros(n, "S10")
    results.count(call(library, "write_dates", dates, texts), "write_dates answers")
    results.count((texts == days.astype("S10")).all(), "write_dates")
    again[:] = 0
    call(library, "read_dates", days.astype("S10"), again)
    results.count((again == dates).all(), "read_dates")
    nat = np.array(["NaT", "1970-01-01"], "datetime64[D]")
    two = np.zeros(2, "int32")
    call(library, "from_unix_days", nat.astype("int64"), two)
    back = np.zeros(2, "int64")
    call(library, "to_unix_days", two, back)
    results.count(two[0] == -(2**31) and back.astype("datetime64[D]")[0] != back.astype("datetime64[D]")[0], "NaT is none, and none NaT")
    results.count(two[1] == 719_163 and back[1] == 0, "1970 beside NaT")
    print(f"{results.passed} passed, {results.failed} failed")


def compare_numpy(results, room, library):
    """Has an interpreter with numpy compare the columns with it."""
    shared = f"{room}/libcalendar.so"
    whole = ["-Wl,--whole-archive", library, "-Wl,--no-whole-archive"]
    subprocess.run(["cc", "-shared", "-o", shared, *whole], check=True)
    for it in INTERPRETERS:
        if shutil.which(it) and not subprocess.run([it, "-c", "import numpy"], capture_output=True).returncode:
            run(results, "beside numpy", [it, "-m", "checks.layers.columns", "--numpy", shared], (r"^(\d+) passed", r"(\d+) failed$"))
            return
    print("not run: the columns beside numpy, since there is no numpy")


def compare_library(results, room, library):
    """Whether the columns of a library are vector code, and answer what its single calls do."""
    if shutil.which("objdump"):
        compare_machine_code(results, library)
    words = ["cc", "-std=c99", "-O2", "-Wall", "-Wextra", f"-I{HEADERS}", SOURCE, library, "-o", f"{room}/columns"]
    subprocess.run(words, check=True)
    run(results, f"{os.path.basename(library)} beside single calls", [f"{room}/columns"], (r"^(\d+) passed", r"(\d+) failed$"))


def compare_higher(results, room):
    """The same of the second library of the package for C, where the processor has what it needs."""
    with open("/proc/cpuinfo", encoding="utf-8") as it:
        has_vectors = " avx2 " in it.read()
    if not has_vectors or not shutil.which("rt"):
        print("not run: the columns of the library for higher processors, since there is no rt or no AVX2")
        return
    higher = f"{room}/libcalendar-v3.a"
    built = build_higher(higher)
    results.count(built, "`rt lib --cpu` does not build the library for higher processors")
    if built:
        compare_library(results, room, higher)


def main():
    if sys.argv[1:2] == ["--numpy"]:
        beside_numpy(sys.argv[2])
        return 0
    results = Results()
    with tempfile.TemporaryDirectory() as room:
        library = find_library()
        if not library:
            print("not run: the columns, since there is no library and no rt")
            print("0 passed, 0 failed")
            return 0
        if not shutil.which("cc"):
            print("not run: the columns, since there is no cc")
            print("0 passed, 0 failed")
            return 0
        if shutil.which("objdump"):
            try_plant(results, room)
        else:
            print("not run: the machine code of the columns, since there is no objdump")
        compare_library(results, room, library)
        compare_higher(results, room)
        compare_numpy(results, room, library)
    print(f"{results.passed} passed, {results.failed} failed")
    return 1 if results.failed else 0


if __name__ == "__main__":
    sys.exit(main())
