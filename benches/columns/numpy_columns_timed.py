"""The columns of the calendar by numpy: N ROUNDS, a line `CALL numpy NANOSECONDS` for each."""
import sys
import time

import numpy as np

n, rounds = int(sys.argv[1]), int(sys.argv[2])
days = np.random.default_rng(7).integers(657_073 - 719_163, 803_170 - 719_163, n).astype("datetime64[D]")
texts = days.astype("S10")
years, months = days.astype("datetime64[Y]"), days.astype("datetime64[M]")


def split():
    """Year, month and day, as numpy's documentation tells them."""
    of_years, of_months = days.astype("datetime64[Y]"), days.astype("datetime64[M]")
    return of_years.astype("int64") + 1970, of_months.astype("int64") % 12 + 1, (days - of_months).astype("int64") + 1


CALLS = {
    "weekdays": lambda: (days.view("int64") + 3) % 7 + 1,
    "years": lambda: days.astype("datetime64[Y]").astype("int64") + 1970,
    "ordinals": lambda: (days - days.astype("datetime64[Y]")).astype("int64") + 1,
    "split": split,
    "join": lambda: (months + (days - months)).astype("int64"),
    "add_days": lambda: days + np.timedelta64(1000, "D"),
    "write_dates": lambda: days.astype("S10"),
    "read_dates": lambda: texts.astype("datetime64[D]"),
}

for name, call in CALLS.items():
    best = None
    for _ in range(rounds if n < 1_000_000 else 1):
        began = time.thread_time()
        call()
        taken = time.thread_time() - began
        best = taken if best is None else min(best, taken)
    print(name, "numpy", f"{best / n * 1e9:.3f}")
