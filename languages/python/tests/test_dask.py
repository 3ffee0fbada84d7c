#!/usr/bin/env python3
"""Calls every method of proved_calendar.dask on two partitions and more, beside proved_calendar.pandas on one Series, and tries what
is wrong. It needs numpy, pandas and dask.dataframe; checks/packages/dask_columns.py runs processes."""
import doctest
import unittest

try:
    import dask
    import dask.array
    import dask.dataframe
    import numpy
    import pandas
except ImportError:
    raise SystemExit("not run: the tests of the accessor of Dask, since there is no dask.dataframe") from None

import proved_calendar.dask as ours
import test_pandas
from proved_calendar import columns
from proved_calendar.pandas import Months

dask.config.set(scheduler="synchronous")


class Accessor(unittest.TestCase):
    def setUp(self):
        self.series = test_pandas.some_times().reset_index(drop=True)
        self.parts = dask.dataframe.from_pandas(self.series, npartitions=7)

    def same(self, found, wanted, what):
        self.assertEqual(str(found._meta.dtypes), str(wanted.dtypes), what)
        self.assertTrue(found.compute().equals(wanted), what)

    def test_methods(self):
        for name, arguments in {**test_pandas.ASKED, **test_pandas.MOVES}.items():
            self.same(getattr(self.parts.proved, name)(*arguments), getattr(self.series.proved, name)(*arguments), name)

    def test_texts(self):
        for name, of_text in (("texts", "from_texts"), ("time_texts", "from_time_texts"), ("to_date_times", "from_values")):
            texts = getattr(self.parts.proved, name)()
            self.same(getattr(texts.proved, of_text)(), getattr(texts.compute().proved, of_text)(), of_text)
        wrong = dask.dataframe.from_pandas(pandas.Series(["2024-02-29", "x"]), npartitions=2)
        self.assertEqual(wrong.proved.from_texts(errors="coerce").compute().notna().tolist(), [True, False])
        with self.assertRaisesRegex(ValueError, "'x' at 1"):
            wrong.proved.from_texts().compute()

    def test_pairs(self):
        ends = test_pandas.some_times(seed=2).reset_index(drop=True)
        other = dask.dataframe.from_pandas(ends, npartitions=7)
        self.same(self.parts.proved.days_between(other), self.series.proved.days_between(ends), "days_between")
        steps = pandas.Series(numpy.arange(500))
        days = dask.dataframe.from_pandas(steps, npartitions=7)
        self.same(self.parts.proved.add_days(days), self.series.proved.add_days(steps), "add_days")

    def test_offsets(self):
        self.same(self.parts.map_partitions(lambda it: it + Months(1), meta=self.series.iloc[:0]), self.series + Months(1), "Months")

    def test_blocks(self):
        array = dask.array.arange(100_003, chunks=7_000).astype("M8[D]")
        moved = array.map_blocks(columns.add_months, 1, dtype=array.dtype)
        self.assertTrue((moved.compute() == columns.add_months(array.compute(), 1)).all())

    def test_wrong(self):
        for wrong in (pandas.Series([1, 2]), pandas.Series([1.5]), pandas.Series(["2024-02-29"])):
            for name, arguments in test_pandas.MOVES.items():
                # (the types are known before anything is computed)
                with self.assertRaises(TypeError, msg=name):
                    getattr(dask.dataframe.from_pandas(wrong, npartitions=1).proved, name)(*arguments)
        self.assertRaises(TypeError, self.parts.proved.is_open, None)
        self.assertRaises(ValueError, self.parts.proved.next_due, "0 25 * * *")

    def test_names(self):
        methods = {it for it in vars(ours.ProvedSeries) if not it.startswith("_")}
        self.assertEqual(methods, {it for it in vars(test_pandas.ours.ProvedSeries) if not it.startswith("_")})
        self.assertTrue(all(getattr(ours.ProvedSeries, it).__doc__ for it in methods))
        failed, tried = doctest.testmod(ours, verbose=False)
        self.assertEqual((failed, tried > 1), (0, True))


if __name__ == "__main__":
    unittest.main()
