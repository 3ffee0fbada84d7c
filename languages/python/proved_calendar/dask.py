"""Columns of dates in Dask: the accessor `proved` of Dask's Series, which runs that of proved_calendar.pandas on each partition.

Importing this module registers it. Each method has the arguments of the same method of proved_calendar.pandas.ProvedSeries. A second
Series is one of Dask with the same divisions.

>>> import dask.dataframe, pandas, proved_calendar.dask
>>> due = pandas.Series(pandas.to_datetime(['2024-01-31', None, '2024-02-29']), name='due')
>>> dask.dataframe.from_pandas(due, npartitions=2).proved.add_months(1).compute()
0   2024-02-29
1          NaT
2   2024-03-29
Name: due, dtype: datetime64[ns]

An array of Dask needs no accessor: array.map_blocks(columns.add_months, 1, dtype=array.dtype).
"""
from __future__ import annotations

import importlib
from collections.abc import Callable
from typing import Any

from . import pandas

try:
    _extensions: Any = importlib.import_module("dask.dataframe.extensions")
except ModuleNotFoundError as _missing:
    raise ModuleNotFoundError("proved_calendar.dask needs dask.dataframe") from _missing

__all__ = ["ProvedSeries"]


def _on_partition(series: Any, *arguments: Any, method: str, **options: Any) -> Any:
    """What a method of the accessor of pandas returns for a partition."""
    return getattr(pandas.ProvedSeries(series), method)(*arguments, **options)


def _empty(it: Any) -> Any:
    """The empty Series that stands for one of Dask; another value stays."""
    return getattr(it, "_meta", it)


@_extensions.register_series_accessor("proved")
class ProvedSeries:
    """The methods of proved_calendar.pandas.ProvedSeries over a Series of Dask."""

    def __init__(self, series: Any) -> None:
        self._series = series


def _method(name: str, documentation: str | None) -> Callable[..., Any]:
    """A method that runs the one of that name on each partition."""

    def run(self: Any, *arguments: Any, **options: Any) -> Any:
        # (the type of a result is that of an empty partition; Dask itself would try made-up texts)
        meta = _on_partition(_empty(self._series), *map(_empty, arguments), method=name, **options)
        return self._series.map_partitions(_on_partition, *arguments, method=name, meta=meta, **options)

    run.__name__, run.__doc__ = name, documentation
    return run


for _name, _function in vars(pandas.ProvedSeries).items():
    if not _name.startswith("_"):
        setattr(ProvedSeries, _name, _method(_name, _function.__doc__))
