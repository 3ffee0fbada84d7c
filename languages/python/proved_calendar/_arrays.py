"""What stands under columns: how arrays of numpy hold dates and times, and calls of the library over pieces of them.

The addresses of arrays are passed as numbers, so nothing here needs Python's buffers, which the limited API of Python 3.10 has not.
No call of the library holds Python's lock.
"""
from __future__ import annotations

import ctypes
import importlib
from collections.abc import Callable, Iterator
from typing import Any, SupportsIndex

from . import _calendar

try:
    np: Any = importlib.import_module("numpy")
except ModuleNotFoundError as missing:
    raise ModuleNotFoundError("proved_calendar.columns needs numpy") from missing

LIBRARY = ctypes.CDLL(_calendar.__file__)
FIRST, LAST, EPOCH = _calendar.Date.MIN.number, _calendar.Date.MAX.number, 719_163
NONE, NAT = -(2**31), -(2**63)

# So many elements are converted at once: their day numbers stay in a processor's cache.
PIECE = 1 << 15
# The bytes of a date's text in a column.
TEXT = 10
# How many of a unit of datetime64 make a day.
UNITS = {
    "D": 1, "h": 24, "m": 1_440, "s": 86_400, "ms": 86_400 * 10**3, "us": 86_400 * 10**6, "ns": 86_400 * 10**9,
}


# ---- calls of the library


def address(of: Any) -> Any:
    """Where an array lies."""
    return ctypes.c_void_p(of.__array_interface__["data"][0])


def call(name: str, *arguments: Any) -> None:
    """Calls a function for columns. An array is passed as its address and its length, and a number as 32 bits."""
    words: list[Any] = []
    for it in arguments:
        if isinstance(it, np.ndarray):
            words += [address(it), ctypes.c_size_t(it.size)]
        else:
            words.append(ctypes.c_int32(it) if isinstance(it, int) else it)
    function = getattr(LIBRARY, f"calendar_column_{name}")
    function.restype = ctypes.c_bool
    if not function(*words):
        raise RuntimeError(f"calendar_column_{name} refuses its columns")


def loop(name: str, *arguments: Any) -> None:
    """Calls a loop of src/columns.c. An array is passed as its address, a number as 64 bits, and bytes with their length."""
    words: list[Any] = []
    for it in arguments:
        if isinstance(it, bytes):
            words += [ctypes.c_char_p(it), ctypes.c_size_t(len(it))]
        else:
            words.append(ctypes.c_int64(it) if isinstance(it, int) else address(it))
    function = getattr(LIBRARY, f"proved_{name}")
    function.restype = None
    function(*words)


def flat64(values: Any) -> Any:
    """The 64 bits of each element, in one row without gaps."""
    return np.require(values, requirements="CA").view(np.int64)


def numbers_of_days(days: Any) -> Any:
    """Day numbers from days since 1970."""
    found = np.empty(days.size, np.int32)
    call("from_unix_days", days, found)
    return found


# ---- what an array holds


class Layout:
    """How an array holds dates: its day numbers, and an array of the same type from those."""

    # (how many of a unit of datetime64 make a day)
    day = UNITS["D"]

    def __init__(self, dtype: Any) -> None:
        self.dtype = dtype

    def numbers(self, values: Any) -> Any:
        """The day numbers of a piece."""
        raise NotImplementedError

    def put(self, found: Any, out: Any) -> None:
        """Writes a piece of dates, without a time of day, from their day numbers."""
        raise NotImplementedError

    def move(self, found: Any, values: Any, starts: Any, out: Any) -> None:
        """Writes a piece of dates after a move of their day numbers from the starts, with their times of day."""
        self.put(found, out)


class Int32(Layout):
    """Day numbers as the library has them."""

    def numbers(self, values: Any) -> Any:
        return np.require(values, np.int32, "CA")

    def put(self, found: Any, out: Any) -> None:
        out[...] = found


class Int64(Layout):
    """Day numbers of 64 bits."""

    def numbers(self, values: Any) -> Any:
        return np.clip(values.astype(np.int64, copy=False), FIRST - 1, LAST + 1).astype(np.int32)

    def put(self, found: Any, out: Any) -> None:
        out[...] = found
        out[found == NONE] = NAT


class Days(Layout):
    """Days since 1970, as numpy counts them."""

    def numbers(self, values: Any) -> Any:
        return numbers_of_days(flat64(values))

    def put(self, found: Any, out: Any) -> None:
        call("to_unix_days", found, out.view(np.int64))


class Times(Layout):
    """Times since 1970, of which so many make a day."""

    def __init__(self, dtype: Any, day: int) -> None:
        super().__init__(dtype)
        self.day = day

    def numbers(self, values: Any) -> Any:
        times = flat64(values)
        found = np.empty(times.size, np.int32)
        loop("dates_of_times", self.day, times, times.size, found)
        return found

    def put(self, found: Any, out: Any) -> None:
        self.move(found, np.zeros(found.size, np.int64), np.full(found.size, EPOCH, np.int32), out)

    def move(self, found: Any, values: Any, starts: Any, out: Any) -> None:
        loop("times_moved", self.day, flat64(values), starts, found, found.size, out.view(np.int64))


def layout_of(dtype: Any) -> Layout:
    """How an array of a type holds dates; a TypeError if it cannot."""
    if dtype.kind == "M":
        unit, count = np.datetime_data(dtype)
        if count == 1 and unit in UNITS and dtype.isnative:
            return Days(dtype) if unit == "D" else Times(dtype, UNITS[unit])
    if dtype == np.int32 and dtype.isnative:
        return Int32(dtype)
    if dtype.kind in "iu" and np.can_cast(dtype, np.int64):
        return Int64(np.dtype(np.int64))
    raise TypeError(f"an array of {dtype} is no column of dates")


def array_of(it: Any) -> Any:
    """An array of native byte order, and none with a mask, which would be lost."""
    if isinstance(it, np.ma.MaskedArray):
        raise TypeError("a masked array is no column: fill it, with NaT for what is no date")
    found = np.asarray(it)
    return found if found.dtype.isnative else found.astype(found.dtype.newbyteorder("="))


def pieces(size: int) -> Iterator[slice]:
    return (slice(start, min(start + PIECE, size)) for start in range(0, size, PIECE))


def whole(name: str, it: SupportsIndex) -> int:
    """A whole number of 32 bits for a move: a larger one leads beyond the calendar, as the largest does."""
    if isinstance(it, (bool, np.bool_)) or not hasattr(it, "__index__"):
        raise TypeError(f"{name} is a whole number, not {type(it).__name__}")
    return max(-(2**31) + 1, min(2**31 - 1, it.__index__()))


class Dates:
    """A column of dates, which is read in pieces."""

    def __init__(self, dates: Any, shape: Any = None) -> None:
        values = array_of(dates)
        self.layout, self.shape = layout_of(values.dtype), values.shape if shape is None else shape
        self.values = spread(values, self.shape)
        self.size = self.values.size

    def numbers(self, piece: slice) -> Any:
        """The day numbers of a piece."""
        return self.layout.numbers(self.values[piece])

    def pieces(self) -> Iterator[slice]:
        return pieces(self.size)


def spread(values: Any, shape: Any) -> Any:
    """An array as one row, as long as a shape is large; what is one element for all takes no memory."""
    size = np.prod(shape, dtype=np.int64)
    if values.size == 1 and values.ndim <= len(shape):
        return np.broadcast_to(values.reshape(()), size)
    return np.broadcast_to(values, shape).reshape(-1)


def small_of(name: str, it: Any, kind: Any, shape: Any) -> Callable[[slice], Any]:
    """Pieces of whole numbers as a smaller type; what lies beyond it becomes its bound."""
    values, bounds = array_of(it), np.iinfo(kind)
    if values.dtype.kind not in "iu" or not np.can_cast(values.dtype, np.int64):
        raise TypeError(f"{name} are whole numbers, not {values.dtype}")
    flat = spread(values, shape)

    def small(piece: slice) -> Any:
        part = flat[piece]
        if part.dtype == kind:
            return np.require(part, requirements="CA")
        return np.clip(part.astype(np.int64, copy=False), bounds.min, bounds.max).astype(kind)

    return small
