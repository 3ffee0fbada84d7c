"""The time zones of the machine's tz database as one text, which the page of the package for JavaScript holds.

A line has four parts, with a `|` between them: the names of a zone; its rule, which holds after the last change; its kinds of local time,
each as `NAME,SECONDS` ahead of UTC, of which the first holds before the first change; and the changes. Of the changes all kinds come first,
each as a digit, and then the times: the first from 1970 on, and each further one from the one before, in minutes, or with a `.` in front in
seconds. Digits are those of base 36.
"""
import collections
import os
import struct

FOLDER = "/usr/share/zoneinfo"
# Other forms of the same zones, and the machine's own.
LEFT_OUT = ("posix", "right", "localtime", "posixrules")
DIGITS = "0123456789abcdefghijklmnopqrstuvwxyz"


def files(folder):
    """The bytes of each TZif file, by the name of its zone."""
    found = {}
    for at, folders, names in os.walk(folder):
        folders[:] = [it for it in folders if it not in LEFT_OUT]
        for path in (f"{at}/{it}" for it in names if it not in LEFT_OUT):
            with open(path, "rb") as it:
                held = it.read()
            if held.startswith(b"TZif"):
                found[os.path.relpath(path, folder)] = held
    return found


def parts(file):
    """The rule of a TZif file, its kinds of local time, and the seconds of its changes with the kind that each leads to."""
    end = 0
    # (the second block, which follows one with seconds of 32 bits)
    for width in (4, 8):
        in_utc, in_standard, leaps, changes, kinds, letters = struct.unpack_from(">6I", file, end + 20)
        start = end + 44
        names = start + (width + 1) * changes + 6 * kinds
        end = names + letters + (width + 4) * leaps + in_standard + in_utc
    seconds = struct.unpack_from(f">{changes}q", file, start)
    leads_to = file[start + 8 * changes : start + 9 * changes]
    found = struct.iter_unpack(">iBB", file[names - 6 * kinds : names])
    named = [(file[names + at : file.index(b"\0", names + at)].decode(), offset) for offset, _, at in found]
    return file[end:].decode().strip("\n"), named, list(zip(seconds, leads_to))


def digits(number):
    """A number in base 36."""
    first, last = divmod(abs(number), 36)
    return ("-" if number < 0 else "") + (digits(first) if first else "") + DIGITS[last]


def distance(seconds):
    """The seconds from one change to the next, as a line has them."""
    return f".{digits(seconds)}" if seconds % 60 else digits(seconds // 60)


def data(file):
    """All of a line but the names."""
    rule, kinds, changes = parts(file)
    seconds = [it for it, _ in changes]
    leads_to = "".join(DIGITS[it] for _, it in changes)
    times = [distance(it - before) for before, it in zip([0, *seconds], seconds)]
    return "|".join((rule, " ".join(f"{name},{offset}" for name, offset in kinds), " ".join((leads_to, *times))))


def zone_texts(folder=FOLDER):
    """The lines of all zones of a folder; none if it has no zone."""
    lines = collections.defaultdict(list)
    for name, file in sorted(files(folder).items()):
        lines[data(file)].append(name)
    return "\n".join(f"{' '.join(names)}|{line}" for line, names in lines.items())


def version(folder=FOLDER):
    """The version of the tz database in a folder, such as 2025b; the empty text if it is not told."""
    path = f"{folder}/tzdata.zi"
    if not os.path.exists(path):
        return ""
    with open(path, encoding="ascii") as it:
        return it.readline().partition("version ")[2].strip()
