"""The program of rows: it reads rows, each a call with its result, and prints those for which it returns something else.

A layer's rows stand in the program's standard input behind a line that names the layer.
"""
import os
import re
import subprocess

from checks import TOP

CRATE = "crates/rows_layers"
# The standing rows, and the program, which `rt run` and `rt ci` leave there.
STDIN = f"{CRATE}/stdin"
PROGRAM = os.path.join(TOP, CRATE, "out", "rows_layers")
NO_PROGRAM = f"there is no {os.path.relpath(PROGRAM, TOP)}"
SHOWN = 5


def section(layer, rows):
    """The lines of a layer's rows, with the one that names it."""
    return "".join(f"{it}\n" for it in (f"rows {layer}", *rows))


def sections(text):
    """The rows of each layer, by its name, of a text for the program."""
    _, *parts = re.split(r"^rows (\w+)\n", text, flags=re.M)
    return {layer: rows.split("\n")[:-1] for layer, rows in zip(parts[::2], parts[1::2], strict=True)}


def standing_sections():
    with open(os.path.join(TOP, STDIN), encoding="utf-8", newline="") as it:
        return sections(it.read())


def standing_rows(layer):
    """The rows of a layer that stand in the repository."""
    return standing_sections()[layer]


def write_rows(layer, rows):
    """Puts rows in the place of a layer's standing ones."""
    written = standing_sections() | {layer: rows}
    with open(os.path.join(TOP, STDIN), "w", encoding="utf-8", newline="") as out:
        out.writelines(section(*it) for it in written.items())


def failed_rows(layer, rows):
    """Runs the program over rows of a layer and prints the first that fail; how many do, and all of them if the program reads too few."""
    ran = subprocess.run([PROGRAM], input=section(layer, rows), stdout=subprocess.PIPE, text=True, timeout=900, check=False)
    *others, last = ran.stdout.splitlines() or [""]
    counts = re.fullmatch(r"(\d+) lines, (\d+) of them answered otherwise", last)
    for other in others[:SHOWN]:
        print(f"  {other[:300]}")
    # (the line that names the layer is counted too)
    is_whole = counts and int(counts[1]) == len(rows) + 1 and ran.returncode == 0
    return int(counts[2]) if is_whole else max(len(rows), 1)
