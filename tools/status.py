"""The files of status/: what the last runs of tools/plants.py and tools/gate.py found, each with its commit and date."""
import datetime
import os
import subprocess

TOP = os.path.dirname(os.path.dirname(os.path.abspath(__file__)))
FOLDER = f"{TOP}/status"


def commit():
    """The commit of the work tree, in short, which the tools work on."""
    ran = subprocess.run(["git", "rev-parse", "--short=12", "HEAD"], cwd=TOP, check=True, capture_output=True, text=True)
    return ran.stdout.strip()


def today():
    return datetime.date.today().isoformat()


def aligned(rows):
    """Rows of words as lines, each column as wide as its widest word; the first column begins at the left, the others end at the right."""
    widths = [max(len(row[at]) for row in rows) for at in range(len(rows[0]))]
    return [" ".join([row[0].ljust(widths[0]), *(word.rjust(width) for word, width in zip(row[1:], widths[1:]))]).rstrip() for row in rows]


def write(name, head, rows):
    """Writes a file of status/: lines that say what it is, each behind `#`, and the rows."""
    os.makedirs(FOLDER, exist_ok=True)
    with open(f"{FOLDER}/{name}", "w", encoding="utf-8") as it:
        it.write("".join(f"# {line}\n" for line in head) + "".join(f"{line}\n" for line in aligned(rows)))


def rows_of(name):
    """The rows of a file of status/ as words, without the row of titles."""
    if not os.path.isfile(f"{FOLDER}/{name}"):
        return []
    with open(f"{FOLDER}/{name}", encoding="utf-8") as it:
        return [line.split() for line in it if not line.startswith("#")][1:]
