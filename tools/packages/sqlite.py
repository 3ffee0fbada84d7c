"""The package for SQLite: one file that SQLite loads, with the static libraries of the calendar and of its layers inside."""
import glob
import os
import shutil

from . import CALENDAR, LAYERS, LICENCES, Missing, run

NAME = "proved_calendar.so"
# (a file without debug information, that shows nothing but where SQLite begins)
FLAGS = ["-shared", "-fPIC", "-std=c99", "-O2", "-s", "-fvisibility=hidden", "-Wall", "-Wextra", "-Wpedantic", "-Werror"]
LINKED = ["-Wl,--exclude-libs,ALL", "-Wl,-z,defs"]
PROBE = "#include <sqlite3ext.h>\n"


def has_headers():
    """Whether the compiler finds the headers of SQLite."""
    try:
        run(["cc", "-fsyntax-only", "-x", "c", "-"], input=PROBE)
    except RuntimeError:
        return False
    return True


def compile_extension(top, folder, libraries, path):
    """Compiles the sources in a folder over static libraries; the path of the extension."""
    sources = sorted(glob.glob(f"{folder}/src/*.c"))
    run(["cc", *FLAGS, f"-I{top}/languages/c", *sources, *libraries, *LINKED, "-o", path])
    return path


def make(top, built, dist):
    """Makes sqlite/ with the extension, its page and the licences; their paths."""
    if not has_headers():
        raise Missing("no sqlite3ext.h: tools/setup installs Debian's")
    os.makedirs(f"{dist}/sqlite", exist_ok=True)
    folder = f"{top}/languages/sqlite"
    paths = [compile_extension(top, folder, [f"{built}/lib{it}.a" for it in (CALENDAR, LAYERS)], f"{dist}/sqlite/{NAME}")]
    for file in (f"{folder}/README.md", *(f"{top}/{it}" for it in LICENCES)):
        paths.append(shutil.copy(file, f"{dist}/sqlite/"))
    return paths
