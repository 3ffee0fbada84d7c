"""The package for PostgreSQL: the files of an extension, whose module has both static libraries inside, and a script that installs them.

It is for the major version of the pg_config that is found: that of the variable PG_CONFIG, or on the path, or Debian's.
"""
import glob
import os
import re
import shutil

from . import CALENDAR, LAYERS, LICENCES, Missing, run

NAME = "proved_calendar"
FLAGS = ["-shared", "-fPIC", "-std=gnu99", "-O2", "-s", "-Wall", "-Wextra", "-Werror", "-Wno-unused-parameter"]
# PostgreSQL makes the names of a module known to all others, so only those that it looks for are shown.
NAMES = "{ global: Pg_magic_func; _PG_init; proved_*; pg_finfo_proved_*; local: *; };\n"


def find_config():
    """The pg_config, or None."""
    debians = sorted(glob.glob("/usr/lib/postgresql/*/bin/pg_config"), key=lambda it: float(it.split("/")[4]))
    return os.environ.get("PG_CONFIG") or shutil.which("pg_config") or (debians[-1] if debians else None)


def asked(config, what):
    """What a pg_config answers, such as the path of a folder."""
    return run([config, f"--{what}"]).strip()


def major(config):
    """The major version, as 15."""
    return re.search(r"\d+", asked(config, "version"))[0]


def headers(config):
    """The folder of the server's headers."""
    folder = asked(config, "includedir-server")
    if not os.path.exists(f"{folder}/postgres.h"):
        raise Missing("no postgres.h: tools/setup installs Debian's postgresql-server-dev-15")
    return folder


def compile_extension(top, folder, libraries, path, config):
    """Compiles the sources in a folder over static libraries; the path of the module."""
    names = f"{path}.names"
    with open(names, "w", encoding="utf-8") as it:
        it.write(NAMES)
    sources = sorted(glob.glob(f"{folder}/src/*.c"))
    includes = [f"-I{top}/languages/c", "-isystem", headers(config)]
    try:
        run(["cc", *FLAGS, *includes, *sources, *libraries, f"-Wl,--version-script={names}", "-o", path])
    finally:
        os.remove(names)
    return path


def make(top, built, dist):
    """Makes postgresql/ with the module, its declarations in SQL, the script, the page and the licences; their paths."""
    config = find_config()
    if not config:
        raise Missing("no pg_config: tools/setup installs Debian's postgresql-15")
    os.makedirs(f"{dist}/postgresql", exist_ok=True)
    folder = f"{top}/languages/postgresql"
    libraries = [f"{built}/lib{it}.a" for it in (CALENDAR, LAYERS)]
    paths = [compile_extension(top, folder, libraries, f"{dist}/postgresql/{NAME}.so", config)]
    for file in (*sorted(glob.glob(f"{folder}/{NAME}*")), f"{folder}/README.md", *(f"{top}/{it}" for it in LICENCES)):
        paths.append(shutil.copy(file, f"{dist}/postgresql/"))
    with open(f"{folder}/install", encoding="utf-8") as it:
        script = it.read().replace("@MAJOR@", major(config))
    with open(f"{dist}/postgresql/install", "w", encoding="utf-8") as it:
        it.write(script)
    return [*paths, f"{dist}/postgresql/install"]
