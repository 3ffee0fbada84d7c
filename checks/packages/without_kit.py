#!/usr/bin/env python3
"""What a clone gives on a machine without the kit: the C files of amalgamation/, and what is installed from them.

    python3 -m checks.packages.without_kit

Each C file has to be of the sources of this tree, by the sum in its head. Then, with no `rt` on the path, each line that the pages give for a
clone is run: C by cc, by CMake and by pkg-config, caltool by cc, Python by pip, Rust by cargo, JavaScript by npm, SQLite and PostgreSQL by make.
README's examples have to print what README says; its query for PostgreSQL is checks/packages/postgresql.py's. A new user has to have an answer in each
language within LONGEST seconds of one processor. checks/packages/wheel_tags.py says what the wheels are held to.
"""
import contextlib
import glob
import os
import re
import resource
import shutil
import subprocess
import sys
import tempfile
import time

import packages
from checks import TOP
from checks.packages import from_c, wheel_tags
from checks.shared.results import LANGUAGES, Results, read, readme_examples, run, succeeds, write
from debian import REGISTRY, cargo_environment
from packages import javascript, python, sqlite
from packages.postgresql import find_config
from portable_c.c_file import HEADERS, PROGRAM, file_name

SOURCES = f"{TOP}/amalgamation"
COUNTS = (r"^(\d+) passed", r"(\d+) failed")
QUIET = dict(PYTHONDONTWRITEBYTECODE="1", PIP_DISABLE_PIP_VERSION_CHECK="1", PIP_NO_INDEX="1")
CMAKE = """\
cmake_minimum_required(VERSION 3.13)
project(user C)
add_subdirectory({sources} calendar)
add_executable(user {test})
target_link_libraries(user calendar::calendar)
"""
LONGEST = 120
ASKED = ("ymd 1900 2 29\nymd 2024 2 29\n", "none\n2024-02-29 738945 Thu 2024-W09 60\n")


def without_kit(room):
    """The environment of a machine without the kit: a folder of links to all programs of the path but rt is the whole path."""
    folder = f"{room}/bin"
    os.makedirs(folder)
    for place in reversed(os.environ["PATH"].split(os.pathsep)):
        for name in os.listdir(place) if os.path.isdir(place) else []:
            if name not in ("rt", "rattle"):
                if os.path.lexists(f"{folder}/{name}"):
                    os.remove(f"{folder}/{name}")
                os.symlink(f"{place}/{name}", f"{folder}/{name}")
    return {**os.environ, **QUIET, "PATH": folder}


def compare_sum(results, path, crate):
    told = re.search(r"^ \* ([0-9a-f]{64})$", read(path), re.M) if os.path.exists(path) else None
    results.count(told and told[1] == packages.sum_of_sources(TOP, crate), f"{path} is not of the sources of {crate}: `tools/dist amalgamation` makes it")


def compare_sums(results):
    """The files that `tools/dist amalgamation` writes are of these sources, and the headers are those of languages/c."""
    for source, it in javascript.MODULES.items():
        compare_sum(results, f"{LANGUAGES}/javascript/src/{source}.js", it.crate)
    for crate in (*HEADERS, PROGRAM):
        compare_sum(results, f"{SOURCES}/{file_name(crate)}", crate)
    for header in HEADERS.values():
        results.count(read(f"{SOURCES}/{header}") == read(f"{LANGUAGES}/c/{header}"), f"amalgamation/{header} is not languages/c/{header}")


@contextlib.contextmanager
def timed(results, what):
    """Tells how long a new user of a language waits for the first answer, and counts whether one processor needs no more than LONGEST seconds."""
    began, before = time.time(), resource.getrusage(resource.RUSAGE_CHILDREN)
    yield
    after = resource.getrusage(resource.RUSAGE_CHILDREN)
    used = after.ru_utime + after.ru_stime - before.ru_utime - before.ru_stime
    print(f"{what} answers after {time.time() - began:.0f} seconds, and took one processor {used:.0f}", flush=True)
    results.count(used <= LONGEST, f"{what} takes one processor more than {LONGEST} seconds until it answers")


def try_examples(results, language, printed):
    """README's examples in a language print what README says, each by a function that runs it, or gives None if it cannot be run here."""
    examples = readme_examples(language)
    results.count(examples, f"README.md has no example in {language}")
    for code, wanted in examples:
        said = printed(code)
        results.count(said is None or said.splitlines() == wanted, f"README.md's example in {language} prints {said!r}, and not {wanted}")


def try_c(results, room, env):
    """README's example, the tests of both headers, and caltool, by cc."""
    def printed(code):
        write(f"{room}/main.c", code)
        words = ["cc", "-O2", f"-I{SOURCES}", f"{room}/main.c", f"{SOURCES}/{packages.CALENDAR}.c", "-o", f"{room}/main"]
        return None if succeeds(results, words, env=env) is None else succeeds(results, [f"{room}/main"], env=env)

    with timed(results, "C"):
        try_examples(results, "c", printed)
    for name, test in {packages.CALENDAR: "test.c", packages.LAYERS: "test_layers.c"}.items():
        program, more = f"{room}/{name}", [f"{SOURCES}/{packages.CALENDAR}.c"] if name == packages.LAYERS else []
        words = ["cc", "-O2", f"-I{SOURCES}", f"{LANGUAGES}/c/{test}", f"{SOURCES}/{name}.c", *more, "-o", program]
        if succeeds(results, words, env=env) is not None:
            run(results, f"{test} over amalgamation/{name}.c", [program], COUNTS)
    with timed(results, "caltool"):
        if succeeds(results, ["cc", "-O2", f"{SOURCES}/caltool.c", "-o", f"{room}/caltool"], env=env) is not None:
            ask_caltool(results, f"{room}/caltool")


def ask_caltool(results, program):
    """caltool answers the lines of its page."""
    asked, answers = ASKED
    said = subprocess.run([program], input=asked, capture_output=True, text=True)
    results.count((said.returncode, said.stdout) == (0, answers), f"{program} says {said.stdout!r}")


def try_cmake(results, room, env):
    """The folder as a part of a user's project, and installed to a prefix, where CMake and pkg-config find it for C and C++."""
    if not shutil.which("cmake"):
        print("not run: CMake over amalgamation/, since there is no cmake")
        return
    user, made, prefix = f"{room}/user", f"{room}/made", f"{room}/prefix with a space"
    os.makedirs(user)
    with open(f"{user}/CMakeLists.txt", "w", encoding="utf-8") as it:
        it.write(CMAKE.format(sources=SOURCES, test=f"{LANGUAGES}/c/test.c"))
    for words in (["-S", user, "-B", f"{user}/made"], ["--build", f"{user}/made", "--target", "user"]):
        succeeds(results, ["cmake", *words], env=env)
    run(results, "test.c by CMake", [f"{user}/made/user"], COUNTS)
    for words in (["-S", SOURCES, "-B", made], ["--build", made], ["--install", made, "--prefix", prefix]):
        if succeeds(results, ["cmake", *words], env=env) is None:
            return
    ask_caltool(results, f"{prefix}/bin/caltool")
    from_c.test_by_pkg_config(results, room, prefix)
    from_c.test_by_cmake(results, room, prefix)


def copied(room, name):
    """A copy of a language's folder beside amalgamation/, as a clone has them."""
    skipped = shutil.ignore_patterns("__pycache__", "build", "*.egg-info", "*.so", "*.o")
    for folder in (f"languages/{name}", "amalgamation"):
        shutil.copytree(f"{TOP}/{folder}", f"{room}/{folder}", dirs_exist_ok=True, ignore=skipped)
    return f"{room}/languages/{name}"


def has_module(program, name, what):
    """Whether a Python has a module that something needs, which is named if it cannot be run."""
    is_there = subprocess.run([program, "-c", f"import {name}"], stderr=subprocess.DEVNULL).returncode == 0
    if not is_there:
        print(f"not run: {what}, since there is no {name}")
    return is_there


def printed_by_python(results, program, code, env):
    """What an example prints, or None if it is of pandas, which is not there."""
    if "import pandas" in code and not has_module(program, "pandas", "README's example of pandas"):
        return None
    return succeeds(results, [program, "-c", code], env=env)


def try_python(results, room, env):
    """`pip install` of the folder in a fresh environment, README's examples and the package's tests."""
    try:
        program = python.python()
    except packages.Missing as it:
        print(f"not run: Python over amalgamation/: {it}")
        return
    folder, place = copied(f"{room}/python", "python"), f"{room}/env"
    # (a machine that reaches no index takes setuptools from its own Python)
    words = [f"{place}/bin/pip", "install", "--quiet", "--no-build-isolation", folder]
    with timed(results, "Python"):
        if succeeds(results, [program, "-m", "venv", "--system-site-packages", place], env=env) is None or succeeds(results, words, env=env) is None:
            return
        program = f"{place}/bin/python"
        try_examples(results, "python", lambda code: printed_by_python(results, program, code, env))
    # (a second time, over what the first one leaves in the folder)
    succeeds(results, [*words, "--force-reinstall"], env=env)
    columns = ["test_columns.py"] if has_module(program, "numpy", "test_columns.py over amalgamation/") else []
    for name in ("test_calls.py", "test_layers.py", "test_zoned.py", *columns):
        run(results, f"{name} over amalgamation/", [program, f"{LANGUAGES}/python/tests/{name}", "-v"], (r"\.\.\. ok()$", r"\.\.\. (?:FAIL|ERROR)()$"), env=env)


def try_rust(results, room, env):
    """`cargo add` of the folder in a project, and README's example there."""
    if not shutil.which("cargo") or not glob.glob(f"{REGISTRY}/cc-*"):
        print("not run: Rust over amalgamation/, since there is no cargo or no librust-cc-dev")
        return
    folder, project = copied(f"{room}/rust", "rust"), f"{room}/rust/user"
    how = dict(cwd=project, env={**cargo_environment(room), "PATH": env["PATH"]})

    def printed(code):
        write(f"{project}/src/main.rs", code)
        return succeeds(results, ["cargo", "run", "--offline", "--quiet"], **how)

    os.makedirs(project)
    with timed(results, "Rust"):
        succeeds(results, ["cargo", "init", "--vcs", "none"], **how)
        succeeds(results, ["cargo", "add", "--offline", "--path", folder], **how)
        try_examples(results, "rust", printed)


def try_javascript(results, room, env):
    """`npm install` of the folder in a project, and README's example there."""
    if not shutil.which("npm"):
        print("not run: JavaScript in a clone, since there is no npm")
        return
    os.makedirs(f"{room}/project")
    with timed(results, "JavaScript"):
        succeeds(results, ["npm", "install", "--offline", "--no-audit", "--no-fund", f"{LANGUAGES}/javascript"], cwd=f"{room}/project", env=env)
        words = ["node", "--input-type=module", "-e"]
        try_examples(results, "js", lambda code: succeeds(results, [*words, code], cwd=f"{room}/project", env=env))


def try_sqlite(results, room, env):
    """The extension for SQLite, by make, from Python and from its own shell."""
    if not sqlite.has_headers():
        print("not run: SQLite over amalgamation/, since there is no sqlite3ext.h")
        return
    folder = copied(f"{room}/sqlite", "sqlite")
    with timed(results, "SQLite"):
        succeeds(results, ["make", "-s", "install", f"DESTDIR={room}/sqlite/root"], cwd=folder, env=env)
        asked = "import sqlite3; it = sqlite3.connect(':memory:'); it.enable_load_extension(True); it.load_extension('./proved_calendar'); print(it.execute(\"SELECT add_months('2024-02-29', 12)\").fetchone()[0])"
        said = succeeds(results, [python.python(), "-c", asked], cwd=f"{room}/sqlite/root/usr/local/lib", env=env)
        results.count(said and said.strip() == "2025-02-28", f"SQLite over amalgamation/ says {said!r}")
    if shutil.which("sqlite3"):
        words = ["sqlite3", "-bail", "-cmd", f".load {room}/sqlite/root/usr/local/lib/proved_calendar", ":memory:"]
        try_examples(results, "sql", lambda code: succeeds(results, [*words, code], env=env))


def try_postgresql(results, room, env):
    """The extension for PostgreSQL is made."""
    config = find_config()
    if config and os.path.exists(subprocess.run([config, "--pgxs"], capture_output=True, text=True).stdout.strip()):
        folder = copied(f"{room}/postgresql", "postgresql")
        succeeds(results, ["make", "-s", "install", f"PG_CONFIG={config}", f"DESTDIR={room}/postgresql/root"], cwd=folder, env=env)
    else:
        print("not run: PostgreSQL over amalgamation/, since there is no pg_config with PGXS")


def main():
    results = Results()
    with tempfile.TemporaryDirectory(prefix="without-kit-") as room:
        env = without_kit(room)
        compare_sums(results)
        try_c(results, room, env)
        try_cmake(results, room, env)
        try_python(results, room, env)
        try_rust(results, room, env)
        try_javascript(results, room, env)
        try_sqlite(results, room, env)
        try_postgresql(results, room, env)
        wheel_tags.try_wheels(results, room)
    print(f"{results.passed} passed, {results.failed} failed")
    return 1 if results.failed else 0


if __name__ == "__main__":
    sys.exit(main())
