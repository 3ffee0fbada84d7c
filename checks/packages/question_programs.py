"""The programs of checks/packages/questions.py: how the blocks of each language become one, and how it is run on a machine without the kit.

Both C files of amalgamation/ are compiled once. Each package is made over these libraries by its module of tools/packages, but `dates` is the
one that the gate left. `packages.Missing` says what a language cannot be run without.
"""
import collections
import os
import shutil
import sys
import textwrap

import packages
from checks import TOP
from checks.packages import from_python, from_rust, hosts
from checks.packages.postgresql_server import Server
from checks.shared.results import LANGUAGES, serves, succeeds
from debian import PYTHON, cargo_environment
from packages import postgresql, python, sqlite

SOURCES = f"{TOP}/amalgamation"
DATES = f"{TOP}/crates/dates/out/dates"

# What stands before all blocks, around the block of each number, and behind all: each block prints its number first, and has its own names.
Program = collections.namedtuple("Program", "head block tail")
PROGRAMS = {
    "Python": Program("", "print('== {number}')\ndef answer():\n{indented}\nanswer()\n", ""),
    "Rust": Program(
        "fn main() {\n",
        'println!("== {number}");\n(|| -> Option<()> {{\n{code}Some(())\n}})().expect("the block has an answer");\n',
        "}\n",
    ),
    "JavaScript": Program("", 'console.log("== {number}");\n{{\n{code}}}\n', ""),
    "C": Program("int main(void)\n{\n", 'puts("== {number}");\n{{\n{code}}}\n', "return 0;\n}\n"),
    "SQLite": Program("", ".print == {number}\nBEGIN;\n{code}ROLLBACK;\n", ""),
    "PostgreSQL": Program("", "\\echo == {number}\nBEGIN;\n{code}ROLLBACK;\n", ""),
    "dates": Program("", "echo '== {number}'\n(\n{code})\n", ""),
}


def program_of(language, lines_before, codes):
    """The program of a language: the lines that stand before its blocks, and each block behind a line with its number."""
    head, block, tail = PROGRAMS[language]
    blocks = (block.format(number=number, code=code, indented=textwrap.indent(code, "    ")) for number, code in codes.items())
    return "".join([lines_before, head, *blocks, tail])


def build_libraries(room):
    """Compiles both C files to static libraries, in a folder from which packages are made; the folder."""
    built = f"{room}/built"
    os.makedirs(built)
    for name in (packages.CALENDAR, packages.LAYERS):
        packages.run(["cc", "-O2", "-fPIC", f"-I{SOURCES}", "-c", f"{SOURCES}/{name}.c", "-o", f"{built}/{name}.o"])
        packages.run(["ar", "rcs", f"{built}/lib{name}.a", f"{built}/{name}.o"])
    return built


def write(path, text):
    os.makedirs(os.path.dirname(path), exist_ok=True)
    with open(path, "w", encoding="utf-8") as it:
        it.write(text)
    return path


def need(missing):
    """Raises `Missing` if something is missing, such as `no cargo`."""
    if missing:
        raise packages.Missing(missing)


# ---- how each program is run: what it prints, or None


def has_numpy():
    """Whether Debian's Python can have an environment with numpy."""
    return from_python.debian_has("ensurepip", "numpy")


def run_python(results, room, built, text):
    wheel = next(it for it in python.make(TOP, built, f"{room}/dist") if it.endswith(".whl"))
    how = (PYTHON, wheel, "--system-site-packages") if has_numpy() else (sys.executable, wheel)
    program = from_python.install(results, room, "env", *how)
    return program and succeeds(results, [program, write(f"{room}/questions.py", text)], env=from_python.QUIET)


def run_rust(results, room, built, text):
    need(from_rust.missing_tool())
    project = from_rust.make_project(f"{room}/project", f"{LANGUAGES}/rust", (), ("std",))
    write(f"{project}/src/main.rs", text)
    return succeeds(results, ["cargo", "run", "--offline", "--quiet"], cwd=project, env=cargo_environment(room, built))


def run_javascript(results, room, built, text):
    need(None if serves("node", hosts.least_node()) else f"no node {hosts.least_node()} or later")
    os.makedirs(f"{room}/node_modules")
    # (as npm installs a folder)
    os.symlink(hosts.FOLDER, f"{room}/node_modules/proved-calendar")
    return succeeds(results, ["node", write(f"{room}/questions.mjs", text)])


def run_c(results, room, built, text):
    libraries = [f"{built}/lib{it}.a" for it in (packages.LAYERS, packages.CALENDAR)]
    words = ["cc", "-O2", "-Wall", "-Werror", f"-I{SOURCES}", write(f"{room}/questions.c", text), *libraries, "-o", f"{room}/questions"]
    return None if succeeds(results, words) is None else succeeds(results, [f"{room}/questions"])


def run_sqlite(results, room, built, text):
    need(None if shutil.which("sqlite3") else "no sqlite3")
    extension, *_ = sqlite.make(TOP, built, f"{room}/dist")
    return succeeds(results, ["sqlite3", "-bail", "-cmd", f".load {extension.removesuffix('.so')}", ":memory:"], input=text)


def run_postgresql(results, room, built, text):
    module, *_ = postgresql.make(TOP, built, f"{room}/dist")
    with Server(postgresql.find_config()) as server:
        server.install(os.path.dirname(module))
        results.count(not server.ask("CREATE EXTENSION proved_calendar"), "the extension for PostgreSQL is not created")
        return server.ask(text)


def run_dates(results, room, built, text):
    need(None if os.path.exists(DATES) else "no crates/dates/out/dates, which the gate leaves")
    env = {**os.environ, "PATH": f"{os.path.dirname(DATES)}{os.pathsep}{os.environ['PATH']}"}
    # (a day that is none is told on standard error)
    return succeeds(results, ["bash", "-c", f"exec 2>/dev/null\n{text}true\n"], env=env)


RUN = {
    "Python": run_python, "Rust": run_rust, "JavaScript": run_javascript, "C": run_c, "SQLite": run_sqlite, "PostgreSQL": run_postgresql,
    "dates": run_dates,
}


def run(results, language, room, built, text):
    """Runs a program in a folder of its own; what it prints, or None."""
    os.makedirs(f"{room}/{language}")
    return RUN[language](results, f"{room}/{language}", built, text)
