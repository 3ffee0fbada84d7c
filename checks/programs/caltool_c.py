"""caltool as one C file, for checks/packages/portable.py: built by each compiler that is found, it has to answer as the proved program does.

It gets lines that come near to being wrong, whose answers are counted (checks/programs/fuzz.py), and the rows of caltool. On this machine its statuses
are tried too, with streams that fail (checks/programs/statuses.py). Faults planted in the translation have to be found by the lines.
"""
import os
import stat
import subprocess

from checks import TOP
from checks.packages.c_builds import BUILDS, FAULTS, PLANTED, WARNINGS, planted, program, why_not
from checks.programs import fuzz, statuses
from checks.shared.results import read, succeeds

SOURCE = f"{TOP}/amalgamation/caltool.c"
LINES, SEED = 20_000, 1


def rows():
    """The rows of caltool: lines, and their answers."""
    given = []
    for name in ("stdin", "stdout"):
        with open(f"{TOP}/crates/caltool/{name}", "rb") as it:
            given.append(it.read())
    return given


def as_one_program(room, runner, path):
    """A program that runs another one by an emulator, so that a shell can run it by one path."""
    script = f"{room}/emulated"
    with open(script, "w", encoding="utf-8") as it:
        it.write(f"#!/bin/sh\nexec {' '.join(runner)} {path}\n")
    os.chmod(script, os.stat(script).st_mode | stat.S_IXUSR)
    return script


def try_build(results, room, name, lines):
    """Builds the program one way, and compares its answers and its statuses."""
    words, runner = BUILDS[name]
    path = program(f"{room}/caltool", words)
    if succeeds(results, [*words, *WARNINGS, SOURCE, "-o", path]) is None:
        return
    results.count(fuzz.is_answered([*runner, path], SEED, *lines), f"caltool.c by {name} answers otherwise")
    asked, has_to = rows()
    did = subprocess.run([*runner, path], input=asked, stdout=subprocess.PIPE, timeout=600).stdout
    results.count(did == has_to, f"caltool.c by {name} answers its rows otherwise")
    if name == "Windows":
        return
    # (sanitizers take more memory than the long inputs are allowed, and an emulator too)
    is_plain = not runner and "sanitizers" not in name
    passed, failed = statuses.try_program(as_one_program(room, runner, path) if runner else path, f"caltool.c by {name}", is_plain)
    results.passed, results.failed = results.passed + passed, results.failed + failed


def try_faults(results, room, lines):
    """Plants faults of a translator; the lines have to find each."""
    for name, fault in FAULTS.items():
        with open(f"{room}/wrong.c", "w", encoding="utf-8") as it:
            it.write(planted(results, f"caltool.c: {name}", fault, read(SOURCE)))
        built = subprocess.run([*PLANTED, f"{room}/wrong.c", "-o", f"{room}/wrong"], capture_output=True)
        results.count(built.returncode or not answers_rightly(f"{room}/wrong", lines), f"caltool.c: the planted fault is not found: {name}")


def answers_rightly(path, lines):
    """Whether a program gives the answers of the lines; one that runs on for two minutes does not."""
    text, _, right = lines
    try:
        ran = subprocess.run([path], input=text, capture_output=True, timeout=120)
    except subprocess.TimeoutExpired:
        return False
    return ran.returncode == 0 and ran.stdout.decode("latin-1").split("\n") == right


def check_program(results, room):
    """All builds of caltool.c, and its planted faults."""
    if not os.path.exists(SOURCE):
        results.count(False, "there is no amalgamation/caltool.c: `tools/dist amalgamation` makes it")
        return
    lines = fuzz.made(LINES, SEED)
    for name in BUILDS:
        why = why_not(name)
        if why:
            print(f"not run: caltool.c by {name}, since {why}")
        else:
            try_build(results, room, name, lines)
    try_faults(results, room, lines)
