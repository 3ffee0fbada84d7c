#!/usr/bin/env python3
"""Runs the tests in Rattle unproved, in copies of the crates that they use: those of checks/rows/tests_chrono and of checks/programs/tests_caltool.

    python3 -m checks.rows.tests             (both)
    python3 -m checks.rows.tests NAME ..     (of these folders, such as tests_chrono)

`rt try --test` stops a test at an index out of bounds, an overflow and a failed `unwrap`. One module of tests_chrono with a turned answer has
to fail.
"""
import argparse
import concurrent.futures
import os
import re
import shutil
import subprocess
import sys
import tempfile

from checks.shared.results import Results, read, write
from repositories import APART, put_apart

# A test that goes through every second of a day takes minutes.
SECONDS = "1200"
FOLDERS = {os.path.basename(it): it for it in APART if it.startswith("checks/")}
# A module of tests_chrono, a file of it, an answer there, and another answer.
TURNED = ("time_delta", "arithmetic.rt", "TimeDelta::seconds(859_400)", "TimeDelta::seconds(859_401)")


def told(folder):
    """How many tests passed and how many failed, and what was said."""
    words = ["rt", "try", "--test", "--seconds", SECONDS]
    ran = subprocess.run(words, cwd=folder, stdin=subprocess.DEVNULL, stdout=subprocess.PIPE, stderr=subprocess.STDOUT, text=True, errors="replace")
    found = re.search(r"^test result: \w+\. (\d+) passed; (\d+) failed;", ran.stdout, re.M)
    return *((int(found[1]), int(found[2])) if found else (0, 1)), ran.stdout


def run(name):
    with tempfile.TemporaryDirectory(prefix=f"{name}-") as room:
        return told(put_apart(room, FOLDERS[name]))


def fails_if_turned():
    """Whether a test of a module fails once its answer is turned. The copy has this module alone."""
    module, name, old, new = TURNED
    with tempfile.TemporaryDirectory(prefix="turned-") as room:
        folder = put_apart(room, FOLDERS["tests_chrono"])
        sources = {it: read(f"{folder}/src/{it}") for it in (f"{module}.rt", *(f"{module}/{it}" for it in os.listdir(f"{folder}/src/{module}")))}
        shutil.rmtree(f"{folder}/src")
        assert sources[f"{module}/{name}"].count(old) == 1, f"{module}/{name}: {old}"
        for path, text in {**sources, "lib.rt": f"#[cfg(test)]\nmod {module};\n"}.items():
            write(f"{folder}/src/{path}", text.replace(old, new))
        passed, failed, _ = told(folder)
    return passed > 0 and failed == 1


def main():
    parser = argparse.ArgumentParser(description=__doc__.partition("\n")[0])
    parser.add_argument("names", nargs="*", metavar="NAME")
    names = parser.parse_args().names or FOLDERS
    results = Results()
    with concurrent.futures.ThreadPoolExecutor(2) as pool:
        for name, (passed, failed, said) in zip(names, pool.map(run, names)):
            print(f"{name}: {passed} passed, {failed} failed")
            results.passed, results.failed = results.passed + passed, results.failed + failed
            if failed:
                print(said[-3000:])
    results.count(fails_if_turned(), "tests pass with a turned answer")
    print(f"{results.passed} passed, {results.failed} failed")
    return 1 if results.failed else 0


if __name__ == "__main__":
    sys.exit(main())
