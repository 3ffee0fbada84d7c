#!/usr/bin/env python3
"""The examples of docs/dates.md, of crates/dates/examples.txt and of each command's help, run as they stand, what a pipe that closes early leaves, and what is said where no answer can be written.

Takes the `dates` that `rt ci` or `rt run` left, if it is newer than its sources, and else builds it by `rt run`. It puts it on the path as `dates`, and compares output and exit status of each line behind `$`, but for spaces at a line's
end and blank lines. The days of 9999 years have to be listed to the last. A line that is longer than all memory that the program may take has to be answered as any other that is no day. The man page and the completions of tools/shell have to be those that the program prints, and that of bash has to complete.
No line of the help is wider than a terminal of 80 columns, Python's own tests of `fromisoformat` have to be read but for those that the page names, and the sessions at a terminal of checks/programs/dates_terminal.py have to hold.
"""
import ast
import datetime
import os
import subprocess
import sys
import tempfile

import dates_help
import repositories
from checks import TOP
from checks.programs import dates_terminal

CRATE = os.path.join(TOP, "crates", "dates")


# The name of a file that stands in the folder in which the completion is tried.
SPACED = "two words.txt"

# A line of so many bytes, where a program has less memory in all, in kilobytes.
LENGTH, LEAST = 10_000_000, 9_000

# What is answered where such a line stands between two days, and the status.
OF_LONG_LINES = [("-", ["2024-02-28 2024-059 2024-W09-3 Wed 738944 19781", "none", "2024-02-29 2024-060 2024-W09-4 Thu 738945 19782"], 1),
                 ("add 1d", ["2024-02-29", "none", "2024-03-01"], 1), ("check", ["2: has 65536 bytes or more"], 1),
                 ("open 2024-02-29 --holidays /dev/stdin", ["dates: argument 4, /dev/stdin, line 2: has 65536 bytes or more; expected a day as 2024-02-29"], 2)]

# What is printed, up to ten bytes of a line, where lines are printed again: the long line is whole, and one that is longer than `MORE` is refused.
MORE = 16_777_216
OF_WHOLE_LINES = [("add 1d --within < long", ["2024-02-29", "x" * 10, "2024-03-01"], 0), ("sort --reverse long", ["2024-02-29", "2024-02-28", "x" * 10], 1),
                  ("grep --from 2024-02-29 --not long", ["2024-02-28", "x" * 10], 0), ("grep --on thu longer", [f"dates: line 2 has {MORE} bytes or more"], 2),
                  ("add 1d --field 1 < longer", ["2024-02-29", f"dates: line 2 has {MORE} bytes or more"], 2)]

# What is asked where no answer can be written.
UNWRITTEN = ["2024-02-29", "2024-02-29 --json", "add 2024-02-29 1d", "add 2024-02-29T12:00 1h", "diff 2024-02-29 2024-03-07", "diff 10:30 12:15 in h,min", "round 10:07 15min", "diff 2024-01-31 2025-03-01 in ymd",
             "seq 2024-02-28 2024-03-01", "week 2024-W09", "easter 2024", "leap 2024", "open 2024-03-28", "roll 2024-03-30 following", "cal 2024-02", "cal 2024",
             "cal 2024-02 --json", "next @daily --from 2024-01-01T00:00", "rule FREQ=DAILY --start 2024-01-01 --count 3", "--help", "add --help", "--version",
             "2024-02-30", "seq 2024-03-31 2024-01-01 1w", "easter +300000"]
UNWRITTEN_FAULT = "dates: No space left on device (os error 28)"

# Words whose last one is begun, and what the completion makes of that.
COMPLETED = [("dates roll 2024-03-30 following --c", ["--calendar"]), ("dates roll 2024-03-30 modified-f", ["modified-following"]),
             ("dates roll 2024-03-30 n", ["nearest"]), ("dates open 2024-03-30 --calendar e", ["england"]),
             ("dates open 2024-03-30 --weekend s", ["sat", "sun"]), ("dates open 2024-03-30 --weekend n", ["none"]),
             ("dates cal 2024-03 --first ''", ["mon", "tue", "wed", "thu", "fri", "sat", "sun"]), ("dates cal 2024-03 --first n", []),
             ("dates diff 2024-02-29 2024-03-30 in ''", ["d", "w", "m", "mo", "y", "b", "ymd", "h", "min", "s", "act/act", "act/360", "act/365", "30/360", "30e/360"]), ("dates diff 2024-02-29 2024-03-30 in y", ["y", "ymd"]),
             (f"dates open 2024-03-30 --holidays {TOP}/docs/dat", [f"{TOP}/docs/dates.md"]), (f"dates check {TOP}/docs/dat", [f"{TOP}/docs/dates.md"]),
             ("dates open 2024-03-30 --holidays two", [SPACED]), ("dates check two", [SPACED]), ("dates check 'two w'", [SPACED]),
             ("dates check --j", ["--json"])]


def examples(lines):
    """Each command among lines, behind `$`, with the lines and the status that stand below it."""
    found = []
    for line in lines:
        if line.startswith("$ "):
            found.append([line[2:].rstrip(), [], 0])
        elif line.startswith("status "):
            found[-1][2] = int(line.split()[1])
        elif found and line.strip():
            found[-1][1].append(line.rstrip())
    return found


def documented():
    """The examples of the document, whose lines are indented, and those of the crate's file of examples."""
    with open(os.path.join(TOP, "docs", "dates.md")) as document, open(os.path.join(CRATE, "examples.txt")) as more:
        return examples(line[4:] for line in document if line.startswith("    ")) + examples(more)


def helped(program):
    """The example of each command's help."""
    return [case for name in dates_help.commands(program) for case in examples(dates_help.example(program, name))]


def unusual(program):
    """The commands whose help does not begin with how they are called, or has no option or no example."""
    helps = {name: dates_help.said(program, name, "--help") for name in dates_help.commands(program)}
    return [name for name, text in helps.items() if not text.startswith(f"Usage: dates {name} ") or "\nOptions:\n" not in text or "\nExample:\n  $ " not in text]


def wide(program):
    """The lines of the help, and of that of each command, that a terminal of 80 columns does not show whole."""
    helps = [dates_help.said(program, "--help")] + [dates_help.said(program, name, "--help") for name in dates_help.commands(program)]
    return sorted({line for text in helps for line in text.splitlines() if len(line) > 80})


def stale(program):
    """The files made of the help that are not as tools/dates_help.py would make them now."""
    old = []
    for path, text in dates_help.files(program).items():
        try:
            with open(os.path.join(TOP, path)) as kept:
                same = kept.read() == text
        except FileNotFoundError:
            same = False
        if not same:
            old.append(path)
    return old


# CPython 3.11's tests, which Debian has in libpython3.11-testsuite, and how many of the texts that they read are none to `dates`.
PYTHON_TESTS, UNREAD = "/usr/lib/python3.11/test/datetimetester.py", 11


def python_texts():
    """The texts that the tests of fromisoformat have read, those of dates and of date-times, in their order."""
    with open(PYTHON_TESTS, encoding="utf-8") as source:
        tree = ast.parse(source.read())
    tests = {it.name: it for it in ast.walk(tree) if isinstance(it, ast.FunctionDef)}
    lists = [it.value for name in ("test_fromisoformat_date_examples", "test_fromisoformat_datetime_examples") for it in tests[name].body
             if isinstance(it, ast.Assign) and isinstance(it.value, ast.List)]
    return [pair.elts[0].value for it in lists for pair in it.elts]


def misread(program):
    """The texts of Python's tests that are read as anything but what Python reads, and how many are not read."""
    texts = python_texts()
    ran = subprocess.run([program, "add", "0d"], input="\n".join(texts) + "\n", capture_output=True, text=True, check=False)
    wrong = unread = 0
    for text, said in zip(texts, ran.stdout.splitlines(), strict=True):
        unread += said == "none"
        # (Python drops what is finer than a microsecond)
        read = said == "none" or datetime.datetime.fromisoformat(said) == datetime.datetime.fromisoformat(text)
        wrong += not read
    return wrong, unread


def run(command, place):
    """What a command writes in a folder where `dates` is, its errors behind its output, and its status."""
    path = place + os.pathsep + os.environ["PATH"]
    ran = subprocess.run(["bash", "-c", command], cwd=place, stdin=subprocess.DEVNULL, env={**os.environ, "PATH": path}, capture_output=True, text=True, timeout=60)
    return [line.rstrip() for line in (ran.stdout + ran.stderr).splitlines() if line.strip()], ran.returncode


def find_program():
    """The program: the one that is there, if it is newer than what it is made of, or else one that is built now."""
    program = os.path.join(CRATE, "out", "dates")
    names = repositories.below("dates", repositories.listed_crates())
    parts = [f"{TOP}/crates/{name}/{part}" for name in names for part in ("src", "specs", "proofs")]
    if os.path.exists(program) and os.path.getmtime(program) > repositories.time_of(parts, max):
        return program
    built = subprocess.run(["rt", "run"], cwd=CRATE, stdin=subprocess.DEVNULL, capture_output=True, text=True)
    if os.path.exists(program):
        return program
    print(built.stdout + built.stderr)
    return None


def main():
    program = find_program()
    if not program:
        print("0 passed, 1 failed")
        return 1
    passed = failed = 0
    with tempfile.TemporaryDirectory() as place:
        os.symlink(program, os.path.join(place, "dates"))
        cases = documented() + helped(program)
        cases.append(["set -o pipefail; yes 2024-02-29 | head -100000 | dates 2>&1 | head -1; exit ${PIPESTATUS[2]}",
                      ["2024-02-29 2024-060 2024-W09-4 Thu 738945 19782"], 0])
        cases.append(["dates seq 0001-01-01 9999-12-31 | sed -n '$p;$='", ["9999-12-31", "3652059"], 0])
        with open(os.path.join(place, SPACED), "w"):
            pass
        with open(os.path.join(place, "long"), "wb") as out:
            out.write(b"2024-02-28\n" + b"x" * LENGTH + b"\n2024-02-29\n")
        with open(os.path.join(place, "longer"), "wb") as out:
            out.write(b"2024-02-28\n" + b"x" * MORE + b"\n2024-02-29\n")
        cases += [[f"set -o pipefail; dates {words} | cut -c -10", lines, status] for words, lines, status in OF_WHOLE_LINES]
        cases += [[f"ulimit -v {LEAST}; exec dates {words} < long", lines, status] for words, lines, status in OF_LONG_LINES]
        cases += [[f"dates {words} > /dev/full", [UNWRITTEN_FAULT], 2] for words in UNWRITTEN]
        for words, completed in COMPLETED:
            cases.append([f"source {TOP}/tools/shell/dates.bash; COMP_WORDS=({words}); COMP_CWORD=$((${{#COMP_WORDS[@]}} - 1)); _dates; "
                          "printf '%s\\n' \"${COMPREPLY[@]}\"", completed, 0])
        for command, lines, status in cases:
            got = run(command, place)
            if got == (lines, status):
                passed += 1
            else:
                failed += 1
                print(f"FAILED: {command}\n  wanted {lines}, status {status}\n  got {got[0]}, status {got[1]}")
        for path in stale(program):
            failed += 1
            print(f"FAILED: {path} is not what tools/dates_help.py makes")
        for name in unusual(program):
            failed += 1
            print(f"FAILED: {name} --help does not say how it is called, or has no options or no example")
        for line in wide(program):
            failed += 1
            print(f"FAILED: wider than 80 columns: {line}")
        if sys.version_info >= (3, 11) and os.path.exists(PYTHON_TESTS):
            if misread(program) == (0, UNREAD):
                passed += 1
            else:
                failed += 1
                print(f"FAILED: {misread(program)} texts of Python are read otherwise, and are not read; wanted {(0, UNREAD)}")
        else:
            print("not run: the texts of Python's tests, since there is no Python 3.11 or no libpython3.11-testsuite")
        sessions, count = dates_terminal.failures(program, place, f"{TOP}/tools/shell/dates.bash")
        passed += count - len(sessions)
        failed += len(sessions)
        for name in sessions:
            print(f"FAILED: the session {name} at a terminal")
    if dates_terminal.Tmux not in dates_terminal.TERMINALS:
        print("not run: the sessions of dates in tmux, since there is none")
    print(f"{passed} passed, {failed} failed")
    return 1 if failed else 0


if __name__ == "__main__":
    sys.exit(main())
