#!/usr/bin/env python3
"""Measures amalgamation/calendar.c beside the library that the kit's compiler makes of the same module, by instructions.

    benches/c_files.py [CALL ..]        (all calls if left out)

It needs valgrind, a C compiler or two, and crates/calendar_c/out/libcalendar_c.a, which `rt lib` leaves there. Each compiler builds the C
file for all processors of its kind, and for those of the kit's library. The program benches/languages/c_file_calls.c makes each call, and
has to print the same sum over each. A table has the instructions of a call, or of each element of a column, over the kit's library. Then
it has for each build how many times as many the C file takes.
"""
import os
import re
import shutil
import subprocess
import sys
import tempfile

from calls import instructions

TOP = os.path.dirname(os.path.dirname(os.path.abspath(__file__)))
LIBRARY = f"{TOP}/crates/calendar_c/out/libcalendar_c.a"
SOURCES = (f"{TOP}/benches/languages/c_file_calls.c", f"{TOP}/amalgamation/calendar.c")
LEVEL = "-march=x86-64-v2"
BUILDS = [[it, *flags] for it in ("gcc", "clang") for flags in (["-O3", LEVEL], ["-O3"], ["-O2"]) if shutil.which(it)]
ROWS = 4096


def build(room, number, words):
    """Builds the program over the C file by a compiler with flags, or over the kit's library if there are none."""
    program, library, headers = f"{room}/calls-{number}", LIBRARY, ["-std=c99", f"-I{TOP}/amalgamation"]
    if words:
        library = f"{program}.o"
        subprocess.run([*words, *headers, "-c", SOURCES[1], "-o", library], check=True)
    subprocess.run(["cc", "-O2", *headers, SOURCES[0], library, "-o", program], check=True)
    return program


def taken(program, call, base):
    """The instructions of a call, or of each element of a column; `base` has those of a run without calls."""
    return (instructions(program, call, 1 if call.startswith("column") else ROWS) - base) / ROWS


def compare_sums(programs, call):
    """Ends the program unless a call gives the same sum over the library and over each C file."""
    if len({subprocess.run([it, call, "7"], check=True, capture_output=True).stdout for it in programs}) > 1:
        sys.exit(f"{call}: the sums are not the same, so nothing is measured")


def main():
    with open(SOURCES[0], encoding="utf-8") as it:
        calls = sys.argv[1:] or re.findall(r"^    (?:EACH|WHOLE)\((\w+)", it.read(), re.M)
    if not os.path.exists(LIBRARY):
        sys.exit(f"no {os.path.relpath(LIBRARY, TOP)}: `rt lib` in crates/calendar_c makes it")
    print("", "Call", "Kit's library", *(" ".join(it) for it in BUILDS), sep=" | ")
    with tempfile.TemporaryDirectory(prefix="c-files-") as room:
        programs = [build(room, number, words) for number, words in enumerate([[], *BUILDS])]
        bases = [instructions(it, "none", 0) for it in programs]
        for call in calls:
            compare_sums(programs, call)
            ours, *others = (taken(program, call, base) for program, base in zip(programs, bases))
            print("", call, f"{ours:.1f}", *(f"{it / ours:.2f}" for it in others), sep=" | ", flush=True)


if __name__ == "__main__":
    main()
