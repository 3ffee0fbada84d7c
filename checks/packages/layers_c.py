#!/usr/bin/env python3
"""Holds calendar_layers.h to the exports of crates/layers_c, and runs the tests of its library in C.

    python3 -m checks.packages.layers_c [ROUNDS]

It takes or builds the static library as checks/packages/languages.py does. Compared are the functions of the header, with results and parameters, the structs and their fields, and the symbols of the
library. The test in C has to use each constant of the header, beside what the library makes of it. languages/c/test_layers.c is compiled by each compiler that is found, and run plainly, on a small stack,
under valgrind and with sanitizers. checks/packages/layers_random.c calls each function with random arguments, 2,000 rounds or so many, in the same three ways.
"""
import os
import re
import resource
import shutil
import subprocess
import sys
import tempfile

from checks import TOP
from checks.shared.results import LANGUAGES, Results, read, run, succeeds
from library import LAYERS, take_library

HEADER = f"{LANGUAGES}/c/calendar_layers.h"
TEST = f"{LANGUAGES}/c/test_layers.c"
RANDOM = f"{TOP}/checks/packages/layers_random.c"
COUNTS = (r"(\d+) passed", r"(\d+) failed")
WARNINGS = ["-O2", "-Wall", "-Wextra", "-Wpedantic", "-Werror"]
COMPILERS = {
    "gcc": ["gcc", "-std=c99", *WARNINGS], "clang": ["clang", "-std=c99", *WARNINGS],
    "g++": ["g++", "-std=c++17", *WARNINGS, "-Wno-missing-field-initializers", "-x", "c++"],
}
# The stack of a test: the 64 KB that the header says, and what the program takes besides.
STACK = 96 * 1024
SANITIZERS = ["-fsanitize=address,undefined", "-fno-sanitize-recover=all", "-g"]
TYPES = {
    "int32_t": "i32", "int64_t": "i64", "uint8_t": "u8", "uint32_t": "u32", "uint64_t": "u64", "size_t": "usize",
    "CalendarDateTime": "calendar_date_time", "CalendarFault": "calendar_fault", "CalendarSchedule": "calendar_schedule", "CalendarFraction": "calendar_fraction",
    "CalendarOffsets": "calendar_offsets", "CalendarZoned": "calendar_zoned",
}


def plain(name):
    """A type by its common name."""
    return TYPES.get(name.strip(), name.strip())


def sources(crate):
    """The text of all sources of a crate."""
    return "\n".join(read(f"{at}/{it}") for at, _, names in os.walk(f"{TOP}/crates/{crate}/src") for it in sorted(names))


def functions_of_header(text):
    """The functions of the header: result, and whether each parameter is a number, a pointer or a pointer that is written."""
    found = {}
    for result, name, listed in re.findall(r"^(\w+)\s+(calendar_\w+)\(([^)]*)\);", text, re.M):
        found[name] = plain(result), [parameter_of_header(it) for it in re.sub(r"\s+", " ", listed).split(",")]
    return found


def parameter_of_header(text):
    """A parameter by its type."""
    constant, kind, pointer = re.fullmatch(r"\s*(const )?(\w+) (\*?)\w+\s*", text).groups()
    return f"*{'const' if constant else 'mut'} {plain(kind)}" if pointer else plain(kind)


def functions_of_crate(text):
    """The exports of the crate, with a slice as a pointer and a length."""
    found = {}
    head = r"#\[unsafe\(no_mangle\)\]\s+pub extern \"C\" fn (\w+)\(([^)]*)\)(?: -> (\w+))?"
    for name, listed, result in re.findall(head, text):
        kinds = [it.split(":")[1].strip() for it in listed.split(",") if it.strip()]
        found[name] = plain(result or "void"), [it for kind in kinds for it in parameters_of_crate(kind)]
    return found


def parameters_of_crate(kind):
    """What a parameter is in C."""
    pointer = re.fullmatch(r"&(mut )?(\[)?(\w+)\]?", kind)
    if not pointer:
        return [plain(kind)]
    crossed = f"*{'mut' if pointer[1] else 'const'} {plain(pointer[3])}"
    return [crossed, "usize"] if pointer[2] else [crossed]


def structs_of_header(text):
    """The fields of each struct of the header."""
    return {name: [(plain(kind), it) for kind, it in re.findall(r"(\w+) (\w+);", fields)]
            for fields, name in re.findall(r"typedef struct \{(.*?)\} (\w+);", text, re.S)}


def structs_of_crate(text):
    """The fields of each struct of the crate."""
    head = r"#\[repr\(C\)\]\n#\[derive\(Clone, Copy\)\]\npub struct (\w+) \{(.*?)\n\}"
    return {plain(name): [(plain(kind), it) for it, kind in re.findall(r"^    pub (\w+): (\w+),$", fields, re.M)]
            for name, fields in re.findall(head, text, re.S)}


def constants_of_header(text):
    """The names of all numbers of the header."""
    listed = ",".join(re.findall(r"\benum \{(.*?)\};", text, re.S)) + ",".join(re.findall(r"^#define (\w+) ", text, re.M))
    return re.findall(r"\bCALENDAR_\w+", listed)


def compare(results, what, ours, theirs):
    """Counts each name, and tells of one that differs."""
    for name in sorted({*ours, *theirs}):
        results.count(ours.get(name) == theirs.get(name), f"{what}: {name} is {ours.get(name)} in the header, and {theirs.get(name)}")


def compare_all(results, library):
    """The header with the crate and with the symbols of the library."""
    text, crate = re.sub(r"/\*.*?\*/", "", read(HEADER), flags=re.S), sources(LAYERS)
    declared = functions_of_header(text)
    compare(results, "functions", declared, functions_of_crate(crate))
    compare(results, "structs", structs_of_header(text), structs_of_crate(crate))
    listed = subprocess.run(["nm", "-g", "--defined-only", library], check=True, capture_output=True, text=True).stdout
    exported = {it for it in re.findall(r" T (\w+)$", listed, re.M) if it.startswith("calendar_")}
    results.count(exported == set(declared), f"symbols: {sorted(exported ^ set(declared))}")
    test, random = read(TEST), read(RANDOM)
    for name in declared:
        # (a function is called, or given to one that calls it)
        used = rf"\b{name}[(,;]"
        results.count(re.search(used, test), f"test_layers.c does not call {name}")
        results.count(re.search(used, random), f"layers_random.c does not call {name}")
    for name in constants_of_header(text):
        results.count(re.search(rf"\b{name}\b", test), f"test_layers.c does not use {name}")


def bound_stack():
    """Gives the program that starts no more than STACK."""
    resource.setrlimit(resource.RLIMIT_STACK, (STACK, STACK))


def run_program(results, room, library, source, words):
    """A program as each compiler builds it, under valgrind, and with sanitizers."""
    name, given = os.path.basename(source), [f"-I{LANGUAGES}/c", source, "-x", "none", library]
    for compiler, how in COMPILERS.items():
        if shutil.which(compiler) and succeeds(results, [*how, *given, "-o", f"{room}/plain"]) is not None:
            run(results, f"{name} by {compiler}", [f"{room}/plain", *words], COUNTS)
            if not words:
                run(results, f"{name} by {compiler} on a small stack", [f"{room}/plain"], COUNTS, env={}, preexec_fn=bound_stack)
    if shutil.which("valgrind"):
        slower = [words[0], str(int(words[1]) // 20)] if words else []
        run(results, f"{name} under valgrind", ["valgrind", "-q", "--error-exitcode=9", f"{room}/plain", *slower], COUNTS)
    if succeeds(results, ["clang", "-std=c99", *SANITIZERS, *given, "-o", f"{room}/checked"]) is not None:
        run(results, f"{name} with sanitizers", [f"{room}/checked", *words], COUNTS)


def main():
    results, rounds = Results(), sys.argv[1] if len(sys.argv) > 1 else "2000"
    with tempfile.TemporaryDirectory(prefix="layers-c-") as room:
        library = take_library(results, LAYERS)
        if library:
            compare_all(results, library)
            run_program(results, room, library, TEST, [])
            run_program(results, room, library, RANDOM, ["4711", rounds])
    print(f"{results.passed} passed, {results.failed} failed")
    return 1 if results.failed else 0


if __name__ == "__main__":
    sys.exit(main())
