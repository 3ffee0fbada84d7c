#!/usr/bin/env python3
"""Calls each function of calendar.h with random arguments: plainly, under valgrind and with sanitizers.

    python3 -m checks.packages.calendar_random [ROUNDS]      (2,000 rounds, if left out)

It takes or builds the static library as checks/packages/languages.py does, and writes a program in C from the declarations of the header. Numbers
are small, near days of this century, near the ends of their types and of the calendar, or any. Texts are near to right ones. Columns and
texts lie in memory of their own size, and their lengths may differ. The sanitizers watch the program, and valgrind the library too.
A second program says that each text has one byte more than it has, and valgrind has to find that.
"""
import shutil
import subprocess
import sys
import tempfile

from checks.packages.answer_sums import WIDTH, declared, parts_of
from checks.packages.layers_c import COUNTS, SANITIZERS, WARNINGS
from checks.shared.results import LANGUAGES, Results, run, succeeds
from library import take_library

# What a program begins with: random numbers, memory of a size, and texts.
BEGIN = """#include "calendar.h"
#include <stdio.h>
#include <stdlib.h>
#include <string.h>

static uint64_t state = 88172645463325252u;

static uint64_t any(void) {
    state ^= state << 13;
    state ^= state >> 7;
    state ^= state << 17;
    return state;
}

static const uint64_t ENDS[] = {INT32_MAX, (uint64_t)INT32_MIN, UINT32_MAX, INT64_MAX, (uint64_t)INT64_MIN, (uint64_t)CALENDAR_MIN,
                                (uint64_t)CALENDAR_MAX, 8210266876799, (uint64_t)-8334601228800, 999999999, 1999999999};

static uint64_t number(void) {
    switch (any() % 6) {
    case 0: return any();
    case 1: return any() % 40;
    case 2: return 0 - any() % 40;
    case 3: return 738000 + any() % 3000;
    case 4: return ENDS[any() % (sizeof ENDS / sizeof *ENDS)] + any() % 3 - 1;
    default: return any() % 190000000 - 95000000;
    }
}

static void *memory(size_t size) {
    uint8_t *bytes = malloc(size ? size : 1);
    for (size_t i = 0; i < size; i++) bytes[i] = (uint8_t)any();
    return bytes;
}

static const char *TEXTS[] = {"2024-02-29", "-0001-12-31", "+12345-01-01", "2024-02-29T23:59:60.500", "2024-02-29 12:00:00",
                              "23:59:60.500", "12:00:00", "-PT5400.5S", "PT1S", "P0D"};

static uint8_t *text_of(size_t size) {
    uint8_t *bytes = malloc(size ? size : 1);
    const char *right = TEXTS[any() % (sizeof TEXTS / sizeof *TEXTS)];
    for (size_t i = 0; i < size; i++) bytes[i] = any() % 16 ? (uint8_t)right[i % strlen(right)] : (uint8_t)any();
    return bytes;
}

int main(int count, char **words) {
    long rounds = count > 1 ? atol(words[1]) : 1000;
    for (long round = 0; round < rounds; round++) {
"""


def call_of(name, parameters, more):
    """The lines that call a function once. A text is said to have so many bytes more than it has."""
    lines, given, freed = ["const size_t same = any() % 20;", "(void)same;"], [], []
    rest = iter(parameters)
    for it in rest:
        constant, kind, pointer, called = parts_of(it)
        if pointer:
            # (its length follows)
            next(rest)
            width = WIDTH if called == "texts" else 1
            lines.append(f"const size_t {called}_count = any() % 8 ? same : any() % 40;")
            is_text = kind == "uint8_t" and constant and called.startswith("text")
            made = f"text_of({called}_count * {width})" if is_text else f"memory({called}_count * {width} * sizeof({kind}))"
            lines.append(f"{kind} *{called} = {made};")
            if kind in ("int32_t", "int64_t"):
                lines.append(f"for (size_t i = 0; i < {called}_count; i++) if (any() % 8) {called}[i] = ({kind})number();")
            given += [called, f"{called}_count" + (f" + {more}" if more and is_text else "")]
            freed.append(f"free({called});")
        elif kind in ("calendar_date_time", "calendar_duration"):
            lines.append(f"const {kind} {called} = {{(int64_t)number(), any() % 2 ? 0 : (uint32_t)number()}};")
            given.append(called)
        elif kind == "calendar_time":
            lines.append(f"const {kind} {called} = {{(uint32_t)(any() % 8 ? any() % 86400 : number()), any() % 2 ? 0 : (uint32_t)number()}};")
            given.append(called)
        else:
            lines.append(f"const {kind} {called} = ({kind})number();")
            given.append(called)
    return [*lines, f"(void){name}({', '.join(given)});", *freed]


def write_program(path, more):
    """Writes a program that calls each function in each round; how many functions there are."""
    functions = list(declared("calendar.h"))
    with open(path, "w", encoding="utf-8") as it:
        it.write(BEGIN)
        for name, _, parameters in functions:
            it.write("        {\n" + "".join(f"            {line}\n" for line in call_of(name, parameters, more)) + "        }\n")
        it.write(f'    }}\n    printf("%ld passed, 0 failed\\n", rounds * {len(functions)});\n    return 0;\n}}\n')
    return len(functions)


def run_programs(results, room, library, rounds):
    """The program in three ways, and the wrong one."""
    functions = write_program(f"{room}/calls.c", 0)
    results.count(functions >= 50, f"calendar.h has {functions} functions")
    compiler, given = shutil.which("gcc") or "cc", [f"-I{LANGUAGES}/c", library]
    if succeeds(results, [compiler, "-std=c99", *WARNINGS, f"{room}/calls.c", *given, "-o", f"{room}/plain"]) is not None:
        run(results, "random calls", [f"{room}/plain", str(10 * rounds)], COUNTS)
    if shutil.which("clang") and succeeds(results, ["clang", "-std=c99", *SANITIZERS, f"{room}/calls.c", *given, "-o", f"{room}/checked"]) is not None:
        run(results, "random calls with sanitizers", [f"{room}/checked", str(rounds)], COUNTS)
    if not shutil.which("valgrind"):
        print("not run: valgrind, since there is none")
        return
    watched = ["valgrind", "-q", "--error-exitcode=9"]
    run(results, "random calls under valgrind", [*watched, f"{room}/plain", str(max(rounds // 20, 1))], COUNTS)
    write_program(f"{room}/wrong.c", 1)
    if succeeds(results, [compiler, "-std=c99", *WARNINGS, f"{room}/wrong.c", *given, "-o", f"{room}/wrong"]) is not None:
        said = subprocess.run([*watched, f"{room}/wrong", "100"], capture_output=True).returncode
        results.count(said == 9, f"valgrind ends with {said} where texts are said to be longer than they are")


def main():
    results, rounds = Results(), int(sys.argv[1]) if len(sys.argv) > 1 else 2_000
    with tempfile.TemporaryDirectory(prefix="calendar-random-") as room:
        library = take_library(results)
        if library:
            run_programs(results, room, library, rounds)
    print(f"{results.passed} passed, {results.failed} failed")
    return 1 if results.failed else 0


if __name__ == "__main__":
    sys.exit(main())
