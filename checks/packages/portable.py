#!/usr/bin/env python3
"""Both libraries for C and caltool as one C file each, by tools/portable_c, beside the proved ones.

    python3 -m checks.packages.portable [ROUNDS]      (100,000 rounds, if left out)

The C files of amalgamation/ have to be those that are made of the proved crates now. Each compiler that is found builds both libraries without a
warning, by the widths of 128 bits that the compiler has and by two words, and with sanitizers. Compilers for other machines build them too, and an
emulator runs what they build. The test of each header has to pass each time. A program that calls each function of a header with random arguments
has to give the same sum of all answers as over the proved library. Machines that are not served have to be refused. Faults planted in the
translation have to be found by the test or by the sums. What the translator does not know has to stop it. checks/programs/caltool_c.py says what
caltool.c is held to.
"""
import collections
import os
import re
import shutil
import subprocess
import sys
import tempfile

from checks import TOP
from checks.packages import calendar_random
from checks.packages.answer_sums import sum_of, write_header
from checks.packages.c_builds import BUILDS, FAULTS, PLANTED, WARNINGS, planted, program, why_not
from checks.packages.layers_c import RANDOM
from checks.programs.caltool_c import check_program
from checks.shared.results import LANGUAGES, Results, read, run, succeeds
from library import CALENDAR, LAYERS, proved_repository, take_library
from portable_c.c_file import HEADERS, PROGRAM, c_file, file_name
from portable_c.module import Module
from repositories import listed_crates

COUNTS = (r"^(\d+) passed", r"(\d+) failed")
# Machines for which the file must not compile: one with the high byte first, and one with pointers of 32 bits.
REFUSED = {
    "a big-endian machine": ["s390x-linux-gnu-gcc", "-ffreestanding"],
    "pointers of 32 bits": ["clang", "--target=i386-linux-gnu", "-ffreestanding"],
}
# A library: the name of its C file and of its header, its test, its program of random calls and the words before its number of rounds, by what that
# number is divided, the warnings that its C file may give, the builds that it is left out of and why, and faults of its C file alone.
Library = collections.namedtuple("Library", "name test calls words part allowed apart faults")
LIBRARIES = {
    CALENDAR: Library("calendar", "test.c", "calls.c", [], 1, [], {}, {
        "a shift without its sign": (r"\(int32_t\)(\w+) >> ", r"(uint32_t)\1 >> "),
        "a wrong factor": (r"\* 1461u", "* 1460u"),
        "an exchanged choice": (r" = (\w+) \? (366u) : (365u);", r" = \1 ? \3 : \2;"),
    }),
    # (it keeps a function that nothing calls)
    LAYERS: Library("calendar_layers", "test_layers.c", RANDOM, ["4711"], 10, ["-Wno-unused-function"], {"gcc with sanitizers": "gcc takes minutes for it"}, {}),
}
# A function of LLVM, and lines that may stand in it: the first two are known, and each other stops the translator.
FUNCTION = "define i32 @f(i32 %a, ptr %p) {{\nstart:\n  %b = {}\n  ret i32 %b\n}}\n"
KNOWN = ("add nuw i32 %a, 1", "tail call i32 @llvm.umin.i32(i32 %a, i32 7)")
UNKNOWN = (
    "fneg float %a", "fadd i32 %a, 1", "add strange i32 %a, 1", "add i32 %a, 1, strange", "add i65 %a, 1", "add i32 %a, @elsewhere",
    "call i32 @elsewhere(i32 %a)", "call i32 @llvm.ctpop.i32(i32 %a)", "call i128 @llvm.umin.i128(i128 1, i128 2)",
    "load volatile i32, ptr %p", "load <16 x i1>, ptr %p", "load <{ i8, i32 }>, ptr %p", "bitcast i32 %a to <4 x i8>",
)


def words_of(program, library, rounds):
    """The words that run a program of random calls."""
    return [*program, *library.words, str(max(rounds // library.part, 1))]


def link(words, room, library, compiled, name):
    """Builds the test of a library and its program of random calls over what is compiled; the two programs, or what the compiler says."""
    made, include = [], [f"-I{LANGUAGES}/c"]
    calls = [*include, "-include", f"{room}/{library.name}_sums.h", os.path.join(room, library.calls)]
    for kind, given in (("test", [*include, f"{LANGUAGES}/c/{library.test}"]), ("calls", calls)):
        path = program(f"{room}/{library.name}_{re.sub(r'[^a-z0-9]+', '_', name.lower())}_{kind}", words)
        ran = subprocess.run([*words, "-std=c99", *given, compiled, "-o", path], capture_output=True, text=True, errors="replace")
        if ran.returncode:
            return None, ran.stderr[-2000:]
        made.append(path)
    return made, ""


def try_build(results, room, library, name, wanted, rounds):
    """Builds a C file one way, and compares its answers."""
    words, runner = BUILDS[name]
    why = why_not(name) or library.apart.get(name)
    if why:
        print(f"not run: {library.name}.c, {name}, since {why}")
        return
    compiled = f"{room}/{library.name}.o"
    if succeeds(results, [*words, *WARNINGS, *library.allowed, f"-I{LANGUAGES}/c", "-c", f"{room}/{library.name}.c", "-o", compiled]) is None:
        return
    programs, why = link(words, room, library, compiled, name)
    results.count(programs, f"{library.name}.c, {name}: {why}")
    if programs:
        run(results, f"{library.test}, {name}", [*runner, programs[0]], COUNTS)
        few = rounds if not runner and "sanitizers" not in name else max(rounds // 20, 1)
        is_same = sum_of(words_of([*runner, programs[1]], library, few)) == wanted(few)
        results.count(is_same, f"{library.name}.c, {name}: another sum of {few} rounds of random calls than by the proved library")


def try_refused(results, room):
    for name, words in REFUSED.items():
        if not shutil.which(words[0]):
            print(f"not run: {name}, since there is no {words[0]}")
            continue
        source = ["-c", f"{TOP}/amalgamation/calendar.c", "-o", f"{room}/refused.o"]
        said = subprocess.run([*words, "-std=c99", f"-I{LANGUAGES}/c", *source], capture_output=True, text=True)
        results.count(said.returncode and "this file is for" in said.stderr, f"{name} is not refused: {said.stderr[:300]}")


def try_faults(results, room, library, made, wanted):
    """Plants faults of a translator, and asks the test and the sums for each."""
    for name, fault in {**FAULTS, **library.faults}.items():
        with open(f"{room}/wrong.c", "w", encoding="utf-8") as it:
            it.write(planted(results, f"{library.name}.c: {name}", fault, made))
        words = [*PLANTED, f"-I{LANGUAGES}/c", "-c", f"{room}/wrong.c", "-o", f"{room}/wrong.o"]
        is_built = subprocess.run(words, capture_output=True).returncode == 0
        programs = is_built and link(PLANTED, room, library, f"{room}/wrong.o", "wrong")[0]
        results.count(not programs or is_found(programs, library, wanted), f"{library.name}.c: the planted fault is not found: {name}")


def is_stopped(line):
    """Whether a line stops the translator."""
    try:
        return not Module(FUNCTION.format(line)).text()
    except ValueError:
        return True


def try_unknown(results):
    """Gives the translator what it knows, and what it does not know."""
    for line in (*KNOWN, *UNKNOWN):
        results.count(is_stopped(line) == (line in UNKNOWN), f"the translator {'takes' if line in UNKNOWN else 'stops at'} {line}")


def is_found(programs, library, wanted):
    """Whether the test or the sums find a fault; a program that runs on for two minutes is found too."""
    try:
        failed = subprocess.run([programs[0]], capture_output=True, timeout=120).returncode
        return bool(failed) or sum_of(words_of([programs[1]], library, 2_000), timeout=120) != wanted(2_000)
    except subprocess.TimeoutExpired:
        return True


def compare_tree(results):
    """The C files in the tree are those that are made now."""
    crates = listed_crates()
    for crate in (*HEADERS, PROGRAM):
        path = f"amalgamation/{file_name(crate)}"
        if crate in HEADERS and not take_library(results, crate):
            continue
        with proved_repository(crate, crates) as top:
            is_same = top and os.path.exists(f"{TOP}/{path}") and c_file(top, crate) == read(f"{TOP}/{path}")
            results.count(is_same, f"{path} is not what `tools/dist amalgamation` makes")


def check_library(results, room, library, proved, rounds):
    made = read(f"{TOP}/amalgamation/{library.name}.c")
    with open(f"{room}/{library.name}.c", "w", encoding="utf-8") as it:
        it.write(made)
    results.count(write_header(f"{room}/{library.name}_sums.h", f"{library.name}.h") >= 50, f"{library.name}.h has few functions")
    programs, why = link(["gcc", "-O2"], room, library, proved, "proved")
    results.count(programs, why)
    if not programs:
        return
    sums = {}

    def wanted(rounds):
        return sums.setdefault(rounds, sum_of(words_of([programs[1]], library, rounds)))

    results.count(wanted(rounds), f"the random calls of {library.name}.h over the proved library give no sum")
    for name in BUILDS:
        try_build(results, room, library, name, wanted, rounds)
    try_faults(results, room, library, made, wanted)


def main():
    results, rounds = Results(), int(sys.argv[1]) if len(sys.argv) > 1 else 100_000
    with tempfile.TemporaryDirectory(prefix="portable-") as room:
        try_unknown(results)
        compare_tree(results)
        calendar_random.write_program(f"{room}/calls.c", 0)
        for crate, library in LIBRARIES.items():
            proved = take_library(results, crate)
            if proved:
                check_library(results, room, library, proved, rounds)
        try_refused(results, room)
        check_program(results, room)
    print(f"{results.passed} passed, {results.failed} failed")
    return 1 if results.failed else 0


if __name__ == "__main__":
    sys.exit(main())
