"""What checks of the C files share: the compilers for this machine and for others, and faults of a translator to plant."""
import os
import re
import shutil
import subprocess
import tempfile

# wine says nothing of itself, and keeps its folders apart from a user's own. (They have a link to the root, so they do not stand in this tree.)
WINE = ["env", "WINEDEBUG=-all", f"WINEPREFIX={tempfile.gettempdir()}/wine-of-user-{os.getuid()}", "wine"]
WARNINGS = ["-std=c99", "-Wall", "-Wextra", "-Werror"]
SANITIZERS = ["-O1", "-g1", "-fsanitize=undefined,address", "-fno-sanitize-recover=all"]
# The builds of this machine, and those of others with what runs them.
BUILDS = {
    "gcc": (["gcc", "-O2"], []),
    "clang": (["clang", "-O2"], []),
    "gcc with sanitizers": (["gcc", *SANITIZERS], []),
    "clang with sanitizers": (["clang", *SANITIZERS], []),
    "gcc by two words for 128 bits": (["gcc", "-O2", "-DCALENDAR_TWO_WORDS"], []),
    "musl": (["musl-gcc", "-O2", "-static"], []),
    "ARM": (["aarch64-linux-gnu-gcc", "-O2", "-static"], ["qemu-aarch64-static"]),
    "RISC-V": (["riscv64-linux-gnu-gcc", "-O2", "-static"], ["qemu-riscv64-static"]),
    "Windows": (["x86_64-w64-mingw32-gcc", "-O2", "-static"], WINE),
}
HEADERS_OF_C = "#include <errno.h>\n#include <stdio.h>\n#include <stdlib.h>\n#include <string.h>\n"
# The build of a planted fault: C defines no sum of numbers with a sign that leaves their type, and the sanitizer finds it.
PLANTED = ["gcc", "-O0", "-fsanitize=undefined", "-fno-sanitize-recover=all"]
# A text of each C file, and what a wrong translation would write there.
FAULTS = {
    "a comparison without its sign": (r"\(int32_t\)(\w+) < \(int32_t\)", r"(uint32_t)\1 < (uint32_t)"),
    "a sign that is lost": (r"\(uint64_t\)\(int32_t\)", "(uint64_t)(uint32_t)"),
    "a sum that does not wrap": (r"\(uint32_t\)\((\w+) ([-+*]) (\w+)\)", r"(uint32_t)((int32_t)\1 \2 (int32_t)\3)"),
    "a branch turned round": (r"if \((\w+)\) \{", r"if (!\1) {"),
}


def program(path, words):
    """The path of a program that some words build: programs for Windows have an ending."""
    return f"{path}.exe" if "mingw" in words[0] else path


def why_not(name):
    """Why a build cannot be tried here: what is not there. Empty if it can."""
    words, runner = BUILDS[name]
    lacking = [it for it in (words[0], *runner[-1:]) if not shutil.which(it)]
    if lacking:
        return f"there is no {' or no '.join(lacking)}"
    probe = subprocess.run([words[0], "-E", "-x", "c", "-"], input=HEADERS_OF_C, capture_output=True, text=True, errors="replace")
    return f"{words[0]} finds no headers of C" if probe.returncode else ""


def planted(results, name, fault, made):
    """The C file with a fault, for which it has to have a place."""
    wrong = re.sub(*fault, made)
    results.count(wrong != made, f"{name}: the C file has no place for it")
    return wrong
