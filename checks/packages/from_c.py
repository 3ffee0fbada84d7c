"""The package for C as its users install it: copied to a prefix, found by pkg-config and by CMake, linked both ways, from C and C++,
and run under valgrind and with sanitizers where there are any."""
import os
import re
import shutil
import subprocess

import packages
from checks import TOP
from checks.packages import cells
from checks.shared.results import LANGUAGES, example, read, run, succeeds
from packages import c

# The test of each library.
TESTS = {packages.CALENDAR: f"{LANGUAGES}/c/test.c", packages.LAYERS: f"{LANGUAGES}/c/test_layers.c"}
COUNTS = (r"(\d+) passed", r"(\d+) failed")
COMPILERS = {
    "cc": ["cc", "-std=c99", "-O2", "-Wall", "-Wextra", "-Wpedantic", "-Werror"],
    "g++": ["g++", "-std=c++17", "-O2", "-Wall", "-Wextra", "-Wpedantic", "-Werror", "-x", "c++"],
}
CMAKE = """\
cmake_minimum_required(VERSION 3.13)
project(uses C)
find_package(calendar 0.1 REQUIRED)
"""
# The targets of each library, static and shared.
TARGETS = {packages.CALENDAR: ("calendar", "shared"), packages.LAYERS: ("layers", "layers_shared")}
TARGET = """\
add_executable({target} {test})
target_link_libraries({target} calendar::{target})
"""


def install(room, library, layers):
    """Makes the package and copies it to a prefix, as README says; the prefix."""
    built, dist, prefix = f"{room}/built", f"{room}/dist", f"{room}/prefix with a space"
    os.makedirs(built)
    packages.build(library, built)
    packages.build(layers, built, packages.LAYERS)
    c.make(TOP, built, dist)
    for part in ("include", "lib"):
        shutil.copytree(f"{dist}/{part}", f"{prefix}/{part}", symlinks=True)
    return prefix


def compare_shared(results, prefix, header):
    """Each shared library has its soname, and shows the names of its header alone."""
    if not shutil.which("nm") or not shutil.which("objdump"):
        print("not run: the names of the shared libraries, since there is no nm or no objdump")
        return
    layers = sorted(set(re.findall(r"^\w+ +(calendar_\w+)\(", read(f"{prefix}/include/calendar_layers.h"), re.M)))
    for name, names in {packages.CALENDAR: header, packages.LAYERS: layers}.items():
        shared = f"{prefix}/lib/lib{name}.so"
        listed = subprocess.run(["nm", "-D", "--defined-only", shared], check=True, capture_output=True, text=True).stdout
        found = sorted(line.split()[-1] for line in listed.splitlines())
        results.count(found == names, f"lib{name}.so shows {sorted(set(found) ^ set(names))}, or does not")
        head = subprocess.run(["objdump", "-p", shared], check=True, capture_output=True, text=True).stdout
        results.count(re.findall(r"SONAME +(\S+)", head) == [f"lib{name}.so.0"], f"the soname of lib{name}.so")


def flags_of(results, prefix, name):
    """What pkg-config answers for a library below a prefix, as words."""
    env = dict(os.environ, PKG_CONFIG_PATH=f"{prefix}/lib/pkgconfig")
    version = succeeds(results, ["pkg-config", "--modversion", name], env=env)
    results.count((version or "").strip() == packages.version(TOP), f"pkg-config has the version {version} of {name}")
    # (it answers as for a shell)
    listed = succeeds(results, ["sh", "-c", f'eval "set -- $(pkg-config --cflags --libs {name})"; printf "%s\\n" "$@"'], env=env)
    return (listed or "").split("\n")[:-1]


def test_by_pkg_config(results, room, prefix):
    """The tests by each compiler, with the static libraries and with the shared ones."""
    if not shutil.which("pkg-config"):
        print("not run: the tests in C by pkg-config, since there is none")
        return
    env = dict(os.environ, LD_LIBRARY_PATH=f"{prefix}/lib")
    for library, test in TESTS.items():
        flags = flags_of(results, prefix, library)
        shared = [f"-l{library}" if it.startswith("-l") else it for it in flags]
        for name, words in COMPILERS.items():
            if not shutil.which(name):
                print(f"not run: the tests in C by {name}, since there is none")
                continue
            for kind, given in {"static": flags, "shared": shared}.items():
                if succeeds(results, [*words, test, "-x", "none", *given, "-o", f"{room}/{kind}"]) is not None:
                    run(results, f"{os.path.basename(test)} by {name}, {kind}", [f"{room}/{kind}"], COUNTS, env=env)


def test_by_cmake(results, room, prefix):
    """The tests by CMake's targets."""
    if not shutil.which("cmake"):
        print("not run: the tests in C by CMake, since there is none")
        return
    os.makedirs(f"{room}/cmake")
    targets = [(target, test) for name, test in TESTS.items() for target in TARGETS[name]]
    with open(f"{room}/cmake/CMakeLists.txt", "w", encoding="utf-8") as it:
        it.write(CMAKE + "".join(TARGET.format(target=target, test=test) for target, test in targets))
    words = ["cmake", "-S", f"{room}/cmake", "-B", f"{room}/cmake/made", f"-DCMAKE_PREFIX_PATH={prefix}"]
    if succeeds(results, words) is not None and succeeds(results, ["cmake", "--build", f"{room}/cmake/made"]) is not None:
        for target, test in targets:
            run(results, f"{os.path.basename(test)} by CMake, {target}", [f"{room}/cmake/made/{target}"], COUNTS)


def test_memory(results, room, prefix):
    """The test where each read and write is watched."""
    given = [f"-I{prefix}/include", TESTS[packages.CALENDAR], f"{prefix}/lib/libcalendar.a"]
    if not shutil.which("valgrind"):
        print("not run: the tests in C under valgrind, since there is none")
    elif succeeds(results, ["cc", "-std=c99", "-O1", "-g", *given, "-o", f"{room}/watched"]) is not None:
        run(results, "test.c under valgrind", ["valgrind", "-q", "--error-exitcode=9", f"{room}/watched"], COUNTS)
    sanitizers = ["-fsanitize=address,undefined", "-fno-sanitize-recover=all"]
    words = ["cc", *sanitizers, "-x", "c", "-", "-o", f"{room}/probe"]
    if subprocess.run(words, input=b"int main(void) { return 0; }", capture_output=True).returncode:
        print("not run: the tests in C with sanitizers, since the compiler has none")
    elif succeeds(results, ["cc", *sanitizers, *given, "-o", f"{room}/checked"]) is not None:
        run(results, "test.c with sanitizers", [f"{room}/checked"], COUNTS)


def test_example(results, room, prefix):
    """The example prints the line that its README says."""
    with open(f"{room}/main.c", "w", encoding="utf-8") as it:
        it.write(example("c"))
    words = [*COMPILERS["cc"], f"-I{prefix}/include", f"{room}/main.c", f"{prefix}/lib/libcalendar.a", "-o", f"{room}/main"]
    if succeeds(results, words) is not None:
        printed = subprocess.run([f"{room}/main"], stdout=subprocess.PIPE, text=True).stdout
        is_told = f"the program prints `{printed.strip()}`:" in read(f"{LANGUAGES}/c/README.md")
        results.count(is_told, f"the example in C prints {printed}")


def test_cells(results, room, prefix):
    """The example of each layer."""
    words = [*COMPILERS["cc"], f"-I{prefix}/include", cells.FILES["C"][0]]
    words += [f"{prefix}/lib/lib{it}.a" for it in (packages.LAYERS, packages.CALENDAR)]
    if succeeds(results, [*words, "-o", f"{room}/cells"]) is not None:
        cells.run(results, "C", [f"{room}/cells"])


def test(results, room, library, layers, names):
    """Installs the package to a prefix and runs the tests there."""
    room = f"{room}/c"
    os.makedirs(room)
    prefix = install(room, library, layers)
    compare_shared(results, prefix, names)
    test_example(results, room, prefix)
    test_cells(results, room, prefix)
    test_by_pkg_config(results, room, prefix)
    test_by_cmake(results, room, prefix)
    test_memory(results, room, prefix)
