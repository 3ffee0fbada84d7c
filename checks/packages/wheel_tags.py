"""The wheels of tools/wheels.py, for checks/packages/without_kit.py: their tags, their bytes, and that ARM and this machine run them.

Each wheel has to have the tag that its extension allows. Objects that need more than a tag says have to be refused, and a wheel by a wrong name has
to be found. The wheel of this machine is installed by pip, and made twice it has the same bytes. The one for ARM runs a test by qemu, where
tools/setup put a Python for ARM. The one for musl is loaded over musl, without a Python.
"""
import glob
import os
import re
import shutil
import subprocess
import tempfile
import zipfile

import packages
import wheels
from checks.shared.results import LANGUAGES, compare_bytes, run
from debian import ARM

COUNTS = (r"\.\.\. ok()$", r"\.\.\. (?:FAIL|ERROR)()$")
# A program that loads an extension, and calls a function of the library in it. What the extension takes of Python stands before it, as memory alone.
LOADING = """
#include <dlfcn.h>
int main(int count, char **words)
{
    void *library = count > 1 ? dlopen(words[1], RTLD_NOW) : 0;
    int (*from_ymd)(int, unsigned, unsigned) = library ? (int (*)(int, unsigned, unsigned))dlsym(library, "calendar_from_ymd") : 0;
    return !from_ymd || from_ymd(2024, 2, 29) != 738945;
}
"""
# Objects in C: the compiler, what it takes besides, the text, and the tag on a machine of x86-64; None where no tag may be given.
SHARED, PLAIN, NEW = ["-shared", "-fPIC", "-O1"], "int one(void) { return 1; }", "unsigned arc4random(void); unsigned one(void) { return arc4random(); }"
OBJECTS = {
    "a function that needs nothing": ("cc", ["-Wl,--no-as-needed"], PLAIN, "manylinux_2_17_x86_64"),
    "a function of glibc 2.36": ("cc", [], NEW, "manylinux_2_36_x86_64"),
    "a library that no tag has": ("cc", ["-Wl,--no-as-needed", "-l:libgcc_s.so.1"], PLAIN, None),
    "a level above x86-64": ("cc", ["-Wl,--no-as-needed", "-Wl,-z,x86-64-v2"], PLAIN, None),
    "no library": ("cc", ["-nostdlib"], PLAIN, None),
    "a function that musl has": ("musl-gcc", [], "int atoi(const char *); int one(void) { return atoi(\"1\"); }", "musllinux_1_2_x86_64"),
    "a function that musl has not": ("musl-gcc", [], NEW, None),
}


def tag_or_none(path):
    """The tag of an object, or None if it has none."""
    try:
        return wheels.tag_of(path)
    except ValueError:
        return None


def try_objects(results, room):
    """The tags of small objects."""
    path = f"{room}/object.so"
    for what, (compiler, more, text, tag) in OBJECTS.items():
        if not shutil.which(compiler):
            print(f"not run: the tag of {what}, since there is no {compiler}")
            continue
        packages.run([compiler, *SHARED, "-x", "c", "-", "-o", path, *more], input=text)
        found = tag_or_none(path)
        results.count(found == tag, f"the tag of {what} is {found}, and has to be {tag}")


def unpacked(room, wheel):
    """A new folder of what a wheel holds, and its extension."""
    folder = tempfile.mkdtemp(dir=room)
    with zipfile.ZipFile(wheel) as it:
        it.extractall(folder)
    (extension,) = glob.glob(f"{folder}/proved_calendar/*.so")
    return folder, extension


def has_own_tag(room, wheel):
    """Whether the name of a wheel and its file WHEEL have the tag that its extension allows."""
    folder, extension = unpacked(room, wheel)
    tag = f"cp310-abi3-{tag_or_none(extension)}"
    with open(*glob.glob(f"{folder}/*.dist-info/WHEEL"), encoding="utf-8") as it:
        return os.path.basename(wheel).endswith(f"-{tag}.whl") and f"Tag: {tag}\n" in it.read()


def try_wrong_names(results, room, wheel):
    """A wheel with the name of an older C library, of another one or of another machine is found."""
    tag = os.path.basename(wheel).split("-")[-1]
    for wrong in ("manylinux_2_5_x86_64.whl", "musllinux_1_1_x86_64.whl", "manylinux_2_17_riscv64.whl"):
        copied = shutil.copy(wheel, f"{room}/{os.path.basename(wheel).replace(tag, wrong)}")
        results.count(not has_own_tag(room, copied), f"a wheel by the wrong name {copied} is not found")


def try_arm(results, room, wheel):
    """The test of all calls of dates over the wheel for ARM."""
    emulator, program = "qemu-aarch64-static", f"{ARM}/usr/bin/python3.11"
    if not shutil.which(emulator) or not os.path.exists(program):
        print(f"not run: the wheel for ARM, since there is no {emulator} or no {program}")
        return
    env = {**os.environ, "PYTHONPATH": unpacked(room, wheel)[0], "PYTHONDONTWRITEBYTECODE": "1"}
    words = [emulator, "-L", ARM, program, f"{LANGUAGES}/python/tests/test_calls.py", "-v"]
    run(results, "test_calls.py on ARM", words, COUNTS, env=env)


def try_musl(results, room, wheel):
    """The extension for musl is loaded over musl, and its library answers."""
    _, extension = unpacked(room, wheel)
    names = sorted(name for name, _ in wheels.symbols(extension)[0] if re.match("_?Py", name))
    text = "".join(f"char {name}[64];\n" for name in names) + LOADING
    packages.run(["musl-gcc", "-rdynamic", "-x", "c", "-", "-o", f"{room}/loading"], input=text)
    results.count(subprocess.run([f"{room}/loading", extension]).returncode == 0, f"{wheel} is not loaded over musl")


def try_own(results, wheel):
    """The wheel of this machine by pip, in a fresh environment."""
    try:
        wheels.test(wheel)
        results.count(True, "")
    except RuntimeError as wrong:
        results.count(False, f"{wheel}: {wrong}")


def try_wheels(results, room):
    """All of it."""
    room = f"{room}/wheels"
    os.makedirs(f"{room}/again")
    try_objects(results, room)
    made = {it: wheels.build(it, room) for it in wheels.compilers()}
    results.count(len(set(made.values())) == len(made), f"two compilers make one wheel: {made}")
    for it in wheels.COMPILERS:
        if it in made:
            results.count(has_own_tag(room, made[it]), f"{made[it]} has not the tag that its extension allows")
        else:
            print(f"not run: the wheel by {it}, which is not there or makes none of its own")
    own = made["cc"]
    compare_bytes(results, [own], [wheels.build("cc", f"{room}/again")])
    try_wrong_names(results, room, own)
    try_own(results, own)
    if "aarch64-linux-gnu-gcc" in made:
        try_arm(results, room, made["aarch64-linux-gnu-gcc"])
    if "musl-gcc" in made:
        try_musl(results, room, made["musl-gcc"])
        print("not run: a Python over musl with its wheel, since Debian has none")
