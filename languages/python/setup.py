"""Builds the extension in C over the calendar and its layers: over the proved static libraries, or with the two C files made of them.

The static libraries lie in `lib/` and their headers in `include/`, beside this file or in the folder that CALENDAR_PREFIX names. `tools/dist` puts them
there, for x86-64 Linux. Where there are none, calendar.c and calendar_layers.c are compiled: a source package has them in `amalgamation/`, and a
clone at its top.
"""
import glob
import os
import re
import sys

from setuptools import Extension, setup

PREFIX = os.environ.get("CALENDAR_PREFIX", os.curdir)
LIBRARIES = [f"{PREFIX}/lib/libcalendar_layers.a", f"{PREFIX}/lib/libcalendar.a"]
HAS_LIBRARIES = all(map(os.path.exists, LIBRARIES))
# The folder of the two C files and of their headers. (A build in a clone leaves a folder amalgamation/ here, with objects alone.)
SOURCES = next((it for it in ("amalgamation", "../../amalgamation") if os.path.exists(f"{it}/calendar.c")), "amalgamation")
IS_LINUX, IS_WINDOWS = sys.platform == "linux", sys.platform == "win32"
# ctypes calls functions of the library, which are hidden in the C files if nothing says otherwise. On Windows a list of them says it.
EXPORTS = [] if HAS_LIBRARIES or IS_WINDOWS else ["-include", "src/exports.h"]
FLAGS = ["-std=c99", "-O2", "-g0", "-fvisibility=hidden", *EXPORTS, "-Wall", "-Wextra", "-Wpedantic", *(["-fno-plt"] if IS_LINUX else [])]


def functions():
    """The functions of both headers."""
    text = ""
    for name in ("calendar", "calendar_layers"):
        with open(f"{SOURCES}/{name}.h", encoding="utf-8") as it:
            text += it.read()
    return re.findall(r"^\w+ (calendar_\w+)\(", text, re.M)


setup(
    ext_modules=[
        Extension(
            "proved_calendar._calendar",
            sources=sorted(glob.glob("src/*.c")) + ([] if HAS_LIBRARIES else [f"{SOURCES}/calendar.c", f"{SOURCES}/calendar_layers.c"]),
            depends=["src/package.h", "src/exports.h"],
            include_dirs=[f"{PREFIX}/include" if HAS_LIBRARIES else SOURCES],
            extra_objects=LIBRARIES if HAS_LIBRARIES else [],
            extra_compile_args=["/std:c11", "/O2"] if IS_WINDOWS else FLAGS,
            export_symbols=functions() if IS_WINDOWS else [],
            extra_link_args=["-s"] if IS_LINUX else [],
            # (an older Python has no symbols of a later one: one build serves all from 3.10 on)
            py_limited_api=True,
        )
    ],
    options={"bdist_wheel": {"py_limited_api": "cp310"}},
)
