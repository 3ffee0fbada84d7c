"""What users of each language install: a module for each, with `make(top, built, dist)`.

`top` is this repository, and `dist` the folder to fill. `built` is a folder with `libcalendar.a` and `libcalendar.so.0`, the same of
LAYERS, and for C with HIGHER too. `make` answers the paths that it made. It raises `Missing` where a program or a package that it needs is not there.
"""
import gzip
import hashlib
import io
import os
import shutil
import subprocess
import tarfile

from .versions import HEADER, version_of

# What each package holds beside what it is made of.
LICENCES = ("LICENSE-APACHE", "LICENSE-MIT")


# The name of each library: that of calendar.h, and that of calendar_layers.h.
CALENDAR, LAYERS = "calendar", "calendar_layers"

# The static library for processors with AVX2.
HIGHER = "libcalendar-v3.a"


class Missing(Exception):
    """What a package cannot be made without, in words that say what to install."""


def version(top):
    """The version of all packages, which the header has."""
    with open(f"{top}/{HEADER}", encoding="utf-8") as it:
        return version_of(it.read())


def build(library, built, name=CALENDAR):
    """Puts a static library into a folder as libNAME.a, and beside it libNAME.so.0, which shows its own names alone."""
    static, shared, names = f"{built}/lib{name}.a", f"lib{name}.so.0", f"{built}/names.map"
    shutil.copy(library, static)
    with open(names, "w", encoding="utf-8") as it:
        it.write("{ global: calendar_*; local: *; };\n")
    flags = ["-shared", "-nostartfiles", f"-Wl,-soname,{shared}", f"-Wl,--version-script={names}", "-Wl,-z,defs"]
    whole = ["-Wl,--whole-archive", static, "-Wl,--no-whole-archive"]
    run(["cc", *flags, *whole, "-o", f"{built}/{shared}"])


def copy_c_files(top, folder):
    """Copies the C files of both libraries and their headers into a new folder of a package."""
    os.makedirs(folder)
    for name in (CALENDAR, LAYERS):
        for end in ("c", "h"):
            shutil.copy(f"{top}/amalgamation/{name}.{end}", folder)


def run(words, **how):
    """Runs a program that says nothing if all goes well; what it says is in the error if it does not."""
    try:
        ran = subprocess.run(words, stdout=subprocess.PIPE, stderr=subprocess.STDOUT, text=True, errors="replace", **how)
    except FileNotFoundError:
        raise Missing(f"no {words[0]}: tools/setup installs what Debian has") from None
    if ran.returncode:
        raise RuntimeError(f"{' '.join(map(str, words))}\n{ran.stdout[-4000:]}")
    return ran.stdout


def pack(package, path, name):
    """Packs a folder under a name, so that the same files give the same bytes."""
    with gzip.GzipFile(path, "wb", 9, mtime=0) as zipped, tarfile.open(fileobj=zipped, mode="w", format=tarfile.PAX_FORMAT) as packed:
        files = sorted(os.path.relpath(f"{at}/{it}", package) for at, _, names in os.walk(package) for it in names)
        for it in files:
            with open(f"{package}/{it}", "rb") as file:
                text = file.read()
            member = tarfile.TarInfo(f"{name}/{it}")
            member.size, member.mode = len(text), 0o644
            packed.addfile(member, io.BytesIO(text))
    return path


def sum_of_sources(top, crate):
    """The sum of what is made from a crate for machines without the kit: the sources of the crate and of those below it, and the translator to C."""
    from repositories import below, listed_crates

    crates, made = listed_crates(), hashlib.sha256()
    line = next(it for it in crates if it.split()[0] == crate)
    folders = [f"{top}/{it}" for it in (*(f"crates/{it.split()[0]}/src" for it in below(line, crates)), "tools/portable_c")]
    paths = [f"{at}/{name}" for it in folders for at, _, names in os.walk(it) for name in names if not name.endswith(".pyc")]
    for path in sorted(paths):
        with open(path, "rb") as it:
            made.update(f"{os.path.relpath(path, top)}\n".encode() + it.read())
    return made.hexdigest()
