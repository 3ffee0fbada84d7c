"""The static libraries for C, for packages and checks: those that `rt lib` leaves, or ones that are built now."""
import contextlib
import fcntl
import importlib
import io
import os
import re
import shutil
import subprocess
import sys
import time

TOP = os.path.dirname(os.path.dirname(os.path.abspath(__file__)))
sys.path[:0] = [f"{TOP}/tools"]
import packages  # noqa: E402
from gate import load_rt  # noqa: E402
from repositories import below, copy_crates, listed_crates, take_proved, time_of  # noqa: E402
from side_by_side import proved  # noqa: E402

# The crates of the static libraries: that of calendar.h, and that of calendar_layers.h.
CALENDAR, LAYERS = "calendar_c", "layers_c"

# The level of processors of the second library: those with AVX2 and both families of BMI.
HIGHER = "x86-64-v3"


def path_of(top, name):
    """Where `rt lib` leaves the static library of a crate."""
    return f"{top}/crates/{name}/out/lib{name}.a"


def git_folder():
    """The folder that git keeps for this tree."""
    words = ["git", "-C", TOP, "rev-parse", "--absolute-git-dir"]
    return subprocess.run(words, check=True, capture_output=True, text=True).stdout.strip()


def is_newer(path, name, libraries):
    """Whether a file is there and newer than the sources of a crate and of the libraries below it."""
    parts = [f"{TOP}/crates/{it}/{part}" for it in (*libraries, name) for part in ("src", "specs", "proofs")]
    return os.path.exists(path) and os.path.getmtime(path) > time_of(parts, max)


def line_of(name, crates):
    """What crates.txt has for the crate of a static library."""
    return next(it for it in crates if it.split()[0] == name)


def make_repository(room, libraries, name, crates):
    """Writes a repository of the libraries and of the crate of a static library, with what is proved of them."""
    copy_crates(room, [*libraries, name])
    with open(f"{room}/crates.txt", "w", encoding="utf-8") as it:
        it.writelines(f"{line}: {' '.join(crates[line])}\n" for line in (*libraries, line_of(name, crates)))
    if not take_proved(room, libraries):
        print("nothing kept serves: the libraries are proved first", flush=True)


def build(top, name):
    """Proves and builds a library by `rt lib`, with a line that says so; whether that went well."""
    began = time.time()
    print(f"{name}: proving ..", end="", flush=True)
    # (each job more loads all libraries once more, which takes as long as the proofs)
    ran = subprocess.run(["rt", "lib", "--jobs", "1"], cwd=f"{top}/crates/{name}", stdout=subprocess.PIPE, stderr=subprocess.STDOUT)
    print(f" {time.time() - began:.0f} seconds" if not ran.returncode else " failed", flush=True)
    if ran.returncode:
        print(ran.stdout.decode(errors="replace")[-3000:], flush=True)
    return not ran.returncode


def is_left_by_gate(libraries):
    """Whether the gate left what it proved of the libraries, which has no stamp and serves only as a whole, in a copy."""
    return all(os.path.isdir(it) and not os.path.exists(f"{it}/stamp") for it in (f"{TOP}/crates/{name}/out/rlib" for name in libraries))


def libraries_below(name, crates):
    """The libraries that a static library is made of, lowest first."""
    *libraries, _ = below(line_of(name, crates), crates)
    return libraries


@contextlib.contextmanager
def repository(name, crates):
    """The repository in which `rt lib` works over what is proved of the libraries below a crate; one process at a time has it.

    It is this tree. But what the gate left serves only in a copy, which stays beside what git keeps, where the gate reads nothing.
    """
    libraries, beside = libraries_below(name, crates), f"{git_folder()}/libraries"
    os.makedirs(beside, exist_ok=True)
    with open(f"{beside}/{name}.lock", "w", encoding="utf-8") as lock:
        fcntl.flock(lock, fcntl.LOCK_EX)
        if not is_left_by_gate(libraries):
            yield TOP
            return
        top = f"{beside}/{name}"
        if not is_newer(f"{top}/crates.txt", name, libraries):
            shutil.rmtree(top, ignore_errors=True)
            make_repository(top, libraries, name, crates)
        yield top


@contextlib.contextmanager
def proved_repository(name, crates):
    """That repository, in which the libraries below the crate are proved side by side first; None if that fails."""
    with repository(name, crates) as top:
        built = {it.name for it in load_rt().rtlib.crates_below(top) if it.is_built()}
        with proved(crates, [it for it in libraries_below(name, crates) if it not in built], sys.stdout) as is_proved:
            yield top if is_proved else None


def build_here(name, crates):
    """Proves and builds the static library of a crate, and the libraries below it; whether its file is here then."""
    with proved_repository(name, crates) as top:
        # (another process may have built it while this one waited)
        if is_newer(path_of(TOP, name), name, libraries_below(name, crates)):
            return True
        if not top or not build(top, name):
            return False
        if top != TOP:
            os.makedirs(os.path.dirname(path_of(TOP, name)), exist_ok=True)
            shutil.copy(path_of(top, name), path_of(TOP, name))
    return True


def find_library(name=CALENDAR):
    """The static library of a crate: the one here, if it is newer than what it is made from, or else one that `rt lib` builds now.

    None without `rt`, or if a library does not build.
    """
    crates = listed_crates()
    if is_newer(path_of(TOP, name), name, libraries_below(name, crates)):
        return path_of(TOP, name)
    return path_of(TOP, name) if shutil.which("rt") and build_here(name, crates) else None


def make_package(room, language):
    """Makes the package of a language in a folder, over both static libraries; what it made, and the libraries' paths."""
    built = f"{room}/built"
    os.makedirs(built)
    for crate, name in {CALENDAR: packages.CALENDAR, LAYERS: packages.LAYERS}.items():
        library = find_library(crate)
        if not library:
            raise RuntimeError(f"there is no lib{crate}.a, and `rt lib` does not build it")
        packages.build(library, built, name)
    made = importlib.import_module(f"packages.{language}").make(TOP, built, f"{room}/dist")
    return made, [f"{built}/lib{it}.a" for it in (packages.CALENDAR, packages.LAYERS)]


def take_library(results, name=CALENDAR):
    """The static library of a crate, counted in results of a check. Where what the gate left serves, nothing below is proved again."""
    is_left, said = is_left_by_gate(libraries_below(name, listed_crates())), io.StringIO()
    with contextlib.redirect_stdout(said):
        library = find_library(name)
    print(said.getvalue(), end="")
    again = [it for it in re.findall(r"^(\w+): proving", said.getvalue(), re.M) if it != name]
    serves = is_left and "nothing kept serves" not in said.getvalue()
    results.count(not (serves and again), f"proved again, though what the gate left serves: {' '.join(again)}")
    results.count(library, f"there is no lib{name}.a, and `rt lib` does not build it")
    return library


@contextlib.contextmanager
def put_aside(path):
    """Puts a file aside, if there is one, and back at the end of the block."""
    is_there = os.path.exists(path)
    if is_there:
        os.replace(path, f"{path}.kept")
    try:
        yield path
    finally:
        if is_there:
            os.replace(f"{path}.kept", path)


def build_higher(path):
    """Builds the library of calendar.h for processors of the level HIGHER, unless it is here, and puts it at the path; whether that went well.

    `rt lib` leaves it in the place of the other one, which is put back afterwards.
    """
    crates, higher = listed_crates(), path_of(TOP, CALENDAR).replace(".a", f"-{HIGHER}.a")
    with repository(CALENDAR, crates) as top:
        if not is_newer(higher, CALENDAR, libraries_below(CALENDAR, crates)):
            with put_aside(path_of(top, CALENDAR)) as library:
                words = ["rt", "lib", "--cpu", HIGHER, "--jobs", "1"]
                ran = subprocess.run(words, cwd=f"{top}/crates/{CALENDAR}", stdout=subprocess.PIPE, stderr=subprocess.STDOUT)
                if ran.returncode:
                    return False
                shutil.copy(library, higher)
    shutil.copy(higher, path)
    return True
