#!/usr/bin/env python3
"""Makes wheels for Python from the C files of amalgamation/, without the kit: for this machine, and for others that a compiler here builds for.

    tools/wheels.py                  in wheels/
    tools/wheels.py --to FOLDER

It needs Python 3.10 or later with setuptools and wheel, and a C compiler. On Linux it makes a wheel by each of COMPILERS that is there, and gives
it the tag that the symbols of its extension allow. On macOS and Windows it makes the wheel of the machine alone, so the owner of such a machine
runs it there. The wheel for this machine is installed in a fresh environment, where each function is called. The exit status is 1 if that fails.
"""
import argparse
import glob
import os
import platform
import re
import shutil
import subprocess
import sys
import sysconfig
import tempfile

TOP = os.path.dirname(os.path.dirname(os.path.abspath(__file__)))
sys.path.insert(0, f"{TOP}/tools")
import packages  # noqa: E402
from packages import python  # noqa: E402

# What builds for Linux: for this machine over its own C library and over musl, and for ARM.
COMPILERS = ("cc", "musl-gcc", "aarch64-linux-gnu-gcc")
MACHINES = {"Advanced Micro Devices X86-64": "x86_64", "AArch64": "aarch64"}
# The libraries of glibc that a wheel may need (PEP 600), and the oldest glibc that a tag here names.
OF_GLIBC = re.compile(r"(?:libc\.so\.6|libm\.so\.6|libpthread\.so\.0|libdl\.so\.2|ld-linux-[\w-]+\.so\.\d)")
OF_MUSL = re.compile(r"libc\.(?:so|musl-\w+\.so\.1)")
OLDEST = (2, 17)
# The shared library of musl for a machine.
MUSL = "/lib/ld-musl-{}.so.1"


def symbols(path):
    """The names that a shared object takes from others and those that it has, with their versions, and not the weak ones."""
    listed = packages.run(["readelf", "-W", "--dyn-syms", path], env={**os.environ, "LC_ALL": "C"})
    found = re.findall(r"^ *\d+: +\w+ +\d+ +\w+ +GLOBAL +\w+ +(\w+) ([^\s@]+)(?:@+(\S+))?", listed, re.M)
    return {(name, version) for place, name, version in found if place == "UND"}, {name for place, name, _ in found if place != "UND"}


def tag_of(path):
    """The platform tag of a wheel with this shared object, such as manylinux_2_17_x86_64, by the C library that it needs and by its symbols.

    It raises a ValueError if no tag holds. Whether the instructions are for newer processors than every one of a machine, it sees only by a note of
    the file.
    """
    told = packages.run(["readelf", "-Whdn", path], env={**os.environ, "LC_ALL": "C"})
    machine = MACHINES.get(re.search(r"Machine: +(.*)", told)[1])
    needed, taken = re.findall(r"\(NEEDED\).*\[(.*)\]", told), symbols(path)[0]
    versions = {it for _, it in taken if it}
    level = re.search(r"x86 ISA needed: (.*)", told)
    if not machine or level and level[1].strip() != "x86-64-baseline":
        raise ValueError(f"{path} is for {level[1] if level else 'another machine'}")
    if needed and all(map(OF_GLIBC.fullmatch, needed)) and all(it.startswith("GLIBC_2.") for it in versions):
        glibc = max([OLDEST, *(tuple(map(int, it.removeprefix("GLIBC_").split(".")[:2])) for it in versions)])
        return f"manylinux_{glibc[0]}_{glibc[1]}_{machine}"
    musl = MUSL.format(machine)
    if needed and all(map(OF_MUSL.fullmatch, needed)) and not versions and os.path.exists(musl):
        unknown = {name for name, _ in taken if not re.match("_?Py", name)} - symbols(musl)[1]
        if unknown:
            raise ValueError(f"{path} takes {min(unknown)}, which musl has not")
        return f"musllinux_{'_'.join(musl_version(musl))}_{machine}"
    raise ValueError(f"{path} needs {', '.join(needed) or 'no library'} and {', '.join(sorted(versions)) or 'no version'}")


def musl_version(path):
    """The first two numbers of the version that musl's shared library tells, if it is run with no words."""
    said = subprocess.run([path], capture_output=True, text=True).stderr
    return re.search(r"^Version (\d+)\.(\d+)", said, re.M).groups()


def compilers():
    """Those of COMPILERS that are there. What builds for other machines is left out on its own one, where it makes the same wheel as cc."""
    return [it for it in COMPILERS if shutil.which(it) and not it.startswith(platform.machine())]


def put_sources(room):
    """The source of the package with the C files, and Python's headers as a compiler for another machine or another C library finds them."""
    source = f"{room}/source"
    shutil.copytree(f"{TOP}/languages/python", source, ignore=python.SKIPPED)
    packages.copy_c_files(TOP, f"{source}/amalgamation")
    for licence in packages.LICENCES:
        shutil.copy(f"{TOP}/{licence}", source)
    with open(f"{source}/setup.cfg", "w", encoding="utf-8") as it:
        it.write("[build]\nbuild_lib = made\n")
    # (Debian's Python.h asks for the settings of each machine in a folder of its own. What the limited API takes of them is the same on each
    # Linux of 64 bits.)
    os.makedirs(f"{room}/headers")
    for machine in MACHINES.values():
        os.symlink(f"/usr/include/{sysconfig.get_config_var('MULTIARCH')}", f"{room}/headers/{machine}-linux-gnu")
    return source


def build(compiler, folder):
    """Makes the wheel for Linux by a compiler; its path."""
    machine = packages.run([compiler, "-dumpmachine"]).split("-")[0]
    with tempfile.TemporaryDirectory(prefix="wheel-") as room:
        source = put_sources(room)
        # (Python names the folder of its own C library to the linker, so musl's has to stand before it)
        first = f" -L{os.path.dirname(os.path.realpath(MUSL.format(machine)))}" if compiler == "musl-gcc" else ""
        env = {**os.environ, **python.ONE_TIME, "CC": compiler, "LDSHARED": f"{compiler} -shared{first}", "CPPFLAGS": f"-I{room}/headers",
               "_PYTHON_HOST_PLATFORM": f"linux-{machine}"}
        packages.run([python.python(), "setup.py", "--quiet", "build"], cwd=source, env=env)
        (extension,) = glob.glob(f"{source}/made/proved_calendar/*.so")
        words = ["--skip-build", "--plat-name", tag_of(extension), "--dist-dir", f"{room}/wheel"]
        packages.run([python.python(), "setup.py", "--quiet", "bdist_wheel", *words], cwd=source, env=env)
        (wheel,) = glob.glob(f"{room}/wheel/*.whl")
        return shutil.copy(wheel, folder)


def build_own(folder):
    """Makes the wheel of a machine that has no Linux; its path."""
    with tempfile.TemporaryDirectory(prefix="wheel-") as room:
        words = ["-m", "pip", "wheel", "--quiet", "--no-deps", "--no-build-isolation", "--wheel-dir", room, f"{TOP}/languages/python"]
        packages.run([sys.executable, *words], env={**os.environ, **python.ONE_TIME})
        (wheel,) = glob.glob(f"{room}/*.whl")
        return shutil.copy(wheel, folder)


def test(wheel):
    """Installs a wheel in a fresh environment, and calls each function there; it raises a RuntimeError if a call fails."""
    with tempfile.TemporaryDirectory(prefix="wheel-") as room:
        packages.run([sys.executable, "-m", "venv", room])
        program = f"{room}/Scripts/python.exe" if sys.platform == "win32" else f"{room}/bin/python"
        packages.run([program, "-m", "pip", "install", "--quiet", "--no-index", wheel])
        for name in ("test_calls.py", "test_layers.py"):
            packages.run([program, f"{TOP}/languages/python/tests/{name}"])


def main():
    parser = argparse.ArgumentParser(description="Makes wheels for Python from the C files of amalgamation/.")
    parser.add_argument("--to", metavar="FOLDER", default=f"{TOP}/wheels")
    folder = os.path.abspath(parser.parse_args().to)
    os.makedirs(folder, exist_ok=True)
    if sys.platform != "linux":
        wheels = [build_own(folder)]
    else:
        wheels = [build(it, folder) for it in compilers()]
        for it in set(COMPILERS) - set(compilers()):
            print(f"not made: the wheel by {it}, which is not there or makes none of its own")
    print("\n".join(wheels))
    test(wheels[0])
    print(f"installed and called: {os.path.basename(wheels[0])}, on {platform.platform()}")


if __name__ == "__main__":
    try:
        main()
    except (packages.Missing, RuntimeError, ValueError) as wrong:
        sys.exit(f"tools/wheels.py: {wrong}")
