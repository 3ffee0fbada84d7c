"""The packages for Python: a wheel that serves every CPython from 3.10 on, and its sources with the library as C files."""
import glob
import os
import shutil
import subprocess
import sys
import tarfile
import tempfile

from . import CALENDAR, LAYERS, LICENCES, Missing, copy_c_files, pack, run

# What a Python needs to build the packages: setuptools with the command for wheels, and the headers of C.
PROBE = """
import os, setuptools, sysconfig
try:
    import setuptools.command.bdist_wheel
except ImportError:
    import wheel.bdist_wheel
assert os.path.exists(os.path.join(sysconfig.get_paths()["include"], "Python.h"))
"""

# What a folder of sources may hold that is no source.
SKIPPED = shutil.ignore_patterns("__pycache__", "*.so", "build", "*.egg-info")

# The time of each file in a wheel: the first that its format has. So the same files give the same bytes.
ONE_TIME = {"SOURCE_DATE_EPOCH": "315532800"}


def python():
    """A Python that can build the packages: this one, or Debian's."""
    for path in (sys.executable, "/usr/bin/python3"):
        if os.path.exists(path) and subprocess.run([path, "-c", PROBE], stderr=subprocess.DEVNULL).returncode == 0:
            return path
    raise Missing("no Python with setuptools, wheel and Python.h: tools/setup installs Debian's")


def packed_anew(path):
    """Packs a source package anew, so that the same files give the same bytes."""
    with tempfile.TemporaryDirectory(prefix="sdist-") as room:
        with tarfile.open(path) as it:
            it.extractall(room)
        (name,) = os.listdir(room)
        return pack(f"{room}/{name}", path, name)


def make(top, built, dist):
    """Makes the source package, which has the library as C files, and the wheel, which has the static libraries; their paths."""
    os.makedirs(dist, exist_ok=True)
    with tempfile.TemporaryDirectory(prefix="python-") as room:
        source = f"{room}/source"
        shutil.copytree(f"{top}/languages/python", source, ignore=SKIPPED)
        copy_c_files(top, f"{source}/amalgamation")
        for licence in LICENCES:
            shutil.copy(f"{top}/{licence}", source)
        run([python(), "setup.py", "--quiet", "sdist", "--dist-dir", f"{room}/made"], cwd=source)
        packed_anew(*glob.glob(f"{room}/made/*.tar.gz"))
        for part in ("include", "lib"):
            os.makedirs(f"{source}/{part}")
        for name in (CALENDAR, LAYERS):
            shutil.copy(f"{top}/languages/c/{name}.h", f"{source}/include/")
            shutil.copy(f"{built}/lib{name}.a", f"{source}/lib/")
        run([python(), "setup.py", "--quiet", "bdist_wheel", "--dist-dir", f"{room}/made"], cwd=source, env={**os.environ, **ONE_TIME})
        paths = []
        for old in glob.glob(f"{dist}/proved[-_]calendar-*"):
            os.remove(old)
        for path in sorted(glob.glob(f"{room}/made/*")):
            paths.append(shutil.copy(path, f"{dist}/{os.path.basename(path)}"))
    return paths
