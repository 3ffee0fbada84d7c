"""The package for Rust: the crate with the library as C files inside, as a folder that a project names by its path, and as one file."""
import os
import shutil

from . import LICENCES, copy_c_files, pack, version

NAME = "proved-calendar"
FILES = ("Cargo.toml", "README.md", "build.rs")


def make_package(top, folder, package):
    """Makes the package of a crate's folder, with the library as C files; the path of the package."""
    shutil.rmtree(package, ignore_errors=True)
    shutil.copytree(f"{folder}/src", f"{package}/src")
    copy_c_files(top, f"{package}/amalgamation")
    for name in FILES:
        shutil.copy(f"{folder}/{name}", f"{package}/{name}")
    for name in LICENCES:
        shutil.copy(f"{top}/{name}", f"{package}/{name}")
    return package


def make(top, built, dist):
    """Makes rust/proved-calendar and rust/proved-calendar-VERSION.crate; their paths."""
    with open(f"{top}/languages/rust/Cargo.toml", encoding="utf-8") as it:
        if f'\nversion = "{version(top)}"\n' not in it.read():
            raise RuntimeError(f"languages/rust/Cargo.toml has another version than calendar.h, {version(top)}")
    package = make_package(top, f"{top}/languages/rust", f"{dist}/rust/{NAME}")
    named = f"{NAME}-{version(top)}"
    return [package, pack(package, f"{dist}/rust/{named}.crate", named)]
