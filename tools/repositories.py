"""Crates of this repository in one of their own: copies, small programs over them, and what is proved of them here, taken over."""
import os
import re
import shutil
import subprocess
import sys

from gate import load_rt

TOP = os.path.dirname(os.path.dirname(os.path.abspath(__file__)))
# The crates that stand outside crates/, so that the gate does not prove them, and the libraries that they use. Benches prove theirs when they
# run, and checks run theirs unproved. Here their files end as ENDINGS says, since `rt ci` stops at each .rt and
# .antt file that it does not prove.
APART = {
    "benches/timed_chrono": "chrono_text chrono_clock chrono_calendar chrono_stored chrono_datetime chrono_zoned chrono_reading chrono_stamps".split(),
    "benches/timed_business": ["chrono_datetime", "chrono_business"],
    "benches/timed_zone": "chrono_datetime zone_table zone_rule zone_text zone_file zone".split(),
    "checks/rows/tests_chrono": "chrono_units chrono_clock chrono_calendar chrono_internals chrono_stored chrono_naive chrono_datetime chrono_zoned "
    "chrono_uses".split(),
    "checks/programs/tests_caltool": "chrono_calendar chrono_stored caltool_dates chrono_uses".split(),
}
ENDINGS = {".rattle": ".rt", ".proof": ".antt"}


def listed_crates():
    """The libraries that each crate of crates.txt uses."""
    with open(f"{TOP}/crates.txt", encoding="utf-8") as it:
        lines = [line.partition("#")[0].strip() for line in it]
    return {line.partition(":")[0].strip(): line.partition(":")[2].split() for line in lines if line}


def below(name, crates):
    """A crate and those that it uses, lowest first."""
    found = []
    for used in crates[name]:
        found += [it for it in below(used, crates) if it not in found] if used in crates else []
    return [*found, name]


def all_below(names, crates):
    """Some crates and those that they use, lowest first."""
    return list(dict.fromkeys(it for name in names for it in below(name, crates)))


def copy_crates(room, names):
    """Copies the sources of some crates into a repository."""
    for name in names:
        for part in ("src", "specs", "proofs"):
            if os.path.isdir(f"{TOP}/crates/{name}/{part}"):
                shutil.copytree(f"{TOP}/crates/{name}/{part}", f"{room}/crates/{name}/{part}")


def put_libraries(room, name, uses, kit=()):
    """Puts all libraries below a crate of this name into a repository, with its line of crates.txt; the crate's folder. It may use crates of the kit too."""
    crates = listed_crates()
    used = all_below(uses, crates)
    copy_crates(room, used)
    with open(f"{room}/crates.txt", "w", encoding="utf-8") as it:
        it.writelines(f"{library}: {' '.join(crates[library])}\n" for library in used)
        it.write(f"{name}: {' '.join([*uses, *kit])}\n")
    return f"{room}/crates/{name}"


def put_program(room, name, uses, source, kit=()):
    """Puts a program of one file and all libraries below it into a repository; the program's folder."""
    folder = put_libraries(room, name, uses, kit)
    os.makedirs(f"{folder}/src")
    with open(f"{folder}/src/main.rt", "w", encoding="utf-8") as it:
        it.write(source)
    return folder


def put_apart(room, path):
    """Puts a crate of APART and all libraries below it into a repository; the crate's folder there."""
    folder = put_libraries(room, os.path.basename(path), APART[path])
    shutil.copytree(f"{TOP}/{path}", folder, copy_function=lambda of, to: shutil.copy2(of, re.sub(r"\.(?:rattle|proof)$", lambda it: ENDINGS[it[0]], to)))
    return folder


def build_proved(room, folder, uses):
    """Proves and builds a program that was put into a repository, over what is proved of its libraries here; the path of what is built."""
    if not take_proved(room, all_below(uses, listed_crates())):
        sys.exit(f"not all libraries are proved that {', '.join(uses)} stand on: `rt lib` in their folders proves them")
    built = subprocess.run(["rt", "run", "--jobs", "1"], cwd=folder, stdin=subprocess.DEVNULL, stdout=subprocess.PIPE, stderr=subprocess.STDOUT, text=True)
    program = f"{folder}/out/{os.path.basename(folder)}"
    if not os.path.isfile(program):
        sys.exit(built.stdout[-3000:])
    return program


def build_apart(room, path):
    """Proves and builds a program of APART in a new folder of a repository; the path of what is built."""
    repository = f"{room}/{os.path.basename(path)}"
    os.makedirs(repository)
    return build_proved(repository, put_apart(repository, path), APART[path])


def answers_in_parts(room, folder, lines, most):
    """What a program answers to lines, behind `= ` each. It is built once, and runs for each part of at most so many lines.

    `rt try` hands on no more than a mebibyte of one run.
    """
    os.mkdir(f"{room}/parts")
    for start in range(0, len(lines), most):
        with open(f"{room}/parts/{start:08}", "w", encoding="utf-8") as it:
            it.writelines(f"{line}\n" for line in lines[start : start + most])
    said = subprocess.run(["rt", "try", "--cases", f"{room}/parts"], cwd=folder, stdout=subprocess.PIPE, stderr=subprocess.STDOUT, text=True, errors="replace").stdout
    told = [line[2:] for line in said.split("\n") if line.startswith("= ")]
    if len(told) != len(lines):
        sys.exit(f"{len(told)} answers for {len(lines)} lines:\n{said[-3000:]}")
    return told


def answers_of(room, folder, uses, lines, most):
    """The same. Where the libraries that it uses are proved here, `rt run` proves and builds the program, which takes all lines at once."""
    if not take_proved(room, all_below(uses, listed_crates())):
        return answers_in_parts(room, folder, lines, most)
    name = os.path.basename(folder)
    built = subprocess.run(["rt", "run", "--jobs", "1"], cwd=folder, stdin=subprocess.DEVNULL, stdout=subprocess.PIPE, stderr=subprocess.STDOUT, text=True)
    if not os.path.isfile(f"{folder}/out/{name}"):
        sys.exit(built.stdout[-3000:])
    asked = "".join(f"{it}\n" for it in lines)
    said = subprocess.run([f"{folder}/out/{name}"], input=asked, stdout=subprocess.PIPE, text=True, errors="replace").stdout
    told = [line[2:] for line in said.split("\n") if line.startswith("= ")]
    if len(told) != len(lines):
        sys.exit(f"{len(told)} answers for {len(lines)} lines:\n{said[-3000:]}")
    return told


def time_of(folders, choose):
    """The first or the last time of a change below the folders."""
    return choose(os.path.getmtime(f"{at}/{name}") for it in folders for at, _, names in os.walk(it) for name in names)


def take_proved(room, libraries):
    """Takes over what is proved of the libraries here; whether all of it is there and of these sources."""
    built = {it.name: it.is_built() for it in load_rt().rtlib.crates_below(TOP)}
    kept = [f"{TOP}/crates/{name}/out/rlib" for name in libraries]
    parts = [f"{TOP}/crates/{name}/{part}" for name in libraries for part in ("src", "specs", "proofs")]
    is_kept = all(built[name] for name in libraries)
    # (what the gate leaves has no stamp, and serves only as a whole; its files may be older than the sources, as it keeps them
    # from run to run, but it makes the folder anew)
    is_left = not any(os.path.exists(f"{it}/stamp") for it in kept) and all(os.path.isdir(it) for it in kept)
    if not is_kept and not (is_left and min(map(os.path.getmtime, kept)) > time_of(parts, max)):
        return False
    for name, it in zip(libraries, kept):
        shutil.copytree(it, f"{room}/crates/{name}/out/rlib")
    for crate in load_rt().rtlib.crates_below(room) if is_left else []:
        if crate.name in libraries:
            with open(f"{crate.folder}/out/rlib/stamp", "w", encoding="utf-8") as it:
                it.write(crate.stamp())
    return True
