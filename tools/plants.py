#!/usr/bin/env python3
"""Tries the wrong bodies that the gate does not: the prover has to refuse each edit of crates/NAME/plants/MODULE.edits.

A file of edits holds those of one source module: a line `file: src/PATH`, and then, behind an empty line each, the edits: a line
`name: NAME` and lines `old: TEXT`, `new: TEXT` (and `file: PATH` where an edit goes on in another file), as the kit reads them.

  tools/plants.py [NAME ..]      the crates of these names, or all
  tools/plants.py --all ..       the edits of must-fail/ with them
  tools/plants.py --twins ..     the twins of both, which have to be proved
  tools/plants.py --only WORD .. those alone whose names hold the word
  tools/plants.py --jobs N ..    N crates side by side; each takes one processor and 1 to 3 GB

A twin is a right body in the shape of a wrong one: a line `same: TEXT` behind a line `new: TEXT`, put in the same place. Where it is proved,
the wrong body is refused for what it means, and not for its shape.

To be run before a release, and in a crate whenever one of its contracts changes. Edits in the bodies of different functions are tried in one check, as
tools/rounds.py says, and all others as the kit's own `rt must-fail` tries them. It works on a copy of what is committed, below $TMPDIR. A crate is built in the copy before
its edits are tried, since an edit of a crate that is not proved would be refused for no fault of its own; libraries that the
work tree has built of the same sources are taken from there.
What is not refused is printed, then a count and the processor seconds by crate; the exit status is 0 if each edit is refused.
The result of each crate whose plants were all tried goes into status/plants.txt, with the commit and the date.
"""
import argparse
import concurrent.futures
import contextlib
import os
import re
import resource
import shutil
import subprocess
import sys
import tempfile

import status
from gate import copy_of_head, load_rt
from rounds import Sources, rounds_of, refused_in, texts_with

TOP = os.path.dirname(os.path.dirname(os.path.abspath(__file__)))
# One processor for each check.
FLAGS = ["--jobs", "1"]
# Of a definition whose lemma fell, and others with it, which the kit takes for an edit that it cannot read.
LEMMA_FELL = "which was rejected, was not checked"
# What status/plants.txt begins with, and the titles of its columns.
HEAD = ["The planted bugs of each crate, written by tools/plants.py: how many the prover refused, of how many,",
        "in how many processor seconds, at which commit and when."]
TITLES = ["crate", "refused", "of", "seconds", "commit", "date"]
# Of an edit that took away a name which a proof file cites: refused, but not for what it means.
FOR_A_NAME = re.compile(r"refused, as it must be \(only because a proof file names|proofs/\S+: error: `[^`]*`: (`goal\.|record `)")


def edits_of(path):
    """The edits of a file of plants: the name and the text of each, as the kit reads it."""
    with open(path, encoding="utf-8") as it:
        module, *blocks = it.read().rstrip("\n").split("\n\n")
    if not re.fullmatch(r"file: \S+", module):
        sys.exit(f"{path}: the first line has to be `file: PATH`")
    for block in blocks:
        name, _, edit = block.partition("\n")
        if not re.fullmatch(r"name: \w+", name) or not edit:
            sys.exit(f"{path}: an edit has to begin with `name: NAME`, and not with {name!r}")
        yield name.removeprefix("name: "), f"{module}\n{edit}\n"


def edits_at(folder):
    """The edits that stand in a folder, by name."""
    for name in sorted(os.listdir(folder)) if os.path.isdir(folder) else []:
        with open(f"{folder}/{name}", encoding="utf-8") as it:
            yield name.removesuffix(".edit"), it.read()


def put_in_place(folder, with_edits, word):
    """Writes the plants of a crate of the copy to where the kit looks for edits, and returns how many edits with a word in their names there are."""
    plants, edits = f"{folder}/plants", f"{folder}/must-fail"
    if not with_edits:
        shutil.rmtree(edits, ignore_errors=True)
    for module in sorted(os.listdir(plants)) if os.path.isdir(plants) else []:
        os.makedirs(edits, exist_ok=True)
        for name, edit in edits_of(f"{plants}/{module}"):
            if os.path.exists(f"{edits}/{name}.edit"):
                sys.exit(f"{folder}: two edits have the name {name}")
            with open(f"{edits}/{name}.edit", "w", encoding="utf-8") as it:
                it.write(edit)
    for name in os.listdir(edits) if os.path.isdir(edits) else []:
        if word not in name:
            os.remove(f"{edits}/{name}")
    return len(os.listdir(edits)) if os.path.isdir(edits) else 0


def take_built(copy, name):
    """Takes over the library that the work tree has built, which the kit uses only if it is of the same sources."""
    if os.path.isfile(f"{TOP}/crates/{name}/out/rlib/stamp"):
        shutil.copytree(f"{TOP}/crates/{name}/out/rlib", f"{copy}/crates/{name}/out/rlib")


def run(words, folder):
    """Runs a command of the kit; its status, what it printed and its processor seconds."""
    with tempfile.TemporaryFile("w+", errors="replace") as out:
        ran = subprocess.Popen(words, cwd=folder, stdin=subprocess.DEVNULL, stdout=out, stderr=subprocess.STDOUT)
        _, status, used = os.wait4(ran.pid, 0)
        ran.returncode = os.waitstatus_to_exitcode(status)
        out.seek(0)
        return ran.returncode, out.read(), used.ru_utime + used.ru_stime


def twin_of(edit):
    """The edit with each `same:` text in place of the `new:` text above it, or nothing if it has none."""
    lines = []
    for line in edit.splitlines():
        if line.startswith("same: "):
            lines[-1] = f"new: {line.removeprefix('same: ')}"
        else:
            lines.append(line)
    return "\n".join(lines) if "\nsame: " in edit else None


def twins_in(folder):
    """The twins of the edits that stand in must-fail/ of a crate of the copy, by name."""
    twins = ((name, twin_of(edit)) for name, edit in edits_at(f"{folder}/must-fail"))
    return {name: twin for name, twin in twins if twin}


def take_kept(crate, kept):
    """Takes over what a check in the work tree kept of the crate, of which the kit uses what is of the same sources."""
    found = f"{TOP}/crates/{crate.name}/out/incremental"
    if os.path.isdir(found):
        shutil.copytree(found, kept, dirs_exist_ok=True)


@contextlib.contextmanager
def proved(rt, crate):
    """Gives the folder of what a check of the crate as it stands proved, begun with what a check in the work tree kept; none where that fails."""
    with tempfile.TemporaryDirectory(prefix="plants-kept-") as kept:
        take_kept(crate, kept)
        yield None if rt.checked(crate, {}, FLAGS, kept).returncode else kept


def try_twins(rt, crate, twins):
    """Checks a crate with each twin; how many were proved, and what is to be said of the others."""
    said = []
    with proved(rt, crate) as kept:
        for name, twin in twins.items():
            texts, why = rt.edited(twin, crate.folder)
            ran = None if why else rt.checked(crate, texts, FLAGS, kept)
            if why or ran.returncode:
                errors = why or next((it for it in ran.stdout.splitlines() if ": error" in it), ran.stdout[-300:])
                said.append(f"twin {crate.name}/{name}: NOT PROVED: {errors}")
    return len(twins) - len(said), said


def try_rounds(rt, crate, rounds, kept):
    """Tries the edits of each round together; the names of those refused, and those of them refused for a lost name alone."""
    sources, edits, refused = Sources(crate.folder), dict(edits_at(f"{crate.folder}/must-fail")), {}
    for functions in rounds:
        texts = texts_with([edits[it] for it in functions], sources)
        ran = rt.checked(crate, texts, FLAGS, kept)
        if ran.returncode == 1 and ran.stdout.rstrip().endswith("logic=not-proved"):
            refused |= refused_in(ran.stdout, functions)
    return refused


def try_crate(copy, name):
    """Tries the edits of a crate, in rounds and what is left of them alone; how many were refused, the processor seconds, and what is to be said."""
    rt, said = load_rt(), []
    crate = next(it for it in rt.rtlib.crates_below(copy) if it.name == name)
    edits = dict(edits_at(f"{crate.folder}/must-fail"))
    rounds, alone = rounds_of(edits.items(), name, Sources(crate.folder))
    with proved(rt, crate) as kept:
        if not kept:
            return 0, 0, [f"{name} is not proved, so no edit of it was tried"]
        refused = try_rounds(rt, crate, rounds, kept)
        said += [f"{name}/{it}: refused, but only because a proof file names what the edit took away" for it, lost in refused.items() if lost]
        for it in [*alone, *(it for each in rounds for it in each if it not in refused)]:
            kind, text = rt.must_fail(crate, f"{crate.folder}/must-fail/{it}.edit", FLAGS, kept)
            well = kind == getattr(rt, "REFUSED", True) or LEMMA_FELL in text
            refused |= {it: False} if well else {}
            said += [text] if not well or FOR_A_NAME.search(text) else []
    used = resource.getrusage(resource.RUSAGE_CHILDREN)
    return len(refused), used.ru_utime + used.ru_stime, said


def build(copy, crates, names):
    """Builds the crates in the copy, one after another, since those that are tried side by side share their libraries."""
    for name in crates:
        take_built(copy, name)
    for name in names:
        status, printed, _ = run(["rt", "lib" if not crates[name].is_program else "check"], f"{copy}/crates/{name}")
        if status:
            sys.exit(f"{name} is not proved, so no edit of it was tried: {printed[-600:]}")


def try_all_twins(rt, crates, twins, jobs):
    """Tries the twins of all crates; the exit status."""
    rt.rtlib.guarded()  # sets a signal's handler at its first call, which only the main thread may do
    with concurrent.futures.ThreadPoolExecutor(jobs) as pool:
        found = list(pool.map(lambda it: try_twins(rt, crates[it], twins[it]), twins))
    for _, said in found:
        for text in said:
            print(text)
    proved, count = sum(it for it, _ in found), sum(map(len, twins.values()))
    print(f"{proved} twins proved, {count - proved} not")
    return 1 if proved < count else 0


def keep(results):
    """Writes the results of crates, as (refused, of, seconds) by name, into status/plants.txt, in place of their earlier ones."""
    rows = {row[0]: row for row in status.rows_of("plants.txt")}
    for name, (refused, count, seconds) in results.items():
        rows[name] = [name, str(refused), str(count), f"{seconds:.0f}", status.commit(), status.today()]
    status.write("plants.txt", HEAD, [TITLES, *(rows[name] for name in sorted(rows))])


def try_all_edits(copy, tried, jobs):
    """Tries the edits of all crates, each in a process of its own; how many were refused, and the processor seconds, by crate."""
    results = {}
    with concurrent.futures.ProcessPoolExecutor(jobs, max_tasks_per_child=1) as pool:
        for name, found in zip(tried, pool.map(try_crate, [copy] * len(tried), tried)):
            for text in found[2]:
                print(text)
            print(f"{name}: {found[0]} of {tried[name]} refused, {found[1]:.0f} processor seconds", flush=True)
            results[name] = found[0], tried[name], found[1]
    refused, count, seconds = (sum(it[part] for it in results.values()) for part in range(3))
    print(f"{refused} passed, {count - refused} failed, {seconds:.0f} processor seconds")
    return results


def main():
    words = argparse.ArgumentParser(description=__doc__, formatter_class=argparse.RawDescriptionHelpFormatter)
    words.add_argument("names", nargs="*", metavar="NAME")
    words.add_argument("--all", action="store_true")
    words.add_argument("--twins", action="store_true")
    words.add_argument("--only", default="", metavar="WORD")
    words.add_argument("--jobs", type=int, default=1, metavar="N")
    asked = words.parse_args()
    os.chdir(TOP)
    rt, jobs = load_rt(), max(asked.jobs, 1)
    with tempfile.TemporaryDirectory(prefix="plants-") as room:
        copy = copy_of_head(room)
        crates = {it.name: it for it in rt.rtlib.crates_below(copy)}
        lost = [it for it in asked.names if it not in crates]
        if lost:
            sys.exit(f"crates.txt has no crate {lost[0]}")
        tried = {it: put_in_place(f"{copy}/crates/{it}", asked.all or asked.twins, asked.only) for it in asked.names or crates}
        tried = {name: count for name, count in tried.items() if count}
        if asked.twins:
            twins = {name: found for name in tried if (found := twins_in(f"{copy}/crates/{name}"))}
            build(copy, crates, twins)
            return try_all_twins(rt, crates, twins, jobs)
        build(copy, crates, tried)
        results = try_all_edits(copy, tried, jobs)
    if not (asked.all or asked.only):
        keep(results)
    return 1 if any(refused < count for refused, count, _ in results.values()) else 0


if __name__ == "__main__":
    sys.exit(main())
