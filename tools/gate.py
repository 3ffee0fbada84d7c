#!/usr/bin/env python3
"""Measures the gate: the processor seconds of each command that `rt ci` runs, on a copy of what is committed.

  tools/gate.py                  the whole gate: a table by crate (proof, tests, edits, programs), the slowest edits by name
  tools/gate.py NAME ..          the same of these crates and of those below them, which is not the gate
  tools/gate.py --no-edits ..    the same without the must-fail edits
  tools/gate.py --kept ..        only what no earlier run on this machine passed
  tools/gate.py --table LOG ..   the table of what runs wrote to these files (by --log), of each part of a crate from the last run that did it
  tools/gate.py --functions NAME the check of one crate from nothing, as time passes from function to function

Processor time says what a run costs whatever else the machine does; the wall time is of this machine and this run.
A copy is made below $TMPDIR, so nothing of the work tree is read but its commits. A run of the whole gate from nothing writes its
table to status/gate.txt, with the commit, the date, the kit, and the last line of the gate.
"""
import argparse
import collections
import contextlib
import importlib.machinery
import importlib.util
import inspect
import json
import os
import re
import shutil
import subprocess
import sys
import tempfile
import threading
import time

import status

WATCH = """import json, os, resource, subprocess, sys, time
began = time.time()
status = subprocess.call([{rattle!r}, *sys.argv[1:]])
used = resource.getrusage(resource.RUSAGE_CHILDREN)
line = dict(words=sys.argv[1:], folder=os.getcwd(), label=os.environ.get("GATE_LABEL", ""), status=status,
            processor=used.ru_utime + used.ru_stime, wall=time.time() - began, peak=used.ru_maxrss)
with open({log!r}, "a") as it:
    it.write(json.dumps(line) + "\\n")
sys.exit(status)
"""

# The parts of the gate that are told apart, and what status/gate.txt begins with.
PARTS = ["proof", "tests", "edits", "programs"]
HEAD = ["The processor seconds of the gate by crate, written by tools/gate.py; `number` counts the planted bugs of must-fail/."]

# The kit's `rt check` on one processor, which finds nothing that checks in other work trees of this machine kept.
ANEW = """import importlib.util, os, sys
sys.path.insert(0, os.path.dirname({tool!r}))
spec = importlib.util.spec_from_file_location("gate", {tool!r})
gate = importlib.util.module_from_spec(spec)
spec.loader.exec_module(gate)
rt = gate.load_rt()
rt.WORK = {room!r} + "/nothing-kept"
sys.exit(rt.main(["check", "--jobs", "1"]))
"""


def load_rt():
    """Returns the kit's own command as a module."""
    path = os.path.realpath(shutil.which("rt"))
    loader = importlib.machinery.SourceFileLoader("rt", path)
    made = importlib.util.module_from_spec(importlib.util.spec_from_loader("rt", loader))
    loader.exec_module(made)
    return made


class Labelled:
    """The module subprocess, whose runs tell the watched command which edit they try."""

    def __init__(self):
        self.of_thread = threading.local()

    def __getattr__(self, name):
        return getattr(subprocess, name)

    def run(self, words, **how):
        label = getattr(self.of_thread, "label", "")
        return subprocess.run(words, **{**how, "env": {**(how.get("env") or os.environ), "GATE_LABEL": label}})


def watch(rt, room):
    """Has each call of the prover write what it used, and returns the file that it writes to."""
    log, watched = f"{room}/log", f"{room}/watched"
    with open(watched, "w") as it:
        it.write(f"#!{sys.executable} -IS\n" + WATCH.format(rattle=rt.rtlib.RATTLE, log=log))
    os.chmod(watched, 0o755)
    open(log, "w").close()
    rt.rtlib.RATTLE, rt.subprocess, tried = watched, Labelled(), rt.must_fail

    def must_fail(crate, edit, flags, kept=None):
        rt.subprocess.of_thread.label = f"{crate.name}/{os.path.basename(edit)}"
        try:
            return tried(crate, edit, flags, kept)
        finally:
            rt.subprocess.of_thread.label = ""

    rt.must_fail = must_fail
    return log


class Tee:
    """The standard output, whose last line is kept."""

    def __init__(self, out):
        self.out, self.last = out, ""

    def __getattr__(self, name):
        return getattr(self.out, name)

    def write(self, text):
        self.last = ([it for it in text.splitlines() if it.strip()] or [self.last])[-1]
        return self.out.write(text)


def part_of(line):
    """Returns the crate and the part of the gate that a call of the prover belongs to."""
    words = line["words"]
    name = words[words.index("--crate-name") + 1] if "--crate-name" in words else ""
    if "rt-edit-" in line["folder"]:
        return name, "edits"
    if words[0] not in ("check", "build") or not name:
        return "", "rest"
    if "--test" in words:
        return name, "tests"
    return name, "programs" if "--crate-checked" in words else "proof"


def table_of(lines):
    """Returns the processor seconds by crate and by part of the gate as rows of words, and those of each edit."""
    sums, edits, names = collections.Counter(), collections.Counter(), []
    for it in lines:
        name, part = part_of(it)
        sums[name, part] += it["processor"]
        names += [name] if name and name not in names else []
        if it["label"]:
            edits[it["label"]] += it["processor"]
    rows = [["crate", *PARTS, "number", "whole"]]
    for name in [*names, "all"]:
        of = [sum(v for (n, p), v in sums.items() if p == part and name in (n, "all")) for part in PARTS]
        number = sum(1 for it in edits if name in (it.partition("/")[0], "all"))
        rows.append([name, *(f"{it:.0f}" for it in of), str(number), f"{sum(of):.0f}"])
    return rows, edits


def print_table(lines):
    rows, edits = table_of(lines)
    print("\n".join(status.aligned(rows)))
    print("\nThe slowest edits, in processor seconds (the first of a crate proves the crate):")
    for label, used in edits.most_common(40):
        print(f"  {used:6.1f}  {label}")


def copy_of_head(room):
    copy = f"{room}/copy"
    os.mkdir(copy)
    made = subprocess.run(["git", "archive", "HEAD"], check=True, stdout=subprocess.PIPE)
    subprocess.run(["tar", "x", "-C", copy], input=made.stdout, check=True)
    subprocess.run(["git", "init", "-q", copy], check=True)
    return copy


def lines_of(logs):
    """Returns the lines of several logs: of each part of a crate those of the last log that has it."""
    last = {}
    for path in logs:
        with open(path) as it:
            lines = [json.loads(line) for line in it]
        parts = collections.defaultdict(list)
        for it in lines:
            parts[part_of(it)].append(it)
        last |= parts
    return [line for lines in last.values() for line in lines]


def run_gate(rt, anew, names):
    """Runs the gate; its status. That of some kits is always of all crates and from nothing."""
    if inspect.signature(rt.ci).parameters:
        return rt.ci(anew, names)
    if names or not anew:
        sys.exit("the gate of this kit takes no names and no --kept")
    return rt.ci()


def measure_gate(rt, room, names, with_edits, anew, keep):
    copy, log = copy_of_head(room), watch(rt, room)
    if not with_edits:
        for name in os.listdir(f"{copy}/crates"):
            shutil.rmtree(f"{copy}/crates/{name}/must-fail", ignore_errors=True)
    os.chdir(copy)
    began = time.time()
    with contextlib.redirect_stdout(Tee(sys.stdout)) as said:
        ended = run_gate(rt, anew, names)
        last = said.last
    took = f"{(time.time() - began) / 60:.1f} minutes on {rt.processors()} processors"
    print(f"\nThe gate ended with status {ended} after {took}.\n")
    lines = lines_of([log])
    print_table(lines)
    if keep:
        shutil.copyfile(log, keep)
    if anew and with_edits and not names:
        kit = subprocess.run(["rt", "version"], check=True, capture_output=True, text=True).stdout.strip()
        status.write("gate.txt", [*HEAD, f"{status.commit()} {status.today()}, {kit}: {last}; {took}"], table_of(lines)[0])
    return ended


def measure_functions(room, name):
    """Prints what passed between the ends of two functions' checks, the longest first, on one processor."""
    copy = copy_of_head(room)
    folder = f"{copy}/crates/{name}"
    # (builds the libraries below; nothing of the crate itself is proved)
    subprocess.run(["rt", "check", "--only", ""], cwd=folder, stdout=subprocess.DEVNULL)
    shutil.rmtree(f"{folder}/out", ignore_errors=True)
    began = last = time.time()
    spans = []
    words = [sys.executable, "-c", ANEW.format(tool=os.path.abspath(__file__), room=room)]
    with subprocess.Popen(words, cwd=folder, stdout=subprocess.PIPE, text=True) as ran:
        for line in ran.stdout:
            found = re.match(r"checked (\S+), ", line)
            if found:
                spans.append((time.time() - last, found[1]))
                last = time.time()
    for span, function in sorted(spans, reverse=True)[:40]:
        print(f"{span:7.1f}  {function}")
    print(f"{time.time() - began:7.1f}  in all")
    return ran.returncode


def main():
    words = argparse.ArgumentParser(description=__doc__, formatter_class=argparse.RawDescriptionHelpFormatter)
    words.add_argument("names", nargs="*", metavar="NAME")
    words.add_argument("--no-edits", action="store_true")
    words.add_argument("--kept", action="store_true", help="proves and tries only what no earlier run on this machine passed")
    words.add_argument("--table", nargs="+", metavar="LOG")
    words.add_argument("--functions", metavar="NAME")
    words.add_argument("--log", metavar="FILE", help="keeps the line of each call of the prover")
    words.add_argument("--at", metavar="FOLDER", help="makes the copy in that folder, which must not exist yet and stays")
    said = words.parse_args()
    keep = os.path.abspath(said.log) if said.log else None
    if said.table:
        return print_table(lines_of(said.table))
    how = said.names, not said.no_edits, not said.kept, keep
    if said.at:
        os.makedirs(said.at)
        return measure_gate(load_rt(), os.path.abspath(said.at), *how)
    with tempfile.TemporaryDirectory(prefix="gate-") as room:
        if said.functions:
            return measure_functions(room, said.functions)
        return measure_gate(load_rt(), room, *how)


if __name__ == "__main__":
    sys.exit(main())
