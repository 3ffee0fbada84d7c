"""Proves libraries side by side: those of which none needs another, as many as there are processors.

`rt lib` holds the folders of a crate and of all crates below it until it ends. So two runs in one tree wait for each other if they share a
library. Here each library is proved in a small repository of its own. `rt` takes over from one repository to another what it proved of the same
sources, and so it does at the end for the tree.
"""
import contextlib
import os
import subprocess
import tempfile
import time

TOP = os.path.dirname(os.path.dirname(os.path.abspath(__file__)))
from repositories import below, copy_crates  # noqa: E402

# Each job more loads all libraries once more, and so gains less than the one before it.
MOST_JOBS = 3


def bytes_of(name):
    """How much there is to prove of a crate."""
    folders = (f"{TOP}/crates/{name}/{part}" for part in ("src", "specs", "proofs"))
    return sum(os.path.getsize(f"{at}/{it}") for folder in folders for at, _, names in os.walk(folder) for it in names)


def chain_lengths(crates, names):
    """How much there is to prove from each crate on, along the longest chain of crates that stand above each other."""
    lengths = {}
    for name in reversed(names):
        lengths[name] = bytes_of(name) + max((lengths[it] for it in names if name in crates[it]), default=0)
    return lengths


def start(room, name, crates, jobs, out):
    """Begins to prove a library in a repository of its own, and says so; the process, and the file of what it prints."""
    used, top = below(name, crates), f"{room}/{name}"
    copy_crates(top, used)
    with open(f"{top}/crates.txt", "w", encoding="utf-8") as it:
        it.writelines(f"{library}: {' '.join(crates[library])}\n" for library in used)
    said = tempfile.TemporaryFile()
    print(f"{name}: proving", file=out, flush=True)
    words = ["rt", "lib", "--jobs", str(jobs)]
    return subprocess.Popen(words, cwd=f"{top}/crates/{name}", stdout=said, stderr=subprocess.STDOUT, stdin=subprocess.DEVNULL), said


def stop(running):
    """Ends what is still running."""
    for ran, _, _ in running.values():
        ran.terminate()
        ran.wait()


def prove_in(room, crates, names, out):
    """Proves the libraries, lowest first; whether all went well."""
    lengths, unproved, waiting, running = chain_lengths(crates, names), set(names), list(names), {}
    while unproved:
        free = os.cpu_count() - sum(jobs for _, _, jobs in running.values())
        ready = sorted((it for it in waiting if unproved.isdisjoint(crates[it])), key=lambda it: -lengths[it])
        for place, name in enumerate(ready[: max(0, free)]):
            jobs = max(1, min(MOST_JOBS, free - (len(ready) - place - 1)))
            running[name], free = (*start(room, name, crates, jobs, out), jobs), free - jobs
            waiting.remove(name)
        ended = [it for it, (ran, _, _) in running.items() if ran.poll() is not None]
        for name in ended:
            ran, said, _ = running.pop(name)
            if ran.returncode:
                said.seek(0)
                print(said.read().decode(errors="replace")[-3000:], file=out)
                stop(running)
                return False
            unproved.remove(name)
        time.sleep(0 if ended else 0.2)
    return True


@contextlib.contextmanager
def proved(crates, names, out):
    """Proves libraries, lowest first, and gives whether all went well. Within the block `rt` takes them over into the tree. `out` hears what begins."""
    with tempfile.TemporaryDirectory(prefix="proofs-") as room:
        yield prove_in(room, crates, names, out)
