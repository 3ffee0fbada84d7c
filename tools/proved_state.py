"""What is proved of caltool and of the libraries below it, as one file that another clone unpacks.

`rt` takes a library or a program for proved if a stamp beside it has the sum of the kit, of all its sources and of those below it.
So the file serves any clone with the same sources and the same kit, and no other. Whoever unpacks it trusts whoever packed it: the
gate, `rt ci`, reads none of it.
"""
import os
import subprocess
import tempfile

from gate import load_rt
from packages import run

PROGRAM = "caltool"
NAME = "proved-state.tar.zst"


def crates(top):
    """The program and the libraries below it, lowest first."""
    rt = load_rt()
    program = next(it for it in rt.rtlib.crates_below(top) if it.name == PROGRAM)
    return [*program.below(), program]


def prove(top):
    """Proves and builds the program by `rt run`, which proves only what has changed; it reads no line."""
    print(f"{PROGRAM}: proving ..", flush=True)
    words = ["rt", "run"]
    ran = subprocess.run(words, cwd=f"{top}/crates/{PROGRAM}", input=b"", stdout=subprocess.PIPE, stderr=subprocess.STDOUT)
    if ran.returncode:
        raise RuntimeError(f"`rt run` does not prove {PROGRAM}: {ran.stdout.decode(errors='replace')[-3000:]}")


def kept(top):
    """The paths that the file holds, from the top of the tree: each library as it is built, and the program with its stamp."""
    *libraries, program = crates(top)
    for it in libraries:
        if not it.is_built():
            raise RuntimeError(f"{it.name} changed while it was proved")
    paths = [f"crates/{it.name}/out/rlib" for it in libraries]
    return [*paths, *(f"crates/{program.name}/out/{program.name}{end}" for end in ("", ".stamp"))]


def make(top, dist):
    """Proves the program, and packs what is proved; the path of the file. It has neither the names of users nor times."""
    prove(top)
    path = f"{dist}/{NAME}"
    with tempfile.TemporaryDirectory(prefix="state-") as room:
        packed = f"{room}/state.tar"
        flags = ["--sort=name", "--mtime=@0", "--owner=0", "--group=0", "--numeric-owner", "--mode=u=rwX,go=rX"]
        run(["tar", "-C", top, *flags, "-cf", packed, *kept(top)])
        run(["zstd", "-q", "-9", "-T0", "-f", packed, "-o", path])
    return [path]
