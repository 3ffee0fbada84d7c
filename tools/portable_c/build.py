"""Takes the LLVM module of a proved crate, which the kit hands to its compiler, optimized without vectors."""
import glob
import os
import re
import subprocess
import sys
import tempfile

TOOLS = os.path.dirname(os.path.dirname(os.path.abspath(__file__)))
sys.path[:0] = [TOOLS]
from gate import load_rt  # noqa: E402

# The kit's compiler, which also keeps the modules that it is given.
KEEPING = """#!/bin/sh
for it in "$@"; do case "$it" in *.bc) cp "$it" "{room}/$$-${{it##*/}}";; esac; done
exec "{kit}/bin/clang" "$@"
"""
# The kit's `rt lib` or `rt run` with that compiler. A program is compiled, and neither linked nor run.
BUILD = """import sys
sys.path.insert(0, {tools!r})
from gate import load_rt
rt = load_rt()
call = rt.rtlib.Crate.call
rt.rtlib.Crate.call = lambda crate, *words: call(crate, *({room!r} if it == {kit!r} else it for it in words))
rt.rtlib.Crate.run = lambda crate, flags, *_, **__: crate.compile(flags, {room!r} + "/program.o")
sys.exit(rt.main([{verb!r}, "--jobs", "1"]))
"""
# What the module says of one machine, which C does not need.
OF_ONE_MACHINE = re.compile(r' "(?:target-\w+|probe-stack|stack-probe-size|frame-pointer|tune-cpu)"="[^"]*"')
AS_IT_IS = ["-O0", "-Xclang", "-disable-llvm-passes"]
OPTIMIZED = ["-O3", "-fno-pic", "-fno-vectorize", "-fno-slp-vectorize", "-fno-unroll-loops"]


def make_toolchain(kit, room):
    """Fills a folder with the kit's tools, whose compiler keeps each module there."""
    os.mkdir(f"{room}/bin")
    for it in ("lib", *(f"bin/{it}" for it in os.listdir(f"{kit}/bin") if it != "clang")):
        os.symlink(f"{kit}/{it}", f"{room}/{it}")
    with open(f"{room}/bin/clang", "w", encoding="utf-8") as it:
        it.write(KEEPING.format(room=room, kit=kit))
    os.chmod(f"{room}/bin/clang", 0o755)


def built_module(top, crate, kit):
    """Has the kit build a crate in the tree at `top`; the bytes of its module."""
    folder = f"{top}/crates/{crate}"
    verb = "run" if os.path.exists(f"{folder}/src/main.rt") else "lib"
    with tempfile.TemporaryDirectory(prefix="portable-") as room:
        make_toolchain(kit, room)
        words = [sys.executable, "-c", BUILD.format(tools=TOOLS, kit=kit, room=room, verb=verb)]
        how = {"stdin": subprocess.DEVNULL, "stdout": subprocess.PIPE, "stderr": subprocess.STDOUT}
        said = subprocess.run(words, cwd=folder, **how)
        modules = glob.glob(f"{room}/*.bc")
        if said.returncode or not modules:
            raise RuntimeError(f"the kit does not build {crate}: {said.stdout.decode(errors='replace')[-3000:]}")
        with open(max(modules, key=os.path.getsize), "rb") as it:
            return it.read()


def as_text(kit, module, flags):
    """A module as the kit's compiler writes it; the compiler warns of nothing."""
    words = [f"{kit}/bin/clang", "-w", "-x", "ir", "-S", "-emit-llvm", *flags, "-", "-o", "-"]
    return subprocess.run(words, input=module, check=True, stdout=subprocess.PIPE).stdout


def optimized_module(top, crate, prepare):
    """The text of the module of a crate that is proved in the tree at `top`, optimized after `prepare` changed it."""
    kit = f"{load_rt().KIT}/toolchain"
    text = OF_ONE_MACHINE.sub("", as_text(kit, built_module(top, crate, kit), AS_IT_IS).decode())
    return as_text(kit, prepare(text).encode(), OPTIMIZED).decode()
