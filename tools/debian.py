"""What Debian's packages give: its own Python, and programs over its Rust libraries."""
import os
import shutil
import subprocess
import sys

TOP = os.path.dirname(os.path.dirname(os.path.abspath(__file__)))
PYTHON = "/usr/bin/python3"
REGISTRY = "/usr/share/cargo/registry"
# The folder of Debian's Python for ARM, which tools/setup unpacks and qemu runs.
ARM = "/usr/local/aarch64-linux-gnu"
# The options by which cargo takes libraries from Debian's packages alone.
FROM_DEBIAN = ["--config", 'source.crates-io.replace-with="debian"', "--config", f'source.debian.directory="{REGISTRY}"']

# The same as a file of cargo's settings.
CARGO_CONFIG = f"""\
[source.crates-io]
replace-with = "debian"

[source.debian]
directory = "{REGISTRY}"
"""


def cargo_environment(room, built=None):
    """The environment of cargo, which takes crates from Debian's packages: over the static libraries of a folder, or with none over the C files."""
    kept = {name: it for name, it in os.environ.items() if name != "CALENDAR_FOLDER"}
    os.makedirs(f"{room}/cargo", exist_ok=True)
    with open(f"{room}/cargo/config.toml", "w", encoding="utf-8") as it:
        it.write(CARGO_CONFIG)
    return dict(kept, CARGO_TARGET_DIR=f"{room}/target", CARGO_HOME=f"{room}/cargo", **({"CALENDAR_FOLDER": built} if built else {}))


def restart_without(module):
    """Runs the same command again by Debian's Python, if the module is None, which says that this Python lacks it."""
    if module is None and sys.executable != PYTHON and os.path.exists(PYTHON):
        os.execv(PYTHON, [PYTHON, *sys.orig_argv[1:]])


def why_no_chrono():
    """What is missing to build programs over chrono, if something is."""
    if not shutil.which("cargo"):
        return "there is no cargo"
    listed = shutil.which("dpkg") and subprocess.run(["dpkg", "-L", "librust-chrono-dev"], capture_output=True, check=False)
    return None if listed and listed.returncode == 0 else "there is no librust-chrono-dev"


def build_over_chrono(folder, source, chrono=None):
    """Builds the program of a folder of this tree over Debian's chrono, below another folder, and returns its path.

    If the folder of another version of chrono is given, a copy of the program is built over that, without its default features.
    """
    made, name, other = os.path.join(TOP, source), os.path.basename(source), []
    if chrono:
        made = shutil.copytree(made, os.path.join(folder, name), ignore=shutil.ignore_patterns("Cargo.lock", "target"))
        other = ["--no-default-features", "--config", f'patch.crates-io.chrono.path="{os.path.abspath(chrono)}"']
    target = os.path.join(folder, "target")
    env = dict(os.environ, CARGO_TARGET_DIR=target)
    subprocess.run(["cargo", "build", "--release", "--offline", "--quiet", *FROM_DEBIAN, *other], cwd=made, env=env, check=True)
    return os.path.join(target, "release", name)
