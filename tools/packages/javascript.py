"""The package for JavaScript: three modules of WebAssembly, the wrapper over them, and a page that needs nothing else.

Each module is made of the sources of a crate for C, as a crate of the kind wasm64 in a repository of its own, over what is
proved of the libraries below: a repository has one kind of each crate. Binaryen then gives it a memory of 32-bit addresses,
which more hosts can load. It is kept beside the static library and serves until a source changes.
"""
import base64
import collections
import json
import os
import re
import shutil
import subprocess
import sys
import tempfile
import urllib.parse

import zone_texts

from . import LICENCES, Missing, sum_of_sources, version

# A module of WebAssembly: the crate that it is made of, where it is kept, and what it leaves out: modules of the crate, and the libraries
# below them. (`rt lib` of the static library takes away a module of the crate's own name.)
Module = collections.namedtuple("Module", "crate kept left_out below_left_out")
# The modules of calendar_c that C alone uses.
FOR_C = ("durations", "split", "times", "versions")
# By the source that holds it. Who uses no columns loads none of them.
MODULES = {
    "module": Module("calendar_c", "crates/calendar_c/out/calendar.wasm", ("columns", *FOR_C), ("chrono_columns",)),
    "columns_module": Module(
        "calendar_c", "crates/calendar_c/out/columns.wasm", ("date_times", "fields", "moves", "names", "texts", "weekdays", *FOR_C), ()
    ),
    "layers_module": Module("layers_c", "crates/layers_c/out/layers_with_columns.wasm", (), ()),
}
SOURCES = ("instantiate", "moments", "numbers", "rounding", "calendar", "texts", "library", "duration", "plain_date", "plain_date_time",
           "instant", "column_room", "layers", "text_error", "schedule", "rule", "rule_set", "pattern", "business_calendar", "columns", "zone",
           "zoned_date_time", "calendar_text", "timed_schedule", "index")
# What of the package the page has no use for.
NOT_ON_PAGE = ("columns", "columns_module", "rule_set", "calendar_text", "timed_schedule")
PAGE = ("answers", "words", "parts", "layer_parts", "zones", "page")


def read(path):
    with open(path, encoding="utf-8") as it:
        return it.read()


def write(path, text):
    os.makedirs(os.path.dirname(path), exist_ok=True)
    with open(path, "w", encoding="utf-8") as it:
        it.write(text)
    return path


def leave_out(crate, names):
    """Takes some of its modules out of a copy of the crate."""
    root = read(f"{crate}/src/lib.rt")
    for name in names:
        root = root.replace(f"mod {name};\n", "")
        shutil.rmtree(f"{crate}/proofs/{name}", ignore_errors=True)
        if os.path.exists(f"{crate}/src/{name}.rt"):
            os.remove(f"{crate}/src/{name}.rt")
    write(f"{crate}/src/lib.rt", root)


def line_of(crate, crates):
    """What crates.txt has for a crate: its name, and its kind if it has one."""
    return next(it for it in crates if it.split()[0] == crate)


def build_module(top, room, wanted):
    """Proves a crate as one of the kind wasm64 and builds its module; the module's path."""
    from repositories import below, copy_crates, listed_crates, take_proved

    crates, crate = listed_crates(), wanted.crate
    line = line_of(crate, crates)
    crates[line] = [it for it in crates[line] if it not in wanted.below_left_out]
    *libraries, _ = below(line, crates)
    copy_crates(room, [*libraries, crate])
    leave_out(f"{room}/crates/{crate}", wanted.left_out)
    with open(f"{room}/crates.txt", "w", encoding="utf-8") as it:
        it.writelines(f"{name}: {' '.join(crates[name])}\n" for name in libraries)
        it.write(f"{crate} wasm64: {' '.join(crates[line])}\n")
    if not take_proved(room, libraries):
        print("nothing kept serves: the libraries are proved first", flush=True)
    # (what is proved of the crate as a library for C holds of it as a module too)
    kept = f"{top}/crates/{crate}/out/incremental"
    if os.path.isdir(kept):
        shutil.copytree(kept, f"{room}/crates/{crate}/out/incremental")
    ran = subprocess.run(
        ["rt", "lib", "--jobs", "1"], cwd=f"{room}/crates/{crate}", stdout=subprocess.PIPE, stderr=subprocess.STDOUT, text=True
    )
    if ran.returncode:
        raise RuntimeError(f"rt lib of {crate} as wasm64:\n{ran.stdout[-4000:]}")
    return f"{room}/crates/{crate}/out/{crate}.wasm"


def lower(wide, module):
    """Gives the module at a path a memory of 32-bit addresses, at another path. Its functions keep the types of their arguments."""
    if not shutil.which("wasm-opt"):
        raise Missing("no wasm-opt, of Debian's binaryen")
    words = ["wasm-opt", "--enable-memory64", "--enable-bulk-memory", "--memory64-lowering", wide, "-o", module]
    ran = subprocess.run(words, stdout=subprocess.PIPE, stderr=subprocess.STDOUT, text=True)
    if ran.returncode:
        raise RuntimeError(f"wasm-opt of the module:\n{ran.stdout[-4000:]}")


def module(top, wanted):
    """The bytes of a module: the one that is kept, if it is newer than what it is made of, or else one that is built now."""
    sys.path[:0] = [f"{top}/tools"]
    from repositories import below, listed_crates, time_of

    crates, kept = listed_crates(), f"{top}/{wanted.kept}"
    parts = [f"{top}/crates/{name.split()[0]}/{part}" for name in below(line_of(wanted.crate, crates), crates) for part in ("src", "specs", "proofs")]
    if not (os.path.exists(kept) and os.path.getmtime(kept) > time_of(parts, max)):
        if not shutil.which("rt"):
            raise Missing(f"no rt, the Rattle kit's command, and no {wanted.kept}")
        with tempfile.TemporaryDirectory(prefix="module-") as room:
            built = build_module(top, room, wanted)
            os.makedirs(os.path.dirname(kept), exist_ok=True)
            lower(built, f"{room}/lowered.wasm")
            shutil.copy(f"{room}/lowered.wasm", kept)
    with open(kept, "rb") as it:
        return it.read()


def modules(top):
    """The bytes of each module, by the source that holds it."""
    return {source: module(top, it) for source, it in MODULES.items()}


def address(text):
    """A module as an address that holds it, which imports other modules by their names."""
    text = re.sub(r"(?<=from )\"\.[./a-z]*/(\w+)\.js\"", r'"\1"', text)
    return "data:text/javascript;charset=utf-8," + urllib.parse.quote(text, safe=" ,;:/?@&=+$!*'()[]{}|^`<>~")


def page_of(folder, module_texts):
    """The page with its styles and all modules inside, so that it is one file that a browser opens from anywhere."""
    texts = {**module_texts, **{it: read(f"{folder}/src/{it}.js") for it in SOURCES}}
    texts.update({it: read(f"{folder}/page/{it}.js") for it in PAGE}, zone_texts=zone_texts_of_machine())
    for name in NOT_ON_PAGE:
        texts.pop(name)
        texts["index"] = re.sub(rf'^export .* from "\./{name}\.js";\n', "", texts["index"], flags=re.M)
    listed = json.dumps({"imports": {name: address(text) for name, text in texts.items()}}, indent=1)
    scripts = f'  <script type="importmap">\n{listed}\n  </script>\n  <script type="module">import "page";</script>\n'
    page = read(f"{folder}/page/index.html")
    for line, made in (
        ('  <link rel="stylesheet" href="page.css">\n', f"  <style>\n{read(f'{folder}/page/page.css')}  </style>\n"),
        ('  <script type="module" src="page.js"></script>\n', scripts),
    ):
        if page.count(line) != 1:
            raise RuntimeError(f"page/index.html has no single line {line.strip()}")
        page = page.replace(line, made)
    return page


def module_texts_of(top, bytes_of_modules):
    """Each module of WebAssembly as one of JavaScript, which no host has to fetch."""
    return {source: module_text_of(it, sum_of_sources(top, MODULES[source].crate)) for source, it in bytes_of_modules.items()}


def module_text_of(bytes_of_module, sum_of_them):
    """A module of WebAssembly as one of JavaScript, with the sum of the sources that it is made of."""
    text = base64.b64encode(bytes_of_module).decode()
    return f'/**\n * The proved functions, as `rt lib` builds them: {len(bytes_of_module):,} bytes. Their sources have this sum by SHA-256:\n * {sum_of_them}\n */\nexport const MODULE =\n  "{text}";\n'


def write_modules(top):
    """Writes the modules beside the sources of the wrapper, which then serves as it lies in a clone; their paths."""
    texts = module_texts_of(top, modules(top))
    return [write(f"{top}/languages/javascript/src/{name}.js", text) for name, text in texts.items()]


def zone_texts_of_machine():
    """The machine's time zones as a module of JavaScript."""
    zones = zone_texts.zone_texts()
    if not zones:
        raise Missing(f"no time zone in {zone_texts.FOLDER}, of Debian's tzdata")
    return f'export const DATABASE = "{zone_texts.version()}";\nexport const ZONES = `{zones}`;\n'


def make_package(top, folder, bytes_of_modules, package):
    """Makes a package of the wrapper in a folder; its path."""
    shutil.rmtree(package, ignore_errors=True)
    for name in SOURCES:
        write(f"{package}/src/{name}.js", read(f"{folder}/src/{name}.js"))
    for name, text in module_texts_of(top, bytes_of_modules).items():
        write(f"{package}/src/{name}.js", text)
    for name in ("README.md", "index.d.ts", "package.json"):
        write(f"{package}/{name}", read(f"{folder}/{name}"))
    for name in LICENCES:
        write(f"{package}/{name}", read(f"{top}/{name}"))
    return package


def make(top, built, dist):
    """Makes javascript/proved-calendar, which npm and node take as a folder, and javascript/page.html; their paths."""
    folder, bytes_of_modules = f"{top}/languages/javascript", modules(top)
    if f'"version": "{version(top)}"' not in read(f"{folder}/package.json"):
        raise RuntimeError(f"languages/javascript/package.json has another version than calendar.h, {version(top)}")
    package = make_package(top, folder, bytes_of_modules, f"{dist}/javascript/proved-calendar")
    return [package, write(f"{dist}/javascript/page.html", page_of(folder, module_texts_of(top, bytes_of_modules)))]
