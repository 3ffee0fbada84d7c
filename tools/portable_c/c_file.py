"""The C file of a proved library or program: tables, functions, and those of a header or what a program asks for."""
import os
import shutil

from library import proved_repository
from repositories import listed_crates
from packages import LICENCES, sum_of_sources, version

from .build import optimized_module
from .exports import START, exports, show_inner, show_start
from .module import Module

HERE = os.path.dirname(os.path.abspath(__file__))
TOP = os.path.dirname(os.path.dirname(HERE))
HEADERS = {"calendar_c": "calendar.h", "layers_c": "calendar_layers.h"}
PROGRAM = "caltool"
# What the module of a program calls outside, and its start, by their names in runtime.h.
OF_RUNTIME = {"read": "host_read", "write": "host_write", "rattle_errno": "host_error", START: START}
HEAD = """/*
 * {name}: {what} {version}, for any compiler of C99 on a little-endian machine of 64 bits.
 *
 * tools/dist made this file from the module of the crate {crate}, whose functions are proved to meet \
their contracts. Nothing proves
 * the translation: it is tested, as docs/trust.md says. Do not edit it. The sources have this sum by SHA-256:
 * {sum}
 *
 * SPDX-License-Identifier: MIT OR Apache-2.0
 */
"""


def read(path):
    with open(path, encoding="utf-8") as it:
        return it.read()


def file_name(crate):
    """The name of the C file of a crate."""
    return HEADERS.get(crate, f"{crate}.h").replace(".h", ".c")


def translated(crate, text):
    """The C file of a crate, from the text of its optimized module."""
    header = HEADERS.get(crate)
    what = f"the functions of {header}" if header else f"the program {crate}"
    told = {"name": file_name(crate), "what": what, "version": version(TOP), "crate": crate}
    head = HEAD.format(**told, sum=sum_of_sources(TOP, crate)) + read(f"{HERE}/prelude.h")
    if not header:
        return "\n".join([head, read(f"{HERE}/runtime.h"), Module(text, OF_RUNTIME).text()])
    module, headers = Module(text), {it: read(f"{TOP}/languages/c/{it}") for it in HEADERS.values()}
    body = module.text()
    return "\n".join([head, body, f'#include "{header}"', "", exports(headers[header], headers.values(), module)])


def c_file(top, crate):
    """The C file of a crate, over the libraries that are proved in the tree at `top`."""
    show = show_inner if crate in HEADERS else show_start
    return translated(crate, optimized_module(top, crate, lambda text: show(text, crate)))


def write(folder, crates=(*HEADERS, PROGRAM)):
    """Proves and builds these crates, and writes their C files into a folder, with headers and licences; the paths."""
    os.makedirs(folder, exist_ok=True)
    paths = []
    for crate in crates:
        with proved_repository(crate, listed_crates()) as top:
            if not top:
                raise RuntimeError(f"not all libraries below {crate} are proved")
            made = c_file(top, crate)
        paths.append(f"{folder}/{file_name(crate)}")
        with open(paths[-1], "w", encoding="utf-8") as it:
            it.write(made)
    beside = [*(f"languages/c/{HEADERS[it]}" for it in crates if it in HEADERS), *LICENCES]
    return paths + [shutil.copy(f"{TOP}/{it}", folder) for it in beside]
