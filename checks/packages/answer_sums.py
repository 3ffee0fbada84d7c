"""A header in C by which a program that calls a library of ours also prints one sum of all answers.

The program is compiled with `-include` of that header. Each call then goes through a function which adds what the call returned, and what it left in
memory that it may write. If a program prints the same sum over two builds of a library, these gave the same answers.
"""
import re
import subprocess

from checks.packages.layers_c import structs_of_header
from checks.shared.results import LANGUAGES, read

BEGIN = """#include "calendar_layers.h"
#include <stdio.h>
#include <stdlib.h>

static uint64_t sum;

static void print_sum(void) { printf("sum %016llx\\n", (unsigned long long)sum); }

static void add(uint64_t answer) {
    static bool is_printed;
    if (!is_printed) atexit(print_sum);
    is_printed = true;
    sum = (sum ^ answer) * 1099511628211u;
    sum ^= sum >> 29;
}
"""
# The bytes of a text in the columns of texts, whose lengths count texts.
WIDTH = 10


def without_comments(header):
    """The text of a header of languages/c."""
    return re.sub(r"/\*.*?\*/", "", read(f"{LANGUAGES}/c/{header}"), flags=re.S)


def declared(header):
    """The functions of a header: name, result, and parameters such as `const uint8_t *text`."""
    for result, name, listed in re.findall(r"^(\w+)\s+(calendar_\w+)\(([^)]*)\);", without_comments(header), re.M):
        yield name, result, [re.sub(r"\s+", " ", it.strip()) for it in listed.split(",") if it.strip() != "void"]


def parts_of(parameter):
    """Whether a parameter is constant, its type, whether it is a pointer, and its name."""
    constant, kind, pointer, name = re.fullmatch(r"(const )?(\w+) (\*?)(\w+)", parameter).groups()
    return bool(constant), kind, bool(pointer), name


def added(kind, place, structs):
    """The words that add a value of a type: a number, or a struct by its fields."""
    places = [f"{place}.{name}" for _, name in structs[kind]] if kind in structs else [place]
    return " ".join(f"add((uint64_t){it});" for it in places)


def written(parameters, structs):
    """The lines that add what lies in memory that a call may write, by the length that follows a pointer, or one struct without a length."""
    for it, after in zip(parameters, [*parameters[1:], ""]):
        constant, kind, pointer, name = parts_of(it)
        if pointer and not constant:
            length = parts_of(after)[3] if after.startswith("size_t ") else "1"
            yield f"for (size_t i = 0; i < {length} * {WIDTH if name == 'texts' else 1}; i++) {{ {added(kind, f'{name}[i]', structs)} }}"


def adding(name, result, parameters, structs):
    """A function that calls another one and adds its answers, and the macro that puts it in the place of that one."""
    call = f"{name}({', '.join(parts_of(it)[3] for it in parameters)});"
    lines = [call if result == "void" else f"const {result} answer = {call}"]
    lines += [] if result == "void" else [added(result, "answer", structs)]
    lines += [*written(parameters, structs), *([] if result == "void" else ["return answer;"])]
    body = "".join(f"    {it}\n" for it in lines)
    return f"\nstatic {result} adding_{name}({', '.join(parameters) or 'void'}) {{\n{body}}}\n#define {name} adding_{name}\n"


def write_header(path, header):
    """Writes the header for the functions of calendar.h or of calendar_layers.h; how many functions these are."""
    structs = {name: fields for it in ("calendar.h", "calendar_layers.h") for name, fields in structs_of_header(without_comments(it)).items()}
    functions = list(declared(header))
    with open(path, "w", encoding="utf-8") as it:
        it.write(BEGIN + "".join(adding(*function, structs) for function in functions))
    return len(functions)


def sum_of(words, timeout=3600):
    """The sum of all answers that a program prints; none if it fails."""
    said = subprocess.run(words, capture_output=True, text=True, errors="replace", timeout=timeout)
    found = re.search(r"^sum (\w+)", said.stdout, re.M)
    return found and said.returncode == 0 and found[1]
