#!/usr/bin/env python3
"""Holds the wrappers of languages/ to the static library of the calendar, and runs their tests.

    python3 -m checks.packages.languages

It takes the static libraries as tools/library.py finds or builds them. Where what the gate left serves, no library below is proved again.

Compared are names, results and parameters, each way: those of calendar.h with the exports of crates/calendar_c, with the symbols
of the library and with the declarations of the Rust crate; the fields of both structs; the processors that texts and header name,
with one another and with the library's instructions; and the same of the second library, for processors with AVX2. The header is then compiled, alone, by each
compiler that is found. The packages for C and Python are made by the modules of tools/packages in a temporary folder, installed as
their users would, and tested there by checks/packages/from_c.py and checks/packages/from_python.py, and so is that for Rust by checks/packages/from_rust.py. Each export
has to be called in C's tests, and to have a test of its name in the other two, but for what is for C alone, and for columns and
what belongs to them, which Python's module of columns calls. The examples of the READMEs are run too. checks/packages/cells.py has an
example of each cell of the table of layers.
"""
import os
import re
import shutil
import subprocess
import sys
import tempfile

from checks import TOP
from checks.packages import cells, from_c, from_python, from_rust
from checks.shared.results import LANGUAGES, Results, read
from library import HIGHER, LAYERS, build_higher, take_library

CRATE = f"{TOP}/crates/calendar_c"
# Where the structs of calendar.h are declared.
NUMBERS = f"{TOP}/crates/numbers_c"
HEADER = f"{LANGUAGES}/c/calendar.h"
DECLARATIONS = f"{LANGUAGES}/rust/src/calls.rs"
WARNINGS = ["-Wall", "-Wextra", "-pedantic", "-Werror"]

# The names of types, in Rust's words and the header's for structs.
TYPES = {
    "int32_t": "i32", "int64_t": "i64", "uint8_t": "u8", "uint32_t": "u32", "size_t": "usize",
    "uint8_t *": "*mut u8", "const uint8_t *": "*const u8", "uint16_t *": "*mut u16",
    "int32_t *": "*mut i32", "const int32_t *": "*const i32", "int64_t *": "*mut i64", "const int64_t *": "*const i64",
    "Moment": "calendar_date_time", "Span": "calendar_duration", "Ymd": "calendar_ymd",
    "CalendarDateTime": "calendar_date_time", "CalendarDuration": "calendar_duration", "CalendarTimeOfDay": "calendar_time",
    "CalendarYmd": "calendar_ymd",
}

# What stands in calendar.h for C alone: the packages have times of day, durations and versions of their own.
FOR_C = r"calendar_(?:time|duration_(?:add|multiply|divide)|date_time_time|(?:read|write)_(?:time|duration)|version)"

# Columns, and the struct of a date's names. The tests of Python and JavaScript name none of these.
COLUMNS = r"calendar_(?:column_\w+|split|ymd)"

# How a slice of Rattle crosses: its first byte, and how many bytes there are; and likewise for a column, of numbers or of texts of
# ten bytes.
COLUMN = r"&(mut )?\[(\w+|\[u8; 10\])\]"
SLICES = {"&[u8]": (("*const u8", "text"), ("usize", "length")), "&mut [u8]": (("*mut u8", "text"), ("usize", "room"))}

# How a function is used, in the sources of a folder.
USES = {
    "calls of C's tests": ("c", r"\b{name}\("),
    "calls of the Python package": ("python/src", r"\b{name}\("),
    "Python's tests": ("python/tests", r"\bdef test_{short}\("),
    "calls of the Rust crate": ("rust/src", r"(?<!fn ){name}\("),
    "Rust's tests": ("rust/tests", r"#\[test\]\nfn {short}\(\)"),
}

# The texts that tell for which processors the library is: each names one level of x86-64, and all the same.
PLACES = ("README.md", "languages/c/calendar.h", "languages/c/README.md", "languages/python/README.md", "languages/rust/README.md")
LEVEL = r"x86-64-v\d"

# The instructions that each level has beyond those below it: SSE3 to SSE4.2 with the bit counts; AVX, whose names begin with a v,
# and both families of BMI.
INSTRUCTIONS = {
    "x86-64-v2": r"addsubp[sd]|h(?:add|sub)p[sd]|lddqu|mov(?:d|sh|sl)dup|pabs[bwd]|palignr|ph(?:add|sub)\w+|pmaddubsw|pmulhrsw"
    r"|pshufb|psign[bwd]|p?blend\w+|dpp[sd]|(?:extract|insert)ps|movntdqa|mpsadbw|packusdw|pcmp(?:eq|gt)q|p(?:extr|insr)[bdq]"
    r"|phminposuw|p(?:max|min)(?:s[bd]|u[wd])|pmov[sz]x\w+|pmul(?:dq|ld)|ptest|round[ps][sd]|pcmp[ei]str[im]|crc32\w?|popcnt\w?"
    r"|cmpxchg16b",
    "x86-64-v3": r"v\w+|andn\w?|bextr\w?|bls(?:i|msk|r)\w?|bzhi\w?|mulx\w?|p(?:dep|ext)[lq]?|rorx\w?|s(?:ar|hl|hr)x\w?|lzcnt\w?"
    r"|movbe\w?",
}


def plain(name):
    """A type by its common name."""
    name = re.sub(r"\s+", " ", name.strip())
    return TYPES.get(name, name)


# ---- what is declared: the result of each function, and type and name of its parameters


def of_header():
    """The functions of calendar.h."""
    text = re.sub(r"/\*.*?\*/", "", read(HEADER), flags=re.S)
    found = {}
    for result, name, listed in re.findall(r"^(\w+)\s+(calendar_\w+)\(([^)]*)\);", text, re.M):
        split = [re.fullmatch(r"(.*?[\s*])(\w+)", it.strip(), re.S).groups() for it in listed.split(",")]
        found[name] = plain(result), [(plain(kind), name) for kind, name in split]
    return found


def of_rust(declared):
    """Functions as name, parameters and result, in the words of Rust or Rattle; a slice is a pointer and a length."""
    found = {}
    for name, listed, result in declared:
        parameters = []
        for it in filter(None, (it.strip() for it in listed.split(","))):
            parameter, kind = (part.strip() for part in it.split(":"))
            column = re.fullmatch(COLUMN, kind)
            if column and parameter != "text":
                pointer = f"*{'mut' if column[1] else 'const'} {column[2].strip('[]').partition(';')[0]}"
                parameters += [(pointer, parameter), ("usize", f"{parameter}_length")]
            else:
                parameters += SLICES.get(kind, [(plain(kind), parameter)])
        found[name] = plain(result), parameters
    return found


def sources(folder):
    """The sources of a crate of Rattle."""
    return [f"{at}/{name}" for at, _, names in os.walk(folder) for name in names if name.endswith(".rt")]


def of_rattle():
    """The functions that crates/calendar_c exports."""
    head = r"#\[unsafe\(no_mangle\)\]\s+pub (?:unsafe )?extern \"C\" fn (\w+)\(([^)]*)\)(?: -> (\w+))?"
    return of_rust((*it[:2], it[2] or "void") for path in sources(CRATE) for it in re.findall(head, read(path)))


def of_crate():
    """The functions that the Rust crate declares."""
    found = re.findall(r"\bfn (calendar_\w+)\(([^)]*)\)(?: -> (\w+))?;", read(DECLARATIONS))
    return of_rust((*it[:2], it[2] or "void") for it in found)


# How each language writes a struct, and a field of it.
STRUCTS = {
    "c": (r"typedef struct \{(?P<fields>.*?)\} (?P<name>\w+);", r"(?P<kind>\w+) (?P<name>\w+);"),
    "rust": (
        r"#\[repr\(C\)\][^{]*?\bstruct (?P<name>\w+) \{(?P<fields>.*?)\n\}",
        r"(?m)^    (?:pub(?:\(crate\))? )?(?P<name>\w+): (?P<kind>\w+),$",
    ),
}


def structs(language, *paths):
    """The fields of each struct."""
    of_struct, of_field = STRUCTS[language]
    text = re.sub(r"/\*.*?\*/", "", "\n".join(read(it) for it in paths), flags=re.S)
    return {
        plain(struct["name"]): [(plain(it["kind"]), it["name"]) for it in re.finditer(of_field, struct["fields"])]
        for struct in re.finditer(of_struct, text, re.S)
    }


def compare(results, what, wanted, found):
    """Compares by name, each way."""
    for name in sorted(set(wanted) | set(found)):
        one, other = wanted.get(name), found.get(name)
        results.count(one == other, f"{what}: {name} is {other}, and in calendar.h {one}")


def for_packages(found):
    """What of the header is not for C alone, by name."""
    return {name: it for name, it in found.items() if not re.fullmatch(FOR_C, name)}


def compare_declarations(results, header):
    compare(results, "exports of crates/calendar_c", header, of_rattle())
    compare(results, "declarations of languages/rust", for_packages(header), of_crate())
    fields = structs("c", HEADER)
    results.count(len(fields) == read(HEADER).count("typedef struct {"), f"calendar.h has the structs {sorted(fields)}")
    compare(results, "structs of crates/calendar_c", fields, structs("rust", *sources(CRATE), *sources(NUMBERS)))
    compare(results, "structs of languages/rust", for_packages(fields), structs("rust", DECLARATIONS))


def compare_safety(results, header):
    """The Rust crate calls a function safe exactly if it takes no pointer."""
    safe = set(re.findall(r"\bsafe fn (calendar_\w+)\(", read(DECLARATIONS)))
    for name, (_, parameters) in for_packages(header).items():
        takes_pointer = any(kind.startswith("*") for kind, _ in parameters)
        what = "is safe, and takes a pointer" if takes_pointer else "is not safe, and takes no pointer"
        results.count((name in safe) != takes_pointer, f"declarations of languages/rust: {name} {what}")


def compare_symbols(results, header, library):
    """The symbols that the library has for others, and wants of them: none but what compilers take for granted."""
    if not shutil.which("nm"):
        print("not run: the symbols of the library, since there is no nm")
        return
    listed = subprocess.run(["nm", "-g", library], check=True, capture_output=True, text=True).stdout
    symbols = {name: kind for kind, name in re.findall(r"^[\da-f ]*([A-Za-z]) (\w+)$", listed, re.M)}
    wanted = {it: "U" for it in ("memcpy", "memmove", "memset", "memcmp") if it in symbols}
    compare(results, "symbols of the library", {**wanted, **{it: "T" for it in header}}, symbols)


def level_of_header():
    """The level of x86-64 that calendar.h names."""
    return re.search(LEVEL, read(HEADER))[0]


def compare_processors(results):
    """What the texts say of processors: each of those above names the level of the header, and no other text another."""
    folders = ("", "docs", *(f"languages/{it}" for it in os.listdir(LANGUAGES)))
    others = (os.path.join(it, name) for it in folders for name in os.listdir(f"{TOP}/{it}") if name.endswith(".md"))
    for place in sorted({*PLACES, *others}):
        named = set(re.findall(LEVEL, read(f"{TOP}/{place}")))
        wanted = {level_of_header()} if named or place in PLACES else set()
        results.count(named == wanted, f"{place} names the processors {sorted(named)}, and calendar.h {level_of_header()}")


def compare_instructions(results, library, wanted):
    """The highest level of which a library has an instruction is the one that it is for."""
    if not shutil.which("objdump"):
        print("not run: the instructions of the library, since there is no objdump")
        return
    listed = subprocess.run(["objdump", "-d", "--no-show-raw-insn", library], check=True, capture_output=True, text=True).stdout
    used = set(re.findall(r"^ +[\da-f]+:\t(\w+)", listed, re.M))
    needed = [level for level, names in INSTRUCTIONS.items() if any(re.fullmatch(names, it) for it in used)]
    level = max(needed, default="x86-64")
    results.count(used and level == wanted, f"{os.path.basename(library)} is for {level}, and not for {wanted}")


def compare_higher(results, header, path):
    """The second library of the package for C has the same names, and instructions of a higher level."""
    if not shutil.which("rt"):
        print("not run: the library for higher processors, since there is no rt")
        return
    built = build_higher(path)
    results.count(built, "`rt lib --cpu` does not build the library for higher processors")
    if built:
        compare_symbols(results, header, path)
        compare_instructions(results, path, HIGHER)


def compare_uses(results, header):
    """Whether each function is called by each wrapper, and has its test in each language."""
    for language, (folder, pattern) in USES.items():
        names = [it for it in os.listdir(f"{LANGUAGES}/{folder}") if it.endswith((".c", ".py", ".rs"))]
        text = "\n".join(read(f"{LANGUAGES}/{folder}/{it}") for it in names)
        is_whole = not folder.startswith("python")
        for name in (it for it in (header if folder == "c" else for_packages(header)) if is_whole or not re.fullmatch(COLUMNS, it)):
            used = pattern.format(name=name, short=name.removeprefix("calendar_"))
            results.count(re.search(used, text), f"{language}: there is none for {name}")


# ---- what is built and run


def compile_header(results):
    """The header is C of each of its years, and C++."""
    kinds = {"gcc": ["c99", "c17"], "clang": ["c99", "c17"], "g++": ["c++11", "c++17"], "clang++": ["c++11", "c++17"]}
    for compiler, years in kinds.items():
        if not shutil.which(compiler):
            print(f"not run: the header by {compiler}, since there is none")
            continue
        for year in years:
            words = [compiler, f"-std={year}", *WARNINGS, "-fsyntax-only", "-x", "c++" if "++" in compiler else "c", HEADER]
            ran = subprocess.run(words, stderr=subprocess.PIPE, text=True)
            results.count(ran.returncode == 0, f"{' '.join(words)}: {ran.stderr}")


def compare_sources(results):
    """What is compared without the library; the functions of the header."""
    header = of_header()
    results.count(0 < len(header) == read(HEADER).count(");\n"), "calendar.h has declarations that are not understood")
    compare_declarations(results, header)
    compare_safety(results, header)
    compare_uses(results, header)
    compare_processors(results)
    cells.compare(results)
    compile_header(results)
    return header


def main():
    results = Results()
    header = compare_sources(results)
    with tempfile.TemporaryDirectory(prefix="languages-") as room:
        library = take_library(results)
        layers = take_library(results, LAYERS)
        if library:
            compare_symbols(results, header, library)
            compare_instructions(results, library, level_of_header())
            compare_higher(results, header, f"{room}/higher.a")
        if library and layers:
            from_rust.test(results, room, library, layers)
        if library and layers and shutil.which("cc"):
            from_c.test(results, room, library, layers, sorted(header))
            from_python.test(results, room, library, layers)
        elif library:
            print("not run: the tests in C and Python, since there is no C compiler")
    print(f"{results.passed} passed, {results.failed} failed")
    return 1 if results.failed else 0


if __name__ == "__main__":
    sys.exit(main())
