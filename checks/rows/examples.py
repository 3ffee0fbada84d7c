#!/usr/bin/env python3
"""Runs the examples of doc comments, and sees that each public function has one.

    python3 -m checks.rows.examples            (of all the libraries below)
    python3 -m checks.rows.examples CRATE ..   (of these)

An example is a fenced block with no language in a doc comment of crates/CRATE/src. Its lines are statements, and expressions
with ` // ` and the text that `{:?}` prints of the value; a long value stands on the next line behind `// `. All examples become
one program in a copy of the crates, with those of docs/layers.md: each is the body of a function `fn example(rt: &HostRuntime) -> Option<()>`, in a file that
imports all public names of its crate. `rt try` runs the program unproved. A failure is a value that is not the printed one, an
example that does not compile, stops early or shows no value, and a public function with no example. A function of a module `law`
that returns nothing states a law, and needs none. What no caller of the crate can name is left out.

With chrono_units the check tries itself too: a wrong value, a misspelt name and an example taken away have to be found there.
"""
import os
import re
import shutil
import subprocess
import sys
import tempfile
from concurrent.futures import ThreadPoolExecutor

from checks import TOP
from checks.shared.results import Results, read
from repositories import below, copy_crates, listed_crates

LIBRARIES = (
    "chrono_sets", "chrono_units", "chrono_clock", "chrono_calendar", "chrono_internals", "chrono_stored", "chrono_naive", "chrono_datetime",
    "chrono_instant", "chrono_zoned", "zone_table", "zone_rule", "zone_text", "zone_file", "zone", "chrono_reading", "chrono_stamps", "chrono_cron", "chrono_business",
    "chrono_rules", "chrono_pattern", "chrono_columns", "pattern_columns", "zone_database", "zoned_cron", "timed_cron", "zoned_rules", "calendar_text", "calendar_rules",
    "numbers_c",
)
# Libraries whose functions need no example; what examples they have are run.
OPTIONAL = ("chrono_text",)
# The library in whose sources faults are planted.
TRIED = "chrono_units"
# The page with worked uses of the layers, and its examples.
PAGE = "docs/layers.md"
PAGE_BLOCK = re.compile(r"^```rust\n(.*?)^```$", re.M | re.S)
# At most so many programs are made where examples stop one after the other.
ROUNDS = 12

ITEM = re.compile(r"pub (?:const )?(?:fn|struct|enum|trait|const|type) (?:mut )?(\w+)")
FUNCTION = re.compile(r"(?:const )?fn (\w+)")
PUBLIC_FUNCTION = re.compile(r"pub (?:const )?fn (\w+)")
USE = re.compile(r"^pub use ([\w:]+)::(?:\{([^}]*)\}|(\w+));", re.M | re.S)
IMPL = re.compile(r"impl\b(?:<(?:[^<>]|<[^<>]*>)*>)? ([\w:]+)")
ERROR = re.compile(r"^src/of_(\w+)\.rt:(\d+):\d+: error(.*)$", re.M)


class Example:
    """An example: its library, its place, its lines with their numbers, and what its expressions have to print."""

    def __init__(self, key, path, line, lines):
        self.key, self.path, self.line, self.lines = key, path, line, lines
        self.body, self.values = self.parse()

    def at(self, line=None):
        return f"{self.path}:{line or self.line}"

    def parse(self):
        """The lines of the program with the lines that they come from, and of each value its line and text."""
        body, values, waiting = [], [], []
        for number, line in self.lines:
            code, mark, value = line.rpartition(" // ")
            if line.strip().startswith("//"):
                if not waiting:
                    continue
                code, mark, value = "", "//", line.strip()[2:]
            code = code if mark else line
            if code.rstrip().endswith((";", "{")) or code.rstrip().endswith("}") and (not mark or code.strip().startswith("}")):
                body, waiting = [*body, *waiting, (number, line)], []
            elif mark:
                waiting += [(number, code)] * bool(code)
                body.append((waiting[0][0], f'println!(rt; "@value {len(values)} {{:?}}",'))
                body += [*waiting, (number, ").ok()?;")]
                values.append((waiting[0][0], value.strip()))
                waiting = []
            else:
                waiting.append((number, line))
        return body + waiting, values


class Library:
    """A crate as its callers see it: its examples, and its public functions with their examples or none."""

    def __init__(self, crate, sources):
        self.crate, self.key, self.sources = crate, crate, sources
        self.modules = {self.module(path): text for path, text in sources.items()}
        self.names = self.public(())
        self.kinds = {name for _, name in self.reached}
        self.examples, self.functions = [], []
        for path, text in sources.items():
            self.read(path, text)

    def module(self, path):
        inside = path.partition("/src/")[2].removesuffix(".rt")
        return () if inside in ("lib", "main") else tuple(inside.split("/"))

    def public(self, module):
        """The names that a module makes public; `reached` has what callers can name, by its module."""
        if not module:
            self.reached = set()
        text, names = self.modules.get(module, ""), []
        for name in re.findall(rf"^{ITEM.pattern}", text, re.M):
            self.reached.add((module, name))
            names.append(name)
        for name in re.findall(r"^pub mod (\w+)", text, re.M):
            self.public((*module, name))
            names.append(name)
        for path, several, one in USE.findall(text):
            for name in re.findall(r"[\w ]+", several or one):
                inner, _, new = name.strip().partition(" as ")
                if inner:
                    self.follow(module, path, inner)
                    names.append(new or inner)
        return names

    def follow(self, module, path, name):
        """Marks the item that a `pub use` passes on."""
        parts = path.split("::")
        at = tuple(parts[1:]) if parts[0] == "crate" else (*module, *(it for it in parts if it != "self"))
        text = self.modules.get(at)
        if text is None:
            return
        if name in re.findall(rf"^{ITEM.pattern}", text, re.M):
            self.reached.add((at, name))
        for inner, several, one in re.findall(r"^pub(?:\(\w+\))? use ([\w:]+)::(?:\{([^}]*)\}|(\w+));", text, re.M | re.S):
            if name in [it.strip() for it in (several or one).split(",")]:
                self.follow(at, inner, name)

    def read(self, path, text):
        """Reads the doc comments and the functions of a file."""
        doc, owner = [], None
        for number, line in enumerate(text.splitlines(), 1):
            inner = line.strip()
            if inner.startswith("///"):
                doc.append((number, inner[3:].removeprefix(" ")))
                continue
            if not line.startswith((" ", "}", ")", "#")) and inner:
                owner = self.owner(line)
            if inner.startswith(("#", "//", "ghost")) or doc and not inner:
                continue
            found = self.blocks(path, doc)
            self.examples += found
            function = self.function(path, line, owner)
            if function:
                self.functions.append((path, number, function, bool(found)))
            doc = []

    def owner(self, line):
        """What the members of an item at the left edge belong to: a public trait, or a type with functions of its own."""
        trait, impl = re.match(r"pub trait (\w+)", line), IMPL.match(line)
        if trait:
            return "trait", trait[1]
        return ("type", impl[1]) if impl and " for " not in line else None

    def function(self, path, line, owner):
        """The name of the public function that begins in a line, or None."""
        free, member = PUBLIC_FUNCTION.match(line), line.startswith("    ") and not line.startswith("     ")
        if free and "law" in self.module(path) and "->" not in line:
            return None
        if free:
            return free[1] if (self.module(path), free[1]) in self.reached else None
        if not (member and owner and owner[1] in self.kinds):
            return None
        found = (FUNCTION if owner[0] == "trait" else PUBLIC_FUNCTION).match(line.strip())
        return found and f"{owner[1]}::{found[1]}"

    def blocks(self, path, doc):
        """The examples of a doc comment."""
        found, lines, language = [], None, None
        for number, text in doc:
            fence = text.strip().startswith("```")
            if fence and lines is None:
                lines, language = [], text.strip()[3:]
            elif fence:
                if not language and lines:
                    found.append(Example(self.key, path, lines[0][0], lines))
                lines = None
            elif lines is not None and text.strip():
                lines.append((number, text))
        return found


class Chapter:
    """A chapter of the page of the layers, whose examples use the crates that its first paragraph names, and chrono_datetime."""

    def __init__(self, crates, line, text):
        self.crate, self.key, self.functions, self.examples = crates[0], f"{crates[0]}_page", [], []
        self.names = Library(self.crate, sources_of(self.crate)).names
        known, uses = set(self.names), []
        for other in (*crates[1:], "chrono_datetime"):
            names = [it for it in Library(other, sources_of(other)).names if it not in known]
            known.update(names)
            uses.append((line, f"use {other}::{{{', '.join(names)}}};"))
        for it in PAGE_BLOCK.finditer(text):
            first = line + text[: it.start(1)].count("\n")
            lines = [(first + at, row) for at, row in enumerate(it[1].splitlines()) if row.strip()]
            self.examples.append(Example(self.key, PAGE, lines[0][0], [*uses, *lines]))


def chapters():
    """The chapters of the page of the layers."""
    text, line, crates = read(f"{TOP}/{PAGE}"), 1, listed_crates()
    for part in re.split(r"^(?=## )", text, flags=re.M):
        paragraph = part.partition("\n")[2].strip().partition("\n\n")[0]
        named = [it for it in dict.fromkeys(re.findall(r"`(\w+)`", paragraph)) if it in crates]
        if part.startswith("## ") and named and PAGE_BLOCK.search(part):
            yield Chapter(named, line, part)
        line += part.count("\n")


def sources_of(crate):
    """The texts of a crate's files, by their paths from the top."""
    found = []
    for at, _, names in os.walk(f"{TOP}/crates/{crate}/src"):
        found += [os.path.relpath(f"{at}/{it}", TOP) for it in names if it.endswith(".rt")]
    return {it: read(f"{TOP}/{it}") for it in sorted(found)}


def write_program(room, libraries, left):
    """Writes the program of the examples that are left; of each of its files, the example and the line of each of its lines."""
    folder, lines_of = f"{room}/crates/examples/src", {}
    shutil.rmtree(folder, ignore_errors=True)
    os.makedirs(folder)
    used = [it for it in libraries if any(example.key == it.key for example in left)]
    calls = []
    for library in used:
        lines = [(None, None, text) for text in ("//! Examples.", f"use {library.crate}::{{{', '.join(library.names)}}};")]
        for number, example in enumerate(left):
            if example.key != library.key:
                continue
            calls.append(f"    let _ = of_{library.key}::example_{number}(&rt);\n")
            lines.append((None, None, f"pub fn example_{number}(rt: &HostRuntime) -> Option<()> {{"))
            lines.append((None, None, f'println!(rt; "@begin {number}").ok()?;'))
            lines += [(number, line, text) for line, text in example.body]
            lines.append((number, example.lines[-1][0], f'println!(rt; "@end {number}").ok()?;'))
            lines.append((number, example.lines[-1][0], "Some(())\n}"))
        text = "".join(f"{it}\n" for _, _, it in lines)
        lines_of[library.key] = [(number, line) for number, line, it in lines for _ in it.splitlines()]
        with open(f"{folder}/of_{library.key}.rt", "w", encoding="utf-8") as it:
            it.write(text)
    with open(f"{folder}/main.rt", "w", encoding="utf-8") as it:
        it.write("//! Examples.\n#![tactic(auto)]\n" + "".join(f"mod of_{it.key};\n" for it in used))
        it.write(f"use std::io;\nfn main(rt: HostRuntime) -> io::Result<()> {{\n{''.join(calls)}    Ok(())\n}}\n")
    return lines_of


def printed_by(program):
    """What a program printed: of each example that began, its values by their numbers, and whether it ended."""
    found, at = {}, None
    for line in program.splitlines():
        words = re.match(r"@(begin|value|end) (\d+) ?(.*)", line)
        if words and words[1] == "begin":
            at = int(words[2])
            found[at] = [{}, False]
        elif words and words[1] == "value":
            found[at][0].setdefault(int(words[2]), []).append(words[3])
        elif words:
            found[at][1] = True
    return found


def crates_for(libraries):
    """The crates that the examples of some libraries use, lowest first."""
    crates = listed_crates()
    lines = (text for library in libraries for example in library.examples for _, text in example.lines)
    named = {it for text in lines for it in re.findall(r"\b((?:chrono|zone)\w*)::", text)} & set(crates)
    used = {it for name in named | {library.crate for library in libraries} for it in below(name, crates)}
    return [it for it in crates if it in used]


def make_repository(room, used):
    """Writes a repository of some crates, in which the program of the examples uses all of them."""
    crates = listed_crates()
    copy_crates(room, used)
    with open(f"{room}/crates.txt", "w", encoding="utf-8") as it:
        it.writelines(f"{name}: {' '.join(crates[name])}\n" for name in used)
        it.write(f"examples: {' '.join(used)}\n")


class Unread(Exception):
    """What a program said that names no example."""


def uncompiled(said, lines_of, left):
    """The examples that do not compile, with what is told of each."""
    for key, line, told in ERROR.findall(said):
        number, at = lines_of[key][int(line) - 1]
        if number is None:
            raise Unread(f"src/of_{key}.rt:{line}: {told}")
        yield number, f"{left[number].at(at)}: does not compile: {told.lstrip(': ')}"


def stopping(said, left):
    """The example that ended the program, with what is told of it."""
    found = re.search(r"\bexample_(\d+) < ", said) or re.search(r"^\| @begin (\d+)\n(?!\| @(?:begin|end))", said, re.M)
    if not found:
        raise Unread(f"the program of the examples fails:\n{said[-3000:]}")
    told = re.search(r"^\w+: fault .*?: (.*?)(?:, called from|$)", said, re.M)
    return int(found[1]), f"{left[int(found[1])].at()}: ends the program: {told[1] if told else said[-300:]}"


def printed_values(room, libraries, left, wrong):
    """What each example that is left printed; those that do not compile or end the program are taken out and told in `wrong`."""
    for _ in range(ROUNDS):
        lines_of = write_program(room, libraries, left)
        words = dict(cwd=f"{room}/crates/examples", stdout=subprocess.PIPE, stderr=subprocess.STDOUT, text=True, errors="replace")
        said = subprocess.run(["rt", "try", "--seconds", "600"], **words).stdout
        bad = dict(uncompiled(said, lines_of, left))
        printed = printed_by(said)
        if not bad and re.search(r"^run=ended status=0 ", said, re.M) and len(printed) == len(left):
            return printed
        if not bad:
            bad = dict([stopping(said, left)])
        wrong += bad.values()
        left[:] = [it for number, it in enumerate(left) if number not in bad]
    raise Unread(f"examples fail in each of {ROUNDS} programs")


def compared(example, values, ended, wrong):
    """How many values of an example are right; what is wrong is told in `wrong`."""
    right = 0
    for place, (line, value) in enumerate(example.values):
        told = values.get(place, [])
        if told != [value] and (told or ended):
            wrong.append(f"{example.at(line)}: prints {' and then '.join(told) or 'nothing'}, not {value}")
        right += told == [value]
    if not ended:
        wrong.append(f"{example.at()}: stops early, after {len(values)} of {len(example.values)} values")
    if not example.values:
        wrong.append(f"{example.at()}: shows no value")
    return right


def run_examples(libraries):
    """Runs all examples; what is wrong with them, one after the other, and how many values are right."""
    left, wrong = [it for library in libraries for it in library.examples], []
    with tempfile.TemporaryDirectory(prefix="examples-") as room:
        make_repository(room, crates_for(libraries))
        try:
            printed = printed_values(room, libraries, left, wrong)
        except Unread as it:
            return [*wrong, str(it)], 0
    return wrong, sum(compared(example, *printed[number], wrong) for number, example in enumerate(left))


def without_example(libraries):
    """The public functions with no example, and how many have one."""
    functions = [it for library in libraries if library.crate not in OPTIONAL for it in library.functions]
    return [f"{path}:{line}: {name} has no example" for path, line, name, has in functions if not has], sum(it[3] for it in functions)


def planted():
    """The sources of a library with three faults, and of each the place that has to be named and what is said of it."""
    sources = sources_of(TRIED)
    right = Library(TRIED, sources)
    wanted, changes = [], []
    shown = [it for it in right.examples if it.values]
    if len(shown) < 3:
        return None, []
    value, misspelt, taken = shown[0], shown[1], shown[2]
    line, text = value.values[0]
    changes.append((value, [(at, it.replace(f"// {text}", f"// {text}0")) for at, it in value.lines]))
    wanted.append((value.at(line), "prints"))
    changes.append((misspelt, [(at, it.replace("// ", ".no_such_name() // ", 1)) for at, it in misspelt.lines]))
    wanted.append((misspelt.path, "does not compile"))
    changes.append((taken, []))
    wanted.append((taken.path, "has no example"))
    for example, lines in changes:
        rows = sources[example.path].split("\n")
        for at, _ in example.lines:
            rows[at - 1] = "    /// "
        for at, it in lines:
            rows[at - 1] = f"    /// {it}"
        sources[example.path] = "\n".join(rows)
    return Library(TRIED, sources), wanted


def tell_planted(results, found, wanted):
    """Counts the planted faults that were found."""
    own = without_example([Library(TRIED, sources_of(TRIED))])[0]
    results.count(len(wanted) == 3, f"{TRIED} has too few examples to plant faults in")
    for place, told in wanted:
        found_it = any(it.startswith(place) and told in it and it not in own for it in found)
        results.count(found_it, f"a planted fault is not found: {place}: {told}: {found}")


def main():
    names = sys.argv[1:] or [*OPTIONAL, *LIBRARIES]
    if not shutil.which("rt"):
        print("not run: there is no rt, the Rattle kit's command\n0 passed, 1 failed")
        return 1
    results = Results()
    libraries = [Library(it, sources_of(it)) for it in names] + ([] if sys.argv[1:] else list(chapters()))
    faulty, wanted = planted() if TRIED in names else (None, [])
    with ThreadPoolExecutor(2) as pool:
        real = pool.submit(run_examples, libraries)
        tried = pool.submit(run_examples, [faulty]) if faulty else None
        wrong, right = real.result()
        found = tried.result()[0] + without_example([faulty])[0] if faulty else []
    missing, has = without_example(libraries)
    results.passed += right + has
    for it in wrong + missing:
        results.count(False, it)
    print(f"{sum(len(it.examples) for it in libraries)} examples with {right} right values")
    for it in libraries:
        results.count(it.examples, f"{it.crate} has no example")
    if TRIED in names:
        tell_planted(results, found, wanted)
    print(f"{results.passed} passed, {results.failed} failed")
    return 1 if results.failed else 0


if __name__ == "__main__":
    sys.exit(main())
