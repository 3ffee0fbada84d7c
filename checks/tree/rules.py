#!/usr/bin/env python3
"""The rules that tie the counter of steps to the code, read off the source, since no proof sees a table that is read without a tick.

    python3 -m checks.tree.rules

  tables     no array stands outside the modules `table` and `tables` but in what writes a text and in SLICES; one of theirs is private, and
             the only function beside it reads it once, behind a tick
  counted    a function that takes `Steps` has no loop, no range, no iterator and no match of thirteen cases or more; nor has what it
             calls without handing its counter on, and nothing there begins a counter
  places     a counter begins, a table is read and a counter is swapped only in the functions that PLACES names, as often as there
  thrown     what a call answers is not thrown away, by the name `_` or one that nothing asks for, by `drop`, as a statement or a condition

Each rule is then tried on the wrong bodies of PLANTED, in copies of the source, and has to find each. Last, the compiler has to
refuse the bodies of LET_GO, which leave a counter without an end. Tests may count as they like, and texts have tables of their own.
"""
import collections
import os
import re
import shutil
import subprocess
import sys
import tempfile

from checks import TOP

# The crates with functions that take `Steps`, and what these call.
COUNTED = ("chrono_units", "chrono_clock", "chrono_calendar", "chrono_internals", "chrono_stored", "chrono_naive")
# The crate of them that none of the others calls, and one below them whose loops they may not call.
APART, BELOW = "chrono_internals", "chrono_text"
# Modules that read slices of their callers, which are no tables.
SLICES = ("chrono_naive/src/rising_dates.rt", "chrono_units/src/names.rt")
# What stands in the bodies of these functions alone, each named as often as it stands there.
PLACES = {
    "Steps::new(": ["chrono_calendar/src/forms.rt from_day", "chrono_calendar/src/forms.rt days_later",
                    "chrono_calendar/src/year_flags.rt from_year", "chrono_internals/src/mdf.rt from_ol",
                    "chrono_internals/src/mdf.rt ordinal_and_flags", "chrono_naive/src/naive_date.rt from_num_days_from_ce_opt",
                    "chrono_naive/src/naive_date/moves.rt moved_by_days", "chrono_naive/src/naive_date/moves.rt checked_add_days"],
    "Tally::new(": ["chrono_calendar/src/steps.rt new"],
    "Tally::after(": ["chrono_calendar/src/steps.rt tick"],
    "year_to_flags(": ["chrono_calendar/src/year_flags.rt from_year_counted"],
    "from_year_counted(": ["chrono_calendar/src/year_flags.rt from_year", "chrono_stored/src/packed.rt from_day"],
    "YearFlags::from_year(": ["chrono_stored/src/packed.rt from_yo", "chrono_stored/src/packed.rt from_ymd",
                              "chrono_reading/src/ordinal_date.rt year_length", "chrono_reading/src/week_date.rt weeks_of_iso_year"],
    "ol_to_mdl(": ["chrono_internals/src/mdf.rt from_ol"],
    "mdl_to_ol(": ["chrono_internals/src/mdf.rt ordinal_and_flags"],
    "year_delta(": ["chrono_internals/src/cycle.rt cycle_to_yo"] * 2 + ["chrono_internals/src/cycle.rt yo_to_cycle"],
    "mem::": [],
}
# The cases of a match that is a step.
MANY = 13

IGNORED = re.compile(r"""//[^\n]*|b?"(?:\\[\s\S]|[^"\\])*"|b?'(?:\\.|[^'\\])'|\#!?\[[^\]]*\]""")
CLAUSE = re.compile(r"\b(?:requires|ensures)(?:\s+\w+)?\s*$")
# Where a constant begins, and of which types it has several values: an array may stand in its value too.
CONSTANT = re.compile(r"(?:^|[;{}])\s*(pub\S* )?(?:const|static) (\w+): ")
SEVERAL = re.compile(r"\((?!\))|&[^=]*\bstr\b|[^;]*\[")
# A call of a name, but of none of a machine's number.
CALL = re.compile(r"(?<!\d::)\b([a-z_]\w*)(?:::<[^()]*>)?\(")

# What a call does that stands as a statement: it changes what it is called on or given.
EFFECT = re.compile(r"\b(?:tick|end|push\w*|put_\w*|hash|insert|remove|swap)\([^()]*(?:\([^()]*\)[^()]*)*\)$")

# An answer that nothing asks for: by the name `_`, by `drop`, as a condition of nothing, or as a part of a pair.
THROWN = re.compile(r"(?<!\w)_\w* = [^;]*\(|\bdrop\(|(?:\)|=>|\belse)\s*\{\s*\}|\blet \([^()=]*(?<!\w)_[^()=]*\) = \(")

Function = collections.namedtuple("Function", "path name head body")


# ---- the source


def read_sources():
    """The source files, by their paths below crates/."""
    sources = {}
    for at, _, names in os.walk(f"{TOP}/crates"):
        crate, _, inside = os.path.relpath(at, f"{TOP}/crates").partition("/")
        if inside == "src" or inside.startswith("src/"):
            for name in (it for it in names if it.endswith(".rt")):
                with open(f"{at}/{name}", encoding="utf-8") as it:
                    sources[f"{crate}/{inside}/{name}"] = it.read()
    return sources


def closing(text, at):
    """The place behind the bracket that closes the one at a place."""
    depth = 0
    for place in range(at, len(text)):
        depth += (text[place] in "([{") - (text[place] in ")]}")
        if depth == 0:
            return place + 1
    raise ValueError(f"no bracket closes {text[at : at + 40]!r}")


def opening(text, at, brackets):
    """The place of the first of these brackets from a place on that stands in no other."""
    while text[at] not in brackets:
        at = closing(text, at) if text[at] in "([{" else at + 1
    return at


def functions(path, text):
    """The functions of a file, without comments, texts and attributes; the body is empty where there is none."""
    for found in re.finditer(r"\bfn (\w+)", text):
        at = opening(text, found.end(), "{;")
        while text[at] == "{" and CLAUSE.search(text, found.end(), at):
            at = opening(text, closing(text, at), "{;")
        body = text[at : closing(text, at)] if text[at] == "{" else ""
        yield Function(path, found[1], text[found.end() : at], body)


def arrays_of(text):
    """The constants of several values, an array, a tuple or a text, of a file: whether each is public, and its name."""
    for found in CONSTANT.finditer(text):
        if SEVERAL.match(text[found.end() : opening(text, found.end(), ";")]):
            yield bool(found[1]), found[2]


def crate_of(path):
    return path.split("/")[0]


def is_of_tables(path):
    return re.search(r"/tables?(/\w+)?\.rt$", path)


class Code:
    """The source files without comments, texts and attributes, and their functions."""

    def __init__(self, sources):
        self.files = {path: IGNORED.sub("", text) for path, text in sources.items()}
        self.functions = [it for path, text in self.files.items() for it in functions(path, text)]
        self.counted = [it for it in self.functions if crate_of(it.path) in COUNTED]


# ---- the rules: each gives what stands against it


def tables(code):
    for path in (it for it in code.files if crate_of(it) in COUNTED):
        arrays = list(arrays_of(code.files[path]))
        beside = [it for it in code.counted if it.path == path]
        if not is_of_tables(path):
            reads = [] if path in SLICES else beside
            yield from (f"{path}: the array {name}" for _, name in arrays)
            yield from (f"{path}: an array in {it.name}" for it in reads if "[" in it.body and "&mut Text<" not in it.head)
            continue
        if len(arrays) > 1 or len(arrays) != len(beside):
            yield f"{path}: not one table and one function"
        for (is_public, name), reader in zip(arrays, beside):
            if is_public or len(re.findall(rf"\b{name}\b", code.files[path])) != 2:
                yield f"{path}: {name} is public, or not read once"
            if not re.match(r"\{\s*steps\.tick\(\);", reader.body):
                yield f"{path}: {reader.name} does not begin with a tick"


def cases(body):
    """The greatest number of cases of a match in a body."""
    most = 0
    for found in re.finditer(r"\bmatch(?:es!)?(?=\W)", body):
        at = opening(body, found.end(), "(" if found[0].endswith("!") else "{")
        arms = body[at + 1 : closing(body, at) - 1]
        while re.search(r"[(\[{][^()\[\]{}]*[)\]}]", arms):
            arms = re.sub(r"[(\[{][^()\[\]{}]*[)\]}]", "", arms)
        most = max(most, arms.count("=>") + arms.count("|"))
    return most


def turns(body):
    return bool(re.search(r"\b(for|while|loop)\b", body)) or cases(body) >= MANY


def iterates(body):
    return bool(re.search(r"\.\.|\.\s*(iter|into_iter|for_each|fold|map)\s*\(", body))


def calls(body):
    """The names that are called in a body without its counter."""
    found = ((it[1], body[it.end() : closing(body, it.end() - 1)]) for it in CALL.finditer(body))
    return {name for name, arguments in found if not re.search(r"\bsteps\b", arguments)}


def uncounted(those):
    """The names of functions, of those, that begin a counter, turn through a loop or choose among many, or call one that does."""
    names, called = set(), {it: calls(it.body) for it in those}
    more = {it.name for it in those if "Steps::new(" in spelled(it.body) or turns(it.body)}
    while not more <= names:
        names |= more
        more = {it.name for it in those if called[it] & names}
    return names


def counted(code):
    every = uncounted(code.counted)
    but_apart = uncounted([it for it in code.functions if crate_of(it.path) in (BELOW, *COUNTED) and crate_of(it.path) != APART])
    for it in (it for it in code.counted if re.search(r"&mut Steps\b", it.head)):
        names = every if crate_of(it.path) == APART else but_apart
        if turns(it.body) or iterates(it.body):
            yield f"{it.path}: a loop, a range or a match of {MANY} cases in {it.name}"
        yield from (f"{it.path}: {it.name} calls {name}" for name in sorted(calls(it.body) & names))


def spelled(text):
    """The text with each path written in one word."""
    return re.sub(r"<(\w+)>(?=::)", r"\1", re.sub(r"\s*::\s*", "::", text))


def places(code):
    for text, listed in PLACES.items():
        found = collections.Counter()
        for it in code.functions:
            found[f"{it.path} {it.name}"] += len(re.findall(rf"\b{re.escape(text)}", spelled(it.body)))
        listed = collections.Counter(listed)
        yield from (f"{it}: `{text}` {found[it]} times, and not {listed[it]}" for it in found | listed if found[it] != listed[it])
    yield from (f"{path}: `Steps` by another name" for path, text in code.files.items() if re.search(r"\bSteps\s+as\b", text))


def thrown(code):
    for it in code.counted:
        if THROWN.search(it.body) or any(not EFFECT.search(text) for text in statements(it.body)) or unused(it.body):
            yield f"{it.path}: an answer thrown away in {it.name}"


def unused(body):
    """The names that a body gives to values and never asks for."""
    found = re.findall(r"\blet (?:mut )?(\([^()=]*\)|[a-z]\w*)", body)
    return [it for names in found for it in re.findall(r"\b[a-z]\w*", names) if len(re.findall(rf"\b{it}\b", body)) == 1]


def statements(body):
    """The calls that stand as statements."""
    return re.findall(r"(?<=[;{}])\s*([A-Za-z_][\w:.<>]*\((?:[^;{}=]|==)*\))\s*(?=;)", body)


RULES = (tables, counted, places, thrown)


# ---- wrong bodies

FORMS, PACKED, TABLE = "chrono_calendar/src/forms.rt", "chrono_stored/src/packed.rt", "chrono_calendar/src/year_flags/table.rt"
READ = "    YEAR_TO_FLAGS[year as usize]\n"
BRANCHES = " ".join(f"{it} => {it}," for it in range(MANY - 1))
# The rule that has to find each, the file, and what takes the place of what stands there once.
PLANTED = [
    (tables, PACKED, "impl PackedForm {", "const LENGTHS: [u16; 2] = [365, 366];\n\nimpl PackedForm {"),
    (tables, PACKED, "        year_in(self.packed)\n", "        year_in(self.packed) + [0, 0][self.packed as usize % 2]\n"),
    (tables, TABLE, "const YEAR_TO_FLAGS", "pub(crate) const YEAR_TO_FLAGS"),
    (tables, TABLE, READ, "    YEAR_TO_FLAGS[year as usize].max(YEAR_TO_FLAGS[0])\n"),
    (tables, TABLE, "    steps.tick();\n" + READ, "    let flags = YEAR_TO_FLAGS[year as usize];\n    steps.tick();\n    flags\n"),
    (tables, TABLE, "/// Returns the flags", "fn read() -> u8 {\n    YEAR_TO_FLAGS[0]\n}\n\n/// Returns the flags"),
    (counted, FORMS, "    steps.tick();\n", "    steps.tick();\n    F::from_yo(2024, 1)?;\n"),
    (counted, FORMS, "    steps.tick();\n", "    steps.tick();\n    for _ in 0..9 {}\n"),
    (counted, "chrono_stored/src/conversion.rt", "(year_after(years), place + 1)",
     f"(match years {{ {BRANCHES} _ => year_after(years) }}, place + 1)"),
    (places, FORMS, "    steps.tick();\n", "    steps.tick();\n    let mut own = Steps::new();\n    own.tick();\n    own.end();\n"),
    (places, FORMS, "    steps.tick();\n", "    let mut kept = Steps::new();\n    std::mem::swap(steps, &mut kept);\n    kept.end();\n"),
    (places, PACKED, "from_year_counted(year, steps)", "from_year_counted(year, steps).max(year_to_flags(0, steps))"),
    (places, PACKED, "        PackedForm::of_ordinal(", "        YearFlags::from_year(0);\n        PackedForm::of_ordinal("),
    (thrown, PACKED, "        PackedForm::of_ordinal(", "        let _ = Self::from_ymd(year, 1, 1);\n        PackedForm::of_ordinal("),
    (thrown, FORMS, "    steps.tick();\n", "    steps.tick();\n    let _first = F::from_yo(2024, 1);\n"),
    (thrown, PACKED, "        PackedForm::of_ordinal(", "        Self::from_ymd(year, 1, 1).is_some();\n        PackedForm::of_ordinal("),
    (thrown, PACKED, "        PackedForm::of_ordinal(", "        drop(Self::from_ymd(year, 1, 1));\n        PackedForm::of_ordinal("),
    (counted, FORMS, "    steps.tick();\n", "    steps.tick();\n    (0..9).for_each(|_| ());\n"),
    (places, FORMS, "    steps.tick();\n", "    steps.tick();\n    let own = Steps ::new();\n    own.end();\n"),
    (places, FORMS, "    steps.tick();\n", "    steps.tick();\n    let own = <Steps>::new();\n    own.end();\n"),
    (places, FORMS, "    steps.tick();\n", "    steps.tick();\n    use crate::steps::Steps as Other;\n"),
    (counted, "chrono_naive/src/naive_date.rt", "Form::from_day(days, steps)?", "Form::from_day(read_decimal(b\"1\").map_or(days, |_| days), steps)?"),
    (tables, PACKED, "impl PackedForm {", "const LENGTHS: (u16, u16) = (365, 366);\n\nimpl PackedForm {"),
    (tables, PACKED, "impl PackedForm {", "const LENGTHS: &str = \"mn\";\n\nimpl PackedForm {"),
    (tables, PACKED, "impl PackedForm {", "const LENGTHS: Lengths = Lengths([365, 366]);\n\nimpl PackedForm {"),
    (tables, PACKED, "impl PackedForm {", "const DAYS: u16 = 365; const LENGTHS: [u16; 1] = [DAYS];\n\nimpl PackedForm {"),
    (thrown, PACKED, "        PackedForm::of_ordinal(", "        _ = Self::from_ymd(year, 1, 1);\n        PackedForm::of_ordinal("),
    (thrown, PACKED, "        PackedForm::of_ordinal(", "        let first = Self::from_ymd(year, 1, 1);\n        PackedForm::of_ordinal("),
    (thrown, PACKED, "        PackedForm::of_ordinal(", "        if Self::from_ymd(year, 1, 1).is_some() {}\n        PackedForm::of_ordinal("),
    (thrown, PACKED, "        PackedForm::of_ordinal(", "        let (_, year) = (Self::from_ymd(year, 1, 1), year);\n        PackedForm::of_ordinal("),
]


def is_found(sources, faults, rule, path, old, new):
    """Whether the rule finds a wrong body that is planted there, beside the faults that stand already."""
    if sources[path].count(old) != 1:
        print(f"{path}: {old!r} stands there {sources[path].count(old)} times, and not once")
        return False
    planted = Code({**sources, path: sources[path].replace(old, new)})
    if set(rule(planted)) <= set(faults):
        print(f"{path}: the rule `{rule.__name__}` does not find {new!r}")
        return False
    return True


# Bodies of a function that leave a counter without an end, and then two that end theirs.
LET_GO = ["let mut own = Steps::new(); own.tick(); steps.tick();", "*steps = Steps::new();",
          "let _ = std::mem::replace(steps, Steps::new());", "let own = Steps::new(); if true { return; } own.end();"]
ENDED = ["let mut own = Steps::new(); own.tick(); own.end(); steps.tick();", "std::mem::replace(steps, Steps::new()).end();"]


def refused_bodies():
    """The bodies of LET_GO and ENDED that the compiler refuses, since a counter is let go."""
    with tempfile.TemporaryDirectory(prefix="rules-") as room:
        source = f"{room}/crates/let_go/src"
        os.makedirs(source)
        for name in ("steps", "tally"):
            shutil.copy(f"{TOP}/crates/chrono_calendar/src/{name}.rt", source)
        with open(f"{room}/crates.txt", "w", encoding="utf-8") as it:
            it.write("let_go:\n")
        with open(f"{source}/lib.rt", "w", encoding="utf-8") as it:
            it.writelines(f"pub fn body_{n}(steps: &mut Steps) {{ {body} }}\n" for n, body in enumerate(LET_GO + ENDED))
            it.write("mod steps;\nmod tally;\npub use crate::steps::Steps;\n")
        words = ["rt", "check", "--jobs", "1"]
        ran = subprocess.run(words, cwd=os.path.dirname(source), stdout=subprocess.PIPE, stderr=subprocess.STDOUT, text=True)
    lines = re.findall(r"^src/lib\.rt:(\d+):\d+: error\[linear-value-let-go\]", ran.stdout, re.M)
    return [it for n, it in enumerate(LET_GO + ENDED, 1) if str(n) in lines]


def main():
    sources = read_sources()
    code = Code(sources)
    faults = [it for rule in RULES for it in rule(code)]
    for it in faults:
        print(it)
    found = [is_found(sources, faults, *it) for it in PLANTED]
    print(f"{len(RULES)} rules over {len(code.functions)} functions; {sum(found)} of {len(found)} wrong bodies found")
    passed, failed = len(RULES) + sum(found), len(faults) + found.count(False)
    if shutil.which("rt"):
        refused = refused_bodies()
        print(f"{len(refused)} bodies refused that let a counter go")
        passed, failed = (passed + 1, failed) if refused == LET_GO else (passed, failed + 1)
    else:
        print("not run: bodies that let a counter go, since there is no rt, the Rattle kit's command")
    print(f"{passed} passed, {failed} failed")
    return 1 if failed else 0


if __name__ == "__main__":
    sys.exit(main())
