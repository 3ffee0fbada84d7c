#!/usr/bin/env python3
"""Whether each thing stands once: no definition of `specs/` and no public type has its name in two crates, and no two crates have one lemma.

    python3 -m checks.tree.names

A definition is what a file of `specs/` exports. A type is a public struct, enum or trait of a library. Two lemmas are one if their
statements differ in the names of variables alone. The crates of rows and of callers are left out, since nothing lists them. Lemmas of
TWICE may stand in two crates, and have to. The check then plants a second definition, a second type and a second lemma, and has to find
all three.
"""
import collections
import os
import re
import sys

from checks import TOP

# The crates that no library lists.
APART = re.compile(r"rows_|chrono_uses|chrono_internals")
DEFINITION = re.compile(r"^(?:(?:abbrev|unfoldable) )?pub (?:(?:record|data|ruleset) )?(?!use\b)([^\s:(]+)", re.M)
TYPE = re.compile(r"^pub (?:struct|enum|trait) (\w+)", re.M)
# The root of a crate's definitions, which only names the other files.
NODE = "Lib.antt"
# A lemma of a crate's own begins at the margin and binds a variable. Those that the prover asks for stand in folders, and are left out.
LEMMA = re.compile(r"^(?:pub )?([^\s:(){}]+) : ([({].* : .*(?:\n    .*)*)", re.M)
BINDER = re.compile(r"[({]([^(){}:]+) : |λ \(?([^\s().:]+)")
WORD = re.compile(r"[\w'_◌-]+|\S")

TWICE = set()


def read_files():
    """The files of source and of definitions, by their paths below crates/."""
    found = {}
    for name in sorted(os.listdir(f"{TOP}/crates")):
        for part, end in (("src", ".rt"), ("specs", ".antt")):
            for folder, _, names in os.walk(f"{TOP}/crates/{name}/{part}"):
                for it in names:
                    if it.endswith(end) and it != NODE and not APART.match(name):
                        path = f"{folder}/{it}"
                        with open(path, encoding="utf-8") as text:
                            found[os.path.relpath(path, f"{TOP}/crates")] = text.read()
    return found


def doubled(files):
    """The names that two crates export, of definitions and of types, with the crates."""
    crates = collections.defaultdict(set)
    for path, text in files.items():
        kind, pattern = ("definition", DEFINITION) if path.endswith(".antt") else ("type", TYPE)
        for name in pattern.findall(text):
            crates[kind, name].add(path.split("/")[0])
    return {key: sorted(those) for key, those in sorted(crates.items()) if len(those) > 1}


def read_lemmas():
    """The files of a crate's own lemmas, by their paths below crates/."""
    found = {}
    for name in sorted(os.listdir(f"{TOP}/crates")):
        folder = f"{TOP}/crates/{name}/proofs"
        for it in sorted(os.listdir(folder)) if os.path.isdir(folder) and not APART.match(name) else ():
            if it.endswith(".antt") and it != NODE:
                with open(f"{folder}/{it}", encoding="utf-8") as text:
                    found[f"{name}/proofs/{it}"] = text.read()
    return found


def statement_of(text):
    """The words of a statement, in which a variable is its number."""
    bound = {name for names in BINDER.findall(text) for name in " ".join(names).split()}
    numbers = {}
    return " ".join(f"${numbers.setdefault(it, len(numbers))}" if it in bound else it for it in WORD.findall(text))


def same_lemmas(files):
    """The lemmas of two crates that say the same, by their statement."""
    places = collections.defaultdict(list)
    for path, text in files.items():
        for name, statement in LEMMA.findall(text):
            # (behind a statement come its equations, at the margin)
            places[statement_of(statement)].append((path.split("/")[0], f"{name} of {path}"))
    return {key: [name for _, name in those] for key, those in places.items() if len({crate for crate, _ in those}) > 1}


def main():
    files, lemmas = read_files(), read_lemmas()
    faults = doubled(files)
    same = same_lemmas(lemmas)
    known = {key: name for key, those in same.items() for name in [those[-1].partition(" ")[0]] if name in TWICE and len(those) == 2}
    for name in sorted(TWICE - set(known.values())):
        print(f"the lemma {name} does not stand twice")
    for those in (it for key, it in same.items() if key not in known):
        print(f"one lemma stands as {' and as '.join(those)}")
    for (kind, name), those in faults.items():
        print(f"the {kind} {name} stands in {' and '.join(those)}")
    planted = {**files, "zone/specs/Planted.antt": "pub date_of_ymd : ℕ\n", "zone/src/planted.rt": "pub struct NaiveDate {\n"}
    missed = {("definition", "date_of_ymd"), ("type", "NaiveDate")} - set(doubled(planted))
    for kind, name in sorted(missed):
        print(f"the planted second {kind} {name} was not found")
    again = "pub two_times : (n : ℕ) (other : ℕ) → (2 * n) ≡ (n + n)\n"
    two = {"zone/proofs/Planted.antt": again, "chrono_sets/proofs/Planted.antt": again.replace(" n", " k").replace("(n", "(k")}
    if len(same_lemmas({**lemmas, **two})) != len(same) + 1:
        missed.add(("lemma", "two_times"))
        print("the planted second lemma was not found")
    failed = len(faults) + len(same) - len(known) + len(TWICE) - len(known) + len(missed)
    names = sum(len((DEFINITION if it.endswith(".antt") else TYPE).findall(text)) for it, text in files.items())
    statements = sum(len(LEMMA.findall(text)) for text in lemmas.values())
    print(f"{names + statements + 3 - failed} passed, {failed} failed")
    return 1 if failed else 0


if __name__ == "__main__":
    sys.exit(main())
