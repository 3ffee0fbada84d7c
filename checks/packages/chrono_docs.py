#!/usr/bin/env python3
"""Runs chrono's own doc examples on the module `chrono` of the Rust crate, with only the path swapped.

    python3 -m checks.packages.chrono_docs [FOLDER]

The examples are taken from Debian's chrono 0.4.23, and none is kept. All of them are one test program of a project that
uses the package in FOLDER, or else languages/rust. Examples that do not pass are listed below with the reason. A listed
example that passes is a failure too.
"""
import os
import re
import subprocess
import sys
import tempfile

from checks import TOP
from checks.shared.results import Results
from debian import REGISTRY, cargo_environment

VERSION = "0.4.23"

# The layer whose types have no time zone, and the files around it.
NAIVE = ["naive/date.rs", "naive/isoweek.rs", "naive/datetime/mod.rs", "naive/time/mod.rs"]
AROUND = ["lib.rs", "month.rs", "traits.rs", "round.rs", "datetime/mod.rs", "format/mod.rs", "format/parse.rs", "offset/mod.rs",
          "offset/fixed.rs", "offset/utc.rs"]

LEAP = "it has a leap second at another second than 59, which from_hms_nano_opt and from_timestamp_opt refuse as in chrono 0.4.45"
DATE = "it has Date<Tz>, which chrono deprecates"
LOCAL = "it has Local, the zone of the machine"

# Examples that do not pass, by file and line, with the reason.
REASONS = {
    ("naive/datetime/mod.rs", 181): LEAP,
    ("naive/datetime/mod.rs", 1317): LEAP,
    ("naive/time/mod.rs", 177): LEAP,
    ("naive/time/mod.rs", 934): LEAP,
    ("lib.rs", 113): LOCAL,
    ("lib.rs", 125): DATE,
    ("lib.rs", 336): DATE,
    ("month.rs", 12): "it imports a trait of the crate num_traits, whose calls are inherent here",
    ("datetime/mod.rs", 1027): LOCAL,
    ("offset/fixed.rs", 48): DATE,
    ("offset/fixed.rs", 79): DATE,
}

PROJECT = """\
[package]
name = "examples"
version = "0.0.0"
edition = "2021"

[lib]
path = "lib.rs"
doctest = false

[profile.dev]
debug = false

[dependencies]
proved-calendar = {{ path = "{package}", features = ["std"] }}
"""


def blocks(path):
    """The examples of a file, each with its line and its lines of Rust. One that is not closed ends with its comment."""
    found, fence = None, None
    with open(path, encoding="utf-8") as it:
        for number, line in enumerate(it, 1):
            comment = re.match(r"\s*//[/!] ?(.*)", line)
            if not comment:
                if found is not None:
                    yield found
                found = None
            elif comment[1].strip().startswith("```"):
                if found is None:
                    fence, found = comment[1].strip()[3:].strip(), (number, [])
                else:
                    if fence in ("", "rust"):
                        yield found
                    found = None
            elif found is not None:
                found[1].append(comment[1])


def as_rust(lines):
    """The lines as rustdoc takes them: `# ` marks what is not shown."""
    shown = [re.sub(r"^(\s*)#(?: |$)", r"\1", it) for it in lines]
    return [re.sub(r"\bchrono::", "proved_calendar::chrono::", it) for it in shown]


def as_test(name, lines):
    """A module with the example as a test."""
    returns = any(re.match(r"\s*Ok::<", it) for it in lines)
    head = "fn body() -> Result<(), impl core::fmt::Debug> {" if returns else "fn body() {"
    call = "assert!(body().is_ok());" if returns else "body();"
    return ["#[test]", f"fn {name}() {{", head, *lines, "}", call, "}"]


def examples(files):
    """The examples of files of chrono, by name."""
    found = {}
    for file in files:
        for line, text in blocks(f"{REGISTRY}/chrono-{VERSION}/src/{file}"):
            found[f"{re.sub('[/.]', '_', file)}_{line}"] = (file, line), as_rust(text)
    return found


def cargo(project, environment, *words):
    """Runs the tests; the exit status, and what it prints."""
    words = ["cargo", "test", "--offline", *words]
    ran = subprocess.run(words, cwd=project, env=environment, stdout=subprocess.PIPE, stderr=subprocess.STDOUT, text=True)
    return ran.returncode, ran.stdout


def write_program(project, chosen):
    """Writes the test program; the example of each of its lines."""
    program, owners = ["#![allow(warnings)]"], [None]
    for name, (_, lines) in chosen.items():
        test = as_test(name, lines)
        program += test
        owners += [name] * len(test)
    with open(f"{project}/lib.rs", "w", encoding="utf-8") as it:
        it.write("\n".join(program) + "\n")
    return owners


def failing(project, environment, chosen):
    """The examples that do not compile or whose run fails, with what the compiler says of them."""
    chosen, refused = dict(chosen), {}
    while True:
        owners = write_program(project, chosen)
        code, said = cargo(project, environment, "--no-run", "--message-format", "short")
        if code == 0:
            break
        wrong = {owners[int(line) - 1]: message for line, message in re.findall(r"^lib\.rs:(\d+):\d+: error.*?: (.*)$", said, re.M)}
        if not wrong:
            raise RuntimeError(said[-3000:])
        refused.update(wrong)
        chosen = {name: it for name, it in chosen.items() if name not in wrong}
    _, said = cargo(project, environment, "--no-fail-fast")
    passed = set(re.findall(r"^test (\w+) \.\.\. ok$", said, re.M))
    return {**refused, **{name: "its run fails" for name in chosen if name not in passed}}


def test(results, room, package, environment):
    """Runs all examples and compares those that fail with the list."""
    if not os.path.isdir(f"{REGISTRY}/chrono-{VERSION}"):
        print(f"not run: chrono's doc examples, since there is no {REGISTRY}/chrono-{VERSION}")
        return
    project = f"{room}/chrono-examples"
    os.makedirs(project)
    with open(f"{project}/Cargo.toml", "w", encoding="utf-8") as it:
        it.write(PROJECT.format(package=package))
    parts = {"the naive layer": examples(NAIVE), "the files around it": examples(AROUND)}
    known = {name: it for part in parts.values() for name, it in part.items()}
    missing = set(REASONS) - {place for place, _ in known.values()}
    results.count(not missing, f"listed are examples that chrono has not: {sorted(missing)}")
    wrong = failing(project, environment, known)
    for what, part in parts.items():
        count = sum(name not in wrong for name in part)
        print(f"chrono's doc examples of {what}: {count} of {len(part)} pass", flush=True)
        for name, ((file, line), _) in part.items():
            reason = REASONS.get((file, line))
            if name in wrong and reason:
                print(f"{file} {line} is not for this crate: {reason}")
            else:
                found = "passes, though it is listed" if reason else f"fails: {wrong.get(name)}"
                results.count(name not in wrong and not reason, f"chrono's example {file} {line} {found}")


def main():
    results = Results()
    with tempfile.TemporaryDirectory(prefix="chrono-docs-") as room:
        package = os.path.abspath(sys.argv[1]) if sys.argv[1:] else f"{TOP}/languages/rust"
        test(results, room, package, cargo_environment(room, os.environ.get("CALENDAR_FOLDER")))
    print(f"{results.passed} passed, {results.failed} failed")
    return 1 if results.failed else 0


if __name__ == "__main__":
    sys.exit(main())
