#!/usr/bin/env python3
"""Holds patterns to the test cases of dateutils' `strptime` and `dconv`, from the source package of Debian.

    python3 -m checks.layers.patterns_dateutils            fetches the source by apt-get, below a temporary folder
    python3 -m checks.layers.patterns_dateutils FOLDER     takes the source that stands in that folder

A case is a command with its lines of input and of output. Its `-i` and `-f` become patterns here, by `TRANSLATED`, and a text without
`-i` is read by one of `PLAIN`. What belongs to dateutils alone is left out, and counted by its reason: see `APART`. Of the cases that
stay each answer is compared. `DECIDED` has those that differ, and why. `rt try` runs a small program unproved, in a copy of the crates.
"""
import collections
import glob
import os
import re
import shlex
import subprocess
import sys
import tempfile

from repositories import answers_in_parts, put_program

# What dateutils writes by its own words, and here by specifiers.
TRANSLATED = {"ymd": "%F", "ywd": "%G-W%V-%u", "%D": "%j", "%w": "%u"}
# The pattern of a text that no `-i` tells.
PLAIN = {r"\d{4}-\d\d-\d\d": "%F", r"\d{4}-\d{3}": "%Y-%j", r"\d{4}-W\d\d-\d": "%G-W%V-%u", r"\d{4}-\d\d-\d\dT\d\d:\d\d:\d\d": "%FT%T"}
# What is of dateutils alone, by a search in the command and its first line of input.
APART = {
    "it searches a line for a date": r" -S|-SE|this line|AM %d|FOLGENDE",
    "it completes a date by another one, or takes what it cannot read": r" -b | -Ef ",
    "a locale": r"--(from-)?locale",
    "its own calendars and numbers of days": r"ldn|jdn|mdn|matlab|julian|lilian|daisy|ymcw|business|\d-\d\d-\d\d-\d\d|-\d\db|-\d{3}b|%[dj]b",
    "its own specifiers": r"%O|%_|%C|%Q|%\wth|%Y-W%W['\"]? |%Y-W%V['\"]? |\d{4}-\d\d(?: |$)",
    "no answer is compared": r"ignore-output|strptime -i$|-i 'foo'|2012-03-32|2010-W53",
}
# What is read otherwise here, by a search in the two patterns and the text, and why. None of these has an answer here.
DECIDED = {
    "a day behind the end of its month or year is no date here, and the last day there": r"2013-02-29|2013-09-31|2012-02-30|2011-366",
    "its numbers of weekdays have two digits": r"20155306|20160101|%u\|.*\|\d{4}-\d\d-\d\d$",
    "the weekday contradicts the date": r"Mon, Mar-2/2000",
}
PROGRAM = r'''//! Reads a text by one pattern and writes it by another, a line each.
#![tactic(auto)]

use chrono_pattern::Pattern;
use std::io::{self, BufRead, BufReader};

fn main(rt: HostRuntime) -> io::Result<()> {
    for line in BufReader::new(rt.alloc(), rt.reader())?.lines(rt.alloc()) {
        let line = line?;
        let Some((from, rest)) = line.as_str().split_once('|') else { return Ok(()); };
        let Some((to, text)) = rest.split_once('|') else { return Ok(()); };
        let (Ok(from), Ok(to)) = (Pattern::new(from.as_bytes()), Pattern::new(to.as_bytes())) else {
            println!(rt; "= no pattern")?;
            continue;
        };
        let written = match from.parse_date_time(text.as_bytes()) {
            Ok(moment) => to.format::<200>(moment),
            Err(_) => match from.parse_date(text.as_bytes()) {
                Ok(date) => to.format_date::<200>(date),
                Err(_) => None,
            },
        };
        match written {
            Some(written) => println!(rt; "= {}", written.as_str())?,
            None => println!(rt; "= none")?,
        }
    }
    Ok(())
}
'''


def fetch(room):
    """Fetches the source package from Debian; its folder, or nothing."""
    with open("/etc/apt/sources.list.d/debian.sources", encoding="utf-8") as it:
        listed = re.sub(r"^Types: deb$", "Types: deb-src", it.read(), flags=re.M)
    with open(f"{room}/list.sources", "w", encoding="utf-8") as it:
        it.write(listed)
    os.makedirs(f"{room}/lists/partial")
    apt = ["apt-get", "-qq", *(f"-oDir::{it}" for it in (f"Etc::sourcelist={room}/list.sources", "Etc::sourceparts=/dev/null", f"State::Lists={room}/lists"))]
    for words in ([*apt, "update"], [*apt, "source", "--download-only", "dateutils"]):
        subprocess.run(words, cwd=room, stdout=subprocess.DEVNULL, stderr=subprocess.DEVNULL, check=True)
    subprocess.run(["tar", "-xzf", *glob.glob(f"{room}/dateutils_*.orig.tar.gz")], cwd=room, check=True)
    return glob.glob(f"{room}/dateutils-*/")[0]


def cases(folder):
    """The commands of the suite, each with its lines of input and of output."""
    for path in sorted(glob.glob(f"{folder}/test/strptime.*.ctst") + glob.glob(f"{folder}/test/dconv.*.ctst")):
        with open(path, encoding="utf-8", errors="replace") as it:
            parts = re.split(r"^\$ ?", it.read(), flags=re.M)[1:]
        for part in parts:
            command, _, rest = part.partition("\n")
            document = re.search(r"<<(\w+)", command)
            read, _, printed = rest.partition(f"{document[1]}\n") if document else ("", "", rest)
            if command:
                yield command, read.splitlines(), [it for it in printed.splitlines() if it and not it.startswith("##")]


def pattern(format):
    """A format of dateutils as a pattern here."""
    for old, new in TRANSLATED.items():
        format = format.replace(old, new)
    return format.replace("%Y", "%G") if "%V" in format and "%G" not in format else format


def question(command, read):
    """The two patterns of a command, and its texts."""
    words, given, texts = iter(shlex.split(command.partition(" <<")[0])), {}, list(read)
    for it in words:
        if it.startswith("-"):
            given[it.removeprefix("--")[:2].strip("-")[0]] = next(words) if it in ("-i", "-f") else ""
        elif it == "echo":
            texts.append(next(words))
        elif it not in ("!", "?2", "|", "dconv", "strptime"):
            texts.append(it)
    plain = next((to for form, to in PLAIN.items() if texts and re.fullmatch(form, texts[0])), "")
    from_text = pattern(given.get("i", plain))
    usual = {"V": "%G-W%V-%u", "U": "%G-W%V-%u", "W": "%G-W%V-%u", "j": "%Y-%j"}
    same = next((to for code, to in usual.items() if f"%{code}" in from_text), "%F")
    return from_text, pattern(given.get("f", same)), texts


def sort_cases(folder):
    """The questions and the wanted answers, and how many cases are left out by each reason."""
    asked, left_out = [], collections.Counter()
    for command, read, printed in cases(folder):
        reason = next((it for it, form in APART.items() if re.search(form, " ".join([command, *read[:3]]))), None)
        if reason:
            left_out[reason] += 1
            continue
        from_text, to, texts = question(command, read)
        if len(printed) not in (0, len(texts)):
            left_out["fewer answers than texts"] += 1
            continue
        asked += [(from_text, to, text, answer) for text, answer in zip(texts, printed or ["none"] * len(texts))]
    return asked, left_out


def main():
    passed, failed, decided = 0, 0, collections.Counter()
    with tempfile.TemporaryDirectory(prefix="dateutils-") as room:
        try:
            folder = sys.argv[1] if len(sys.argv) > 1 else fetch(room)
        except (OSError, IndexError, subprocess.CalledProcessError):
            print("not run: Debian's source of dateutils cannot be had\n0 passed, 0 failed")
            return 0
        asked, left_out = sort_cases(folder)
        program = put_program(room, "dateutils_cases", ["chrono_pattern"], PROGRAM)
        told = answers_in_parts(room, program, [f"{it[0]}|{it[1]}|{it[2]}" for it in asked], 5_000)
    for (from_text, to, text, wanted), answer in zip(asked, told):
        reason = next((it for it, form in DECIDED.items() if re.search(form, f"{from_text}|{to}|{text}")), None)
        is_right = answer == wanted if reason is None else answer == "none"
        passed, failed = passed + is_right, failed + (not is_right)
        decided[reason] += reason is not None
        if not is_right:
            print(f"{text!r} by {from_text!r} as {to!r} is {answer!r}, and {wanted!r} there")
    for reason, count in left_out.most_common():
        print(f"{count} commands left out: {reason}")
    for reason, count in decided.items():
        if count:
            print(f"{count} answers decided otherwise: {reason}")
    print(f"{passed} passed, {failed} failed")
    return 1 if failed else 0


if __name__ == "__main__":
    sys.exit(main())
