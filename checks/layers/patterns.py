#!/usr/bin/env python3
"""Holds patterns to Python's strftime, to GNU date and to Debian's chrono, on random patterns and date-times.

    python3 -m checks.layers.patterns [--seed N] [--lines N] [--rounds N]      (seed 1, 20,000 lines and one round, if left out)

A line has a local date-time and its offset from UTC. It is written with the offset, and printed without it. Some bytes between the
specifiers are no ASCII. An answer is this file's own, from its own count of days. In the years 1000 to 9999, Python's strftime has to
write the same of each specifier that it has, and GNU date of all its specifiers in one pattern. Where there is Debian's chrono,
checks/layers/chrono_patterns has to write the same too, and to refuse the same patterns: all that have none of `%q`, `%U`, `%W` and `%#z`. The
first is newer, and chrono only reads the last. Of the other two Debian's chrono writes another number in some years, where GNU date and
Python agree: how many lines differ is printed. Python writes the seconds of an offset by `%z`, so it is asked at whole minutes alone.
Bytes that are no pattern are read by a regular expression, and each one and each two visible bytes behind a `%` are asked for.
`rt try` runs a small program unproved, in a copy of the crates: it answers the lines, and what differs is printed. A second run of the same lines with one answer changed has to find that answer. The table of patterns
in docs/chrono.md is asked with them, and each row of the table of specifiers in the source: its examples are what the library and this file
write. Where the row says which specifiers stand for one, they have to write the same. The table has each specifier once. Each round has as many lines of its own, by the next seed: `--lines 200000 --rounds 5` are a million.
GNU date is asked for 20,000 in a round at most.
"""
import argparse
import datetime
import os
import random
import re
import subprocess
import sys
import tempfile

from checks import TOP
from checks.layers.instants import civil
from debian import build_over_chrono, why_no_chrono
from repositories import answers_in_parts, put_program

FIRST, LAST = -95_746_129, 95_745_399
# The day number of 1 January 1970, and the nanoseconds of a second.
EPOCH, NANOS = 719_163, 10**9
# How many lines one run of the program answers.
PART = 10_000
# How many lines GNU date is asked for in a round at most.
GNU_LINES = 20_000
WEEKDAYS = "Monday Tuesday Wednesday Thursday Friday Saturday Sunday".split()
MONTHS = "January February March April May June July August September October November December".split()
NUMBERS, OTHERS = "YCyqmdejuwGgVUWHkIlMSfs", "BbhAapPFDRTcxXrvt%Z+"
SPECIFIER = re.compile(rf"%(?:([-_0]?)([{NUMBERS}])|([{OTHERS}]|(?::{{0,3}}|#)z)|([.]?[369]?)f)")
# The specifiers that stand for others.
GROUPS = {
    "F": "%Y-%m-%d", "D": "%m/%d/%y", "x": "%m/%d/%y", "R": "%H:%M", "T": "%H:%M:%S", "X": "%H:%M:%S", "r": "%I:%M:%S %p", "v": "%e-%b-%Y",
    "c": "%a %b %e %H:%M:%S %Y", "+": "%Y-%m-%dT%H:%M:%S%.f%:z",
}
# What a specifier may begin with where the bytes end.
BEGUN = re.compile(r"%(?:[-_0]|[.]?[369]?|:{1,3}|#)$")
# The specifiers that need an offset.
ZONED = re.compile(r"(?::{0,3}|#)z|[Z+]")
# The specifiers whose texts Python has with the same meaning.
OF_PYTHON = {*"YCymdejuwGgVUWHkIlMSBbhAapPFDRTcxXrt%zs", ":z"}
# The specifiers that GNU date has with the same meaning.
OF_GNU = "|".join(f"%{it}" for it in [*"YCyqmdejuwGgVUWHkIlMSBbhAapPFDRTcxXr%", "-d", "_j", "-U", "_W", "-I", "s", "z", ":z", "::z"])
# The page with a table of patterns and their texts, how many it has, and the date-time that they are of.
PAGE, SHOWN, MOMENT = "docs/chrono.md", 10, (738_945, 32_707, 250_000_000)
ROW = re.compile(r"`(%[^`]*)` \| `([^`]*)` \|")
# The source with the table of specifiers, a row of it, the text of a code span, and the date-time that its examples are of.
SOURCE, SPECIFIERS_ROW, SPAN = "crates/chrono_pattern/src/pattern.rt", re.compile(r"^    /// \| (`%.*) \| (.*) \| (`.*`) \|$", re.M), re.compile("`([^`]*)`")
EXAMPLE = (738_948, 32_707, 250_000_000, 19_800)
# All specifiers, with no padding before a number.
ALL = {f"%{it}" for it in [*NUMBERS, *OTHERS, *"sz", ":z", "::z", ":::z", "#z", *(point + it + "f" for point in ("", ".") for it in "369"), ".f", "n"]}
PROGRAM = r'''//! Writes date-times by patterns, a line each.
#![tactic(auto)]

use chrono_datetime::{NaiveDate, NaiveDateTime, NaiveTime};
use chrono_pattern::Pattern;
use chrono_zoned::{FixedOffset, InZone};
use std::io::{self, BufRead, BufReader};

fn main(rt: HostRuntime) -> io::Result<()> {
    for line in BufReader::new(rt.alloc(), rt.reader())?.lines(rt.alloc()) {
        let line = line?;
        let Some((day, rest)) = line.as_str().split_once(' ') else { return Ok(()); };
        let Some((second, rest)) = rest.split_once(' ') else { return Ok(()); };
        let Some((fraction, rest)) = rest.split_once(' ') else { return Ok(()); };
        let Some((offset, pattern)) = rest.split_once(' ') else { return Ok(()); };
        let Some(date) = NaiveDate::from_num_days_from_ce_opt(day.parse().unwrap_or(0)) else { return Ok(()); };
        let Some(time) = NaiveTime::from_num_seconds_from_midnight_opt(second.parse().unwrap_or(0), fraction.parse().unwrap_or(0)) else { return Ok(()); };
        let local = NaiveDateTime::new(date, time);
        let Some(offset) = FixedOffset::east_opt(offset.parse().unwrap_or(0)) else { return Ok(()); };
        let Some(zoned) = offset.from_local_datetime(&local).single() else { return Ok(()); };
        match Pattern::new(pattern.as_bytes()) {
            Ok(pattern) => {
                match pattern.format_zoned::<512, FixedOffset>(zoned) {
                    Some(text) => print!(rt; "= {}", text.as_str())?,
                    None => print!(rt; "= too long")?,
                }
                match pattern.delayed(local) {
                    Some(text) => println!(rt; "|{text}")?,
                    None => println!(rt; "|none")?,
                }
            }
            Err(error) => println!(rt; "= {:?} {}", error.cause, error.byte)?,
        }
    }
    Ok(())
}
'''


class Moment:
    """A date-time by its day number, second, fraction and offset, and its names."""

    def __init__(self, day, second, fraction, offset=0):
        self.day, self.at, self.fraction, self.offset = day, second, fraction, offset
        self.year, self.month, self.of_month = civil(day - EPOCH)
        self.weekday = (day - 1) % 7
        self.ordinal = day - Moment.new_year(self.year) + 1
        thursday = day - self.weekday + 3
        self.iso_year = civil(thursday - EPOCH)[0]
        self.iso_week = (thursday - Moment.new_year(self.iso_year)) // 7 + 1

    def weeks(self, weekday):
        """How many days of the year up to this one have the weekday: every seventh from the first on."""
        start = self.day - self.ordinal + 1
        return len(range(start + (weekday - start + 1) % 7, self.day + 1, 7))

    @staticmethod
    def new_year(year):
        past = year - 1
        return 365 * past + past // 4 - past // 100 + past // 400 + 1


# Of each number: its value, its fewest digits, and what is put in front of fewer.
VALUES = {
    "Y": (lambda m: m.year, 4, "0"), "C": (lambda m: m.year // 100, 2, "0"), "y": (lambda m: m.year % 100, 2, "0"), "q": (lambda m: (m.month + 2) // 3, 1, "0"),
    "m": (lambda m: m.month, 2, "0"), "d": (lambda m: m.of_month, 2, "0"), "e": (lambda m: m.of_month, 2, "_"), "j": (lambda m: m.ordinal, 3, "0"),
    "u": (lambda m: m.weekday + 1, 1, "0"), "w": (lambda m: (m.weekday + 1) % 7, 1, "0"), "G": (lambda m: m.iso_year, 4, "0"),
    "g": (lambda m: m.iso_year % 100, 2, "0"), "V": (lambda m: m.iso_week, 2, "0"), "U": (lambda m: m.weeks(6), 2, "0"), "W": (lambda m: m.weeks(0), 2, "0"),
    "H": (lambda m: m.at // 3600, 2, "0"), "k": (lambda m: m.at // 3600, 2, "_"), "I": (lambda m: (m.at // 3600 + 11) % 12 + 1, 2, "0"),
    "l": (lambda m: (m.at // 3600 + 11) % 12 + 1, 2, "_"), "M": (lambda m: m.at // 60 % 60, 2, "0"), "S": (lambda m: m.at % 60 + m.fraction // NANOS, 2, "0"),
    "f": (lambda m: m.fraction % NANOS, 9, "0"),
}


def number(moment, code, padding):
    """A number: its sign, its digits, and what is missing."""
    if code == "s":
        return str((moment.day - EPOCH) * 86_400 + moment.at - moment.offset)
    of, least, usual = VALUES[code]
    value = of(moment)
    signed = code in "YG" and not 0 <= value <= 9999
    least += signed
    form = "+" if signed else ""
    fill = padding or usual
    width = {"-": "", "_": str(least), "0": f"0{least}"}[fill]
    return format(value, form + width)


def offset_text(offset, form):
    """An offset as `%z` writes it with so many colons."""
    sign, size = "-" if offset < 0 else "+", abs(offset)
    numbers = [f"{it:02}" for it in (size // 3600, size // 60 % 60, size % 60)]
    if form == "Z":
        return sign + ":".join(numbers if size % 60 else numbers[:2])
    return sign + ("" if form in ("", "#") else ":").join(numbers[: {":::": 1, "::": 3}.get(form, 2)])


def piece(moment, found):
    """What a specifier writes."""
    padding, code, other, digits = found.groups()
    if code:
        return number(moment, code, padding)
    if other in GROUPS:
        return SPECIFIER.sub(lambda it: piece(moment, it), GROUPS[other])
    if other and other[-1] in "zZ":
        return offset_text(moment.offset, other.rstrip("z"))
    if other:
        half = "AP"[moment.at >= 43_200] + "M"
        month, weekday = MONTHS[moment.month - 1], WEEKDAYS[moment.weekday]
        return {"B": month, "b": month[:3], "h": month[:3], "A": weekday, "a": weekday[:3], "p": half, "P": half.lower(), "t": "\t", "%": "%"}[other]
    past = moment.fraction % NANOS
    places = int(digits.strip(".") or next(it for it in (0, 3, 6, 9) if past % 10 ** (9 - it) == 0))
    return ("." if digits.startswith(".") and places else "") + f"{past:09}"[:places]


def answer(moment, pattern):
    """The text, or the first specifier that is none."""
    made, at = [], 0
    while at < len(pattern):
        found = SPECIFIER.match(pattern, at)
        if found:
            told = piece(moment, found)
            as_python(moment, found, told)
            made.append(told)
            at = found.end()
        elif pattern[at] != "%":
            made.append(pattern[at])
            at += 1
        else:
            return f"{'Cut' if BEGUN.match(pattern, at) else 'Unknown'} {len(pattern[:at].encode())}"
    return "".join(made)


def as_python(moment, found, told):
    """Stops if strftime writes something else."""
    code = found[2] or found[3]
    if code in OF_PYTHON and 1000 <= moment.year <= 9999 and 1000 <= moment.iso_year <= 9999 and moment.fraction < NANOS:
        date = datetime.datetime.fromordinal(moment.day) + datetime.timedelta(seconds=moment.at)
        date = date.replace(tzinfo=datetime.timezone(datetime.timedelta(seconds=moment.offset)))
        if code == "s":
            assert date.timestamp() == int(told), (date, told)
        elif code == ":z":
            assert moment.offset % 60 or date.isoformat().endswith(told), (date, told)
        elif code != "z" or moment.offset % 60 == 0:
            assert date.strftime(found[0]) == told, (date, found[0], told)


def question(draw):
    """A random line: a date-time, mostly of these centuries, and a pattern, mostly a right one."""
    day = draw.choice((draw.randrange(700_000, 760_000), draw.randrange(700_000, 760_000), draw.randrange(FIRST, LAST + 1), draw.randrange(-800, 800), FIRST, LAST))
    second = draw.choice((0, 43_200, 43_199, 86_399, draw.randrange(86_400)))
    fraction = draw.choice((0, 500_000_000, 1_000, 120_000, draw.randrange(NANOS)))
    if second % 60 == 59 and draw.random() < 0.5:
        fraction += NANOS
    offset = draw.choice((0, 34_200, -18_000, -12_600, 60 * draw.randrange(-1439, 1440), draw.randrange(-86_399, 86_400), -30, 1))
    if day in (FIRST, LAST):
        offset = 0
    return day, second, fraction, offset, "".join(part(draw) for _ in range(draw.randrange(1, 8)))


def part(draw):
    kind = draw.random()
    if kind < 0.5:
        return "%" + draw.choice(("", "", "", "-", "_", "0")) + draw.choice(NUMBERS)
    if kind < 0.6:
        return "%" + draw.choice(OTHERS)
    if kind < 0.7:
        return draw.choice(("%z", "%:z", "%::z", "%:::z", "%#z", "%Z", "%s", "%+"))
    if kind < 0.78:
        return "%" + draw.choice(("", ".")) + draw.choice(("", "3", "6", "9")) + "f"
    if kind < 0.97:
        return draw.choice(("-", ":", " ", "T", "/", ", ", "W", "100", "%%", "年", ". März ", "𝕏"))
    return draw.choice(("%", "%Q", "%-a", "%--d", "%.5f", "%.", "%3", "%.3", "%-", "%0F", "%33f", "%.-d", "%_%", "%:", "%::", "%::::z", "%#", "%-z", "%:Z", "%_+", "%#:z", "%:::"))


def short_patterns():
    """Each pattern of `%` and one or two visible bytes of ASCII behind it, so that no specifier more is read than are known.

    `%n` ends a line, and so is left out.
    """
    visible = [chr(it) for it in range(0x21, 0x7F)]
    return [f"%{one}{other}" for one in visible if one != "n" for other in ["", *visible]]


def of_page():
    """The patterns of the page as questions, and their texts there."""
    with open(f"{TOP}/{PAGE}", encoding="utf-8") as it:
        rows = ROW.findall(it.read())
    if len(rows) != SHOWN:
        sys.exit(f"{PAGE}: {len(rows)} patterns with their texts, not {SHOWN}")
    return [(*MOMENT, 0, pattern) for pattern, _ in rows], [text for _, text in rows]


def of_source():
    """The specifiers of the source's table as questions, with what they stand for, and the examples of their texts there."""
    with open(f"{TOP}/{SOURCE}", encoding="utf-8") as it:
        rows = SPECIFIERS_ROW.findall(it.read())
    found, shown = [], []
    for specifiers, words, examples in rows:
        codes, texts, same = SPAN.findall(specifiers), SPAN.findall(examples), SPAN.findall(words)
        if len(codes) != len(texts):
            sys.exit(f"{SOURCE}: {len(texts)} examples of {specifiers}")
        found += codes
        # (a line feed would end the line of an answer)
        shown += [(code, text.replace("\\t", "\t")) for code, text in zip(codes, texts) if code != "%n"]
        if same and re.sub(r"`[^`]*`|[(].*[)]|[, ]", "", words) == "":
            shown += zip(same, texts, strict=True)
    if sorted(found) != sorted(ALL):
        sys.exit(f"{SOURCE}: the table has not each specifier once: {sorted(set(found) ^ ALL)}")
    return [((*EXAMPLE, pattern), text) for pattern, text in shown]


def draw_weeks(draw, count):
    """Random days of these centuries, to be written by their weeks of the year."""
    return [(draw.randrange(700_000, 760_000), 0, 0, 0, "%U %W") for _ in range(count)]


def needs_offset(pattern):
    """Whether a pattern has a specifier of the offset."""
    return any(found[3] and ZONED.fullmatch(found[3]) for found in SPECIFIER.finditer(pattern))


def both(question):
    """The text with the offset and that without one, or the first specifier that is none."""
    day, second, fraction, offset, pattern = question
    told = answer(Moment(day, second, fraction, offset), pattern)
    if told.startswith(("Cut ", "Unknown ")):
        return told
    return with_plain(question, told)


def with_plain(question, told):
    """The text with the offset, and behind it the text without one."""
    day, second, fraction, _, pattern = question
    return f"{told}|{'none' if needs_offset(pattern) else answer(Moment(day, second, fraction), pattern)}"


def line_of(question):
    return " ".join(map(str, question))


def by_chrono(program, questions):
    """What chrono writes, `!` where it refuses the pattern, and `-` for a day that it lacks."""
    # chrono panics where it has to write `%#z`, so it is asked for nothing there.
    asked = "".join(f"{line_of((*it[:4], it[4] if '%#' not in it[4] else ''))}\n" for it in questions)
    return subprocess.run([program], input=asked, stdout=subprocess.PIPE, text=True, check=True).stdout.split("\n")[:-1]


def by_gnu(room, draw, count):
    """What GNU date writes of random date-times of the years 1000 to 9999, and what it should."""
    moments = [Moment(draw.randrange(364_900, 3_652_000), draw.randrange(86_400), 0) for _ in range(count)]
    with open(f"{room}/dates", "w", encoding="ascii") as it:
        it.writelines(f"@{(moment.day - EPOCH) * 86_400 + moment.at}\n" for moment in moments)
    env = {"PATH": os.environ["PATH"], "LC_ALL": "C"}
    told = subprocess.run(["date", "-u", "-f", f"{room}/dates", f"+{OF_GNU}"], stdout=subprocess.PIPE, text=True, check=True, env=env).stdout
    return [f"@{it.day} {it.at}" for it in moments], told.split("\n")[:-1], [answer(it, OF_GNU) for it in moments]


def differing(lines, told, wanted):
    return [f"{it}: {a!r}, not {b!r}" for it, a, b in zip(lines, told, wanted) if a != b]


def end(lines, told, wanted, wrong):
    """Prints what differs and what else is wrong, once a comparison with one answer changed has found that, and ends."""
    own = differing(lines, told, wanted)
    changed = ["", *wanted[1:]]
    if len(differing(lines, told, changed)) != len(own) + 1 and told[0] == wanted[0]:
        sys.exit("a changed answer is not found")
    for it in (own + wrong)[:20]:
        print(f"FAILED: {it}")
    print(f"{len(wanted) - len(own)} passed, {len(own) + len(wrong)} failed")
    sys.exit(bool(own or wrong))


def as_chrono(question, told):
    """Whether the answer is to be chrono's too."""
    return told != "-" and not re.search("%[-_0]?[qUW]|%#", question[4])


def options_of(doc):
    """The seed, how many lines each round has, and how many rounds."""
    parser = argparse.ArgumentParser(description=doc.partition("\n")[0])
    parser.add_argument("--seed", type=int, default=1)
    parser.add_argument("--lines", type=int, default=20_000)
    parser.add_argument("--rounds", type=int, default=1)
    return parser.parse_args()


def chrono_program(room):
    """The program over Debian's chrono, or none where there is no chrono."""
    if missing := why_no_chrono():
        print(f"chrono is not asked: {missing}")
        return None
    return build_over_chrono(room, "checks/layers/chrono_patterns")


def run_rounds(options, room, run_round):
    """Runs each round by its seed, up to the first that finds something, and ends with what the last one found."""
    for seed in range(options.seed, options.seed + options.rounds):
        os.mkdir(f"{room}/seed{seed}")
        lines, told, wanted, wrong = run_round(f"{room}/seed{seed}", random.Random(seed), options.lines)
        print(f"{len(lines)} lines by seed {seed}", flush=True)
        if wrong or told != wanted:
            break
    end(lines, told, wanted, wrong)


def answers_by_others(room, chrono, draw, questions, wanted):
    """What chrono and GNU date write otherwise, of lines and of days of their own."""
    wrong = []
    if chrono:
        others = [(line_of(it), a, b.rpartition("|")[0] if not b.startswith(("Cut ", "Unknown ")) else "!") for it, a, b in zip(questions, by_chrono(chrono, questions), wanted) if as_chrono(it, a)]
        wrong += ["chrono: " + it for it in differing(*zip(*others))]
        print(f"{len(others)} of {len(questions)} by chrono too")
        weeks = draw_weeks(draw, len(questions) // 4)
        other = [a != answer(Moment(*it[:3]), it[4]) for it, a in zip(weeks, by_chrono(chrono, weeks)) if a != "-"]
        print(f"chrono differs in {sum(other)} of {len(other)} lines of %U and %W")
    gnu = by_gnu(room, draw, min(len(questions), GNU_LINES))
    print(f"{len(gnu[0])} lines by GNU date too")
    return wrong + ["GNU date: " + it for it in differing(*gnu)]


def main():
    options = options_of(__doc__)
    shown, texts = of_page()
    rows = of_source()
    unlike = [f"{PAGE}: {it}" for it in differing([line_of(it) for it in shown], texts, [answer(Moment(*it[:3]), it[4]) for it in shown])]
    with tempfile.TemporaryDirectory(prefix="patterns-") as room:
        chrono = chrono_program(room)
        folder = put_program(room, "patterns", ["chrono_datetime", "chrono_zoned", "chrono_pattern"], PROGRAM)

        def run_round(own, draw, count):
            drawn = [question(draw) for _ in range(count)]
            questions, wanted = drawn + shown, [both(it) for it in drawn] + [f"{it}|{it}" for it in texts]
            questions += [it for it, _ in rows]
            wanted += [with_plain(it, text) for it, text in rows]
            wrong = unlike + answers_by_others(own, chrono, draw, questions, wanted)
            each = [(*MOMENT, 0, it) for it in short_patterns()]
            lines = [line_of(it) for it in questions + each]
            return lines, answers_in_parts(own, folder, lines, PART), wanted + [both(it) for it in each], wrong

        run_rounds(options, room, run_round)


if __name__ == "__main__":
    main()
