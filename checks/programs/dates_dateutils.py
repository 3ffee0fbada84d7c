#!/usr/bin/env python3
"""Holds `dates` to the test suite of dateutils, from the source package of Debian.

    python3 -m checks.programs.dates_dateutils             fetches the source by apt-get, below a temporary folder
    python3 -m checks.programs.dates_dateutils FOLDER      takes the source that stands in that folder
    python3 -m checks.programs.dates_dateutils --list ..   also prints each case that has no words here, with its reason

A case is a command of the suite with its lines of input and of output. A function of `TOOLS` says it in words of `dates`, also by several commands
in turn, as in a pipe: the next 15th is a schedule's, and the fifth open day of March lies five open days behind the end of February. It takes nothing
from the lines of output. Where both programs refuse a command, they are equal. What has no words is left out, and counted by its reason. Each other answer is compared, and `DECIDED` has
those that differ, each with its reason. Lines that are no day are passed over by dateutils; here they are `none`, and this script drops them.
"""
import collections
import glob
import os
import re
import shlex
import subprocess
import sys
import tempfile

from checks.layers.patterns_dateutils import fetch
from checks.programs import dates

# What has no words here, by a search in the command and its first lines of input.
APART = {
    "a weekday counted in its month or year, by a pattern or for each day of centuries": r"%[cC]|2399-12-31.*ymcw|2071-12-31.*ymcw|ymcw-1|ymcw-28|convt\..*ymcw",
    "ordinal numbers, Roman numerals and months by one letter": r"%\w?th|%_|%O",
    "a week that is its day 0": r"-i [\"']?%Y-W%[VW]['\"]? ",
    "a month that is its day 0": r"dseq .*[+-]1d (09|10|2021-)|-00 -0[db]|-000 -0[db]|-b \S+ .*-i %m|%Y -i|-i %Y |%Y %b|%b %Y|%Y-%b|-00-00 2015-00-00T|2012-00T17",
    "a locale": r"-locale",
    "a day by the clock of a zone": r"dzone .* 2018-05-31|Berlin 2012-03-01 -f",
    "days of open days in lines": r"-S -i '%Y-%m-%db'",
    "open days between times": r"bizsi|T.*%db|:00' .*-f '%db'",
    "a line that stands for several": r"\$\{srcdir\}/dadd|dsort -u",
    "several days of a line, or several patterns": r"12,\w+/\d+/12|-i \S+ -i|-i '[^']*' -i|-S -i \"%Y-%m-%d\" -i",
    "leap seconds of a table": r"\drs|%r[STs]|-z (TAI|GPS)|zone (TAI|GPS)",
    "steps from the last that leave out days": r"compute-from-last .* [2-9] .*--skip|alt-inc",
    "a zone by a table of names": r"dummy:",
    "a test of another program": r"^(rm|itostr|strtoi|find)\b|tzmap|ignore-output",
}
# What is answered otherwise here, by a search in the command, and why.
DECIDED = {
    "a day behind the end of its month or year is no day here, and the last day there": r"02-29(?=.*2013-02-28)|2013-02-29|02-3[01]|09-31|2010-W53|2012-03-32|2011-366",
    "a year or a month moves a week date by its date here, and by its week there": r"W\d\d-0?\d \+?-?\d+(y|mo)",
    "0b of a closed day is the next open day here, and the day itself there": r" [+-]?0b",
    "a sequence with no step goes back here, and is empty there": r"dseq 2001-02-03 2001-02-01",
    "a number of seconds has no bound of 32 bits here": r"214748364",
    "minutes move no day here, and are passed over there": r"2012-01-01 \d+m|dadd (\+2mo )?\+?\d+m <<",
    "a local time that the clock skips or shows twice has no one instant here": r"from-zone America/Chicago <<EOF 2012-03-11T02|T02:15:00 --from-zone Europe",
    "%9f reads nine digits": r"%FT%T\.%N' <<|%s%N",
    "24:00 is midnight of the next day, and is written so": r"24:00:0",
    "a day is asked for by one pattern, or by the forms of ISO 8601": r"20155306|%m/%d/%Y,%H:%M' --from-zone='America/New_York' '03",
    "the weekday contradicts the date": r"Mon, Mar-2/2000|Mon, May",
    "a sequence from a time to the same time is that time here, and goes once around the clock there": r"dseq 01:00:00 [+-]1h 01:00:00",
    "a year from 29 February ends on 28 February here, and on 1 March there": r"2008-02-29 2010-03-01 -f '%Y %d'",
    "an empty pattern writes nothing": r"strptime -i$",
    "a year beside weeks is one of months here, and one of whole weeks there": r"'%Y %w ",
    "a pattern reads a whole word": r"February/28/2012",
    "the database of zones has another time for this change": r"--prev Asia/Singapore",
    "a month moves an open day by its date here, and by its number there": r"\d\db \+\d+(y|mo)",
    "a year or a month moves by the date here, and by the weekday's number there": r"-\d\d-\d\d-\d\d [+-]\d+(y|mo)",
    "a closed day has no number among the open ones, and is written by the one before it": r"dadd 2012-10-01b <<\w+ -0 ",
    "a week is its Monday, and there its day 0": r"1917-W14-7 1916-W01",
    "Sunday is 7 of its week, and 0 there if it is read so": r"ywd <<\w+ 1917-0\d-0\d-0[01] ",
    "a blank of a pattern reads any blanks": r"Oct  10",
    "days are counted past the year 4095 too": r"ldn (12345678|91793[23]) -f ymd",
}
# What dateutils writes by its own words, and here by specifiers.
TRANSLATED = {"ymd": "%F", "ywd": "%G-W%V-%u", "yd": "%Y-%j", "daisy": "%F", "%D": "%j", "%w": "0%u", "%Z": "%:z", "%N": "%9f", "%rY": "%G", "%Q": "Q%q"}
# The calendars that count days: the day that is 0, and which hours of that day are over.
COUNTED = {"ldn": ("1582-10-15", 0), "lilian": ("1582-10-15", 0), "mdn": ("-0001-12-31", 0), "matlab": ("-0001-12-31", 0),
           "jdn": ("-4713-11-24", 12), "julian": ("-4713-11-24", 12)}
# The form of a day or a time, and the pattern that writes it so.
FORMS = {r"\d{4}-\d\d-\d\d": "%F", r"\d{4}-\d{3}": "%Y-%j", r"\d{4}-W\d\d-0?\d": "%G-W%V-%u",
         r"@?\d{4}.*\d:\d\d.*|@\d+": "%FT%T", r"\d\d:\d\d(:\d\d)?": "%T"}
VALUED = {"-b": "b", "-i": "i", "--input-format": "i", "-f": "f", "--format": "f", "-z": "z", "--zone": "z", "--from-zone": "from", "--skip": "skip", "-s": "skip"}
FLAGS = {"-S": "S", "-q": "q", "-E": "E", "-n": "n", "--compute-from-last": "last", "--next": "n", "--prev": "p", "-v": "v", "-o": "o", "-r": "r", "--isvalid": "isvalid",
         **{f"--{it}": it for it in ("lt", "le", "eq", "ne", "ge", "gt", "cmp", "ot", "nt")}}
UNITS = {"": "d", "d": "d", "b": "b", "w": "w", "mo": "mo", "y": "y", "m": "min", "h": "h", "s": "s", "q": None, "rs": None, "ns": "ns"}


class NoWords(Exception):
    """A case that has no words here, with the reason."""


class Refused(NoWords):
    """A case that dates refuses."""


def parted(segment):
    """The words of a command, where options of one letter stand alone."""
    for word in segment:
        yield from [f"-{it}" for it in word[1:]] if re.fullmatch(r"-[SqEnvo][SqEnvoif]+", word) else [word]


class Case:
    """A command of the suite, cut into its parts."""

    def __init__(self, segment, given):
        self.options, self.operands, self.given = {}, [], given
        words = iter(parted(segment))
        self.tool = next(words)
        for word in words:
            name, equals, value = word.partition("=")
            if word == "--":
                self.operands += list(words)
            elif name in VALUED:
                self.options.setdefault(VALUED[name], []).append(value if equals else next(words, ""))
            elif word in FLAGS:
                self.options[FLAGS[word]] = True
            elif word.startswith("--") or re.fullmatch(r"-[A-Za-z]", word):
                raise NoWords(f"the option {word}")
            else:
                self.operands.append(word)

    def option(self, name):
        values = self.options.get(name, [None])
        if len(values) > 1:
            raise NoWords("several patterns at once")
        return values[0]


def pattern(format):
    """A format of dateutils as a pattern here."""
    for old, new in TRANSLATED.items():
        format = format.replace(old, new)
    return format.replace("%Y", "%G") if "%V" in format and "%G" not in format else format


def spans(text):
    """A duration of dateutils as spans: a sign stands for all that follow, up to the next one."""
    found, sign = [], ""
    if not re.fullmatch(r"([+-]?\d+[a-z]*)+", text):
        raise NoWords("no duration")
    for mark, count, unit in re.findall(r"([+-]?)(\d+)([a-z]*)", text):
        sign = {"+": "", "-": "-", "": sign}[mark]
        if UNITS.get(unit) is None:
            raise NoWords(f"the unit {unit}")
        found.append(f"{sign}PT{int(count) / 1e9:.9f}S" if unit == "ns" else f"{sign}{int(count)}{UNITS[unit]}")
    return found


def is_span(text):
    return bool(re.fullmatch(r"[+-]?\d{1,3}|([+-]?\d+(mo|rs|ns|[a-z]))+", text))


class Words:
    """The program, asked as often as a case needs."""

    def __init__(self, program):
        self.program, self.asked = program, 0

    def ask(self, *words, lines=None):
        """The lines of an answer, but for `none`, and the exit status."""
        self.asked += 1
        text = "".join(f"{it}\n" for it in lines) if lines is not None else None
        ran = subprocess.run([self.program, *words], input=text if text is not None else "", capture_output=True, text=True, check=False)
        if ran.returncode == 2:
            raise Refused("another form, or a form beside another" if re.search(r"expected a|byte \d+:|one of each|offset of both", ran.stderr) else "what dates refuses")
        return [it for it in ran.stdout.splitlines() if it != "none"], ran.returncode

    def one(self, *words):
        """The one line of an answer."""
        lines, _ = self.ask(*words)
        if not lines:
            raise NoWords("a day that does not exist")
        return lines[0]


# A month and a year as dateutils has them, the first day behind them, the step from one to the next, and how they are written there.
PERIODS = ((r"(\d{4}-(?!00)\d\d)(-00)?", "-01", "1mo", "%Y-%m-00"), (r"(\d{4})(-00-00|-000)?", "-01-01", "1y", "%Y-00-00"))


def plain(text, words, case=None):
    """A day in a form that is read here: `07` of a week is `7`, and a month or a year is its first day.

    `2012-03-05b` is the fifth open day of a month, `2012-03-02-05` its second Friday.
    """
    if case and case.option("i") and not re.fullmatch("%Y(-%m)?(T%H(:%M)?)?", case.option("i")):
        return text
    text = re.sub(r"(W\d\d-)0(\d)", r"\1\2", text)
    found = re.fullmatch(r"(\d{4}-\d\d)-(\d\d)b", text)
    if found:
        return words.one("add", words.one("add", f"{found[1]}-01", "-1d"), f"{int(found[2])}b")
    found = re.fullmatch(r"(\d{4}-\d\d)-0(\d)-0(\d)", text)
    if found:
        weekday = WEEKDAYS[int(found[3]) - 1][:2].upper()
        return words.one("rule", f"FREQ=MONTHLY;BYDAY={found[2].replace('5', '-1')}{weekday}", "--start", f"{found[1]}-01", "--count", "1")
    date, mark, time = text.partition("T")
    return next((it[1] + day + mark + time for form, day, _, _ in PERIODS if (it := re.fullmatch(form, date))), text)


def counted(name, text, words):
    """The day of a number of a calendar that counts days."""
    start, hours = COUNTED[name]
    days, _, part = text.partition(".")
    if not part and not hours:
        return words.one("add", start, f"{days}d")
    return words.one("add", f"{start}T{hours:02}:00", f"{days}d", f"{round(float('0.' + (part or '0')) * 86400)}s")


def form_of(text):
    """The pattern that writes a day or a time as this text is written."""
    for form, made in FORMS.items():
        if re.fullmatch(form, text):
            return made
    return "%F"


def pattern_for(format, text):
    """The pattern by which a text is read, which may name a weekday by one digit or by two, and has any digits of a second."""
    format = re.sub("%0([HMS])", r"%\1", format.replace(".%N", "%.f"))
    if format.endswith("%V%u") and re.fullmatch(r"\d{8}", text):
        format = format.replace("%u", "0%u")
    if "%w" in format and not re.search(r"\b0\d$", text):
        format = format.replace("%w", "%u")
    return pattern(format)


def reading(case, text=""):
    """The options that read days as the case does."""
    read = case.option("i")
    return ["--parse", pattern_for(read, text)] if read else []


def writing(case, first):
    """The options that write days as the case does: by its format, else as the days are written that it reads."""
    format = case.option("f")
    if format:
        timed = format in ("ymd", "ywd", "yd", "daisy") and ":" in first
        return ["--format", pattern(format + "T%T" * timed)]
    read = case.option("i")
    if not read:
        return [] if form_of(first) == "%F" else ["--format", form_of(first)]
    timed = any(it in read for it in ("%H", "%T", "%s", "%I"))
    dated = any(it in read for it in ("%d", "%F", "%j", "%D", "%s", "%y", "%Y"))
    day = "%Y-%j" if re.search("%[jD]", read) else "%G-W%V-%u" if re.search("%[VWU]", read) else "%F"
    return ["--format", "T".join(([day] if dated else []) + (["%T"] if timed else []))]


def within(case):
    """The option by which each day in a line is answered in its place, if the case asks for that."""
    return ["--within"] if case.options.get("S") else []


def special(case):
    """The format of the case, if it counts days, open days or weekdays."""
    texts = case.operands + (case.given or [])
    format = case.option("f") or next((made for form, made in (("b", "%Y-%m-%db"), ("-\\d\\d", "ymcw")) for it in texts if re.fullmatch(r"\d{4}-\d\d-\d\d" + form, it)), "")
    return format if format in COUNTED or format == "ymcw" or re.search("%[dj]b", format) else None


def specially(format, day, words):
    """A day by a format that counts days, or the open days of its month or its year."""
    if format in COUNTED:
        start, hours = COUNTED[format]
        if "T" not in day and not hours:
            return words.one("diff", start, day, "in", "d")
        return f"{int(words.one('diff', f'{start}T{hours:02}:00', day if 'T' in day else f'{day}T00:00', 'in', 's')) / 86400:.6f}"
    if format == "ymcw":
        return words.one("format", f"%Y-%m-{int(words.one('diff', words.one('first', 'month', day[:10]), day[:10], 'in', 'w')) + 1:02}-0%u" + "T%T" * ("T" in day), day)
    for name, period, width in (("d", "month", 2), ("j", "year", 3)):
        if f"%{name}b" in format:
            count = int(words.one("diff", words.one("first", period, day[:10]), words.one("add", day[:10], "1d"), "in", "b"))
            format = format.replace(f"%{name}b", f"{count:0{width}}b")
    return words.one("format", pattern(format), day)


def found_in(case, lines, words):
    """The days that stand in lines; the lines, where each is a day or is answered in its place."""
    if lines is None or case.options.keys() & {"S", "E"} or not any(" " in it.strip() or "\t" in it for it in lines):
        return lines
    return words.ask("grep", "--only", *reading(case, lines[0]), lines=lines)[0]


def of_dadd(case, words):
    """Days that are moved, also by several moves in turn, or by a zone's clock."""
    moves = [it for it in case.operands if is_span(it)]
    days = [plain(it, words, case) for it in case.operands if it not in moves]
    lists = [moves] if case.given is None or not days else [[it] for it in case.given]
    first, format = next(iter([it for it in case.operands if it not in moves] or case.given), "2012-01-01"), special(case)
    if case.option("i") in COUNTED:
        name = case.options.pop("i")[0]
        return [specially(name, words.one("add", counted(name, it, words), *[at for move in moves for at in spans(move)]), words) for it in days or case.given]
    zone = ["--zone", case.option("from") or "UTC"] if case.options.keys() & {"z", "from"} else []
    found = []
    for written in lists:
        by = [it if it != "0d" or not re.match(r"\d\d:", first) else "0s" for move in written for it in spans(move)]
        given = None if days else found_in(case, [plain(it, words, case) for it in case.given], words)
        first = given[0] if given and not days and " " in first else first
        if zone or format:
            for it in days or given:
                moved = words.one("add", it, *by, *zone, *reading(case, it))
                found += words.ask("in", case.option("z") or "UTC", moved, "--format", pattern(case.option("f") or "%FT%T"))[0] if zone else [specially(format, moved, words)]
            continue
        form = [] if case.options.get("S") and not case.option("f") else writing(case, first)
        stays = ["--within"] if not days and all(re.search("(min|h|s)$", it) for it in by) and not any(" " in it for it in given) and form == [] else within(case)
        for it in [[day] for day in days] or [[]]:
            found += words.ask("add", *it, *by, *reading(case, first), *form, *stays, lines=None if days else given)[0]
    return found


def of_dconv(case, words):
    """A day or a time written in another form, or as another zone's clock shows it."""
    zone, from_zone = case.option("z"), case.option("from")
    if zone or from_zone:
        local = ["--from-zone", from_zone or "UTC"]
        texts = case.operands + (case.given or [])
        if case.options.get("S"):
            return words.ask("in", zone or "UTC", *local, *reading(case), "--format", pattern(case.option("f") or "%FT%T"), "--within", lines=texts)[0]
        return [line for text in texts for line in words.ask("in", zone or "UTC", text, *local, *reading(case), *writing(case, text))[0]]
    if case.option("i") in COUNTED:
        return of_counted(case, words)
    if case.option("i") == "%Y-%m-%db":
        case.options.setdefault("f", case.options.pop("i"))
        case.given = [it.rstrip("b") + "b" for it in case.given]
    if case.option("b"):
        return based(case, words)
    if case.option("i") == "%s":
        case.operands = [it.lstrip("@") for it in case.operands]
    format, found = special(case), []
    texts = case.operands + (found_in(case, case.given, words) or []) if not case.options.get("S") else case.operands
    if format:
        return [specially(format, plain(it, words), words) for it in texts if re.fullmatch(r"[\dW-]+b?(T[\d:]+)?", it)]
    for text in case.operands:
        found += words.ask(*converted(case, text), plain(text, words, case))[0]
    if case.given and case.options.get("S"):
        if case.options.get("E"):
            case.given = words.ask("grep", *reading(case), lines=case.given)[0]
        timed = any(it in (case.option("i") or "") for it in ("%H", "%T", "%I"))
        return found + words.ask("format", pattern(case.option("f") or ("%FT%T" if timed else "%F")), *reading(case), "--within", lines=case.given)[0]
    given = texts[len(case.operands):]
    if given:
        found += words.ask(*converted(case, given[0]), lines=[plain(it, words, case) for it in given])[0]
    return found


def based(case, words):
    """Texts without a year, which is that of a base."""
    if re.search("%[yY]", case.option("i")):
        raise NoWords("a century by a base")
    return [line for it in case.operands for line in words.ask("parse", f"%Y {case.option('i')}", f"{case.option('b')[:4]} {it}", *writing(case, it))[0]]


def of_counted(case, words):
    """Numbers of a calendar that counts days, as such or as days."""
    name, found = case.options.pop("i")[0], []
    for text in case.operands + (case.given or []):
        day, format = counted(name, text, words), case.option("f") or name
        found += [specially(format, day, words)] if format in COUNTED else words.ask("format", writing(case, day)[1], day)[0]
    return found


def converted(case, text):
    """The command that reads days as the case does, and writes them as it does."""
    if case.option("i"):
        return ["parse", pattern_for(case.option("i"), text), *writing(case, text)]
    return ["format", (writing(case, text) or ["", "%F"])[1]]


# The units of a distance, the greatest first, by their letters.
PARTS = {"Y": "y", "y": "y", "m": "mo", "w": "w", "d": "d", "b": "b", "H": "h", "M": "min", "S": "s"}
ORDER = ("y", "mo", "w", "d", "h", "min", "s")


def filled(number, how, width):
    """A number as a specifier has it: so many digits, with zeros or spaces in front, or as it is."""
    return {"0": f"{number:0{width}d}", " ": f"{number:{width}d}"}.get(how, str(number))


def of_ddiff(case, words):
    if case.option("z"):
        raise NoWords("a zone that writes no answer")
    if case.options.get("S") and case.given:
        case.given = words.ask("grep", "--only", *reading(case), lines=case.given)[0]
    return [answer for other in [*case.operands[1:], *(case.given or [])] for answer in apart(case, plain(case.operands[0], words, case), plain(other, words, case), words)]


def apart(case, one, other, words):
    """How far it is from one day or time to another, by the format of the case."""
    read = case.option("i") or ""
    zone = ["--zone", case.option("from") or "UTC"] if case.option("from") or one.startswith("@") != other.startswith("@") else []
    clocks = [":" in it or it.startswith("@") for it in (one, other)]
    if not read and clocks[0] != clocks[1] and not re.match(r"\d\d:", one) and not re.match(r"\d\d:", other):
        one, other = (words.one("format", "%F", it) for it in (one, other))
        clocks = [False]
    format = case.option("f") or ("%Ss" if any(clocks) or "%S" in read or "%s" in read else "%d")
    format = {"%F": "%dd", "%T": "%Ss", "daisy": "%d"}.get(format, format)
    asked = [("b" if business else PARTS.get(it)) for it, business in re.findall(r"%[0 ]?([A-Za-z])(b?)", format)]
    if format != "%0S.%N" and None in asked or "b" in asked and asked != ["b"] or not asked:
        raise NoWords("a distance in several units")
    units = sorted(set(asked) - {None}, key=(*ORDER, "b").index)
    found = []
    if format == "%0S.%N":
        seconds, _, part = words.one("diff", one, other, *reading(case, other))[2:-1].partition(".")
        return [f"{seconds}.{part:0<9}"]
    for answer in words.ask("diff", one, other, "in", ",".join(units), *zone, *reading(case, other))[0]:
        numbers = {unit: int(count) for count, unit in re.findall(r"(-?\d+)([a-z]+)", answer)} if len(units) > 1 else {units[0]: int(answer)}
        sign = min(numbers.values()) < 0 and len(units) > 1
        numbers = {it: abs(count) if sign else count for it, count in numbers.items()}
        wide = "y" in units and "mo" not in units and "w" not in units
        text = re.sub(r"%([0 ]?)([A-Za-z])(b?)", lambda it: filled(numbers.get("b" if it[3] else PARTS[it[2]], 0), it[1], 3 if wide and it[2] == "d" else 2) + it[3], format)
        found.append("-" + text if sign else text)
    return found


def of_dseq(case, words):
    """Days in a sequence; months and years by their first days; counted from the end where the steps go back from there."""
    moves = [move for it in case.operands if is_span(it) and not re.fullmatch(r"\d{4}", it) for move in spans(it)]
    written = [it for it in case.operands if not is_span(it) or re.fullmatch(r"\d{4}", it)]
    if case.option("i") == "%b":
        # (months alone are those of any year)
        case.options.pop("i")
        written = [words.one("parse", "%b %d %Y", f"{it} 1 2000") for it in written]
        moves = moves or ["1mo"]
    texts, skip = [plain(it, words, case) for it in written], ["--skip", case.option("skip")] if case.option("skip") else []
    period = next((it for it in PERIODS if all(re.fullmatch(it[0] + "(T.*)?", at) for at in (written[0], written[-1]))), None)
    if period and not case.option("f"):
        timed = "T" in texts[0]
        texts = [it if "T" in it or not timed else f"{it}T23:59" for it in texts]
        return words.ask("seq", *texts, *(moves or [period[2]]), "--format", period[3] + "T%T" * timed)[0]
    if special(case):
        return [specially(special(case), it, words) for it in words.ask("seq", *texts, *moves)[0]]
    if case.options.get("last"):
        back = [it[1:] if it.startswith("-") else f"-{it}" for it in moves]
        lines = words.ask("seq", *texts[::-1], *back, *skip)[0]
        parse = ["--parse", "%T"] if ":" in texts[0] else []
        lines = words.ask("sort", *parse, *([] if back[0].startswith("-") else ["--reverse"]), lines=lines)[0]
        return words.ask("format", pattern(case.option("f")), lines=lines)[0] if case.option("f") else lines
    return words.ask("seq", *texts, *moves, *skip, *reading(case, texts[0]), *writing(case, written[0]))[0]


def of_dround(case, words):
    """The next or the last time that is a target, or each of several targets in turn."""
    *days, target = case.operands
    if case.options.get("S"):
        if not re.fullmatch(r"/-?\d+[smh]", target) or case.options.get("n"):
            raise NoWords("rounding in its place to what only a schedule names")
        return words.ask("round", *reading(case), *writing(case, ""), "--within", "--", "-", spans(target[1:])[0], lines=case.given)[0]
    zone, found = case.option("from") or case.option("z"), []
    if case.given and re.fullmatch(r"/-?\d+[smh]", target) and not case.option("i"):
        # (a day without a time stays as it is)
        strict = "-1s" if "-" in target else "1s"
        lines = words.ask("add", strict, "--within", lines=case.given)[0] if case.options.get("n") else case.given
        return words.ask("round", "--within", "--", "-", spans(target[1:])[0], lines=lines)[0]
    for text in days or found_in(case, case.given, words):
        try:
            day = words.one("parse", pattern_for(case.option("i"), text), text, "--format", "%FT%T" if re.search("%[HTs]", case.option("i")) else "%F") if case.option("i") else plain(text, words, case)
        except NoWords:
            if case.options.get("E"):
                continue
            raise
        for each in targets(target):
            day = rounded(day.replace(" ", "T"), each, bool(case.options.get("n")), words)
        if zone:
            day = words.one("in", case.option("z") or "UTC", day, "--from-zone", case.option("from") or "UTC", "--format", "%FT%T")
        form = case.option("f") or form_of(day if case.option("i") else text)
        found.append(day if form in ("%F", "%FT%T", "%T") else words.one("format", pattern(form), day))
    return found


def targets(text):
    """The targets that a text names: a number and its unit, a weekday or a month, each with its sign, and a `/` where multiples are meant."""
    many, text = text.startswith("/"), text.lstrip("/")
    if re.fullmatch(r"(?i)[+-]?[a-z]+", text):
        return [(False, text.startswith("-"), 0, text.lstrip("+-").lower()[:3])]
    sign, found = "", []
    for mark, count, unit in re.findall(r"([+-]?)(\d+)([a-z]*)", text):
        sign = mark or sign
        found.append((many, sign == "-", int(count), unit))
    return found


def due(day, cron, back, strict, words):
    """The next or the last day or time of a schedule, which the day or the time itself may be."""
    timed = "T" in day
    moment = day if timed else f"{day}T00:00"
    if not strict:
        moment = words.one("add", moment, "1s" if back else "-1s")
    return words.one("prev" if back else "next", cron, "--from", moment, "--format", "%FT%T" if timed else "%F")


SECONDS = {"s": 60, "m": 3600, "h": 86400}
WEEKDAYS = ("mon", "tue", "wed", "thu", "fri", "sat", "sun")
MONTHS = ("jan", "feb", "mar", "apr", "may", "jun", "jul", "aug", "sep", "oct", "nov", "dec")


def rounded(day, target, strict, words):
    """A day or a time, rounded to a target."""
    many, back, count, unit = target
    sign = "-" if back else ""
    if unit in WEEKDAYS:
        start = words.one("add", day, f"{sign}1d") if strict else day
        return words.one("round", words.one("add", start, "-6d") if back else start, unit)
    if unit in MONTHS:
        return due(day, f"0 0 {int(words.one('format', '%d', day))} {MONTHS.index(unit) + 1} *", back, strict, words)
    if unit in ("", "d") and not many:
        return due(day, f"0 0 {count} * *", back, strict, words)
    if many and (unit, count) == ("b", 1):
        return due(day, "0 0 * * 1-5", back, strict, words)
    if many and unit in ("mo", "q"):
        return due(day, f"0 0 1 */{count * (3 if unit == 'q' else 1)} *", back, strict, words)
    if unit == "w" and not many and not strict:
        rule = f"FREQ=YEARLY;BYWEEKNO={count};BYDAY={words.one('format', '%a', day)[:2].upper()}"
        if not back:
            return words.one("rule", rule, "--start", day, "--count", "1")
        return words.ask("grep", "--until", day, lines=words.ask("rule", rule, "--start", words.one("add", day, "-2y"), "--count", "3")[0])[0][-1]
    if unit not in SECONDS:
        raise NoWords("rounding to years")
    if ":" not in day:
        raise NoWords("a day that is rounded to a time, which leaves it as it is there")
    start = words.one("add", day, "-1s" if back else "1s") if strict else day
    if many:
        return words.one("round", start, "--", f"{sign}{count}{UNITS[unit]}")
    hour, minute, second = map(int, words.one("format", "%H %M %S", day).split())
    over = {"s": count, "m": count * 60 + second, "h": count * 3600 + minute * 60 + second}[unit]
    reached = words.one("round", words.one("add", start, f"-{over}s"), "--", f"{sign}{SECONDS[unit]}s")
    return words.one("add", reached, f"{over}s")


COMPARED = {"lt": "-lt", "le": "-le", "eq": "-eq", "ne": "-ne", "ge": "-ge", "gt": "-gt", "nt": "-gt", "ot": "-lt"}


def of_dtest(case, words):
    """The exit status as a line."""
    if case.options.get("isvalid"):
        read = case.option("i")
        text = case.operands[0]
        return [str(words.ask("parse", pattern(read), text)[1] if read else words.ask("format", "%F", text)[1])]
    name = next((it for it in COMPARED if it in case.options), None)
    first, other = case.operands
    zone = ["--zone", "UTC"] if "now" in (first, other) and "T" in first + other else []
    if not zone:
        first, other = (words.one("format", "%F", "today") if it in ("now", "today") else it for it in (first, other))
    if "T" in first + other:
        # (a day beside a time is its midnight)
        first, other = (it + "T00:00" if re.fullmatch(r"\d{4}-\d\d-\d\d", it) else it for it in (first, other))
    try:
        if name:
            return [str(words.ask("test", first, COMPARED[name], other, *zone)[1])]
        less, more = words.ask("test", first, "-lt", other)[1], words.ask("test", first, "-gt", other)[1]
    except Refused:
        # (what cannot be compared is refused here)
        return ["3"]
    return ["2" if less == 0 else "1" if more == 0 else "0"]


GREPPED = {"<": "-lt", "<=": "-le", "=": "-eq", "": "-eq", "!=": "-ne", ">": "-gt", ">=": "-ge"}
BOUNDS = {"<": ["--before"], "<=": ["--until"], "=": ["--from", "--until"], "": ["--from", "--until"], ">": ["--after"], ">=": ["--from"]}


def of_dgrep(case, words):
    """The lines whose day is looked for."""
    sign, day = re.fullmatch(r"([<>!=]*)(.*)", case.operands[0] if case.operands else "").groups()
    for name in COMPARED:
        if name in case.options:
            sign = {v: k for k, v in GREPPED.items()}[COMPARED[name]]
    if case.options.keys() & {"z", "from"}:
        raise NoWords("lines by the clock of a zone")
    read, lines = reading(case), case.given
    if sign == "!=":
        sign = "="
        if not case.options.pop("v", False):
            # (the other lines, and of those the ones that have a day)
            case.options["v"], lines = True, words.ask("grep", *read, lines=lines)[0]
    if re.match(r"\d{4}-|today|now", day) and (read or day == "now"):
        day = words.one("format", read[1] if read else "%FT%T", f"{day}T00:00" if "%H" in "".join(read) and day[0] == "2" else day)
    flags = ["--not"] * bool(case.options.get("v")) + ["--only"] * bool(case.options.get("o"))
    return words.ask("grep", *[it for bound in BOUNDS[sign] for it in (bound, day)], *flags, *read, lines=lines)[0]


def of_dsort(case, words):
    return words.ask("sort", *(["--reverse"] if case.options.get("r") else []), lines=case.given)[0]


def of_dzone(case, words):
    zones = [it for it in case.operands if re.match(r"[A-Z]", it)]
    times = [it for it in case.operands if it not in zones]
    if case.options.keys() & {"n", "p"}:
        return [f"{set_at(zone, time, bool(case.options.get('p')), words)}\t{zone}" for zone in zones for time in times or ["2024-01-01"]]
    from_zone = ["--from-zone", case.option("from") or "UTC"]
    found = []
    for time in times:
        for zone in zones or [""]:
            dated = "" if re.match(r"\d\d:", time) else "%FT"
            lines = words.ask("in", zone or "UTC", time, *from_zone, *reading(case), "--format", f"{dated}%T%:z")[0]
            found += [f"{it}\t{zone}" if zone else it for it in lines]
    return found


def set_at(zone, time, back, words):
    """What a zone's clock shows when it is set next after a time, or was set last before: without being set, and set."""
    moment = f"{time if 'T' in time else time + 'T00:00'}Z"
    years = range(int(time[:4]), int(time[:4]) + (-60 if back else 2), -1 if back else 1)
    found = [it.split()[0] for year in years for it in words.ask("zone", zone, "--year", str(year))[0]]
    beside = [it for it in found if words.ask("test", it, "-lt" if back else "-gt", moment)[1] == 0]
    arrow = "<-" if back else "->"
    if not beside:
        return f"never {arrow} never"
    there = max(beside, key=lambda it: words.one("in", "UTC", it)) if back else beside[0]
    unset = words.one("add", words.one("in", zone, words.one("add", there, "-1s"), "--format", "%FT%T%:z"), "1s")
    return f"{unset} {arrow} {there}"


TOOLS = {"dadd": of_dadd, "dconv": of_dconv, "strptime": of_dconv, "ddiff": of_ddiff, "dseq": of_dseq, "dround": of_dround, "dtest": of_dtest,
         "dgrep": of_dgrep, "dsort": of_dsort, "dzone": of_dzone}


def cases(folder):
    """The commands of the suite by their files, each with its lines of input and of output."""
    for path in sorted(glob.glob(f"{folder}/test/*.ctst")):
        with open(path, encoding="utf-8", errors="replace") as it:
            parts = re.split(r"^\$ ?", it.read().replace("\\\n", " "), flags=re.M)[1:]
        files = {"": f"{folder}/test"}
        for part in parts:
            command, _, rest = part.partition("\n")
            document = re.search(r"<<\s*(\w+)", command)
            read, _, printed = rest.partition(f"{document[1]}\n") if document else (None, "", rest)
            if command.strip():
                yield command, None if read is None else read.splitlines(), [it for it in printed.splitlines() if it.strip() and not it.startswith("##")], files


def lines_of(name, files):
    """The lines of a file that a case wrote, or that the suite has."""
    path = name.replace("${srcdir}", files[""])
    if name != path:
        with open(path, encoding="utf-8", errors="replace") as it:
            return it.read().splitlines()
    return files.get(name)


def answer(command, given, words, files):
    """What `dates` answers to a command of the suite."""
    text = re.sub(r"<<\s*\w+", "", command)
    text = re.sub(r"^(!|\?2)\s*", "", text)
    text, _, to_file = text.partition(" > ")
    text, _, of_status = re.sub(r";\s*echo .*|(\|\||&&)\s*echo.*", "", text), "", ""
    lines = given
    for segment in text.split(" | "):
        segment, _, source = segment.partition(" < ")
        words_of = shlex.split(segment)
        if source:
            lines = lines_of(shlex.split(source)[0], files)
            if lines is None:
                raise NoWords("a file of the suite")
        if words_of[0] == "echo":
            lines = words_of[1:]
        elif words_of[0] == "printf":
            lines = words_of[1].replace("\\n", "\n").splitlines()
        elif words_of[0] in TOOLS:
            named = words_of[-1] if words_of[-1].startswith("${srcdir}") else None
            case = Case(words_of[:-1] if named else words_of, lines_of(named, files) if named else lines)
            lines = TOOLS[case.tool](case, words)
        else:
            raise NoWords("another program behind it")
    if to_file:
        files[shlex.split(to_file)[0]] = lines
        return []
    return lines


def wanted_of(command, printed, files):
    """What the suite wants."""
    if len(printed) == 1 and printed[0].startswith("< "):
        name = shlex.split(printed[0][2:])[0]
        if name not in files:
            raise NoWords("the answer of a command that has no words")
        return files[name]
    if "dtest" not in command:
        return printed
    if "echo $?" in command or 'echo "${?}"' in command:
        return printed
    holds = "0" if ("&&" in command or "isvalid" in command and not command.startswith("!")) else "1"
    return [holds]


class Tally:
    """What the cases came to, each by its reason."""

    def __init__(self):
        self.equal, self.by_more = 0, 0
        self.apart, self.decided, self.wrong = collections.Counter(), collections.Counter(), []

    def print(self):
        for kind, counted in (("no words", self.apart), ("decided", self.decided)):
            for why, count in counted.most_common():
                print(f"{count:5} {kind}: {why}")
        for it in self.wrong:
            print(it)
        decided, apart = sum(self.decided.values()), sum(self.apart.values())
        print(f"{self.equal + len(self.wrong) + decided + apart} commands, {self.equal} equal, {decided} decided, {apart} without words")
        print(f"of the equal ones {self.by_more} take more commands here than there")
        print(f"{self.equal} passed, {len(self.wrong)} failed")


def compare(tally, words, shown, command, given, printed, files):
    """Compares the answer to a case with what the suite wants, if it has words here."""
    searched = " ".join([command, *(given or [])[:3], *printed[:1]])
    reason = next((it for it, form in APART.items() if re.search(form, searched)), None)
    before = words.asked
    try:
        if reason:
            raise NoWords(reason)
        found = answer(command, given, words, files)
        want = wanted_of(command, printed, files)
    except NoWords as why:
        if isinstance(why, Refused) and not printed and re.match(r"!|\?2", command):
            # (both refuse it)
            tally.equal += 1
            return
        tally.apart[str(why)] += 1
        if shown:
            print(f"{why}: {command}")
        return
    if found == want:
        tally.equal += 1
        tally.by_more += words.asked - before > command.count(" | ") + 1
        return
    whole = " ".join([command, *(given or []), *printed])
    why = next((it for it, form in DECIDED.items() if re.search(form, whole)), None)
    if why:
        tally.decided[why] += 1
    else:
        tally.wrong.append(f"{command}: {found[:3]}, not {want[:3]}")


def main():
    shown = "--list" in sys.argv
    folders = [it for it in sys.argv[1:] if it != "--list"]
    with tempfile.TemporaryDirectory(prefix="dates-dateutils-") as room:
        try:
            folder = folders[0] if folders else fetch(room)
        except (OSError, IndexError, subprocess.CalledProcessError):
            print("not run: Debian's source of dateutils cannot be had\n0 passed, 0 failed")
            return 0
        words, tally = Words(os.environ.get("DATES") or dates.find_program()), Tally()
        for case in cases(folder):
            compare(tally, words, shown, *case)
    tally.print()
    return 1 if tally.wrong else 0


if __name__ == "__main__":
    sys.exit(main())
