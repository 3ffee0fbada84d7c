#!/usr/bin/env python3
"""Holds zone_file, zone_text and zone to a second reader of TZif files: jiff_tz, a crate of the kit.

    python3 -m checks.zones.zone_readers [--seed N] [--changed N]      (seed 1 and 20,000 files, if left out)

Both read each file of the system's database, and files of these with one byte changed. Where both make a zone of a file, its offsets
at 40 instants are compared. Where one alone does, the file has to show why: REASONS says for each kind of difference what the file
must have, and with the two verdicts exchanged it must show nothing. A small program is run unproved by `rt try`, in a copy of the
crates.
"""
import argparse
import collections
import itertools
import random
import struct
import subprocess
import sys
import tempfile

from checks.zones.zones import DAY, Rule, year_of, zones
from repositories import put_program

PROGRAM = r'''//! Reads files with a byte changed by two readers, and says what each makes of them.
#![tactic(auto)]

use jiff_core::{Error, Timestamp};
use jiff_tz::{TimeZone, Tzif};
use std::alloc::Global;
use std::io::{self, BufRead, BufReader};
use zone::{Zone, ZoneFault};
use zone_rule::{FixedOffset, ZoneRule};
use zone_table::Row;

fn main(rt: HostRuntime) -> io::Result<()> {
    let mut bytes = Vec::new(rt.alloc());
    for line in BufReader::new(rt.alloc(), rt.reader())?.lines(rt.alloc()) {
        let line = line?;
        let mut words = line.as_str().split_ascii_whitespace();
        if words.next() == Some("file") {
            bytes.clear();
            for pair in line.as_str()[5..].as_bytes().chunks_exact(2) {
                bytes.push(digit_of(pair[0]) * 16 + digit_of(pair[1]))?;
            }
            let (ours, theirs, differing) = verdicts(rt.alloc(), bytes.as_slice());
            println!(rt; "= {ours} {theirs} {differing}")?;
        } else {
            let place: usize = words.next().unwrap_or("").parse().unwrap_or(0);
            let change: u8 = words.next().unwrap_or("").parse().unwrap_or(0);
            bytes[place] ^= change;
            let (ours, theirs, differing) = verdicts(rt.alloc(), bytes.as_slice());
            println!(rt; "= {ours} {theirs} {differing}")?;
            bytes[place] ^= change;
        }
    }
    Ok(())
}

// What each reader says, and at how many instants their offsets differ.
fn verdicts(alloc: Global, bytes: &[u8]) -> (&'static str, &'static str, u32) {
    let Some(utc) = FixedOffset::east_opt(0) else {
        return ("", "", 0);
    };
    let mut rows = [Row { second: 0, offset: utc }; 512];
    let theirs = Tzif::parse(alloc, None, bytes);
    let (said, ours) = zone_of(bytes, &mut rows);
    match (ours, &theirs) {
        (Some(zone), Ok(tzif)) => (said, "zone", differing(&zone, &TimeZone::Tzif(tzif))),
        (_, Ok(_)) => (said, "zone", 0),
        (_, Err(Error::Tzif(_))) => (said, "fault", 0),
        _ => (said, "error", 0),
    }
}

fn zone_of<'a>(bytes: &[u8], room: &'a mut [Row]) -> (&'static str, Option<Zone<'a>>) {
    let Ok(file) = zone_file::read(bytes) else {
        return ("file", None);
    };
    let Some(first) = file.kind(0) else {
        return ("kind", None);
    };
    let Ok(read) = file.read_rows(room) else {
        return ("rows", None);
    };
    let Ok(rule) = rule_of(file.footer) else {
        return ("rule", None);
    };
    match Zone::new(first.offset, &room[..read], rule) {
        Ok(zone) => ("zone", Some(zone)),
        Err(ZoneFault::Unordered(_)) => ("unordered", None),
        Err(ZoneFault::NotJoined) => ("joined", None),
    }
}

fn rule_of(footer: &[u8]) -> Result<Option<ZoneRule>, ()> {
    if footer.is_empty() {
        return Ok(None);
    }
    match zone_text::read(footer) {
        Ok(zone) => Ok(Some(zone.rule)),
        Err(_) => Err(()),
    }
}

fn differing(ours: &Zone<'_>, theirs: &TimeZone<'_>) -> u32 {
    let mut drawn: u64 = 1;
    let mut count = 0;
    for _ in 0..40 {
        drawn = drawn.wrapping_mul(6_364_136_223_846_793_005).wrapping_add(1_442_695_040_888_963_407);
        // From 1834 to 2106.
        let second = ((drawn >> 31) as i64) - 4_294_967_296;
        let Ok(instant) = Timestamp::from_nanosecond(i128::from(second) * 1_000_000_000) else {
            return 40;
        };
        if i128::from(ours.offset_of_instant(second).local_minus_utc()) * 1_000_000_000 != theirs.to_offset(instant).to_nanosecond() {
            count += 1;
        }
    }
    count
}

fn digit_of(byte: u8) -> u8 {
    if byte < 97 { byte - 48 } else { byte - 87 }
}
'''


# The last second of a row, and the greatest offset, that jiff_tz has.
LAST_OF_JIFF, MOST_OF_JIFF = 253_402_207_200, 93_599


class Parts:
    """The parts of a file as both readers cut them off, whatever its version: the counts, and what stands behind them."""

    def __init__(self, data):
        self.version, at = data[4], 0
        for size in (4,) if not self.version else (4, 8):
            self.last_version = data[at + 4]
            self.counts = struct.unpack(">6L", data[at + 20 : at + 44])
            isut, isstd, leap, times, kinds, chars = self.counts
            ends = list(itertools.accumulate((times * size, times, kinds * 6, chars, leap * (size + 4), isstd, isut), initial=at + 44))
            at = ends[-1]
        _, self.places, kinds, self.names, _, self.isstd, self.isut = (data[a:b] for a, b in itertools.pairwise(ends))
        self.times = struct.unpack(f">{times}{'l' if size == 4 else 'q'}", data[ends[0] : ends[1]])
        self.kinds = list(struct.iter_unpack(">lBB", kinds))
        self.tail = data[at:]
        self.text = self.tail[1:].partition(b"\n")[0]
        self.rule = Rule.read(self.text.decode("latin-1")) if self.text else None

    def goes_on(self):
        """Whether bytes follow the one block of version 1, or the second newline of a later version."""
        return len(self.tail) > (len(self.text) + 2 if self.version else 0)

    def name(self, kind):
        """The name of a kind, or None where it does not end."""
        name, end, _ = self.names[kind[2] :].partition(b"\0")
        return name if end else None

    def last_kind(self):
        return self.kinds[self.places[-1]] if self.places else self.kinds[0]

    def sets_soon(self):
        """Whether the rule sets the clock to another offset within two days behind the last row."""
        last, offset = self.times[-1], self.last_kind()[0]
        years = range(year_of(last) - 1, year_of(last) + 2)
        return any(last < it <= last + 2 * DAY and self.rule.at(it) != offset for year in years for it, _, _ in self.rule.changes(year))

    def names_end(self):
        """Whether each kind has a name that is text and has at most 15 bytes."""
        names = [self.name(it) for it in self.kinds]
        return all(it is not None and len(it) <= 15 and it.decode("utf-8", "replace").encode() == it for it in names)

    def rule_differs(self):
        """Whether the rule shows another name than the last row, or takes it for daylight time where the row does not."""
        if not self.rule or not self.times:
            return False
        year = year_of(self.times[-1])
        come = [it for near in (year - 1, year, year + 1) for it in self.rule.changes(near) if it[0] <= self.times[-1]]
        is_dst = max(come)[1] if come else 0
        kind = self.last_kind()
        return is_dst != (kind[1] == 1) or self.rule.names[is_dst].encode() != self.name(kind)

    def indicators_fit(self):
        """Whether each indicator is 0 or 1, and a kind in UT is one of standard time too, as RFC 9636 has it."""
        standard = self.isstd or bytes(len(self.isut))
        return {*self.isstd, *self.isut} <= {0, 1} and all(std for std, ut in zip(standard, self.isut) if ut)


# What our reader says, what jiff_tz says, why they differ, and what the file has then.
REASONS = (
    ("file", "zone", "jiff_tz takes each version that is not 0 as a later one", lambda it: it.version not in b"\x00234"),
    ("file", "zone", "jiff_tz does not look at the version of the second header", lambda it: it.last_version != it.version),
    ("file", "zone", "jiff_tz steps over leap seconds", lambda it: it.counts[2] > 0),
    ("file", "zone", "jiff_tz lets bytes follow what it reads", lambda it: it.goes_on()),
    ("kind", "zone", "jiff_tz takes each byte but 1 as standard time", lambda it: it.kinds[0][1] > 1),
    ("kind", "zone", "jiff_tz takes offsets of a day and more", lambda it: abs(it.kinds[0][0]) >= DAY),
    ("rows", "zone", "jiff_tz takes offsets of a day and more", lambda it: any(abs(at) >= DAY for at, _, _ in it.kinds)),
    ("unordered", "zone", "jiff_tz takes two rows at one second", lambda it: any(a == b for a, b in itertools.pairwise(it.times))),
    ("joined", "zone", "jiff_tz lets the rule change the offset soon behind the last row", lambda it: it.sets_soon()),
    ("joined", "zone", "jiff_tz moves a row past the year 9999 to its end", lambda it: it.times[-1] > LAST_OF_JIFF),
    ("zone", "fault", "jiff_tz reads the offsets of all kinds, and our reader those that rows have", lambda it: any(abs(at) > MOST_OF_JIFF for at, _, _ in it.kinds)),
    ("zone", "fault", "jiff_tz reads all names, and wants text of 15 bytes at most", lambda it: not it.names_end()),
    ("zone", "fault", "jiff_tz compares the rule's name and daylight time with the last row's too", lambda it: it.rule_differs()),
    ("zone", "fault", "jiff_tz checks the indicators, which our reader steps over", lambda it: not it.indicators_fit()),
)


def reason(data, ours, theirs):
    """Why two readers differ on a file, or None."""
    parts = Parts(data)
    found = (text for said, other, text, has in REASONS if (said, other) == (ours, theirs) and has(parts))
    return next(found, None)


def main():
    parser = argparse.ArgumentParser(description=__doc__.partition("\n")[0])
    parser.add_argument("--seed", type=int, default=1)
    parser.add_argument("--changed", type=int, default=20_000)
    options = parser.parse_args()
    draw = random.Random(options.seed)
    known = list(zones())
    if not known:
        print("not run: checks/zones/zone_readers.py, which needs a database of time zones")
        return
    files, lines = [], []
    for zone in known:
        files.append((zone, zone.data))
        lines.append(f"file {zone.data.hex()}")
        for _ in range(options.changed // len(known) + 1):
            place, change = draw.randrange(len(zone.data)), draw.randrange(1, 256)
            if draw.random() < 0.5:
                place = draw.choice((draw.randrange(44), max(0, len(zone.data) - 1 - draw.randrange(300))))
            files.append((zone, zone.data[:place] + bytes([zone.data[place] ^ change]) + zone.data[place + 1 :]))
            lines.append(f"byte {place} {change}")
    with tempfile.TemporaryDirectory(prefix="zone-readers-") as room:
        folder = put_program(room, "zone_readers", ["zone_table", "zone_rule", "zone_text", "zone_file", "zone"], PROGRAM, ("jiff_core", "jiff_tz"))
        said = subprocess.run(["rt", "try", "--seconds", "1200"], cwd=folder, input="".join(f"{it}\n" for it in lines), stdout=subprocess.PIPE, stderr=subprocess.STDOUT, text=True, errors="replace").stdout
    answers = [it[2:].split() for it in said.splitlines() if it.startswith("= ")]
    if len(answers) != len(lines):
        sys.exit(f"{len(answers)} answers for {len(lines)} lines:\n{said[-3000:]}")
    differing = [(zone, data, ours, theirs) for (zone, data), (ours, theirs, _) in zip(files, answers) if (ours == "zone") != (theirs == "zone")]
    reasons = collections.Counter(reason(data, ours, theirs) for _, data, ours, theirs in differing)
    failed = [f"{zone.info.key}: {ours}, and jiff_tz {theirs}" for zone, data, ours, theirs in differing if not reason(data, ours, theirs)]
    failed += [f"{zone.info.key}: offsets differ at {count} instants" for (zone, _), (_, _, count) in zip(files, answers) if count != "0"]
    failed += [f"{zone.info.key}: {ours}, and jiff_tz {theirs}" for (zone, data), (ours, theirs, _) in zip(files, answers) if data is zone.data and (ours, theirs) != ("zone", "zone")]
    for it in failed[:20]:
        print(f"FAILED: {it}")
    if any(reason(data, theirs, ours) for _, data, ours, theirs in differing):
        sys.exit("verdicts exchanged have a reason too")
    for text, count in reasons.most_common():
        print(f"{count} files: {text}")
    print(f"{sum(ours == 'zone' for ours, _, _ in answers)} zones of {len(files)} files")
    print(f"{len(files) - len(failed)} passed, {len(failed)} failed")
    sys.exit(bool(failed))


if __name__ == "__main__":
    main()
