#!/usr/bin/env python3
"""Holds zone_database to Python's zoneinfo and GNU date: all names of the system's database, the machine's own zone, and files that are no zone's.

    python3 -m checks.zones.zone_database [--seed N] [--instants N]      (seed 1 and 100 instants of each zone, if left out)

At each instant the offset, the name and whether it is daylight time are those of zoneinfo. At 10,000 instants of a hundred zones
the offset and the name are also those that GNU date prints. Names that leave the folder, and files
that are no zone's, have to be refused, each for its own reason. The machine's zone is read with several texts of TZ. `rt try` runs a
small program unproved, in a copy of the crates: it answers the lines, and what differs is printed. A second comparison with one
answer changed has to find it.
"""
import argparse
import datetime
import os
import random
import re
import shutil
import subprocess
import sys
import tempfile
import zoneinfo

from repositories import put_program

UTC = datetime.timezone.utc
# What zoneinfo has, two days from the ends of its years, and the years in which the tables have rows.
FIRST, LAST = -62_135_596_800 + 172_800, 253_402_300_799 - 172_800
OFTEN = (-3_000_000_000, 2_200_000_000)
PROGRAM = r'''//! Answers questions on zones by name, a line each.
#![tactic(auto)]

use std::alloc::{Allocator, Global};
use std::env::FillError;
use std::fs::{Metadata, OpenOptions};
use std::io::{self, BufRead, BufReader};
use std::path::PathBuf;
use std::rt::{Env, Files};
use zone_database::{Database, LocalZone, OwnedZone, local_zone, system_database};

// The machine with two variables in its environment, TZ and TZDIR, each where it is not `-`.
#[derive(Drop)]
struct Machine<'a>(&'a HostRuntime, &'a str, &'a str);

impl Alloc for Machine<'_> {
    type A = Global;

    fn alloc(&self) -> Global {
        self.0.alloc()
    }
}

impl Env for Machine<'_> {
    fn arg(&self, i: usize, buf: &mut [u8]) -> Result<usize, FillError> {
        self.0.arg(i, buf)
    }

    fn var(&self, name: &str, buf: &mut [u8]) -> Result<usize, FillError> {
        let value = match name {
            "TZ" => self.1,
            "TZDIR" => self.2,
            _ => "-",
        };
        if value == "-" {
            return Err(FillError::NotPresent);
        }
        if buf.len() < value.len() {
            return Err(FillError::TooLong);
        }
        buf[..value.len()].copy_from_slice(value.as_bytes());
        Ok(value.len())
    }

    fn var_at(&self, i: usize, buf: &mut [u8]) -> Result<usize, FillError> {
        self.0.var_at(i, buf)
    }
}

impl Files for Machine<'_> {
    type File = <HostRuntime as Files>::File;

    type Dir = <HostRuntime as Files>::Dir;

    fn open_file(&self, how: &OpenOptions, path: &str) -> io::Result<Self::File> {
        self.0.open_file(how, path)
    }

    fn open_dir(&self, path: &str) -> io::Result<Self::Dir> {
        self.0.open_dir(path)
    }

    fn metadata(&self, path: &str) -> io::Result<Metadata> {
        Files::metadata(self.0, path)
    }

    fn symlink_metadata(&self, path: &str) -> io::Result<Metadata> {
        self.0.symlink_metadata(path)
    }

    fn copy(&self, from: &str, to: &str) -> io::Result<u64> {
        self.0.copy(from, to)
    }

    fn rename(&self, from: &str, to: &str) -> io::Result<()> {
        self.0.rename(from, to)
    }

    fn remove_file(&self, path: &str) -> io::Result<()> {
        self.0.remove_file(path)
    }

    fn create_dir(&self, path: &str) -> io::Result<()> {
        self.0.create_dir(path)
    }

    fn remove_dir(&self, path: &str) -> io::Result<()> {
        self.0.remove_dir(path)
    }

    fn remove_dir_all<B: Allocator>(&self, alloc: B, path: &str) -> io::Result<()> {
        self.0.remove_dir_all(alloc, path)
    }

    fn read_link<B: Allocator>(&self, alloc: B, path: &str) -> io::Result<PathBuf<B>> {
        self.0.read_link(alloc, path)
    }
}

fn main(rt: HostRuntime) -> io::Result<()> {
    let Ok(mut database) = system_database(&rt) else {
        return Ok(());
    };
    let Ok(mut zone) = OwnedZone::utc(rt.alloc()) else {
        return Ok(());
    };
    for line in BufReader::new(rt.alloc(), rt.reader())?.lines(rt.alloc()) {
        let line = line?;
        let (call, word) = line.as_str().split_once(' ').unwrap_or((line.as_str(), ""));
        match call {
            "folder" => {
                database = Database::new(String::from_str(rt.alloc(), word)?);
                println!(rt; "= {}", database.folder())?
            }
            "zone" => match database.zone(&rt, word) {
                Ok(read) => {
                    zone = read;
                    println!(rt; "= read")?
                }
                Err(error) => println!(rt; "= {error:?}: {error}")?,
            },
            "rule" => match OwnedZone::from_posix(rt.alloc(), word.as_bytes()) {
                Ok(read) => {
                    zone = read;
                    println!(rt; "= read")?
                }
                Err(error) => println!(rt; "= {error:?}: {error}")?,
            },
            "rows" => {
                let mut bytes = Vec::new(rt.alloc());
                for pair in word.as_bytes().chunks_exact(2) {
                    bytes.push(digit_of(pair[0]) * 16 + digit_of(pair[1]))?;
                }
                match OwnedZone::from_tzif_rows(rt.alloc(), bytes) {
                    Ok(read) => {
                        zone = read;
                        println!(rt; "= rows {:?} {:?}", zone.rule().is_none(), zone.rule_text())?
                    }
                    Err(error) => println!(rt; "= {error:?}: {error}")?,
                }
            }
            "local" => {
                let (tz, folder) = word.split_once(' ').unwrap_or((word, "-"));
                match local_zone(&Machine(&rt, tz, folder)) {
                Ok(read) => {
                    let LocalZone { name, zone: local } = read;
                    zone = local;
                    match name {
                        Some(name) => println!(rt; "= named {name}")?,
                        None => println!(rt; "= unnamed")?,
                    }
                }
                Err(error) => println!(rt; "= {error:?}: {error}")?,
                }
            }
            _ => {
                let second: i64 = word.parse().unwrap_or(0);
                let offset = zone.zone().offset_of_instant(second);
                match zone.kind_at(second) {
                    Some(kind) if kind.offset == offset => {
                        let daylight = if kind.is_dst { "*" } else { "" };
                        println!(rt; "= {} {}{daylight}", offset.local_minus_utc(), zone.abbreviation(second).unwrap_or("?"))?
                    }
                    _ => println!(rt; "= another kind")?,
                }
            }
        }
    }
    Ok(())
}

fn digit_of(byte: u8) -> u8 {
    if byte < 97 { byte - 48 } else { byte - 87 }
}
'''
# Names that leave the folder or can be no zone's.
NO_NAMES = ("", "/", "/etc/localtime", "//UTC", "UTC/", "Europe//Berlin", "..", ".", "./UTC", "../passwd", "Europe/../UTC", "Europe/./Berlin", "zone.tab", "~", "Europe\\Berlin", "Europe/Ber lin", "Zürich", "a" * 256)
# Names that may be a zone's, of which there is no file: the first is a folder.
NO_ZONES = ("Europe", "Europe/Berlinn", "UTC/UTC", "-", "+", "_", "a" * 255, "/".join("a" * 120))


def told(zone, second):
    """What the program tells of a zone at an instant: the offset, and the name, with a `*` in daylight time."""
    local = datetime.datetime.fromtimestamp(second, UTC).astimezone(zone)
    return f"{int(local.utcoffset().total_seconds())} {local.tzname()}{'*' * bool(local.dst())}"


def of_zones(draw, instants):
    """Each zone of the database, and instants of it."""
    for name in sorted(zoneinfo.available_timezones()):
        zone = zoneinfo.ZoneInfo(name)
        yield f"zone {name}", "read"
        for _ in range(instants):
            second = draw.randrange(*OFTEN) if draw.random() < 0.8 else draw.randrange(FIRST, LAST)
            yield f"at {second}", told(zone, second)


def of_gnu_date(draw, zones=100, instants=100):
    """Some zones, and instants of them, as GNU date tells them."""
    for name in draw.sample(sorted(zoneinfo.available_timezones()), zones):
        seconds = [draw.randrange(*OFTEN) for _ in range(instants)]
        said = subprocess.run(["date", "--file=-", "+%::z %Z"], input="".join(f"@{it}\n" for it in seconds), env={**os.environ, "TZ": name, "LC_ALL": "C"},
                              capture_output=True, text=True, check=True).stdout.split("\n")
        yield f"zone {name}", "read"
        for second, line in zip(seconds, said):
            hours, minutes, rest = re.fullmatch(r"([+-]\d\d):(\d\d):(\d\d) .*", line).groups()
            offset = (-1 if line[0] == "-" else 1) * (abs(int(hours)) * 3600 + int(minutes) * 60 + int(rest))
            # (GNU date does not tell daylight time)
            daylight = "*" * told(zoneinfo.ZoneInfo(name), second).endswith("*")
            yield f"at {second}", f"{offset} {line.partition(' ')[2]}{daylight}"


def of_faults(folder):
    """Names and files that are no zone's, each with what the program has to say; the files are in the folder."""
    yield from ((f"zone {it}", "NoName: no time zone has such a name") for it in NO_NAMES)
    yield from ((f"zone {it}", "NoSuchZone: there is no such time zone") for it in NO_ZONES)
    with open(os.path.join(next(iter(zoneinfo.TZPATH)), "Europe/Berlin"), "rb") as it:
        berlin = it.read()
    place = berlin.rindex(b"TZif")
    badly = {
        "empty": (b"", "File(ZoneFileError { fault: CutOff, byte: 0 }): its file at byte 0: the file is cut off"),
        "text": (b"?" * 99, "File(ZoneFileError { fault: NoHeader, byte: 0 }): its file at byte 0: no header of a TZif file stands there"),
        "other": (berlin[: place + 4] + b"\xff" + berlin[place + 5 :], f"File(ZoneFileError {{ fault: OtherVersion, byte: {place} }}): its file at byte {place}: the two headers name different versions"),
        "version": (b"TZif9" + berlin[5:], "File(ZoneFileError { fault: UnknownVersion, byte: 0 }): its file at byte 0: an unknown version"),
        "long": (berlin + bytes(1_048_576), "LongFile: its file has more than 1 MiB"),
        "longest": (berlin + bytes(1_048_576 - len(berlin)), f"File(ZoneFileError {{ fault: WrongFooter, byte: {berlin.rindex(bytes((10,)), 0, -1)} }}): its file at byte {berlin.rindex(bytes((10,)), 0, -1)}: the footer is wrong"),
        "counts": (berlin[: place + 36] + bytes(4) + berlin[place + 40 :], f"File(ZoneFileError {{ fault: WrongCounts, byte: {place} }}): its file at byte {place}: the header's counts are wrong"),
        "rule": (berlin.replace(b"CET-1CEST,", b"CET-1CESTx"), 'Rule(ZoneTextError { fault: NoDays, byte: 12 }): its rule at byte 12: the days of daylight time are missing'),
        "joined": (berlin.replace(b"CET-1CEST,", b"CET-4CEST,"), "Zone(NotJoined): the rule does not go on from the last row"),
    }
    # (the rows are read without the rule, so the last offset holds for ever)
    yield f"rows {badly['joined'][0].hex()}", 'rows true ""'
    yield from ((f"at {second}", told(zoneinfo.ZoneInfo("Europe/Berlin"), second)) for second in (-1, 1_719_792_000, 2_140_000_000))
    yield "at 2224800000", "3600 CET"
    yield f"rows {badly['version'][0].hex()}", badly["version"][1]
    yield f"folder {folder}", folder
    for name, (data, why) in badly.items():
        with open(os.path.join(folder, name), "wb") as it:
            it.write(data)
        yield f"zone {name}", why
    with open(os.path.join(folder, "good"), "wb") as it:
        it.write(berlin)
    os.symlink("good", os.path.join(folder, "link"))
    os.symlink("link", os.path.join(folder, "round"))
    os.symlink("nowhere", os.path.join(folder, "dangling"))
    os.mkfifo(os.path.join(folder, "pipe"))
    yield from ((f"zone {it}", "read") for it in ("good", "link", "round"))
    yield from ((f"zone {it}", "NoSuchZone: there is no such time zone") for it in ("dangling", "pipe"))
    yield "zone /good", "NoName: no time zone has such a name"


def answers_of(room, questions):
    """What the program answers."""
    folder = put_program(room, "zones", ["zone_database"], PROGRAM)
    lines = "".join(f"{it}\n" for it in questions)
    said = subprocess.run(["rt", "try", "--seconds", "1200"], cwd=folder, input=lines, stdout=subprocess.PIPE, stderr=subprocess.STDOUT, text=True, errors="replace").stdout
    if not re.search(r"^run=ended status=0 ", said, re.M):
        sys.exit(f"the program fails:\n{said[-3000:]}")
    return [line[2:] for line in said.splitlines() if line.startswith("= ")]


def of_machine(room):
    """Texts of TZ and TZDIR, each with what is told of the machine's zone and of 1 July 2024 there."""
    second = 1_719_792_000
    berlin, new_york = (f"at {second}", told(zoneinfo.ZoneInfo("Europe/Berlin"), second)), (f"at {second}", told(zoneinfo.ZoneInfo("America/New_York"), second))
    utc = (f"at {second}", "0 UTC")
    folder = next(it for it in zoneinfo.TZPATH if os.path.isdir(it))
    yield from (("local Europe/Berlin", "named Europe/Berlin"), berlin)
    yield from (("local :Europe/Berlin", "named Europe/Berlin"), berlin)
    yield from ((f"local {folder}/Europe/Berlin", "named Europe/Berlin"), berlin)
    yield from (("local EST5EDT,M3.2.0,M11.1.0", "unnamed"), new_york)
    yield from (("local UTC0", "unnamed"), utc)
    yield from (("local ", "named UTC"), utc)
    yield "local Europe/Berlinn", "NoSuchZone: there is no such time zone"
    yield "local ../UTC", "Rule(ZoneTextError { fault: NoName, byte: 0 }): its rule at byte 0: a name is missing"
    yield from ((f"local good {room}", "named good"), berlin)
    yield from ((f"local :{room}/link -", "unnamed"), berlin)
    yield f"local UTC {room}/nowhere", "NoSuchZone: there is no such time zone"
    yield from (("local Europe/Berlin ", "named Europe/Berlin"), berlin)
    if os.path.islink("/etc/localtime") and "zoneinfo/" in os.readlink("/etc/localtime"):
        name = os.readlink("/etc/localtime").partition("zoneinfo/")[2]
        yield from (("local -", f"named {name}"), (f"at {second}", told(zoneinfo.ZoneInfo(name), second)))


def differing(rows, answers):
    return [f"{it}: {a}, not {b}" for (it, b), a in zip(rows, answers) if a != b]


def main():
    parser = argparse.ArgumentParser(description=__doc__.partition("\n")[0])
    parser.add_argument("--seed", type=int, default=1)
    parser.add_argument("--instants", type=int, default=100)
    options = parser.parse_args()
    draw = random.Random(options.seed)
    rows = list(of_zones(draw, options.instants))
    if rows and shutil.which("date"):
        rows += of_gnu_date(draw)
    if not rows:
        print("not run: checks/zones/zone_database.py, which needs a database of time zones")
        return
    with tempfile.TemporaryDirectory(prefix="zone_database-") as room:
        folder = f"{room}/bad"
        os.mkdir(folder)
        rows += of_faults(folder)
        rows += of_machine(folder)
        answers = answers_of(room, [it for it, _ in rows])
    if len(answers) != len(rows):
        sys.exit(f"{len(answers)} answers for {len(rows)} lines")
    wrong = differing(rows, answers)
    for it in wrong[:20]:
        print(f"FAILED: {it[:300]}")
    changed = [(rows[0][0], ""), *rows[1:]]
    if len(differing(changed, answers)) != len(wrong) + 1 and answers[0] == rows[0][1]:
        sys.exit("a changed answer is not found")
    print(f"{len(rows) - len(wrong)} passed, {len(wrong)} failed")
    sys.exit(bool(wrong))


if __name__ == "__main__":
    main()
