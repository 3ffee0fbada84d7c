#!/usr/bin/env python3
"""Measures caltool beside two Rust programs over chrono, command by command and mixed, in one run, as ratios.

    benches/lines.py [LINES]        (100,000 of each command and 333,333 mixed, if left out)

benches/chrono_tuned reads and writes bytes by hand through buffers of 64 KiB, benches/chrono_lines is the plainest good program.
All three answer each file before any is timed, and their answers have to be the same, byte for byte. Years have one to six digits
and both signs, times all nine digits of their fraction, counts up to eighteen digits.
The programs then take turns in 31 rounds, from a file to /dev/null, and the best run of each counts, by processor time: the
table says how often caltool's time goes into that of the other program.

It needs crates/caltool/out/caltool, which `rt run` and `rt ci` leave there, and Debian's librust-chrono-dev with cargo; with
Debian's dateutils and GNU date it also prints a table of the conversion of dates.
"""
import datetime
import hashlib
import os
import random
import shutil
import subprocess
import sys
import tempfile

TOP = os.path.dirname(os.path.dirname(os.path.abspath(__file__)))
sys.path.insert(0, os.path.join(TOP, "tools"))
from debian import build_over_chrono  # noqa: E402

CALTOOL = os.path.join(TOP, "crates", "caltool", "out", "caltool")
ROUNDS = 31


def a_year(chance):
    """A year of one to six digits; one in four is negative."""
    digits = chance.randint(1, 6)
    size = chance.randint(10 ** (digits - 1), min(10**digits - 1, 262_000))
    return -size if chance.random() < 0.25 else size


def a_date(chance):
    return f"{a_year(chance)} {chance.randint(1, 12)} {chance.randint(1, 28)}"


def a_moment(chance):
    clock = f"{chance.randrange(24)} {chance.randrange(60)} {chance.randrange(60)} {chance.randrange(10**9)}"
    return f"{a_date(chance)} {clock}"


def a_count(chance, digits):
    """A count of one to so many digits, one half of them negative."""
    return chance.choice((-1, 1)) * chance.randrange(10 ** chance.randint(1, digits))


COMMANDS = {
    "ymd": a_date,
    "yo": lambda chance: f"{a_year(chance)} {chance.randint(1, 366)}",
    "iwd": lambda chance: f"{a_year(chance)} {chance.randint(1, 53)} {chance.randint(1, 7)}",
    "day": lambda chance: f"{a_count(chance, 8)}",
    "wom": lambda chance: f"{a_year(chance)} {chance.randint(1, 12)} {chance.randint(1, 7)} {chance.randint(1, 5)}",
    "days": lambda chance: f"{a_date(chance)} {a_count(chance, 9)}",
    "months": lambda chance: f"{a_date(chance)} {a_count(chance, 6)}",
    "week": lambda chance: f"{a_date(chance)} {chance.randint(1, 7)}",
    "move": lambda chance: f"{a_moment(chance)} {a_count(chance, 18)} {chance.randrange(10**9)}",
    "diff": lambda chance: f"{a_moment(chance)} {a_moment(chance)}",
    "since": lambda chance: f"{a_date(chance)} {a_date(chance)}",
    "set": lambda chance: " ".join(str(chance.randint(1, 7)) for _ in range(chance.randint(1, 8))),
}


def a_line(chance, command):
    return f"{command} {COMMANDS[command](chance)}"


def write_lines(folder, name, lines):
    path = os.path.join(folder, name)
    with open(path, "w", encoding="ascii") as out:
        out.writelines(line + "\n" for line in lines)
    return path


def sum_of_answers(program, path):
    """A sum of all that the program writes for the lines of a file."""
    with open(path, "rb") as source:
        ran = subprocess.run([program], stdin=source, stdout=subprocess.PIPE, check=True)
    return hashlib.sha256(ran.stdout).digest()


def processor_time(command, path):
    """The processor time of a run from the file to nowhere, which other programs on the machine change less than wall time."""
    with open(path, "rb") as source, open(os.devnull, "wb") as sink:
        ran = subprocess.Popen(command, stdin=source, stdout=sink, stderr=subprocess.DEVNULL)
        _, status, used = os.wait4(ran.pid, 0)
        ran.returncode = os.waitstatus_to_exitcode(status)
    if ran.returncode:
        sys.exit(f"{command[0]} ended with status {ran.returncode}")
    return used.ru_utime + used.ru_stime


def best_times(commands, path, rounds):
    """The least processor time of each command on the file, the commands taking turns."""
    times = [[processor_time(it, path) for it in commands] for _ in range(rounds)]
    return [min(of_command) for of_command in zip(*times)]


def compare_conversions(folder, count):
    """Prints the times of dateutils and GNU date on dates that they can read, beside caltool's."""
    chance = random.Random(2)
    first, last = datetime.date(1800, 1, 1).toordinal(), datetime.date(2199, 12, 31).toordinal()
    dates = [datetime.date.fromordinal(chance.randint(first, last)) for _ in range(count)]
    plain = write_lines(folder, "dates", (date.isoformat() for date in dates))
    ymd = write_lines(folder, "ymd_dates", (f"ymd {d.year} {d.month} {d.day}" for d in dates))
    ours = best_times([[CALTOOL]], ymd, ROUNDS)[0]
    others = {
        "dateutils.dconv -f ldn": ["dateutils.dconv", "-f", "ldn"],
        "dateutils.dconv -f '%F %j %a %G-W%V'": ["dateutils.dconv", "-f", "%F %j %a %G-W%V"],
        "GNU date -f -": ["date", "-u", "-f", "-", "+%F %j %a %G-W%V"],
    }
    print(f"\n{count} dates of four centuries\n\n| Program | its time by caltool's |\n|---|---|")
    for name, command in others.items():
        if shutil.which(command[0]):
            print(f"| `{name}` | {best_times([command], plain, 1)[0] / ours:.1f} |")
        else:
            print(f"| `{name}` | not run: no {command[0]} |")


def main():
    count = int(sys.argv[1]) if len(sys.argv) > 1 else 100_000
    chance = random.Random(1)
    with tempfile.TemporaryDirectory() as folder:
        programs = [CALTOOL, *(build_over_chrono(folder, f"benches/{name}") for name in ("chrono_tuned", "chrono_lines"))]
        files = {it: write_lines(folder, it, (a_line(chance, it) for _ in range(count))) for it in COMMANDS}
        names = list(COMMANDS)
        mixed = (a_line(chance, chance.choice(names)) for _ in range(count * 10 // 3))
        files["mixed"] = write_lines(folder, "mixed", mixed)
        for name, path in files.items():
            if len({sum_of_answers(it, path) for it in programs}) > 1:
                sys.exit(f"{name}: the programs do not answer alike, so none was timed")
        print(f"{count} lines of each command, {count * 10 // 3} mixed: the other program's time by caltool's\n")
        print("| Lines | caltool, ns a line | tuned | plain |\n|---|---|---|---|")
        for name, path in files.items():
            ours, tuned, plain = best_times([[it] for it in programs], path, ROUNDS)
            lines = count * 10 // 3 if name == "mixed" else count
            print(f"| `{name}` | {ours / lines * 1e9:.0f} | {tuned / ours:.2f} | {plain / ours:.2f} |", flush=True)
        compare_conversions(folder, count)


if __name__ == "__main__":
    main()
