#!/usr/bin/env python3
"""Uses the libraries from outside: proves the callers that three pages quote in a fresh repository of their own.

    python3 -m checks.tree.outside           (in a folder below $TMPDIR, removed afterwards)
    python3 -m checks.tree.outside FOLDER    (in that folder, which must not exist yet and stays)

The repository gets the folders of the library crates and their lines of crates.txt, as CALLING.md says, and each file that a line
of one of PAGES names in backquotes, with a colon, right above a fenced block. Lines of crates.txt are put together. Each caller is
then checked by `rt check`.
What is proved of the libraries here is taken over: what `rt` has kept, or what `rt ci` has just left, if it is newer than their
sources. Otherwise they are proved first, which takes a quarter of an hour.
"""
import os
import re
import shutil
import subprocess
import sys
import tempfile

from checks import TOP
from repositories import all_below, copy_crates, listed_crates, take_proved

USED = ("chrono_reading", "chrono_cron", "chrono_business", "chrono_rules", "chrono_zoned")
PAGES = ("docs/tutorial.md", "docs/callers.md", "CALLING.md")
QUOTED = re.compile(r"^`(crates(?:\.txt|/[\w/.]+))`:\n\n```\w*\n(.*?)^```$", re.M | re.S)


def quoted_files():
    """The files that the pages quote, by path."""
    files = {}
    for page in PAGES:
        with open(f"{TOP}/{page}", encoding="utf-8") as it:
            for path, text in QUOTED.findall(it.read()):
                files[path] = files.get(path, "") + text if path == "crates.txt" else text
    return files


def make_repository(room):
    """Writes the repository; the names of its libraries and of its callers."""
    crates, files = listed_crates(), quoted_files()
    libraries = all_below(USED, crates)
    copy_crates(room, libraries)
    own = files.pop("crates.txt", "")
    with open(f"{room}/crates.txt", "w", encoding="utf-8") as it:
        it.writelines(f"{name}: {' '.join(crates[name])}\n" for name in libraries)
        it.write(own)
    for path, text in files.items():
        os.makedirs(os.path.dirname(f"{room}/{path}"), exist_ok=True)
        with open(f"{room}/{path}", "w", encoding="utf-8") as it:
            it.write(text)
    return libraries, [line.partition(":")[0] for line in own.splitlines() if line]


def main():
    if not shutil.which("rt"):
        print("not run: there is no rt, the Rattle kit's command\n0 passed, 1 failed")
        return 1
    with tempfile.TemporaryDirectory(prefix="outside-") as room:
        if len(sys.argv) > 1:
            room = os.path.abspath(sys.argv[1])
            os.makedirs(room)
        libraries, callers = make_repository(room)
        if not take_proved(room, libraries):
            print("nothing kept serves: the libraries are proved first", flush=True)
        passed, failed = 0, 0 if callers else 1
        for name in callers:
            words = ["rt", "check", "--jobs", "1"]
            ran = subprocess.run(words, cwd=f"{room}/crates/{name}", stdout=subprocess.PIPE, stderr=subprocess.STDOUT)
            is_proved = ran.returncode == 0
            passed, failed = passed + is_proved, failed + (not is_proved)
            print(f"{name}: {'proved' if is_proved else 'NOT PROVED'}")
            if not is_proved:
                print(ran.stdout.decode(errors="replace")[-3000:])
    print(f"{passed} passed, {failed} failed")
    return 1 if failed else 0


if __name__ == "__main__":
    sys.exit(main())
