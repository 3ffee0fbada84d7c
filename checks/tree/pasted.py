"""The commands of README.md, of docs/tutorial.md and of docs/caltool.md, run as a reader pastes them, in a bash behind a pseudo-terminal.

A command stands in a block of `sh`, or in a code span that begins with a program of PROGRAMS. Each command of README.md has to be one of
RUN, with what it prints, or one of ELSEWHERE, with the check that runs it. The tutorial is followed from top to bottom, in an empty folder:

  a block of `sh`               is pasted; in it ~/proved_calendar is this repository
  a span that begins `mkdir`    is pasted
  a block below `PATH`:         is written to that file, or added to crates.txt
  a block of one line that is   takes the place of the line of the last file that calls the same function, until the next `rt check`
  indented by four spaces
  another block of `text`       stands in what `rt check` prints in the crate of the last file, line by line and in this order; a line may
                                leave out words

Of docs/caltool.md each row of commands has a line of input and what `rt try` prints for it.

What is proved of the libraries here is taken over, as checks/tree/outside.py says, so that only the reader's own crates are proved.
"""
import functools
import os
import pty
import re
import select
import shutil
import subprocess
import tempfile
import time

import repositories
from checks import TOP

PROGRAMS = r"\(?(?:cd|rt|\./check|tools/\w+|python3|pip|cargo|npm|cp|echo|printf|mkdir)(?: |$)"
# Of the README, what commands print: these texts stand in the output in this order, and each of them behind the command, up to an empty line.
RUN = {
    "echo 'ymd 2024 2 29' | tools/prove caltool": ["2024-02-29 738945 Thu 2024-W09 60"],
    "(cd crates/dates && rt try -- add 2024-02-29 1y)": ["2025-02-28"],
    "rt version": ["rattle-kit-13", "logic dac8208d650f15bf"],
}
# Of the README, what other checks run, or what cannot be run here.
ELSEWHERE = {
    "./check": "it runs this check",
    r"cc -O2 amalgamation/caltool.c -o caltool && printf 'ymd 1900 2 29\nymd 2024 2 29\n' | ./caltool": "checks/packages/without_kit.py",
    "tools/setup": "`.ci/run` runs it",
    "tools/dist": "its parts are made and used by checks/packages/languages.py and checks/packages/javascript.py",
    "(cd dist && sha256sum --check SHA256SUMS)": "dist/ is left by tools/dist",
    "tools/dist amalgamation": "checks/packages/portable.py makes the same files",
    "python3 -m venv env && env/bin/pip install ./languages/python": "checks/packages/without_kit.py",
    "cargo add --path ~/proved_calendar/languages/rust": "checks/packages/without_kit.py",
    "npm install ~/proved_calendar/languages/javascript": "checks/packages/without_kit.py",
    "make -C languages/sqlite": "checks/packages/without_kit.py, in a folder of its own",
    "make -C languages/postgresql && sudo make -C languages/postgresql install": "checks/packages/without_kit.py, in a folder of its own",
    "tools/prove dates": "the gate proves and builds the program, and checks/programs/dates.py runs it",
}
# A slow machine proves all that caltool uses in half an hour.
LONGEST = 7_200
BLOCK = re.compile(r"^```(\w*)\n(.*?)^```$", re.M | re.S)
FILE = re.compile(r"`([\w/.]+)`:\s*\Z")
SPAN = re.compile(r"`([^`\n]+)`")
# A row of commands: what one does, a line of input and what is printed.
ROW = re.compile(r"^\| `[a-z]+[ `][^|]*\| `([a-z]+ [^`|]*)` \| `([^`]*)` \|$", re.M)


class Shell:
    """A bash behind a pseudo-terminal, which shows no prompt and does not repeat what is typed."""

    def __init__(self, folder):
        self.process, self.line = pty.fork()
        if not self.process:
            os.chdir(folder)
            os.environ.update(TERM="dumb", PS1="", PS2="", HISTFILE="/dev/null")
            os.execvp("bash", ["bash", "--norc", "--noprofile", "-i"])
        self.paste("stty -echo; set +o history; PS1=; PS2=")

    def __enter__(self):
        return self

    def __exit__(self, *_):
        os.close(self.line)
        os.waitpid(self.process, 0)

    def paste(self, text):
        """Pastes lines and returns what is shown before the shell has ended them."""
        mark = f"ended-{time.monotonic_ns()}"
        os.write(self.line, f"{text}\necho {mark[:5]}''{mark[5:]}\n".encode())
        shown, end = "", time.monotonic() + LONGEST
        while mark not in shown and time.monotonic() < end and select.select([self.line], [], [], 1 + end - time.monotonic())[0]:
            shown += os.read(self.line, 65_536).decode(errors="replace")
        return shown.partition(mark)[0].replace("\r", "")


def commands_of(page):
    """The commands of a page: the lines of its blocks of `sh` without what is said behind them, and spans that begin with a program."""
    lines = (line.partition("  #")[0].strip() for kind, text in BLOCK.findall(page) if kind == "sh" for line in text.splitlines())
    blocks = [it for it in lines if not it.startswith("#")]
    spans = [it.replace(r"\|", "|") for it in SPAN.findall(BLOCK.sub("", page)) if re.match(PROGRAMS, it)]
    return list(dict.fromkeys(it for it in [*blocks, *spans] if it))


def stand_in_order(wanted, shown):
    """The first of some texts that does not stand behind those before it, or nothing."""
    at = 0
    for it in wanted:
        found = shown.find(it, at)
        if found < 0:
            return it
        at = found + len(it)
    return None


def has_words(line, wanted):
    """Whether the words of a line stand in another in this order; a page shortens long lines."""
    words = iter(line.split())
    return all(it in words for it in wanted.split())


def lines_in_order(wanted, shown):
    """The first of some lines that does not stand behind those before it, or nothing."""
    lines = iter(shown.splitlines())
    return next((it for it in wanted if not any(has_words(line, it) for line in lines)), None)


def make_room(room, names):
    """Writes a repository of some crates and of those below, with what is proved of the libraries."""
    crates = repositories.listed_crates()
    names = repositories.all_below(names, crates)
    repositories.copy_crates(room, names)
    with open(f"{room}/crates.txt", "w", encoding="utf-8") as it:
        it.writelines(f"{name}: {' '.join(crates[name])}\n" for name in names)
    repositories.take_proved(room, [it for it in names if os.path.exists(f"{TOP}/crates/{it}/src/lib.rt")])


@functools.cache
def printed():
    """What each command of RUN prints."""
    with tempfile.TemporaryDirectory(prefix="pasted-") as room:
        make_room(room, ["caltool", "dates"])
        for it in ("checks", "tools"):
            os.symlink(f"{TOP}/{it}", f"{room}/{it}")
        with Shell(room) as shell:
            return {command: shell.paste(command) for command in RUN}


def readme(page):
    """What is wrong with the commands of the README."""
    found = commands_of(page)
    yield from (f"README.md: {it!r} is run by no check" for it in found if it not in RUN and it not in ELSEWHERE and it != "rt")
    yield from (f"README.md: there is no command {it!r}" for it in [*RUN, *ELSEWHERE] if it not in found)
    for command, wanted in RUN.items():
        lost = stand_in_order(wanted, printed()[command])
        if lost is not None:
            yield f"README.md: {command!r} does not print {lost!r}, but {printed()[command][-1500:]}"
        said = page.partition(command)[2].partition("\n\n")[0]
        yield from (f"README.md: it does not say that {command!r} prints {it!r}" for it in wanted if it not in said)


@functools.cache
def answers(lines):
    """What caltool prints for some lines, unproved."""
    with tempfile.TemporaryDirectory(prefix="pasted-") as room:
        make_room(room, ["caltool"])
        ran = subprocess.run(["rt", "try"], cwd=f"{room}/crates/caltool", input="\n".join(lines) + "\n", capture_output=True, text=True)
        return ran.stdout.splitlines()[: len(lines)]


def caltool(page):
    """The rows of the page of caltool that do not say what it prints."""
    rows = ROW.findall(page)
    if not rows:
        yield "docs/caltool.md: there are no rows of commands"
    for (line, wanted), shown in zip(rows, answers(tuple(line for line, _ in rows))):
        if wanted != shown:
            yield f"docs/caltool.md: {line!r} prints {shown!r}, not {wanted!r}"


# What was printed when a crate was checked, by the lines that were pasted, and all files that the reader had written.
SAID = {}


class Reader:
    """Somebody who follows the tutorial in a folder."""

    def __init__(self, shell, home):
        self.shell, self.home = shell, home
        self.file, self.shown, self.has_proved, self.files = "", None, False, {}

    def folder(self):
        """The reader's repository: the folder that the first block makes."""
        return f"{self.home}/my_program"

    def write(self, path, text):
        os.makedirs(os.path.dirname(f"{self.folder()}/{path}"), exist_ok=True)
        with open(f"{self.folder()}/{path}", "a" if path == "crates.txt" else "w", encoding="utf-8") as it:
            it.write(text)
        self.files[path] = text
        self.file, self.shown = path if path.endswith(".rt") else self.file, None

    def take_proved(self):
        """Takes over what is proved of the libraries, once, in place of what the reader copied."""
        if not self.has_proved:
            libraries = sorted(it for it in os.listdir(f"{self.folder()}/crates") if os.path.isdir(f"{TOP}/crates/{it}"))
            for it in libraries:
                shutil.rmtree(f"{self.folder()}/crates/{it}/out", ignore_errors=True)
            repositories.take_proved(self.folder(), libraries)
            self.has_proved = True

    def paste(self, text):
        """Pastes a block; what it prints is kept if it checks a crate."""
        if "rt check" in text:
            self.shown = self.said(text)
        else:
            self.shell.paste(text.replace("~/proved_calendar", TOP))

    def said(self, text, line=""):
        """What lines that check a crate print, with the files as they are and a line that stands there for a while."""
        key = (text, line, *self.files.items())
        if key not in SAID:
            self.take_proved()
            SAID[key] = self.shell.paste(text)
        return SAID[key]

    def check(self, line=""):
        """What `rt check` prints in the crate of the last file."""
        return self.said(f"(cd \"$MY_PROGRAM/{self.crate()}\" && rt check)", line)

    def crate(self):
        """The folder of the crate of the last file, from the reader's repository."""
        return "/".join(self.file.split("/")[:2])

    def with_line(self, line):
        """What `rt check` prints while a line stands in the place of that which calls the same function."""
        path = f"{self.folder()}/{self.file}"
        with open(path, encoding="utf-8") as it:
            right = it.read()
        start = line.rstrip("\n").partition("(")[0]
        with open(path, "w", encoding="utf-8") as it:
            it.write(re.sub(rf"^{re.escape(start)}\(.*\n", lambda _: line, right, count=1, flags=re.M))
        try:
            return self.check(line)
        finally:
            with open(path, "w", encoding="utf-8") as it:
                it.write(right)


def follow(page, reader):
    """What the tutorial says that does not come."""
    last = 0
    for it in BLOCK.finditer(page):
        before, kind, text, last = page[last : it.start()], it[1], it[2], it.end()
        for span in SPAN.findall(before):
            if span.startswith("mkdir "):
                reader.shell.paste(span)
        path = FILE.search(before)
        if kind == "sh":
            reader.paste(text)
        elif path:
            reader.write(path[1], text)
        elif kind == "text" and re.fullmatch(r"    \S.*\n", text):
            reader.shown = reader.with_line(text)
        elif kind == "text":
            shown = reader.shown or reader.check()
            reader.shown = None
            lost = lines_in_order(text.splitlines(), shown)
            if lost is not None:
                yield f"docs/tutorial.md: `rt check` does not print {lost!r}, but {shown[-1500:]}"


def tutorial(page):
    """What is wrong with the tutorial."""
    with tempfile.TemporaryDirectory(prefix="tutorial-") as home, Shell(home) as shell:
        reader = Reader(shell, home)
        shell.paste(f"MY_PROGRAM={reader.folder()}")
        yield from follow(page, reader)
