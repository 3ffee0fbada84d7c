"""Sessions of `dates` at a terminal: an interactive bash, typed into as a person types, and what it shows.

Each session is held behind a pseudo terminal, by what is written there, and in a window of tmux where that is installed, by keys that are sent to it and the screen
that they leave. checks/programs/dates.py runs them with the program, and each of them with a program or a completion that is wrong in what it looks at.
"""
import os
import pty
import select
import shutil
import signal
import stat
import subprocess
import tempfile
import time

PROMPT = "at> "
END = "\x04"
INTERRUPT = "\x03"
BASH = ["bash", "--norc", "--noprofile", "-i"]


def surroundings(folder):
    """What the shell finds around it: a folder in front of its path, a prompt, and nothing of whoever runs this."""
    return {"PATH": folder + os.pathsep + os.environ["PATH"], "PS1": PROMPT, "HISTFILE": "/dev/null", "INPUTRC": "/dev/null"}


class Terminal:
    """A bash that completes and edits lines."""

    def __init__(self, wait):
        self.wait = wait

    def until(self, text):
        """What is shown up to this text, which is taken off; what there is so far where it does not come."""
        end = time.monotonic() + self.wait
        while text not in (shown := self.unread()) and time.monotonic() < end:
            time.sleep(0.02)
        before, found, _ = shown.partition(text)
        self.take(len(before + found))
        return before + found

    def enter(self, line):
        """Enters a line at the prompt, and returns the lines that are shown before the next."""
        self.type(line + "\n")
        return self.until(PROMPT).removesuffix(PROMPT).split("\n")[1:]


class PseudoTerminal(Terminal):
    """One behind a pseudo terminal, with all that is written there."""

    def __init__(self, folder, wait):
        super().__init__(wait)
        self.shown = ""
        self.process, self.line = pty.fork()
        if not self.process:
            # (Python ignores a pipe that is closed, and what a shell starts beside it ignores the interrupt; and so would all that this starts)
            for it in (signal.SIGPIPE, signal.SIGINT):
                signal.signal(it, signal.SIG_DFL)
            os.environ.update(surroundings(folder), TERM="dumb")
            os.execvp(BASH[0], BASH)

    def close(self):
        os.kill(self.process, signal.SIGKILL)
        os.waitpid(self.process, 0)
        os.close(self.line)

    def type(self, text):
        os.write(self.line, text.encode())

    def unread(self):
        while select.select([self.line], [], [], 0)[0]:
            try:
                self.shown += os.read(self.line, 4096).decode().replace("\r", "").replace("\x07", "")
            except OSError:
                break
        return self.shown

    def take(self, length):
        self.shown = self.shown[length:]


class Tmux(Terminal):
    """One in a window of tmux, with what stands on its screen up to the cursor. No line is as long as the window is wide."""

    KEYS = {"\n": "Enter", "\t": "Tab", END: "C-d", INTERRUPT: "C-c"}

    def __init__(self, folder, wait):
        super().__init__(wait)
        self.place, self.taken = tempfile.TemporaryDirectory(), 0
        self.around = {**os.environ, **surroundings(folder)}
        self.asked("-f", "/dev/null", "new-session", "-d", "-x", "250", "-y", "50", *BASH)

    def asked(self, *words):
        """What tmux answers, by a server of its own; nothing where the shell has ended, and the server with it."""
        server = os.path.join(self.place.name, "tmux")
        return subprocess.run(["tmux", "-S", server, *words], env=self.around, capture_output=True, text=True, check=False, timeout=20).stdout

    def close(self):
        self.asked("kill-server")
        self.place.cleanup()

    def type(self, text):
        for key in text:
            # (a semicolon alone would end tmux's command)
            self.asked("send-keys", *([self.KEYS[key]] if key in self.KEYS else ["-l", "--", "\\;" if key == ";" else key]))

    def unread(self):
        screen = self.asked("capture-pane", "-p", "-J", "-S", "-", ";", "display-message", "-p", "#{history_size} #{cursor_y}")
        *lines, cursor = screen.splitlines() or ["0 0"]
        above = sum(map(int, cursor.split()))
        return "\n".join((lines + [""] * above)[: above + 1])[self.taken :]

    def take(self, length):
        self.taken += length


TERMINALS = [PseudoTerminal, Tmux] if shutil.which("tmux") else [PseudoTerminal]


def answers_at_once(terminal, completion):
    """A line that is typed is answered before the next, up to the end of the input."""
    terminal.type("dates -\n2024-02-29\n")
    first = terminal.until("19782\n")
    terminal.type("soon\n")
    second = terminal.until("none\n")
    terminal.type(END)
    shown = terminal.until(PROMPT) == PROMPT
    return first.endswith("2024-02-29 2024-060 2024-W09-4 Thu 738945 19782\n") and second.endswith("none\n") and shown and terminal.enter("echo $?") == ["1", ""]


def moves_at_once(terminal, completion):
    """The same of a command that has `-` for its day."""
    terminal.type("dates add - 1m\n2024-01-31\n")
    first = terminal.until("2024-02-29\n")
    terminal.type(END)
    shown = terminal.until(PROMPT) == PROMPT
    return first.endswith("2024-02-29\n") and shown and terminal.enter("echo $?") == ["0", ""]


def leaves_what_is_typed(terminal, completion):
    """A command with all its words reads nothing: what is typed meanwhile is the next command."""
    terminal.type("dates week 2024-W09\ndates leap 2024\n")
    return "2024-02-26 2024-03-03\n" in terminal.until(PROMPT) and terminal.until("yes\n").endswith("yes\n")


def completes(terminal, completion):
    """A command and an option, begun and completed by the tabulator."""
    terminal.enter(f"source {completion}")
    terminal.type("dates rol\t")
    command = terminal.until("roll ")
    terminal.type("2024-03-30 following --cal\t")
    option = terminal.until("--calendar ")
    terminal.type("england\n")
    return command.endswith("roll ") and option.endswith("--calendar ") and "2024-04-02" in terminal.until(PROMPT).split("\n")


def is_cut_short(terminal, completion):
    """Behind a pipe that head closes it ends by itself, and says nothing."""
    shown = terminal.enter("yes 2024-02-29 | head -100000 | dates | head -1; echo ${PIPESTATUS[2]}")
    return shown == ["2024-02-29 2024-060 2024-W09-4 Thu 738945 19782", "0", ""]


def is_interrupted(terminal, completion):
    """While it waits for a line it is ended from the keyboard."""
    terminal.type("dates -\n2024-02-29\n")
    first = terminal.until("19782\n")
    terminal.type(INTERRUPT)
    terminal.until(PROMPT)
    return first.endswith("19782\n") and terminal.enter("echo $?") == ["130", ""]


SESSIONS = [answers_at_once, moves_at_once, leaves_what_is_typed, completes, is_cut_short, is_interrupted]

# Of each session a program around the right one, or none for a completion that has nothing, by which it has to fail.
WRONG = {
    answers_at_once: 'said=$({program} "$@"); status=$?; echo "$said"; exit $status',
    moves_at_once: '{program} "$@"; exit 3',
    leaves_what_is_typed: '{program} "$@"; read -r -t 2 typed',
    completes: None,
    is_cut_short: '{program} "$@" | cat; [ ${{PIPESTATUS[0]}} -eq 0 ] && echo done >&2',
    is_interrupted: "trap '' INT; exec {program} \"$@\"",
}


def holds(kind, session, folder, completion, wait):
    """Whether a session at a terminal of this kind shows what it has to, with the program `dates` in that folder."""
    terminal = kind(folder, wait)
    try:
        return terminal.until(PROMPT).endswith(PROMPT) and session(terminal, completion)
    finally:
        terminal.close()


def is_found(kind, session, program, completion):
    """Whether a session fails with what is wrong in what it looks at."""
    with tempfile.TemporaryDirectory() as folder:
        place = os.path.join(folder, "dates")
        with open(place, "w") as out:
            out.write("#!/bin/bash\n" + (WRONG[session] or 'exec {program} "$@"').format(program=program) + "\n")
        os.chmod(place, os.stat(place).st_mode | stat.S_IXUSR)
        return not holds(kind, session, folder, "/dev/null" if WRONG[session] is None else completion, 5)


def failures(program, folder, completion):
    """The sessions that do not hold with the program, which is `dates` in that folder, and those that hold with a wrong one; how many there are of both."""
    failed = []
    cases = [(kind, it) for kind in TERMINALS for it in SESSIONS]
    for kind, it in cases:
        name = f"{it.__name__} ({kind.__name__})"
        if not holds(kind, it, folder, completion, 30):
            failed.append(name)
        if not is_found(kind, it, program, completion):
            failed.append(f"{name} with a wrong program")
    return failed, 2 * len(cases)
