#!/usr/bin/env python3
"""The man page and the completions of `dates`, which its table of commands prints.

    tools/dates_help.py PROGRAM     writes tools/shell/dates.1, dates.bash, _dates and dates.fish from what PROGRAM prints
"""
import os
import re
import subprocess
import sys

TOP = os.path.dirname(os.path.dirname(os.path.abspath(__file__)))
PLACE = os.path.join(TOP, "tools", "shell")
PRINTED = {"dates.1": "--man", "dates.bash": "--completion=bash", "_dates": "--completion=zsh", "dates.fish": "--completion=fish"}


def said(program, *words):
    """What the program writes of these words."""
    return subprocess.run([program, *words], stdin=subprocess.DEVNULL, capture_output=True, text=True, check=True).stdout


def commands(program):
    """The names of the commands, in the order of the help."""
    listed = said(program, "--help").partition("\nCommands:\n")[2].partition("\n\n")[0]
    return re.findall(r"^  (\S+)", listed, re.M)


def example(program, name):
    """The lines of a command's example."""
    return [line[2:] for line in said(program, name, "--help").partition("\nExample:\n")[2].splitlines()]


def files(program):
    """Each file that is made, by its path below the tree, with its text."""
    return {f"tools/shell/{name}": said(program, word) for name, word in PRINTED.items()}


def main():
    os.makedirs(PLACE, exist_ok=True)
    for path, text in files(sys.argv[1]).items():
        with open(os.path.join(TOP, path), "w") as out:
            out.write(text)


if __name__ == "__main__":
    main()
