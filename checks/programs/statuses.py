#!/usr/bin/env python3
"""Holds caltool to its exit statuses, its two texts and its answers where reading or writing fails, and over very long inputs.

    python3 -m checks.programs.statuses      (the programs that `rt ci` or `rt run` left in crates/caltool/out)

Both builds are tried where both are there: LLVM's, and that of Rattle's own compiler, which `rt ci` alone leaves.
"""
import itertools
import os
import select
import socket
import struct
import subprocess
import sys
import tempfile

from checks import TOP

PROGRAMS = [os.path.join(TOP, "crates", "caltool", "out", name) for name in ("caltool", "caltool.by-rattle")]
LINE = b"ymd 2024 2 29\n"
ANSWER = b"2024-02-29 738945 Thu 2024-W09 60\n"
# A line whose answer takes 64 bytes with its newline, so that 1,024 of them fill the 65,536 bytes that wait for one write.
SET = b"set 1 1 2 3 4 5 6 7\n"
SET_ANSWER = b"[Mon, Tue, Wed, Thu, Fri, Sat, Sun] Mon Tue Wed Thu Fri Sat Sun\n"
# More lines than any buffer holds.
MANY = 20_000
# Bytes of the longest inputs, and the kilobytes of data that the program may have while it answers them.
LONG, ROOM = 10_000_000, 1000
READ_FAULT, WRITE_FAULT = (1, b"read fault\n"), (2, b"write fault\n")
DONE = (0, b"")


def run(program, given, redirected="", limits="", **how):
    """Runs the program under a shell's redirections and limits; its status, what it wrote to standard error, and its answers."""
    words = ["sh", "-c", f'{limits} exec "$0" {redirected}', program]
    how = {"stdout": subprocess.PIPE, "stderr": subprocess.PIPE, "timeout": 60, **how}
    ran = subprocess.run(words, input=given, **how)
    return (ran.returncode, ran.stderr or b""), ran.stdout or b""


def first_answer(ran):
    """The first line that a program writes; a program that writes none for a minute is ended."""
    if select.select([ran.stdout], [], [], 60)[0]:
        return ran.stdout.readline()
    ran.kill()
    return b""


def of_broken_pipe(program):
    """The status where the reader of the answers goes away after the first of them."""
    with subprocess.Popen([program], stdin=subprocess.PIPE, stdout=subprocess.PIPE, stderr=subprocess.PIPE) as ran:
        ran.stdin.write(LINE)
        ran.stdin.flush()
        first = first_answer(ran)
        ran.stdout.close()
        try:
            ran.stdin.write(LINE * MANY)
            ran.stdin.close()
        except BrokenPipeError:
            pass
        said = ran.stderr.read()
        ran.stdin = None
        return (ran.wait(60), said), first


def connection():
    """The two ends of a connection on this host, or none where it lets no one make one."""
    try:
        with socket.create_server(("127.0.0.1", 0)) as server:
            giver = socket.create_connection(server.getsockname(), 60)
            return giver, server.accept()[0]
    except OSError:
        return None


def of_reset(program, giver, taken):
    """The status where the input is a connection that is reset inside its second line; after the fault a read finds an end."""
    with subprocess.Popen([program], stdin=taken, stdout=subprocess.PIPE, stderr=subprocess.PIPE) as ran:
        giver.sendall(LINE + LINE[:-1])
        first = first_answer(ran)
        giver.setsockopt(socket.SOL_SOCKET, socket.SO_LINGER, struct.pack("ii", 1, 0))
        giver.close()
        taken.close()
        rest, said = ran.communicate(timeout=60)
        return (ran.returncode, said), first + rest


def full_cases(program, folder):
    """Answers that fill what waits for one write up to its last byte, or nearly; of a file each read gives all that it may."""
    for count in (1023, 1024, 1025, 2048, 10_000):
        path = os.path.join(folder, "sets")
        with open(path, "wb") as sets:
            sets.write(SET * count)
        yield f"{count} answers of 64 bytes", run(program, None, f"< {path}"), (DONE, SET_ANSWER * count)


def cases(program, folder):
    """Each case: what it is, what the program did, and what it has to do."""
    yield "no input", run(program, b""), (DONE, b"")
    yield "one line", run(program, LINE), (DONE, ANSWER)
    yield "a last line without a newline", run(program, LINE + LINE[:-1]), (DONE, ANSWER * 2)
    yield "many lines", run(program, LINE * MANY), (DONE, ANSWER * MANY)
    yield "a directory as input", run(program, None, f"< {folder}"), (READ_FAULT, b"")
    yield "standard input closed", run(program, None, "<&-"), (READ_FAULT, b"")
    if os.path.exists("/dev/full"):
        yield "a full device", run(program, LINE, "> /dev/full"), (WRITE_FAULT, b"")
        yield "a full device and many lines", run(program, LINE * MANY, "> /dev/full"), (WRITE_FAULT, b"")
        yield "a full device and a line without a newline", run(program, LINE[:-1], "> /dev/full"), (WRITE_FAULT, b"")
        yield "a full device and no input", run(program, b"", "> /dev/full"), (DONE, b"")
    yield "a pipe closed after the first answer", of_broken_pipe(program), (WRITE_FAULT, ANSWER)
    ends = connection()
    if ends:
        yield "a connection reset after the first answer", of_reset(program, *ends), (READ_FAULT, ANSWER)
    else:
        print("not run: an input that is reset, since no connection can be made on this host")
    yield "standard output closed", run(program, LINE, ">&-"), (WRITE_FAULT, b"")
    yield "standard error closed", run(program, LINE, "2>&-"), (DONE, ANSWER)
    yield "a directory as input and standard error closed", run(program, None, f"< {folder} 2>&-"), ((1, b""), b"")
    if os.path.exists("/dev/full"):
        yield "a full device and standard error closed", run(program, LINE, "> /dev/full 2>&-"), ((2, b""), b"")
        yield "a full device and standard error on it", run(program, LINE, "> /dev/full 2>&1"), ((2, b""), b"")
    yield "standard input not to be read", run(program, None, "0> /dev/null"), (READ_FAULT, b"")
    yield "standard output not to be written", run(program, LINE, "1< /dev/null"), (WRITE_FAULT, b"")
    yield "an input that ends inside a line", run(program, LINE + b"ymd 2024 2"), (DONE, ANSWER + b"error\n")


def long_cases(program):
    """The same for inputs of any length, over which the program takes no memory."""
    for length in (119, 120, 121, 65_535, 65_536, 65_537):
        line = b"ymd 2024 2 " + b"29".rjust(length - 11, b"0")
        answer = ANSWER if length <= 120 else b"error\n"
        yield f"a line of {length} bytes", run(program, line + b"\n" + LINE), (DONE, answer + ANSWER)
        yield f"a last line of {length} bytes", run(program, LINE + line), (DONE, ANSWER + answer)
    for length in (121, 65_536, 65_537):
        line = (b"ymd 2024 2 " + b"29".rjust(109, b"0")).ljust(length, b"0")
        yield f"a command of 120 bytes in a line of {length}", run(program, line + b"\n" + LINE), (DONE, b"error\n" + ANSWER)
    within = f"ulimit -d {ROOM} &&"
    for byte in (b"\0", b" ", b"9", b"y", b"\r", b"\xff"):
        yield f"no newline but {byte!r} alone", run(program, byte * LONG, limits=within), (DONE, b"error\n")
    yield "newlines alone", run(program, b"\n" * LONG, limits=within), (DONE, b"error\n" * LONG)
    yield "short lines", run(program, LINE * (LONG // len(LINE)), limits=within), (DONE, ANSWER * (LONG // len(LINE)))


def try_program(program, name, with_long=True):
    """Tries each case, without the long inputs if so asked; how many passed and failed, those that failed being printed."""
    passed, failed = 0, 0
    with tempfile.TemporaryDirectory() as folder:
        for what, did, has_to in itertools.chain(cases(program, folder), full_cases(program, folder), long_cases(program) if with_long else ()):
            is_right = did == has_to
            passed, failed = passed + is_right, failed + (not is_right)
            if not is_right:
                (status, said), wrote = did
                print(f"{name}: {what}: status {status}, {said!r} on standard error, {len(wrote)} bytes of answers")
    return passed, failed


def main():
    found = [it for it in PROGRAMS if os.path.exists(it)]
    passed, failed = 0, 0
    if not found:
        print("there is no crates/caltool/out/caltool: `rt run` in crates/caltool builds it")
        failed = 1
    if not os.path.exists("/dev/full"):
        print("not run: a full device, since there is no /dev/full")
    for program in found:
        right, wrong = try_program(program, os.path.basename(program))
        passed, failed = passed + right, failed + wrong
    print(f"{passed} passed, {failed} failed")
    return 1 if failed else 0


if __name__ == "__main__":
    sys.exit(main())
