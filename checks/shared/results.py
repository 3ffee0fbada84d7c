"""What checks of several languages share: facts that are counted, and tests that are run."""
import os
import re
import shutil
import subprocess

from checks import TOP

LANGUAGES = f"{TOP}/languages"


class Results:
    """What passed and failed."""

    def __init__(self):
        self.passed, self.failed = 0, 0

    def count(self, is_right, what):
        """Counts a fact, and tells of it if it does not hold."""
        if is_right:
            self.passed += 1
        else:
            self.failed += 1
            print(f"FAILED: {what}", flush=True)


def is_older(told, least):
    """Whether a program that tells its version is older than the least one, as in "v20.20.2" and "20.10"."""
    version, wanted = ([int(it) for it in re.search(r"\d+(?:\.\d+)*", text)[0].split(".")] for text in (told, least))
    return version < wanted


def serves(program, least):
    """Whether a program is found, in the least version or a later one."""
    if not shutil.which(program):
        return False
    return not is_older(subprocess.run([program, "--version"], check=True, capture_output=True, text=True).stdout, least)


def read(path):
    with open(path, encoding="utf-8") as it:
        return it.read()


def write(path, text):
    """Writes a file, and the folders that it needs."""
    os.makedirs(os.path.dirname(path), exist_ok=True)
    with open(path, "w", encoding="utf-8") as it:
        it.write(text)


def run(results, what, words, counts, **how):
    """Runs a test; the patterns say how it tells what passed and failed, by a number or, with none, one by one."""
    ran = subprocess.run(words, stdout=subprocess.PIPE, stderr=subprocess.STDOUT, text=True, errors="replace", **how)
    passed, failed = (sum(int(number or 1) for number in re.findall(it, ran.stdout, re.M)) for it in counts)
    failed = failed or int(ran.returncode != 0 or not passed)
    print(f"{what}: {passed} passed, {failed} failed", flush=True)
    results.passed, results.failed = results.passed + passed, results.failed + failed
    if failed:
        print(ran.stdout[-4000:], flush=True)


def succeeds(results, words, **how):
    """Runs a program that has to succeed; what it prints, or None."""
    ran = subprocess.run(words, stdout=subprocess.PIPE, stderr=subprocess.STDOUT, text=True, errors="replace", **how)
    results.count(ran.returncode == 0, f"{' '.join(words)}: {ran.stdout[-3000:]}")
    return ran.stdout if ran.returncode == 0 else None


def compare_bytes(results, made, again):
    """Files that were made twice have the same bytes."""
    for one, other in zip(made, again, strict=True):
        with open(one, "rb") as first, open(other, "rb") as second:
            results.count(first.read() == second.read(), f"{os.path.basename(one)}, made again, has other bytes")


def example(language):
    """The example of a README."""
    folder = {"js": "javascript"}.get(language, language)
    return re.search(rf"^```{language}\n(.*?)^```$", read(f"{LANGUAGES}/{folder}/README.md"), re.M | re.S)[1]


def readme_examples(language):
    """The examples of README.md in a language, each with the lines that it prints: the comments that begin with a digit."""
    blocks = re.findall(rf"^```{language}\n(.*?)^```$", read(f"{TOP}/README.md"), re.M | re.S)
    found = [(it, re.findall(r"(?:#|//|--|/\*) (\d.*?)(?: \*/)?$", it, re.M)) for it in blocks]
    return [(code, printed) for code, printed in found if printed]
