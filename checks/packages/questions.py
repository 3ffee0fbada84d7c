#!/usr/bin/env python3
"""Each block of docs/questions.md prints what its comments say.

    python3 -m checks.packages.questions

The blocks of a language are one program, over the C files of amalgamation/ and thus without proof, as checks/packages/question_programs.py builds it. All
comments of a block are answers, in order: the lines that it prints. But the first comment of a block of SQL has the names of its databases. Then
each block's last answer is made wrong, in a copy of the page, and this has to be found. So have the faults of PLANTED, which are of the page's
form. What could not be run is named.
"""
import collections
import re
import signal
import sys
import tempfile

from checks import TOP
from checks.packages.question_programs import PROGRAMS, build_libraries, has_numpy, packages, program_of, run
from checks.shared.results import Results, read

PAGE = f"{TOP}/docs/questions.md"
COUNT = 30
# The language of each kind of block, and how a comment begins in it. Of SQL the block names the databases.
KINDS = {"python": ("Python", "#"), "rust": ("Rust", "//"), "js": ("JavaScript", "//"), "c": ("C", "//"), "sql": (None, "--"), "sh": ("dates", "#")}
FENCE = re.compile(r"^```(\w*)\n(.*?)^```$", re.M | re.S)

Question = collections.namedtuple("Question", "title text blocks")
Block = collections.namedtuple("Block", "languages code answers")

# Faults of the page's form: what stands there, what stands there instead, and what has to be said of it.
PLANTED = (
    ("```sh\ndates leap 2024  # yes\n```", "```sh\ndates leap 2024\n```", "a block in dates has no answer"),
    ("-- SQLite\nSELECT is_date('2024-02-29'), ", "SELECT is_date('2024-02-29'), ", "a block is of no language"),
    ("```js\nconsole.log(isLeapYear", "```jsx\nconsole.log(isLeapYear", "a block is of no language"),
    ("### How old is someone?\n", "", "the page has 29 questions"),
)


# ---- the page


def block_of(kind, code):
    """A block of code; without languages if its kind or its database is unknown."""
    language, mark = KINDS.get(kind, (None, "#"))
    languages = [language] if language else []
    if kind == "sql" and code.startswith(f"{mark} "):
        named, _, code = code.removeprefix(f"{mark} ").partition("\n")
        languages = [it for it in named.split(" and ") if it in PROGRAMS]
    return Block(languages, code, re.findall(rf"(?:^|\s){mark} (.*)$", code, re.M))


def questions_of(page):
    """The questions of a page, and the lines that stand before all blocks of a language."""
    asked, _, set_up = page.partition("\n## Set-up\n")
    _, *parts = re.split(r"^### (.*)\n", asked, flags=re.M)
    questions = [Question(title, text, [block_of(*it) for it in FENCE.findall(text)]) for title, text in zip(parts[::2], parts[1::2])]
    before = collections.defaultdict(str)
    for kind, code in FENCE.findall(set_up):
        before[KINDS[kind][0]] += code
    return questions, before


def faults_of_form(questions):
    """What is wrong with the form of the questions."""
    if len(questions) != COUNT:
        yield f"the page has {len(questions)} questions"
    for title, text, blocks in questions:
        if not text.strip() or text.lstrip().startswith("```"):
            yield f"{title}: there is no paragraph"
        for it in blocks:
            if not it.languages:
                yield f"{title}: a block is of no language"
            elif not it.answers:
                yield f"{title}: a block in {' and '.join(it.languages)} has no answer"
        languages = [it for block in blocks for it in block.languages]
        if len(set(languages)) < len(languages):
            yield f"{title}: a language has two blocks"


def blocks_in(questions, language):
    """The blocks of a language, by the number of the question from 1."""
    numbered = ((number, block) for number, question in enumerate(questions, 1) for block in question.blocks)
    return {number: block for number, block in numbered if language in block.languages}


# ---- what is printed


def printed(said):
    """The lines behind each number."""
    _, *parts = re.split(r"^== (\d+)\n", said, flags=re.M)
    return {int(number): text.splitlines() for number, text in zip(parts[::2], parts[1::2])}


def wrong_numbers(blocks, found):
    """The blocks that print something else than their answers."""
    return [number for number, block in blocks.items() if found.get(number) != block.answers]


def answers_of(results, language, questions, before, room, built):
    """Runs the blocks of a language and compares what they print; the lines that each printed."""
    blocks = blocks_in(questions, language)
    if language == "Python" and not has_numpy():
        print("not run: the answers in Python with numpy, since Debian's Python has none")
        blocks = {number: it for number, it in blocks.items() if "numpy" not in it.code}
    text = program_of(language, before[language], {number: it.code for number, it in blocks.items()})
    found = printed(run(results, language, room, built, text) or "")
    wrong = wrong_numbers(blocks, found)
    for number, block in blocks.items():
        told = f"{questions[number - 1].title} {language} prints {found.get(number)}, and the page has {block.answers}"
        results.count(number not in wrong, told)
    print(f"{language}: {len(found)} of {COUNT} questions answered", flush=True)
    return found


# ---- wrong answers


def plant_answers(results, page, language, found):
    """Makes the last answer of each block of a language wrong, in a copy of the page."""
    questions, _ = questions_of(page)
    for number, block in blocks_in(questions, language).items():
        before, answer, after = block.code.rpartition(block.answers[-1])
        wrong, _ = questions_of(page.replace(f"{block.code}```", f"{before}{answer}9{after}```", 1))
        is_found = number not in found or number in wrong_numbers(blocks_in(wrong, language), found)
        results.count(is_found, f"{questions[number - 1].title} a wrong answer in {language} is not found")


def plant_forms(results, page):
    """Plants the faults of the page's form."""
    for old, new, wanted in PLANTED:
        results.count(old in page, f"docs/questions.md has no {old!r}")
        told = list(faults_of_form(questions_of(page.replace(old, new, 1))[0]))
        results.count(any(wanted in it for it in told), f"not found in docs/questions.md: {wanted}")


def test(results, room):
    """All of it."""
    page = read(PAGE)
    questions, before = questions_of(page)
    faults = list(faults_of_form(questions))
    results.count(not faults, "\n".join(faults))
    if faults:
        return
    plant_forms(results, page)
    built = build_libraries(room)
    for language in PROGRAMS:
        try:
            found = answers_of(results, language, questions, before, room, built)
            plant_answers(results, page, language, found)
        except packages.Missing as it:
            print(f"not run: the answers in {language}, since there is {it}")
        except RuntimeError as it:
            results.count(False, f"the package for {language} is not made: {it}")


def main():
    # (so that the server of PostgreSQL is stopped too if the check is)
    signal.signal(signal.SIGTERM, lambda *_: sys.exit(1))
    results = Results()
    try:
        with tempfile.TemporaryDirectory(prefix="questions-") as room:
            test(results, room)
    except packages.Missing as it:
        print(f"not run: all answers, since there is {it}")
    print(f"{results.passed} passed, {results.failed} failed")
    return 1 if results.failed else 0


if __name__ == "__main__":
    sys.exit(main())
