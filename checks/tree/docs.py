#!/usr/bin/env python3
"""The documents beside the tree: what they name is there, and what they count is as many.

    python3 -m checks.tree.docs            all of these checks
    python3 -m checks.tree.docs NAME ..    those of these names

  files      each file or folder that a code span, a link or a command names is there, and so is the heading that a link leads to
  names      a name alone in a code span, a clause's too, is declared by a source; of a path `A::b` a source has b in what it says of A;
             and each other name in a code span stands in some source, comments apart; clauses behind a function, as in
             `f`: `a`, `b`, or before it, as in `a` of `f`, and in a row of CALLING.md, are clauses of a function of that name
  counts     the numbers of COUNTS are those of the tree, and each of its patterns is found
  reference  the pages of docs/reference are those that tools/reference makes from the sources
  comments   links of doc comments lead somewhere, and public items and the words that public contracts cite have comments; each crate is in
             one subject of the reference, and each of its pages is short enough to be rendered
  crates     the page of the architecture names each crate
  version    each place that has the version has that of calendar.h, and no file has it that tools/packages/versions.py does not list
  pasted     the commands of README, of the tutorial and of caltool's page print what these pages say, as checks/tree/pasted.py runs them

ABSENT and NO_FILES list what is rightly not in the tree; a line there that no document needs is a fault too. Each check is then tried on
the faults of PLANTED, in copies of the texts, and has to find each. What a sentence claims of the names in it no script can read.
"""
import argparse
import collections
import datetime
import os
import re
import sys
import tempfile

import packages
import repositories
from checks import TOP
from checks.layers import memory
from checks.programs import statuses
from checks.rows import ends
from checks.shared import row_programs
from checks.tree import outside
from checks.tree import pasted as commands_pasted
from checks.tree import rules
from packages import versions
from reference_pages import library, make, pages

# The pages that checks read or plant faults in.
README, TUTORIAL, CALLING, CALTOOL, TRUST = "README.md", "docs/tutorial.md", "CALLING.md", "docs/caltool.md", "docs/trust.md"
CONTRIBUTING, CHANGELOG = "CONTRIBUTING.md", "CHANGELOG.md"
CHRONO, PROMISES, ARCHITECTURE, PROVING = "docs/chrono.md", "docs/promises.md", "docs/architecture.md", "docs/proving.md"
# Folders with nothing of the tree's own, beside which a caller from Python may build a shared object.
LEFT_OUT = (".git", "env", "out", "dist", "target", "__pycache__")
# The comments of each kind of source.
COMMENTS = {".rt": r"//[^\n]*", ".rs": r"//[^\n]*", ".antt": r"--[^\n]*", ".c": r"//[^\n]*|/\*.*?\*/", ".h": r"//[^\n]*|/\*.*?\*/",
            ".py": r'""".*?"""|#[^\n]*', ".pyi": r"#[^\n]*", ".toml": r"#[^\n]*", ".js": r"//[^\n]*|/\*.*?\*/", ".ts": r"//[^\n]*|/\*.*?\*/", ".sql": r"--[^\n]*"}
# Names that no source declares, by the reason.
ABSENT = {
    "of Rust and its std": """From Display DoubleEndedIterator String Drop Eq const std FromIterator FromPrimitive FromStr Hash
        to_string IntoIterator Ok Option Result Some Sum TryFrom collect fmt::Write match requires self str u8 unsafe unwrap""",
    "of the kit: its words, its tactics and its std": """SomeIff agree_below agree_below_at jiff_tz num_traits omega refl subst
        unfoldable view_is ensures condition""",
    "of the last line of a check": "logic-built libraries-built trusted axioms",
    "of pandas and Dask": "NA OutOfBoundsDatetime Client compute",
    "of Python": "Unpickler OverflowError TypeError ValueError datetime timedelta ZoneInfo __slots__ __getstate__",
    "of JavaScript": "BigInt Int32Array calendarName PlainTime iso8601 overflow RangeError Temporal wasm-opt bulk-memory sign-ext",
    "of earlier versions": "check_rule check_schedule Roll::Nearest",
    "of SQL, and of texts that it is given": "timestamptz STRICT IMMUTABLE STABLE nearest-isda nearest-quantlib nearest_quantlib",
    "of C": "int32_t memcpy",
    "of Rust's compiler and of the kit's options": "serde",
    "read from the environment": "CALENDAR_FOLDER CMAKE_PREFIX_PATH PKG_CONFIG_PATH TZ TZDIR",
    "of chrono, and left out here": """timestamp_nanos parse_and_remainder ParseMonthError ParseWeekdayError format_with_items
        format_localized format_localized_with_items and_utc and_local_timezone
        BEFORE_MIN AFTER_MAX UNIX_EPOCH MIN_UTC MAX_UTC timestamp_millis_opt from_timestamp_secs as_seconds_f64 as_seconds_f32 from_std to_std OutOfRangeError
        from_isoywd from_num_days_from_ce from_hms
        from_num_seconds_from_midnight and_hms proved_calendar::chrono""",
    "files and modules of chrono": "naive internals ",
    "words of CMake, of the shell and of a line": "find_package add_subdirectory Iamalgamation cc load_extension pkg-config lcalendar ldconfig LD_LIBRARY_PATH gc-sections",
    "words of the program dates": "MONTH mo us-federal modified-following modified-preceding",
    "texts and digits of a text": "CET CEST P0D PT59M59 PT90S PT5400S PT0S P1Y2M h30min",
    "made by tools/dist": "SHA256SUMS",
    "of tzcode": "zic slim",
    "packages of Debian": "libsqlite3-dev postgresql-server-dev-all python3-dev",
    "in the place of a name, or a part of names": "LAW ARGS with_ _milli _micro _nano",
}
# Files and folders that are rightly not there, by the reason.
NO_FILES = {
    "left by a build": "dist/sqlite languages/sqlite/proved_calendar crates/caltool/out/caltool crates/dates/out/dates out out/libcalendar_c.a",
    "a day count": "actual/actual actual/360 actual/365 30/360 30e/360",
    "where a package is installed": """
        include/calendar.h include/calendar_layers.h lib/libcalendar-v3.a lib/libcalendar.a lib/libcalendar.so
        lib/libcalendar_layers.a lib/libcalendar_layers.so libcalendar-v3.a lib/pkgconfig lib/cmake/calendar /usr/local/lib""",
    "an option of a compiler": "-Ilanguages/c",
    "of the kit": "docs/WALKS.md",
    "of the reader": "main.c",
    "of the machine": "/usr/share/zoneinfo /etc/localtime Europe/Berlin America/Ojinaga",
    "a date": "29/02/2024",
    "in the place of a name": "plants/MODULE.edits specs.MODULE.edits proofs/MODULE/FUNCTION/Answers.antt",
}

NAME = re.compile(r"[A-Za-z_]\w*(?:-[A-Za-z]\w*)*")
SPAN = re.compile(r"`([^`]+)`")
FENCE = re.compile(r"^```.*?^```$", re.M | re.S)
PLACE = re.compile(r"[\w./-]*/[\w./-]*|[\w.-]+\.(?:rt|antt|py|md|edits?|h|c|rs|txt|so|a)")
FOLDERS = re.compile(r"(?<![\w/.])(?:crates|docs|checks|tools|benches|languages)/[\w./-]*\w")
# From one crate's folder to another's.
NEXT_CRATE = re.compile(r"\bcd \.\./(\w+)")
LINK = re.compile(r"\]\(([^)#\s]*)(?:#([^)\s]*))?\)")
DECLARED = {
    ".rt": re.compile(r"\b(?:fn|struct|enum|trait|const|type|mod|ghost|ensures|requires) (\w+)|^ *(?:pub )?(\w+):"
                      r"|^    ([A-Z]\w*)\b[^;\n]*,$", re.M),
    ".antt": re.compile(r"^ *(?:[a-z]+ )*([^\s:]+)[^:\n]* : |^(?:pub )?ruleset (\w+)", re.M),
    ".h": re.compile(r"^#define (\w+)", re.M),
    ".py": re.compile(r"^ *(?:def|class) (\w+)|^(\w+) =", re.M),
    ".pyi": re.compile(r"^ *(?:def|class) (\w+)", re.M),
    ".ts": re.compile(r"\b(?:function|class|const|readonly|get|static) (\w+)|^ +(\w+)\(", re.M),
    ".toml": re.compile(r'^name = "([\w-]+)"', re.M),
    ".sql": re.compile(r"^CREATE (?:FUNCTION|TABLE) (\w+)", re.M),
    ".js": re.compile(r"^(?:export )?(?:class|function|const) (\w+)|^  (?:static )?(?:get )?(\w+)\(|^  \"(\w+)\",$", re.M),
}
# The blocks of types and of traits.
BLOCK = re.compile(r"^((?:pub )?(?:impl|trait|enum|struct)\b[^{;]*)\{(.*?)^\}", re.M | re.S)
PATH = re.compile(r"[A-Za-z_]\w*(?:::[A-Za-z_]\w*)+")

Part = collections.namedtuple("Part", "path heading text")


# ---- the tree


def read_files():
    """The text of each file of the tree, by its path."""
    files = {}
    for at, folders, names in os.walk(TOP):
        folders[:] = [it for it in folders if it not in LEFT_OUT]
        for name in (it for it in names if not it.endswith(".so")):
            with open(os.path.join(at, name), "rb") as it:
                files[os.path.relpath(os.path.join(at, name), TOP)] = it.read().decode(errors="replace")
    return files


def is_made(path):
    """Whether a page is made from the sources."""
    return path.startswith(f"{make.FOLDER}/")


def kind_of(path):
    return os.path.splitext(path)[1].replace(".rattle", ".rt").replace(".proof", ".antt")


def without_comments(path, text):
    return re.sub(COMMENTS[kind_of(path)], " ", text, flags=re.S)


def is_source(path):
    # (what `tools/dist amalgamation` writes declares no name of its own)
    is_written = path.startswith("amalgamation/") or path.endswith("module.js")
    return kind_of(path) in COMMENTS and path != "checks/tree/docs.py" and not is_written


def declared_by(kind, text):
    """The names that a text of a source of some kind declares."""
    found = DECLARED[kind].finditer(text) if kind in DECLARED else []
    return {it for one in found for it in one.groups() if it}


def owned_by(sources):
    """The names that the blocks of each type and each trait declare."""
    owned = collections.defaultdict(set)
    for path, text in sources.items():
        for head, body in BLOCK.findall(text) if kind_of(path) in (".rt", ".rs") else []:
            for owner in re.findall(r"\b[A-Z]\w+", head):
                owned[owner] |= declared_by(".rt", body)
    return dict(owned)


class Tree:
    """The files and folders, the documents, the names in each source, and those that sources declare, and their types and traits."""

    def __init__(self, files):
        sources = {path: without_comments(path, text) for path, text in files.items() if is_source(path)}
        self.files = files
        self.documents = {path: text for path, text in files.items() if path.endswith(".md") and not is_made(path)}
        self.library = library.Library(files)
        self.places = set(files) | {path[: it.start()] for path in files for it in re.finditer("/", path)}
        self.sources = {path: set(NAME.findall(text)) | set(re.findall(r"\w+", f"{path} {text}")) for path, text in sources.items()}
        self.names = set().union(*self.sources.values(), *(re.findall(r"[\w-]+", path) for path in files))
        self.declared = set().union(*(declared_by(kind_of(path), text) for path, text in sources.items()))
        self.declared |= {it for path in files for it in re.findall(r"\w+", path)}
        self.owned = owned_by(sources)

    def with_file(self, path, text):
        """The same tree with another text of a document, of a page that is made, or of a source of these."""
        changed = object.__new__(Tree)
        changed.__dict__.update(self.__dict__, files={**self.files, path: text})
        if path in self.documents:
            changed.documents = {**self.documents, path: text}
        elif path in self.sources:
            changed.library = library.Library(changed.files)
        return changed


def parts(documents):
    """The paragraphs of documents, each with the heading above it; fenced lines are left out."""
    for path, text in documents.items():
        heading = ""
        for block in re.split(r"\n\n+", FENCE.sub("", text)):
            heading = block.partition("\n")[0] if block.startswith("#") else heading
            yield Part(path, heading, block)


def spans(documents):
    """The code spans of documents, with the paragraphs in which they stand."""
    return [(span, part) for part in parts(documents) for span in SPAN.findall(part.text)]


# ---- files


def crates_named(part, places):
    """The crates that a paragraph names, or its heading; all of them if these name none."""
    found = [it for it in re.findall(r"\w+", f"{part.heading} {part.text}") if f"crates/{it}" in places]
    return found or [it.removeprefix("crates/") for it in places if re.fullmatch(r"crates/\w+", it)]


def is_there(name, part, places):
    """Whether a file or a folder is at the top, beside the document or in a crate that is named; a bare name may be of any folder there."""
    name = os.path.normpath(name)
    if {name, f"crates/{name}", os.path.normpath(os.path.join(os.path.dirname(part.path), name))} & places:
        return True
    rooms = tuple(f"crates/{it}/" for it in crates_named(part, places))
    if "/" not in name and "." not in name:
        return any(re.fullmatch(rf"crates/\w+/{name}", it) for it in places)
    if "/" in name:
        return any(f"{it}{name}" in places for it in rooms)
    return any(it.endswith(f"/{name}") and (it.startswith(rooms) or not it.startswith("crates/")) for it in places)


def named_places(documents):
    """What documents name as files and folders, with the paragraphs in which they do."""
    for span, part in spans(documents):
        if PLACE.fullmatch(span):
            yield span, part
    for path, text in documents.items():
        yield from ((it, Part(path, "", "")) for it in FOLDERS.findall(text))
        yield from ((f"crates/{it}", Part(path, "", "")) for it in NEXT_CRATE.findall(text))


def quoted(documents):
    """The files that pages give to the reader whole."""
    return {path for page in outside.PAGES for path, _ in outside.QUOTED.findall(documents[page])}


def missing_files(tree):
    given = quoted(tree.documents)
    given |= {it[: slash.start()] for it in given for slash in re.finditer("/", it)}
    for name, part in named_places(tree.documents):
        if name not in given and not is_there(name, part, tree.places):
            yield part.path, os.path.normpath(name)


def files(tree):
    excused, needed = " ".join(NO_FILES.values()).split(), set()
    for path, name in dict.fromkeys(missing_files(tree)):
        needed |= {it for it in excused if name == it or name.endswith(f"/{it}")}
        if not needed & {name, *(it for it in excused if name.endswith(f"/{it}"))}:
            yield f"{path}: there is no {name}"
    yield from (f"NO_FILES: {it} need not be listed" for it in excused if it not in needed)
    for part in parts(tree.documents):
        for name, end in LINK.findall(part.text):
            path = os.path.normpath(os.path.join(os.path.dirname(part.path), name)) if name else part.path
            if path not in tree.places or end and end not in pages.ids(pages.headings_of(tree.files[path])):
                yield f"{part.path}: a link to {name}{end and '#' + end}, which is not there"


# ---- names


def passed_on(tree, name):
    """The modules of a crate, and what it makes public or passes on."""
    crate = tree.library.crates.get(name) or library.Crate(name, tree.files, tree.library.specs)
    calls = (it.name for entry in crate.entries.values() for it, _ in crate.calls_of(entry.item.name))
    of_traits = (it.name for entry in crate.entries.values() if entry.item.kind == "trait" for it in entry.item.members)
    return {*re.findall(r"\w+", " ".join([*crate.modules, *crate.entries, *crate.passed])), *calls, *of_traits}


def is_path(tree, path):
    """Whether the last name of a path is of the type, the trait, the crate or the module before it; else, whether a source has both."""
    owner, name = path.split("::")[-2:]
    if owner in tree.owned:
        return name in tree.owned[owner]
    if f"crates/{owner}/src/lib.rt" in tree.places:
        return name in passed_on(tree, owner)
    of_module = [names for source, names in tree.sources.items() if owner in re.findall(r"\w+", source)]
    return any(names.issuperset(path.split("::")[-2:]) for names in of_module or tree.sources.values())


def missing_names(tree):
    """The names in code spans that are in no source, or alone in a span and declared by none, and the paths that are none."""
    for span, part in spans(tree.documents):
        if not PLACE.fullmatch(span):
            known = tree.declared if NAME.fullmatch(span) else tree.names
            yield from ((part.path, it) for it in NAME.findall(span) if it not in known and len(it) > 1)
            yield from ((part.path, it) for it in PATH.findall(span) if not is_path(tree, it))


def names(tree):
    excused = " ".join(ABSENT.values()).split()
    found = dict.fromkeys(missing_names(tree))
    yield from (f"{path}: {it} is in no source" for path, it in found if it not in excused)
    needed = {it for _, it in found}
    yield from (f"ABSENT: {it} need not be listed" for it in excused if it not in needed)
    yield from wrong_clauses(tree)


FUNCTION = re.compile(r"\bfn (\w+)(.*?)(?=\n *\{\n|;\n|\bfn )", re.S)
# Clauses behind a function, a clause of a function, and a row of CALLING.md with functions and their clauses.
CLAIMED = re.compile(r"(?<!, )`(?:\w+::)*(\w+)`: ((?:`\w+`(?:, )?)+)")
CLAUSE_OF = re.compile(r"(`[a-z]\w*`) of\s+`(?:\w+::)*([a-z]\w*)`")
CLAUSE_ROW = re.compile(r"^\| ([^|]*) \| ([^|]*) \|$", re.M)


def wrong_clauses(tree):
    """The clauses that documents give to functions, of which no function of that name has them."""
    clauses, words = collections.defaultdict(set), set()
    for path, text in tree.files.items():
        if path.endswith(".rt") and "/src/" in path:
            for name, rest in FUNCTION.findall(text):
                clauses[name] |= set(re.findall(r"(?:ensures|requires) (\w+) \{", rest))
        elif path.endswith(".antt") and "/specs/" in path:
            words |= set(re.findall(r"^(?:\w+ )*pub (?:record )?(\w+)", text, re.M))
    claims = [(path, [it[1]], it[2]) for path, text in tree.documents.items() for it in CLAIMED.finditer(FENCE.sub("", text))]
    each = set().union(*clauses.values())
    claims += [(path, [it[2]], it[1]) for path, text in tree.documents.items() for it in CLAUSE_OF.finditer(FENCE.sub("", text)) if it[1].strip("`") in each]
    rows = tree.documents[CALLING].partition("\n## Clauses that most callers use\n")[2].partition("\n## ")[0]
    claims += [(CALLING, re.findall(r"(\w+)`", functions), said) for functions, said in CLAUSE_ROW.findall(rows)]
    for path, functions, said in claims:
        known = set().union(*(clauses[it] for it in functions if it in clauses))
        for it in re.findall(r"`(\w+)(?: \{[^`]*)?`", said) if known else ():
            if it not in known | words:
                yield f"{path}: {it} is no clause of {' or '.join(functions)}"


# ---- the reference


def modules_of(tree, crate):
    """The sources of a crate without their comments, by modules."""
    inside = f"crates/{crate}/src/"
    found = [it for it in tree.sources if it.startswith(inside)]
    return {it.removeprefix(inside).removesuffix(".rt").replace("/", "::"): without_comments(it, tree.files[it]) for it in found}


def reference(tree):
    """The pages that are not those that the sources make."""
    yield from make.differing(make.make(tree.library), {path: text for path, text in tree.files.items() if is_made(path)})


def comments(tree):
    """What is wrong with the comments that the reference is made of."""
    yield from make.make(tree.library).faults


def crates(tree):
    """The crates that the page of the architecture does not name."""
    listed = (it.removesuffix(" staticlib") for it in repositories.listed_crates())
    said = set(re.findall(r"\w+", tree.documents[ARCHITECTURE]))
    yield from (f"{ARCHITECTURE}: {it} is not named" for it in listed if it not in said)


def version(tree):
    """The places that have another version than calendar.h, and those that no table has."""
    yield from versions.wrong(tree.files)


def pasted(tree):
    """What the commands of README, of the tutorial and of caltool's page do not print."""
    yield from commands_pasted.readme(tree.documents[README])
    yield from commands_pasted.caltool(tree.documents[CALTOOL])
    yield from commands_pasted.tutorial(tree.documents[TUTORIAL])


# ---- counts

NUMBERS = dict(zip("one two three four five six seven eight nine ten eleven twelve thirteen fourteen".split(), range(1, 15)))
NUMBERS |= {"twenty": 20, "thirty": 30, "forty": 40, "fifty": 50, "sixty": 60, "seventy": 70, "eighty": 80, "ninety": 90, "hundred": 100}
# A row of CALLING.md: a question, the function that answers it, and the lines of its proof.
CALLER = r"^\|[^|]*\| `(?P<module>\w+)::(?P<name>\w+)` \| (\d+|-) \| (\d+|-) \|"


def edits_in(tree, crate=r"\w+"):
    return sum(bool(re.fullmatch(rf"crates/{crate}/must-fail/\w+\.edit", it)) for it in tree.files)


def plants_in(tree, module=r"[\w.]+"):
    files = (it for it in tree.files if re.fullmatch(rf"crates/\w+/plants/{module}\.edits", it))
    return sum(len(re.findall("^name: ", tree.files[it], re.M)) for it in files)


def wrong_definitions(tree):
    return plants_in(tree, r"specs\.\w+")


def twins(tree):
    """The edits with a right body: files of must-fail/, and blocks of the files of plants."""
    edits = [it for path, text in tree.files.items() if re.search(r"/(must-fail|plants)/", path) for it in text.split("\n\n")]
    return sum("\nsame: " in it for it in edits)


def lines_of(tree, crate):
    return len(tree.files[f"crates/{crate}/stdin"].removesuffix("\n").split("\n"))


def texts_read(tree):
    return row_programs.sections(tree.files[row_programs.STDIN])["reading"]


def texts_of_none(tree):
    return sum(it.endswith(" = none") for it in texts_read(tree))


def commands(tree):
    """The commands of caltool, each with its row in the page of caltool, or none if it has no row."""
    _, _, variants = tree.files["crates/caltool_command/src/name.rt"].partition("enum Name {")
    named = re.findall(r"^    ([A-Z]\w*),", variants.partition("\n}")[0], re.M)
    rows = re.findall(r"^\| `(\w+)", tree.documents[CALTOOL], re.M)
    return len(named) if rows == [it.lower() for it in named] else 0


def functions_of_a_user(tree):
    """The functions of chrono_uses, in tens."""
    sources = modules_of(tree, "chrono_uses").values()
    return round(sum(len(re.findall(r"^pub fn ", it, re.M)) for it in sources), -1)


def rows_at_ends(_):
    return len({(name, *(str(word) for words in it for word in words)) for name in ends.CALLS for it in ends.wanted(name)})


def cases_of_statuses(_):
    """The cases of checks/programs/statuses.py, counted without a run."""
    made = {it: vars(statuses)[it] for it in ("run", "of_broken_pipe", "of_reset", "connection")}
    try:
        vars(statuses).update({it: lambda *_, **__: (None, None) for it in made})
        with tempfile.TemporaryDirectory() as folder:
            lists = (statuses.cases("", folder), statuses.full_cases("", folder), statuses.long_cases(""))
            return sum(len(list(it)) for it in lists)
    finally:
        vars(statuses).update(made)


def length(tree, path, array):
    """The length of an array of a source, which the compiler holds to what stands in it."""
    return int(re.search(rf"^const {array}: \[.*; (\d+)\] =", tree.files[path], re.M)[1])


def kinds_of_error(tree):
    return length(tree, "checks/programs/tests_caltool/src/hostile.rattle", "KINDS")


def fractions_and_moves(tree):
    return tuple(length(tree, "checks/rows/tests_chrono/src/naive_time/every_second.rattle", it) for it in ("FRACTIONS", "MOVES"))


def lines_of_fuzz(tree):
    return int(re.search(r'"--lines", type=int, default=(\w+)', tree.files["checks/programs/fuzz.py"])[1])


def lines_of_proof(tree, module, name):
    """The lines of a function's proof files without imports, comments and empty lines, and all of them."""
    folder = f"crates/chrono_uses/proofs/{module}/{name}/"
    lines = [it for path, text in tree.files.items() if path.startswith(folder) for it in text.splitlines()]
    return len([it for it in lines if it.strip() and not re.match(r" *--|use ", it)]), len(lines)


def lines_in(texts):
    return sum(bool(it.strip()) for text in texts for it in text.splitlines())


def lines_of_all_specs(tree):
    """The lines of all specs that are not empty, in hundreds."""
    return round(lines_in(text for path, text in tree.files.items() if re.fullmatch(r"crates/\w+/specs/.*\.antt", path)), -2)


def lines_of_specs(tree, those):
    """The lines that are not empty, of the files and folders that code spans name; of a folder without its list of modules."""
    named = "|".join(re.escape(it.removesuffix(".antt").strip("/")) for it in SPAN.findall(those))
    inside = re.compile(rf"crates/(\w+/specs/)?({named})(/(?!Lib\b)\w+)?\.antt")
    return lines_in(text for path, text in tree.files.items() if "/specs/" in path and inside.fullmatch(path))


def lines_to_read(tree):
    """The lines of the definitions of dates and date-times, which are the first nine rows, to the nearest ten."""
    return round(sum(number(it) for it in re.findall(r"^\| `\w+/specs/[^|]* \| ([\d,]+) \|", tree.documents[TRUST], re.M)[:9]), -1)


def node_wanted(tree):
    """The first version of node that the package for JavaScript takes."""
    return re.search(r'"node": ">=([\d.]+)"', tree.files["languages/javascript/package.json"])[1]


def callers(tree):
    return len(re.findall(CALLER, tree.documents[CALLING], re.M))


# What counts the numbers of a text that fits the pattern; the groups that are named say of what.
COUNTS = [
    (r"(\d+) wrong bodies \(`must-fail/`", edits_in),
    (r"(\d+) more \(`plants/`\)", plants_in),
    (r"(\d+) of them turn a\s+definition", wrong_definitions),
    (r"(\d+) planted edits each turn a definition", wrong_definitions),
    (r"(\w+) edits carry a right body", twins),
    (r"finds (\d+) wrong bodies planted", lambda _: len(rules.PLANTED)),
    (r"(\w+) (?:cases|arms) or\s+more", lambda _: rules.MANY),
    (r"`(?P<crate>rows_chrono)` \(([\d,]+) single calls", lines_of),
    (r"rows of `(?P<crate>caltool)`\s+\(([\d,]+)\s+lines", lines_of),
    (r"([\d,]+) texts of `rows_layers`", lambda tree: len(texts_read(tree))),
    (r"`rows_layers`, ([\d,]+) of them of no value", texts_of_none),
    (r"([\d,]+) rows of `rows_chrono` at the ends", rows_at_ends),
    (r"at the ends of the types of (\d+) calls", lambda _: len(ends.CALLS)),
    (r"(\d+) cases of the program", cases_of_statuses),
    (r"each of (\d+) kinds of error", kinds_of_error),
    (r"second of the day with (\w+) fractions and (\w+) durations", fractions_and_moves),
    (r"refused while (\w+)\s+texts are printed", lambda _: len(memory.TEXTS)),
    (r"([\d,]+) in each check", lines_of_fuzz),
    (r"all (\w+) commands", commands),
    (r"some (\w+) small functions of\s+a user", functions_of_a_user),
    (r"([\d,]+) days of (?:its )?`datetime`", lambda _: datetime.date.max.toordinal()),
    (r"some ([\d,]+) lines in the `specs/` folders", lines_of_all_specs),
    (r"^\| (?P<those>`\w+/specs/[^|]*) \| ([\d,]+) \|", lines_of_specs),
    (r"about (\d+) lines", lines_to_read),
    (r"These (\w+) have the longest answers", callers),
    (r"node (\d+\.\d+)", node_wanted),
    (CALLER, lines_of_proof),
]


def number(text):
    """What a number in digits or in a word is; a dash and an empty place are 0."""
    digits = text.replace(",", "")
    return int(digits) if digits.isdecimal() else 0 if digits in ("", "-") else NUMBERS.get(text.lower(), text)


def counts(tree):
    for pattern, count in COUNTS:
        found = [(path, it) for path, text in tree.documents.items() for it in re.finditer(pattern, FENCE.sub("", text), re.M)]
        if not found:
            yield f"no document has {pattern!r}"
        for path, it in found:
            named = it.re.groupindex.values()
            said = tuple(number(text) for n, text in enumerate(it.groups(), 1) if n not in named and text is not None)
            counted = count(tree, **it.groupdict())
            if said != (counted if isinstance(counted, tuple) else (counted,)):
                yield f"{path}: {it[0]!r}, and there are {counted}"


CHECKS = (files, names, counts, reference, comments, crates, version, pasted)


# ---- planted faults

# The check that has to find each, the file, and what takes the place of what stands there.
PLANTED = [
    (files, ARCHITECTURE, "`chrono_naive/src/naive_date/moves.rt`", "`chrono_naive/src/naive_date/moved.rt`"),
    (files, PROMISES, "(`checks/programs/fuzz.py`)", "(`checks/fuzzy.py`)"),
    (files, README, "(docs/reference/README.md)", "(docs/reference/READER.md)"),
    (files, README, "(docs/reference/README.md)", "(docs/reference/README.md#chrono_days)"),
    (files, README, "(cd crates/dates && rt try", "(cd crates/date && rt try"),
    (files, CONTRIBUTING, "`tools/repositories.py`", "`tools/repository.py`"),
    (names, CALLING, "`Datelike::num_days_from_ce`", "`Datelike::num_days_from_bce`"),
    (names, CALLING, "`Datelike::num_days_from_ce`", "`Timelike::num_days_from_ce`"),
    (names, CHRONO, "`chrono_units::year`", "`chrono_units::years`"),
    (names, PROMISES, "(`output`, `status`)", "(`output`, `arith`)"),
    (names, PROMISES, "`NaiveTime::landing`: `time`", "`NaiveTime::landing`: `taken`"),
    (names, CALLING, "`order`, `back`, `sum`", "`order`, `back`, `hash_input`"),
    (names, TUTORIAL, "`month` of `moved_by_months`", "`taken` of `moved_by_months`"),
    (counts, PROMISES, "the prover refuse ", "the prover refuse 1"),
    (counts, PROMISES, " wrong bodies (`must-fail/`", " bodies (`must-fail/`"),
    (counts, TRUST, "Years.antt` | ", "Years.antt` | 1"),
    (counts, TRUST, "| 1,", "| 9,"),
    (counts, README, "node 20.", "node 19."),
    (counts, README, "all fourteen commands", "all thirteen commands"),
    (counts, README, " lines for dates and date-times", "0 lines for dates and date-times"),
    (counts, CALTOOL, "| `wom ", "| `wmo "),
    (counts, CALLING, "`questions::mondays_walked` | ", "`questions::mondays_walked` | 1"),
    (reference, "docs/reference/chrono_units.md", "pub fn succ(", "pub fn next("),
    (reference, "docs/reference/definitions/chrono_units.md", "### `is_leap_year`", "### `is_leap`"),
    (reference, "docs/reference/definitions/chrono_units.md", "(../../../crates/", "(../../crates/"),
    (reference, "docs/reference/README.md", "- [`chrono_sets`](chrono_sets.md)", "- [`chrono_sets`](chrono_set.md)"),
    (reference, "crates/chrono_naive/src/naive_date.rt", "pub fn from_epoch_days(days: i32)", "pub fn from_epoch_days(days: i64)"),
    (reference, "crates/chrono_naive/src/naive_date.rt", "ensures date { result ≡ date_of_ymd", "ensures day { result ≡ date_of_ymd"),
    (reference, "crates/chrono_text/src/lib.rt", "pub use line::Line;", ""),
    (comments, "crates/chrono_text/src/lib.rt", "pub use text::Text;", ""),
    (comments, "crates/chrono_units/specs/Years.antt", "-- the days of a year\n", ""),
    (comments, "crates/chrono_naive/src/naive_date.rt", "impl NaiveDate {\n", "impl NaiveDate {\n    /// See [`NaiveDate::day_after`].\n"),
    (comments, "crates/chrono_naive/src/naive_date.rt", "impl NaiveDate {\n", "impl NaiveDate {\n    pub const FIRST: i32 = 1;\n"),
    (crates, ARCHITECTURE, "rows_layers", "rows_of_layers"),
    (version, "languages/python/pyproject.toml", 'version = "0.', 'version = "1.'),
    (version, "languages/c/calendar_layers.h", "CALENDAR_VERSION, such as 0.", "CALENDAR_VERSION, such as 1."),
    (version, "languages/postgresql/proved_calendar.control", "default_version = '", "default_version = '1"),
    (version, "crates/numbers_c/specs/Texts.antt", 'version = codes "', 'version = codes "1'),
    (version, "crates/calendar_c/plants/versions.edits", "write_version(&mut [0; ", "write_version(&mut [0; 1"),
    (version, "amalgamation/calendar.h", '#define CALENDAR_VERSION "', '#define CALENDAR_VERSION "1'),
    (version, README, "Version ", "Version 1"),
    (version, CHANGELOG, "\n## 0.", "\n## 1."),
    (version, TUTORIAL, "# ", f"# Version {packages.version(TOP)}: "),
    (pasted, README, "| tools/prove caltool", "| tools/proved caltool"),
    (pasted, README, "`2025-02-28`", "`2025-02-27`"),
    (pasted, README, "tools/prove caltool    # 2024-02-29 738945", "tools/prove caltool    # 2024-02-29 738946"),
    (pasted, CALTOOL, "| `2025-01-01 739252 ", "| `2025-01-01 739253 "),
    (pasted, TUTORIAL, "fn my_invoices::due: proved", "fn my_invoices::due: refused"),
]


def is_found(tree, stands, check, path, old, new):
    """Whether a check finds a fault that is planted there, beside those that stand already."""
    text = tree.files.get(path, "")
    if old not in text:
        print(f"{path}: {old!r} does not stand there")
        return False
    planted = tree.with_file(path, text.replace(old, new, 1))
    if set(check(planted)) <= set(stands):
        print(f"{path}: the check `{check.__name__}` does not find {new!r}")
        return False
    return True


def main():
    words = argparse.ArgumentParser(description="Holds the documents to the tree, by all checks or by those of these names.")
    words.add_argument("names", nargs="*", metavar="NAME", choices=[[], *(it.__name__ for it in CHECKS)])
    wanted = words.parse_args().names
    checks = [it for it in CHECKS if not wanted or it.__name__ in wanted]
    tree = Tree(read_files())
    stands = [it for check in checks for it in check(tree)]
    for it in stands:
        print(it)
    found = [is_found(tree, stands, *it) for it in PLANTED if it[0] in checks]
    print(f"{len(checks)} checks over {len(tree.documents)} documents; {sum(found)} of {len(found)} faults found")
    print(f"{len(checks) + sum(found)} passed, {len(stands) + found.count(False)} failed")
    return 1 if stands or not all(found) else 0


if __name__ == "__main__":
    sys.exit(main())
