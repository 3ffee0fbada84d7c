"""Where the version of this repository stands: the one table of these places, by which `tools/version` sets it and `checks/tree/docs.py` compares it.

A version is as 0.2.0, or as 0.2.0-dev while it is being made. The header of C has it, and each other place repeats it in a form of its own.
"""
import collections
import re

VERSION = re.compile(r"\d+\.\d+\.\d+(?:-dev)?")
HEADER, CHANGES = "languages/c/calendar.h", "CHANGELOG.md"
IN_HEADER = r'^#define CALENDAR_VERSION "(.*)"$'


# ---- the forms of a version


def as_it_is(version):
    """As C, Rust, npm and PostgreSQL write it, such as 0.2.0-dev."""
    return version


def of_python(version):
    """As Python writes it, such as 0.2.0.dev0."""
    return version.replace("-dev", ".dev0")


def another(version):
    """Another version of the same length, for a planted bug: the last digit of its second number is one higher, or 0 after 9."""
    return re.sub(r"(\d)(?=\.\d+(?:-dev)?$)", lambda it: str((int(it[1]) + 1) % 10), version)


def bytes_of(version):
    """How many bytes it has."""
    return str(len(version))


def a_byte_more(version):
    """How many bytes hold it with one to spare."""
    return str(len(version) + 1)


def dots(version):
    """A text of dots that holds it with one to spare."""
    return "." * (len(version) + 1)


# ---- the places

# A file, the pattern around the version there, and its form. A `*` in the file's name stands for the version.
Place = collections.namedtuple("Place", "path pattern form")
SQL = "languages/postgresql/proved_calendar--*.sql"
PLACES = [
    Place(HEADER, IN_HEADER, as_it_is),
    Place(HEADER, r"CALENDAR_VERSION, such as (.*), over", as_it_is),
    Place("languages/c/calendar_layers.h", r"CALENDAR_VERSION, such as (.*), over", as_it_is),
    Place("languages/python/pyproject.toml", r'^version = "(.*)"$', of_python),
    Place("languages/rust/Cargo.toml", r'^version = "(.*)"$', as_it_is),
    Place("languages/javascript/package.json", r'^  "version": "(.*)",$', as_it_is),
    Place("languages/javascript/index.d.ts", r"The version of the library, such as `(.*)`", as_it_is),
    Place("languages/javascript/test/layers.test.js", r'assert\.equal\(version\(\), "(.*)"\)', as_it_is),
    Place("languages/postgresql/proved_calendar.control", r"^default_version = '(.*)'$", as_it_is),
    *(Place(path, pattern, as_it_is) for path, pattern in (
        (SQL, r"^-- proved_calendar--(.*)\.sql:"), ("languages/postgresql/wrong_lines.txt", r"^file: proved_calendar--(.*)\.sql$"),
        ("docs/architecture.md", r"/proved_calendar--(.*)\.sql`"))),
    Place("crates/numbers_c/src/version.rt", r'write_over\(bytes, b"(.*)"\)', as_it_is),
    Place("crates/numbers_c/src/version.rt", r'let mut bytes = \*b"(\.+)";', dots),
    Place("crates/numbers_c/src/version.rt", r"write_version\(&mut bytes\) // (\d+)", bytes_of),
    Place("crates/numbers_c/specs/Texts.antt", r'^version = codes "(.*)"$', as_it_is),
    Place("crates/numbers_c/plants/version.edits", r'^old: b"(.*)"$', as_it_is),
    Place("crates/numbers_c/plants/version.edits", r'^new: b"(.*)"$', another),
    *(Place(f"crates/{crate}/plants/versions.edits", pattern, form) for crate in ("calendar_c", "layers_c") for pattern, form in (
        (r"if text\.len\(\) < (\d+) \{", a_byte_more), (r"write_version\(&mut \[0; (\d+)\]\)", bytes_of))),
    *(Place(f"crates/dates_answer/{path}", pattern, as_it_is) for path in ("src/line.rt", "specs/Lines.antt") for pattern in (
        r'"dates (\d.*)"', r'"\{\\"version\\":\\"(.*)\\"\}"')),
    Place("crates/dates/examples.txt", r'^\{"version":"(.*)"\}$', as_it_is),
    Place("README.md", r"\b[Vv]ersion (\d+\.\d+\.\d+[-.\w]*\b)", as_it_is),
]
# The places that `tools/dist amalgamation` makes.
MADE = [
    *(place._replace(path=place.path.replace("languages/c", "amalgamation")) for place in PLACES if place.path.startswith("languages/c/")),
    *(Place(f"amalgamation/{name}.c", rf"the functions of {name}\.h (.*), for", as_it_is) for name in ("calendar", "calendar_layers")),
    Place("amalgamation/caltool.c", r"the program caltool (.*), for", as_it_is),
]
# Files in which a version is no place: those with a version of their own, with past ones or with examples, what pip leaves, and the
# reference, which is compared with the sources.
APART = re.compile(rf"(?:benches|checks)/.*Cargo\.(?:toml|lock)|{re.escape(CHANGES)}|tools/version|tools/packages/versions\.py|"
                   r".*/(?:build|\w+\.egg-info)/.*|docs/reference/.*")


def version_of(header):
    """The version that the text of the header has."""
    return re.search(IN_HEADER, header, re.M)[1]


def path_of(place, version):
    """The path of a place's file."""
    return place.path.replace("*", version)


def released(changes):
    """The newest version that the text of CHANGELOG.md has a heading for, or 0.0.0."""
    found = re.search(r"^## (\d\S*)", changes, re.M)
    return found[1] if found else "0.0.0"


def numbers(version):
    """The numbers of a version."""
    return [int(it) for it in re.findall(r"\d+", version)]


# ---- what differs


def wrong_places(files, version):
    """The places that have another version, or none."""
    for place in PLACES + MADE:
        path, wanted = path_of(place, version), place.form(version)
        found = re.findall(place.pattern, files.get(path, ""), re.M)
        if not found:
            yield f"{path}: nothing there fits {place.pattern}, which is a place of the version"
        yield from (f"{path}: has {it!r} for the version, and not {wanted!r}" for it in found if it != wanted)


def unknown_places(files, version):
    """The places of the version that no table has."""
    known = {path_of(it, version) for it in PLACES + MADE}
    whole = re.compile(rf"(?<![\w.])(?:{re.escape(version)}|{re.escape(of_python(version))})(?![\w-]|\.\w)")
    for path, text in files.items():
        if path not in known and not APART.fullmatch(path) and (whole.search(text) or f"--{version}." in path):
            yield f"{path}: has the version {version}, and is no place of tools/packages/versions.py"


def wrong(files):
    """Where the files of the tree, by their paths, differ from the version that the header has."""
    version = version_of(files[HEADER])
    if not VERSION.fullmatch(version):
        yield f"{HEADER}: {version} is no version"
    yield from wrong_places(files, version)
    yield from unknown_places(files, version)
    newest = released(files[CHANGES])
    if newest != version and (not version.endswith("-dev") or numbers(newest) >= numbers(version)):
        yield f"{CHANGES}: the newest version is {newest}, and that of the header is {version}"


# ---- another version


def with_version(place, text, version):
    """The text of a place's file with another version at that place."""
    def put(found):
        start, end = found.start(1) - found.start(), found.end(1) - found.start()
        return found[0][:start] + place.form(version) + found[0][end:]
    changed, count = re.subn(place.pattern, put, text, flags=re.M)
    if not count:
        raise ValueError(f"{place.path}: nothing there fits {place.pattern}")
    return changed


def with_release(changes, version, today):
    """The text of CHANGELOG.md in which what came next is in this version, unless it is none to release or is there."""
    if version.endswith("-dev") or released(changes) == version:
        return changes
    return re.sub(r"^## Next$", f"## {version} ({today})", changes, count=1, flags=re.M)


def changed(files, version, today):
    """The files that another version changes, by their new paths, and the paths that are no more."""
    old = version_of(files[HEADER])
    found = {CHANGES: with_release(files[CHANGES], version, today)}
    for place in PLACES:
        path = path_of(place, version)
        found[path] = with_version(place, found.get(path, files.get(path_of(place, old), "")), version)
    texts = {path: text for path, text in found.items() if files.get(path) != text}
    return texts, {path_of(it, old) for it in PLACES} - set(found)
