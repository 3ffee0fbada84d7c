#!/usr/bin/env python3
"""The PostgreSQL extension on a server that this check starts, beside the library, zoneinfo and numpy.

    python3 -m checks.packages.postgresql [QUESTIONS [SEED]]

It takes the static libraries of crates/calendar_c and crates/layers_c as checks/packages/languages.py does, and makes the package by
tools/packages/postgresql.py in a temporary folder. The server has its data and its socket in another, listens to no network, and
runs as nobody where the check runs as root. The script of the package installs the extension in a copy of PostgreSQL's folders.

Each languages/postgresql/tests/NAME.sql has to print tests/expected/NAME.out, as in PostgreSQL's own tests. 20,000 questions of each
function, or so many, have to get the answers of the library (checks/packages/postgresql_answers.py). NULL, infinity and dates beyond the
calendar are tried in every argument of each function. Plans with parallel workers, a restart, a dump, sessions side by side, calls
that are cancelled, and 10,000,000 rows in bounded memory follow (checks/packages/postgresql_uses.py). The queries of
languages/postgresql/README.md, and that of README.md, have to print what the pages say. Each line of languages/postgresql/wrong_lines.txt has to fail a test.

What could not be run is named.
"""
import difflib
import glob
import os
import random
import re
import shutil
import signal
import subprocess
import sys
import tempfile

import packages
from checks import TOP
from checks.packages import postgresql_answers, postgresql_uses
from checks.packages.postgresql_server import Server
from checks.shared.results import LANGUAGES, Results, read, readme_examples
from checks.shared.wrong_lines import edits, planted
from library import make_package
from packages import postgresql

FOLDER = f"{LANGUAGES}/postgresql"
CREATE = "CREATE EXTENSION proved_calendar"


# ---- expected files


def printed(server, path):
    """What psql prints of a file of queries, which it repeats, in a database of its own."""
    server.ask("DROP DATABASE IF EXISTS regress; CREATE DATABASE regress", "-d", "postgres")
    server.ask(CREATE, "-d", "regress")
    words = ["psql", "-X", "-a", "-q", *server.words(), "-d", "regress", "-f", path]
    ran = subprocess.run(words, stdout=subprocess.PIPE, stderr=subprocess.STDOUT, text=True)
    return re.sub(rf"^psql:{re.escape(path)}:\d+: ", "", ran.stdout, flags=re.M)


def differences(server, folder=FOLDER):
    """How what each file prints differs from what is expected, by its name."""
    for path in sorted(glob.glob(f"{folder}/tests/*.sql")):
        name = os.path.basename(path).removesuffix(".sql")
        told, wanted = printed(server, path), read(f"{folder}/tests/expected/{name}.out")
        yield name, "".join(list(difflib.unified_diff(wanted.splitlines(True), told.splitlines(True), "expected", "printed"))[:60])


def compare_files(results, server):
    """The expected files."""
    found = dict(differences(server))
    for name, difference in found.items():
        results.count(not difference, f"{name}.sql\n{difference}")
    results.count(found, "there are no tests")
    print(f"expected files: {len(found)}", flush=True)


# ---- the functions as PostgreSQL lists them


LISTED = """
SELECT p.proname, p.provolatile, p.proparallel, p.proisstrict, p.pronargs - p.pronargdefaults,
       (SELECT string_agg(t::regtype::text, ',' ORDER BY n) FROM unnest(p.proargtypes) WITH ORDINALITY a (t, n))
FROM pg_depend d JOIN pg_proc p ON d.objid = p.oid JOIN pg_extension e ON d.refobjid = e.oid
WHERE d.classid = 'pg_proc'::regclass AND d.deptype = 'e' AND e.extname = 'proved_calendar' AND p.prolang = (SELECT oid FROM pg_language WHERE lanname = 'c')
ORDER BY 1, 6
"""
# A good value of each type, and for a text of each function.
VALUES = {
    "date": "date '2024-03-28'", "integer": "2024", "date[]": "'{2024-03-29}'::date[]", "integer[]": "'{6,7}'::integer[]",
    "timestamp without time zone": "timestamp '2024-03-28 12:00'", "timestamp with time zone": "timestamptz '2024-03-28 12:00'",
}
TEXTS = {
    "next_due": ["'@daily'"], "due_between": ["'@daily'"], "rule_dates": ["'FREQ=DAILY'"], "roll": ["'following'", "'plain'"],
    "given_holidays": ["'target'"], "given_first_year": ["'target'"], "add_open_days": ["'plain'"], "open_days": ["'plain'"], "year_fraction": ["'30/360'"],
}
BEYOND = {
    "date": ("'infinity'", "'-infinity'", "'262143-01-01'", "'5874897-12-31'"),
    "timestamp without time zone": ("'infinity'", "'-infinity'", "'262143-01-01'", "'294276-12-31 23:59:59'"),
    "timestamp with time zone": ("'infinity'", "'-infinity'", "'262143-01-02'", "'294276-12-31 23:59:59'"),
}
REFUSED = re.compile(r"ERROR:  (?:the (?:date|timestamp) is infinite|(?:date|timestamp) out of range)")


def functions(server):
    """Each function: its name, how PostgreSQL may call it, and the types of its arguments."""
    for line in server.ask(LISTED).splitlines():
        name, volatile, parallel, strict, needed, kinds = line.split("|")
        yield name, (volatile, parallel, strict, int(needed)), kinds.split(",")


def good_values(name, kinds):
    """Arguments that a function takes."""
    texts = iter(TEXTS.get(name, []))
    return [next(texts) if it == "text" else VALUES[it] for it in kinds]


def calls_of(name, kinds, needed):
    """Queries of a function, each with what it has to print: with good arguments, NULL in each place, and values beyond the calendar."""
    values = good_values(name, kinds)
    yield f"SELECT * FROM {name}({', '.join(values)})", r"(?!ERROR)"
    yield f"SELECT * FROM {name}({', '.join(values[:needed])})", r"(?!ERROR)"
    for place, kind in enumerate(kinds):
        with_value = [", ".join([*values[:place], f"{it}::{kind}", *values[place + 1 :]]) for it in ("NULL", *BEYOND.get(kind, ()))]
        yield f"SELECT count(it) FROM {name}({with_value[0]}) it", "0$"
        yield from ((f"SELECT * FROM {name}({it})", REFUSED) for it in with_value[1:])


def is_stable(name, kinds):
    """Whether a function depends on the session's zone or reads a table."""
    return "timestamp with time zone" in kinds or (kinds[-1] == "text" and name in ("add_open_days", "open_days", "roll"))


def try_arguments(results, server):
    """How each function is declared, and what it answers to NULL, infinity and dates beyond the calendar in each place."""
    session, count = server.session(), 0
    session.ask("INSERT INTO business_calendars (name) VALUES ('plain')")
    for name, (volatile, parallel, strict, needed), kinds in functions(server):
        is_right = (volatile, parallel, strict) == ("s" if is_stable(name, kinds) else "i", "s", "t")
        results.count(is_right, f"{name}({kinds}) is {volatile} {parallel} {strict}")
        for query, wanted in calls_of(name, kinds, needed):
            told, count = session.ask(query), count + 1
            results.count(re.match(wanted, told), f"{query} prints {told}")
    session.close()
    results.count(count > 100, "few functions are listed")
    print(f"arguments: {count} calls", flush=True)


# ---- the page and the wrong lines


def run_page(results, server):
    """The queries of the page, one after the other in one database, and that of README.md."""
    queries = re.findall(r"^```sql\n(.*?)^```$", read(f"{FOLDER}/README.md"), re.M | re.S)
    results.count(len(queries) == 5, f"the page has {len(queries)} queries")
    server.ask("CREATE DATABASE page", "-d", "postgres")
    server.ask(CREATE, "-d", "page")
    for query in [*queries, *(it for it, _ in readme_examples("sql"))]:
        code, _, wanted = query.rpartition(";\n")
        told = server.ask(f"{code};\n", "-d", "page")
        results.count(told == wanted.replace("-- ", "").rstrip("\n"), f"{query} prints\n{told}")


def try_wrong_lines(results, server, room, package, libraries):
    """Each wrong line changes what a test prints."""
    found, config = 0, postgresql.find_config()
    copied = f"{room}/wrong"
    shutil.copytree(package, copied)
    for number, edit in enumerate(edits("postgresql"), 1):
        folder = planted("postgresql", f"{room}/planted", edit)
        postgresql.compile_extension(TOP, folder, libraries, f"{copied}/{postgresql.NAME}.so", config)
        for path in glob.glob(f"{folder}/{postgresql.NAME}*"):
            shutil.copy(path, copied)
        server.install(copied)
        is_found = any(difference for _, difference in differences(server))
        results.count(is_found, f"wrong line {number} of languages/postgresql is not found: {edit}")
        found += is_found
    server.install(package)
    print(f"wrong lines in the PostgreSQL extension: {found} found", flush=True)
    results.count(found >= 20, "languages/postgresql has fewer than twenty wrong lines that its tests find")


def test(results, room, count, seed):
    """All of it."""
    config = postgresql.find_config()
    paths, libraries = make_package(room, "postgresql")
    package = os.path.dirname(paths[0])
    with Server(config) as server:
        server.install(package)
        server.ask("CREATE DATABASE tests", "-d", "postgres")
        server.database = "tests"
        results.count(not server.ask(CREATE), "the extension is not created")
        compare_files(results, server)
        run_page(results, server)
        try_arguments(results, server)
        postgresql_answers.compare(results, server, os.path.dirname(libraries[0]), random.Random(seed), count)
        postgresql_uses.try_all(results, server)
        try_wrong_lines(results, server, room, package, libraries)
        results.count(not re.search(r"PANIC|terminated by signal", server.log()), f"the server failed: {server.log()[-3000:]}")


def main():
    # (so that the server is stopped too if the check is)
    signal.signal(signal.SIGTERM, lambda *_: sys.exit(1))
    results, count, seed = Results(), *(int(it) for it in (sys.argv[1:] + ["20000", "4711"][len(sys.argv) - 1 :]))
    try:
        with tempfile.TemporaryDirectory(prefix="extension-") as room:
            os.chmod(room, 0o755)
            test(results, room, count, seed)
    except packages.Missing as it:
        print(f"not run: the PostgreSQL extension, since there is {it}")
    except RuntimeError as it:
        results.count(False, f"the PostgreSQL extension: {it}")
    print(f"{results.passed} passed, {results.failed} failed")
    return 1 if results.failed else 0


if __name__ == "__main__":
    sys.exit(main())
