#!/usr/bin/env python3
"""The reference as HTML: each of its links leads somewhere, and its search box finds names, in Chromium.

    python3 -m checks.tree.reference

SEARCHES has words that are typed and the result that has to be the first. The check then plants the faults of PLANTED in the files, one at
a time, and has to find each.
"""
import sys
import tempfile

from checks import TOP
from checks.shared import chromium
from checks.shared.results import Results, read
from reference_pages import library, make, site

# What is typed, and the first result: its name and its page.
SEARCHES = (
    ("succ_opt", "NaiveDate::succ_opt", "chrono_naive"),
    ("NaiveDate::first_on", "NaiveDate::first_on", "chrono_naive"),
    ("is leap year", "year::is_leap_year", "chrono_units"),
    ("isyearflags", "IsYearFlags", "definitions/chrono_calendar"),
    ("calendar_add_months", "calendar_add_months", "calendar_c"),
    ("easter sunday", "easter", "chrono_business"),
    ("business days", "Business days", "index"),
    ("succ_opt pred_opt", None, None),
)
NOTHING = "No heading has all these words."
# A file, what stands there, and what takes its place.
PLANTED = (
    ("chrono_naive.html", 'href="#naivedatesucc_opt"', 'href="#naivedatesucc"'),
    ("definitions/chrono_units.html", 'href="../source/chrono_units/', 'href="source/chrono_units/'),
    ("search_index.js", '"NaiveDate::succ_opt"', '"NaiveDate::succ"'),
    ("search.js", "key - other.keys[at]", "other.keys[at] - key"),
    ("search.js", 'startsWith("definitions/")', 'startsWith("chrono_")'),
    ("search.js", ": undefined;", ": 3;"),
    ("search.js", "form.hidden = false;", ""),
)
LOADED = "new Promise((done) => { const look = () => (window.SEARCH_INDEX ? done(true) : setTimeout(look, 20)); look(); })"
FIRST = """new Promise((done) => setTimeout(() => {
  const it = document.querySelector("form[role=search] li");
  done([it.querySelector("code")?.textContent ?? it.textContent, it.querySelector("small")?.textContent ?? ""]);
}, 0))"""


def wrong_results(page, folder, start):
    """What the search box of a page finds otherwise than SEARCHES says, and where the first result leads."""
    page.open(f"{folder}/{start}")
    if not page.run("document.querySelector('form[role=search]').checkVisibility()"):
        yield f"{start} shows no search box"
        return
    for typed, name, of_page in SEARCHES:
        page.type("form[role=search] input", typed)
        page.run(LOADED)
        found = page.run(FIRST)
        if found != [name or NOTHING, of_page or ""]:
            yield f"{start}: {typed!r} finds {found} first"
    page.type("form[role=search] input", "succ_opt")
    page.run(FIRST)
    page.events.clear()
    page.press("Enter")
    page.wait_for("Page.loadEventFired")
    reached = page.run("[location.pathname.split('/').pop(), document.querySelector(':target')?.textContent]")
    if reached != ["chrono_naive.html", "NaiveDate::succ_opt"]:
        yield f"{start}: the first result leads to {reached}"


def wrong(folder, page):
    """What is wrong with the pages of a folder: links, and what a browser finds, if there is one."""
    yield from site.lost_anchors(folder)
    for start in ("index.html", "definitions/chrono_units.html") if page else ():
        yield from wrong_results(page, folder, start)


def find_planted(results, folder, page):
    """Plants each fault, and counts whether it is found."""
    for name, old, new in PLANTED:
        if not page and name.endswith(".js"):
            continue
        path = f"{folder}/{name}"
        text = read(path)
        with open(path, "w", encoding="utf-8") as it:
            it.write(text.replace(old, new, 1))
        results.count(old in text and next(wrong(folder, page), None), f"{name}: {new!r} in place of {old!r} is not found")
        with open(path, "w", encoding="utf-8") as it:
            it.write(text)


def compare(results, page):
    """Makes the pages, and counts what is wrong with them and which planted faults are found."""
    with tempfile.TemporaryDirectory(prefix="reference-") as folder:
        site.write(make.make(library.Library(make.read_sources(TOP))), folder)
        faults = list(wrong(folder, page))
        results.count(not faults, "; ".join(faults[:20]))
        find_planted(results, folder, page)


def main():
    results = Results()
    if chromium.found():
        with chromium.Chromium() as page:
            compare(results, page)
            results.count(not page.faults(), f"a page throws {page.faults()}")
    else:
        print("not run: the search of the reference, since there is no chromium")
        compare(results, None)
    print(f"{results.passed} passed, {results.failed} failed")
    return 1 if results.failed else 0


if __name__ == "__main__":
    sys.exit(main())
