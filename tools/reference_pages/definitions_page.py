"""The pages of definitions, one for each crate: the words of its specs, with their comments, their texts and the known values."""
import html
import re

from . import pages

ABOUT = """Contracts speak of dates, times and durations as whole numbers, by the words defined here. Each crate has a page of its words. Each word
has its comment and its definition in the prover's language. [How to read a contract](reference:README/=contracts) explains the signs.

A definition counts: it adds up years and months, walks from day to day, or takes a remainder. Others are rules that are plain already, such as
the texts of a standard. The prover does not look into a word marked `unfoldable` by itself.

Known values stand below the words of a file: claims about examples, which the prover checks. Words of contracts that have no link
belong to Rattle's own library."""


def exported(words):
    """The words that contracts of all crates may use."""
    return [it for it in words if it.public and it.defines]


def line_of(page, file, words):
    """The line of a file in the index of its page."""
    links = [f"[`{it.name}`](reference:{page.name}/{file}/{it.name})" for it in words]
    return f"- [`{file}.antt`](reference:{page.name}/{file}){': ' if links else ''}{', '.join(links)}"


def put_file(page, library, crate, file):
    """Puts the words of a file."""
    words = library.specs.words[crate, file]
    page.heading(2, f"`{file}.antt`", file)
    page.put(said_in_markdown(library.specs.said[crate, file]))
    page.put(pages.link_to_source(f"crates/{crate}/specs/{file}.antt"))
    for it in exported(words):
        page.heading(3, f"`{it.name}`", f"{file}/{it.name}")
        page.put(said_in_markdown(it.comment, parameters(it)))
        page.put(f"```text\n{it.text}\n```")
    known = [it for it in words if not (it.public and it.defines)]
    page.fold("Known values and helpers", [line for it in known for line in lines_of(it)])


def lines_of(word):
    """The lines of a known value, as HTML."""
    lines = [f"-- {it}" for it in word.comment.split("\n") if it and not it.startswith("---")] + word.text.split("\n")
    return [html.escape(it, quote=False) for it in lines]


def parameters(word):
    """The names that a definition has for what it is given."""
    left = [it.partition(" = ")[0] for it in word.text.split("\n") if it.startswith(word.name + " ")]
    return set(re.findall(r"\w+", " ".join([*left, *re.findall(r"\(([^:()]*) :", word.text.split("\n")[0])])))


def said_in_markdown(comment, own=()):
    """A comment of a definition as a sentence: with a full stop, and with a capital unless it begins with one of its own names."""
    text = "\n".join(it for it in comment.split("\n") if it and not it.startswith("-")).strip()
    if not text:
        return ""
    first = re.match(r"[a-z]+(?![\w'])", text)
    text = text[0].upper() + text[1:] if first and first[0] not in own else text
    text = "\n".join(pages.outside_spans(it, lambda part: re.sub(r"([*_<|])", r"\\\1", part)) for it in text.split("\n"))
    return text if re.search(r"[.!?:]$", text) else text + "."


def crate_page(library, crate, files):
    """The page of a crate's words: those of each file in a line, and then each with its definition."""
    page = pages.Page(f"definitions/{crate}", f"Definitions of `{crate}`", f"`crates/{crate}/specs`")
    page.put("[Definitions](reference:definitions) says what a definition is, and lists those of all crates."
             f" [`{crate}`](reference:{crate}) has the functions.")
    page.heading(2, "Index", "=index")
    page.put("\n".join(line_of(page, file, exported(library.specs.words[crate, file])) for file in files))
    for file in files:
        put_file(page, library, crate, file)
    return page


def make(library):
    """The page that lists the definitions of all libraries, and a page for each of these."""
    page = pages.Page("definitions", "Definitions", "`crates/*/specs`")
    page.put(ABOUT)
    files = {it: [one for one in library.specs.files_of(it) if library.specs.words[it, one]] for it in library.crates}
    crates = [it for it in library.crates if any(exported(library.specs.words[it, one]) for one in files[it])]
    page.heading(2, "Index", "=index")
    page.put("\n".join(f"- [`{it}`](reference:definitions/{it}): " + ", ".join(
        f"[`{file}`](reference:definitions/{it}/{file})" for file in files[it]) for it in crates))
    return [page, *(crate_page(library, it, files[it]) for it in crates)]
