"""A page in Markdown: its headings with the ids that GitHub gives them, links by what they lead to, and comments as paragraphs.

A link to `reference:NAME/KEY` leads to a heading of a page, and one to `source:PATH` to a file of the tree. `settle` makes both relative.
"""
import html
import posixpath
import re

FOLDER = "docs/reference"

LINK = re.compile(r"\[(?P<text>`[^`\]\n]+`|[^\]\[`]+)\](?:\((?P<to>[^)\s]+)\))?")
SPAN = re.compile(r"(`+)(?:(?!`).)*?\1(?!`)", re.S)
REFERENCE = re.compile(r"(?<=[(\"])(reference|source):([^\s\")]+)")
ENDS_SENTENCE = re.compile(r"(?<=[.!?])(?<!e\.g\.)(?<!i\.e\.)\s")


def slug(heading):
    """The id of a heading as GitHub makes it, where it is the only one of its kind."""
    text = re.sub(r"\[([^\]]*)\]\([^)]*\)", r"\1", heading).replace("`", "")
    return re.sub(r"[^\w\- ]", "", text.strip().lower()).replace(" ", "-")


def ids(headings):
    """The ids of a page's headings, in their order: a second one of a kind gets a number."""
    seen = {}
    for it in headings:
        first = slug(it)
        seen[first] = seen.get(first, -1) + 1
        yield f"{first}-{seen[first]}" if seen[first] else first


def headings_of(text):
    """The headings of a page in Markdown."""
    return re.findall(r"^#+ (.*)$", re.sub(r"^ *```.*?^ *```$", "", text, flags=re.M | re.S), re.M)


def first_sentence(text):
    """The first sentence of a comment, in one line."""
    return ENDS_SENTENCE.split(re.sub(r"\s+", " ", text.strip().split("\n\n")[0]), maxsplit=1)[0]


class Page:
    """A page that grows; each heading has a key, by which others link to it."""

    def __init__(self, name, title, made_from):
        self.name, self.blocks, self.headings = name, [f"*Made by `tools/reference` from {made_from}. Do not edit.*"], []
        self.heading(1, title, "")

    def heading(self, level, text, key):
        """Puts a heading."""
        self.headings.append((text, key))
        self.put(f"{'#' * level} {text}")

    def put(self, block):
        """Puts a block, unless it is empty."""
        if block.strip():
            self.blocks.append(block.strip("\n"))

    def fold(self, title, lines):
        """Puts lines of HTML that are folded below a title."""
        if lines:
            self.put(f"<details><summary>{title}</summary>\n\n<pre><code>" + "\n".join(lines) + "</code></pre>\n\n</details>")

    def text(self):
        """The page as it stands, with the links by what they lead to."""
        return "\n\n".join(self.blocks) + "\n"

    def ids(self):
        """The ids of the headings by their keys."""
        found = ids([text for text, _ in self.headings])
        return {key: it for (_, key), it in zip(self.headings, found)}


def link_to_source(path):
    """The line that leads to the source of an item."""
    return f"Source: [`{path.removeprefix('crates/')}`](source:{path})"


def relative(path, page):
    """The path of a file of the tree as it stands in a link of a page."""
    return posixpath.relpath(path, posixpath.dirname(f"{FOLDER}/{page}.md"))


def settle(pages, sources):
    """The texts of pages, by name, in which links have what they lead to; and those that lead to no heading and to none of the sources."""
    known = {f"{page.name}/{key}" if key else page.name: (page.name, it if key else "") for page in pages for key, it in page.ids().items()}
    texts, lost = {}, []
    for page in pages:
        def href(it, page=page):
            kind, goal = it.groups()
            if goal not in (known if kind == "reference" else sources):
                lost.append(f"{FOLDER}/{page.name}.md: a link to {goal}, which is not there")
                return "#"
            if kind == "source":
                return relative(goal, page.name)
            name, anchor = known[goal]
            other = relative(f"{FOLDER}/{name}.md", page.name) if name != page.name else ""
            return other + (f"#{anchor}" if anchor or not other else "")
        texts[page.name] = REFERENCE.sub(href, page.text())
    return texts, lost


# ---- comments


def outside_spans(line, change):
    """A line in which what is no code span is changed."""
    found, at = "", 0
    for it in SPAN.finditer(line):
        if line[it.start() - 1: it.start()] == "[" and line[it.end(): it.end() + 1] == "]":
            continue
        found += change(line[at: it.start()]) + it[0]
        at = it.end()
    return found + change(line[at:])


def paragraphs(text, lead):
    """A comment as Markdown: `lead` says where a link of it leads, or nothing. Headings in it become bold."""
    found, fenced = [], False
    for line in text.strip("\n").split("\n"):
        if line.lstrip().startswith("```"):
            fenced = not fenced
            line = re.sub(r"```(rust)?$", "```rust", line) if fenced else line
        elif not fenced:
            line = re.sub(r"^#+ (.*)$", r"**\1**", line)
            line = outside_spans(line, lambda it: LINK.sub(lambda link: linked(link, lead), it))
        found.append(line)
    return "\n".join(found)


def linked(link, lead):
    """A link of a comment, which may be one to an item."""
    text, to = link["text"], link["to"]
    if to is None and not text.startswith("`") or to and re.match(r"https?:|#", to):
        return link[0]
    goal = lead((to or text).strip("`"))
    return f"[{text}](reference:{goal})" if goal else link["text"]


def in_html(pieces):
    """Pieces of a claim as HTML, of which some are words of definitions."""
    found = ""
    for text, word in pieces:
        text = html.escape(text, quote=False)
        found += f'<a href="reference:definitions/{key_of(word)}">{text}</a>' if word else text
    return found


def key_of(word):
    """The key of a word's heading."""
    return f"{word.crate}/{word.file}/{word.name}"
