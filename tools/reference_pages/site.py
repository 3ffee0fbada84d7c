"""Writes pages in Markdown as HTML: one file each, the sources that they lead to, and a script that searches an index of all headings."""
import collections
import html
import json
import os
import posixpath
import re

from . import pages

# The files beside the pages: two that stand in this folder, and the index, which is made.
STYLE, SCRIPT, INDEX = "style.css", "search.js", "search_index.js"
BLOCK_OF_HTML = re.compile(r"</?(?:details|pre|summary|p|br|img|a|div)\b")
ROW = re.compile(r"^\|(.*)\|\s*$")
ITEM = re.compile(r"^( *)(?:[-*]|(\d+)\.) +(.*)$")
# A link to a source, and the folder of the sources' pages.
TO_SOURCE, SOURCES = re.compile(r"((?:\.\./)*)\.\./\.\./crates/(.*)"), "source"
# The headings that stand on most pages, which no one searches.
ON_EACH_PAGE = re.compile(r"Index|Passed on|Functions|Constants|Laws|Operators and traits of .*")
NAME_OF_SITE = "proved_calendar"
FRAME = """<!DOCTYPE html>
<html lang="en">
<head>
<meta charset="utf-8">
<meta name="viewport" content="width=device-width, initial-scale=1">
<title>{title}</title>
<link rel="stylesheet" href="{root}{style}">
<script src="{root}{script}" defer></script>
</head>
<body>
<header><a href="{root}index.html">Reference</a><a href="#pages">All pages</a></header>
{navigation}
<main>
<form role="search" hidden>
<input type="search" placeholder="Search all names" aria-label="Search all names" autocomplete="off" spellcheck="false">
<ol hidden></ol>
</form>
{body}
</main>
</body>
</html>
"""


# ---- what stands in a line


def inline(text):
    """A line of Markdown as HTML: code, links, bold, emphasis and escapes."""
    kept = []

    def keep(piece):
        kept.append(piece)
        return f"\0{len(kept) - 1}\0"

    text = pages.SPAN.sub(lambda it: keep(f"<code>{html.escape(it[0].strip('`').strip(), quote=False)}</code>"), text)
    text = re.sub(r"\\([\\`*_{}\[\]()#+.!<>|-])", lambda it: keep(html.escape(it[1])), text)
    text = re.sub(r"</?(?:b|i|br|sub|sup|a)\b[^>]*>", lambda it: keep(it[0]), text)
    text = html.escape(text, quote=False)
    text = re.sub(r"!\[([^\]]*)\]\(([^)\s]+)\)", lambda it: keep(f'<img src="{it[2]}" alt="{it[1]}">'), text)
    text = re.sub(r"\[([^\]]+)\]\(([^)\s]+)\)", lambda it: keep(f'<a href="{target(it[2])}">') + it[1] + keep("</a>"), text)
    text = re.sub(r"\*\*(.+?)\*\*", r"<b>\1</b>", text)
    text = re.sub(r"(?<![\w*])\*(?!\s)(.+?)(?<!\s)\*(?![\w*])", r"<i>\1</i>", text)
    while "\0" in text:
        text = re.sub(r"\0(\d+)\0", lambda it: kept[int(it[1])], text)
    return text


def target(href):
    """Where a link leads in HTML: pages have another ending there, and sources are pages too."""
    if re.match(r"\w+:", href):
        return href
    of_source = TO_SOURCE.fullmatch(href)
    if of_source:
        return f"{of_source[1]}{SOURCES}/{of_source[2]}.html"
    href = re.sub(r"(^|/)README\.md(?=#|$)", r"\1index.html", href)
    return re.sub(r"\.md(?=#|$)", ".html", href)


# ---- blocks


Heading = collections.namedtuple("Heading", "text id said")


class Writer:
    """Writes the blocks of a page, one behind another."""

    def __init__(self, text):
        self.lines, self.at, self.out = text.split("\n"), 0, []
        self.ids = iter(list(pages.ids(pages.headings_of(text))))
        self.headings = []

    def write(self):
        """All blocks as HTML."""
        while self.at < len(self.lines):
            line = self.lines[self.at]
            if not line.strip():
                self.at += 1
            elif line.lstrip().startswith("```"):
                self.out.append(self.fenced())
            elif re.match(r"#+ ", line):
                self.heading(line)
            elif BLOCK_OF_HTML.match(line):
                self.raw()
            elif ROW.match(line):
                self.table()
            elif ITEM.match(line):
                self.out.append(self.items(len(ITEM.match(line)[1])))
            elif line.startswith(">"):
                self.out.append(f"<blockquote>{Writer(self.taken(lambda it: it.startswith('>'), 1)).write()}</blockquote>")
            else:
                self.paragraph()
        return "\n".join(self.out)

    def paragraph(self):
        """A paragraph; the first sentence below a heading is kept with it."""
        text = self.taken(self.goes_on, 0)
        if self.headings and not self.headings[-1].said:
            self.headings[-1] = self.headings[-1]._replace(said=pages.first_sentence(text))
        self.out.append(f"<p>{inline(text)}</p>")

    def goes_on(self, line):
        """Whether a paragraph goes on with a line."""
        return bool(line.strip()) and not re.match(r"#+ |```|\||[-*] |<details|</details|<pre", line)

    def taken(self, goes_on, left_out):
        """The lines from here on that go on, without their first signs."""
        first, self.at = self.at, self.at + 1
        while self.at < len(self.lines) and goes_on(self.lines[self.at]):
            self.at += 1
        return "\n".join(it[left_out:].removeprefix(" ") if left_out else it for it in self.lines[first: self.at])

    def fenced(self):
        """A fenced block."""
        margin = len(self.lines[self.at]) - len(self.lines[self.at].lstrip())
        first = self.at + 1
        self.at = first
        while self.at < len(self.lines) and not self.lines[self.at].lstrip().startswith("```"):
            self.at += 1
        inside = "\n".join(it[margin:] for it in self.lines[first: self.at])
        self.at += 1
        return f"<pre><code>{html.escape(inside, quote=False)}</code></pre>"

    def heading(self, line):
        """A heading with its id."""
        marks, _, text = line.partition(" ")
        level, it = len(marks), next(self.ids)
        self.headings.append(Heading(text, it, ""))
        self.out.append(f'<h{level} id="{html.escape(it)}"><a class="here" href="#{html.escape(it)}">{inline(text)}</a></h{level}>')
        self.at += 1

    def raw(self):
        """A block of HTML, up to an empty line, or to the end of what is formatted by its author."""
        first = self.at
        until = "</pre>" if self.lines[self.at].startswith("<pre") else ""
        while self.at < len(self.lines) and (until not in self.lines[self.at] if until else self.lines[self.at].strip()):
            self.at += 1
        self.at += bool(until)
        block = "\n".join(self.lines[first: self.at])
        self.out.append(re.sub(r'href="([^"]+)"', lambda it: f'href="{target(it[1])}"', block))

    def table(self):
        """A table, which may be scrolled where it is too wide."""
        rows = self.taken(ROW.match, 0).split("\n")
        cells = [[inline(it.strip().replace("\\|", "|")) for it in re.split(r"(?<!\\)\|", ROW.match(row)[1])] for row in rows]
        head, body = (cells[0], cells[2:]) if len(rows) > 1 and re.fullmatch(r"[|:\- ]+", rows[1]) else ([], cells)
        out = "<tr>" + "".join(f"<th>{it}</th>" for it in head) + "</tr>" if head else ""
        out += "".join("\n<tr>" + "".join(f"<td>{it}</td>" for it in row) + "</tr>" for row in body)
        self.out.append(f'<div class="wide"><table>{out}</table></div>')

    def items(self, margin):
        """A list, with what stands further in as a part of its items."""
        kind, out = "ol" if ITEM.match(self.lines[self.at])[2] else "ul", []
        while self.at < len(self.lines):
            found = ITEM.match(self.lines[self.at])
            if not found or len(found[1]) < margin:
                break
            inside = [found[3]]
            self.at += 1
            while self.at < len(self.lines) and self.belongs(self.lines[self.at], margin):
                inside.append(self.lines[self.at])
                self.at += 1
            least = min((len(it) - len(it.lstrip()) for it in inside[1:] if it.strip()), default=0)
            written = Writer("\n".join([inside[0], *(it[least:] for it in inside[1:])])).write()
            out.append("<li>" + re.sub(r"^<p>(.*?)</p>", r"\1", written, count=1, flags=re.S) + "</li>")
        return f"<{kind}>" + "\n".join(out) + f"</{kind}>"

    def belongs(self, line, margin):
        """Whether a line belongs to an item whose mark stands so far in."""
        if not line.strip():
            further = next((it for it in self.lines[self.at:] if it.strip()), "")
            return len(further) - len(further.lstrip()) > margin
        return len(line) - len(line.lstrip()) > margin or self.goes_on(line) and not ITEM.match(line)


# ---- pages


def root_of(name):
    """The way from a page to the folder of all pages."""
    return "../" * name.count("/")


def navigation(names, here):
    """The links to all pages but those of definitions, which one page lists."""
    root = root_of(here)
    links = "".join(f'<li><a href="{root}{it}.html"{" class=now" if it == here.split("/")[0] else ""}>{it}</a></li>' for it in names)
    return f'<nav id="pages"><p><a href="{root}index.html">Reference</a></p><ul>{links}</ul></nav>'


def framed(name, title, body, names):
    """A page of HTML with what stands around it."""
    return FRAME.format(title=html.escape(f"{title} - {NAME_OF_SITE}"), root=root_of(name), style=STYLE, script=SCRIPT,
                        navigation=navigation(names, name), body=body)


def plain(text):
    """What a line of Markdown says, without its signs."""
    return html.unescape(re.sub(r"<[^>]*>", "", inline(text)))


def index_of(writers):
    """The index for the search: the headings of each page, with their ids and the first sentences below them."""
    found = {}
    for name, writer in writers.items():
        found[name] = [[plain(it.text), it.id, plain(it.said)] for it in writer.headings if not ON_EACH_PAGE.fullmatch(it.text)]
    return f"window.SEARCH_INDEX = {json.dumps(found, ensure_ascii=False, separators=(',', ':'))};\n"


def source_pages(found, sources, names):
    """The pages of the sources to which the pages that are found lead."""
    paths = {path for text in found.values() for path in re.findall(rf'href="(?:\.\./)*{SOURCES}/([^"]+)\.html"', text)}
    for path in sorted(paths):
        code = html.escape(sources[f"crates/{path}"], quote=False)
        body = f"<h1><code>{html.escape(path)}</code></h1>\n<pre><code>{code}</code></pre>"
        yield f"{SOURCES}/{path}.html", framed(f"{SOURCES}/{path}", path, body, names)


def write(made, folder):
    """Writes all pages, those of the sources, the style, the script and its index into a folder; the paths of what it wrote."""
    names = [it for it in made.names if it != "README" and "/" not in it]
    writers = {"index" if it == "README" else it: Writer(made.texts[f"{pages.FOLDER}/{it}.md"]) for it in made.names}
    bodies = {name: it.write() for name, it in writers.items()}
    found = {f"{name}.html": framed(name, plain(it.headings[0].text), bodies[name], names) for name, it in writers.items()}
    found.update(source_pages(found, made.sources, names))
    found[INDEX] = index_of(writers)
    for name in (STYLE, SCRIPT):
        with open(f"{os.path.dirname(os.path.abspath(__file__))}/{name}", encoding="utf-8") as it:
            found[name] = it.read()
    for name, text in found.items():
        os.makedirs(os.path.dirname(f"{folder}/{name}"), exist_ok=True)
        with open(f"{folder}/{name}", "w", encoding="utf-8") as it:
            it.write(text)
    return [f"{folder}/{name}" for name in found]


def lost_anchors(folder):
    """The links of the pages of a folder that lead nowhere."""
    paths = {os.path.relpath(os.path.join(at, name), folder) for at, _, names in os.walk(folder) for name in names}
    texts = {}
    for name in sorted(it for it in paths if it.endswith(".html")):
        with open(f"{folder}/{name}", encoding="utf-8") as it:
            texts[name] = it.read()
    ids = {name: set(re.findall(r'\bid="([^"]*)"', texts.get(name, ""))) for name in paths}
    for name, text in texts.items():
        for href in re.findall(r'<(?:a|link|script)\b[^>]* (?:href|src)="([^"]*)"', text):
            page, _, anchor = html.unescape(href).partition("#")
            goal = posixpath.normpath(posixpath.join(posixpath.dirname(name), page)) if page else name
            if not re.match(r"\w+:", href) and (goal not in ids or anchor and anchor not in ids[goal]):
                yield f"{name}: {href} leads nowhere"
