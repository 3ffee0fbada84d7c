"""The page of a library: its types with their calls, its functions and laws, and what it passes on."""
import collections
import re

from . import pages, sources, specs

# What a comment may name of Rust's std, where no link leads.
OF_STD = re.compile(r"(?:std|core)::|(?:Iterator|DoubleEndedIterator|ExactSizeIterator|FromStr|Display|Debug|Ord|Default|Option|Result|Read|Write)\b")
# Ghosts that prove what the trait's laws ask for.
PROOF = re.compile(r"Prim\.search|\brefl\b|\bap\b|ghost (?:laws|total|matches_\w+|respects_eq|is_infallible|one_form)\b")
KINDS = {"const": "Constants", "fn": "Functions"}


class CratePage:
    """Makes the page of a crate."""

    def __init__(self, library, crate):
        self.library, self.crate, self.faults, self.cited = library, crate, [], {}
        self.page = pages.Page(crate.name, f"`{crate.name}`", f"`crates/{crate.name}/src`")
        root = crate.modules[""]
        self.page.put(self.doc(root.said, root, ""))
        groups = self.groups()
        self.index(groups)
        self.passed()
        for title, entries in groups.items():
            if title in crate.entries:
                self.type(entries[0])
            else:
                self.group(title, entries)

    def groups(self):
        """The headings of the page with the entries below each: types and traits by themselves, functions and constants of a module together."""
        found = collections.OrderedDict()
        for entry in self.crate.entries.values():
            if entry.item.kind in ("struct", "enum", "trait", "type"):
                found[entry.path] = [entry]
        for entry in self.crate.entries.values():
            module, colons, _ = entry.path.rpartition("::")
            if entry.item.kind in KINDS:
                found.setdefault(module + colons or KINDS[entry.item.kind], []).append(entry)
        last = [it for it in found if it.startswith("law::")]
        return {it: found[it] for it in [*(it for it in found if it not in last), *last]}

    def title(self, group):
        """The heading of a group."""
        if group == "law::":
            return "Laws"
        return f"Module `{group[:-2]}`" if group.endswith("::") else f"`{group}`" if group in self.crate.entries else group

    def link(self, text, path):
        """A link to something of this crate."""
        return f"[{text}](reference:{self.crate.name}/{path})"

    def calls(self, entry):
        """The calls of a type or a trait, with their sources."""
        if entry.item.kind == "trait":
            return [(it, entry.source) for it in entry.item.members if it.kind in ("fn", "const")]
        return self.crate.calls_of(entry.item.name)

    def index(self, groups):
        """Puts the index by type."""
        lines = []
        for group, entries in groups.items():
            calls = [(it.name, f"{group}::{it.name}") for it, _ in self.calls(entries[0])] if group in self.crate.entries else [
                (it.item.name, it.path) for it in entries]
            said = ", ".join(self.link(f"`{name}`", path) for name, path in calls)
            lines.append(f"- {self.link(self.title(group), group)}{': ' if said else ''}{said}")
        if self.crate.passed:
            lines.append(f"- {self.link('Passed on', '=passed')}")
        self.page.heading(2, "Index", "=index")
        self.page.put("\n".join(lines))

    def doc(self, text, source, owner):
        """A comment in Markdown."""
        def lead(name):
            found = self.library.find(self.crate.name, source, owner, name)
            if not found and not OF_STD.match(name):
                self.faults.append(f"{source.file}: [{name}] leads nowhere")
            return f"{found[0]}/{found[1]}".rstrip("/") if found else None
        return pages.paragraphs(text, lead)

    # ---- types

    def type(self, entry):
        """Puts a type or a trait, and its calls."""
        item, owner = entry.item, entry.path
        self.page.heading(2, f"`{owner}`", owner)
        self.page.put(f"```rust\n{type_signature(item)}\n```")
        self.page.put(self.doc(item.doc, entry.source, item.name))
        self.fields(item.members, entry)
        self.model(entry)
        self.traits(entry)
        self.implementors(entry)
        self.page.put(pages.link_to_source(entry.source.file))
        for call, source in self.calls(entry):
            self.call(f"{owner}::{call.name}", call, source, item)
        self.operators(entry)

    def fields(self, members, entry):
        """Puts the public fields of a type, its variants, or the types of a trait."""
        lines = []
        for it in members:
            if it.kind in ("field", "variant") and it.public or it.kind == "type":
                said = self.doc(it.doc, entry.source, entry.item.name).replace("\n", "\n  ")
                lines.append(f"- `{it.signature}`{': ' if said else ''}{said}")
                for inner in (one for one in it.members if one.doc):
                    lines.append(f"  - `{inner.signature}`: {self.doc(inner.doc, entry.source, entry.item.name)}")
        titles = {"struct": "Fields:", "enum": "Variants:", "trait": "Types:"}
        self.page.put(titles[entry.item.kind] if lines and entry.item.kind in titles else "")
        self.page.put("\n".join(lines))

    def model(self, entry):
        """Puts, folded, how contracts see a type, or what a trait's contracts speak of."""
        found = self.crate.model_of(entry.item.name)
        members, source = (found[0].members, found[1]) if found else ([], entry.source)
        if entry.item.kind == "trait":
            members, source = entry.item.members, entry.source
        self.page.fold("How contracts see it", self.ghosts(members, source, ("Value", "view", "invariant"), entry.item.kind == "trait"))

    def ghosts(self, members, source, names, every):
        """The lines of ghost definitions, as HTML."""
        lines = []
        for it in members:
            if it.kind == "ghost" and not it.signature.startswith("ghost use") and (every or it.name in names):
                lines += [f"// {line}" for line in it.comment.split("\n") if line and every]
                lines.append(self.claim(it.signature, source, it))
        return lines

    def traits(self, entry):
        """Puts the traits of a type in a line."""
        if entry.item.kind == "trait":
            return
        derived = [name for it in entry.item.attributes for name in re.findall(r"\w+", re.sub(r"^derive(_where)?", "", it)) if it.startswith("derive")]
        found = [f"`{it}`" for it in derived if it != "Drop"]
        for trait, _, source in self.crate.traits_of(entry.item.name):
            home = self.library.find(self.crate.name, source, "", sources.without_generics(trait))
            found.append(f"[`{trait}`](reference:{home[0]}/{home[1]})" if home and home[1] else f"`{trait.removeprefix('fmt::')}`")
        own = (self.crate.name, entry.path)
        found += [f"[`{it.trait[1]}`](reference:{'/'.join(it.trait)})" for it in self.library.implemented if it.owner == own]
        if found:
            self.page.put(f"Traits: {', '.join(dict.fromkeys(found))}.")

    def implementors(self, entry):
        """Puts the types that have a trait in a line: those that are public, and those that a bound on the parameter of a block names."""
        found = []
        for it in self.library.implemented if entry.item.kind == "trait" else ():
            parameters, _, type_text = sources.parts_of_impl(it.block.signature)
            bound = re.search(rf"(?:^|, ){re.escape(type_text)}: [^,]+", parameters)
            if it.trait == (self.crate.name, entry.path) and (it.owner or bound):
                found.append(f"[`{type_text}`](reference:{'/'.join(it.owner)})" if it.owner else f"each `{bound[0].removeprefix(', ')}`")
        if found:
            self.page.put(f"Types with this trait: {', '.join(found)}.")

    def operators(self, entry):
        """Puts the operators and the traits whose calls have comments, each with what it gives, and their contracts folded."""
        lines, claims = [], []
        for trait, block, source in self.crate.traits_of(entry.item.name):
            is_own = self.library.find(self.crate.name, source, "", sources.without_generics(trait))
            said = "" if is_own else self.said_of(block, source, entry.item.name)
            lines += [f"- `{trait.removeprefix('fmt::')}`: {said}"] if said else []
            found = self.claims_of(block, source)
            claims += [f"<b>{pages.in_html([(trait, None)])}</b>", *found] if found else []
        if lines or claims:
            self.page.heading(3, f"Operators and traits of `{entry.path}`", f"{entry.path}::=operators")
            self.page.put("\n".join(lines))
            self.page.fold("Contract", claims)

    def said_of(self, block, source, owner):
        """What the comments of a block say of its calls, without their examples."""
        found = [(it.name, it.doc.partition("```")[0].strip()) for it in block.members if it.kind == "fn" and it.doc]
        docs = [(name, self.doc(doc, source, owner).replace("\n\n", " ").replace("\n", " ")) for name, doc in found]
        return docs[0][1] if len(docs) == 1 else " ".join(f"`{name}`: {doc}" for name, doc in docs)

    def claims_of(self, block, source):
        """The lines of what a block says of a trait's contracts: its ghosts but the proofs, and the clauses of its calls."""
        shown = [it for it in block.members if it.kind == "ghost" and not PROOF.search(it.signature)]
        lines = self.ghosts(shown, source, (), True)
        for it in (it for it in block.members if it.kind == "fn" and it.clauses):
            lines += [f"fn {it.name}", *(f"    {line}" for one in self.contract(it, source) for line in one.split("\n"))]
        return lines

    # ---- calls

    def group(self, title, entries):
        """Puts the functions and constants of a module."""
        self.page.heading(2, self.title(title), title)
        self.page.put(self.doc(entries[0].source.said, entries[0].source, "") if title.endswith("::") else "")
        for it in entries:
            self.call(it.path, it.item, it.source, None)

    def call(self, path, item, source, owner):
        """Puts a call or a constant: its signature, its comment, and its contract below."""
        self.page.heading(3, f"`{path}`", path)
        self.page.put(f"```rust\n{item.signature}\n```")
        self.page.put(self.doc(item.doc, source, owner.name if owner else ""))
        if owner is not None and owner.kind == "trait" and item.given:
            self.page.put("Provided: a type need not write it.")
        self.page.fold("Contract", self.contract(item, source))
        self.page.put(pages.link_to_source(source.file))

    def contract(self, item, source):
        """The lines of a contract, as HTML, in which words lead to their definitions."""
        lines = []
        for it in item.clauses:
            lines += [f"// {pages.in_html([(line, None)])}" for line in it.comment.split("\n") if line]
            name = f"{it.kind} <b>{it.name}</b>" if it.name else it.kind
            lines.append(f"{name} {{ {self.claim(it.claim, source, item)} }}")
        return lines

    def claim(self, text, source, item):
        """A claim as HTML; the words that it names are cited."""
        parameters = re.findall(r"\b(\w+): ", item.signature) if item.kind == "fn" else []
        pieces = list(specs.linked(self.library.specs, source.imports, text, parameters))
        self.cited.update({pages.key_of(word): word for _, word in pieces if word})
        return pages.in_html(pieces)

    def passed(self):
        """Puts what the crate passes on, by the crates that it is from, with the laws last."""
        found = collections.defaultdict(list)
        for path in sorted(self.crate.passed, key=lambda it: it.startswith("law::")):
            home = self.library.home(self.crate.name, path)
            if home:
                found["law" if path.startswith("law::") else "", home[0]].append(f"[`{path}`](reference:{home[0]}/{home[1]})")
            else:
                self.faults.append(f"crates/{self.crate.name}: {path} is passed on, and not public there")
        if found:
            self.page.heading(2, "Passed on", "=passed")
            self.page.put("These items of other crates have the same names here.")
            order = sorted(found, key=lambda it: (it[0], -self.library.names.index(it[1])))
            self.page.put("\n".join(f"- {'Laws of ' if it[0] else ''}[`{it[1]}`](reference:{it[1]}): {', '.join(found[it])}" for it in order))


def type_signature(item):
    """A type as it is declared; its public fields and its variants stand below it."""
    shown = any(it.kind in ("field", "variant") and it.public for it in item.members)
    if item.kind in ("struct", "enum") and item.given:
        return item.signature + (" { .. }" if shown else " { /* private fields */ }")
    return item.signature + (" { .. }" if item.kind == "trait" else ";")
