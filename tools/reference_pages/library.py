"""The public libraries: what each makes public, under which path, and what it passes on."""
import collections
import dataclasses
import re

from . import sources, specs

# Libraries that are no library of the calendar's: tests and their rows, measures, a user's functions, and the programs.
LEFT_OUT = re.compile(r"(?:tests|rows)_\w+|timed_(?!cron$)\w+|\w+_uses|caltool|dates")
NO_TRAIT_OF_USERS = ("Model", "Drop")


def libraries(crates_text):
    """The public libraries of crates.txt, in its order."""
    lines = [it.partition("#")[0].partition(":") for it in crates_text.split("\n")]
    names = [name.split()[0] for name, colon, _ in lines if colon]
    return [it for it in names if not LEFT_OUT.fullmatch(it)]


@dataclasses.dataclass
class Source:
    """A module: its path in the crate, its items, and the words that its contracts name."""

    path: str
    file: str
    said: str
    items: list
    imports: tuple

    def uses(self, public):
        """The uses, or those that are public alone, as paths and names."""
        found = (it for it in self.items if it.kind == "use" and (it.public or not public))
        return [one for it in found for one in sources.uses_of(re.sub(r"^(?:pub\s+)?use\s+", "", it.signature))]


Entry = collections.namedtuple("Entry", "path item source")
Passed = collections.namedtuple("Passed", "path crate origin")
# A block of a trait for a type: both by crate and path, of which that of the type may be nothing, and the block.
Implemented = collections.namedtuple("Implemented", "trait owner block")


def ghost_uses(items):
    """The `ghost use`s of items and of what is in them."""
    for it in items:
        if it.kind == "ghost" and it.signature.startswith("ghost use"):
            yield it.signature
        if it.kind in ("impl", "trait"):
            yield from ghost_uses(it.members)


class Crate:
    """A library: its modules, its public items by their paths, the blocks of its types, and what it passes on."""

    def __init__(self, name, files, words):
        self.name, self.modules = name, {}
        inside = f"crates/{name}/src/"
        for path, text in sorted(files.items()):
            if path.startswith(inside) and path.endswith(".rt"):
                module = path[len(inside):].removesuffix(".rt").replace("/", "::")
                module = "" if module == "lib" else module
                items = sources.items_of(text)
                imports = specs.imported(words, ghost_uses(items))
                self.modules[module] = Source(module, path, sources.lines_above(text, "//!"), items, imports)
        self.entries, self.passed = {}, {}
        self.read("", "")
        if name in ("calendar_c", "layers_c"):
            self.read_exported()
        self.blocks = self.read_blocks()

    def read_exported(self):
        """Adds what is exported by its own name, in whichever module it stands."""
        for module in self.modules.values():
            for it in module.items:
                if it.public and it.kind in ("fn", "struct", "enum"):
                    self.entries.setdefault(it.name, Entry(it.name, it, module))

    def read(self, module, path):
        """Adds the public items of a module, those that it passes on, and those of its public modules."""
        for it in self.modules[module].items:
            if it.public and it.kind in ("fn", "struct", "enum", "trait", "const", "type"):
                self.entries[path + it.name] = Entry(path + it.name, it, self.modules[module])
            elif it.public and it.kind == "mod":
                inner = f"{module}::{it.name}" if module else it.name
                if inner in self.modules:
                    self.read(inner, f"{path}{it.name}::")
        for used, name in self.modules[module].uses(True):
            found = self.own(module, used)
            if found:
                self.entries[path + name] = Entry(path + name, *found)
            else:
                self.passed[path + name] = Passed(path + name, used.split("::")[0], "::".join(used.split("::")[1:]))

    def own(self, module, used):
        """The item of this crate, with its module, that a path of a `use` names; nothing if it is another crate's."""
        *parts, name = used.split("::")
        if parts and parts[0] in ("crate", "self", "super"):
            parts = parts[1:] if parts[0] != "self" else [*module.split("::"), *parts[1:]]
        for base in ([module] if module else []) + [""]:
            there = "::".join([it for it in [base, *parts] if it])
            if there in self.modules:
                source = self.modules[there]
                for it in source.items:
                    if it.name == name and it.public and it.kind not in ("use", "mod", "impl", "ghost"):
                        return it, source
                for path, other in source.uses(True):
                    if other == name:
                        return self.own(there, path)
        return None

    def read_blocks(self):
        """The blocks of each type: their items, the traits and the sources."""
        found = collections.defaultdict(list)
        for module in self.modules.values():
            for it in module.items:
                if it.kind == "impl" and not any("cfg(test)" in one for one in it.attributes):
                    trait, owner = sources.head_of_impl(it.signature)
                    found[owner].append((trait, it, module))
        return found

    def calls_of(self, owner):
        """The public constants and calls of a type, as pairs with their sources."""
        own = [(it, module) for trait, block, module in self.blocks.get(owner, []) if not trait for it in block.members]
        found = [(it, module) for it, module in own if it.public and it.kind in ("fn", "const")]
        home = [it.source.path for it in self.entries.values() if it.item.name == owner]
        return sorted(found, key=lambda it: it[1].path not in home)

    def traits_of(self, owner):
        """The traits of a type that a user meets, as triples with blocks and sources."""
        found = [it for it in self.blocks.get(owner, []) if it[0]]
        return [it for it in found if sources.without_generics(it[0]).split("::")[-1] not in NO_TRAIT_OF_USERS]

    def model_of(self, owner):
        """The block that says how contracts see a type, and its source."""
        found = [it for it in self.blocks.get(owner, []) if it[0] == "Model"]
        return found[0][1:] if found else None


class Library:
    """All public libraries, and where a name leads."""

    def __init__(self, files):
        self.specs = specs.Specs(files)
        self.names = libraries(files["crates.txt"])
        self.crates = {it: Crate(it, files, self.specs) for it in self.names if f"crates/{it}/src/lib.rt" in files}
        self.sources = files
        self.implemented = list(self.implementations())

    def implementations(self):
        """The blocks of the libraries' traits, by crates."""
        for crate in self.crates.values():
            for owner, blocks in crate.blocks.items():
                for trait, block, source in blocks:
                    home = self.find(crate.name, source, "", sources.without_generics(trait)) if trait else None
                    if home and home[1]:
                        yield Implemented(home, self.find(crate.name, source, "", owner), block)

    def home(self, crate, path):
        """The crate and the path under which an item that a crate has or passes on is told; nothing if there is none."""
        it = self.crates.get(crate)
        if it and path in it.entries:
            return crate, path
        if it and path in it.passed:
            passed = it.passed[path]
            return self.home(passed.crate, passed.origin)
        return None

    def find(self, crate, source, owner, name):
        """The crate and the path of what a name in a comment means there; nothing if it is none."""
        name = re.sub(r"\(\)$|<.*>", "", name).removeprefix("crate::").removeprefix("self::")
        name = re.sub(r"^Self\b", owner, name) if owner else name
        parts = name.split("::")
        if parts[0] in self.crates:
            if len(parts) == 1:
                return parts[0], ""
            return self.find_item(parts[0], parts[1:])
        modules = [source.path.split("::")[0] + "::"] if source.path else []
        for before in ["", *modules]:
            found = self.find_item(crate, (before + name).split("::"))
            if found:
                return found
        for used, other in source.uses(False):
            if other == parts[0] and used.split("::")[0] in self.crates:
                return self.find_item(used.split("::")[0], [*used.split("::")[1:], *parts[1:]])
        return None

    def find_item(self, crate, parts):
        """An item, or a call, a field or a variant of one."""
        for size in range(len(parts), 0, -1):
            home = self.home(crate, "::".join(parts[:size]))
            if home and size == len(parts):
                return home
            if home and size == len(parts) - 1:
                return self.find_member(*home, parts[-1])
        it = self.crates[crate]
        module = "::".join(parts)
        return (crate, f"{module}::") if any(path.startswith(f"{module}::") for path in it.entries) else None

    def find_member(self, crate, path, name):
        """A call of a type, or of a trait that it has; a field and a variant are told with their type."""
        it = self.crates[crate]
        item = it.entries[path].item
        if any(one.name == name and one.kind in ("field", "variant") and one.public for one in item.members):
            return crate, path
        if any(one.name == name and one.kind in ("fn", "const", "type") for one in item.members if item.kind == "trait"):
            return crate, f"{path}::{name}"
        if any(one.name == name for one, _ in it.calls_of(item.name)):
            return crate, f"{path}::{name}"
        for trait, block, source in it.traits_of(item.name):
            home = self.find(crate, source, "", sources.without_generics(trait))
            if home and home[1]:
                return self.find_member(*home, name)
            if any(one.name == name for one in block.members):
                return crate, path
        return None
