"""Reads the sources: their public items, with comments, clauses and the definitions that they cite.

The layout of `rt fmt` is relied on: an item begins in column 0, and ends at the next brace there;
a method begins in column 4.
"""
import re
from functools import cache
from pathlib import Path

TOP = Path(__file__).resolve().parents[2]
START = re.compile(r"(?:pub |final |unsafe )*(fn|struct|enum|trait|const|type|impl)\b(.*)")


class Item:
    """One item, or one method: its comment, its attributes, its lines, and what it names."""

    def __init__(self, doc, attributes, lines):
        self.doc, self.attributes, self.lines = doc, attributes, lines
        self.uses, self.imports = {}, []
        self.kind, rest = START.match(lines[0].strip()).groups()
        self.name = re.match(r"[\s]*(\w*)", rest)[1]
        self.is_public = lines[0].lstrip().startswith("pub ")

    def shown(self):
        """The lines up to the body, or to the first clause, as they stand."""
        found = []
        for line in self.lines:
            text = line.strip()
            if text == "{" or re.match(r"(requires|ensures)\b", text):
                break
            if not text.startswith("//"):
                found.append(re.sub(r" \{$|;$| ?\{\}$", "", line).replace("final fn ", "fn ", 1))
            if re.search(r"[^=] \{$|;$|\{\}$", text):
                break
        if found[-1].strip() == "where":
            found.pop()
        margin = len(found[0]) - len(found[0].lstrip())
        return [*(line[margin:] for line in found[:-1]), found[-1][margin:].rstrip(",")]

    def head(self):
        """The same in one line."""
        text = re.sub(r",? ([>)])", r"\1", " ".join(line.strip() for line in self.shown()))
        text = re.sub(r"([(<]) ", r"\1", text).rstrip(", ")
        return re.sub(r",? where$", "", text)

    def answer(self):
        """The type of what a function returns."""
        found = re.search(r"\) -> (.*?)(?: where .*)?$", self.head())
        return found[1] if found else ""

    def is_foreign(self, trait):
        """Whether a trait, as an impl names it, is the toolchain's."""
        name = bare(trait)
        imported = [one for one in self.imports if re.search(rf"\b{name}\b", one)]
        return "::" in trait and not is_ours(trait) or not all(map(is_ours, imported))

    def clauses(self):
        """The lines of its clauses, whole."""
        found, depth, inside = [], 0, False
        for line in self.lines:
            text = line.strip()
            begins = re.match(r"(requires|ensures)\b", text)
            if not inside and (text == "{" or not begins and text.endswith((" {", ";"))):
                break
            if inside or begins:
                inside = True
                depth += text.count("{") - text.count("}")
                found.append(line.rstrip())
                if depth == 0:
                    inside = False
                    if text.endswith(";"):
                        found[-1] = found[-1].rstrip(";")
                        break
        margin = min((len(line) - len(line.lstrip()) for line in found), default=0)
        return [line[margin:] for line in found]


def is_ours(path):
    first = path.split("::")[0]
    return first in ("crate", "super", "self") or (TOP / "crates" / first).is_dir()


def split(lines, indent, starts):
    """The items that begin in this column, with their comments and attributes."""
    items, doc, attributes, index = [], [], [], 0
    while index < len(lines):
        line = lines[index]
        text = line[len(indent):] if line.startswith(indent) else ""
        if text.startswith("///"):
            doc.append(text[3:].strip())
        elif text.startswith("#["):
            attributes.append(text)
        elif starts.match(text):
            end = index
            while not is_last(lines[end], indent, end == index):
                end += 1
            items.append(Item(doc, attributes, lines[index:end + 1]))
            doc, attributes, index = [], [], end
        else:
            doc, attributes = [], []
        index += 1
    return items


def is_last(line, indent, is_first):
    """Whether an item in this column ends with the line."""
    text = line[len(indent):] if line.startswith(indent) else ""
    if is_first or not text.startswith(" "):
        return text.endswith((";", "{}")) or text.startswith("}")
    return bool(indent) and text.endswith("};")


def uses_in(lines, indent=""):
    """What the `ghost use` lines in this column, or the `use` lines of a file of `specs/`, name:
    the name here, with the crate, the file and the name there, which is none for a whole file."""
    found = {}
    for line in lines:
        use = re.match(indent + r"(?:ghost |pub )?use Rattle\.(\w+)\.specs\.(\w+)\b(.*)", line)
        if not use:
            continue
        crate, file, rest = use.groups()
        whole = re.match(r" as (\w+)", rest)
        names = re.match(r"\.\{(.*)\}", rest)
        if whole:
            found[whole[1]] = (crate, file, None)
        for name in names[1].split(", ") if names else []:
            there, _, here = name.partition(" as ")
            found[here or there] = (crate, file, there)
    return found


@cache
def items_of(crate):
    """All items of a crate's sources."""
    found = []
    for path in sorted((TOP / "crates" / crate / "src").rglob("*.rt")):
        text = path.read_text()
        lines = text.splitlines()
        here = split(lines, "", START)
        for item in here:
            item.uses = uses_in(lines) | uses_in(item.lines, "    ")
            item.imports = re.findall(r"^(?:pub )?use ([^;]*);", text, re.M)
        found += here
    return found


def inner(item):
    """The methods of an impl or a trait."""
    methods = split(item.lines[1:], "    ", re.compile(r"(pub )?(final )?fn "))
    for method in methods:
        method.uses = item.uses
    return methods


@cache
def exported(crate):
    """The names that a crate exports, each with the crate that has the item."""
    return {name: owner for name, (owner, _path) in exports(crate).items()}


@cache
def exports(crate):
    """The names that a crate exports, each with the crate that has the item, and its path here."""
    source, found = TOP / "crates" / crate / "src", {}
    text = (source / "lib.rt").read_text()
    read_exports(crate, text, crate, found)
    for module in re.findall(r"^pub mod (\w+)", text, re.M):
        part = (source / f"{module}.rt").read_text()
        named = re.findall(r"^pub (?:fn|struct|enum|trait) (\w+)", part, re.M)
        part += "".join(f"\npub use {name};" for name in named)
        read_exports(crate, part, f"{crate}::{module}", found)
    return found


def read_exports(crate, text, module, found):
    """Adds what the `pub use` lines of a module name."""
    for path, names in re.findall(r"pub use ((?:\w+::)*)(\{[^}]*\}|\w+);", text):
        owner = path.split("::")[0] if path else crate
        for name in re.findall(r"\w+", names):
            if (TOP / "crates" / owner).is_dir() and owner != crate:
                owned_by = exported(owner).get(name, owner)
            else:
                owned_by = crate
            found[name] = (owned_by, f"{module}::{name}")


def bare(text):
    """A name without its generics and its path."""
    while re.search(r"<[^<>]*>", text):
        text = re.sub(r"<[^<>]*>", "", text)
    return text.split("::")[-1].strip()


@cache
def impls(crate):
    """The impls of a crate: the trait, or none, the type, and the item. A type with an alias has its name."""
    found = []
    heads = [item.head() for item in items_of(crate) if item.kind == "type"]
    aliases = {of: bare(name.split("type ")[1]) for name, of in (head.split(" = ") for head in heads)}
    for item in items_of(crate):
        if item.kind == "impl":
            head = re.sub(r"^(unsafe )?impl\s*", "", item.head())
            if head.startswith("<"):
                depth = 0
                for end, sign in enumerate(head):
                    depth += (sign == "<") - (sign == ">")
                    if depth == 0:
                        break
                head = head[end + 1:].strip()
            of_trait, is_for, of_type = re.split(r" where ", head)[0].partition(" for ")
            of_trait, of_type = (of_trait, of_type) if is_for else (None, of_trait)
            found.append((of_trait, aliases.get(of_type, of_type), item))
    return found


def with_types(trait, item):
    """A trait with the types that an impl names in it, as `Stream<Item = u8>`."""
    found = re.findall(r"^    type (\w+) = (.*);", "\n".join(item.lines), re.M)
    named = ", ".join(f"{name} = {of_type}" for name, of_type in found)
    if not named:
        return trait
    return f"{trait[:-1]}, {named}>" if trait.endswith(">") else f"{trait}<{named}>"


def parts(item):
    """The variants of an enum, public fields of a struct, types of a trait, with comments."""
    found, doc, depth = [], [], 0
    for line in item.lines[1:-1]:
        text = line.strip()
        if text.startswith("///"):
            doc.append(text[3:].strip())
        elif depth == 0 and re.match(r"    \S", line) and is_part(item, text):
            part = re.sub(r"^pub ", "", text).rstrip(",;").replace(" {", " { .. }")
            found.append(f"- `{part}`" + (": " + " ".join(doc) if doc else ""))
            doc = []
        elif not text.startswith("#["):
            doc = []
        depth += text.count("{") - text.count("}")
    return found


def is_part(item, text):
    if item.kind == "enum":
        return re.match(r"[A-Z]", text)
    return re.match(r"pub \w+:" if item.kind == "struct" else r"type ", text)


def ghosts(item):
    """What an implementor of a trait says of its type."""
    kept, above, depth = [], [], 0
    for line in item.lines[1:-1]:
        text = line[4:]
        if depth > 0:
            kept.append(text)
            depth += text.count("{") - text.count("}")
        elif line.startswith("    // "):
            above.append("--" + text[2:])
        elif text.startswith("ghost ") and not text.startswith("ghost use"):
            kept += above + [text]
            depth, above = text.count("{") - text.count("}"), []
        else:
            above = []
    return kept


def about(crate):
    """The comment of a crate."""
    lines = (TOP / "crates" / crate / "src/lib.rt").read_text().splitlines()
    return [line[3:].strip() for line in lines if line.startswith("//!")]


def function_text(path, name):
    """A function with its comment, as it stands in a file, if there is one."""
    lines = (TOP / path).read_text().splitlines()
    first = next((i for i, line in enumerate(lines) if re.match(rf"(pub(\(crate\))? )?fn {name}\b", line)), None)
    if first is None:
        return []
    end = next(i for i in range(first, len(lines)) if lines[i] == "}")
    while lines[first - 1].startswith(("///", "#[")):
        first -= 1
    return lines[first:end + 1]
