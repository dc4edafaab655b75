"""The pages of a crate in Markdown: tables of its calls, and items with signature, facts, example and clauses."""
import re

from .examples import excerpt
from .layout import PARTS
from .words import anchor, block

LABELS = ["Requires", "Returns", "Pending", "Errors", "Wakes", "Cancel safety"]
LABEL = re.compile(rf"({'|'.join(LABELS)}): (.*)")
HEADER = "Written by `tools/write_api.py` from the sources and `tools/api`: change those, and run it."


class Wrong(Exception):
    """Says what does not fit."""


def plain(text):
    """A comment's text. A link of rustdoc is left as what it shows."""
    return re.sub(r"\[(`[^`]+`)\](\(\w+@[^)]*\))?", r"\1", text)


class Doc:
    """A comment: its paragraphs, what it says under labels, and what it says of clauses."""

    def __init__(self, lines):
        self.paragraphs, self.labels, self.of_clauses = [], {}, []
        taken, last = None, None
        for line in [*lines, ""]:
            label = LABEL.match(line)
            if label:
                last = label[1]
                self.labels[last] = label[2]
            elif not line:
                if taken:
                    self.add(plain(" ".join(taken)))
                taken, last = None, None
            elif last:
                self.labels[last] += " " + line
            else:
                taken = [*(taken or []), line]
        self.labels = {key: plain(said[0].upper() + said[1:]) for key, said in self.labels.items()}

    def add(self, text):
        (self.of_clauses if text.startswith("In clauses, ") else self.paragraphs).append(text)

    def summary(self):
        """The first sentence, with no full stop inside of it."""
        first = self.paragraphs[0] if self.paragraphs else ""
        return re.split(r"(?<=\.) (?=[A-Z`])", first)[0]


def spaced(lines):
    return [line for one in lines for line in ("", one)]


def listed(names):
    return ", ".join(f"`{name}`" for name in sorted(names))


class Page:
    """A crate's page, with the pages that have a part of it. Rows for the table of calls are kept until
    all is there. `lines` are those of the page that is written on now."""

    def __init__(self, crate, name, title):
        self.crate, self.name, self.title = crate, name, title
        self.at, self.bodies, self.titles = name, {name: []}, {name: title}
        self.parts = PARTS.get(crate, {})
        self.homes, self.named, self.section_of, self.without_use = {}, [], {}, []
        self.lines, self.groups, self.table_at = self.bodies[name], [], None

    def turn_to(self, name):
        """Writes on this page from now on."""
        self.at, self.lines = name, self.bodies.setdefault(name, [])

    def begin(self, item, section):
        """Turns to the page that has this item, below the heading of its section."""
        part = next((one for one, items in self.parts.items() if {item, section} & set(items)), None)
        name = self.name.replace(".md", f"-{part.split()[-1].lower()}.md") if part else self.name
        self.titles.setdefault(name, f"{self.title}: {part}")
        self.turn_to(name)
        if self.section_of.get(name) != section:
            self.section_of[name] = section
            self.homes.setdefault(anchor(section), name)
            self.lines += ["", f"## {section}"]

    def heading(self, depth, text, is_code=True):
        where = anchor(text)
        if where in self.homes:
            raise Wrong(f"{self.name}: two headings have the anchor {where}")
        self.homes[where] = self.at
        if is_code:
            self.named.append((text, self.at, where))
        self.lines += ["", "#" * depth + " " + (f"`{text}`" if is_code else text)]

    def group(self, title, summary=""):
        """The calls that follow are in a table of their own."""
        self.groups.append((title, summary, []))

    def row(self, title, shown, summary, answer):
        self.groups[-1][2].append((shown, anchor(title), summary, answer))

    def code(self, lines):
        self.lines += ["", "```rust", *lines, "```"]

    def folded(self, lines, uses, above=(), summary="Clauses"):
        """Clauses, folded away."""
        if lines or above:
            self.lines += ["", f"<details><summary>{summary}</summary>", *spaced(above)]
            self.lines += block(lines, uses) if lines else []
            self.lines += ["", "</details>"]

    def check_labels(self, item, title, doc):
        """A call says what it requires if a clause asks for something, and what it is pending for if it
        may be. For one that is as another, and one of the ring, the clauses stand for words."""
        asking = re.findall(r"^requires (?:\w+ )?\{ (.*?) \}$", "\n".join(item.clauses()), re.M | re.S)
        if self.crate == "piper_ring" or re.match(r"As |\[", " ".join(doc.paragraphs)):
            if asking:
                said = "; ".join(f"`{' '.join(clause.split())}`" for clause in asking)
                doc.labels.setdefault("Requires", f"{said}.")
            return
        if bool(asking) != ("Requires" in doc.labels):
            raise Wrong(f"{title}: a clause and the label Requires stand together, or neither")
        is_at_once = re.search("Ready at once|at once and always", " ".join(
            [*doc.paragraphs, doc.labels.get("Returns", "")]))
        if item.answer().startswith("Poll<") and not is_at_once and "Pending" not in doc.labels:
            raise Wrong(f"{title}: it may be pending, and has no label Pending")

    def says(self, doc):
        """What a comment says, and then its labels in their order."""
        self.lines += spaced(doc.paragraphs)
        told = [f"- **{label}**: {doc.labels[label]}" for label in LABELS if label in doc.labels]
        self.lines += ["", *told] if told else []

    def example(self, owner, name, trait=None, is_static=False):
        """Lines of use, from a crate that is tested."""
        found = excerpt(self.crate, owner, name, trait, is_static)
        if found:
            lines, where, of_any = found
            whose = f", as of any `{trait}`" if of_any else ""
            self.lines += ["", f"Use{whose}, from [a tested crate](../../{where}):"]
            self.code(lines)
        else:
            self.without_use.append(f"{owner}::{name}" if owner else name)

    def call(self, item, title, path=None, doc=None, depth=4, trait=None):
        """A call: the path of a function, the signature, what it says, an example, the clauses. With a trait, any type
        that has it may show the use."""
        doc = doc or Doc(item.doc)
        self.check_labels(item, title, doc)
        self.heading(depth, title)
        self.code(([f"use {path};", ""] if path else []) + item.shown())
        self.says(doc)
        owner, _, name = re.sub(r": \w+", "", title).rpartition("::")
        self.example(owner, name, trait, owner and not re.search(r"[(\s&]self\b", item.head()))
        self.folded(item.clauses(), item.uses, doc.of_clauses)
        self.row(title, self.short(title), doc.summary(), item.answer())

    def short(self, title):
        """A call's name in the table of its type, and else whole."""
        of_type = re.match(r"\[`(\w+)`\]", self.groups[-1][0])
        return re.sub(rf"^{of_type[1]}(: |::)", "", title) if of_type else title

    def table(self):
        """A table for each group that has calls."""
        lines = []
        for title, summary, rows in self.groups:
            rows = [row for row in rows if row[0] != "Future::poll"]
            if rows:
                lines += ["", f"{title}{': ' + summary if summary else ''}", "",
                          "| Call | What it does | Answer |", "|---|---|---|"]
            for shown, where, said, answer in rows:
                cell = f"`{answer}`".replace("|", "\\|") if answer else "–"
                lines.append(f"| [`{shown}`](#{where}) | {said} | {cell} |")
        return lines

    def texts(self):
        """Each page by its name: first the crate's own, with the table of all calls."""
        own = self.bodies[self.name]
        at = len(own) if self.table_at is None else self.table_at
        table = ["", "## Calls", *self.table()] if self.table() else []
        links = [f"[{self.titles[name].split(': ')[1]}]({name})" for name in self.bodies if name != self.name]
        more = ["", f"On pages of their own: {', '.join(links)}."] if links else []
        bodies = self.bodies | {self.name: own[:at] + more + table + own[at:]}
        above = ["", f"[The crate's page]({self.name}) has the words, a table of all calls, and what holds of each."]
        found = {name: lines if name == self.name else above + lines for name, lines in bodies.items()}
        return {name: "\n".join([f"# {self.titles[name]}", "", HEADER, *lines]) + "\n"
                for name, lines in found.items()}
