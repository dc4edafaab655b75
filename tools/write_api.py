#!/usr/bin/env python3
"""Writes docs/api from the sources: a page or some for each crate, with its public items in the form
of docs.rs, and an index of all names. What a call does, and its labels (as `Returns: ..`), are the
comment above it; lines of use are from crates that are tested; tools/api has the words of a page, what
holds of all its calls, and which page has what (layout.py). It also sets the line of each clause, and
the page of each call, that README.md and docs link. `tools/write_api.py --check` writes nothing, and
fails if a page differs. `--without-use` lists what no test of those that are looked at uses.
"""
import difflib
import re
import sys
from pathlib import Path

sys.dont_write_bytecode = True
from api import clause_links  # noqa: E402
from api.layout import CRATES, MOST, SECTIONS, WHOLE  # noqa: E402
from api.names import index  # noqa: E402
from api.page import HEADER, Doc, Page, Wrong, listed, spaced  # noqa: E402
from api.sources import (TOP, about, bare, exports, function_text, ghosts, impls, inner,  # noqa: E402
                         items_of, parts, with_types)
from api.words import anchor  # noqa: E402

DATA = Path(__file__).resolve().parent / "api"
PAGES = TOP / "docs/api"
# Of `piper_machine`: modules that its page says in words.
IN_WORDS = ("index", "destination", "examples")
HANDLES = ("Reader", "Writer")
OF_RING = ["LastReadMark", "ReadEnd", "ReadMark", "WriteEnd", "WriteMark", "open_ring"]
# The order of a handle's calls in the table and on the page; others follow as in the sources.
ORDER = ["poll", "peek_buf", "write_buf", "consume", "produced", "try_drain", "try_fill",
         "poll_drain_bytes", "poll_fill_bytes", "poll_drain", "poll_fill", "poll_drain_with",
         "poll_fill_with", "try_drain_with", "try_fill_with", "poll_close", "is_closed", "len",
         "is_empty", "is_full", "capacity", "finish"]
FOR_PROOFS = ["mark", "observe", "observe_last", "meet", "meet_finished", "end"]


def page_of(crate):
    return "ring.md" if crate == "piper_ring" else f"{crate}.md"


def item_named(owner, name):
    return next(i for i in items_of(owner) if i.name == name and i.is_public and i.kind != "impl")


def facts(crate, name):
    """Whether a type is dropped automatically, its traits, and what `?` makes of it."""
    item = item_named(crate, name)
    if item.kind in ("type", "const", "trait"):
        return []
    found, into = set(re.findall(r"\w+", " ".join(
        re.findall(r"derive\((.*?)\)", " ".join(item.attributes))))), set()
    for trait, of_type, body in (one for where in dict.fromkeys([crate, *CRATES])
                                 for one in impls(where)):
        if trait and bare(of_type) == name and body in items_of(crate):
            found.add(with_types(trait, body).replace("fmt::", ""))
        elif trait and re.match(rf"From<{name}\b", trait):
            into.add(of_type)
    kept = "Dropped automatically." if {"Drop", "Copy"} & found else \
        "Linear: it is not dropped automatically, and has to be moved or spent."
    others = found - {"Drop", "Model", "Error"}
    lines = [kept + (f" Traits: {listed(others)}." if others else "")]
    return lines + ([f"`?` and `into` take it to {listed(into)}."] if into else [])


def trait_named(trait):
    """A trait with a page, and that page."""
    for crate in CRATES:
        for name, (owner, _path) in exports(crate).items():
            if name == trait and owner == crate and item_named(owner, name).kind == "trait":
                return item_named(owner, name), page_of(crate)
    return None, None


def impl_call(page, name, trait, method, is_foreign):
    """A call of a trait of a type: what its own comment says, or else the trait's first sentence."""
    doc = Doc(method.doc)
    made_by = re.match(r"The future of `(\w+)`", Doc(item_named(page.crate, name).doc).summary())
    if made_by and not doc.paragraphs:
        doc.paragraphs = [f"[`{made_by[1]}`](#{made_by[1]}) says what it gives."]
        doc.labels["Requires"] = "The future was made by that call, and has not given its result yet."
    of_trait, there = (None, None) if is_foreign else trait_named(trait)
    above = next(one for one in inner(of_trait) if one.name == method.name) if of_trait else None
    asks = above and "requires" in " ".join(method.clauses() or above.clauses())
    if asks and "Requires" not in doc.labels:
        doc.labels |= {key: said for key, said in Doc(above.doc).labels.items() if key == "Requires"}
    if of_trait and not doc.paragraphs:
        there = "" if there == page.name else there
        where = f"{there}#{anchor(f'{trait}::{method.name}')}"
        doc.paragraphs = [f"As [`{trait}::{method.name}`]({where}): {Doc(above.doc).summary()}"]
    page.call(method, f"{name}: {trait}::{method.name}", doc=doc, trait=None if is_foreign else trait)


def a_type(page, crate, name, path):
    """A type or a trait: its path and head, its comment, what holds of it, its parts."""
    item = item_named(crate, name)
    doc = Doc(item.doc)
    page.heading(3, name)
    head = [re.sub(r"^pub (?=const)", "pub ", line) for line in item.shown()]
    body = {"struct": " { .. }", "enum": " { .. }", "trait": " { .. }"}.get(item.kind, "")
    is_whole = item.lines[0].rstrip().endswith(";")
    page.code([f"use {path};", "", *head[:-1], head[-1] + ("" if is_whole else body)])
    page.says(doc)
    page.lines += spaced(facts(crate, name))
    page.lines += ["", *parts(item)] if parts(item) and item.kind != "const" else []
    page.group(f"[`{name}`](#{anchor(name)})", doc.summary())
    if name in WHOLE:
        file, *functions = WHOLE[name]
        texts = [function_text(file, function) for function in functions]
        if not all(texts):
            raise Wrong(f"{file} lacks a function of {functions}, the example of {name}")
        page.lines += ["", f"Its use from first to last, from [a tested crate](../../{file}):"]
        page.code([line for text in texts for line in ["", *text]][1:])
    elif item.kind in ("struct", "enum"):
        page.example("", name)
    if doc.of_clauses and item.kind != "trait":
        page.folded([], item.uses, doc.of_clauses, "In clauses")
    return item


def a_trait(page, crate, name, path):
    """A trait with its calls, and what an implementor says."""
    item = a_type(page, crate, name, path)
    having = {(bare(trait), of_type) for trait, of_type, _body in impls(crate) if trait}
    others = {of_type for trait, of_type in having if trait == name and of_type[0] == "&"}
    page.lines += ["", f"{listed(others)} has it as well."] if others else []
    page.folded(ghosts(item), item.uses, (), "In clauses: what a type with this trait says of itself")
    for method in inner(item):
        page.call(method, f"{name}::{method.name}", trait=name)


def own_calls(crate, name):
    found = [method for trait, of_type, body in impls(crate) if bare(of_type) == name and not trait
             for method in inner(body) if method.is_public]
    if crate != "piper" or name not in HANDLES:
        return found
    return sorted(found, key=lambda one: ORDER.index(one.name) if one.name in ORDER else len(ORDER))


def trait_calls(page, crate, name):
    for trait, of_type, body in impls(crate):
        if trait and bare(of_type) == name:
            told = [method for method in inner(body) if method.clauses() or method.doc]
            for method in told:
                impl_call(page, name, bare(trait), method, body.is_foreign(trait))
            if not all(method.clauses() for method in told):
                page.folded(ghosts(body), body.uses, (), f"In clauses: what `{name}` says of itself as `{bare(trait)}`")


def any_item(page, crate, name, path):
    """An item of any kind, with its calls."""
    item = item_named(crate, name)
    if item.kind == "fn":
        return page.call(item, name, path, depth=3)
    if item.kind == "trait":
        return a_trait(page, crate, name, path)
    a_type(page, crate, name, path)
    for method in own_calls(crate, name):
        if not (crate == "piper" and name in HANDLES and method.name in FOR_PROOFS):
            page.call(method, f"{name}::{method.name}")
    return trait_calls(page, crate, name)


def told(page, name, title=None):
    """What a file of tools/api says, below a heading, if there is one."""
    path = DATA / name
    if not path.is_file():
        return
    if title:
        page.heading(2, title, False)
        page.lines.append("")
    for line in path.read_text().rstrip().splitlines():
        if line.startswith("## "):
            page.heading(2, line[3:], False)
        else:
            page.lines.append(line)


def begin(page, crate):
    """What stands above a page's items."""
    page.lines += spaced(Doc(about(crate)).paragraphs)
    told(page, f"words/{crate}.md", "Words")
    page.table_at = len(page.lines)
    told(page, f"holds/{crate}.md", "What holds of each call")


def piper_page():
    """The page of `piper`: handles first."""
    names = exports("piper")
    placed = [name for group in SECTIONS.values() for name in group] + OF_RING
    *sections, last = SECTIONS.items()
    more = ("More", [name for name in names if name not in placed])
    page = Page("piper", "piper.md", "`piper`")
    begin(page, "piper")
    for title, group in [*sections, more, last]:
        group = [name for name in group if name in names]
        if not group:
            continue
        page.group(f"**{title}**")
        if title == "Calls for proofs":
            page.begin("", title)
            proofs(page)
        for name in group:
            page.begin(name, title)
            any_item(page, names[name][0], name, names[name][1])
    return page


def proofs(page):
    """The calls whose results only proofs use."""
    page.lines += ["", "They give or take evidence of what the sides did; only clauses of your own "
                   "need it. On [the page of the ring](ring.md): " + ", ".join(
                       f"[`{name}`](ring.md#{anchor(name)})" for name in OF_RING) + "."]
    for name in HANDLES:
        for method in own_calls("piper", name):
            if method.name in FOR_PROOFS:
                page.call(method, f"{name}::{method.name}")


def crate_page(crate):
    """The page of any other crate: functions, types, traits."""
    page = Page(crate, page_of(crate), f"`{crate}`")
    begin(page, crate)
    above = sorted(name for name, (owner, _path) in exports("piper").items() if owner == crate)
    page.lines += ["", f"`piper` exports {listed(above)}."] if above else []
    names = {name: one for name, one in sorted(exports(crate).items())
             if name != "OutOfMemory" and one[1].split("::")[1] not in IN_WORDS}
    kinds = {name: item_named(names[name][0], name).kind for name in names}
    for title, of_kind in (("Functions", ("fn",)), ("Types", ("struct", "enum", "const", "type")),
                           ("Traits", ("trait",))):
        group = [name for name in names if kinds[name] in of_kind]
        if group:
            page.group(f"**{title}**")
        for name in group:
            page.begin(name, title)
            any_item(page, names[name][0], name, names[name][1])
    page.turn_to(page.name)
    told(page, f"examples/{crate}.md")
    return page


def start_page(pages):
    """The first page."""
    lines = ["# API reference", "", HEADER, "",
             "These are the crates for Rattle. Programs in Rust have the calls of [0.2.5](../USING.md#from-rust), "
             "and those in C the calls of [piper.h](../../c/piper.h).", "", "## The pages", "",
             "- [Index by name](names.md): every entry of all pages."]
    for crate, page in zip(CRATES, pages):
        first = Doc(about(crate)).summary()
        parts = [f"[{title.split(': ')[1]}]({name})" for name, title in page.titles.items() if name != page.name]
        also = f" Its parts: {', '.join(parts)}." if parts else ""
        lines.append(f"- [`{crate}`]({page.name}): {first[0].lower() + first[1:]}{also}")
    lines += ["- [scripts](scripts.md): the language that `piper_replay` and `piper_compare` play.", "",
              (DATA / "start.md").read_text().rstrip()]
    return "\n".join(lines) + "\n"


def scripts_page():
    """The language of scripts, which stands in tools/api as it is."""
    page = Page("", "scripts.md", "The script language")
    page.lines.append("")
    told(page, "scripts.md")
    return page


def aimed(text, file, pages):
    """A page's text. A link to an entry leads to the page of the crate that has it."""
    homes = {name: page.homes for page in pages for name in page.bodies}

    def one(link):
        above, name, where = link.groups()
        home = homes.get(name or file, {}).get(where, name or file)
        return f"]({'' if home == file else above + home}#{where})"
    return re.sub(r"\]\(((?:docs/)?(?:api/)?)([\w-]+\.md)?#([\w-]+)\)", one, text)


def crate_pages():
    return [piper_page() if crate == "piper" else crate_page(crate) for crate in CRATES]


def written(pages):
    """Each page by its name."""
    found = {name: text for page in [*pages, scripts_page()] for name, text in page.texts().items()}
    found |= {"README.md": start_page(pages), "names.md": index(pages, HEADER)}
    reference = {f"docs/api/{name}": aimed(text, name, pages) for name, text in found.items()}
    for name, text in reference.items():
        if len(text.encode()) > MOST:
            raise Wrong(f"{name}: more than {MOST} bytes: tools/api/layout.py gives its crate a page more")
    linking = {name: clause_links.with_lines((TOP / name).read_text()) for name in clause_links.PAGES}
    return reference | {name: aimed(text, name, pages) for name, text in linking.items()}


def differing(name, text):
    """How a page differs from the sources."""
    path = TOP / name
    is_now = path.read_text().splitlines() if path.is_file() else []
    return list(difflib.unified_diff(is_now, text.splitlines(), name, "the sources", lineterm="", n=0))


def main():
    if sys.argv[1:] not in ([], ["--check"], ["--without-use"]):
        print("usage: tools/write_api.py [--check | --without-use]", file=sys.stderr)
        return 2
    try:
        pages = crate_pages()
        found = written(pages)
    except (Wrong, clause_links.NoClause) as wrong:
        print(wrong)
        return 1
    if sys.argv[1:] == ["--without-use"]:
        for page in pages:
            print(f"{page.crate}: {len(page.without_use)}: {', '.join(page.without_use)}")
        return 0
    strange = {f"docs/api/{path.name}" for path in PAGES.glob("*")} - set(found)
    if not sys.argv[1:]:
        PAGES.mkdir(exist_ok=True)
        for name, text in found.items():
            (TOP / name).write_text(text)
        for name in strange:
            (TOP / name).unlink()
        return 0
    lines = [line for name, text in found.items() for line in differing(name, text)]
    lines += [f"{name} has no source" for name in sorted(strange)]
    print("\n".join(lines) or "docs/api is as the sources say")
    return 1 if lines else 0


if __name__ == "__main__":
    sys.exit(main())
