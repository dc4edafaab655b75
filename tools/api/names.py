"""The index: each name of the reference, with links to the entries that have it."""
import re

HEAD = "Each name of the reference, and behind it the crate or the type that has it."


def places(pages):
    """The entries of each name: the crate or type, the crate, the page and the anchor."""
    found = {}
    for page in pages:
        for title, file, where in page.named:
            owner, _, name = title.rpartition("::")
            owner = re.sub(r": .*", "", owner)
            found.setdefault(name, set()).add((owner or page.crate, page.crate, f"{file}#{where}"))
    return found


def row(name, entries):
    """The line of a name. Types of two crates have their crate in front."""
    owners = [owner for owner, _crate, _where in entries]
    links = [f"[`{crate + '::' if owners.count(owner) > 1 and owner != crate else ''}{owner}`]({where})"
             for owner, crate, where in sorted(entries)]
    return f"- `{name}`: " + ", ".join(links)


def index(pages, header):
    """The page."""
    lines, letter = ["# Index by name", "", header, "", HEAD], ""
    for name, entries in sorted(places(pages).items(), key=lambda one: (one[0].lower(), one[0])):
        if name[0].upper() != letter:
            letter = name[0].upper()
            lines += ["", f"## {letter}", ""]
        lines.append(row(name, entries))
    return "\n".join(lines) + "\n"
