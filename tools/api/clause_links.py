"""Links of the hand-written pages to the line of a clause: [`NAME`](FILE.rt#L1 "Type::call")."""
import re

from .sources import TOP

LINK = re.compile(r'\[`(\w+)`\]\(((?:\.\./)*)(crates/[\w/]+\.rt)#L\d+ "(?:(\w+)::)?(\w+)"\)')
PAGES = ["README.md", *(f"docs/{path.name}" for path in sorted((TOP / "docs").glob("*.md")))]


class NoClause(Exception):
    """Says which link has no clause."""


def line_of(path, owner, call, name):
    """The line of a call's clause in a file."""
    is_inside, is_in_call = not owner, False
    for number, line in enumerate((TOP / path).read_text().splitlines(), 1):
        if owner and re.match(r"(?:pub )?(?:impl|trait)\b", line):
            is_inside = re.search(rf"\b{owner}\b", line.split(" for ")[-1]) is not None
        if re.match(r"\s*(?:pub )?(?:final )?fn \w+", line):
            is_in_call = is_inside and re.search(rf"\bfn {call}\b", line) is not None
        if is_in_call and re.match(rf"\s*(?:ensures|requires)\*? {name} \{{", line):
            return number
    raise NoClause(f"{path}: {owner or ''}::{call} has no clause {name}")


def with_lines(text):
    """A page's text, with the number of each clause's line."""
    def one(link):
        name, up, path, owner, call = link.groups()
        of = f"{owner}::{call}" if owner else call
        return f'[`{name}`]({up}{path}#L{line_of(path, owner, call, name)} "{of}")'
    return LINK.sub(one, text)
