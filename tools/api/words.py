"""The definitions of `specs/` that clauses cite: where each stands, and code with links to them."""
import html
import re
from functools import cache

from .sources import TOP, uses_in

LABEL = re.compile(r"\s*(?:requires|ensures)\*?(?: \w+)? \{")
WORD = re.compile(r"(?<![\w.])([A-Za-z_][\w']*)(?:\.([A-Za-z_][\w']*))?")
HEAD = re.compile(r"\s*(?:abbrev )?(?:pub )?(?:record )?([A-Za-z_][\w']*)(?= :| \(| \{|$)")
# From a page in docs/api to the top.
UP = "../../"


@cache
def spec(crate, file):
    """The line of each definition of a file of `specs/`, and what the file names of others."""
    path = TOP / f"crates/{crate}/specs/{file}.antt"
    if not path.is_file():
        return {}, {}
    lines, found = path.read_text().splitlines(), {}
    for number, line in enumerate(lines, 1):
        head = HEAD.match(line)
        begins = head and re.match(r"\s*(?:abbrev |pub |record )", line)
        if begins and not re.match(r"\s*pub (?:use|mod)\b", line):
            found.setdefault(head[1], number)
    return found, uses_in(lines)


def place(crate, file, name):
    """Where a definition stands, also if the file only hands it on; none of the toolchain's."""
    handed_on = TOP / f"crates/{crate}/specs/Lib.antt"
    if handed_on.is_file() and not (handed_on.parent / f"{file}.antt").is_file():
        whole = re.search(rf"^pub use Rattle\.(\w+)\.specs\.{file}$", handed_on.read_text(), re.M)
        crate = whole[1] if whole else crate
    found, uses = spec(crate, file)
    if name in found:
        return f"crates/{crate}/specs/{file}.antt#L{found[name]}"
    return place(*uses[name]) if name in uses and uses[name][2] else None


def anchor(text):
    """The anchor of a heading, as hosts of repositories make it."""
    return re.sub(r"[^\w\- ]", "", text.lower()).replace(" ", "-")


def link(where, text):
    return f'<a href="{UP}{where}">{text}</a>' if where else text


def of_word(word, uses):
    """A word of code, with a link if it names a definition."""
    first, second = word.groups()
    crate, file, name = uses.get(first, (None, None, None))
    rest = f".{second}" if second else ""
    if crate and name:
        return link(place(crate, file, name), html.escape(first)) + rest
    if crate and second:
        return f"{first}." + link(place(crate, file, second), second)
    return word[0]


def linked(line, uses):
    """A line of code. The name of a clause is no word of it, nor is a comment."""
    if line.lstrip().startswith("--"):
        return html.escape(line, quote=False)
    label = LABEL.match(line)
    done = label.end() if label else 0
    text = html.escape(line[:done], quote=False)
    for word in WORD.finditer(line, done):
        text += html.escape(line[done:word.start()], quote=False) + of_word(word, uses)
        done = word.end()
    return text + html.escape(line[done:], quote=False)


def block(lines, uses):
    """Lines of code."""
    text = "\n".join(linked(line, uses) for line in lines)
    return ["", f"<pre><code>{text}", "</code></pre>"]
