#!/usr/bin/env python3
"""Tries what README.md, CONTRIBUTING.md, the pages of docs and the examples of docs/api have their readers
type or read, and the links of every page, and that the sources have each name which a page says.

    tests/pages.py [WORD]

Each block of code on these pages is fenced, and its first word says what becomes of it:

- `console`: bash runs each line after `$ `, and it has to print what is below it; a line `...`
  stands for any lines. The commands of a block share one shell, which begins at the top of the
  repository.
- `rust`, `c`, `toml`, `antt`: a file, whose path is the comment in the first line. Below `~` it is a whole
  file, and is written before the commands after it run, with the path in place of
  `THIS REPOSITORY`; else it is a part of that file of the repository, word for word, which is always compared.
- `text`: not run, since it takes an hour, or root. `mermaid`: a picture.

Of docs/api only the sections that begin with "Example" are tried: `tools/write_api.py --check` compares
the rest with the sources, as it does the line of each clause that a page links.

The gate's own proofs are not made again: of `rt run` the stored output of the crate is compared. A
section that begins with "From" needs no `rt`, and finds one that fails. `~` is a new folder. The section SETUP of the guide
is tried first, and each other one of it and of docs/api in a copy of what it left, beside the
others. With a WORD only sections whose heading has it are tried. A section whose tools are missing is left out,
which is said. The last line is `N passed, M failed`.
"""
import os
import re
import shutil
import signal
import subprocess
import sys
import tempfile
from concurrent.futures import ThreadPoolExecutor
from functools import cache
from pathlib import Path

TOP = Path(__file__).resolve().parent.parent

GUIDE = "docs/USING.md"
EXAMPLES = [f"docs/api/piper_{name}.md" for name in ("futures", "duplex")]
TYPED = ["README.md", GUIDE, "docs/PROVING.md", "CONTRIBUTING.md", *EXAMPLES]
# Other pages may have pictures that are indented, but no code.
CODE = r"[{};=≡→]|\b(fn|pub|ensures|requires)\b"
DOCS = sorted(f"docs/{path.name}" for path in (TOP / "docs").glob("*.md"))
PAGES = ["README.md", *DOCS, "CONTRIBUTING.md", *EXAMPLES]
SETUP = "A repository of your own"
FILES = ("rust", "c", "toml", "antt")
WORDS = FILES + ("console", "text", "mermaid")
SECONDS = 900
# Names that pages say of others: of 0.2.5, of rustc, of Rust's libraries and of the toolchain.
THEIRS = set("AtomicWaker drain_inner fill_inner maybe_yield poll_inner zeroed_until".split()) | set(
    "FROM_RUST LibcRuntime LocalPool NOT_COVERED Net OwnedFd __reserved rust_eh_personality type_inv".split()
)
# Folders of what was built.
BUILT = {"out", "build", "target", "__pycache__"}
# It has names that are gone.
PAST = "CHANGELOG.md"
OTHERS = ["README.md", "CONTRIBUTING.md", "SECURITY.md", "rust/README.md", "examples/README.md", PAST]
SOURCES = Path(os.environ.get("CARGO_SOURCES", "/usr/share/cargo/registry"))
CARGO = f"""[source.crates-io]
replace-with = "here"
[source.here]
directory = "{SOURCES}"
[net]
offline = true
"""


class Failed(Exception):
    """Says what is wrong, and where."""


class Block:
    def __init__(self, page, line, word):
        self.where, self.word, self.lines = f"{page}:{line}", word, []


class Section:
    def __init__(self, page, heading):
        self.page, self.heading, self.blocks = page, heading, []

    def commands(self):
        lines = [line for b in self.blocks if b.word == "console" for line in b.lines]
        return [line for line in lines if line.startswith("$ ")]


def read_page(page):
    """The sections of a page, with their blocks, and what is wrong with its layout."""
    sections, wrong, block, above = [Section(page, "the top")], [], None, ""
    is_tried = page not in EXAMPLES
    for number, line in enumerate((TOP / page).read_text().splitlines(), 1):
        fence = re.fullmatch(r"```(\w*)", line)
        if fence and block:
            block = None
        elif fence:
            block = Block(page, number, fence[1])
            if is_tried:
                sections[-1].blocks.append(block)
            if block.word not in WORDS:
                wrong.append(f"{block.where}: a block of the word '{block.word}'")
        elif block:
            block.lines.append(line)
        elif line.startswith("## "):
            sections.append(Section(page, line[3:]))
            is_tried = page not in EXAMPLES or line.startswith("## Example")
        elif line.startswith("    ") and (not above if page in TYPED else re.search(CODE, line)):
            wrong.append(f"{page}:{number}: an indented block, which is not tried")
        above = line
    return sections, wrong


def file_of(block):
    """The path that the first line of a block says, and the text below it."""
    name = re.sub(r"^(//|#|--|/\*) | \*/$", "", block.lines[0] if block.lines else "")
    return name, "\n".join(block.lines[1:]).strip("\n") + "\n"


def place_file(block, home):
    """Writes a file below `~`."""
    name, text = file_of(block)
    if name.startswith("~/"):
        path = home / name[2:]
        path.parent.mkdir(parents=True, exist_ok=True)
        path.write_text(text.replace("THIS REPOSITORY", str(TOP)))


def wrong_quotes(block):
    """What is wrong with a part of a file of the repository."""
    name, text = file_of(block)
    if name.startswith("~/"):
        return
    if not (TOP / name).is_file():
        yield f"{block.where}: there is no file {name}"
    elif "\n" + text not in "\n" + (TOP / name).read_text():
        yield f"{block.where}: {name} does not have these lines"


def turns(block):
    """The commands of a block, each with the lines that it has to print."""
    found = []
    for line in block.lines:
        if line.startswith("$ "):
            found.append((line[2:], []))
        elif not found:
            raise Failed(f"{block.where}: a line before the first command")
        else:
            found[-1][1].append(line)
    return found


def is_as_told(printed, told):
    """Whether these lines were printed, where `...` stands for any."""
    pattern = "".join("(.*\n)*?" if line == "..." else re.escape(line) + "\n" for line in told)
    lines = "".join(line.rstrip() + "\n" for line in printed.splitlines())
    return re.fullmatch(pattern, lines) is not None


def run_within(script, where, path):
    """Runs a script of bash, and returns its status. What hangs is ended with all it started."""
    told = {**os.environ, "PATH": path}
    shell = subprocess.Popen(["bash", "-c", "\n".join(script)], start_new_session=True, env=told)
    try:
        return shell.wait(SECONDS)
    except subprocess.TimeoutExpired:
        os.killpg(shell.pid, signal.SIGKILL)
        shell.wait()
        raise Failed(f"{where}: not done after {SECONDS} seconds") from None


def path_of(section, room):
    """The PATH for a section's commands. Those for a package find an `rt` that fails."""
    if not section.heading.startswith("From "):
        return os.environ["PATH"]
    (room / "bin").mkdir()
    (room / "bin/rt").symlink_to(shutil.which("false"))
    return f"{room / 'bin'}:{os.environ['PATH']}"


def run_commands(block, home, room, path):
    """Runs the commands of a block in one shell, and compares what each prints."""
    script = ["cd " + str(TOP)]
    commands = turns(block)
    for index, (command, _told) in enumerate(commands):
        command = command.replace("~/", f"{home}/")
        command = re.sub(r"\brt run\b", "cat stdout", command)
        streams = f"> {room}/{index}.out 2> {room}/{index}.err < /dev/null"
        script.append(f"{{ {command}\n}} {streams} || exit {index + 1}")
    status = run_within(script, block.where, path)
    for index, (command, told) in enumerate(commands):
        printed = (room / f"{index}.out").read_text(errors="replace")
        if index + 1 == status or not is_as_told(printed, told):
            said = printed + (room / f"{index}.err").read_text(errors="replace")[-2000:]
            wanted = "\n".join(told)
            raise Failed(f"{block.where}: '{command}' printed\n{said}\nin place of\n{wanted}")


def lacks(section):
    """What a section needs that is not there."""
    text = "\n".join(section.commands())
    named = [tool for tool in ("cargo", "gcc") if re.search(rf"\b{tool} ", text)]
    named += ["cargo"] if "make -s -C c " in text else []
    tools = [tool for tool in named if not shutil.which(tool)]
    if "cargo " in text and not list(SOURCES.glob("futures-lite-*")):
        tools.append(f"futures-lite in {SOURCES}, which `rust/check.sh --install` gets")
    return tools


def try_section(section, home):
    """Tries the blocks of a section in order. Returns what is wrong, if something is."""
    room = home.parent
    (home / ".cargo").mkdir(parents=True, exist_ok=True)
    (home / ".cargo/config.toml").write_text(CARGO)
    path = path_of(section, room)
    try:
        for block in section.blocks:
            if block.word in FILES:
                place_file(block, home)
            elif block.word == "console":
                run_commands(block, home, room, path)
    except Failed as failed:
        return str(failed)
    return None


def tried(section, home, before):
    """Tries a section and says how it went: True, False, or None where it is left out."""
    name = f"{section.page}, {section.heading}"
    missing = lacks(section)
    if missing:
        print(f"left out: {name}: there is no " + ", no ".join(missing), flush=True)
        return None
    if before:
        shutil.copytree(before, home)
    wrong = try_section(section, home)
    print(wrong or f"passed: {name}", flush=True)
    return not wrong


def try_sections(sections, scratch):
    """Tries the guide's set-up, and then the other sections side by side."""
    homes = {section: scratch / str(number) / "home" for number, section in enumerate(sections)}
    setup = next(section for section in sections if section.heading == SETUP)
    went = [tried(setup, homes[setup], None)]
    with ThreadPoolExecutor(os.cpu_count()) as pool:
        waiting = []
        for section in sections:
            if section is not setup:
                before = homes[setup] if section.page in (GUIDE, *EXAMPLES) else None
                waiting.append(pool.submit(tried, section, homes[section], before))
        return went + [one.result() for one in waiting]


@cache
def anchors(path):
    """The anchors of a page's headings, as hosts of repositories make them."""
    seen, inside, found = {}, False, set()
    for line in path.read_text().splitlines():
        inside ^= line.startswith("```")
        heading = None if inside else re.fullmatch(r"#+ (.*)", line)
        if heading:
            text = re.sub(r"\[([^]]*)\]\([^)]*\)", r"\1", heading[1]).lower()
            name = re.sub(r"[^\w\- ]", "", text).replace(" ", "-")
            count = seen.get(name, 0)
            seen[name] = count + 1
            found.add(f"{name}-{count}" if count else name)
    return found


def wrong_links(page):
    """The links of a page that lead to no file, or to no heading."""
    text = re.sub(r"^```.*?^```", "", page.read_text(), flags=re.M | re.S)
    for link in re.findall(r"\]\(([^)\s]+)(?: \"[^\"]*\")?\)|<a href=\"([^\"]+)\"", text):
        link = "".join(link)
        if re.match(r"\w+:", link):
            continue
        name, _, anchor = link.partition("#")
        target = (page.parent / name).resolve() if name else page.resolve()
        if not target.exists():
            yield f"{page.relative_to(TOP)}: {link}: there is no such file"
        elif re.fullmatch(r"L\d+", anchor) and target.suffix != ".md":
            if int(anchor[1:]) > target.read_text().count("\n"):
                yield f"{page.relative_to(TOP)}: {link}: there is no such line"
        elif anchor and anchor not in anchors(target):
            yield f"{page.relative_to(TOP)}: {link}: there is no such heading"


@cache
def names_of_sources():
    """All words of the files that are kept, but for pages, and the names of these files."""
    listed = subprocess.run(["git", "ls-files"], cwd=TOP, capture_output=True, text=True).stdout.split()
    if not listed:  # a copy without its history, in which nothing is kept that was built
        inside = [path.relative_to(TOP) for path in TOP.rglob("*") if path.is_file()]
        listed = [path for path in inside if not BUILT & set(path.parts)]
    files = [Path(name) for name in listed]
    found = {path.name for path in files} | {path.stem for path in files}
    for path in files:
        if path.suffix not in (".md", ".svg", ".png"):
            found.update(re.findall(r"\w+", (TOP / path).read_text(errors="replace")))
    return found


def wrong_names(page):
    """The names in backticks or in a block of text, with a capital or an underscore, that neither the sources nor a
    program of the page has. Capitals alone stand for something. What begins or ends with an underscore, or stands
    beside `..`, is a part of a name."""
    text = page.read_text()
    programs = re.findall(r"^```(?:rust|c|toml)\n.*?^```", text, re.M | re.S)
    said = re.findall(r"^```text\n(.*?)^```", text, re.M | re.S)
    spans = re.findall(r"``(.+?)``|`([^`\n]+)`", re.sub(r"^```.*?^```", "", text, flags=re.M | re.S))
    words = " ".join([*said, *map("".join, spans)])
    names = set(re.findall(r"(?<![\w'])(?<!\.\.)(?:[A-Za-z]\w*[A-Za-z0-9]|_\w+_\w+)(?!\w|\.\.)", words))
    known = THEIRS | names_of_sources() | set(re.findall(r"\w+", "".join(programs)))
    for name in sorted(names - known):
        if re.search(r"[A-Z_]", name) and not re.fullmatch("[A-Z0-9]+", name):
            yield f"{page.relative_to(TOP)}: {name}: the sources don't have this name"


def main():
    word = sys.argv[1].lower() if len(sys.argv) > 1 else ""
    sections, wrong, blocks = [], [], []
    for page in PAGES:
        found, layout = read_page(page)
        wrong += layout
        blocks += [block for section in found for block in section.blocks]
        named = [s for s in found if word in s.heading.lower() or s.heading == SETUP]
        sections += [s for s in named if s.commands()]
    wrong += [said for block in blocks if block.word in FILES for said in wrong_quotes(block)]
    others = [TOP / name for name in OTHERS]
    pages = others + sorted((TOP / "docs").glob("*.md")) + sorted((TOP / "docs/api").glob("*.md"))
    wrong += [link for page in pages for link in wrong_links(page)]
    wrong += [name for page in pages if page.name != PAST for name in wrong_names(page)]
    with tempfile.TemporaryDirectory() as scratch:
        went = try_sections(sections, Path(scratch))
    for said in wrong:
        print(said)
    counts = ", ".join(f"{sum(b.word == word for b in blocks)} {word}" for word in WORDS)
    print(f"blocks: {counts}; links of {len(pages)} pages")
    failed = len(wrong) + went.count(False)
    print(f"{went.count(True)} passed, {failed} failed")
    return 1 if failed else 0


if __name__ == "__main__":
    sys.exit(main())
