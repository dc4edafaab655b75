#!/usr/bin/env python3
"""Says whether evidence can be had without the call that gives it, and whether code is unsafe that
need not be.

A sealed definition of specs/ holds of anything, and no proof can look into it: so it is evidence that a
certain call was made. The lemma that gives it is for the proof of that call alone. Reported are

- each use of such a lemma elsewhere,
- each declaration that looks into a sealed definition, or uses such a lemma beside one, and that the
  table below doesn't have,
- each sealed definition that any proof can look into, or that nothing gives, and
- each `unsafe` in a crate that has no need of it.
"""
import re
import sys
from pathlib import Path

TOP = Path(__file__).resolve().parent.parent


def of_sides(*calls):
    """The proofs of these calls of a side of the ring, which reader and writer share."""
    return [f"piper_ring/proofs/ends/slots/side/Side/{call}" for call in calls]


FINISHES = [f"piper_ring/proofs/ends/slots/{side}+T/finish" for side in ("reader/Side+ReadEnd", "writer/Side+WriteEnd")]

# each lemma, the specs that have it, and the proofs that may use it
SEALS = {
    "as_reported": ("piper_protocol/specs/Reported", ["piper_protocol/proofs/reported/reported"]),
    "as_failure": ("piper_protocol/specs/Reported", ["piper_protocol/proofs/reported/reported"]),
    "as_failed": (
        "piper_protocol/specs/Reported",
        [
            "piper_protocol/proofs/memory/OutOfMemoryFromAllocError/from",
            "piper/proofs/error/PipeErrorFromAllocError/from",
            "piper_ring/proofs/ring/memory/Memory/claim",
        ],
    ),
    "as_published": ("piper_ring/specs/Loads", ["piper_ring/proofs/ring/seats/ReadSeat/load_tail"]),
    "as_consumed": ("piper_ring/specs/Loads", ["piper_ring/proofs/ring/seats/WriteSeat/load_head"]),
    "as_closed": (
        "piper_ring/specs/Loads",
        [f"piper_ring/proofs/ring/seats/{seat}/load_closed" for seat in ("ReadSeat", "WriteSeat")],
    ),
    "as_put": ("piper_ring/specs/Loads", of_sides("register")),
    "as_taken_back": ("piper_ring/specs/Loads", of_sides("cancel", "register", "take_back", "take_own")),
    "as_taken": ("piper_ring/specs/Loads", of_sides("take") + FINISHES),
    "as_gone": (
        "piper_ring/specs/Loads",
        [f"piper_ring/proofs/ring/seats/{seat}/leave" for seat in ("ReadSeat", "WriteSeat")],
    ),
    "as_lying": ("piper_ring/specs/Loads", ["piper_ring/proofs/ring/remains/Remains/into_parts"]),
    "as_called": ("piper/specs/Called", ["piper/proofs/handles/waiting/call"]),
    "as_let_go": ("piper/specs/Called", ["piper/proofs/handles/waiting/let_go"]),
    "as_asked": ("piper/specs/Contexts", ["piper/proofs/handles/waiting/ask"]),
    "as_read": ("piper/specs/StdEnds", ["piper/proofs/like/std_ends/std_read"]),
    "as_written": ("piper/specs/StdEnds", ["piper/proofs/like/std_ends/std_write"]),
    "as_flushed": ("piper/specs/StdEnds", ["piper/proofs/like/std_ends/std_flush"]),
    "as_stepped": (
        "piper_ring/specs/Log",
        ["piper/proofs/handles/waiting/call", "piper/proofs/handles/draws/ask_again"],
    ),
    "as_lost": ("piper_duplex/specs/Failures", ["piper_duplex/proofs/engine/lost/lost"]),
    "as_had_seen": ("piper_futures/specs/Threads", ["piper_futures/proofs/threads/closed_by_writer"]),
    "as_failed_with": ("piper_futures/specs/Threads", ["piper_futures/proofs/threads/wait_for"]),
    "as_wait_failed": ("piper_futures/specs/Threads", ["piper_futures/proofs/threads/wait_for"]),
}

# The crates that hold memory which two threads share.
UNSAFE = {"piper_cells", "piper_ring"}

DECLARES = re.compile(r"^((?:(?:abbrev|unfoldable|opaque|pub)\s+)*)([^\s:(){}]+)\s*:(?=\s)", re.M)
HOLDS_OF_ALL = re.compile(r"^([^\s(]+)((?: [a-z]\w*)*) = ⊤$", re.M)


def without_comments(text):
    return re.sub(r"--[^\n]*|//[^\n]*|/\*.*?\*/", "", text, flags=re.S)


def declarations(path):
    """Each declaration of a file, as (its marks, its name, its text)."""
    text = without_comments(path.read_text())
    found = list(DECLARES.finditer(text))
    ends = [it.start() for it in found[1:]] + [len(text)]
    return [(it[1].split(), it[2], text[it.start():end]) for it, end in zip(found, ends)]


def sources():
    """Each file of antt, with its path below crates/ and its declarations."""
    for path in sorted((TOP / "crates").glob("*/[sp][pr]*/**/*.antt")):
        yield str(path.relative_to(TOP / "crates").with_suffix("")), declarations(path)


def equations(name, text):
    return re.findall(rf"^{re.escape(name)}(?= |$)(?! :).*", text, re.M)


def sealed(files):
    """The definitions that hold of anything, each with its file and its marks."""
    for path, declared in files:
        for marks, name, text in declared:
            if "/specs/" in path and HOLDS_OF_ALL.search(text) and len(equations(name, text)) == 1:
                yield name, path, marks


def wrong_seals(files):
    """What is wrong with the definitions themselves, and with who gives them."""
    homes = {name: path for name, path, _marks in sealed(files)}
    for name, path, marks in sealed(files):
        if "abbrev" in marks or "unfoldable" in marks:
            yield f"{path}: any proof can look into {name}"
    given = set()
    for path, declared in files:
        for _marks, name, text in declared:
            opened = {it for line in re.findall(r"^\s*unfolding (.*)", text, re.M) for it in line.split()}
            opened = {it.split(".")[-1] for it in opened} & homes.keys()
            given |= opened
            lemmas = set(re.findall(r"[\w-]+", text)) & SEALS.keys() - {name}
            if (opened or "/specs/" in path and lemmas) and SEALS.get(name, ("",))[0] != path:
                yield f"{path}: {name} gives {', '.join(sorted(opened | lemmas))}, and is not in this tool's table"
    for name in sorted(homes.keys() - given):
        yield f"{homes[name]}: nothing gives {name}, which holds of anything"


def wrong_unsafe():
    for path in sorted((TOP / "crates").glob("*/src/**/*.rt")):
        crate = path.relative_to(TOP / "crates").parts[0]
        if crate not in UNSAFE and re.search(r"\bunsafe\b", without_comments(path.read_text())):
            yield f"{path.relative_to(TOP)}: unsafe code in a crate that has no need of it"


def uses():
    """Each source, spec or proof with a lemma of these in it, as (lemma, path below crates/)."""
    for path in sorted((TOP / "crates").glob("*/[sp]*/**/*.*t")):
        words = set(re.findall(r"[\w-]+", path.read_text()))
        for lemma in sorted(words & SEALS.keys()):
            yield lemma, str(path.relative_to(TOP / "crates").with_suffix(""))


def main():
    wrong, seen = [], set()
    for lemma, path in uses():
        home, proofs = SEALS[lemma]
        if path == home or str(Path(path).parent) in proofs:
            seen.add((lemma, path))
        else:
            wrong.append(f"{path} uses {lemma}")
    missing = [lemma for lemma, (home, _proofs) in SEALS.items() if (lemma, home) not in seen]
    wrong += [f"{lemma} is not where this tool looks for it" for lemma in missing]
    files = list(sources())
    wrong += [*wrong_seals(files), *wrong_unsafe()]
    print("\n".join(wrong + [f"{len(SEALS)} lemmas that give evidence, {len(wrong)} wrong"]))
    return 1 if wrong else 0


if __name__ == "__main__":
    sys.exit(main())
