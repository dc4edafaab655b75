"""What a check says of a mutant: the functions that it lies in, whose messages are of it, and its verdict."""
import re
from pathlib import Path
from typing import NamedTuple

REFUSED, GAVE_UP, UNFIT = "refused at ", "the search gave up at ", "no longer fits: "
PROVED, UNREAD = "proved", "not read by the prover"
KINDS = {REFUSED: "refused by a clause", GAVE_UP: "the search gave up", UNFIT: "only a proof file no longer fits",
         PROVED: "PROVED", UNREAD: "NOT READ by the prover"}

BEGINS = re.compile(r"\s*(?:pub(?:\([^)]*\))? )?(?:const )?(?:unsafe )?(?:extern \"C\" )?fn (\w+)")
MESSAGE = re.compile(r"(?:note: )?(?:\./)?([^\s:]+):(\d+):\d+: (.*)")
GOAL = re.compile(r"\(`([^`\s]+)`.*?\)")


def kind(verdict):
    return next(it for it in KINDS if verdict.startswith(it))


class Function(NamedTuple):
    """A function by its file, its name, and its first and last line."""
    file: str
    name: str
    first: int
    last: int

    def proofs(self):
        """The folder of the proof files of its module."""
        return "proofs/" + self.file.removeprefix("src/").removesuffix(".rt") + "/"

    def has(self, file, line):
        """Whether a message at this place is of this function, or of a proof file of it."""
        if file.startswith("proofs/"):
            return file.startswith(self.proofs()) and Path(file).parent.name == self.name
        return file == self.file and self.first <= int(line) <= self.last


def function_at(folder, file, old):
    """The function whose body has this text, or None if no body has it."""
    text = (folder / file).read_text()
    lines, line = text.split("\n"), text[:text.index(old)].count("\n")
    first = next((it for it in range(line, -1, -1) if BEGINS.match(lines[it])), None)
    if first is None or not file.startswith("src/"):
        return None
    indent = re.match(" *", lines[first])[0]
    body = next((it for it in range(first, line) if lines[it].endswith("{")
                 and (it == first or lines[it].startswith((indent + "{", indent + ")")))), None)
    last = next((it for it in range(first, len(lines)) if lines[it] == indent + "}"), -1)
    return None if body is None or last < line else Function(file, BEGINS.match(lines[first])[1], first + 1, last + 1)


def functions_of(mutant, folder):
    """The functions in whose bodies a mutant lies, or None if a part of it lies elsewhere."""
    try:
        found = {function_at(folder, file, old) for file, old, _new in mutant.changes}
    except (ValueError, OSError):  # a change of what another change makes
        return None
    return None if None in found else found


def apart(mutants, folder, most):
    """The first of these mutants of a crate, by their keys, and those after it that lie in other functions, each of which is proved
    from its own body and from the contracts of what it calls. One that lies in no body is alone, with None."""
    group, names = {}, set()
    for key, mutant in mutants.items():
        functions = functions_of(mutant, folder)
        if not group and functions is None:
            return {key: None}
        # Folders of proof files of two functions of one name differ by their types alone: they count as one.
        its = {(it.file, it.name) for it in functions or ()}
        if its and len(group) < most and names.isdisjoint(its):
            group[key] = functions
            names |= its
    return group


def clause_of(goal):
    """The clause of which a goal is a part, as `clause:` has it."""
    name = goal.rpartition("-clause-")[2] if "-clause-" in goal else ""
    if goal.startswith("returns"):
        return name or "ensures"
    callee, requires, _ = goal.partition("-requires")
    if requires:
        return f"{name or 'requires'} of {callee}"
    return "loop" if goal.startswith("loop-") else "invariant" if goal.startswith("invariant_of") else goal


def verdict_from(lines, passes, mutant, functions):
    """What a check says of a mutant: all that it prints, or what is of the functions that the mutant lies in. None if nothing,
    as if the prover was killed."""
    if passes:
        return PROVED
    told = [it for it in map(MESSAGE.match, lines) if it]
    if not any(line.startswith("logic=not-proved") for line in lines):
        return UNREAD if functions is None and any(it[3].startswith("error") for it in told) else None
    messages = [it for it in told if functions is None or any(of.has(it[1], it[2]) for of in functions)]
    goals = [(found[1], it[1], "gave up" in it[3]) for it in messages if it[1].startswith("src/") and (found := GOAL.search(it[3]))]
    if goals:
        # First those that the search didn't give up, then the clause that is meant.
        goal, file, gave_up = min(goals, key=lambda it: (it[2], clause_of(it[0]) != mutant.clause))
        return f"{GAVE_UP if gave_up else REFUSED}{goal} of {file}"
    unfit = [it[1] for it in messages if it[1].startswith("proofs/") and it[3].startswith("error")]
    if unfit:
        return UNFIT + unfit[0]
    return UNREAD if functions is None else None
