"""Excerpts of crates whose tests the gate runs: some lines of use for a call or a type."""
import re
from functools import cache

from .sources import TOP

# For each crate, where its examples are, in the order in which they are looked at.
FILES = {
    "piper": ["tests_pipe/src/examples/handles", "tests_pipe/src/examples/ends",
              "tests_pipe/src/examples/streams", "tests_pipe/src/marks"],
    "piper_ring": ["tests_pipe/src/ring/acts", "tests_pipe/src/ring/one_thread"],
    "piper_lines": ["tests_pipe/src/examples/lines", "tests_pipe/src/examples/frames"],
    "piper_futures": ["tests_above/src/futures_and_streams/methods",
                      "tests_above/src/futures_and_streams/owning",
                      "tests_above/src/futures_and_streams/threads",
                      "tests_above/src/futures_and_streams/joined",
                      "tests_above/src/futures_and_streams/crossing",
                      "tests_above/src/futures_and_streams/texts",
                      "tests_above/src/futures_and_streams/running",
                      "tests_above/src/futures_and_streams/asleep"],
    "piper_duplex": ["tests_pipe/src/examples/duplex", "tests_above/src/duplex/ends"],
    "piper_transfer": ["tests_above/src/transfers/faults", "tests_above/src/transfers/waits",
                       "tests_above/src/transfers/errors"],
    "piper_tokio": ["tests_above/src/over_tokio/copies", "tests_above/src/over_tokio/codecs",
                    "tests_above/src/over_tokio/ends"],
}
# Where calls of a trait are made on any type that has it.
OF_TRAITS = ["tests_pipe/src/examples/streams"]
# The functions there that return two ends, and the types of these.
PAIRS = dict.fromkeys(("duplex", "duplex_with_seed"), ("End", "End"))
PAIRS |= dict.fromkeys(("pipe", "pipe_with_seed", "pipe_at_last", "holding", "small"), ("Reader", "Writer"))
# What a value of a type looks like there, if it is no variable whose type its function says.
LOOKS = {"LineAnswer": "told", "LengthBytes": r"\.encode\(\w+\)", "Side": r"meter\.(?:input|output)",
         "ReadEnd": r"reader\.end", "WriteEnd": r"writer\.end"}
# The types that have another name there.
ALSO = {"PieceSink": ("FrameSink", "LineSink", "WriteSink")}
MADE = r"(?:sends\(&rt, )?([A-Z]\w*)\b"
LEAST, NEAR, MOST = 3, 9, 14


@cache
def functions(path):
    """The functions of a file: each its name, the number of its first line, and its lines."""
    lines, found = (TOP / path).read_text().splitlines(), []
    for start, line in enumerate(lines):
        head = re.match(r"(?:pub(?:\(crate\))? )?fn (\w+)", line)
        if head:
            end = next(i for i in range(start, len(lines)) if lines[i] == "}")
            found.append((head[1], start, lines[start:end + 1]))
    return found


def statements(lines):
    """The statements of a function's body, each from a line to before another."""
    first = next(i for i, line in enumerate(lines) if line == "{" or line.endswith(" {"))
    starts = [i for i in range(first + 1, len(lines) - 1)
              if re.match(r"    [^\s})\].]", lines[i])]
    return list(zip(starts, [*starts[1:], len(lines) - 1]))


def window(lines, line):
    """The statement that has this line, with what makes its variables, and with neighbours until there
    are some lines."""
    parts = statements(lines)
    at = next((i for i, (a, b) in enumerate(parts) if a <= line < b), None)
    if at is None:
        return None
    used = set(re.findall(r"\w+", "\n".join(lines[parts[at][0]:parts[at][1]])))
    low = high = at
    for before in range(at - 1, -1, -1):
        made = re.match(r"    let (?:mut )?(\w+) ", lines[parts[before][0]])
        if made and made[1] in used and parts[high][1] - parts[before][0] <= NEAR:
            low = before
    while parts[high][1] - parts[low][0] < LEAST and (low > 0 or high + 1 < len(parts)):
        if low > 0 and (high + 1 == len(parts) or low == at):
            low -= 1
        else:
            high += 1
    return parts[low][0], parts[high][1]


def code_of(lines):
    """The text of these lines without comments, and with empty strings."""
    return re.sub(r'"(?:\\.|[^"\\])*"|//.*', lambda found: '""' if found[0][0] == '"' else "", "\n".join(lines))


def type_of(variable, above):
    """The type of a variable, as the code above its use says: a parameter's, or that of what made it."""
    found = None
    parameter = rf"\b{variable}: (?:&(?:'\w+ )?)?(?:mut )?(?P<type>\w+)"
    for one in re.finditer(rf"\blet \(?(?P<names>[\w, ]+)\)?(?:: [^=]+)? = (?P<made>[^;]*)|{parameter}", above):
        if one["type"]:
            found = one["type"]
            continue
        names = [name.removeprefix("mut ") for name in one["names"].split(", ")]
        if variable in names:
            by = re.match(r"\w+", one["made"])
            first = re.match(MADE, one["made"])
            pair = re.match(rf"\({MADE}.*\), {MADE}", one["made"])
            types = PAIRS.get(by[0], ()) if by else pair.groups() if pair else ()
            types = types if len(names) == 2 else first.groups() if first else ()
            found = types[names.index(variable)] if types else None
    return found


def uses(path, lines, owner, name, trait=None, is_static=False):
    """The numbers of the lines of a function that use a call or a type. A method is of its owner, or else of anything with
    the trait, in a file that names it."""
    code = code_of(lines)
    above = "\n".join(line for line in (TOP / path).read_text().splitlines() if line.startswith("const "))
    if trait:
        places = re.finditer(rf"\.{name}\(", code) if re.search(rf"\b{trait}\b", (TOP / path).read_text()) else []
    elif not owner:
        is_call = re.match("[a-z]", name)
        places = re.finditer(rf"(?<![\w.:]){name}\(" if is_call else rf"(?<![\w:]){name}\b ?[({{:]", code)
    elif is_static:
        places = re.finditer(rf"\b{owner}(?:::<[^>]*>)?::{name}\(", code)
    else:
        held = (owner, *ALSO.get(owner, ()))
        looks = rf"(?P<looks>{LOOKS[owner]})" if owner in LOOKS else rf"(?P<looks>\b{owner}::\w+\([^()]*\))"
        call = rf"(?:{looks}|\b(?P<it>\w+))\.{name}\(" + (r"|\bdrop\((?P<let_go>\w+)\)" if name == "drop" else "")
        places = (one for one in re.finditer(call, code) if one["looks"] or type_of(
            one["it"] or one["let_go"], above + "\n" + code[:one.start()]) in held)
    return [code[:one.end()].count("\n") for one in places]


def excerpt(crate, owner, name, trait=None, is_static=False):
    """Lines that use a call or a type, where they stand, and whether they are of anything with the call's trait."""
    files = FILES.get(crate, [])
    if owner and owner == trait:
        return search(files + OF_TRAITS, owner, name, trait)
    is_call = not owner and re.match("[a-z]", name)
    found = search([file for file in files if not is_call or not file.endswith("texts")], owner, name, is_static=is_static)
    if not found and trait:
        found = search(OF_TRAITS, owner, name, trait)
        return (*found[:2], True) if found else None
    if not found and is_call and crate == "piper_futures":  # each is also a call of an end
        return search(files, "", name, r"\w+Ext")
    return found


def search(files, owner, name, trait=None, is_static=False):
    """The best lines of some files: of a function with this name, or else the first."""
    found = []
    for order, file in enumerate(files):
        path = f"crates/{file}.rt"
        for called, start, lines in functions(path):
            parts = [window(lines, line) for line in uses(path, lines, owner, name, trait, is_static)]
            part = next(filter(None, parts), None)
            if part and part[1] - part[0] <= MOST:
                kept = [line[4:] for line in lines[part[0]:part[1]]]
                if len([line for line in kept if line]) < LEAST:
                    part, kept = (0, 0), lines
                found.append((not re.search(rf"(?:^|_and_){name}(?:_and_|$)", called), order, start, path, kept, part[0]))
    if not found:
        return None
    _named, _order, start, path, lines, first = min(found)
    while lines and not lines[-1]:
        lines.pop()
    return lines, f"{path}#L{start + first + 1}", False
