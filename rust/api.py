#!/usr/bin/env python3
"""Writes the table of rust/README.md: each public item of piper 0.2.5 that this package has otherwise, or that it has beside.

    rust/api.py FOLDER

FOLDER has a package with the sources of 0.2.5. The items are those that rustdoc prints as JSON, which takes
RUSTC_BOOTSTRAP: functions, constants, structs, methods with their types, impls, and auto traits. CARGO_SOURCES
is that of check.sh.
"""
import json
import os
import subprocess
import sys
import tempfile
from pathlib import Path

HERE = Path(__file__).resolve().parent
PAGE = HERE / "README.md"
SOURCES = os.environ.get("CARGO_SOURCES", "/usr/share/cargo/registry")
# No stable program can name these.
NOT_NAMED = ("Freeze", "UnsafeUnpin")
BEGIN, END = "<!-- rust/api.py writes from here -->\n", "<!-- to here -->\n"


def read(folder):
    """What rustdoc says of a package."""
    with tempfile.TemporaryDirectory() as target:
        subprocess.run(
            ["cargo", "--offline", "--config", "source.crates-io.replace-with='here'",
             "--config", f"source.here.directory='{SOURCES}'", "rustdoc", "--quiet", "--lib",
             "--target-dir", target, "--", "-Zunstable-options", "--output-format", "json"],
            cwd=folder, check=True, env={**os.environ, "RUSTC_BOOTSTRAP": "1"},
        )
        return json.loads((Path(target) / "doc/piper.json").read_text())


def arguments(given):
    found = (given or {}).get("angle_bracketed", {}).get("args", [])
    shown = [type_(it["type"]) if "type" in it else it.get("lifetime", "_") for it in found]
    return f"<{', '.join(shown)}>" if shown else ""


def bound(it):
    trait = it["trait_bound"]["trait"]
    return trait["path"].split("::")[-1] + arguments(trait["args"])


def type_(it):
    """A type as Rust has it."""
    kind, value = next(iter(it.items()))
    if kind in ("primitive", "generic"):
        return value
    if kind == "resolved_path":
        return value["path"].split("::")[-1] + arguments(value["args"])
    if kind == "borrowed_ref":
        return "&" + ("mut " if value["is_mutable"] else "") + type_(value["type"])
    if kind == "slice":
        return f"[{type_(value)}]"
    if kind == "tuple":
        return "(" + ", ".join(type_(part) for part in value) + ")"
    if kind == "impl_trait":
        return "impl " + " + ".join(bound(part) for part in value)
    raise SystemExit(f"api.py: a type of the kind {kind}")


def signature(function):
    given = ", ".join(f"{name}: {type_(it)}" for name, it in function["sig"]["inputs"])
    given = given.replace("self: &mut Self", "&mut self").replace("self: &Self", "&self")
    result = function["sig"]["output"]
    return f"({given})" + (f" -> {type_(result)}" if result else "")


def items(said):
    """Each public item, and what there is to say of it."""
    index, found = said["index"], {}
    for at in index[str(said["root"])]["inner"]["module"]["items"]:
        item = index[str(at)]
        if "use" in item["inner"]:
            item = index[str(item["inner"]["use"]["id"])]
        name, inner = item["name"], item["inner"]
        if "function" in inner:
            found[f"`{name}`"] = signature(inner["function"])
        elif "constant" in inner:
            found[f"`{name}`"] = type_(inner["constant"]["type"])
        for made in (index[str(it)] for it in inner.get("struct", {}).get("impls", [])):
            block = made["inner"]["impl"]
            trait = block["trait"]
            if block["blanket_impl"] or trait and trait["path"] in NOT_NAMED:
                continue
            if trait:
                shown = trait["path"].split("::")[-1] + arguments(trait["args"])
                found[f"`{name}: {shown}`"] = "no" if block["is_negative"] else "yes"
                continue
            for method in (index[str(it)] for it in block["items"]):
                if method["visibility"] == "public":
                    found[f"`{name}::{method['name']}`"] = signature(method["inner"]["function"])
    return found


def code(text):
    return text if text in ("yes", "no", "-") else f"`{text}`"


def table(theirs, ours):
    names = sorted({**theirs, **ours}, key=lambda it: (":: " in it, it))
    other = [name for name in names if theirs.get(name, "no") != ours.get(name, "no")]
    rows = [f"| {name} | {code(theirs.get(name, 'no'))} | {code(ours.get(name, 'no'))} |" for name in other]
    alike = f"{len(names) - len(other)} items are the same, and {len(other)} are not:"
    return "\n".join([alike, "", "| Item | 0.2.5 | here |", "|---|---|---|", *rows]) + "\n"


def main(words):
    if len(words) != 1:
        print(__doc__, file=sys.stderr)
        return 2
    text = PAGE.read_text()
    before, rest = text.split(BEGIN)
    after = rest.split(END)[1]
    made = table(items(read(Path(words[0]).resolve())), items(read(HERE)))
    PAGE.write_text(before + BEGIN + "\n" + made + "\n" + END + after)
    print(made.split("\n")[0])
    return 0


if __name__ == "__main__":
    sys.exit(main(sys.argv[1:]))
