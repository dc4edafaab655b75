# What the scripts of this folder share; each sources it.
here=$(cd "$(dirname "${BASH_SOURCE[0]}")" && pwd)
# The sources of other packages, as Debian has them.
sources=${CARGO_SOURCES:-/usr/share/cargo/registry}
room=$(mktemp -d)
trap 'rm -rf "$room"' EXIT
passed=0
failed=0

# The options stand behind the command's name, since `cargo clippy` hands on none that stand before it.
offline() { # COMMAND, and what else it takes
    cargo "$1" --offline --config "source.crates-io.replace-with='here'" --config "source.here.directory='$sources'" "${@:2}"
}

# Writes the manifest of a package of its own, named as its folder, with the lines that are given.
manifest() { # FOLDER LINE..
    mkdir -p "$1/src"
    printf '%s\n' '[package]' "name = \"${1##*/}\"" 'version = "0.1.0"' 'edition = "2021"' "${@:2}" > "$1/Cargo.toml"
}

# Ends a script that lacks something, before it has tried anything.
refuse() { # MESSAGE
    echo "${0##*/}: $1; nothing was tried" >&2
    exit 2
}

# Prints the head of the script that calls it, which says how it is called.
usage() {
    sed -n '2,/^[^#]/s/^# \?//p' "$0" >&2
    exit 2
}

# Counts what either holds or not, and shows what was printed if it doesn't.
holds() { # NAME COMMAND..
    local name=$1
    shift
    if "$@" > "$room/said" 2>&1; then
        echo "$name: passed"
        passed=$((passed + 1))
    else
        cat "$room/said"
        echo "$name: FAILED"
        failed=$((failed + 1))
    fi
}

# The last line, and the status.
counted() { # NAME
    echo "$1: $passed passed, $failed failed"
    [ "$failed" -eq 0 ]
}
