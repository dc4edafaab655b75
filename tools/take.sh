#!/usr/bin/env bash
# Takes crates into a repository of one's own: tools/take.sh CRATE.. FOLDER copies the crates and those of this repository
# that they depend on into FOLDER/crates, adds their lines to FOLDER/crates.txt, writes HANDLES there if it has none,
# and says what was copied. A crate that is there already, as it is here, is passed over. FOLDER is made where
# there is none. What is refused is named, and nothing is written then.
set -eu
here=$(cd "$(dirname "$0")/.." && pwd)

refuse() {
    echo "take.sh: $1" >&2
    exit 1
}

[ $# -ge 2 ] || refuse "usage: tools/take.sh CRATE.. FOLDER"
wanted=("${@:1:$#-1}")
folder=${!#}

# The line of a crate in a crates.txt: its name may be followed by words of its own before the colon.
line_of() {
    awk -v name="$1" '{ word = $1; sub(/:.*/, "", word); if (word == name) print }' "$2"
}

for crate in "${wanted[@]}"; do
    [[ "$crate" =~ ^[a-z][a-z0-9_]*$ ]] && [ -n "$(line_of "$crate" "$here/crates.txt")" ] ||
        refuse "there is no crate $crate; crates.txt lists those that there are"
done
[ ! -e "$folder" ] || [ -d "$folder" ] || refuse "$folder is no folder"
folder=$(realpath -m "$folder")
[ "$folder" != "$here" ] || refuse "$folder is the repository that is copied from"

# The crates of this repository that it builds on, each after those that it builds on itself.
crates=()
visit() {
    local below
    [[ " ${crates[*]} " != *" $1 "* ]] || return 0
    for below in $(line_of "$1" "$here/crates.txt" | sed 's/^[^:]*://'); do
        [ -z "$(line_of "$below" "$here/crates.txt")" ] || visit "$below"
    done
    crates+=("$1")
}
for crate in "${wanted[@]}"; do visit "$crate"; done

# Whether the crate is in the folder as it does here.
is_there() {
    [ -d "$folder/crates/$1" ] && diff -rq --exclude=out "$here/crates/$1" "$folder/crates/$1" > /dev/null &&
        [ "$(line_of "$1" "$here/crates.txt")" = "$(line_of "$1" "$folder/crates.txt")" ]
}

# Everything that could refuse is checked before the first file is written.
missing=()
for name in "${crates[@]}"; do
    ! is_there "$name" || continue
    [ ! -e "$folder/crates/$name" ] || refuse "$folder has another crate $name already"
    [ ! -f "$folder/crates.txt" ] || [ -z "$(line_of "$name" "$folder/crates.txt")" ] ||
        refuse "$folder/crates.txt lists a crate $name already"
    missing+=("$name")
done
[ ! -e "$folder/HANDLES" ] || cmp -s "$here/HANDLES" "$folder/HANDLES" ||
    refuse "$folder/HANDLES is not '$(cat "$here/HANDLES")', which these crates need"

mkdir -p "$folder/crates"
[ -e "$folder/HANDLES" ] || { cp "$here/HANDLES" "$folder/HANDLES"; echo "HANDLES: $(cat "$here/HANDLES")"; }
# A last line with no line feed would run together with the first that is added.
[ ! -s "$folder/crates.txt" ] || [ -z "$(tail -c 1 "$folder/crates.txt")" ] || echo >> "$folder/crates.txt"
for name in "${missing[@]}"; do
    (cd "$here/crates" && tar -c --exclude=out "$name") | tar -x -C "$folder/crates"
    line_of "$name" "$here/crates.txt" >> "$folder/crates.txt"
    line_of "$name" "$here/crates.txt"
done
echo "copied ${#missing[@]} crates into $folder/crates"
