#!/usr/bin/env bash
# Runs all tests, and each program as its stored run says, without any proof; the program piper_compare plays all
# stored scripts, and of wrong handles it is to tell that they differ. Of what fails it prints the output. It writes
# nothing into the repository.
set -eu
cd "$(dirname "$0")/.."
room=$(mktemp -d)
trap 'rm -rf "$room"' EXIT
export room

# The tests of a crate. The file NAME.tests.count says how many passed, and how many failed.
tests() {
    local said=$room/$1.tests passed failed
    (cd "crates/$1" && rt try --test --seconds 300) > "$said" 2>&1 < /dev/null || true
    read -r passed failed <<< "$(sed -n 's/^test result: .* \([0-9]*\) passed; \([0-9]*\) failed.*/\1 \2/p' "$said") "
    if [ "${failed:-0}" -eq 0 ] && ! { [ -n "$passed" ] && grep -q '^run=ended status=0 ' "$said"; }; then
        failed=1
    fi
    echo "${passed:-0} ${failed:-0}" > "$said.count"
}

# The stored run of a program: what it prints and its exit status, on its arguments, its input and its files.
stored_run() {
    local said=$room/$1.run folder=crates/$1 arguments=() data=() status=0 input=/dev/null file
    [ ! -f "$folder/args" ] || mapfile -t arguments < "$folder/args"
    [ ! -f "$folder/status" ] || status=$(cat "$folder/status")
    [ ! -f "$folder/stdin" ] || input=stdin
    for file in "$folder"/data/*; do
        [ ! -f "$file" ] || data+=(--data "${file##*/}=data/${file##*/}")
    done
    (cd "$folder" && rt try --seconds 300 "${data[@]}" -- "${arguments[@]}") > "$said.stdout" 2> "$said" < <(cd "$folder" && cat "$input") || true
    cat "$said.stdout" >> "$said"
    if grep -q "^run=ended status=$status " "$said" &&
        cmp -s "$said.stdout" "$( [ -f "$folder/stdout" ] && echo "$folder/stdout" || echo /dev/null)"; then
        echo 1 0 > "$said.count"
    else
        echo 0 1 > "$said.count"
    fi
}

# The program piper_compare, with these arguments, on handles that a mutant of a crate makes wrong: it is to end with
# status 1, and to print a line that begins so.
wrong_handles() { # CRATE MUTANT BEGINNING ARGUMENT..
    local said=$room/$2.${*: -1}.wrong copy=$room/$2.${*: -1} data=() file
    mkdir "$copy"
    tar c --exclude=./crates/*/out ./crates ./crates.txt ./HANDLES | tar x -C "$copy"
    tools/mutants plant "$1" "$2" "$copy"
    for file in crates/piper_compare/data/*; do
        data+=(--data "${file##*/}=data/${file##*/}")
    done
    (cd "$copy/crates/piper_compare" && rt try --seconds 300 "${data[@]}" -- "${@:4}") > "$said.stdout" 2> "$said" < /dev/null || true
    cat "$said.stdout" >> "$said"
    if grep -q '^run=ended status=1 ' "$said" && grep -q "^$3" "$said.stdout"; then
        echo 1 0 > "$said.count"
    else
        echo 0 1 > "$said.count"
    fi
}
export -f tests stored_run wrong_handles

{
    grep -rl --include='*.rt' '#\[test\]' crates/*/src | cut -d/ -f2 | sort -u | sed 's/^/tests /'
    ls crates/*/src/main.rt | cut -d/ -f2 | sed 's/^/stored_run /'
    echo 'wrong_handles piper consume_wakes_nobody seed twin 1 50'
    echo 'wrong_handles piper_ring len_answers_what_is_known 400.of.400.scripts vectors'
} | xargs -P "$(nproc)" -L 1 bash -c '"$@"' work

passed=0
failed=0
for count in "$room"/*.count; do
    read -r good bad < "$count"
    passed=$((passed + good))
    failed=$((failed + bad))
    if [ "$bad" -gt 0 ]; then
        said=${count%.count}
        echo "== ${said##*/}"
        grep -v ' \.\.\. ok$' "$said" | tail -40
    fi
done
echo "$passed passed, $failed failed"
[ "$failed" -eq 0 ]
