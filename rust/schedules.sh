#!/usr/bin/env bash
# Runs tests/schedules.rs: two threads stopped at each access that they share, under drawn schedules and under all of at most two
# switches. Then it plants faults in copies of the package, each of which the same test has to find.
#
#     rust/schedules.sh [SCHEDULES]
#
# It draws 10,000 schedules, or so many. It needs cargo and the sources of other packages as for check.sh. The last line is
# 'schedules: N passed, M failed'.
set -uo pipefail
. "$(dirname "$0")/common.sh"
export RUSTFLAGS='--cfg piper_schedules'

tries() { # FOLDER OF A PACKAGE
    (cd "$1" && timeout 900 bash -c "$(declare -f offline); sources='$sources'; offline test --release --test schedules \
        --target-dir '$room/target' -- --nocapture")
}

# The package, with what else the test wants: no other crate.
copy() { # NAME
    mkdir "$room/$1"
    cp -r "$here"/{src,tests} "$room/$1"
    rm "$room/$1"/tests/[!s]*.rs
    sed '/^\[dev-dependencies\]/,$d' "$here/Cargo.toml" > "$room/$1/Cargo.toml"
    echo '# The page is not packed here.' > "$room/$1/README.md"
}

loses_nothing() {
    copy whole
    PIPER_TEST_SCHEDULES=${1:-10000} tries "$room/whole" | tee "$room/whole.said"
    return "${PIPESTATUS[0]}"
}

# Plants a fault: each place of a text in a file becomes another. The test has to fail by a schedule.
finds() { # NAME FILE TEXT OTHER
    copy "$1"
    local file=$room/$1/src/$2 text
    text=$(< "$file")
    [[ $text == *"$3"* ]] || { echo "$2 has no $3"; return 1; }
    echo "${text//"$3"/"$4"}" > "$file"
    PIPER_TEST_SCHEDULES=2000 tries "$room/$1" 2>&1 | tee "$room/$1.said" | tail -n 40
    grep -qE '^(schedule [0-9]+|switches at [0-9]+, [0-9]+): ' "$room/$1.said"
}

fault() { # as `finds`
    holds "the fault '$1' is found" finds "$@"
}

holds "${1:-10000} drawn schedules" loses_nothing "$@"
grep -o '[0-9]* schedules of at most two switches' "$room/whole.said"
fault 'a side that registered does not look again' proved/piper/looks.rs 'Ok(side.look_again(purpose))' 'Ok(Look::NotReady)'
fault 'nobody is woken after a publish' proved/piper/calls.rs 'self.side.store_tail(n);
        wake_other(&mut self.side);' 'self.side.store_tail(n);'
fault 'a swap is two accesses' shim.rs 'unsafe { word(at) }.swap(value as _, order) as u64' \
    '{ let before = unsafe { load::<B>(at, order) }; unsafe { store::<B>(at, value, order) }; before }'
fault 'closed is loaded after the tail' proved/piper_ring/ends/slots/looks.rs 'let is_closed = self.load_closed();
        if !self.load_tail() {' 'let none = self.load_tail();
        let is_closed = self.load_closed();
        if !none {'
counted schedules
