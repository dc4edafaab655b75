# What the scripts here share that try built programs. Whoever reads it runs in a folder of its own, and ends with `count`.
passed=0
failed=0

# Notes whether a case went as it is to.
note() { # NAME, and a command that tells
    local name=$1
    shift
    if "$@"; then
        passed=$((passed + 1))
        echo "passed: $name"
    else
        failed=$((failed + 1))
        echo "FAILED: $name"
    fi
}

# Runs a command line of the shell, and compares its exit status and what it tells on standard error.
try() { # NAME SECONDS STATUS PATTERN COMMAND
    timeout "$2" bash -c "$5" 2> told > out
    local status=$?
    if [ "$status" -eq "$3" ] && { [ -z "$4" ] || grep -q -- "$4" told; }; then
        note "$1" true
    else
        note "$1: status $status and '$(head -c 200 told)', not $3 and '$4'" false
    fi
}

# The same, where nothing is told.
try_silent() { # NAME SECONDS STATUS COMMAND
    try "$1" "$2" "$3" '' "$4"
    note "$1, silently" test ! -s told
}

lines() { # so many bytes, in lines of 23
    yes '22 letters and an end..' | head -c "$1"
}
export -f lines

# Prints how many cases passed, and fails if one did not.
count() {
    echo "$passed passed, $failed failed"
    [ "$failed" -eq 0 ]
}
