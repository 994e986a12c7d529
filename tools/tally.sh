# What the tests in shell share: a tally, as tools/tally.py has it, of the test that PART names.
# shellcheck shell=sh
passed=0
failed=0
skipped=0

# skip WHAT-AND-WHY: counts what can't be tried, and says what is missing.
skip() {
    skipped=$((skipped + 1))
    echo "skipped: $PART, $1"
}

# verdict WHAT STATUS: counts a test by its status.
verdict() {
    if [ "$2" = 0 ]; then passed=$((passed + 1)); else failed=$((failed + 1)); echo "$1 failed"; fi
}

# part WHAT COMMAND ..: runs a test, and counts it.
part() {
    what=$1
    shift
    echo "-- $what"
    "$@"
    verdict "$what" $?
}

# has_rust MINOR: whether cargo and rustc are here, in this version of Rust 1 or a later one.
has_rust() {
    minor=$(rustc --version 2> /dev/null | sed -n 's/^rustc 1\.\([0-9]*\)\..*/\1/p')
    [ "${minor:-0}" -ge "$1" ] && command -v cargo > /dev/null
}

# Prints the last line, and ends the test.
close() {
    echo "$passed passed, $failed failed, $skipped skipped"
    [ "$failed" = 0 ]
    exit
}
