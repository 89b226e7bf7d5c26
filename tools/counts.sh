# shellcheck shell=bash
# Counting of tests, for test and for its own tests. To be sourced.
passed=0 failed=0 skipped=0 skips=()

# STATUS LOG PATTERN NAME: adds what a log counts to the totals. The pattern has the two numbers, passed and failed; a
# line with 'SKIPPED: ' is of a test among the passed ones that tested nothing. A run that failed and counted no failure
# counts as one, and so does a run that counted nothing.
count() {
    local status=$1 log=$2 pattern=$3 name=$4 good bad what all=0 wrong=0
    while read -r good bad; do
        passed=$((passed + good)) all=$((all + good + bad)) wrong=$((wrong + bad))
    done < <(sed -nE "s/$pattern/\1 \2/p" "$log")
    while IFS= read -r what; do
        passed=$((passed - 1)) skipped=$((skipped + 1)) skips+=("$what")
    done < <(sed -nE 's/.*SKIPPED: (.*)/\1/p' "$log")
    if [ "$all" -eq 0 ]; then
        echo "$name: it counted no test"
        wrong=1
    elif [ "$status" -ne 0 ] && [ "$wrong" -eq 0 ]; then
        echo "$name: it ended with status $status"
        wrong=1
    fi
    failed=$((failed + wrong))
}

# LOG: whether rt ci says there that all is well, and of the must-fail edits how many are refused and none that is bad. A
# bad edit, which cannot be applied or read, shows nothing of a contract; rt ci says how many there are and passes.
no_bad_edits() {
    local line
    line=$(grep '^rt: ok;' "$1" | tail -n 1)
    [[ $line =~ '; must-fail edits: '[0-9]+' refused'([^;]*) ]] || return
    [[ ! ${BASH_REMATCH[1]} =~ [1-9][0-9]*' bad' ]]
}

# NAME COMMAND...: one test, which passes where the command succeeds.
check() {
    local name=$1
    shift
    if "$@"; then
        passed=$((passed + 1))
    else
        failed=$((failed + 1))
        echo "FAILED: $name"
    fi
}

# Says what was skipped, then the totals in one line; succeeds where something passed and nothing failed.
totals() {
    local what
    for what in "${skips[@]}"; do echo "skipped: $what"; done
    if [ "$skipped" -gt 0 ]; then
        echo "$passed passed, $failed failed, $skipped skipped"
    else
        echo "$passed passed, $failed failed"
    fi
    [ "$failed" -eq 0 ] && [ "$passed" -gt 0 ]
}
