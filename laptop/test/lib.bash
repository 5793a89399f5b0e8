# What the test script is written in. Each check is one named case for one build of racklap, which
# $racklap names. A failing case prints the command that repeats it, to be given at the root.

tests=target/tools/laptop-test
work=$tests/work
golden=laptop/test/golden
passed=0
failed=0

# verdict NAME COMMAND PROBLEM: a case passes if its problem is empty.
verdict() {
    if [ -z "$3" ]; then
        passed=$((passed + 1))
    else
        failed=$((failed + 1))
        printf 'FAILED %s (%s)\n%s\nrepeat: %s\n' "$1" "${racklap##*/}" "$3" "$2"
    fi
}

# run_case COMMAND: leaves its status in $status and its output in $work/out and $work/err.
run_case() {
    bash -c "$1" > "$work/out" 2> "$work/err"
    status=$?
}

# difference STATUS OUT ERR: what differs in the last case from the wanted status and files.
difference() {
    [ "$status" -eq "$1" ] || echo "exit status $status, wanted $1"
    diff "$2" "$work/out" 2>&1
    diff "$3" "$work/err" 2>&1
}

# prints NAME STATUS COMMAND: standard output is the golden file NAME, standard error is empty.
prints() {
    run_case "$3"
    verdict "$1" "$3" "$(difference "$2" "$golden/$1" /dev/null)"
}

# prints_both NAME STATUS COMMAND: the golden files NAME and NAME.err.
prints_both() {
    run_case "$3"
    verdict "$1" "$3" "$(difference "$2" "$golden/$1" "$golden/$1.err")"
}

# refuses NAME STATUS LINE COMMAND: nothing on standard output, one line on standard error.
refuses() {
    run_case "$4"
    echo "racklap: $3" > "$work/wanted"
    verdict "$1" "$4" "$(difference "$2" /dev/null "$work/wanted")"
}

# succeeds NAME COMMAND: exit status 0; whatever it prints otherwise is the problem.
succeeds() {
    run_case "$2"
    local problem=
    [ "$status" -eq 0 ] || problem="exit status $status $(cat "$work/out" "$work/err")"
    verdict "$1" "$2" "$problem"
}
