# What the scripts beside this one share. Sourced with the program's name in `program`.
set -u
cd "$(dirname "${BASH_SOURCE[0]}")/.."
passed=0
failed=0

# expect TEXT STATUS OUTPUT ERROR
expect() {
    local out err status
    err=$(mktemp)
    out=$(printf "$1" | "crates/$program/out/$program" 2> "$err"; echo "status $?")
    status=${out##*status }
    out=${out%status *}
    if [ "$status" = "$2" ] && [ "$out" = "$3" ] && [ "$(cat "$err")" = "$4" ]; then
        passed=$((passed + 1))
    else
        failed=$((failed + 1))
        echo "$program of $1: status $status, printed '$out' and '$(cat "$err")'"
    fi
    rm -f "$err"
}

# Counts, and whether all passed.
report() {
    echo "$passed passed, $failed failed"
    [ "$failed" = 0 ]
}

line="this line is not SAMPLE COUNT with a count of 1 to 65535; the first is line 0"
sample="this sample is above 65535; the first is sample 0"
