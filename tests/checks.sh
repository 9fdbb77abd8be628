# For each tests/*/run that looks at what commands end with and write; they source this, and end with sum_up.
set -u
root=$(cd "$(dirname "${BASH_SOURCE[0]}")/.." && pwd) || exit 1
passed=0 failed=0

# check WHAT STATUS TEXT: what the last command ended with and wrote, against what it should.
check() {
    if [ "$status" -eq "$2" ] && [ "$wrote" = "$3" ]; then
        passed=$((passed + 1))
    else
        failed=$((failed + 1))
        echo "FAILED $1: status $status, wrote '$wrote'"
    fi
}

sum_up() {
    echo "$passed passed, $failed failed"
    [ "$failed" -eq 0 ]
}
