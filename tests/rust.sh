# For each tests/*/run whose test is a Rust program; they source this, and end as their program does.
set -u
here=$(cd "$(dirname "$0")" && pwd) && cd "$here/../.." || exit 1

give_up() {
    echo "$1"
    echo '0 passed, 1 failed'
    exit 1
}

# build_library [CRATE]: the proved library of exports, or of another crate. The gate has built them for all tests: rt takes its time even
# where nothing has changed.
build_library() {
    [ "${LIBRARY_BUILT:-}" = yes ] || (cd "crates/${1:-exports}" && rt lib) </dev/null || give_up 'the library is not proved and built'
}

# The proved program, by running it, since rt has no command that only builds one. Where nothing has changed it is not proved again.
build_program() {
    (cd crates/robustness && rt run) </dev/null >/dev/null || give_up 'the program is not proved and built'
}

# run_program FILE ARGUMENT..: a program in the test's folder, with what rt built.
run_program() {
    local file=$1 status
    shift
    if ! command -v rustc >/dev/null; then
        { apt-get update && apt-get install -y rustc; } >&2 || give_up 'rustc is not there and cannot be installed'
    fi
    room=$(mktemp -d) || give_up 'no temporary folder'
    trap 'rm -rf "$room"' EXIT
    # Overflow checks: what a second search or cache computes must stop rather than wrap.
    rustc --edition 2021 -O -C overflow-checks=on -L native=crates/exports/out -L native=crates/encoding_exports/out \
        -o "$room/program" "$here/$file" || give_up "$file is not compiled"
    "$room/program" "$@"
    status=$?
    # 0 and 1 come with the closing line; anything else is a program that broke off.
    [ "$status" -le 1 ] || give_up "$file ended with status $status"
    exit "$status"
}
