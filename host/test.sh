#!/bin/sh
# Builds the host programs on the proved libraries and tests them. From anywhere:
#
#     host/test.sh
#
# One line for each part; the output of a part is shown where it fails. The last line is "host tests: ok", or the number of
# parts that failed, with exit status 1.
set -u
cd "$(dirname "$0")"
libraries=../target/staticlib
work=$(mktemp -d)
trap 'rm -rf "$work"' EXIT
failed=0

# Runs a command as a part: its name, then the command.
part() {
    name=$1
    shift
    if "$@" >"$work/output" 2>&1; then
        echo "$name: ok"
    else
        cat "$work/output"
        echo "$name: FAILED"
        failed=$((failed + 1))
    fi
}

# An example in C: its name, then the file with what it prints.
example() {
    gcc -std=c99 -Wall -Wextra -pedantic -Werror -O2 -I../include "example/$1.c" \
        -L"$libraries" -ltiming_c -ltfs_trace_c -ltfs_c -lromfs_c -o "$work/$1" &&
        "$work/$1" >"$work/printed" &&
        diff -u "example/$2" "$work/printed"
}

# Fails where a request uses more stack than the headers say.
stack() {
    gcc -std=gnu99 -Wall -Wextra -Werror -O2 -I../include bench/stack.c -L"$libraries" \
        -ltiming_c -ltfs_trace_c -ltfs_c -lromfs_c -lpthread -Wl,-z,now -o "$work/stack" && "$work/stack"
}

# The proved program over pairs of files.
program() {
    if [ ! -x ../target/bin/replay ]; then
        echo "target/bin/replay is missing; it is made by: host/build.sh replay"
        return 1
    fi
    cargo test --offline -p program
}

for name in tfs_c tfs_trace_c timing_c romfs_c; do
    if [ ! -f "$libraries/lib$name.a" ]; then
        echo "host tests: target/staticlib/lib$name.a is missing; it is made by: host/build.sh $name"
        failed=1
    fi
done
[ $failed = 0 ] || exit 1

part "formatting" cargo fmt --all --check
part "lints" cargo clippy --offline --workspace --all-targets -- -D warnings
part "build" cargo build --release --offline
part "tests" cargo test --offline --workspace --exclude program
part "program replay" program
part "C example" example example expected.txt
part "C example of the timing file" example timing timing_expected.txt
part "stack use" stack
part "comparison" target/release/compare --seconds 5
if [ $failed != 0 ]; then
    echo "host tests: $failed failed"
    exit 1
fi
echo "host tests: ok"
