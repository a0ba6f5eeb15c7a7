#!/usr/bin/env bash
# Builds what the host takes of the proved crates, each proved before it is built. From anywhere:
#
#     host/build.sh [NAME ..]
#
# NAME is tfs_c, tfs_trace_c, timing_c or romfs_c, a static library, which goes to target/staticlib/libNAME.a, or replay, the
# program, which goes to target/bin/replay; all five where none is named. One line for each; where one fails, what rt says of
# it comes before, and the exit status is 1. What was checked before and has not changed is not checked again.
#
# All are built by LLVM, for every x86-64 processor: with no --cpu, rt builds for x86-64-v2.
set -euo pipefail
cd "$(dirname "$0")/.."
processor=x86-64
work=$(mktemp -d)
trap 'rm -rf "$work"' EXIT

# Runs rt in a crate's folder.
in_crate() {
    local crate=$1
    shift
    (cd "crates/$crate" && "$@") </dev/null
}

# Says what failed, after what it printed, and with which status it ended.
failed() {
    cat "$work/said"
    echo "$1: FAILED with status $2"
    exit 1
}

# Puts a file that was made where the host takes it; one that is the same stays.
put() {
    mkdir -p "$(dirname "$2")"
    cmp -s "$1" "$2" || install -m "$3" "$1" "$2"
    echo "$2: built"
}

library() {
    rm -f "crates/$1/out/lib$1.a"
    in_crate "$1" rt lib --cpu "$processor" >"$work/said" 2>&1 || failed "$1" $?
    put "crates/$1/out/lib$1.a" "target/staticlib/lib$1.a" 644
}

# The program is built by running it, here on its sample.
program() {
    rm -f "crates/$1/out/$1"
    in_crate "$1" rt run --backend llvm --cpu "$processor" -- data/image data/trace >"$work/printed" 2>"$work/said" &&
        diff "crates/$1/stdout" "$work/printed" >>"$work/said" || failed "$1" $?
    put "crates/$1/out/$1" "target/bin/$1" 755
}

[ $# != 0 ] || set -- tfs_c tfs_trace_c timing_c romfs_c replay
for name; do
    case $name in
    tfs_c | tfs_trace_c | timing_c | romfs_c) library "$name" ;;
    replay) program "$name" ;;
    *)
        echo "usage: host/build.sh [tfs_c|tfs_trace_c|timing_c|romfs_c|replay ..]" >&2
        exit 2
        ;;
    esac
done
