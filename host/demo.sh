#!/usr/bin/env bash
# Builds the proved libraries, the host programs and the C examples, then shows the main job on a sample volume.
# Each step of the building says what it does and the seconds since the start; on a terminal the seconds run.
set -euo pipefail
cd "$(dirname "$0")/.."

takes="about 15 minutes"
libraries="tfs_c tfs_trace_c timing_c romfs_c"
steps=6
step=0
clock=
folder=$(mktemp -d)
trap 'stop_clock; rm -rf "$folder"' EXIT

# Writes a line again each second, with the seconds since the start.
run_clock() {
    while kill -0 $$; do
        printf '\r%s, %s s ' "$1" "$SECONDS"
        sleep 1
    done
}

stop_clock() {
    [ -n "$clock" ] || return 0
    kill "$clock"
    wait "$clock" 2>/dev/null || true
    clock=
    printf '\r'
}

# A step: what it does, then the command. Its output is shown where it fails, which ends the script.
step() {
    local line status=0
    step=$((step + 1))
    line="Step $step of $steps: $1"
    shift
    if [ -t 1 ]; then
        run_clock "$line" &
        clock=$!
    else
        echo "$line, begun after $SECONDS s"
    fi
    ("$@") >"$folder/output" 2>&1 || status=$?
    stop_clock
    if [ $status != 0 ]; then
        echo "$line, failed after $SECONDS s:"
        cat "$folder/output"
        exit $status
    fi
    echo "$line, done after $SECONDS s"
}

host_programs() {
    cd host && cargo build --quiet --release --offline
}

example() {
    gcc -std=c99 -O2 -Iinclude "host/example/$1.c" -Ltarget/staticlib -ltiming_c -ltfs_trace_c -ltfs_c -lromfs_c \
        -o "target/$1"
}

examples() {
    example example && example timing
}

echo "This takes $takes on a fresh machine, where the proofs are checked first, and about a minute where all is built."
for library in $libraries; do
    step "the proved library $library" host/build.sh "$library"
done
step "the host programs" host_programs
step "the C examples" examples

tool=$PWD/host/target/release/tfs
cd "$folder"

# Shows a command, then runs it; a refusal does not end the script.
show() {
    echo
    echo "\$ tfs $*"
    "$tool" "$@" || echo "(exit status $?)"
}

printf 'tRCD 14\ntRP 14\ntRAS 33\n' > timing.txt
show make pump.img --size 64K --label PUMP
show put pump.img timing.txt --name TIMING
show list pump.img
show free pump.img
show get pump.img TIMING -
show dump pump.img slot 0

echo
echo "Values are stored for board 4711. Its boot gets them; another board's does not, and none does after the lid was opened."
seq 11 38 > trained.txt
show make board.img --size 64K
show timing store board.img --board 4711 --maker 44 trained.txt
show timing boot board.img --board 4711 --maker 44
show timing boot board.img --board 4712 --maker 44
show timing open-lid board.img --in-place
show timing boot board.img --board 4711 --maker 44

echo
echo "A session on another volume is recorded, and replayed on the volume as it was."
show make bench.img --size 64K
cp bench.img start.img
show put bench.img timing.txt --name TIMING --record session.trace
show remove bench.img RATES --record session.trace
show free bench.img --record session.trace
show trace show session.trace
show replay start.img session.trace
show replay bench.img session.trace

echo
echo "One bit of the map is damaged: block 4 is marked free."
printf '\x0f' | dd of=pump.img bs=1 seek=515 conv=notrunc status=none
show check pump.img
show get pump.img TIMING -

echo
echo "Power was taken in the middle of a create: the map has blocks of a file that is not there."
show make chip.img --size 64K
printf '\x3f' | dd of=chip.img bs=1 seek=515 conv=notrunc status=none
show check chip.img
show mend chip.img --in-place
show check chip.img
