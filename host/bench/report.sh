#!/bin/sh
# Measures times, code size and stack use, prints docs/BENCHMARKS.md and draws its pictures:
#
#     host/bench/report.sh [--runs N] [--rounds R] [--pictures FOLDER] >docs/BENCHMARKS.md
#
# Makes N runs (5 unless given) on the machine as it is, which should be idle, and N more under a load of its own, each of R
# rounds (1000). FOLDER (docs/benchmarks) is to stand beside the file that is printed. What it does is told on standard error.
# Where BEFORE names an older libtfs_c.a, its free bytes, read and write are timed too.
set -eu
usage() {
    echo "usage: report.sh [--runs N] [--rounds R] [--pictures FOLDER]" >&2
    exit 2
}
runs=5
rounds=1000
pictures=$(dirname "$0")/../../docs/benchmarks
while [ $# -gt 0 ]; do
    [ $# -ge 2 ] || usage
    case $1 in
    --runs) runs=$2 ;;
    --rounds) rounds=$2 ;;
    --pictures) pictures=$2 ;;
    *) usage ;;
    esac
    shift 2
done
case $runs/$rounds in *[!0-9/]* | /* | */) usage ;; esac
if [ "$runs" -eq 0 ] || [ "$rounds" -eq 0 ]; then usage; fi
pictures=$(realpath -m "$pictures")
if [ -n "${BEFORE:-}" ]; then
    BEFORE=$(realpath "$BEFORE")
    export BEFORE
fi
cd "$(dirname "$0")"
libraries=../../target/staticlib
bench=../target/release/bench
cores=$(nproc)
work=$(mktemp -d)
load=
# Ends the load, each of its processes by its number.
unload() {
    for process in $load; do
        kill "$process" 2>/dev/null || :
        wait "$process" 2>/dev/null || :
    done
    load=
}
trap 'unload; rm -rf "$work"' EXIT
trap 'exit 1' HUP INT TERM
cksum "$libraries"/*.a >"$work/before"

cargo build --release --offline --quiet
gcc -std=gnu99 -Wall -Wextra -O2 -I../../include stack.c -L"$libraries" -ltiming_c -ltfs_trace_c -ltfs_c -lromfs_c \
    -lpthread -Wl,-z,now -o "$work/stack"

# Makes all runs of a kind.
measure() {
    run=1
    while [ "$run" -le "$runs" ]; do
        echo "report: $1 run $run of $runs" >&2
        "$bench" --rounds "$rounds" --rows >"$work/$1-$(printf %03d "$run")"
        run=$((run + 1))
    done
}

measure idle
for core in $(seq "$cores"); do
    cksum </dev/zero >"$work/sum$core" &
    load="$load $!"
done
measure loaded
for process in $load; do
    kill -0 "$process" || { echo "report: the load ended before the runs did; the report is void" >&2 && exit 1; }
done
unload
"$work/stack" >"$work/stack.md"
if ! cksum "$libraries"/*.a | cmp -s - "$work/before"; then
    echo "report: the libraries changed while they were measured; the report is void" >&2
    exit 1
fi
"$bench" --claims "$work" >"$work/claims.md"
"$bench" --tables "$work" --pictures "$pictures" >"$work/tables.md"

cat <<TEXT
# Benchmarks

Printed by \`host/bench/report.sh\`, which needs the static libraries (\`host/build.sh\` makes them). Nothing in the tests
depends on a time. All is measured in $((2 * runs)) runs: $runs on an idle machine, and $runs on a loaded one, with an endless
\`cksum </dev/zero\` for each of its $cores cores beside the run.

## Claims

Each is about all rows of its kind in all runs, idle and loaded. Nothing else is claimed.

TEXT
cat "$work/claims.md"
cat <<'TEXT'

## How it is measured

- *proved*: the request through its C interface, from the static library.
- *reference*: the same request of `host/reference`, in Rust with `--release`.
- *copy*: a plain `memcpy` of the same bytes between the same places; where the file's blocks are scattered, of as many bytes that
  stand behind the volume.
- *C*: the ones of the map's words by `__builtin_popcount`, the last word masked at N, called on the map block with no check;
  `gcc -O2 -std=c99 -Wall -Wextra -Werror -pedantic`, where each word is a call of libgcc, as there is no `-mpopcnt`.
- *plain list*: the proved check of a romfs image of the same length with as many headers, all of files in one list.
TEXT
if [ -n "${BEFORE:-}" ]; then
    echo '- *before*: the same request of the older static library that `BEFORE` names, linked into the same process. Beside it,'
    echo '  *proved* is a copy of the present one; every function of both begins at the start of a page.'
fi
cat <<TEXT

A time is the median of the idle runs. So is a ratio, 0.66 (0.64–0.69; loaded 0.63–0.71): behind it stand the lowest and the
highest ratio of the idle runs, and those of the loaded ones.

In a run all are timed in turn in one process (a plain list after its links), in batches of about 0.1 ms, and the best batch of
$rounds rounds counts, or of fewer where one operation lasts long. Times are processor time
of the process, so that what the load takes of the core does not count; what it takes of caches and memory does.

Every request but format and mend checks the whole volume first, and mend does the check's work on its way, so each time but
format's has a check in it.
TEXT
cat <<'TEXT'

Times less the check are medians over all rounds of the difference between a request and its check in the same round, and means
of these over eight places. There, and in the whole times beside them, all ways work on one image and with one buffer, which lie
at eight places in a page, as the stack does, scattered volumes each time another one; both, one or none of image and buffer begin
at a multiple of 16. So it is with reads and writes of 64 bytes. The reference's check is compiled into each of its requests, so that its difference is not its
count alone. A dash stands for a ratio to a difference below the clock's noise, or of one that is below nothing by more. Where
only the proved one is within it, the ratio stands, as 0.00 if that is negative.

A volume of 2 MiB is full when its 25 slots are used: 25 files of 65,024 bytes have 3,200 of its 4,093 blocks. There, create and
remove are timed as remove and create. It is half full with 16 such files; solid where their blocks stand one after another, as
create gives them, and scattered where they lie anywhere. Leftovers, where there are any, fill the name bytes behind the first
zero of every slot.

Before each mend the bits that it clears are set again, which is in its time. So it is with a store that creates the timing file:
before each the map and the directory are set back to those without it, by a copy of 1,024 bytes.

The bytes that a read in a trace should give are compared 16 at a time; the reference compares them by `memcmp`, by more at a
time where the processor can. A replay checks the volume once; *one by one* is the same requests as separate calls of the proved
library, each with its check, and with no comparison of the answers. A record is read into the struct of C by the one, and into an
enum of Rust by the other.

The reference seeks the target of every link from the root, so that its time grows with the square of the links; images with hard
links are compared with a plain list instead. Their families (`host/generate/src/romfs/links.rs`) are named by where the links
lead. A part is a 256th of the image. A long name is as long as a part, or as half of one where each part has it; it is a
directory's, and the target is the only file below it. Headers that are no target, nor on the way to one, are links; of *files
anywhere* and *in reverse order* half are files, of *directories anywhere* a third each are directories, files below them and
links. The *last link bad* leads to its own name, so that the check refuses the image at its last header. *Dots* are directories
named "." or "..", which lead to a header as links do.
TEXT

echo
echo "- CPU: $(sed -n 's/^model name[^:]*: //p' /proc/cpuinfo | head -1), $cores cores, $(uname -sm)"
echo "- Compilers: $(readelf -p .comment "$libraries/libtfs_c.a" | sed -n 's/.*\(rattle logic=[0-9a-f]\{16\}\).*/\1/p')," \
    "$(rustc --version), $(gcc --version | head -1)"
echo
echo "## Time"
cat "$work/tables.md"
echo
echo "## Code size"
echo
echo "\`size\` of the static libraries, and what they need of the program that links them."
echo
echo "| library | code and constants | data | zeroed data | needs |"
echo "|---|---:|---:|---:|---|"
for name in tfs_c tfs_trace_c timing_c romfs_c; do
    needs=$(nm -u "$libraries/lib$name.a" | awk '$1 == "U" { print $2 }' | sort -u | paste -sd ' ')
    size -t "$libraries/lib$name.a" |
        awk -v name="lib$name.a" -v needs="$needs" 'END { print "| " name " | " $1 " | " $2 " | " $3 " | " needs " |" }'
done
cat <<'TEXT'

## Stack

Each request runs on a thread whose stack is painted before; what a thread that does nothing uses is taken off. The volume has
2 MiB and 24 files of 65,024 bytes, the romfs image lists down to depth 8.

TEXT
cat "$work/stack.md"
