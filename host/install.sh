#!/bin/sh
# Installs the bench tool with its manual page and completions, the proved libraries and their headers. From anywhere:
#
#     host/install.sh PREFIX
#
# PREFIX is an absolute path, such as /usr/local. DESTDIR, if it is set, stands before every path that is written. TFS, if it
# is set, is the tool that is installed instead of host/target/release/tfs. One line for each file that was installed. Where
# something is missing nothing is installed; each line then says how it is made, and the exit status is 1.
set -eu
if [ $# != 1 ]; then
    echo "usage: host/install.sh PREFIX" >&2
    exit 2
fi
case $1 in
/*) prefix=${DESTDIR-}$1 ;;
*)
    echo "install: $1: PREFIX must be an absolute path" >&2
    exit 2
    ;;
esac
here=$(pwd)
cd "$(dirname "$0")/.."
tool=${TFS:-host/target/release/tfs}
case $tool in
/* | host/target/release/tfs) ;;
*) tool=$here/$tool ;;
esac
libraries="tfs_c tfs_trace_c timing_c romfs_c"

missing=0
# Tells how a file is made, if it is missing.
need() {
    if [ ! -f "$1" ]; then
        echo "install: $1 is missing; it is made by: $2" >&2
        missing=1
    fi
}
for name in $libraries; do
    need "target/staticlib/lib$name.a" "host/build.sh $name"
done
need "$tool" "cd host && cargo build --release --offline -p tfs"
[ $missing = 0 ] || exit 1

work=$(mktemp -d)
trap 'rm -rf "$work"' EXIT
"$tool" man >"$work/tfs.1"
"$tool" completions bash >"$work/tfs"

# Installs a file with these permissions in a folder below the prefix.
place() {
    mkdir -p "$prefix/$3"
    install -m "$1" "$2" "$prefix/$3/"
    echo "$prefix/$3/$(basename "$2")"
}
place 755 "$tool" bin
place 644 "$work/tfs.1" share/man/man1
place 644 "$work/tfs" share/bash-completion/completions
for name in $libraries; do
    place 644 "target/staticlib/lib$name.a" lib
done
for header in include/*.h; do
    place 644 "$header" include
done
