#!/bin/sh
# Makes romfs images with genromfs and packs them, with what is expected of each, for the program genromfs_cases.
#
#     host/romfs_images.sh crates/genromfs_cases
#
# writes the files stdin (the packed images) and stdout (what the program must print) into that folder. It needs genromfs
# (0.5.2), python3 for a socket, and no other right than to make files. Trees are built in a temporary folder.
#
# What is expected comes from the trees and from the listing that genromfs prints of its work (-v), which has the offset of
# each header. Which of two hard-linked names is the file depends on the order in which the host lists the names of a folder, so
# another machine may pack other images.
#
# The packed file: a number is four bytes, the most significant first; bytes are a number, which is their count, and then
# so many bytes. The file is the number of images, and for each image:
#
#     title      bytes    printed at the start of the image's line
#     image      bytes
#     refusal    number   of the check, 0 if accepted
#     place      number   of that refusal
#     lookups    number   how many follow, each with these parts:
#       names    number, then so many bytes    a path: each name is found in the directory that the one before it gave
#       refusal  number   of the last find, 0 if found; all that follows is then 0 or empty if it is not
#       header   number   the offset found
#       type     number   the entry at that header: its type,
#       exec     number   executable (0 or 1),
#       info     number   spec.info,
#       size     number
#       next     number   and the next header, 0 for the last
#       content  bytes    of a regular file or a symbolic link, else empty
#
# Every header of an accepted image is looked up by its path.
set -eu
export LC_ALL=C
into=$(cd "$1" && pwd)
work=$(mktemp -d)
tree=$work/tree
trap 'rm -rf "$work"' EXIT
images=0
: >"$work/packed"
: >"$into/stdout"

number() {
    printf "$(printf '\\%03o\\%03o\\%03o\\%03o' $(($1 >> 24 & 255)) $(($1 >> 16 & 255)) $(($1 >> 8 & 255)) $(($1 & 255)))"
}

word() { # a word as bytes
    number ${#1}
    printf %s "$1"
}

file() { # the content of a file as bytes
    number "$(wc -c <"$1")"
    cat "$1"
}

path() { # a path as names
    number "$(printf %s "$1" | awk -F/ '{ print NF }')"
    printf '%s\n' "$1" | tr / '\n' | while read -r name; do word "$name"; done
}

# The listing of genromfs, a line for each header: path, offset, mode, size, offset of the next header and of the first one
# below, offset that a hard link has; - where there is none.
listed() {
    sed -n 's/^\([0-9]*\) *\([^ ]*\) *\[0x[^]]*\] \([0-7]*\), sz *\([0-9]*\), at \(0x[0-9a-f]*\) *\(\[link to \(0x[0-9a-f]*\) *\]\)\{0,1\}$/\1 \2 \3 \4 \5 \7/p' "$work/listing" |
        awk '$1 > 0 { n++; depth[n] = $1; name[n] = $2; mode[n] = $3; size[n] = $4; at[n] = $5; link[n] = $6 == "" ? "-" : $6 }
            END { for (i = 1; i <= n; i++) {
                stack[depth[i]] = name[i]; path = stack[1]
                for (d = 2; d <= depth[i]; d++) path = path "/" stack[d]
                for (j = i + 1; j <= n && depth[j] > depth[i]; j++);
                next_at = j <= n && depth[j] == depth[i] ? at[j] : "-"
                first = i < n && depth[i + 1] > depth[i] ? at[i + 1] : "-"
                print depth[i], path, at[i], mode[i], size[i], next_at, first, link[i]
            } }'
}

or_zero() {
    case $1 in -) echo 0 ;; *) echo $(($1)) ;; esac
}

# spec.info of a device: its numbers stand in the name of the file that asked for it, or are those of the node.
device() {
    base=${1##*/}
    dir=$tree/${1%"$base"}
    for asked in "$dir@$base",*; do
        if [ -e "$asked" ]; then
            echo "${asked##*@}" | { IFS=, read -r _ _ major minor; echo $((major << 16 | minor)); }
            return
        fi
    done
    stat -c '%t %T' "$dir$base" | { read -r major minor; echo $((0x$major << 16 | 0x$minor)); }
}

# A lookup of a header that is listed as: path, offset, mode, size, next, first, link.
found() {
    path "$1"
    number 0
    number $(($2))
    format=$(($3 >> 12)) exec=0 info=0
    [ "$7" = - ] || format=-1
    case $format in
        -1) file_type=0 info=$(($7)) ;;
        4) file_type=1 exec=$((($3 & 73) != 0)) info=$(or_zero "$6") ;;
        8) file_type=2 exec=$((($3 & 73) != 0)) ;;
        10) file_type=3 ;;
        6) file_type=4 info=$(device "$1") ;;
        2) file_type=5 info=$(device "$1") ;;
        12) file_type=6 ;;
        1) file_type=7 ;;
    esac
    # the root's own "." is a directory, and the first header of its list is itself
    case $1 in . | ./.) info=$(($2)) ;; esac
    number $file_type
    number $exec
    number $info
    number "$4"
    number "$(or_zero "$5")"
    case $file_type in
        2) file "$tree/$1" ;;
        3) word "$(readlink "$tree/$1")" ;;
        *) number 0 ;;
    esac
}

# A lookup that is refused: path, refusal.
refused() {
    path "$1"
    number "$2"
    number 0; number 0; number 0; number 0; number 0; number 0
    number 0
}

lookups() {
    echo $(($(wc -l <"$work/headers") + $(echo $absent | wc -w)))
}

# Packs the tree, which is the working folder, under a title. The second argument has lookups that are refused, as
# path=refusal; further ones are options of genromfs. A list at depth 9 is refused with the directory that has it. In the
# others each header of the root list is looked up by way of the root's own "." too.
pack() {
    title=$1 absent=$2
    shift 2
    genromfs -d "$tree" -f "$work/image" -V "$title" -v "$@" 2>"$work/listing"
    listed >"$work/headers"
    sed -n 's,^1 ,1 ./,p' "$work/headers" >"$work/by_dot"
    cat "$work/by_dot" >>"$work/headers"
    place=$(awk '$1 == 8 { last = $3 } $1 == 9 { print last; exit }' "$work/headers")
    if [ -n "$place" ]; then
        refusal=28 place=$(($place)) absent="a=28 .=28"
        : >"$work/headers"
        echo "$title: refused $refusal, place $place, $(lookups) lookups, 0 differ" >>"$into/stdout"
    else
        refusal=0 place=0
        echo "$title: accepted, $(lookups) lookups, 0 differ" >>"$into/stdout"
    fi
    {
        word "$title"
        file "$work/image"
        number $refusal
        number $place
        number "$(lookups)"
        while read -r _ name at mode size next first link; do
            found "$name" "$at" "$mode" "$size" "$next" "$first" "$link"
        done <"$work/headers"
        for case in $absent; do refused "${case%=*}" "${case##*=}"; done
    } >>"$work/packed"
    images=$((images + 1))
    cd "$work"
    rm -rf "$tree"
    mkdir "$tree"
    cd "$tree"
}

some() { # so many bytes
    awk -v n="$1" 'BEGIN { for (i = 0; i < n; i++) printf "%c", 33 + (i * 7 + n) % 90 }'
}


# ---- the trees
mkdir "$tree"
cd "$tree"
pack empty "a=30 ./a=30 ../a=31"

for n in 1 2 15 16 17 31 32 33 511 512 513 5000; do some $n >f$n; done
: >f0
some 70 >run
chmod 755 run
pack files "f=30 f00=30 F1=30 f1/f1=31 f0/x=31"

mkdir one one/two three empty
some 10 >one/a
some 20 >one/two/a
some 30 >three/a
some 40 >a
chmod 711 one
pack directories "two=30 one/three=30 one/a/a=31 one/./a=31 empty/a=30 one/two/../a=31"

for n in 1 14 15 16 17 30 31 32 33 47 48 100 254 255; do
    some $n | tr '/@' 'xy' >"$work/name"
    some $n >"$(cat "$work/name")"
done
pack names "x=30 #=30"

mkdir sub sub/low
some 100 >file
ln file again
ln file sub/third
ln file sub/low/fourth
some 5 >sub/low/other
ln sub/low/other sub/low/same
ln -s file to_file
ln -s sub to_sub
ln -s nothing/at/all/of/that/name broken
pack links "to_sub/third=31 sub/file=30 sub/low/third=30 broken/x=31"

: >@tty,c,5,1
: >@disk,b,8,17
: >@high,c,255,65535
mkdir dev
: >dev/@null,c,1,3
: >dev/@loop,b,7,0
mkfifo dev/pipe
python3 -c 'import socket; socket.socket(socket.AF_UNIX).bind("dev/socket")'
some 3 >plain
pack devices "tty/x=31 dev/pipe/x=31 dev/tty=30 @tty,c,5,1=30"

mkdir -p 1/2/3/4/5/6/7
some 9 >1/2/3/4/5/6/7/bottom
some 8 >1/2/3/4/5/6/side
pack "lists down to depth 8" "1/2/3/4/5/6/7/x=30 1/2/3/4/5/6/7/bottom/x=31"

mkdir -p 1/2/3/4/5/6/7/8
some 8 >1/2/3/4/5/6/side
pack "a list at depth 9" ""

mkdir -p a/b/c/d/e/f/g/h/i/j
some 9 >a/b/c/d/e/f/g/h/i/j/bottom
pack "lists down to depth 11" ""

for d in a b c d e f; do
    mkdir $d
    for n in 1 2 3 4 5; do some $n >$d/$n; done
done
pack many "a/6=30 g=30 g/1=30"

mkdir low
for n in 1 100 1000; do some $n >low/f$n; done
some 64 >f64
pack aligned "f1=30" -a 64

pack "a volume whose name is longer than a header with its sixteen bytes and than thirty-two" "a=30"

{
    number $images
    cat "$work/packed"
} >"$into/stdin"
echo "$images images, 0 differ" >>"$into/stdout"
