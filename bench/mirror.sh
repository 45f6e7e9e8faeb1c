#!/bin/sh
# Times a window that moves over a screen of 1024 by 1024, with 60 dumps: by `serial`, by `mirror`, and by
# `mirror | show`. Then it prints how many bytes the stream has, how many the dumps have without their digits (two
# for each pixel), and how many `gzip -1` makes of the raw screens. At last it counts the instructions that a cut costs
# if it changes one pixel, on screens of 64, 256 and 1024 by as many: by `mirror`, by `show`, and by a viewer.
#
#     bench/mirror.sh [ROUNDS] [PROGRAM] [VIEWER]
#
# Each time is the best of ROUNDS (3 if left out), which a busy machine disturbs least. PROGRAM is a built trestle;
# where it is left out, the launcher proves and builds it. VIEWER reads a stream from standard input; where it is left
# out, it is that of crates/ex_viewer, if somebody built it. It wants date with %N, gzip, xxd and valgrind.
set -eu
case ${1-} in
    -h | --help) sed -n '2,/^[^#]/s/^# \{0,1\}//p' "$0"; exit ;;
esac
top=$(CDPATH= cd -P -- "$(dirname -- "$0")/.." && pwd)
rounds=${1:-3}
program=${2:-}
viewer=${3:-$top/crates/ex_viewer/out/ex_viewer}
folder=$(mktemp -d)
trap 'rm -rf "$folder"' EXIT
for tool in gzip xxd valgrind; do
    command -v "$tool" >/dev/null || { echo "mirror: $tool is not installed" >&2; exit 1; }
done
if [ -z "$program" ]; then
    "$top/trestle" serial <"$top/demos/one_pixel.txt" >/dev/null
    program=$top/.build/trestle
fi

# A desk, a typescript on it, and in front of both a meter of 320 by 200 that moves a bit between two dumps.
awk 'BEGIN {
    print "trestle 1\nscreen 1024 1024 map8\nnode desk z 24"
    print "leaf text 0 600 600 0 700 700 lines\nleaf meter 0 320 320 0 200 200 meter 8"
    print "put text desk 40 60\nput meter desk 100 100\nroot desk\nbegin"
    for (i = 1; i <= 40; i++) print "@text line LINE " i " OF A TEXT THAT STANDS BEHIND THE WINDOW"
    for (i = 0; i < 8; i++) print "@meter bar " i, 30 * i + 15
    print "sync\ndump"
    for (i = 1; i < 60; i++) print "move meter " 100 + 7 * i, 100 + 5 * i "\nsync\ndump"
    print "end"
}' >"$folder/script"

# best WORDS..: the least milliseconds of the rounds in which a shell runs these words.
best() {
    least=
    i=0
    while [ "$i" -lt "$rounds" ]; do
        start=$(date +%s%N)
        sh -c "$1" sh "$program" "$folder"
        taken=$(($(date +%s%N) - start))
        if [ -z "$least" ] || [ "$taken" -lt "$least" ]; then least=$taken; fi
        i=$((i + 1))
    done
    awk -v n="$least" 'BEGIN { printf "%.1f", n / 1e6 }'
}

serial=$(best '"$1" serial <"$2/script" >"$2/dumps"')
mirror=$(best '"$1" mirror <"$2/script" >"$2/stream"')
both=$(best '"$1" mirror <"$2/script" | "$1" show >"$2/shown"')
cmp "$folder/dumps" "$folder/shown"
grep -v '^dump ' "$folder/dumps" | xxd -r -p >"$folder/raw"
stream=$(wc -c <"$folder/stream")
raw=$(wc -c <"$folder/raw")
packed=$(gzip -1 <"$folder/raw" | wc -c)
echo "serial_ms=$serial mirror_ms=$mirror mirror_show_ms=$both"
awk -v s="$stream" -v r="$raw" -v p="$packed" 'BEGIN {
    printf "stream=%d raw=%d gzip=%d of_raw=%.4f of_gzip=%.3f\n", s, r, p, s / r, s / p
}'

# one_pixel SIDE CUTS: a script with so many dumps, between which one pixel of the first row changes.
one_pixel() {
    awk -v side="$1" -v cuts="$2" 'BEGIN {
        print "trestle 1\nscreen " side, side " map8"
        print "leaf a 0 " side, side " 0 " side, side " canvas\nroot a\nbegin\ndump"
        for (i = 1; i < cuts; i++) print "@a rect " i, i + 1 " 0 1 " i "\nsync\ndump"
        print "end"
    }'
}

# count FILE WORDS..: the instructions that a program takes for this input.
count() {
    input=$1
    shift
    valgrind --tool=callgrind --callgrind-out-file=/dev/null --log-file="$folder/log" "$@" <"$input" >/dev/null
    sed -n 's/^.*Collected : \([0-9]*\).*$/\1/p' "$folder/log"
}

# a_cut NAME WORDS..: the instructions of a cut: those for the inputs NAME.64, with 64 cuts, without those for NAME.1.
a_cut() {
    name=$1
    shift
    all=$(count "$folder/$name.64" "$@")
    first=$(count "$folder/$name.1" "$@")
    echo $(((all - first) / 63))
}

for side in 64 256 1024; do
    for cuts in 1 64; do
        one_pixel "$side" "$cuts" >"$folder/script.$cuts"
        "$program" mirror <"$folder/script.$cuts" >"$folder/stream.$cuts"
    done
    if [ -x "$viewer" ]; then viewed=$(a_cut stream "$viewer"); else viewed=-; fi
    mirror=$(a_cut script "$program" mirror)
    show=$(a_cut stream "$program" show)
    bytes=$((($(wc -c <"$folder/stream.64") - $(wc -c <"$folder/stream.1")) / 63))
    echo "one_pixel side=$side bytes=$bytes mirror=$mirror show=$show viewer=$viewed"
done
