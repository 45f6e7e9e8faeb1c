#!/bin/sh
# Times the region algebra against pixman's on the same workloads, in one run, and prints for each
# row the operations per second of both and their ratio: above 1 trestle is the faster one. It fails
# where a list has another length than pixman's.
#
#     bench/regions_against_pixman.sh [ROUNDS] [PROGRAM]
#
# The two programs run in turn, ROUNDS times each (5 if left out, some 10 seconds a round), and each
# row has the best of its rounds, which a busy machine disturbs least (`nice -n -19` before the call
# keeps others away). PROGRAM is a linked bench_regions; where it is left out, `rt run` proves and
# builds it.
# It wants cc and pixman's headers (Debian's libpixman-1-dev).
set -eu
case ${1-} in
    -h | --help) sed -n '2,/^[^#]/s/^# \{0,1\}//p' "$0"; exit ;;
esac
top=$(CDPATH= cd -- "$(dirname -- "$0")/.." && pwd)
rounds=${1:-5}
ours=${2:-}
folder=$(mktemp -d)
trap 'rm -rf "$folder"' EXIT

flags=$(pkg-config --cflags --libs pixman-1 2>/dev/null) || flags='-I/usr/include/pixman-1 -lpixman-1'
# (the flags are words of their own)
if ! cc -O2 -std=c99 -D_POSIX_C_SOURCE=200809L "$top/bench/regions_of_pixman.c" $flags \
    -o "$folder/theirs"; then
    echo "regions_against_pixman: this wants cc, and pixman with its headers" >&2
    exit 1
fi
if [ -z "$ours" ]; then
    (cd "$top/crates/bench_regions" && rt run >/dev/null </dev/null)
    ours=$top/crates/bench_regions/out/bench_regions
fi

round=0
while [ "$round" -lt "$rounds" ]; do
    "$ours" time | sed 's/^/ours /' >>"$folder/rows"
    "$folder/theirs" | sed 's/^/theirs /' >>"$folder/rows"
    round=$((round + 1))
done

# A row: whose OPERATION WORKLOAD n=N rects_a=A rects_b=B rects_out=C ops_per_s=X
awk '
{
    row = $2 " " $3 " " $4
    if (!(row in place)) { place[row] = ++rows; names[rows] = row }
    split($8, speed, "=")
    if (speed[2] + 0 > best[$1, row]) best[$1, row] = speed[2] + 0
    lengths[$1, row] = $5 " " $6 " " $7
}
END {
    for (i = 1; i <= rows; i++) {
        row = names[i]
        same = lengths["ours", row] == lengths["theirs", row]
        if (!same) wrong++
        theirs = best["theirs", row]
        printf "%-22s %s ours=%d pixman=%d ratio=%.2f lengths=%s\n", row, lengths["ours", row],
            best["ours", row], theirs, theirs ? best["ours", row] / theirs : 0,
            same ? "equal" : "DIFFERENT"
    }
    if (!rows || wrong) exit 1
}' "$folder/rows"
