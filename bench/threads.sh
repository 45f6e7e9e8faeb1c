#!/bin/sh
# Plays scripts by `serial` and by `play`, and prints the milliseconds of both and their ratio.
#
#     bench/threads.sh [ROUNDS] [PROGRAM]
#
# Each of ROUNDS (3 if left out) plays both, in an order by chance. A line has the best round of each word, the ratio of the
# best rounds, the ratio of the means of all rounds, and the aim for the latter, where there is one: for four processors.
# PROGRAM is a built trestle; where it is left out, the launcher proves and builds it. It wants date with %N. The first line
# tells how many processors there are. Under `taskset -c 0` there is one, and each aim is 1.1. The last line has the greatest
# ratio of the means.
#
# `desktop` has seven windows, of five a command each in turn, moves and a change of the screen. `eight` has eight windows with
# 4,000 figures or lines each, and a flush after each 25th; of `alone` one of these windows has its lines, and the others have
# none: a long part of one client, which one thread makes in order. `waiting` is `eight` without a flush, so that by serial all
# of it waits for the dump. `parts` has 991 parts, in each a line by each of two clients. In most of the other workloads, those
# of bench/workloads.sh, one actor has all steps.
set -eu
case ${1-} in
    -h | --help) sed -n '2,/^[^#]/s/^# \{0,1\}//p' "$0"; exit ;;
esac
top=$(CDPATH= cd -P -- "$(dirname -- "$0")/.." && pwd)
rounds=${1:-3}
program=${2:-}
folder=$(mktemp -d)
trap 'rm -rf "$folder"' EXIT
if [ -z "$program" ]; then
    "$top/trestle" serial <"$top/demos/one_pixel.txt" >/dev/null
    program=$top/.build/trestle
fi

# write NAME WINDOWS LINES FLUSH: a script in which this many of eight windows have lines, and a flush after each FLUSH-th one;
# none, where it is 0.
write() {
    awk -v windows="$2" -v n="$3" -v flush="$4" '
    function draw(below) { state = state * 40014 % 2147483563; return int(state / 65536) % below }
    function text(bytes,    t) {
        for (t = ""; bytes > 0; bytes--) t = t sprintf("%c", 65 + draw(26))
        return t
    }
    function figure(    west, north) {
        west = draw(200)
        north = draw(160)
        return "rect " west " " west + 1 + draw(60) " " north " " north + 1 + draw(60) " " draw(256)
    }
    BEGIN {
        state = 12345
        print "trestle 1\nscreen 1024 768 map8\nnode desk z 24"
        for (w = 0; w < 8; w++) print "leaf w" w, "0 240 240 0 200 200", w % 2 ? "lines" : "canvas"
        for (w = 0; w < 8; w++) print "put w" w, "desk", 10 + 250 * (w % 4), 10 + 250 * int(w / 4)
        print "root desk\nbegin\ndump"
        for (i = 1; i <= n; i++)
            for (w = 0; w < windows; w++) {
                print "@w" w, (w % 2 ? "line " text(draw(30)) : i % 50 ? figure() : "undo")
                if (flush && i % flush == 0) print "@w" w, "flush"
            }
        print "sync\ndump\nend"
    }' >"$folder/$1"
}

# write_parts: a script of 991 parts with two steps each.
write_parts() {
    awk 'BEGIN {
        print "trestle 1\nscreen 200 100 map8\nnode desk z 24"
        print "leaf a 0 90 90 0 90 90 lines\nleaf b 0 90 90 0 90 90 lines"
        print "put a desk 5 5\nput b desk 100 5\nroot desk\nbegin"
        for (i = 0; i < 991; i++) print "@a line x" i "\n@b line y" i "\nsync"
        print "dump\nend"
    }' >"$folder/parts"
}

# timed WORD FILE: the nanoseconds that the program takes for a script.
timed() {
    start=$(date +%s%N)
    "$program" "$1" <"$2" >/dev/null || { echo "threads: $1 <$2 ends with status $?" >&2; exit 1; }
    echo $(($(date +%s%N) - start))
}

# measure NAME AIM: the script of this name by both words, and whether the aim is reached.
measure() {
    [ "$processors" -gt 1 ] || set -- "$1" 1.1
    round=0
    while [ "$round" -lt "$rounds" ]; do
        chance=$((chance * 40014 % 2147483563))
        if [ $((chance / 65536 % 2)) -eq 0 ]; then words='serial play'; else words='play serial'; fi
        for word in $words; do
            taken=$(timed "$word" "$folder/$1") || exit 1
            echo "$word $taken"
        done
        round=$((round + 1))
    done | awk -v name="$1" -v aim="$2" -v file="$folder/means" '
        { sum[$1] += $2; if (!($1 in least) || $2 < least[$1]) least[$1] = $2 }
        END {
            if (!("play" in sum)) exit 1
            means = sum["play"] / sum["serial"]
            print name, means >>file
            note = aim == "" ? "" : sprintf(" aim=%s%s", aim, means <= aim ? "" : " missed")
            printf "%-10s serial ms=%.1f play ms=%.1f ratio=%.2f means=%.2f%s\n", name, least["serial"] / 1e6,
                least["play"] / 1e6, least["play"] / least["serial"], means, note
        }'
    chance=$((chance * 40014 % 2147483563))
}

chance=12345
# (nproc counts those that taskset leaves)
processors=$(nproc)
echo "processors $processors"
write eight 8 4000 25
measure eight 0.6
write waiting 8 4000 0
measure waiting 0.6
write alone 1 4000 25
measure alone ''
write_parts
measure parts 1.5
for workload in 'desktop 1000 1.0' 'typescript 40000 0.85' 'unseen 45000 0.85' 'repaints 40000 0.85' 'editor 20000 0.85' \
    'moves 10000 1.0' 'painted 10000 0.6' 'figures 60000 0.85' 'events 90000 1.0' 'dumps 60' 'colours 60' 'steps 2000 1.0'; do
    set -- $workload
    "$top/bench/workloads.sh" --write "$1" "$2" >"$folder/$1"
    measure "$1" "${3-}"
done
awk '$2 > most { most = $2; name = $1 } END { printf "greatest of means=%.2f %s\n", most, name }' "$folder/means"
