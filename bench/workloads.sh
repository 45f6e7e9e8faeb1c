#!/bin/sh
# Plays large scripts at a size and at twice that size, and prints for each of them the milliseconds of
# both, their ratio, and the microseconds that a line of the greater one takes. Where the work grows as the
# script does the ratio is about 2; above 2.3 something grows faster.
#
#     bench/workloads.sh [ROUNDS] [PROGRAM]
#     bench/workloads.sh --write NAME SIZE
#
# The second call prints the script of a name and a size; `bench/threads.sh` plays them by threads, and
# `bench/against_xvfb.sh` some of them on an X server.
#
# Each time is the best of ROUNDS (3 if left out), which a busy machine disturbs least. PROGRAM is a built
# trestle; where it is left out, the launcher proves and builds it. It wants date with %N.
#
# A script has at most 100,000 lines, 4 MiB and 64 reports, and one for check 2,000 steps and 65,536 pixels.
# So the greatest sizes that fit are about 96,000 lines of the typescript, 89,000 with a repaint after each
# ninth, 99,000 moves, 90,000 figures, 90,000 events and 19,000 rounds of the desktop, and exactly 64 dumps
# and 2,000 checked steps. The script of gen 1 has one size, and no ratio.
set -eu
case ${1-} in
    -h | --help) sed -n '2,/^[^#]/s/^# \{0,1\}//p' "$0"; exit ;;
esac
top=$(CDPATH= cd -P -- "$(dirname -- "$0")/.." && pwd)
rounds=${1:-3}
program=${2:-}
folder=$(mktemp -d)
trap 'rm -rf "$folder"' EXIT
if [ -z "$program" ] && [ "$rounds" != --write ]; then
    "$top/trestle" serial <"$top/demos/one_pixel.txt" >/dev/null
    program=$top/.build/trestle
fi

# write NAME SIZE: writes the script of this name and size. Its numbers look drawn at random, and are the
# same at each run: no product has more than 47 bits.
write() {
    awk -v name="$1" -v n="$2" '
    function draw(below) { state = state * 40014 % 2147483563; return int(state / 65536) % below }
    function text(bytes,    t) {
        for (t = ""; bytes > 0; bytes--) t = t sprintf("%c", 65 + draw(26))
        return t
    }
    function opening(wide, high) { print "trestle 1\nscreen " wide, high, "map8" }
    function whole(leaf, widget) {
        print "leaf", leaf, "0 1024 1024 0 1024 1024", widget
        print "root", leaf "\nbegin"
    }
    function windows(count, wide, high,    w) {
        print "node desk z 24"
        for (w = 1; w <= count; w++) print "leaf w" w, 0, wide, wide, 0, high, high, "solid", 8 * w
        for (w = 1; w <= count; w++) print "put w" w, "desk", draw(900), draw(650)
        print "root desk\nbegin"
    }
    function rectangle(    west, north) {
        west = draw(960)
        north = draw(700)
        return west " " west + 1 + draw(64) " " north " " north + 1 + draw(64)
    }

    # What was written shows after each 25th line. Nearly every line scrolls the whole window.
    function typescript(    i) {
        opening(1024, 768)
        whole("t", "lines")
        print "@t force"
        for (i = 1; i <= n; i++) print "@t line " text(16 + draw(24)) (i % 25 ? "" : "\n@t flush")
        print "sync\ndump"
    }
    # Nothing shows before the end, where the last screenful is all that does.
    function unseen(    i) {
        opening(1024, 768)
        whole("t", "lines")
        for (i = 1; i <= n; i++) print "@t line " text(16 + draw(24))
        print "sync\ndump"
    }
    # The window is painted anew after each ninth line.
    function repaints(    i) {
        opening(1024, 768)
        whole("t", "lines")
        print "dump"
        for (i = 1; i <= n; i++) print "@t line " text(16 + draw(24)) (i % 9 ? "" : "\n@t force")
        print "sync\ndump"
    }
    function edit() {
        if (draw(2)) print "lift w" 1 + draw(31)
        else print "move w" 1 + draw(31), draw(900), draw(650)
    }
    function moves(    i) {
        opening(1024, 768)
        windows(31, 200, 150)
        for (i = 1; i <= n; i++) edit()
        print "sync\ndump"
    }
    # The same on a painted screen, where each window is painted anew after each hundredth edit.
    function painted(    i, w) {
        opening(1024, 768)
        windows(31, 200, 150)
        print "dump"
        for (i = 1; i <= n; i++) {
            edit()
            for (w = 1; i % 100 == 0 && w <= 31; w++) print "@w" w, "force"
        }
        print "sync\ndump"
    }
    # What was edited shows after each eighth command. Most lines stand in a window that has room for 96 of 200.
    function editor(    i, what) {
        print "trestle 2\nscreen 1024 768 map8"
        whole("e", "edit")
        print "@e force"
        for (i = 1; i <= n; i++) {
            what = draw(10)
            if (what < 4) print "@e insert", text(draw(13))
            else if (what < 6) print "@e split"
            else if (what < 8) print "@e erase"
            else print "@e goto", draw(200), draw(81)
            if (i % 8 == 0) print "@e force"
        }
        print "sync\ndump"
    }
    # Up to 40 figures stand on the canvas at once.
    function figures(    i, stand, what) {
        opening(1024, 768)
        whole("k", "canvas")
        for (i = 1; i <= n; i++) {
            what = stand < 40 ? draw(3) : 2
            stand += what < 2 ? 1 : stand > 0 ? -1 : 0
            if (what == 0) print "@k rect", rectangle(), draw(256)
            else if (what == 1) print "@k swap", rectangle()
            else print "@k undo"
            if (i % 10 == 0) print "@k force"
        }
        print "sync\ndump"
    }
    # A cage is set after each tenth event, and events are taken from time to time.
    function events(    i, w) {
        opening(1024, 768)
        windows(16, 200, 150)
        for (i = 1; i <= n; i++) {
            w = 1 + draw(16)
            if (i % 20 == 5) print "mouse", i, "down 1"
            else if (i % 20 == 15) print "mouse", i, "up 1"
            else if (i % 20 == 10) print "key", i, draw(256)
            else print "motion", i, draw(1024), draw(768)
            if (i % 10 == 0) print "@w" w, (i % 50 ? "cage 0 150 0 100 " (draw(2) ? "here" : "both") : "take")
        }
        print "sync\ndump"
    }
    function dumps(    i) {
        opening(1024, 1024)
        whole("w", "board 8040201008040201 0 0")
        for (i = 1; i <= n; i++) print "dump"
    }
    # A window on the whole screen has another colour in each dump.
    function colours(    i) {
        opening(1024, 1024)
        whole("w", "solid 7")
        for (i = 1; i <= n; i++) print "@w tint", i * 4 % 256 "\nsync\ndump"
    }
    # Seven windows have a command each in turn; some are moved, and in the end the screen gets other pixels.
    function desktop(    i) {
        opening(1024, 768)
        print "node desk z 24\nnode edge border 250 4\nnode panel page 5 2"
        print "leaf text 0 640 640 0 192 192 lines\nleaf dots 0 300 300 0 200 200 canvas"
        print "leaf load 0 128 128 0 100 100 meter 16"
        for (i = 0; i < 4; i++) print "leaf lamp" i, "0 60 60 0 40 40 solid", 40 + i
        print "put text edge\nput edge desk 20 20"
        for (i = 0; i < 4; i++) print "put lamp" i, "panel"
        print "put dots desk 500 300\nput load desk 700 100\nput panel desk 100 400\nroot desk\nbegin\ndump"
        for (i = 1; i <= n; i++) {
            print "@text line LINE", i "\n@dots rect", i % 250, i % 250 + 40, i % 150, i % 150 + 40, i % 256
            print "@load bar", i % 16, i % 100 "\n@lamp0 tint", i % 256 "\n@lamp1 tint", i % 128
            if (i % 10 == 0) print "move edge", i % 300, i % 200
            if (i % 20 == 0) print "lift dots"
            if (i % 200 == 0) print "turn panel", i / 200 % 2
        }
        print "sync\ndump\nrescreen mono\nsync\ndump"
    }
    # A typescript and a canvas side by side, 256 by 256 together.
    function steps(    i) {
        opening(256, 256)
        print "node row h 0\nleaf t 128 128 128 0 256 256 lines\nleaf k 128 128 128 0 256 256 canvas"
        print "put t row\nput k row\nroot row\nbegin"
        for (i = 1; i <= n; i++) {
            if (i % 10 == 0) print draw(2) ? "@t force" : "@k force"
            else if (i % 2) print "@t line " text(draw(16))
            else if (draw(2)) print "@k undo"
            else print "@k rect 0", 1 + draw(128), 0, 1 + draw(256), draw(256)
        }
        print "sync"
    }

    BEGIN {
        state = 12345
        if (name == "typescript") typescript()
        if (name == "unseen") unseen()
        if (name == "repaints") repaints()
        if (name == "editor") editor()
        if (name == "moves") moves()
        if (name == "painted") painted()
        if (name == "figures") figures()
        if (name == "events") events()
        if (name == "dumps") dumps()
        if (name == "colours") colours()
        if (name == "desktop") desktop()
        if (name == "steps") steps()
        print "end"
    }' >"$folder/$1.$2"
}

# best WORDS FILE: the nanoseconds that the program takes for a script, in the best of all rounds.
# (the words of gen are two)
best() {
    least=
    round=0
    while [ "$round" -lt "$rounds" ]; do
        start=$(date +%s%N)
        "$program" $1 <"$2" >/dev/null || { echo "workloads: $1 <$2 ends with status $?" >&2; exit 1; }
        taken=$(($(date +%s%N) - start))
        [ -n "$least" ] && [ "$least" -le "$taken" ] || least=$taken
        round=$((round + 1))
    done
    echo "$least"
}

# measure NAME WORD SIZE: a script of this size, and one of twice the size.
measure() {
    greater=$((2 * $3))
    write "$1" "$3"
    write "$1" "$greater"
    once=$(best "$2" "$folder/$1.$3")
    twice=$(best "$2" "$folder/$1.$greater")
    echo "$1 $2 $3 $once $greater $twice $(wc -l <"$folder/$1.$greater")" | awk '{
        printf "%-10s %-6s n=%d ms=%.1f n=%d ms=%.1f ratio=%.2f us_a_line=%.2f\n",
            $1, $2, $3, $4 / 1e6, $5, $6 / 1e6, $6 / $4, $6 / 1e3 / $7
    }'
}

if [ "$rounds" = --write ]; then
    write "$2" "$3"
    cat "$folder/$2.$3"
    exit
fi
measure typescript serial 40000
measure unseen serial 45000
measure repaints serial 40000
measure editor serial 20000
measure moves serial 10000
measure painted serial 10000
measure figures serial 30000
measure events serial 45000
measure dumps serial 1
measure dumps serial 30
measure colours serial 30
measure desktop serial 1000
measure steps check 1000
taken=$(best 'gen 1' /dev/null)
echo "$taken" | awk '{
    printf "generated  gen 1  n=2039 ms=%.1f us_a_line=%.2f\n", $1 / 1e6, $1 / 1e3 / 2039
}'
