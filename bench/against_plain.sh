#!/bin/sh
# Plays scripts by `serial` and by a plain program that nothing is proved of, in turn, and prints the milliseconds and the peak
# memory of both, and the ratio of the times: below 1 trestle is the faster one. It fails where the two write different bytes.
#
#     bench/against_plain.sh [ROUNDS] [PROGRAM]
#
# Each time is the best of ROUNDS (3 if left out), and each round plays both. PROGRAM is a built trestle; where it is left out,
# the launcher proves and builds it. It plays most scripts of bench/workloads.sh, and that of gen 1.
#
# The plain program stands in judges/plain: Rust as one writes it for speed, with std alone, no unsafe code, no threads and no
# locks. It plays `serial`, `check` and `gen N` with all that they print and refuse. What is written goes out as it comes,
# where trestle keeps it until the end.
#
# It wants rustc, 1.88 or later, and date with %N. Where there is no rustc it says so, and measures nothing.
set -eu
case ${1-} in
    -h | --help) sed -n '2,/^[^#]/s/^# \{0,1\}//p' "$0"; exit ;;
esac
top=$(CDPATH= cd -P -- "$(dirname -- "$0")/.." && pwd)
rounds=${1:-3}
program=${2:-}
folder=$(mktemp -d)
trap 'rm -rf "$folder"' EXIT
PATH=${HOME-}/.cargo/bin:$PATH
command -v rustc >/dev/null || { echo "against_plain: rustc is not installed, so that nothing is measured"; exit 0; }
plain=$folder/plain
rustc --edition 2024 -O "$top/judges/plain/main.rs" -o "$plain"
if [ -z "$program" ]; then
    "$top/trestle" serial <"$top/demos/one_pixel.txt" >/dev/null
    program=$top/.build/trestle
fi

# run PROGRAM OUT: the words by this program.
# (the words of gen are two)
run() {
    "$1" $words <"$folder/script" >"$2" || { echo "against_plain: $1 $words ends with status $?" >&2; exit 1; }
}

# timed PROGRAM: the nanoseconds that it takes.
timed() {
    start=$(date +%s%N)
    run "$1" /dev/null
    echo $(($(date +%s%N) - start))
}

# peak PROGRAM: the kilobytes that it had at most; without time what the last look at it showed.
peak() {
    if [ -x /usr/bin/time ]; then
        /usr/bin/time -f %M -o "$folder/peak" "$1" $words <"$folder/script" >/dev/null
        cat "$folder/peak"
        return
    fi
    "$1" $words <"$folder/script" >/dev/null &
    most=0
    while now=$(sed -n 's/^VmHWM:[^0-9]*\([0-9]*\).*/\1/p' "/proc/$!/status" 2>/dev/null) && [ -n "$now" ]; do
        most=$now
    done
    wait "$!"
    echo "$most"
}

# least A B: the lesser of two numbers, of which the first may be missing.
least() {
    if [ -n "$1" ] && [ "$1" -le "$2" ]; then echo "$1"; else echo "$2"; fi
}

# compare NAME SIZE: what both programs write, their times and their memory, for the script that was written.
compare() {
    run "$program" "$folder/ours"
    run "$plain" "$folder/theirs"
    cmp "$folder/ours" "$folder/theirs"
    ours= theirs= round=0
    while [ "$round" -lt "$rounds" ]; do
        taken=$(timed "$program")
        ours=$(least "$ours" "$taken")
        taken=$(timed "$plain")
        theirs=$(least "$theirs" "$taken")
        round=$((round + 1))
    done
    echo "$1 $2 $ours $theirs $(peak "$program") $(peak "$plain")" | awk '{
        printf "%-8s n=%d trestle ms=%.1f MB=%.1f plain ms=%.1f MB=%.1f ratio=%.2f\n",
            $1, $2, $3 / 1e6, $5 / 1e3, $4 / 1e6, $6 / 1e3, $3 / $4
    }'
}

words='gen 1'
: >"$folder/script"
compare gen 1
words=serial
for workload in 'unseen 90000' 'typescript 80000' 'repaints 80000' 'editor 40000' 'moves 20000' 'painted 20000' 'figures 60000' 'dumps 1' 'dumps 60' \
    'events 90000' 'desktop 2000'; do
    "$top/bench/workloads.sh" --write "${workload% *}" "${workload#* }" >"$folder/script"
    compare "${workload% *}" "${workload#* }"
done
