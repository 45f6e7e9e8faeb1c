#!/bin/sh
# Refuses each growth of the memory in turn.
#
#     bench/want_of_memory.sh program [PROGRAM [WORD..]]
#     bench/want_of_memory.sh session [SESSION [DEMO..]]
#     bench/want_of_memory.sh tests [PROGRAM]
#     bench/want_of_memory.sh steps [FIRST [LAST]]
#
# program   The calls of the program trestle that judges/model/growths.py names, or those whose first word is one of
#           WORD.. : each run ends with status 6 and nothing written, or it writes what is due. PROGRAM is a built
#           trestle; where it is left out, the launcher proves and builds it.
# session   The demos, line by line: a line is answered, or refused for want of memory and answered when it is sent again; only at the
#           start the session ends with status 6. SESSION is a built trestle-session, and judges/model/session_growths.py says more.
# tests     Each test of the stage (crates/tr_stage_tests). A test makes a step once more that wanted memory, and then
#           all must come out as without; or it ends for want of memory, where it was still making its stage. Any other
#           end is an error. The random runs are left out: they have too many growths, and their model asks for none
#           again. PROGRAM is a linked program of tests; where it is left out, `rt test` proves and builds it.
# steps     Two stages side by side (bench/twins) play a script with each sort of step, and where a step of the first wants
#           memory it is compared with the second, field by field. The growths of the numbers FIRST to LAST are refused,
#           one in each run, or from FIRST on, or all of them: some 2,300 and 2,500 in two ways, in 12 minutes of the
#           processor. The twins are not proved, only linked by `rt try`, with its checks, in a minute of the processor. It
#           keeps no program, so theirs is taken out of its folder while it counts the growths.
#
# The first three want cc.
set -eu
case ${1-} in
    -h | --help) sed -n '2,/^[^#]/s/^# \{0,1\}//p' "$0"; exit ;;
esac
top=$(CDPATH= cd -- "$(dirname -- "$0")/.." && pwd)
folder=$(mktemp -d)
trap 'rm -rf "$folder"' EXIT
export PYTHONDONTWRITEBYTECODE=1

usage() { sed -n 's/^#     /    /p' "$0" >&2; exit 2; }

# Compiles what refuses a growth.
library() { cc -O2 -shared -fPIC -o "$folder/nth.so" "$top/bench/nth_allocation.c" -ldl; }

program() {
    library
    if [ $# -eq 0 ]; then
        "$top/trestle" serial <"$top/demos/one_pixel.txt" >/dev/null
        set -- "$top/.build/trestle"
    fi
    program=$1
    shift
    python3 "$top/judges/model/growths.py" "$program" "$folder/nth.so" "$@"
}

# run TEST NUMBER: its status in $status, what it wrote in $folder/out. No allocation has the number 0.
run() {
    status=0
    LD_PRELOAD=$folder/nth.so REFUSED=$2 timeout 20 "$program" "$1" >"$folder/out" 2>&1 || status=$?
}

session() {
    library
    if [ $# -eq 0 ]; then
        "$top/trestle-session" </dev/null >/dev/null
        set -- "$top/.build/trestle-session"
    fi
    session=$1
    shift
    python3 "$top/judges/model/session_growths.py" "$session" "$folder/nth.so" "$@"
}

tests() {
    library
    if [ $# -eq 0 ]; then
        (cd "$top/crates/tr_stage_tests" && rt test >"$folder/rt" 2>&1) || { tail -n 5 "$folder/rt" >&2; exit 1; }
        set -- "$top/crates/tr_stage_tests/out/tr_stage_tests_tests"
    fi
    program=$1
    wrong=0
    tried=0
    for test in $("$program" --list | sed -n '/^trials::/d; /^ways::/d; s/^\([^ ]*::[^ :]*\).*/\1/p'); do
        run "$test" 0
        count=$(sed -n 's/^allocations //p' "$folder/out")
        same=0
        ended=0
        number=0
        while [ "$number" -lt "$count" ]; do
            number=$((number + 1))
            run "$test" "$number"
            if [ "$status" -eq 0 ]; then
                same=$((same + 1))
            elif grep -q NoMemory "$folder/out"; then
                ended=$((ended + 1))
            else
                wrong=$((wrong + 1))
                echo "$test, allocation $number: status $status"
            fi
        done
        echo "$test: of $count allocations $same are asked for again, $ended end the test"
        tried=$((tried + count))
    done
    echo "tests: $tried growths refused, $wrong wrong"
    exit $((wrong > 0))
}

# The growth that is refused in each run of the twins. They spend as many before as make it the one that is meant.
refused=5000

# Copies the crates, with the twins as one more in $crate.
copy() {
    crate=$folder/copy/crates/twins
    mkdir -p "$crate/src" "$crate/specs" "$crate/proofs"
    (cd "$top" && git ls-files -co --exclude-standard -z crates crates.txt HANDLES | tar --null -T - -cf -) |
        tar -C "$folder/copy" -xf -
    git init -q "$folder/copy"
    for file in main sameness; do cp "$top/bench/twins/$file.txt" "$crate/src/$file.rt"; done
    : >"$crate/specs/Lib.antt"
    : >"$crate/proofs/Lib.antt"
    cat "$top/bench/twins/crate" >>"$folder/copy/crates.txt"
}

# Links $folder/twins, and counts the growths in both ways: the counts are in $folder/counted, and what else is said is in
# $folder/said.
build() {
    mkdir "$folder/given" "$folder/tries"
    for way in plain shared; do
        cp "$top/bench/twins/script" "$folder/given/$way"
        printf '%s\n' count "$way" >"$folder/given/$way.args"
    done
    while kill -0 $$ 2>/dev/null && ! ln "$folder"/tries/*/*/program "$folder/twins" 2>/dev/null; do sleep 0.1; done &
    waiting=$!
    # (the interpreter, which knows no arguments, gets one step)
    (cd "$crate" && TMPDIR=$folder/tries rt try --steps 1 --fail-alloc "$refused" --cases "$folder/given") \
        >"$folder/counted" 2>"$folder/said" || true
    kill "$waiting" 2>/dev/null || true
}

# twins GROWTH WAY: plays the script with this growth refused, and counts in which way it ended.
twins() {
    status=0
    # (at most 20 seconds of the processor: on a crowded machine those of the clock say nothing)
    (ulimit -t 20 && exec "$folder/twins" $((refused - $1)) "$2") <"$top/bench/twins/script" >"$folder/out" 2>&1 || status=$?
    tried=$((tried + 1))
    # (where it stopped at a fault, it says which, whatever the status)
    [ -s "$folder/out" ] && status="$status, and it wrote"
    case $status in
    0) without=$((without + 1)) ;;
    6) elsewhere=$((elsewhere + 1)) ;;
    10) compared=$((compared + 1)) ;;
    *)
        wrong=$((wrong + 1))
        echo "growth $1, $2: status $status"
        cat "$folder/out"
        ;;
    esac
}

# growths WAY: how many growths the play has in this way.
growths() {
    awk -v way="$1" -v refused="$refused" '
        $1 == "==" { is_asked = $2 == way }
        $1 == "left" && is_asked { growths = refused - 1 - $2 }
        END { print (growths > 0 ? growths : 0) }' "$folder/counted"
}

steps() {
    copy
    build
    tried=0 compared=0 elsewhere=0 without=0 wrong=0
    for way in plain shared; do
        growth=${1:-1}
        last=$(growths "$way")
        if [ ! -e "$folder/twins" ] || [ "$last" -eq 0 ]; then
            cat "$folder/counted" "$folder/said" >&2
            exit 1
        fi
        [ "$last" -le "${2:-$last}" ] || last=$2
        while [ "$growth" -le "$last" ]; do
            twins "$growth" "$way"
            growth=$((growth + 1))
        done
    done
    printf 'steps: %d growths refused: after %d the stages were compared, ' "$tried" "$compared"
    printf '%d were wanted before or between steps, %d by the other stage ' "$elsewhere" "$without"
    printf 'or by what does without, %d wrong\n' "$wrong"
    exit $((wrong > 0))
}

[ $# -gt 0 ] || usage
what=$1
shift
case $what in
program | session | tests | steps) "$what" "$@" ;;
*) usage ;;
esac
