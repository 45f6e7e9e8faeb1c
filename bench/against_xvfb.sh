#!/bin/sh
# Plays scripts on an X server without a screen and by `serial`, in turn, and prints the milliseconds of both and their ratio:
# below 1 trestle is the faster one. It fails where the server shows another picture.
#
#     bench/against_xvfb.sh [ROUNDS] [PROGRAM]
#
# Each time is the best of ROUNDS (3 if left out), and each round plays both. PROGRAM is a built trestle; where it is left out,
# the launcher proves and builds it. The scripts are those of bench/workloads.sh.
#
# Windows are played by bench/xvfb_client.c. The lines of a typescript are written by an xterm that is as large as the screen;
# its letters are others, so its picture is not compared, and the milliseconds that it takes without a line are told beside.
#
# It wants Xvfb, xterm, xwd, cc, and the headers of X11 and Xtst (Debian's xvfb, xterm, x11-apps, libx11-dev and libxtst-dev),
# and date with %N. Where there is no Xvfb it says so, and measures nothing.
set -eu
case ${1-} in
    -h | --help) sed -n '2,/^[^#]/s/^# \{0,1\}//p' "$0"; exit ;;
esac
top=$(CDPATH= cd -P -- "$(dirname -- "$0")/.." && pwd)
rounds=${1:-3}
program=${2:-}
server=
folder=$(mktemp -d)
trap '[ -z "$server" ] || kill "$server"; rm -rf "$folder"' EXIT
command -v Xvfb >/dev/null || { echo "against_xvfb: Xvfb is not installed, so that nothing is measured"; exit 0; }
for tool in xterm xwd cc; do
    command -v "$tool" >/dev/null || { echo "against_xvfb: $tool is not installed" >&2; exit 1; }
done
cc -O2 -std=c99 "$top/bench/xvfb_client.c" -o "$folder/client" -lX11 -lXtst
mkfifo "$folder/display"
if [ -z "$program" ]; then
    "$top/trestle" serial <"$top/demos/one_pixel.txt" >/dev/null
    program=$top/.build/trestle
fi

# serve SIZE: starts a server with a screen of this size, which ends the one before. It doesn't begin anew when its last
# client leaves, so that the next one needn't wait.
serve() {
    [ -z "$server" ] || { kill "$server"; wait "$server" || true; }
    Xvfb -displayfd 3 -noreset -nolisten tcp -screen 0 "$1" 3>"$folder/display" >"$folder/server" 2>&1 &
    server=$!
    read -r display <"$folder/display" || { cat "$folder/server" >&2; server=; exit 1; }
    export DISPLAY=":$display"
}

ours() { "$program" serial <"$folder/script" >"$folder/ours"; }
client() { "$folder/client" <"$folder/script" >"$folder/theirs" 2>"$folder/told"; }

# xterm_with WORD..: runs this in an xterm, and takes the picture that it leaves.
xterm_with() {
    xterm -fn fixed -geometry 170x59+0+0 -b 0 -j -sl 0 -e "$@" 2>"$folder/told"
    xwd -root -silent >"$folder/theirs"
}
text() { xterm_with cat "$folder/lines"; }
no_text() { xterm_with true; }

# timed CALL: the nanoseconds that one of the above takes.
timed() {
    start=$(date +%s%N)
    "$1" || { echo "against_xvfb: $1 ends with status $?" >&2; cat "$folder/told" >&2; exit 1; }
    echo $(($(date +%s%N) - start))
}

# least A B: the lesser of two numbers, of which the first may be missing.
least() {
    if [ -n "$1" ] && [ "$1" -le "$2" ]; then echo "$1"; else echo "$2"; fi
}

# measure NAME SIZE CALL: the script of this name and size by the program, and by what is called for the server.
measure() {
    "$top/bench/workloads.sh" --write "$1" "$2" >"$folder/script"
    sed -n 's/^@t line //p' "$folder/script" >"$folder/lines"
    serial= xvfb= idle= round=0
    while [ "$round" -lt "$rounds" ]; do
        taken=$(timed ours)
        serial=$(least "$serial" "$taken")
        taken=$(timed "$3")
        xvfb=$(least "$xvfb" "$taken")
        [ "$3" = client ] || { taken=$(timed no_text); idle=$(least "$idle" "$taken"); }
        round=$((round + 1))
    done
    if [ "$3" = client ]; then cmp "$folder/ours" "$folder/theirs"; fi
    echo "$1 $2 $serial $xvfb $idle" | awk '{
        note = $5 == "" ? "" : sprintf(" xterm alone ms=%.1f", $5 / 1e6)
        printf "%-8s n=%d serial ms=%.1f xvfb ms=%.1f ratio=%.2f%s\n", $1, $2, $3 / 1e6, $4 / 1e6, $3 / $4, note
    }'
}

serve 1024x768x8
measure moves 20000 client
measure painted 20000 client
measure events 90000 client
serve 1024x1024x8
measure colours 60 client
serve 1024x768x24
measure unseen 90000 text
