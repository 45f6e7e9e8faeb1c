#!/bin/sh
# Plays random scripts on threads, several at once, so that the threads' orders differ, and judges what they wrote by `serial`.
#
#     bench/interleavings.sh [COUNT] [PROGRAM] [SEED]
#
# COUNT is 2,000 if left out, and SEED is 1: the number of the first script. PROGRAM is a built trestle; where it is left out, the launcher
# proves and builds it. How each is judged is told in judges/model/threads.py.
set -eu
case ${1-} in
    -h | --help) sed -n '2,/^[^#]/s/^# \{0,1\}//p' "$0"; exit ;;
esac
top=$(CDPATH= cd -P -- "$(dirname -- "$0")/.." && pwd)
program=${2:-}
if [ -z "$program" ]; then
    "$top/trestle" serial <"$top/demos/one_pixel.txt" >/dev/null
    program=$top/.build/trestle
fi
export PYTHONDONTWRITEBYTECODE=1
exec python3 "$top/judges/interleavings.py" "$program" "${1:-2000}" ${3:+"$3"}
