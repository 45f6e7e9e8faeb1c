#!/bin/sh
# Treats the program as badly as its users' scripts, streams and machines can, and compares what it answers.
#
#     bench/hostile.sh [COUNT [SEED [PROGRAM]]]
#
# 1. scripts at each limit: the last value that passes, and the first that is refused;
# 2. streams that are slow, cut, full, closed, or stopped on the way, scarce memory, threads that can't be started, and 64
#    programs at once;
# 3. COUNT scripts (2,000 if left out) that are drawn from SEED, cut, joined and bent: which is refused and why is
#    compared with a second reader, and what some of them print with a plain model, which know nothing of the program;
# 4. the dearest scripts and streams that are allowed, at a hundredth of their size and at twice that: time, memory;
# 5. a session that differs, which no script brings about: an unproved program with a fault is compiled, in minutes.
#
# PROGRAM is a built trestle; where it is left out, the launcher proves and builds it. It wants Python 3.8 and cc, and
# for the last the toolchain's rt; without it that is left out, and said so.
set -eu
case ${1-} in
    -h | --help) sed -n '2,/^[^#]/s/^# \{0,1\}//p' "$0"; exit ;;
esac
top=$(CDPATH= cd -P -- "$(dirname -- "$0")/.." && pwd)
count=${1:-2000}
seed=${2:-1}
program=${3:-}
if [ -z "$program" ]; then
    "$top/trestle" serial <"$top/demos/one_pixel.txt" >/dev/null
    program=$top/.build/trestle
fi
export PYTHONDONTWRITEBYTECODE=1
failed=0

# try NAME WORD..: calls what tries the program.
try() {
    name=$1
    shift
    python3 "$top/judges/model/$name.py" "$program" "$@" || failed=1
}

try limits
try streams
try fuzz "$count" "$seed"
try worst

if command -v rt >/dev/null; then
    folder=$(mktemp -d)
    trap 'rm -rf "$folder"' EXIT
    trap 'exit 1' HUP INT TERM
    "$top/judges/differing.py" "$folder" || failed=1
else
    echo "differing: left out, since no rt is on the PATH"
fi
exit "$failed"
