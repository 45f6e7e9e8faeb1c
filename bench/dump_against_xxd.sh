#!/bin/sh
# Times the dump of a 1024 by 1024 screen against `xxd -p` of as many bytes, in one run, and prints
# both times and their ratio: below 1 trestle is the faster one. It wants xxd and date with %N.
set -eu
case ${1-} in
    -h | --help) sed -n '2,/^[^#]/s/^# \{0,1\}//p' "$0"; exit ;;
esac
top=$(CDPATH= cd -P -- "$(dirname -- "$0")/.." && pwd)
rounds=${1:-40}
folder=$(mktemp -d)
trap 'rm -rf "$folder"' EXIT
command -v xxd >/dev/null || { echo "dump_against_xxd: xxd is not installed" >&2; exit 1; }

printf '%s\n' 'trestle 1' 'screen 1024 1024 map8' 'leaf w 0 0 0 0 0 0 solid 171' \
    'root w' 'begin' 'dump' 'end' >"$folder/script"
"$top/trestle" serial <"$folder/script" >/dev/null
program=$top/.build/trestle
head -c 1048576 /dev/zero | tr '\0' '\253' >"$folder/screen"

# Nanoseconds that so many rounds of a command take.
timed() {
    start=$(date +%s%N)
    i=0
    while [ "$i" -lt "$rounds" ]; do
        "$@"
        i=$((i + 1))
    done
    end=$(date +%s%N)
    echo $(((end - start) / rounds))
}

dump() { "$program" serial <"$folder/script" >/dev/null; }
plain() { xxd -p "$folder/screen" >/dev/null; }

ours=$(timed dump)
theirs=$(timed plain)
awk -v a="$ours" -v b="$theirs" 'BEGIN {
    printf "trestle_ms=%.2f xxd_ms=%.2f ratio=%.3f\n", a / 1e6, b / 1e6, a / b
}'
