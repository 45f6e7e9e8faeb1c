#!/bin/sh
# tools/prove_apart.sh RT PLACE CRATE.. [--anew]   proves the programs of these crates (crates/NAME) and those alone, as
#                                                the gate proves them, and leaves the programs in the folder PLACE:
#                                                trestle_session as trestle-session
#
# Where nothing is proved yet, `rt all check` and `rt run` would take longer: they read every source before the first
# proof, and prove the crates of tests and benches too, and their workers wait for the crates below their own. `rt ci`
# starts a crate when those below it are done, the one with the longest chain above it first, and gives a crate that runs
# alone four processors. So it gets a repository of its own, outside of the checkout, with the needed crates and without
# their edits. rt keeps on this machine what it proves, by the sums of the files: the gate need not prove it again, and a
# second call goes on where the first one was ended. With --anew it proves all.
#
# It runs at the top of the checkout. Standard error tells how far it is, and what is wrong. The repository lies in TMPDIR,
# or else in /tmp; rt wants 3 GB there.
rt=$1
place=$2
shift 2
anew=
crates=
for word; do
    case $word in --anew) anew=$word ;; *) crates="$crates $word" ;; esac
done

# The lines of crates.txt for these crates.
lines() {
    awk -v crates="$crates" '
    BEGIN { number = split(crates, names); for (i = 1; i <= number; i++) { sub(/^crates\//, "", names[i]); wanted[names[i]] } }
    { line = $0; sub(/#.*/, "", line); split(line, halves, ":"); split(halves[1], left) }
    left[1] in wanted' crates.txt
}

# The repository: what a proof reads of the crates, and what rt runs the programs on.
copy() {
    lines >"$folder/repository/crates.txt" || return 1
    [ ! -f HANDLES ] || cp HANDLES "$folder/repository/" || return 1
    tar -cf "$folder/crates.tar" --no-wildcards-match-slash --exclude='crates/*/out' --exclude='crates/*/must-fail' $crates &&
        tar -C "$folder/repository" -xf "$folder/crates.tar" && rm "$folder/crates.tar"
}

# How many lines of sources, definitions and proofs each crate has: what its proof takes is about as much.
sizes() {
    (cd "$folder/repository" && find $crates \( -name '*.rt' -o -name '*.antt' \) -exec wc -l {} +) |
        awk '{ split($2, parts, "/") } parts[2] != "" { size[parts[2]] += $1 } END { for (name in size) print name, size[name] }'
}

# Tells each crate that is proved, or was, by what rt says.
tell() {
    awk -v sizes="$folder/sizes" '
    BEGIN { while ((getline line <sizes) > 0) { split(line, words, " "); size[words[1]] = words[2]; all += words[2]; total++ } }
    /^rt: [a-z0-9_]+ (proved|is kept: .*)$/ && $2 in size {
        done += size[$2]
        printf "build: %d of %d crates are proved, %d%% of the lines: %s\n", ++count, total, 100 * done / all, $2
        fflush()
    }
    /^rt: .* NOT PROVED/ { print "build: " substr($0, 5); fflush() }' >&2
}

# What rt said of each crate that it did not prove, and at its end.
complaints() {
    awk '
    /^== / { text = "" }
    { text = text $0 "\n" }
    /^rt: [a-z0-9_]+ (proved|is kept: .*)$/ { text = "" }
    /^rt: .* NOT PROVED/ { printf "%s", text; text = "" }
    END { printf "%s", text }' "$folder/said"
}

folder=$(mktemp -d "${TMPDIR:-/tmp}/trestle-proof.XXXXXX") || exit 1
trap 'rm -rf "$folder"' EXIT
trap 'exit 1' HUP INT TERM
# (rt wants to be called at the top of a repository, wherever TMPDIR lies)
mkdir -p "$folder/repository/.git" && copy && sizes >"$folder/sizes" || { echo 'prove_apart: the crates cannot be copied' >&2; exit 1; }
{ (cd "$folder/repository" && "$rt" ci $anew 2>&1); echo $? >"$folder/status"; } | tee "$folder/said" | tell
if [ "$(cat "$folder/status")" -ne 0 ]; then
    complaints >&2
    exit 1
fi
for crate in $crates; do
    name=${crate##*/}
    [ ! -f "$crate/src/main.rt" ] || cp "$folder/repository/$crate/out/$name" "$place/$(echo "$name" | tr _ -)" || exit 1
done
