# Read by ./trestle, ./trestle-session and ./build: whether the programs in .build/ were made of the
# files as they are now. It starts two processes and no more, since each call of a program pays for them.
#
# .build/             the proved programs
# .build/unproved/    the unproved ones
#
# In each of them:
# trestle, trestle-session   the programs
# made_of   three lines: the rt that built them, the folder of that rt's toolchain, and the folders
#           of the crates that they are made of
# looks     how their files looked when they were read
set -f
programs='trestle trestle-session'
place=.build

# What can be seen of all that the programs are made of without reading it: for each file its size,
# its inode, when it was last written and when it was last changed in any way, which no call sets
# back, as `touch` does with the first. What rt makes lies in out/, and no program is made of proofs
# or of edits that rt must refuse: what was proved once of these sources and definitions stays proved,
# whatever becomes of the files that led there. (This ends the shell that it is called in; $crates is
# several words)
looks() {
    exec find -L "$rt" "$kit/KIT-ID" crates.txt HANDLES $crates \
        -path 'crates/*/out' ! -path 'crates/*/*/out' -prune -o \
        -path 'crates/*/proofs' ! -path 'crates/*/*/proofs' -prune -o \
        -path 'crates/*/must-fail' ! -path 'crates/*/*/must-fail' -prune -o \
        -type f -printf '%s %i %T@ %C@ %p\0'
}

# Leaves the first rt on the PATH in $found, or nothing. (`$(command -v rt)` is a process more)
find_rt() {
    found=
    before=$IFS
    IFS=:
    for folder in $PATH; do
        case $folder in /*) ;; *) folder=$PWD/$folder ;; esac
        [ -f "$folder/rt" ] && [ -x "$folder/rt" ] && found=$folder/rt && break
    done
    IFS=$before
}

# Whether the programs are in the folder $top/$place.
are_there() {
    for name in $programs; do [ -x "$top/$place/$name" ] || return 1; done
}

# Whether the programs in the folder $top/$place were made of files that look as they do now, by the rt
# that is found. Where none is found, as in a shell that doesn't know the toolchain, the one that built
# them is looked at.
is_fresh() {
    are_there && [ -f "$top/$place/made_of" ] || return 1
    { read -r rt && read -r kit && read -r crates; } <"$top/$place/made_of" || return 1
    [ -z "$found" ] || [ "$found" = "$rt" ] || return 1
    { cd -P -- "$top/" && looks 2>/dev/null; } | cmp -s - "$top/$place/looks"
}

# Runs a program with these words. Where the programs aren't built for the files as they are now, ./build
# builds them first. (The launchers call this and nothing else)
launch() {
    program=$1 how=
    shift
    find_rt
    if [ "$1" = --unproved ]; then
        how=$1 place=.build/unproved
        shift
        echo "$program: this program is unproved: its run-time checks find only some mistakes" >&2
    fi
    if ! is_fresh; then
        [ -z "$how" ] && [ -t 2 ] && (place=.build/unproved && is_fresh) &&
            echo "$program: a proof begins; ./$program --unproved plays at once, by the unproved program" >&2
        "$top/build" $how </dev/null >/dev/null || exit 1
    fi
    exec "$top/$place/$program" "$@"
}
