#!/bin/sh
# A program, as ./install --unproved puts it there: runs the unproved one of its name, and says at each call that it is one.
me=$0
[ -L "$me" ] && me=$(readlink -f -- "$me")
case $me in /*) ;; *) me=./$me ;; esac
name=${me##*/}
echo "$name: this program is unproved: its run-time checks find only some mistakes" >&2
exec "${me%/*}/unproved/$name" "$@"
