#!/bin/sh
# What the real program makes of files is what `sort` and `uniq -c` make of them. Silent where it is. The files end
# their lines with LF, and no line ends with CR.
#
#   sh checks/against_sort.sh PROGRAM FILE..
set -u
LC_ALL=C
export LC_ALL
program=$1
shift
space=$(mktemp -d) || exit 1
trap 'rm -rf "$space"' EXIT
tab=$(printf '\t')
sort "$@" | uniq -c | sed "s/^ *\([0-9]*\) /\1$tab/" >"$space/expected"
if ! "$program" tally "$@" >"$space/out" || ! cmp "$space/expected" "$space/out" >&2; then
    echo 'checks/against_sort.sh: not what sort and uniq say' >&2
    exit 1
fi
