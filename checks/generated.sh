#!/bin/sh
# What the real program makes of large generated files is what `sort` and `uniq -c` make of them: four files of so many
# skewed lines each, some above 64 KiB, some that end with CR, the last without LF, and two empty files. Silent where it is.
#
#   sh checks/generated.sh PROGRAM LINES
set -u
LC_ALL=C
export LC_ALL
program=$1
lines=$2
space=$(mktemp -d) || exit 1
trap 'rm -rf "$space"' EXIT
tab=$(printf '\t')
for file in 1 2 3 4; do
    awk -v seed="$file" -v lines="$lines" 'BEGIN {
        srand(seed)
        for (long = "x"; length(long) < 70000; long = long long);
        for (k = 1; k <= lines; k++) {
            kind = rand()
            if (kind < 0.0005) print substr(long, 1, 65530 + int(20 * rand()))
            else if (kind < 0.3) printf "GET /%d\r\n", 5 * rand()
            else if (kind < 0.32) print ""
            else print "key " int(1 / (rand() + 0.00001))
        }
        printf "the last line"
    }' >"$space/f$file" || exit 1
done
: >"$space/f5"
: >"$space/f6"
for file in "$space"/f[1-4]; do
    sed 's/\r$//' "$file"
    echo
done | sort | uniq -c | sed "s/^ *\([0-9]*\) /\1$tab/" >"$space/expected"
if ! "$program" tally "$space"/f? >"$space/out" || ! cmp "$space/expected" "$space/out" >&2; then
    echo 'checks/generated.sh: not what sort and uniq say' >&2
    exit 1
fi
