#!/bin/sh
# The text of a run doesn't depend on the layout, the scheme or the buffer: the same lines give the same bytes by each number
# of ranks, each number of cores that divides it, each scheme, and the least and the greatest buffer. Of each four ranks
# three have a file. Silent where all texts are the same.
#
#   sh checks/layouts.sh PROGRAM
set -u
LC_ALL=C
export LC_ALL
program=$1
space=$(mktemp -d) || exit 1
trap 'rm -rf "$space"' EXIT
tab=$(printf '\t')
failures=0
awk 'BEGIN { for (k = 1; k <= 300; k++) printf "key %d%*s\n", k * k % 211, k % 50 ? 0 : 100, "" }' >"$space/lines" || exit 1
sort "$space/lines" | uniq -c | sed "s/^ *\([0-9]*\) /\1$tab/" >"$space/expected"
[ -s "$space/expected" ] || exit 1

# same OPTION..: the program with these options writes the expected text.
same() {
    if ! "$program" tally "$@" "$space"/f? >"$space/out" || ! cmp "$space/expected" "$space/out" >&2; then
        printf 'checks/layouts.sh: not the same text with %s\n' "$*" >&2
        failures=$((failures + 1))
    fi
}

ranks=0
while [ "$ranks" -lt 32 ]; do
    ranks=$((ranks + 1))
    awk -v files="$((ranks - ranks / 4))" -v to="$space/f" '{ print >(to sprintf("%c", 65 + NR % files)) }' \
        "$space/lines" || exit 1
    cores=0
    while [ "$cores" -lt "$ranks" ]; do
        cores=$((cores + 1))
        [ $((ranks % cores)) -eq 0 ] || continue
        for scheme in none nr nlnr; do
            for buffer in 64 65536; do
                same --ranks "$ranks" --cores "$cores" --scheme "$scheme" --buffer "$buffer"
            done
        done
    done
done
[ "$failures" -eq 0 ]
