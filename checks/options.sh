#!/bin/sh
# The help text, the man page, the completions and the tables of README.md and docs/formats.md name exactly the options
# that the program takes, and the completions its schemes. Where `man` is there it reads the page without a warning. Silent
# where all is as it should be.
#
#   sh checks/options.sh PROGRAM
set -u
LC_ALL=C
export LC_ALL
program=$1
space=$(mktemp -d) || exit 1
trap 'rm -rf "$space"' EXIT
failures=0

# names: the options in standard input, sorted. `--help` and `--version` are no options: each stands alone.
names() {
    grep -o -e '--[a-z][a-z]*' | grep -vx -e '--help' -e '--version' | sort -u
}

"$program" --help >"$space/help" || exit 1
names <"$space/help" >"$space/of the help text"
sed 's/\\-/-/g' docs/ygm_run.1 | names >"$space/of ygm_run.1"
names <completions/ygm_run.bash >"$space/of ygm_run.bash"
names <completions/_ygm_run >"$space/of _ygm_run"
sed 's/ -l / --/g' completions/ygm_run.fish | names >"$space/of ygm_run.fish"
for file in README.md docs/formats.md; do
    sed -n 's/^| `\(--[a-z]*\).*/\1/p' "$file" | names >"$space/of ${file##*/}"
done

# Of all names that are anywhere, in the code too, those that the program takes: an unknown option is refused as such.
names <crates/ygm_run/src/words.rt >"$space/code"
cat "$space/code" "$space/of "* | sort -u | while read -r option; do
    "$program" tally "$option" 2>&1 | grep -qx 'ygm_run: unknown option' || echo "$option"
done >"$space/taken"
if [ ! -s "$space/taken" ]; then
    echo 'checks/options.sh: the program takes no option' >&2
    failures=1
fi
for list in "$space/of "*; do
    if ! cmp -s "$space/taken" "$list"; then
        printf 'checks/options.sh: the options %s differ from those that the program takes:\n' "${list##*/}" >&2
        diff "$space/taken" "$list" >&2
        failures=1
    fi
done

# The schemes that the program takes, of those in the code, are those that each completion gives.
sed -n 's/.*"\([a-z]*\)" => Some(Scheme::.*/\1/p' crates/ygm_run/src/words.rt | sort | while read -r scheme; do
    "$program" tally --scheme "$scheme" 2>&1 | grep -qx 'ygm_run: bad value' || echo "$scheme"
done >"$space/schemes"
for file in completions/*; do
    sed -n "s/.*scheme.*[('\"]\(none[a-z ]*\).*/\1/p" "$file" | tr ' ' '\n' | sort >"$space/given"
    if [ ! -s "$space/schemes" ] || ! cmp -s "$space/schemes" "$space/given"; then
        printf 'checks/options.sh: the schemes of %s differ from those that the program takes\n' "$file" >&2
        failures=1
    fi
done

if command -v man >"$space/where" 2>&1; then
    if ! LC_ALL=C.UTF-8 MANROFFSEQ='' MANWIDTH=80 man --warnings -E UTF-8 -l -Tutf8 -Z docs/ygm_run.1 \
        >"$space/page" 2>"$space/warnings" || [ -s "$space/warnings" ]; then
        echo 'checks/options.sh: man warns of docs/ygm_run.1:' >&2
        cat "$space/warnings" >&2
        failures=1
    fi
fi
[ "$failures" -eq 0 ]
