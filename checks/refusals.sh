#!/bin/sh
# Refusals of the real program, seen from outside: its status, one line on standard error, nothing on standard
# output. Silent where all is as it should be.
#
#   sh checks/refusals.sh PROGRAM
set -u
LC_ALL=C
export LC_ALL
program=$(realpath "$1") || exit 1
space=$(mktemp -d) || exit 1
trap 'rm -rf "$space"' EXIT
cd "$space" || exit 1
failures=0

# is NAME STATUS NOTE: the last run, whose status is in `status`, ended so.
is() {
    printf '%s\n' "$3" >expected
    if [ "$status" -ne "$2" ] || ! cmp -s expected err || [ -s out ]; then
        printf 'checks/refusals.sh: %s: status %s, and not %s and "%s":\n' "$1" "$status" "$2" "$3" >&2
        cat err >&2
        failures=$((failures + 1))
    fi
}

# refused NAME STATUS NOTE WORD..: the program with these words ends so.
refused() {
    name=$1 number=$2 note=$3
    shift 3
    : >out
    "$program" "$@" >out 2>err
    status=$?
    is "$name" "$number" "$note"
}

printf 'b\na\n' >lines
mkdir folder
head -c 1000001 /dev/zero | tr '\0' a >long
head -c 1000000 /dev/zero | tr '\0' a >longest

refused 'no words' 1 'ygm_run: no job'
refused 'another job' 1 'ygm_run: unknown job' count lines
refused 'an option' 1 'ygm_run: unknown option' tally --x lines
refused 'an option with =' 1 'ygm_run: unknown option' tally --ranks=2 lines
refused 'an option given twice' 1 'ygm_run: option given twice' tally --ranks 1 --ranks 1 lines
refused 'an option without a value' 1 'ygm_run: option without a value' tally --ranks
refused 'a number that begins with 0' 1 'ygm_run: bad value' tally --ranks 01 lines
refused 'another scheme' 1 'ygm_run: bad value' tally --scheme direct lines
refused 'a buffer of 63 bytes' 1 'ygm_run: bad value' tally --buffer 63 lines
refused 'a buffer of 65,537 bytes' 1 'ygm_run: bad value' tally --buffer 65537 lines
refused 'no file' 1 'ygm_run: no file' tally
refused 'more files than ranks' 1 'ygm_run: too many files' tally --ranks 2 lines lines lines
refused 'cores that do not divide the ranks' 1 'ygm_run: layout' tally --ranks 6 --cores 4 lines
refused '33 ranks' 1 'ygm_run: too many ranks' tally --ranks 33 lines
refused 'an unknown option after one given twice' 1 'ygm_run: unknown option' tally --ranks 1 --ranks 1 --x lines
refused 'help after a job' 1 'ygm_run: unknown option' tally --help lines
refused 'help before another word' 1 'ygm_run: unknown job' --help tally
refused 'a word that is no text' 1 'ygm_run: a word is no text' tally "$(printf '\377')"
refused 'a file that is not there' 2 'ygm_run: cannot open missing' tally lines missing
refused 'a folder' 3 'ygm_run: read failed at rank 1' tally lines folder
refused 'a line of 1,000,001 bytes' 4 'ygm_run: rank 0 line 1: line too long' tally long

: >out
"$program" tally lines >/dev/full 2>err
status=$?
is 'a full device' 5 'ygm_run: write failed'

"$program" tally lines >&- 2>err
status=$?
is 'a closed standard output' 5 'ygm_run: write failed'

"$program" --help >/dev/full 2>err
status=$?
is 'help on a full device' 5 'ygm_run: write failed'

# The text is longer than what a pipe takes that nobody reads.
: >out
{ "$program" tally longest 2>err; echo $? >ended; } | true
status=$(cat ended)
is 'a broken pipe' 5 'ygm_run: write failed'

# And what isn't refused: the longest line, lines from a file whose name begins with `--`, and the lone words that ask for
# no job.
cp lines ./--x
printf '1\ta\n1\tb\n' >expected
if ! "$program" tally -- --x >out 2>err || ! cmp -s expected out || [ -s err ]; then
    echo 'checks/refusals.sh: a name after -- is not taken' >&2
    failures=$((failures + 1))
fi
{ printf '1\t'; cat longest; echo; } >expected
if ! "$program" tally longest >out 2>err || ! cmp -s expected out || [ -s err ]; then
    echo 'checks/refusals.sh: a line of 1,000,000 bytes is not taken' >&2
    failures=$((failures + 1))
fi

"$program" --help >help
for word in --help -h --version; do
    expected=help
    if [ "$word" = --version ]; then
        expected=version
        echo 'ygm_run 0.1.0' >version
    fi
    if ! "$program" "$word" >out 2>err || [ ! -s out ] || ! cmp -s "$expected" out || [ -s err ]; then
        printf 'checks/refusals.sh: %s is not answered\n' "$word" >&2
        failures=$((failures + 1))
    fi
done

[ "$failures" -eq 0 ]
