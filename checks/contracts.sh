#!/bin/sh
# Whether the clauses that docs/contracts.md names are where it says. Silent where they are; otherwise a line for each
# that isn't.
#
#   sh checks/contracts.sh [FOLDER]     FOLDER is the top of the repository, here if none is given
#
# A heading `## `CRATE`` names a crate, and each row of the tables below it has a cell of functions, a cell of prose and
# a cell of clauses; names stand in backquotes. Each clause must stand in each function of its row:
#
#   function            a function outside of any impl or trait; laws are such functions
#   Type::method        the method in each impl of the type; where an impl of a trait has no clauses, the trait's
#   Trait::method       the method as the trait declares it
#   Trait               the trait itself, whose clauses are its `ghost` laws
#   (an empty cell)     the functions of the row above
#
#   name                a clause `ensures name { .. }`
#   ensures             the clause `ensures { .. }` without a name
#   name.field          a field of a record that the clause cites, by itself or through an `abbrev`
#   name.field.inner    a field of a record that that field cites, and so on
set -u
LC_ALL=C
export LC_ALL
cd "${1:-.}" || exit 1
find crates/*/specs -name '*.antt' >/dev/null 2>&1 || exit 1
specs=$(find crates/*/specs -name '*.antt' | sort)
sources=$(find crates/*/src -name '*.rt' ! -name 'tests.rt' ! -path '*/tests/*' | sort)
# shellcheck disable=SC2086
exec awk -f checks/contracts.awk $specs $sources docs/contracts.md
