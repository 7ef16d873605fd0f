#!/bin/sh
# checks/contracts.sh lets a right table pass and refuses each wrong row. Silent where it does.
set -u
top=$(cd "$(dirname "$0")/.." && pwd) || exit 1
space=$(mktemp -d) || exit 1
trap 'rm -rf "$space"' EXIT
cd "$space" || exit 1
mkdir -p checks docs crates/low/src crates/low/specs
cp "$top/checks/contracts.sh" "$top/checks/contracts.awk" checks

cat >crates/low/specs/Turns.antt <<'END'
-- What a turn does.
pub record Cut (n : ℕ) : Type 0 where
  pub begun : n ≡ 1
    × n ≡ 1

pub record Failed (n : ℕ) : Type 0 where
  -- where it stopped
  pub cut : Cut n
  pub sent : n ≡ 2

-- how it ended
abbrev pub Ended : ℕ → Type 0
Ended n = IfErr n (Failed n)
END
cat >crates/low/src/lib.rt <<'END'
ghost use Rattle.low.specs.Turns.{Ended, Failed as Broke};

pub trait Post {
    ghost keeps: { Self → Type 0 };

    fn put(&mut self, to: u32) -> bool
        requires within { to < 1 }
        ensures same { self.new ≡ self.old };
}

impl<T: Drop> Post for Links<T> {
    fn put(&mut self, to: u32) -> bool {
        true
    }
}

/// A turn.
pub fn turn(n: u64) -> u64
    // How it ended.
    ensures ended { Ended result }
    ensures broke { Broke result }
{
    one(n)
}

fn one(n: u64) -> u64
    ensures { result ≡ n }
{
    n
}
END

failures=0
# table ROW..: a table of these rows for the crate.
table() {
    printf '## `low`\n\n| function | what | clause |\n|---|---|---|\n' >docs/contracts.md
    printf '%s\n' "$@" >>docs/contracts.md
}

table '| `turn` | | `ended`, `broke.sent` |' '| | | `ended.cut.begun` |' '| `one` | | `ensures` |' \
    '| `Post::put`, `Links::put` | | `same` |' '| `Post` | | `keeps` |'
if ! sh checks/contracts.sh >said 2>&1 || [ -s said ]; then
    echo 'checks/contracts_test.sh: a right table is refused:' >&2
    cat said >&2
    failures=1
fi

# Each of these is wrong, by what its prose says.
for row in '| `turn` | no such clause | `over` |' '| `turn` | a requires | `within` |' \
    '| `turn` | a named one | `ensures` |' \
    '| `turn` | no such field | `ended.begun` |' '| `turn` | no such inner field | `ended.cut.sent` |' \
    '| `turn` | a field of none | `ended.sent.begun` |' '| `one` | the clause of another | `ended` |' \
    '| `turn`, `one` | not in both | `ended` |' '| `two` | no such function | `ended` |' \
    '| `put` | a method without its type | `same` |' '| `Links::turn` | no method | `ended` |' \
    '| `Links::put` | no clause of its trait | `ended` |' '| `Post` | no such law | `same` |' \
    '| `turn` | no clause | |' '| | no function | `ended` |'; do
    table "$row"
    if sh checks/contracts.sh >said 2>&1 || [ ! -s said ]; then
        printf 'checks/contracts_test.sh: a wrong row passes: %s\n' "$row" >&2
        failures=1
    fi
done
[ "$failures" -eq 0 ]
