#!/usr/bin/env bash
# tools/try-edits tells its cases apart: in a small repository with two functions of one line, edits of each kind.
set -u
root=$(cd "$(dirname "$0")/.." && pwd)
work=$(mktemp -d)
trap 'rm -rf "$work"' EXIT
export TMPDIR=$work/tmp # try-edits' own temporary files: it leaves none
cd "$work" || exit 1
mkdir -p tmp tools tests crates/small/src crates/small/proofs/{next,after} crates/small/must-fail
cp "$root/tools/try-edits" tools/
cp "$root/tests/misfits.txt" tests/
echo 'small:' >crates.txt
cat >crates/small/src/lib.rt <<'END'
// Numbers and what follows them.
#![tactic(auto)]

ghost use Rattle.std.specs.Prelude.{◌≡◌, ◌+◌, ◌<◌};

// The next number.
pub fn next(x: u8) -> u64
    ensures { result ≡ x + 1 }
{
    x as u64 + 1
}

// A number after this one.
pub fn after(x: u64) -> u64
    requires { x < 9 }
{
    x + 2
}
END
cat >crates/small/proofs/next/Answers.antt <<'END'
-- The cast keeps the number.
use borrow.Author.Rules.{rules}
use Rattle.small.proofs.next.Goals as goal

pub returns : goal.returns
returns c = search rules
END
cat >crates/small/proofs/after/Answers.antt <<'END'
-- The sum fits.
use borrow.Author.Rules.{rules}
use Rattle.small.proofs.after.Goals as goal

pub overflow_add-result : goal.overflow_add-result
overflow_add-result c = search rules
END

# edit NAME OLD NEW: an edit of the source.
edit() { printf 'file: src/lib.rt\nold: %s\nnew: %s\n' "$2" "$3" >"crates/small/must-fail/$1.edit"; }
edit wrong_sum 'u64 + 1' 'u64 + 2'
edit comment 'The next number' 'The number after'
edit no_sum 'x + 2' 'x'
edit nowhere 'u64 + 3' 'u64 + 2'
edit everywhere 'u64' 'u32'
edit no_code 'u64 + 1' 'u64 +'

# expect STATUS NAMES LINE ..: of these names try-edits says lines that match, each, and ends with this status.
bad=0
expect() {
    local wanted=$1 names=$2 said status line
    shift 2
    # shellcheck disable=SC2086
    said=$(tools/try-edits $names 2>&1)
    status=$?
    [ "$status" -eq "$wanted" ] || { echo "try-edits $names: status $status, not $wanted"; bad=1; }
    for line in "$@"; do
        grep -q "$line" <<<"$said" || { printf 'try-edits %s: no line "%s" in:\n%s\n' "$names" "$line" "$said"; bad=1; }
    done
}
expect 1 '' '^small/wrong_sum: refused: .*proofs/next/Answers.antt:6:13: error: `returns`' \
    '^small/comment: NOT REFUSED' \
    '^small/no_sum: MISFIT: only because a proof file names what the edit took away: .*proofs/after/Answers.antt:5' \
    '^small/nowhere: BAD EDIT: .* in src/lib.rt 0 times' \
    '^small/everywhere: BAD EDIT: .* in src/lib.rt 4 times' \
    '^small/no_code: BAD EDIT: it did not reach the prover' \
    '^try-edits: 1 of 6 refused, .* This is no verdict'
expect 0 '-j 1 small/wrong_sum' '^try-edits: 1 of 1 refused'
expect 1 small/unknown 'small/unknown: no such crate, or it has no such must-fail edit'

echo 'no proof of' >>tests/misfits.txt
expect 1 small/wrong_sum "^small/wrong_sum: MISFIT: 'no proof of': .*proofs/next/Answers.antt:6:13: error: \`returns\`"

sed -i 's/u64 + 1$/u64 + 2/' crates/small/src/lib.rt
expect 1 small/wrong_sum 'small is not proved as it stands'
[ -z "$(ls -A tmp)" ] || { echo "try-edits: left behind: $(ls -A tmp)"; bad=1; }
[ "$bad" -eq 0 ] && echo "try-edits: refused, not refused, misfit and bad edits are told apart"
exit "$bad"
