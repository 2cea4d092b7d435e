#!/usr/bin/env bash
# The gate bites: on small copies of the repository, each with one fault, .ci/run fails and names it. No proof of ours is repeated:
# the copies hold one crate of one function.
set -u
root=$(cd "$(dirname "$0")/.." && pwd)
work=$(mktemp -d)
trap 'rm -rf "$work"' EXIT
cd "$work" || exit 1
bad=0

# crate NAME VALUE: the source of a crate of one function.
crate() {
    printf '// A number.\n#![tactic(auto)]\n\nghost use Rattle.std.specs.Prelude.{◌≡◌};\n\npub fn %s() -> u8\n    ensures { result ≡ %s }\n{\n    %s\n}\n' "$1" "$2" "$2"
}

# sound NAME: a copy that passes.
sound() {
    mkdir -p "$1/.ci" "$1/tests" "$1/crates/small/src" "$1/crates/small/must-fail"
    cp "$root/.ci/run" "$1/.ci/run"
    echo 'small:' >"$1/crates.txt"
    crate three 3 >"$1/crates/small/src/lib.rt"
    edit "$1" four '    3' '    4'
    printf 'exit 0\n' >"$1/tests/good.sh"
}

# edit COPY NAME OLD NEW: a must-fail edit.
edit() { printf 'file: src/lib.rt\nold: %s\nnew: %s\n' "$3" "$4" >"$1/crates/small/must-fail/$2.edit"; }

# expect NAME STATUS PATTERN [LINE]: the copy's gate ends with that status and a last line that matches, and says a line that matches LINE.
expect() {
    local last status
    bash "$1/.ci/run" >"$1.log" 2>&1 </dev/null
    status=$?
    last=$(tail -n 1 "$1.log")
    [ "$status" -ne 0 ] && status=1
    if [ "$status" -eq "$2" ] && [[ $last =~ $3 ]] && grep -q -e "${4:-}" "$1.log"; then
        echo "gate, $1: $last"
    else
        echo "gate, $1: status $status and last line '$last', where status $2 and $3 were expected${4:+, and a line $4}"
        bad=1
    fi
}

sound sound
expect sound 0 '^[1-9][0-9]* passed, 0 failed$' '^rt: must-fail small/four.edit: refused, as it must be: '

sound unlisted
mkdir -p unlisted/crates/other/src
crate four 4 >unlisted/crates/other/src/lib.rt
expect unlisted 1 '^FAILED.*crates listed'

sound stray
crate five 5 >stray/note.rt
expect stray 1 '^FAILED.*rt ci' '^rt: no check reads note.rt'

sound unproved
sed -i 's/^    3$/    2/' unproved/crates/small/src/lib.rt
expect unproved 1 '^FAILED.*rt ci' '^rt: small NOT PROVED'

sound layout
sed -i 's/^    3$/  3/' layout/crates/small/src/lib.rt
edit layout four '  3' '  4'
expect layout 1 '^FAILED.*rt ci' '^rt: run rt fmt'

sound still-proved
edit still-proved same '// A number' '// Any number'
expect still-proved 1 '^FAILED.*rt ci' '^rt: must-fail small/same.edit: NOT REFUSED'

# rt ci itself passes it, and counts it as bad.
sound bad-edit
edit bad-edit nowhere '    5' '    4'
expect bad-edit 1 '^FAILED.*rt ci' '^2 passed, 0 failed$'

sound failing
printf 'exit 1\n' >failing/tests/bad.sh
expect failing 1 '^FAILED.*tests/bad.sh'

exit $bad
