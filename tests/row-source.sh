#!/usr/bin/env bash
# Change request #103: the row at or below y and its spacing come from arithmetic on y, "in code with no if, match or loop; a test searches its source for
# them". This is the test: it searches row.rt, comments apart, and what `locate` makes of it, for branches, loops, comparisons, arrays, and for every way out of the
# file: a path, a method, a macro, a call of anything that row.rt does not define itself. Then it searches copies that have each of these.
set -u
cd "$(dirname "$0")/.." || exit 1
row=crates/reference/src/row.rt
lib=crates/reference/src/lib.rt
work=$(mktemp -d)
trap 'rm -rf "$work"' EXIT
bad=0
miss() { echo "row source: $*"; bad=1; }

# code FILE: its lines without comments. A quotation mark, behind which `//` would be no comment, counts as an array.
code() { sed -e 's,//.*,,' "$1"; }

# statements FILE: the code without the lines that hold a contract or the names it cites, or that say a type is copied, and nothing else.
statements() { code "$1" | grep -vE '^(ghost use [^;]*;|#\[derive\(Clone, Copy\)\]|    (requires|ensures) \{[^{}]*\})$'; }

# found FILE CALLABLE ..: what is in the file that must not be, a line each. CALLABLE are the functions that it may call beside its own.
found() {
    local file=$1 callable
    shift
    code "$file" | grep -owE 'if|else|match|while|loop|for|return|break|continue'
    code "$file" | grep -oE '&&|\|\||\?'
    statements "$file" | sed -E 's/->|>>|<<//g' | grep -oE '[=!<>]=|[<>]'
    statements "$file" | grep -oE '::|\[|![({[]|\.[a-z0-9_]+ *\(|[>)] *\(|^ *(pub )?use '
    grep -oF '"' "$file"
    callable=$(code "$file" | sed -nE 's/^ *(pub )?fn ([a-z0-9_]+).*/\2/p'; printf '%s\n' "$@")
    statements "$file" | sed -E 's/(pub )?fn [a-z0-9_]+ *\(/(/' | grep -oE '[A-Za-z0-9_]+ *\(' | tr -d ' (' | grep -vxF -- "$callable"
}

for what in 'pub fn find_row(y: u32) -> FoundRow' '    pub row: usize,' '    pub spacing: u32,'; do
    grep -qxF -- "$what" "$row" || miss "$row has no line '$what'"
done
said=$(found "$row")
[ -z "$said" ] || miss "$row has: ${said//$'\n'/ }"
sed -n '/^fn locate(/,/^}/p' "$lib" >"$work/locate"
grep -q 'find_row(y)' "$work/locate" || miss "locate does not call find_row"
said=$(found "$work/locate" find_row)
[ -z "$said" ] || miss "locate has: ${said//$'\n'/ }"

# with LINE: row.rt with this line as the first of the body of find_row.
with() {
    LINE=$1 awk '{ print } /^pub fn find_row\(/ { on = 1 } on && /^\{$/ { print "    " ENVIRON["LINE"]; on = 0 }' "$row"
}

# bites WHAT LINE: in a copy with LINE, WHAT is found; in one that has it as a comment, nothing but a quotation mark.
copies=0
bites() {
    with "$2" >"$work/copy"
    [ "$(diff "$row" "$work/copy" | grep -c '^>')" -eq 1 ] || miss "no copy was made with $2"
    found "$work/copy" | grep -qxF -- "$1" || miss "not found in a copy: $1, in $2"
    with "// $2" >"$work/copy"
    [ -z "$(found "$work/copy" | grep -vxF '"')" ] || miss "found in a comment: $2"
    copies=$((copies + 1))
}
bites 'if' 'if low { first }'
bites 'else' 'let FoundRow { place, spacing } = first else { second };'
bites 'match' 'match left { _ => first }'
bites 'while' 'while low {}'
bites 'loop' 'loop {}'
bites 'for' 'for i in 0..left {}'
bites 'return' 'return first;'
bites '&&' 'let both = low && high;'
bites '||' 'let either = low || high;'
bites '?' 'let third = checked?;'
bites '<=' 'let third = (THIRD_FROM <= y) as u32;'
bites '<' 'let first = (y<SECOND_FROM) as u32;'
bites '>' 'let second = (y >'
bites '==' 'let first = (left == 3) as u32;'
bites '<' 'ensures { x } let first = y < SECOND_FROM;'
bites '<' '#[derive(Clone, Copy)] let first = y < SECOND_FROM;'
bites 'derive' '#[derive(Ord)]'
bites '[' 'let spacing = [100, 200, 500];'
bites '"' 'let rates = b"abc";'
bites '![' 'let rates = vec![10, 5, 2];'
bites 'smaller' 'let along = smaller(10 * y, 5 * y);'
bites 'smaller' 'let along = smaller (10 * y, 5 * y);'
bites ')(' 'let along = (smaller)(10 * y, 5 * y);'
bites '::' 'let along = crate::smaller(10 * y, 5 * y);'
bites '::' 'let along = smaller::<u32>(10 * y, 5 * y);'
bites '.min(' 'let along = y.min(left);'
bites '.find_row(' 'let along = left.find_row(y);'
bites '    use ' 'use crate::smaller;'

# A function with an `if`: called from another file it is found by its name, taken into this one by its `if`.
printf '%s\n' 'fn smaller(a: u32, b: u32) -> u32 {' '    if a < b {' '        return a;' '    }' '    b' '}' >"$work/smaller"
with 'let along = smaller(10 * y, 5 * y);' >"$work/outside"
cat "$work/outside" "$work/smaller" >"$work/inside"
[ "$(found "$work/outside")" = smaller ] || miss "a call of a function in another file is not found"
[ "$(found "$work/inside" | head -n 1)" = if ] || miss "a function with an if, in the file itself, is not found"

[ "$bad" -eq 0 ] && echo "row source: no branch, loop, comparison, array or way out of the file; each found in one of $((copies + 2)) copies"
exit "$bad"
