#!/usr/bin/env bash
# No must-fail edit is refused only because a proof file does not fit it. One that adds a call or drops a step would be refused by any proof file,
# whatever the promise says: so this fails where rt shows an edit's refusal with an error of a kind that tests/misfits.txt lists, or with no error of its
# own, or says itself that only a name is missing or only a limit was met. It cannot tell more: that the error is the fact which the edit was made to break is
# for a reader of that line to say (docs/TRACE.md), and that no other proof would carry the edited program is shown only where a statement refutes it
# (docs/PROMISES.md).
set -u
cd "$(dirname "$0")/.." || exit 1
work=$(mktemp -d)
trap 'rm -rf "$work"' EXIT
bad=0

mapfile -t misfits < <(grep -vE '^(#|$)' tests/misfits.txt)

# judge CRATE/EDIT LOG: says nothing where rt refused the edit by a broken fact, otherwise what is wrong.
judge() {
    local line kind
    line=$(grep -F -m 1 "must-fail $1.edit: " "$2") || { echo "rt has not tried it"; return; }
    line=${line#*"must-fail $1.edit: "}
    case $line in
    'refused, as it must be: '*) line=${line#*: } ;;
    'refused, as it must be') echo "no error of its own"; return ;;
    *) echo "$line"; return ;;
    esac
    for kind in "${misfits[@]}"; do
        grep -qF -- "$kind" <<<"$line" && { echo "misfit: $kind"; return; }
    done
}

# made NAME WANTED SAID: judge says WANTED of a made log in which rt says SAID of an edit.
made() {
    local said
    printf '%s\n' "rt: must-fail small/other.edit: refused, as it must be: P.antt:1:1: error: \`a\`: \`omega\`: no" \
        ${3:+"rt: must-fail small/$1.edit: $3"} 'rt: ok; handles allowed: none' >"$work/made"
    said=$(judge "small/$1" "$work/made")
    [ "$said" = "$2" ] || { echo "must-fail logs: of a made log, $1: '$said'"; bad=1; }
}
refused='refused, as it must be'
made broken-order '' "$refused: ./proofs/f/Answers.antt:9:1: error: \`c\`: \`omega\`: the goal does not follow"
made broken-promise '' "$refused: note: src/lib.rt:1:1: it is not proved that what the function ensures holds"
made broken-statement '' "$refused: ./proofs/Law.antt:5:9: error: \`law\`: these two are not equal"
made missing-goal 'misfit: that can be named from here' "$refused: P.antt:7:1: error: \`a\`: module \`Goals\` has no \`a\` that can be named from here"
made missing-name 'misfit: is not in scope' "$refused: P.antt:7:1: error: \`a\`: \`b\` is not in scope"
made missing-field 'misfit: has no field' "$refused: P.antt:7:1: error: \`a\`: record \`At\` has no field \`args\`"
made no-record 'misfit: projects from a record, but this has type' "$refused: P.antt:7:1: error: \`a\`: \`.ensures\` projects from a record, but this has type \`x ≡ y\`"
made missing-function 'misfit: for this file to be the proof of' "$refused: P.antt: error: \`c\` has no function \`f\` for this file to be the proof of"
made another-goal 'misfit: expected type `goal.' "$refused: P.antt:12:1: error: \`s\`: expected type \`goal.d\`, but this has type \`goal.c\`"
made nothing-rewritten "misfit: no occurrence of the path's left endpoint" "$refused: P.antt:7:1: error: \`a\`: \`rw\`: no occurrence of the path's left endpoint"
made not-joined 'misfit: list the missing equation with its arguments' "$refused: P.antt:7:1: error: \`a\`: list the missing equation with its arguments, or rewrite"
names='only because a proof file names what the edit took away'
made only-names "$refused ($names): P.antt:7:1: error" "$refused ($names): P.antt:7:1: error"
made only-a-limit "$refused (only by a limit of the prover): P.antt:7:1" "$refused (only by a limit of the prover): P.antt:7:1"
made no-error 'no error of its own' "$refused"
made still-proved 'NOT REFUSED: the crate is still proved' 'NOT REFUSED: the crate is still proved'
made bad 'BAD EDIT: it cannot be applied' 'BAD EDIT: it cannot be applied'
made not-tried 'rt has not tried it' ''

# What rt ci said in the gate, unless a file has changed since. Otherwise rt must-fail says it, which tries what is new.
log=target/rt-ci.log
if [ ! -f "$log" ] || [ -n "$(find crates.txt crates -path 'crates/*/out' -prune -o -type f -newer "$log" -print -quit)" ]; then
    log=$work/log
    rt must-fail >"$log" 2>&1
    grep -q 'must-fail ' "$log" || tail -n 3 "$log"
fi
count=0
for edit in crates/*/must-fail/*.edit; do
    one=${edit#crates/}
    one=${one/\/must-fail\//\/}
    said=$(judge "${one%.edit}" "$log")
    [ -z "$said" ] || { echo "must-fail logs: ${one%.edit}: $said"; bad=1; }
    count=$((count + 1))
done
[ "$bad" -eq 0 ] && echo "must-fail logs: $count edits, each refused with an error of its own and none with a misfit"
exit "$bad"
