#!/usr/bin/env bash
# Change request #103: no conditional jump is left in the machine code of the place. The archive lays that code out inside vi_pair, vi_sheet and the span's
# index_between. It begins with the first instruction that has a constant by which crates/reference/src/row.rt counts the ranges left; from there to the
# first jump, call or return all of it must have been done, to the share of the way. No jump may lead into it, nothing in it be chosen by a comparison, and
# no second place come after it. Then the same is asked of edited copies.
set -u
cd "$(dirname "$0")/.." || exit 1
work=$(mktemp -d)
trap 'rm -rf "$work"' EXIT
bad=0
miss() { echo "row code: $*"; bad=1; }
. tests/archive.bash

# constant NAME: its value in row.rt
constant() { sed -nE "s/^const $1: u32 = ([0-9_]+);$/\1/p" crates/reference/src/row.rt | tr -d _; }
hex() { printf '0x%x' "$1"; }
step=$(constant STEP)
second=$(hex $((step - $(constant SECOND_FROM))))
third=$(hex $((2 * step + $(constant THIRD_FROM))))
apart=$(hex "$(constant PLACES_APART)")
base=$(hex "$(constant PLACE_BASE)")
way=$(hex "$(constant WHOLE_WAY)")
per_millionth=$(hex 10000) # of the line, which comes after the place

# judge FILE: of a disassembly, a line for each function that has the place: its name, and "ok" or what is wrong.
judge() {
    awk -v second="$second" -v third="$third" -v apart="$apart" -v base="$base" -v way="$way" '
    function has(line, constant) { return line ~ ("[^0-9a-f]" constant "([^0-9a-f]|$)") }
    # the instructions from the first of the place to the first jump, call or return: what they have done, and where the share is left
    function look(   i, line, part) {
        for (i = begin; i <= count && text[i] !~ /^(j|call|ret)/; i++) {
            line = text[i]
            if (has(line, second)) done["second"] = 1
            if (has(line, third)) done["third"] = 1
            if (has(line, apart)) done["apart"] = 1
            if (has(line, base)) done["base"] = 1
            if (line ~ /^imul/ && has(line, way)) { split(line, part, /[ ,]/); whole = part[2] }
            if (whole && !share && line ~ ("^sub [a-z0-9]+," whole "$")) share = i
            if (!share && line ~ /^(set|cmov|cmp|test|sbb|adc|bt|v?p(min|max|cmp))/) done["chosen"] = 1
        }
    }
    function wrong(   i, jump) {
        if (!done["second"] || !done["third"]) return "a jump before the ranges are counted"
        if (!done["apart"] || !done["base"]) return "a jump before the place is found"
        if (!whole) return "a jump before the row is found"
        if (!share) return "a jump before the share is found"
        if (done["chosen"]) return "something is chosen by a comparison"
        for (i = share + 1; i <= count; i++) if (has(text[i], second) || has(text[i], third)) return "a second place"
        for (jump in target) {
            if (target[jump] !~ /^[0-9a-f]+$/) return "a jump to an unknown place"
            for (i = begin + 1; i <= share; i++) if (at[i] == target[jump]) return "a jump leads into it"
        }
        return "ok"
    }
    function close_function() {
        if (begin) { look(); print name, wrong() }
        begin = count = share = 0
        whole = ""
        split("", done); split("", target); split("", at); split("", text)
    }
    /^[0-9a-f]+ <.*>:$/ { close_function(); name = $2; gsub(/[<>:]/, " ", name); n = split(name, part, " "); name = part[n]; next }
    /^ *[0-9a-f]+:/ {
        count++
        line = $0; sub(/:.*/, "", line); gsub(/ /, "", line); at[count] = line
        line = $0; sub(/^[^:]*:[ \t]*/, "", line); gsub(/ +/, " ", line); sub(/ *[#<].*/, "", line); text[count] = line
        if (!begin && (has(line, second) || has(line, third))) begin = count
        if (line ~ /^j/) { sub(/^[a-z]+ /, "", line); target[count] = line }
    }
    END { close_function() }' "$1"
}

objdump -d -M intel --no-show-raw-insn "$archive" >"$work/code"
said=$(judge "$work/code")
[ "$said" = "vi_pair ok"$'\n'"index_between ok"$'\n'"vi_sheet ok" ] || miss "the archive: ${said//$'\n'/; }"

# bites WANTED PROGRAM: of a copy edited by this sed program within vi_sheet, judge says WANTED of it, and nothing where there is no place.
copies=0
bites() {
    sed "/<vi_sheet>:/,/^\$/$2" "$work/code" >"$work/copy"
    cmp -s "$work/code" "$work/copy" && miss "nothing was edited by $2"
    said=$(judge "$work/copy" | sed -n 's/^vi_sheet //p')
    [ "$said" = "$1" ] || miss "of a copy edited by $2: '$said'"
    copies=$((copies + 1))
}
jump='    ffff:\tjb     ffff <vi_sheet+0xffff>'
bites 'a jump before the ranges are counted' "s/.*$third\\]\$/&\\n$jump/"
bites 'a jump before the place is found' "s/.*,$apart\$/$jump\\n&/"
bites 'a jump before the row is found' "s/.*imul .*,$way\$/$jump\\n&/"
bites 'a jump before the share is found' "s/.*imul .*,$way\$/&\\n$jump/"
bites 'something is chosen by a comparison' "s/.*,$apart\$/    ffff:\\tcmovb  edx,r8d\\n&/"
bites 'something is chosen by a comparison' "s/.*,$apart\$/    ffff:\\tsbb    edx,edx\\n&/"
row=$(awk -v way="$way" '/<vi_sheet>:/ { on = 1 } on && $2 == "imul" && $0 ~ ("," way "$") { sub(/:/, "", $1); print $1; exit }' "$work/code")
bites 'a jump leads into it' "s/\\(\\tj[a-z]*  *\\)[0-9a-f]* <vi_sheet.*/\\1$row <vi_sheet>/"
bites 'a jump to an unknown place' "s/\\tje .*/\\tjmp    QWORD PTR [rax*8]/"
bites 'a second place' "s/.*imul .*,$per_millionth\$/&\\n    ffff:\\tlea    edx,[rax-$third]/"
bites '' "s/$second\\|$third/0x0/"

[ "$bad" -eq 0 ] && echo "row code: in vi_pair, in vi_sheet and in the span's index_between no jump from the first instruction of the place to the share; $copies edited copies are told"
exit "$bad"
