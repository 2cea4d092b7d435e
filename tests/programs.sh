#!/usr/bin/env bash
# vi_print and vi_work where input or output fails, and what vi_work writes for the samples. Both always end with status 0: what failed stands on
# standard error, and nothing on standard output.
set -u
root=$(cd "$(dirname "$0")/.." && pwd)
work=$(mktemp -d)
trap 'rm -rf "$work"' EXIT
cd "$root" || exit 1
tools/build vi_print vi_work >"$work/log" 2>&1 || { tail -n 5 "$work/log"; exit 1; }
checks=0
bad=0

# says WHAT PATTERN COMMAND: the command, run by a shell, writes nothing to standard output and one line of this pattern to standard error.
says() {
    checks=$((checks + 1))
    bash -c "$3" >"$work/out" 2>"$work/err" </dev/null
    if [ -s "$work/out" ] || [ "$(wc -l <"$work/err")" -ne 1 ] || ! grep -q -e "$2" "$work/err"; then
        echo "programs, $1: printed $(wc -c <"$work/out") bytes, said: $(head -n 3 "$work/err")"
        bad=1
    fi
}

# holds WHAT COMMAND ..
holds() {
    checks=$((checks + 1))
    "${@:2}" || { echo "programs: not so: $1"; bad=1; }
}

for program in vi_print vi_work; do
    run=target/bin/$program
    says "$program, a folder" '^standard input: Is a directory' "$run <samples"
    says "$program, a closed input" '^standard input: Bad file descriptor' "$run <&-"
    says "$program, a full disk" '^standard output: No space left' "$run <samples/three.sheet >/dev/full"
    says "$program, a closed output" '^standard output: Bad file descriptor' "$run <samples/three.sheet >&-"
done
says "vi_work, a refused sheet" '^not worked: the sheet is refused' 'target/bin/vi_work <samples/refused.sheet'
says "vi_work, no input" '^not worked: the sheet is refused' 'target/bin/vi_work </dev/null'

# A read that fails ends the input: what was read before it is worked, here no byte.
says "vi_work, a read that fails" '^not worked: the sheet is refused' 'exec </proc/self/mem; target/bin/vi_work; true'
holds "vi_print, a read that fails" test "$(bash -c 'exec </proc/self/mem; target/bin/vi_print; true')" = 'sheet refused 11'

# A sheet of 65,536 bytes is worked, and one of a byte more is not: an empty one whose total says so.
sized() {
    printf '\0\0\0\0\20\0\0\0\20\0\0\0' && printf "$2" && head -c $(($1 - 16)) /dev/zero
}
sized 65536 '\0\0\1\0' >"$work/longest"
sized 65537 '\1\0\1\0' >"$work/too-long"
holds "the longest input is written" cmp -s "$work/longest" <(target/bin/vi_work <"$work/longest")
says "vi_work, input that is too long" '^not worked: the input is longer than 65,536 bytes' "target/bin/vi_work <'$work/too-long'"

# A worked sheet is as long as before, stays as it is when it is worked again, and has the text of the sheet; its results were not there before.
for sheet in three planner refused-pairs results-first halves empty; do
    target/bin/vi_work <"samples/$sheet.sheet" >"$work/worked"
    holds "$sheet, as long as before" test "$(wc -c <"$work/worked")" -eq "$(wc -c <"samples/$sheet.sheet")"
    holds "$sheet, worked again" cmp -s "$work/worked" <(target/bin/vi_work <"$work/worked")
    holds "$sheet, its text" cmp -s <(target/bin/vi_print <"samples/$sheet.sheet") <(target/bin/vi_print <"$work/worked")
    [ "$sheet" = empty ] || holds "$sheet, worked" test "$(cmp "$work/worked" "samples/$sheet.sheet" | wc -l)" -eq 1
done

[ "$bad" -eq 0 ] && echo "programs: ok, $checks checks"
exit "$bad"
