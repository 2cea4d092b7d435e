#!/usr/bin/env bash
# ./print: its usage, its refusals, what it prints and saves for the samples, what it says where reading or writing fails, and, with an rt of this
# test's own, what it does while it builds and when it is interrupted.
set -u
root=$(cd "$(dirname "$0")/.." && pwd)
work=$(mktemp -d)
trap 'rm -rf "$work"' EXIT
export TMPDIR=$work/tmp # print's own temporary files: it leaves none
mkdir -m 1777 "$TMPDIR"
chmod a+rx "$work"
checks=0
bad=0

wrong() {
    echo "print-command, $*"
    bad=1
}

# expect WHAT STATUS OUT ERR COMMAND ..: the exit status, standard output as a whole, and a pattern of a line of standard error; where ERR is -,
# nothing is said there.
expect() {
    local what=$1 status=$2 out=$3 err=$4 got
    shift 4
    checks=$((checks + 1))
    "$@" >"$work/out" 2>"$work/err" </dev/null
    got=$?
    if [ "$got" -ne "$status" ] || [ "$(cat "$work/out"; echo .)" != "$out." ] || ! said "$err"; then
        wrong "$what: status $got, printed: $(head -n 3 "$work/out"), said: $(head -n 3 "$work/err")"
    fi
}
said() {
    if [ "$1" = - ]; then [ ! -s "$work/err" ]; else grep -q -e "$1" <(cat "$work/err"; echo); fi
}

# holds WHAT COMMAND ..: the command ends with status 0.
holds() {
    local what=$1
    shift
    checks=$((checks + 1))
    "$@" || wrong "$what"
}

# redirected COMMAND: a line for the shell, with redirections.
redirected() { bash -c "$1"; }

three=$'pairs 3\n73.300 8.860 A 92\n22.830 5.050 B 156\n20.000 1.999 refused 1\n'
pairs=$'pairs 8\n20.000 1.999 refused 1\n73.300 8.860 A 92\n900.000 500.001 refused 2\n1000000.001 2.000 refused 3\n'
pairs+=$'2.000 2.000 refused 4\n4294967.295 4294967.295 refused 2\n0.000 0.000 refused 1\n8.018 2.000 A -2\n'
halves=$'pairs 4\n7.986 2.000 A 0\n7.970 2.000 A 2\n8.018 2.000 A -2\n8.034 2.000 A -2\n'

# ---- the arguments
cd "$root" || exit 1
expect "no argument" 2 "" "^usage: ./print .*SHEET" ./print
expect "two sheets" 2 "" "^usage: " ./print samples/three.sheet samples/empty.sheet
expect "an unknown option" 2 "" "^print: there is no option --foo" ./print --foo
expect "an unknown option beside a sheet" 2 "" "^usage: " ./print -x samples/three.sheet
expect "no name to save to" 2 "" "^usage: " ./print samples/three.sheet --save
expect "an empty name to save to" 2 "" "^usage: " ./print --save "" samples/three.sheet
expect "no such file" 1 "" "^print: there is no file samples/none.sheet" ./print samples/none.sheet
expect "a folder" 1 "" "^print: samples is a folder" ./print samples
expect "help" 0 "$(cat docs/print-help.txt)"$'\n' - ./print --help
expect "help, in short" 0 "$(cat docs/print-help.txt)"$'\n' - ./print -h
for line in A B 'B~' "refused "{1..4} "sheet refused "{11..16}; do
    holds "the help has no line on $line" grep -q "^  $line  *[a-z]" docs/print-help.txt
done

# ---- the samples
expect "three pairs" 0 "$three" - ./print samples/three.sheet
expect "refused pairs" 0 "$pairs" - ./print samples/refused-pairs.sheet
expect "results first" 0 "$pairs" - ./print samples/results-first.sheet
expect "exact halves" 0 "$halves" - ./print samples/halves.sheet
expect "a refused sheet" 0 $'sheet refused 12\n' - ./print samples/refused.sheet
expect "an empty sheet" 0 $'pairs 0\n' - ./print samples/empty.sheet
expect "standard input" 0 "$three" - redirected 'cat samples/three.sheet | ./print -'
expect "standard input by its name" 0 "$three" - redirected './print /dev/stdin <samples/three.sheet'
expect "endless input" 0 $'sheet refused 12\n' - timeout 60 ./print /dev/zero

# From another folder, by a name with spaces and a dash in front, and by a link to the script.
cp samples/three.sheet "$work/-a sheet"
ln -s "$root/print" "$work/vi"
cd "$work" || exit 1
expect "another folder" 0 "$three" - "$root/print" -- "-a sheet"
expect "a link to the script" 0 "$three" - ./vi "./-a sheet"
holds "a link to the script leaves a target/ behind" test ! -e target
cd "$root" || exit 1

# ---- reading and writing that fails
expect "a closed standard input" 1 "" "^print: standard input could not be read" redirected './print - <&-'
expect "a closed standard input by its name" 1 "" "^print: " redirected './print /dev/stdin <&-'
expect "a folder as standard input" 1 "" "^print: standard input could not be read" redirected './print - <samples'
expect "a file whose reading fails" 1 "" "^print: /proc/self/mem could not be read" ./print /proc/self/mem
expect "a full disk" 1 "" "^print: the text could not be written" redirected './print samples/three.sheet >/dev/full'
expect "a closed standard output" 1 "" "^print: standard output is closed" redirected './print samples/three.sheet >&-'
expect "help on a full disk" 1 "" "^print: the help could not be written" redirected './print --help >/dev/full'
expect "no temporary folder" 1 "" "^print: a temporary folder could not be made" env TMPDIR="$work/none" ./print samples/three.sheet
expect "a closed standard input that is not read" 0 "$three" - redirected './print samples/three.sheet <&-'

# ---- what is no sheet at all
printf '73.300 8.860\n' >"$work/short.txt"
printf '73.300 8.860 92 °C\r\n22.830 5.050\r\n' >"$work/long.txt"
: >"$work/nothing"
expect "a short text" 0 $'sheet refused 11\n' "^print: .*short.txt looks like text.*viscosity_index.h.*samples/make" ./print "$work/short.txt"
expect "a longer text" 0 $'sheet refused 12\n' "^print: .*long.txt looks like text" ./print "$work/long.txt"
expect "an empty file" 0 $'sheet refused 11\n' "^print: .*nothing is empty" ./print "$work/nothing"

# ---- saving
save=$work/save
mkdir "$save"
expect "saving" 0 "$three" - ./print --save "$save/worked" samples/three.sheet
holds "what is saved" cmp "$save/worked" crates/vi_work/stdout
cp samples/three.sheet "$save/own"
chmod 640 "$save/own"
expect "saving in place" 0 "$three" - ./print "$save/own" --save "$save/own"
holds "what is saved in place" cmp "$save/own" crates/vi_work/stdout
holds "the mode of a file that is saved in place" test "$(stat -c %a "$save/own")" = 640
expect "a saved sheet, printed" 0 "$three" - ./print "$save/own"
expect "saving a refused sheet" 1 $'sheet refused 12\n' "^print: not saved: the sheet is refused" ./print --save "$save/none" samples/refused.sheet
holds "a refused sheet is not saved" test ! -e "$save/none"
expect "saving a refused sheet over a file" 1 $'sheet refused 12\n' "^print: not saved" ./print --save "$save/worked" samples/refused.sheet
holds "a refused sheet changes no file" cmp "$save/worked" crates/vi_work/stdout
expect "saving into a missing folder" 1 "$three" "^print: not saved: there is no folder for" ./print --save "$save/none/worked" samples/three.sheet
expect "saving over a folder" 1 "$three" "^print: not saved: .* is not a file" ./print --save "$save" samples/three.sheet
mkfifo "$save/pipe"
expect "saving over a pipe" 1 "$three" "^print: not saved: .* is not a file" timeout 60 ./print --save "$save/pipe" samples/three.sheet
holds "a pipe is not replaced" test -p "$save/pipe"
expect "saving, and a full disk for the text" 1 "" "^print: the text" redirected "./print --save '$save/second' samples/three.sheet >/dev/full"
holds "what is saved beside a text that is lost" cmp "$save/second" crates/vi_work/stdout
mkdir "$work/full" # a cp that writes a part and fails
printf '#!/bin/sh\nfor to; do :; done\necho part >"$to"\necho "cp: No space left on device" >&2\nexit 1\n' >"$work/full/cp"
chmod +x "$work/full/cp"
expect "saving to a full disk" 1 "$three" "^print: not saved: .* could not be written" \
    env PATH="$work/full:$PATH" ./print --save "$save/own" samples/three.sheet
holds "a full disk changes no file" cmp "$save/own" crates/vi_work/stdout
holds "files are left behind in the folder that is saved to" test "$(ls -A "$save" | tr '\n' ' ')" = "own pipe second worked "

# ---- a clone that is not built yet, with an rt that takes no time, or as long as the file `slow` says. As the real one does, it builds one program and runs
# it, and it starts something that does not hear an interrupt. It fails where another runs.
fresh=$work/fresh
mkdir -p "$fresh/docs" "$fresh/tools" "$work/bin"
cp "$root/print" "$fresh/print"
cp "$root/tools/build" "$fresh/tools"
cp "$root/docs/print-help.txt" "$fresh/docs"
cp "$root/samples/three.sheet" "$fresh"
for program in vi_print vi_work; do
    mkdir -p "$fresh/crates/$program"
    cp "$root/crates/$program/stdin" "$fresh/crates/$program"
done
cat >"$work/bin/rt" <<'END'
#!/bin/sh
[ "$*" = run ] || exit 2
program=out/$(basename "$PWD")
top=../..
[ -e $top/refuse ] && { echo "logic=not-proved"; echo "rt: the library report did not build, so nothing above it was checked"; exit 1; } >&2
mkdir $top/busy || { echo "rt: two at a time" >&2; exit 1; }
if [ -e $top/slow ]; then
    sleep "$(cat $top/slow)" &
    echo "$$ $!" >$top/pids
    wait
fi
{ echo "crate laws: modules loaded=0 checked=10"; echo "logic=proved functions=1"; } >&2
mkdir -p out
printf '#!/bin/sh\n[ ! -e fault ] || echo "standard output: No space left on device" >&2\nwc -c\n' >$program
chmod +x $program
$program
rmdir $top/busy
END
chmod +x "$work/bin/rt"
PATH=$work/bin:$PATH
cd "$work/fresh" || exit 1
expect "a first build" 0 $'88\n' "^print: proving and building the printing program; the first time" ./print three.sheet
expect "the crates as they are proved" 0 $'88\n' "^print: laws proved" ./print three.sheet
touch refuse
expect "a build that fails" 1 "" "^rt: the library report did not build" ./print three.sheet
rm refuse
touch fault
expect "a program that says what failed" 1 "" "^print: the program vi_print failed: standard output: No space" ./print three.sheet
rm fault

# ---- interrupts
alive() { [ -d "/proc/$1" ] && ! grep -q '^State:.Z' "/proc/$1/status" 2>/dev/null; }
# until_is SECONDS COMMAND ..: waits until the command holds.
until_is() {
    local tries=$(($1 * 10))
    shift
    until "$@"; do
        [ $((tries -= 1)) -gt 0 ] && sleep 0.1 || return 1
    done
}
ended() { ! alive "$1"; }
# start SECONDS: ./print in a process group of its own, as a terminal starts it, with an rt that takes so long; $pid is its number. Ends when rt runs.
start() {
    rm -rf busy pids
    echo "$1" >slow
    setsid env --default-signal=INT ./print three.sheet >"$work/out1" 2>"$work/err1" </dev/null &
    pid=$!
    until_is 30 test -s pids
    rm slow
}
# interrupt WHAT SIGNAL [-]: the signal goes to ./print alone or, with -, to its group; it ends by the signal, and so does all of rt.
interrupt() {
    local got left=''
    checks=$((checks + 1))
    start 60
    kill -s "$2" -- "${3:-}$pid"
    until_is 30 ended "$pid" || { left+=" print"; kill -KILL "$pid"; }
    wait "$pid"
    got=$?
    for pid in $(cat pids); do
        alive "$pid" && { left+=" $(tr '\0' ' ' <"/proc/$pid/cmdline")"; kill -KILL "$pid"; }
    done
    [ "$got" -eq $((128 + $(kill -l "$2"))) ] && [ -z "$left" ] || wrong "$1: status $got, left running: $left; said: $(head -n 3 "$work/err1")"
} 2>/dev/null
interrupt "an interrupt from the terminal" INT -
interrupt "an interrupt of print alone" INT
interrupt "an end of print alone" TERM
interrupt "an end of its group" TERM -
interrupt "a terminal that is closed" HUP

# ---- two at a time, and one whose print was killed so that it could not end it
if command -v flock >/dev/null; then
    start 5
    expect "a second print while one builds" 0 $'88\n' "^print: another print is proving and building" ./print three.sheet
    wait "$pid"
    holds "the first of two" test $? -eq 0 -a "$(cat "$work/out1")" = 88
    start 5
    kill -KILL "$pid"
    wait "$pid" 2>/dev/null
    expect "a print after one that was killed" 0 $'88\n' "^print: another print is proving and building" ./print three.sheet
    rm -rf "$TMPDIR"/* # what the killed one left
else
    echo "print-command: flock is not there; the checks of two at a time are left out"
fi
rm -rf busy

# ---- another user: as nobody where this is root, else in a folder that may not be written
other=()
[ "$(id -u)" -ne 0 ] || other=(setpriv --reuid=65534 --regid=65534 --clear-groups)
if "${other[@]}" test -x "$work/fresh/print"; then
    cp three.sheet secret.sheet
    chmod 600 secret.sheet
    [ "$(id -u)" -eq 0 ] || chmod -R a-w target
    [ "$(id -u)" -eq 0 ] || chmod a-r secret.sheet
    expect "a built program of another user" 0 $'88\n' "^print: the folder .*target cannot be written: the programs run as they are" \
        "${other[@]}" ./print three.sheet
    holds "it says one line" test "$(wc -l <"$work/err")" -eq 1
    expect "a sheet of another user" 1 "" "^print: secret.sheet cannot be read" "${other[@]}" ./print secret.sheet
    mkdir "$work/theirs"
    [ "$(id -u)" -eq 0 ] || chmod a-w "$work/theirs"
    expect "saving to a folder of another user" 1 $'88\n' "^print: not saved: .* could not be written" \
        "${other[@]}" ./print --save "$work/theirs/worked" three.sheet
    chmod -R u+w target
    rm target/bin/*
    [ "$(id -u)" -eq 0 ] || chmod -R a-w target
    expect "no program, and a folder of another user" 1 "" "^print: the folder .*target cannot be written; it has to be" \
        "${other[@]}" ./print three.sheet
    chmod -R u+w target
    ./print three.sheet >/dev/null 2>&1
    [ "$(id -u)" -eq 0 ] && chmod -R a+w target || chmod a-w crates/vi_print/out
    expect "a built program, and crates of another user" 0 $'88\n' "^print: the folder .*crates/vi_print.* cannot be written: the programs run as they are" \
        "${other[@]}" ./print three.sheet
    chmod u+w crates/vi_print/out
else
    echo "print-command: root cannot run a command as another user here; the checks of another user are left out"
fi

# ---- no rt
PATH=/usr/bin:/bin
if ! command -v rt >/dev/null; then
    expect "no rt" 0 $'88\n' "^print: rt, .* is not on the path: the programs run as they are" ./print three.sheet
    holds "it says one line" test "$(wc -l <"$work/err")" -eq 1
    # Files of at most 1,024 bytes, as on a disk that is almost full: the sheet of 42 pairs has as many, and its text has more.
    {
        printf '\x2a\0\0\0\x10\0\0\0\x60\x01\0\0\0\x04\0\0'
        head -c 336 /dev/zero | tr '\0' '\377'
        head -c 672 /dev/zero
    } >full.sheet
    expect "a full disk for temporary files" 1 "" "^print: the program vi_print failed: standard output: " \
        redirected "ulimit -f 1; trap '' XFSZ; '$root/print' full.sheet"
    rm -r target
    expect "no rt and no program" 1 "" "^print: rt, .* is not on the path; it has to be" ./print three.sheet
else
    echo "print-command: rt stands in /usr/bin or /bin; the checks without it are left out"
fi
holds "temporary files are left behind: $(ls -A "$TMPDIR")" test -z "$(ls -A "$TMPDIR")"

[ "$bad" -eq 0 ] && echo "print-command: ok, $checks checks"
exit $bad
