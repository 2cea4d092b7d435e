#!/usr/bin/env bash
# The sample sheets are what samples/make writes, and each has its line in samples/README.md; the printing and the working program are run by rt on
# one of them. Then on copies of samples/: a user's own file changes nothing, one sample more passes once every step of the README is done, and faults
# are seen.
set -u
cd "$(dirname "$0")/.." || exit 1
unset VI_LIBRARY
work=$(mktemp -d)
trap 'rm -rf "$work"' EXIT

# check FOLDER: each sheet that FOLDER/make writes stands in FOLDER and has its line in FOLDER/README.md, and each line there is of such a sheet.
check() {
    local made name
    made=$(mktemp -d -p "$work")
    "$1/make" "$made" || return
    while read -r name; do
        cmp "$made/$name" "$1/$name" || return
        grep -q "^| \`$name\` |" "$1/README.md" || { echo "README.md has no line on $name"; return 1; }
    done < <(ls "$made")
    while read -r name; do
        [ -e "$made/$name" ] || { echo "README.md has a line on $name, which make does not write"; return 1; }
    done < <(sed -n 's/^| `\(.*\.sheet\)` |.*/\1/p' "$1/README.md")
    count=$(ls "$made" | wc -l)
}

check samples && cmp samples/three.sheet crates/vi_print/stdin && cmp samples/three.sheet crates/vi_work/stdin || exit 1
sheets=$count

# The copies use the library that was built for the samples.
export VI_LIBRARY=$PWD/target/shared/libviscosity_index.so

# passes WHAT, fails WHAT: the copy of samples/, as it is now.
copy=$work/samples
cp -r samples "$copy"
passes() { check "$copy" || { echo "samples: refused, $1"; exit 1; }; }
fails() { ! check "$copy" >/dev/null 2>&1 || { echo "samples: not refused, $1"; exit 1; }; }

printf 'any bytes' >"$copy/own.sheet"
passes "a user's own file in samples/"
sed -i 's/^SAMPLES = {$/&\n    "more.sheet": write_sheet([(46000, 6800)]),/' "$copy/make"
fails "one sample more that is not written"
"$copy/make"
fails "one sample more without its line in README.md"
sed -i 's/^| `empty.sheet`.*/&\n| `more.sheet` | one oil | its line |/' "$copy/README.md"
passes "one sample more, by the steps of README.md"
sed -i '/"empty.sheet"/d' "$copy/make"
fails "a sample that is no longer written"
cp samples/make samples/README.md "$copy"
passes "the samples as they were"
printf x >>"$copy/planner.sheet"
fails "a sample with other bytes"

echo "samples: $sheets sheets are what samples/make writes"
