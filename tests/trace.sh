#!/usr/bin/env bash
# docs/TRACE.md, docs/PROMISES.md and docs/METHOD.md name nothing that is not there: each `crate/label` is a must-fail edit, each `crate/File.antt`
# a file of specs/, each `crate:File` a file of proofs/, and the names after it are defined in it; and every must-fail edit is named in one of the
# first two.
set -u
cd "$(dirname "$0")/.." || exit 1
documents=(docs/TRACE.md docs/PROMISES.md)
naming=("${documents[@]}" docs/METHOD.md)
bad=0
miss() { echo "trace: $*"; bad=1; }

crates=$(cd crates && echo *)
crates=${crates// /|}
named=$(grep -ohE "\`($crates)[/:][A-Za-z0-9_]+(\.antt)?\`" "${naming[@]}" | tr -d '`' | sort -u)
[ -n "$named" ] || miss "no names found"
count=0
for name in $named; do
    case $name in
    *.antt) path=crates/${name%%/*}/specs/${name#*/} ;;
    *:*) path=crates/${name%%:*}/proofs/${name#*:}.antt ;;
    *) path=crates/${name%%/*}/must-fail/${name#*/}.edit ;;
    esac
    [ -f "$path" ] || miss "$name: there is no $path"
    count=$((count + 1))
done
# each `crate/File.antt`: `name`, .. and `crate:File`: `name`, .. is defined in that file
while read -r line; do
    file=${line%%\`:*}
    file=${file#\`}
    case $file in
    *.antt) path=crates/${file%%/*}/specs/${file#*/} ;;
    *) path=crates/${file%%:*}/proofs/${file#*:}.antt ;;
    esac
    for name in $(grep -oE '`[^`]+`' <<<"${line#*: }" | tr -d '`'); do
        grep -qE "^ *((abbrev|unfoldable) )?(pub )?(record )?$name( |\$)" "$path" || miss "$name is not defined in $path"
        count=$((count + 1))
    done
done < <(grep -ohE "\`($crates)[/:][A-Za-z0-9_]+(\.antt)?\`: (\`[^\`]+\`(, )?)+" "${naming[@]}")
for edit in crates/*/must-fail/*.edit; do
    name=${edit#crates/}
    name=${name/\/must-fail\//\/}
    grep -qF "\`${name%.edit}\`" "${documents[@]}" || miss "${name%.edit} is named in neither document"
done
[ "$bad" -eq 0 ] && echo "trace: $count names, and every must-fail edit, are there"
exit "$bad"
