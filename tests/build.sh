#!/usr/bin/env bash
# tools/build, with an rt of this test's own: what it builds and where it puts it, that a library is built again where a file or the kit has changed and not
# otherwise, and that a build that fails leaves what was there.
set -u
root=$(cd "$(dirname "$0")/.." && pwd)
work=$(mktemp -d)
trap 'rm -rf "$work"' EXIT
checks=0
bad=0

# holds WHAT COMMAND ..
holds() {
    checks=$((checks + 1))
    "${@:2}" || { echo "build: not so: $1"; bad=1; }
}
# calls WHAT STATUS CALLS NAME ..: tools/build with these names ends with that status, and calls rt so, with the folder before each word.
calls() {
    : >"$work/calls"
    tools/build "${@:4}" >"$work/out" 2>"$work/err"
    holds "$1, its status" test $? -eq "$2"
    holds "$1, its calls of rt" test "$(tr '\n' ' ' <"$work/calls")" = "$3"
}

mkdir -p "$work/bin" "$work/top/tools" "$work"/top/crates/{vi_print,vi_work,viscosity_index}/src
cd "$work/top" || exit 1
cp "$root/tools/build" tools
for crate in vi_print vi_work viscosity_index; do echo "// $crate" >"crates/$crate/src/lib.rt"; done
echo 'a sheet' | tee crates/vi_print/stdin >crates/vi_work/stdin
echo 'viscosity_index staticlib:' >crates.txt
cat >"$work/bin/rt" <<END
#!/bin/sh
[ "\$1" = version ] && exec cat "$work/kit"
echo "\$(basename "\$PWD") \$*" >>"$work/calls"
[ ! -e "$work/fails" ] || exit 1
mkdir -p out
case \$1 in
run) name=\$(basename "\$PWD"); echo proved >&2; cat; cp "$work/makes" "out/\$name" ;;
lib) echo proved; cp "$work/makes" "out/lib\$(basename "\$PWD").a" ;;
*) exit 2 ;;
esac
END
cat >"$work/bin/gcc" <<END
#!/bin/sh
echo "gcc \$*" | sed 's/so\.[0-9]*/so.N/' >>"$work/calls"
[ ! -e "$work/fails" ] && cp "$work/makes" "\$3"
END
chmod +x "$work/bin/rt" "$work/bin/gcc"
PATH=$work/bin:$PATH
echo 'a kit' >"$work/kit"
echo one >"$work/makes"
archive=target/staticlib/libviscosity_index.a

calls "all" 0 'vi_print run vi_work run viscosity_index lib '
holds "what rt says is passed on, and no output of a program" test "$(sort -u "$work/out")" = proved -a ! -s "$work/err"
for made in target/bin/vi_print target/bin/vi_work "$archive"; do holds "$made is there" cmp -s "$work/makes" "$made"; done
calls "a library of the same files" 0 '' viscosity_index
echo two >"$work/makes"
calls "a program" 0 'vi_print run ' vi_print
holds "a program is replaced" cmp -s "$work/makes" target/bin/vi_print
touch crates/viscosity_index/src/lib.rt
mkdir -p crates/vi_work/out/incremental
echo '// kept' >crates/vi_work/out/incremental/kept.rt
calls "a library of files that were only touched, and new files in out/" 0 '' viscosity_index
for change in 'echo "// more" >>crates/vi_work/src/lib.rt' 'echo "# more" >>crates.txt' 'echo "another kit" >"$work/kit"' "rm $archive"; do
    eval "$change"
    calls "a library after: $change" 0 'viscosity_index lib ' viscosity_index
    holds "the archive is there after: $change" cmp -s "$work/makes" "$archive"
done
touch "$work/fails"
echo three >"$work/makes"
echo '// more' >>crates/viscosity_index/src/lib.rt
calls "a library that does not build" 1 'viscosity_index lib ' viscosity_index
calls "a program that does not build, before a library" 1 'vi_work run ' vi_work viscosity_index
holds "what was there is left" test "$(cat "$archive" target/bin/vi_work)" = $'two\none'
rm "$work/fails"
calls "the library, again" 0 'viscosity_index lib ' viscosity_index
shared=target/shared/libviscosity_index.so
linking="gcc -shared -o $shared.N -Wl,--whole-archive $archive -Wl,--no-whole-archive "
calls "the shared library" 0 "$linking" shared
holds "$shared is there" cmp -s "$work/makes" "$shared"
calls "the shared library of the same archive" 0 '' shared
echo four >"$work/makes"
echo '// more' >>crates/viscosity_index/src/lib.rt
calls "the shared library of another archive" 0 "viscosity_index lib $linking" shared
holds "the shared library is replaced" cmp -s "$work/makes" "$shared"
touch "$work/fails"
rm "$shared"
calls "a shared library that is not linked" 1 "$linking" shared
holds "it is not there" test ! -e "$shared"
rm "$work/fails"
calls "the shared library, again" 0 "$linking" shared
cat >"$work/bin/cp" <<END
#!/bin/sh
case \$2 in target/*) exit 1 ;; *) exec $(command -v cp) "\$@" ;; esac
END
chmod +x "$work/bin/cp"
echo five >"$work/makes"
echo '// more' >>crates/viscosity_index/src/lib.rt
calls "an archive that cannot be stored" 1 'viscosity_index lib ' shared
rm "$work/bin/cp"
calls "the archive, again" 0 "viscosity_index lib $linking" shared
calls "no such name" 2 '' vi_other
holds "the usage" grep -q '^build \[NAME \.\.\]' "$work/err"
cd "$work" || exit 1
ln -s top/tools/build linked
: >"$work/calls"
holds "a link to it, from another folder" bash -c '"$0" vi_work >/dev/null 2>&1' "$work/linked"
holds "it works in its own repository" test "$(cat "$work/calls")" = 'vi_work run'
holds "no other files are in target/" test "$(cd top && find target -type f | sort | tr '\n' ' ')" = "target/bin/vi_print target/bin/vi_work $shared $archive $archive.from "

[ "$bad" -eq 0 ] && echo "build: ok, $checks checks"
exit "$bad"
