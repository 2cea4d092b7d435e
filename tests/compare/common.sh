# Sourced by the test scripts: where things are, and how to build against the
# library. Everything is built in a temporary folder that goes when the script
# ends.
#
#   VI_ARCHIVE  the archive to test, in place of the repository's own
#   VI_LIBS     what else the linker needs for it

root=$(cd "$(dirname "${BASH_SOURCE[0]}")/../.." && pwd)
work=$(mktemp -d)
trap 'rm -rf "$work"' EXIT
flags=(-std=gnu11 -Wall -Wextra -Werror -O2)
name=$(basename "$0" .sh)

die() {
    echo "$name: FAILED: $*"
    exit 1
}

have_headers() {
    printf '#include <gmp.h>\n#include <mpfr.h>\n' | gcc -E - >/dev/null 2>&1 ||
        die "GMP and MPFR are missing (Debian: libgmp-dev libmpfr-dev)"
}

# Leaves the archive's path in $archive.
find_archive() {
    . "$root/tests/archive.bash"
}

# build PROGRAM WORDS...: sources, -I and -D, and the linker's words.
build() {
    local program=$1
    shift
    gcc "${flags[@]}" "$@" -o "$work/$program" ${VI_LIBS:-} -lmpfr -lgmp -lm || die "building $program"
}

# The comparison's parts but for its main program, compiled once.
compile_parts() {
    local part
    parts=()
    for part in harness lent pairs sheets constants tray_call tray_numbers tray_kept trays span_call spans write_call writes oil constant tray; do
        gcc "${flags[@]}" -c "$root/tests/compare/$part.c" -o "$work/$part.o" || die "compiling $part.c"
        parts+=("$work/$part.o")
    done
}

# build_compare PROGRAM WORDS...: the comparison, linked with the library.
build_compare() {
    local program=$1
    shift
    [ -n "${parts:-}" ] || compile_parts
    build "$program" "$root/tests/compare/compare.c" "${parts[@]}" "$@" "$archive"
}
