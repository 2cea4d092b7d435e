# Sourced by the tests that link the library: sets $archive to the archive's path. VI_ARCHIVE names another one to test; otherwise tools/build makes
# it, where it is not made of the files as they are.
archive_root=$(cd "$(dirname "${BASH_SOURCE[0]}")/.." && pwd)
archive=${VI_ARCHIVE:-$archive_root/target/staticlib/libviscosity_index.a}
if [ -z "${VI_ARCHIVE:-}" ]; then
    "$archive_root/tools/build" viscosity_index >/dev/null 2>&1 || { echo "FAILED: tools/build viscosity_index"; exit 1; }
fi
[ -f "$archive" ] || { echo "FAILED: no archive at $archive"; exit 1; }
