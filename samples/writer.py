"""The library's own writer of sheets, for the scripts beside this file: vi_write_sheet of include/viscosity_index.h, which is proved."""
import ctypes
import functools
import os
import shutil
import struct
import subprocess
import sys

ROOT = os.path.dirname(os.path.dirname(os.path.realpath(__file__)))
BUILT = os.path.join(ROOT, "target", "shared", "libviscosity_index.so")
HEADER, PAIR, RESULT = 16, 8, 16  # sizes in bytes


def say(said):
    print(f"{os.path.basename(sys.argv[0])}: {said}", file=sys.stderr)


def fail(said):
    say(said)
    sys.exit(1)


def build():
    """Proves and builds the library where it is not built of the files as they are."""
    if not os.path.exists(BUILT):
        say("proving and building the library where that is not done yet; the first time this takes some minutes")
    command = [os.path.join(ROOT, "tools", "build"), "shared"]
    try:
        done = subprocess.run(command, stdin=subprocess.DEVNULL, stdout=subprocess.PIPE, stderr=subprocess.STDOUT, check=False)
    except KeyboardInterrupt:
        sys.exit(130)  # as a shell says of a command that was interrupted
    if done.returncode != 0:
        end = b"\n".join(done.stdout.splitlines()[-5:]).decode(errors="replace")
        fail(f"the library could not be built; the end of what was said:\n{end}")


def library_file():
    """The library's path: that of VI_LIBRARY, or that of the one that is built here, without the kit as it is."""
    named = os.environ.get("VI_LIBRARY")
    if named:
        return os.path.abspath(named)
    if shutil.which("rt"):
        build()
    elif os.path.exists(BUILT):
        say("rt, the command of the Rattle kit, is not on the path: the library is used as it is, without a look whether it is up to date")
    else:
        fail("rt, the command of the Rattle kit, is not on the path; it has to be, because the library is not built yet and VI_LIBRARY names none")
    return BUILT


@functools.lru_cache(maxsize=None)
def writer():
    path = library_file()
    try:
        call = ctypes.CDLL(path).vi_write_sheet
    except (OSError, AttributeError) as error:
        fail(f"{path} is no library that can be used: {error}")
    call.restype = ctypes.c_uint32
    call.argtypes = [ctypes.c_char_p, ctypes.c_size_t, ctypes.c_void_p, ctypes.c_size_t]
    return call


def write_sheet(pairs):
    """The bytes of the sheet of these pairs (u, y), in thousandths of a mm²/s, not worked: its results are zeros."""
    row = b"".join(struct.pack("=II", u, y) for u, y in pairs)
    sheet = ctypes.create_string_buffer(HEADER + (PAIR + RESULT) * len(pairs))
    refused = writer()(row, 2 * len(pairs), sheet, len(sheet))
    if refused:
        fail(f"the sheet is not written: {refused}")
    return sheet.raw
