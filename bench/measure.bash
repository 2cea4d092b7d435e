# What the scripts of the benches share, as their programs share measure.h: $root is the repository, $work a folder that is gone with the script, and
# $archive the library's archive.
root=$(cd "$(dirname "${BASH_SOURCE[0]}")/.." && pwd)
work=$(mktemp -d)
trap 'rm -rf "$work"' EXIT
. "$root/tests/archive.bash"

need() { # PACKAGE ..
    local package
    for package; do
        dpkg -s "$package" >/dev/null 2>&1 || { apt-get update -qq && apt-get install -y -qq "$package" >/dev/null; }
    done
}

instructions() { # COMMAND ..
    valgrind --tool=callgrind --callgrind-out-file=/dev/null "$@" 2>&1 | sed -n 's/.*Collected : //p'
}

# What two passes more take; what a program does before its passes is not in it. The command's last word, how many passes, is added.
of_two_passes() { # COMMAND ..
    local few many
    few=$(instructions "$@" 1)
    many=$(instructions "$@" 3)
    echo $((many - few))
}

# Where a loop of a few instructions lies in memory decides up to half of its time. So that no edit of a bench moves one, each function, plain C's and the
# library's, begins at a multiple of 64.
build_aligned() { # PROGRAM SOURCE [LIBRARY ..]
    local program=$1 source=$2
    shift 2
    objcopy --set-section-alignment '.text*=64' "$archive" "$work/aligned.a"
    gcc -std=gnu11 -Wall -Wextra -Werror -O2 -falign-functions=64 -I"$root/include" -I"$work" "$source" "$work/aligned.a" "$@" -o "$program"
}
