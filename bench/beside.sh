#!/usr/bin/env bash
# Two archives of the library beside each other, as `tools/build pool` leaves them of two revisions: beside.sh BEFORE.a AFTER.a
# Where a function lies moves its time by up to a tenth. So every function begins a cache line, and two programs are linked, with
# the archives in the one order and in the other, and run in turn; each ratio is the geometric mean of theirs.
set -euo pipefail
here=$(cd "$(dirname "$0")" && pwd)
before=$(realpath "$1")
after=$(realpath "$2")
made=$(mktemp -d)
trap 'rm -rf "$made"' EXIT
cd "$made"

for side in before after; do
    mkdir "$side"
    (cd "$side" && ar x "${!side}")
    # An archive has one object, which bears the crate's name.
    object=$side/$(ar t "${!side}")
    renamed=()
    for name in $(nm --defined-only --format=just-symbols "$object" | sed -n 's/^pool_//p'); do renamed+=(--redefine-sym "pool_$name=${side}_$name"); done
    objcopy "${renamed[@]}" --set-section-alignment '.text.*=64' "$object" "$side.o"
done
link() {
    gcc -std=c11 -D_POSIX_C_SOURCE=199309L -O2 -Wall -Wextra -Werror -I "$here/../include" -o "$1" "$here/beside.c" "$2" "$3"
}
link one before.o after.o
link other after.o before.o

for _ in 1 2 3 4 5 6; do
    ./one
    ./other
done > cells
awk -f "$here/beside.awk" cells
