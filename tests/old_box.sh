#!/usr/bin/env bash
# A pool moved from an old box goes on as it would have there: old_box.sh OLD.a ONE.a [SEED [SECONDS]]
# OLD.a is an archive of the library from before editions, ONE.a one of edition 1: both are of revisions in an older Rattle, which only the kit of their
# time builds (tests/README.md). old_box.c is built against both, the functions of each under names of
# their own, and against target/staticlib/libpool.a, or the archive that POOL_ARCHIVE names, for the moves between the two.
set -euo pipefail
[ $# -ge 2 ] && [ $# -le 4 ] || { echo "old_box: call it as old_box.sh OLD.a ONE.a [SEED [SECONDS]]" >&2; exit 2; }
old=$(realpath "$1")
one=$(realpath "$2")
cd "$(dirname "$0")/.."
new=${POOL_ARCHIVE:-target/staticlib/libpool.a}
for archive in "$old" "$one" "$new"; do
    [ -f "$archive" ] || { echo "old_box: no archive $archive" >&2; exit 2; }
done
work=$(mktemp -d)
trap 'rm -rf "$work"' EXIT
# One object of each whole archive, in which every name that it defines gets the prefix: so none is another archive's.
for name in old one; do
    ld -r --whole-archive "${!name}" -o "$work/$name.o"
    nm --defined-only --extern-only --format=posix "$work/$name.o" | awk -v prefix="$name" '{ print $1, prefix "_" $1 }' >"$work/names"
    objcopy --redefine-syms="$work/names" "$work/$name.o"
done
gcc -std=c99 -pedantic -Wall -Wextra -Werror -O2 -Iinclude tests/old_box.c "$work/old.o" "$work/one.o" "$new" -o "$work/old_box"
"$work/old_box" "${3:-1}" "${4:-10}"
