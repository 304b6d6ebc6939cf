#!/usr/bin/env bash
# Moves saved pools with target/bin/mover, there and back, and compares byte by byte: the pool of crates/mover, a largest one of each kind, wrong, cut and
# damaged ones, each from a file and in pieces of a few bytes. Then wrong arguments, and what can't be read or written.
# The mover must have been built: `tools/build mover`.
set -uo pipefail
cd "$(dirname "$0")/.." || exit 2
mover=target/bin/mover
[ -x "$mover" ] || { echo "mover: no $mover: run 'tools/build mover' first" >&2; exit 2; }
# Looked for once: where python3 is a wrapper, finding the interpreter takes longer than a move.
python=$(python3 -c 'import sys; print(sys.executable)') || exit 2
work=$(mktemp -d) || exit 2
trap 'rm -rf "$work"' EXIT
passed=0
failed=0
# check NAME OUT ERR COMMAND..: the command, with $work/in as its input, writes the file OUT and the text ERR, and ends with 0.
check() {
    local name=$1 out=$2 err=$3
    shift 3
    if "$@" <"$work/in" >"$work/out" 2>"$work/err" && cmp -s "$work/out" "$out" && [ "$(cat "$work/err")" = "$err" ]; then
        passed=$((passed + 1))
    else
        failed=$((failed + 1))
        echo "mover: $name: $(wc -c <"$work/out") bytes, and '$(cat "$work/err")'" >&2
    fi
}
# moves NAME OUT ERR FROM TO: the mover does so, between these editions, from a file and in pieces.
moves() {
    check "$1" "$2" "$3" "$mover" "$4" "$5"
    check "$1, in pieces" "$2" "$3" "$python" tests/in_pieces.py "$mover" "$4" "$5"
}
# pool FILE: the words of standard input, in decimal, as a saved pool.
pool() { "$python" -c 'import struct, sys; [sys.stdout.buffer.write(struct.pack("<I", int(w))) for w in sys.stdin.read().split()]' >"$1"; }
# changed FILE WORD VALUE: the saved pool with one word changed, in $work/in.
changed() {
    cp "$1" "$work/in"
    echo "$3" | pool "$work/word"
    dd if="$work/word" of="$work/in" bs=4 seek="$2" conv=notrunc status=none
}
old=crates/mover/stdin
new=crates/mover/stdout
none=/dev/null

# There and back.
cp "$old" "$work/in" && moves 'on' "$new" '' 0 1
cp "$new" "$work/in" && moves 'back' "$old" '' 1 0
# To edition 2, with what each of the two workers has seen and one live window, and back.
"$python" - "$new" <<'EOF' | pool "$work/wide"
import struct, sys
data = open(sys.argv[1], "rb").read()
words = list(struct.unpack(f"<{len(data) // 4}I", data))
words[11] = 2
print(*words[:25], 0, 2, *words[25:34], 0, 2, *words[34:], 2, 2, 0, 1, 2, 2, *(30 * [0]))
EOF
cp "$new" "$work/in" && moves 'on to edition 2' "$work/wide" '' 1 2
cp "$work/wide" "$work/in" && moves 'back from edition 2' "$new" '' 2 1
# 33: a window seen that is less than d deep (word 19), P and T half a window apart (word 8); a size that was set (word 56), a next size that is not the pool's
# (word 54), a live window that is not (word 58), a seen bottom that is not d below its top (word 25).
changed "$new" 19 1 && moves 'on to edition 2, a low window seen' $none 33 1 2
changed "$new" 8 3 && moves 'on to edition 2, P and T half a window apart' $none 33 1 2
for word in 25 54 56; do
    changed "$work/wide" "$word" 1 && moves "back from edition 2, word $word is 1" $none 33 2 1
done
changed "$work/wide" 58 1 && moves 'back from edition 2, a narrow live window' $none 33 2 1
# What stands after the needed words is dropped: stray bytes, words, and more than is read.
for n in 1 3 4 70000; do
    (cat "$old" && head -c "$n" /dev/urandom) >"$work/in" && moves "on, $n bytes after the pool" "$new" '' 0 1
    (cat "$new" && head -c "$n" /dev/urandom) >"$work/in" && moves "back, $n bytes after the pool" "$old" '' 1 0
done
# A worker's ninth word is dropped: word 24 is that of worker 0.
changed "$new" 24 5 && moves 'back, with a failed commit counted' "$old" '' 1 0
# The largest pools of both kinds: 16 subs of 256 rows, 32 workers, each worker and cell with words of its own.
for kind in 0 1; do
    for edition in 0 1; do
        "$python" - $kind $edition <<'EOF' | pool "$work/largest$edition"
import sys
kind, edition = map(int, sys.argv[1:])
print(kind, 16, 64, 64, 256, 32, 9, 4096, 64, 64, 15, edition)
print(*(16 * [200, 7]))
for i in range(32):
    print(2, 1000 + i, i % 16, 64, 0, i % 16, 2000 + i, 2**32 - 1 - i, *([0] if edition else []))
print(*range(3000, 3000 + 2 * 4096))
EOF
    done
    cp "$work/largest0" "$work/in" && moves "on, the largest of kind $kind" "$work/largest1" '' 0 1
    cp "$work/largest1" "$work/in" && moves "back, the largest of kind $kind" "$work/largest0" '' 1 0
done
# Another edition than the one moved from: 31, also where the words would not be enough.
cp "$old" "$work/in" && moves 'edition 0 moved back' $none 31 1 0
cp "$new" "$work/in" && moves 'edition 1 moved on' $none 31 0 1
for edition in 2 7 4294967295; do
    changed "$old" 11 "$edition" && moves "edition $edition moved on" $none 31 0 1
    moves "edition $edition moved back" $none 31 1 0
done
for edition in 0 2 7; do
    changed "$new" 11 "$edition" && moves "edition $edition moved to edition 2" $none 31 1 2
done
head -c 48 "$new" >"$work/in" && moves 'edition 1 moved on, 12 words' $none 31 0 1
# Too few words: 21, at some numbers of them.
for n in 0 1 4 44 47 48 188 191; do
    head -c "$n" "$old" >"$work/in" && moves "on, $n bytes" $none 21 0 1
done
head -c 199 "$new" >"$work/in" && moves 'back, 199 bytes' $none 21 1 0
# Unfit: 23. A kind, a width and a stride off limits, more taken than put, a phase that a queue has not, an index and a scan as large as the width.
while read -r word value; do
    changed "$old" "$word" "$value" && moves "on, word $word is $value" $none 23 0 1
done <<'EOF'
0 2
1 17
10 2
13 2
16 3
18 2
21 2
EOF
# Settings are looked at before the edition, and the edition before the rest.
changed "$old" 0 2 && moves 'back, edition 0, word 0 is 2' $none 23 1 0
changed "$old" 16 3 && moves 'back, edition 0, word 16 is 3' $none 31 1 0
# Any other arguments: how it is called.
usage="mover: call it as 'mover 1 2 <OLD >NEW', from one edition to the next or back: 0 1, 1 0, 1 2 or 2 1"
cp "$old" "$work/in"
check 'no arguments' $none "$usage" "$mover"
check 'one argument' $none "$usage" "$mover" 0
check 'three arguments' $none "$usage" "$mover" 0 1 0
for arguments in '0 0' '1 1' '2 2' '0 2' '2 0' '2 3' '3 2' '00 1' '0 01' 'a b'; do
    # shellcheck disable=SC2086
    check "arguments $arguments" $none "$usage" "$mover" $arguments
done
check 'empty arguments' $none "$usage" "$mover" '' ''
# What can't be read or written is told.
check "an input that can't be read" $none 'mover: cannot read standard input' sh -c "$mover 0 1 <."
check "an output that can't be written" $none 'mover: cannot write standard output' sh -c "$mover 0 1 >/dev/full"
echo "mover: $passed passed, $failed failed"
[ "$failed" -eq 0 ]
