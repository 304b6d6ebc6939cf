#!/bin/sh
# tests/examples.sh: packs each text of examples/ and examples/runs/ into a run file, prints it with target/bin/lister and target/bin/summary, from a file and
# in pieces of a few bytes, and compares with the stored listing and with the summary, where one is stored. Then long files, in pieces of all sizes.
# The programs must have been built: `tools/build lister summary`.
cd "$(dirname "$0")/.." || exit 2
lister=target/bin/lister
summary=target/bin/summary
missing=
for program in "$lister" "$summary"; do
    [ -x "$program" ] || { echo "examples: no $program: run 'tools/build ${program##*/}' first" >&2; missing=1; }
done
[ -z "$missing" ] || exit 2
# Looked for once: where python3 is a wrapper, finding the interpreter takes longer than a listing.
python=$(python3 -c 'import sys; print(sys.executable)') || exit 2
work=$(mktemp -d) || exit 2
trap 'rm -rf "$work"' EXIT
passed=0
failed=0
# prints NAME STORED COMMAND..: the command, with $work/run as its input, prints what STORED has, no message, and ends with 0.
prints() {
    name=$1 stored=$2
    shift 2
    if "$@" <"$work/run" >"$work/out" 2>"$work/errors" && cmp -s "$work/out" "$stored" && [ ! -s "$work/errors" ]; then
        passed=$((passed + 1))
    else
        failed=$((failed + 1))
        echo "examples: $name is printed otherwise by $*:" >&2
        diff "$stored" "$work/out" | head -n 20 >&2
        cat "$work/errors" >&2
    fi
}
# pack: the text of standard input as $work/run.
pack() { "$python" tools/runfile pack >"$work/run"; }
# both_ways NAME STORED PROGRAM: the program prints it from a file and from pieces of a few bytes.
both_ways() {
    prints "$1" "$2" "$3"
    prints "$1" "$2" "$python" tests/in_pieces.py "$3"
}
# in_pieces NAME STORED SIZES PROGRAM: the program prints it from pieces of these sizes, of each alone.
in_pieces() {
    for size in $3; do
        prints "$1" "$2" "$python" tests/in_pieces.py --sizes "$size" "$4"
    done
}

for text in examples/*.txt examples/runs/*.txt; do
    if ! pack <"$text"; then
        failed=$((failed + 1))
        echo "examples: $text can't be packed" >&2
        continue
    fi
    both_ways "$text" "${text%.txt}.listing" "$lister"
    if [ -f "${text%.txt}.summary" ]; then
        both_ways "$text" "${text%.txt}.summary" "$summary"
    fi
done

# Longer than two buffers of 65,536 bytes: 6,000 more rounds of stack-endless, 36,000 steps, which change nothing but how many words and steps there are.
endless=examples/runs/stack-endless
(grep -v '^end$' "$endless.txt" && awk 'BEGIN { for (i = 0; i < 6000; i++) print "step 0 x3\nstep 1 x3"; print "end" }') | pack
sed 's/^words 40$/words 36040/; s/^steps 34 /steps 36034 /' "$endless.summary" >"$work/summary"
sizes='1 2 3 4 5 4095 4096 65537'
in_pieces 'the endless run' "$endless.listing" "$sizes" "$lister"
in_pieces 'the endless run' "$work/summary" "$sizes" "$summary"
# So is the listing: 40,000 steps of a worker that there is not, after the first example's.
(grep -v '^end$' examples/first.txt && printf 'step 63 x40000\nend\n') | pack
(grep -v '^held' examples/first.listing && awk 'BEGIN { for (i = 10; i < 40010; i++) print i, "24 63 0 0 0 0 0"; print "held 0 worst 0" }') >"$work/listing"
sed 's/^words 11$/words 40011/; s/refused 0$/refused 40000/' examples/first.summary >"$work/summary"
sizes='4095 4096 65537'
in_pieces 'the refused run' "$work/listing" "$sizes" "$lister"
in_pieces 'the refused run' "$work/summary" "$sizes" "$summary"

# A directory can be opened and not read: a message, and no line.
for program in "$lister" "$summary"; do
    if "$program" <. >"$work/out" 2>"$work/errors" && [ ! -s "$work/out" ] && [ -s "$work/errors" ]; then
        passed=$((passed + 1))
    else
        failed=$((failed + 1))
        echo "examples: $program does not tell of an input that can't be read" >&2
    fi
done
echo "examples: $passed passed, $failed failed"
[ "$failed" -eq 0 ]
