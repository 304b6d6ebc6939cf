#!/usr/bin/env bash
# Builds each C program of examples/ against the compiled library and compares what it prints with its .out file.
# The header is for C99, and for C++11 too, where there is a compiler for it. The library must have been built: `tools/build pool`.
set -euo pipefail
cd "$(dirname "$0")/.."
work=$(mktemp -d)
trap 'rm -rf "$work"' EXIT
for source in examples/*.c; do
    gcc -std=c99 -pedantic -Wall -Wextra -Werror -O2 -Iinclude "$source" target/staticlib/libpool.a -o "$work/program"
    if command -v g++ >/dev/null; then
        g++ -x c++ -std=c++11 -pedantic -Wall -Wextra -Werror -Iinclude -fsyntax-only "$source"
    fi
    "$work/program" >"$work/out"
    diff "${source%.c}.out" "$work/out"
    echo "$source prints what ${source%.c}.out has"
done
