#!/bin/sh
# Times the plain C, and beside it the library that a crate exports.
#
#   ./run.sh                  the plain C alone
#   ./run.sh CRATE            with the static library of that crate, which rt proves and builds first
#   ./run.sh --vectors DIR    no times: answers each DIR/NAME.in and compares with DIR/NAME.out
set -eu
here=$(cd "$(dirname "$0")" && pwd)
root=$(dirname "$here")
build=$root/target/benchmark
mkdir -p "$build"
# SSE4.2 and no instructions for AES
flags="-std=gnu11 -O3 -march=x86-64-v2 -Wall -Wextra"

if [ "${1:-}" = --vectors ]; then
    ${CC:-cc} $flags "$here/lines.c" "$here/plain.c" -o "$build/lines"
    for in in "$2"/*.in; do
        "$build/lines" <"$in" | cmp - "${in%.in}.out"
        echo "$(basename "$in" .in): as expected"
    done
    exit
fi

library=
if [ $# -gt 0 ]; then
    (cd "$root/crates/$1" && rt lib) >"$build/lib.log" 2>&1 || { tail "$build/lib.log"; exit 1; }
    library="-DLIBRARY $root/crates/$1/out/lib$1.a"
fi
${CC:-cc} $flags "$here/bench.c" "$here/plain.c" $library -o "$build/bench"
"$build/bench"
