#!/usr/bin/env bash
# Programs that the compiler, and not the prover, must refuse. Each refused/NAME.txt begins
#
#   says: the error's name
#   needs: the crates of the repository that it uses, and those that they use, lowest first
#
# and goes on with the text of a program, in which each line at fault ends with '// refused'. The program must be
# refused with that error and no other; without those lines the compiler must take it. Nothing is proved here.
set -euo pipefail
here=$(cd "$(dirname "$0")" && pwd)
root=$(dirname "$here")
work=$(mktemp -d)
trap 'rm -rf "$work"' EXIT
bad=0

# Whether the compiler takes the program $work/main.rt over the named crates, in a repository of its own;
# what it says goes to $work/said. 'rt try' proves nothing.
compiles() { # CRATES
    local crate part
    rm -rf "$work/crates"
    mkdir -p "$work/crates/attempt/src"
    cp "$work/main.rt" "$work/crates/attempt/src/main.rt"
    : >"$work/crates.txt"
    for crate in $1; do
        mkdir "$work/crates/$crate"
        for part in src specs proofs; do
            # A crate whose proof the check finds alone has no proofs/.
            if [ -d "$root/crates/$crate/$part" ]; then cp -r "$root/crates/$crate/$part" "$work/crates/$crate"; fi
        done
        grep -E "^$crate( |:)" "$root/crates.txt" >>"$work/crates.txt"
    done
    echo "attempt: $1" >>"$work/crates.txt"
    (cd "$work/crates/attempt" && rt try) >"$work/said" 2>&1
}

fault() { # NAME WORDS
    echo "refused/$1.txt: $2"
    sed 's/^/    /' "$work/said" | head -20
    bad=1
}

for text in "$here"/*.txt; do
    name=$(basename "$text" .txt)
    says=$(sed -n '1s/^says: //p' "$text")
    needs=$(sed -n '2s/^needs: //p' "$text")
    : >"$work/said"
    if [ -z "$says" ] || [ -z "$needs" ] || ! grep -q '// refused$' "$text"; then
        fault "$name" "it lacks 'says:', 'needs:' or a line marked '// refused'"
        continue
    fi
    tail -n +3 "$text" >"$work/main.rt"
    if compiles "$needs"; then
        fault "$name" "ACCEPTED, and must be refused with $says"
        continue
    fi
    errors=$(grep -o 'error\[[a-z0-9-]*\]' "$work/said" | sort -u || true)
    if [ "$errors" != "error[$says]" ]; then
        fault "$name" "refused, but not with $says alone"
        continue
    fi
    tail -n +3 "$text" | grep -v '// refused$' >"$work/main.rt"
    if ! compiles "$needs"; then
        fault "$name" "refused even without the lines at fault"
        continue
    fi
    echo "refused/$name.txt: refused with $says, and accepted without the lines at fault"
done
exit "$bad"
