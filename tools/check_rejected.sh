#!/usr/bin/env bash
# Each program in rejected/ breaks a rule that the types keep, in one marked line. With the line the compiler must refuse
# the program for its types; without it the same compiler must take it, so that no other mistake passes for the refusal.
set -euo pipefail
cd "$(dirname "$0")/.."

layers=(answer store wire address sender)
scratch=$(mktemp -d)
trap 'rm -rf "$scratch"' EXIT

# The crates that the programs use, away from the repository and from what earlier runs left.
git init -q "$scratch"
for name in "${layers[@]}"; do
    mkdir -p "$scratch/crates/$name"
    cp -R "crates/$name/src" "crates/$name/specs" "$scratch/crates/$name/"
    grep "^$name:" crates.txt >>"$scratch/crates.txt"
done
echo "probe: ${layers[*]}" >>"$scratch/crates.txt"
mkdir -p "$scratch/crates/probe/src"

# Compiles and runs the program on the standard input; says what the compiler says if it refuses it.
compiled() {
    cat >"$scratch/crates/probe/src/main.rt"
    (cd "$scratch/crates/probe" && rt try) >"$scratch/said" 2>&1
}

fail() {
    printf '%s: %s\n' "$1" "$2"
    [ ! -s "$scratch/said" ] || head -n 5 "$scratch/said"
    exit 1
}

# What the compiler must say of the marked line of a program.
reason() {
    local method
    case "$1" in
    rejected/accept_a_bare_report.txt) echo 'expected `Admitted<Sender<Q, StillOpen>, Hack>`, found `Hack`' ;;
    rejected/accept_past_the_checks.txt) echo 'field `incoming` of struct `Admitted` is private' ;;
    *)
        method=$(sed -n 's/.*stream\.\([a-z]*\)(.*\/\/ REFUSED$/\1/p' "$1")
        echo "the method \`$method\` takes \`self\` as \`.*Sender<Q, StillOpen>\`, and is called on \`Sender<Q, AtEnd>\`"
        ;;
    esac
}

for program in rejected/*.txt; do
    [ "$(grep -c '// REFUSED$' "$program")" -eq 1 ] || fail "$program" "one line has to be marked"
    grep -v '// REFUSED$' "$program" | compiled || fail "$program" "refused without the marked line"
    ! compiled <"$program" || fail "$program" "accepted with the marked line"
    line=$(grep -n '// REFUSED$' "$program" | cut -d: -f1)
    grep -q "main.rt:$line:.*$(reason "$program")" "$scratch/said" || fail "$program" "refused, but for another reason"
    echo "$program: refused, as it must be"
done
