#!/usr/bin/env bash
# Tries the library from C and from Rust: builds it, holds its need of stack to the header's, runs the C programs over examples/, the test
# of steps in place, the tests of the Rust crates, the Rust programs on examples, and the comparison with the second implementation. Holds
# what crates/try_services must print to the second implementation, and to what stands by hand in tests/.
# Stops at the first failure; what a step printed is shown only then.
#     rust/check.sh        CITRONHELM_LIB=FOLDER takes FOLDER/libcitronhelm.a in the place of building it
set -euo pipefail
cd "$(dirname "$0")/.."
scratch=$(mktemp -d)
trap 'rm -rf "$scratch"' EXIT

quietly() {
    "$@" >"$scratch/said" 2>&1 || { cat "$scratch/said" >&2; echo "rust/check.sh: failed: $*" >&2; exit 1; }
}

# The C program's answer on a rule and a take must be the file given last: the verdict, or a refusal's three lines.
c_answers() {
    "$scratch/judge" "$1" "$2" >"$scratch/answer"
    diff "$scratch/answer" "$3"
}

# The Rust program's answer on a rule and a take must be the line given last.
rust_answers() {
    cargo run --offline --locked --release --example judge -- "$1" "$2" | tee "$scratch/answer" && grep -qx "$3" "$scratch/answer"
}

# What a program that watches a run answers to the cycles of examples/run must be the file there; of 257 cycles the last is refused.
watch_answers() {
    "$@" "$root/examples/run/rule.txt" <"$root/examples/run/cycles.txt" >"$scratch/answer" &&
        diff "$scratch/answer" "$root/examples/run/expected-watch.txt" &&
        "$@" "$root/examples/run/rule.txt" <"$scratch/cycles" >"$scratch/answer" &&
        diff "$scratch/answer" "$scratch/watched"
}

# What a program that lends exact lengths prints must be the normal forms and sheets in examples/. A take in the place of a rule is refused.
exact_answers() {
    local expected files
    for expected in "$root"/examples/*/expected-{normal,sheet}.txt; do
        files=("${expected%/*}/rule.txt")
        [ "${expected##*-}" = normal.txt ] || files+=("${expected%/*}/take.txt")
        "$@" "${files[@]}" >"$scratch/answer" && diff "$scratch/answer" "$expected" || return 1
    done
    "$@" "$root/examples/refusal/take.txt" >"$scratch/answer" && printf 'refused=2\nfile=1\nline=3\n' | diff "$scratch/answer" -
}

# What a program that writes circuits prints must be those in examples/. A take in the place of a rule is refused.
circuit_answers() {
    local expected
    for expected in "$root"/examples/*/expected-circuit.txt; do
        "$@" "${expected%/*}/rule.txt" >"$scratch/answer" && diff "$scratch/answer" "$expected" || return 1
    done
    "$@" "$root/examples/refusal/take.txt" >"$scratch/answer" && printf 'refused=2\nfile=1\nline=3\n' | diff "$scratch/answer" -
}
root=$PWD
printf '01\n%.0s' {1..257} >"$scratch/cycles"
{ printf 'open\n%.0s' {1..256} && echo refused=11; } >"$scratch/watched"

if [ -z "${CITRONHELM_LIB:-}" ]; then
    quietly env -C crates/citronhelm rt lib
    CITRONHELM_LIB=crates/citronhelm/out
fi
CITRONHELM_LIB=$(realpath "$CITRONHELM_LIB")
export CITRONHELM_LIB

quietly bench/stack.py bound
compile=(cc -std=c99 -pedantic -Wall -Wextra -Werror -O2 -I include)
quietly "${compile[@]}" tests/step_in_place.c "$CITRONHELM_LIB/libcitronhelm.a" -o "$scratch/step_in_place"
quietly "$scratch/step_in_place"
quietly "${compile[@]}" examples/c/judge.c "$CITRONHELM_LIB/libcitronhelm.a" -o "$scratch/judge"
quietly "${compile[@]}" examples/c/watch.c "$CITRONHELM_LIB/libcitronhelm.a" -o "$scratch/watch"
quietly watch_answers "$scratch/watch"
quietly "${compile[@]}" examples/c/exact.c "$CITRONHELM_LIB/libcitronhelm.a" -o "$scratch/exact"
quietly exact_answers "$scratch/exact"
quietly "${compile[@]}" examples/c/circuit.c "$CITRONHELM_LIB/libcitronhelm.a" -o "$scratch/circuit"
quietly circuit_answers "$scratch/circuit"
judged=0
for folder in examples/*/; do
    [ -e "${folder}rule.txt" ] && [ -e "${folder}take.txt" ] && [ -e "${folder}expected.txt" ] || continue
    grep -E '^(verdict|refused|file|line)=' "${folder}expected.txt" >"$scratch/expected"
    quietly c_answers "${folder}rule.txt" "${folder}take.txt" "$scratch/expected"
    judged=$((judged + 1))
done
head -c 100000 /dev/zero >"$scratch/long"
printf 'refused=1\nfile=1\nline=0\n' >"$scratch/expected"
quietly c_answers "$scratch/long" "$scratch/absent" "$scratch/expected"

cd rust
export RUSTFLAGS="-D warnings"
quietly cargo test --offline --locked --release --workspace
quietly ../tests/make_cases.py --check
tail -n 1 "$scratch/said"
quietly rust_answers ../examples/rule_a/rule.txt ../examples/rule_a/take.txt verdict=holds
quietly watch_answers cargo run --quiet --offline --locked --release --example watch --
quietly exact_answers cargo run --quiet --offline --locked --release --example exact --
quietly circuit_answers cargo run --quiet --offline --locked --release --example circuit --
cargo run --quiet --offline --locked --release -p compare
echo "rust/check.sh: C judged $judged examples, watched a run, lent exact lengths, wrote a circuit and stepped in place; the Rust crates'" \
    "tests pass; library and second implementation agree"
