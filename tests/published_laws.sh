#!/usr/bin/env bash
# What a crate may cite of another one's proofs (docs/DECISIONS.md, 54). Crates above the reading layer know a file only by the table it
# yields: of the reading crates' proofs they may cite the published laws alone. And contracts (src) and definitions (specs) cite
# definitions alone: who reads what has to be believed need not look into proofs. What the bytes of an accepted file are stands apart, in
# the crate padding: nothing else is proved from it.
set -euo pipefail
cd "$(dirname "$0")/.."
reading='text|rule_row|rule_file|take_file|sheet_file|circuit_line|circuit_file|padding'
# Imports are written with points (Rattle.text.proofs.Laws.{..}), the lemmas that a function names for its tactic with two colons.
cited() {
    grep -rnE "\b($1)(\.|::)proofs(\.|::)" crates --include='*.antt' --include='*.rt' --exclude-dir=out || true
}
others=$(cited "$reading" |
    grep -vE "^crates/($reading|rule_and_take)/|(\.|::)proofs(\.|::)(Laws|Rules|Takes|Sheets|Circuits|CircuitTables)(\.|::)" || true)
if [ -n "$others" ]; then
    printf '%s\n' "$others" "tests/published_laws.sh: these cite how a reader is proved" >&2
    exit 1
fi
bytes=$(cited padding | grep -v '^crates/padding/' || true)
if [ -n "$bytes" ]; then
    printf '%s\n' "$bytes" "tests/published_laws.sh: these lean on the bytes of an accepted file" >&2
    exit 1
fi
proofs=$(grep -rnE "Rattle\.[^ ;]*\.proofs\." crates/*/src crates/*/specs || true)
if [ -n "$proofs" ]; then
    printf '%s\n' "$proofs" "tests/published_laws.sh: these contracts and definitions cite proofs" >&2
    exit 1
fi
