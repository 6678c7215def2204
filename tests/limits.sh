#!/usr/bin/env bash
# Runs each program with each of its files at the limit of length, 65,536 bytes, and beyond it, the other files being valid, and holds all
# that it prints to what 01 says: such a file is refused with 2 in the line that is not of its form, a longer one with 1 and line 0.
#     tests/limits.sh [FOLDER]      the programs, FOLDER/NAME; where none is given crates/NAME/out/NAME, as `rt ci` and `rt run` leave them
set -euo pipefail
cd "$(dirname "$0")/.."
bin=$(realpath "${1:-crates}")
valid=$PWD/examples/sheet_passes
folder=$(mktemp -d)
trap 'rm -rf "$folder"' EXIT
cd "$folder"
names=(rule take sheet)
runs=0 failed=0

# program NAME: its path.
program() {
    if [ -d "$bin/$1" ]; then echo "$bin/$1/out/$1"; else echo "$bin/$1"; fi
}

# expect PROGRAM TEXT: the program's print-out in the folder must be the text.
expect() {
    runs=$((runs + 1))
    "$(program "$1")" >said 2>&1 || echo "status $?" >>said
    printf '%b' "$2" >due
    cmp -s said due && return
    failed=$((failed + 1))
    echo "tests/limits.sh: $1 with files of $(wc -c <rule.txt), $(wc -c <take.txt) and $(wc -c <sheet.txt) bytes prints"
    head -n 10 said
    echo "in the place of"
    head -n 10 due
}

# filled LENGTH NAME: adds bytes `a` to the file until it has that length.
filled() {
    head -c $(($1 - $(wc -c <"$2"))) /dev/zero | tr '\0' a >>"$2"
}

# at_limits PROGRAM FILES: the program on its first so many files. The bytes `a` are the whole file, or stand behind its last line.
at_limits() {
    local number name length behind refusal
    for number in $(seq "$2"); do
        name=${names[number - 1]}.txt
        for length in 65536 65537 65538 200000; do
            for behind in 0 $(wc -l <"$valid/$name"); do
                cp "$valid"/{rule,take,sheet}.txt .
                [ "$behind" -gt 0 ] || : >"$name"
                filled "$length" "$name"
                refusal="refused=1\nfile=$number\nline=0\n"
                [ "$length" -gt 65536 ] || refusal="refused=2\nfile=$number\nline=$((behind + 1))\n"
                expect "$1" "$refusal"
            done
        done
    done
}

programs='judge sheet check_sheet normal'
for name in $programs; do
    path=$(program "$name")
    [ -x "$path" ] && [ ! -d "$path" ] && continue
    echo "tests/limits.sh: $path is not there: for p in $programs; do (cd crates/\$p && rt run >/dev/null); done" >&2
    exit 1
done
at_limits judge 2
at_limits sheet 2
at_limits check_sheet 3
at_limits normal 1
if [ "$failed" -gt 0 ]; then
    echo "tests/limits.sh: $failed of $runs runs print something else"
    exit 1
fi
echo "tests/limits.sh: $runs runs on files at the limits of length print what they must"
