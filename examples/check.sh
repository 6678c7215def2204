#!/usr/bin/env bash
# Runs `judge` in each folder of examples and holds what it prints to expected.txt; and `sheet`, `check_sheet` and `normal` where a folder
# has what they must print, expected-sheet.txt, expected-check_sheet.txt and expected-normal.txt. Of a folder NAME_padded these must be the
# files of the folder NAME.
#     examples/check.sh [PROGRAM [WORDS...]]      the four programs, crates/NAME/out/NAME, as `rt ci` and `rt run` leave them; or PROGRAM in
#                                                 the place of `judge`, and of the other three those whose path is PROGRAM's with their
#                                                 name in the place of `judge`
set -euo pipefail
names=(judge sheet check_sheet normal) programs=()
if [ $# -gt 0 ]; then
    judge=$(realpath -m "$1")
    programs=("$judge" "${judge%judge}"{sheet,check_sheet,normal})
fi
cd "$(dirname "$0")"
if [ $# -eq 0 ]; then
    for name in "${names[@]}"; do programs+=("$(realpath -m "../crates/$name/out/$name")"); done
    judge=${programs[0]}
fi
for program in "${programs[@]}"; do
    [ -x "$program" ] && continue
    echo "examples/check.sh: $program is not there" >&2
    [ "$program" != "$judge" ] && [ $# -gt 0 ] && continue
    echo "examples/check.sh: build the programs first: for p in ${names[*]}; do (cd crates/\$p && rt run >/dev/null); done" >&2
    exit 1
done
failed=0
for folder in */; do
    for program in "${programs[@]}"; do
        expected=${folder}expected.txt
        if [ "$program" != "$judge" ]; then
            expected=${folder}expected-${program##*/}.txt
            [ -x "$program" ] && [ -e "$expected" ] || continue
        fi
        if (cd "$folder" && "$program" "${@:2}") | cmp - "$expected"; then
            echo "same ${folder%/} ${program##*/}"
        else
            echo "different ${folder%/} ${program##*/}"
            failed=1
        fi
    done
done
for expected in *_padded/expected*.txt; do
    folder=${expected%/*}
    cmp "$expected" "${folder%_padded}/${expected##*/}" || failed=1
done
exit "$failed"
