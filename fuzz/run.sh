#!/usr/bin/env bash
# Fuzzes the library against the second implementation.
#     fuzz/run.sh                    every target for 60 seconds
#     fuzz/run.sh TARGET [SECONDS]   one of: rule take sheet judge check step run circuit
#     fuzz/run.sh build              only builds: target/fuzz/bin/TARGET FILE... then runs the files given
#     fuzz/run.sh corpus             writes fuzz/corpus anew: of all inputs found, a few small ones that reach every edge reached
#     fuzz/run.sh edges              says how many of the library's edges the corpus and the seeds reach
#     fuzz/run.sh wrong              turns each comparison in the library, one at a time; says which of these libraries fuzz/corpus shows
# What a run finds new is kept in target/fuzz/found, what it ends on in fuzz/findings. README.md says what is needed.
set -euo pipefail
cd "$(dirname "$0")/.."
targets='rule take sheet judge check step run circuit'
made=$PWD/target/fuzz
kit=$(dirname "$(rt doc)")
kit_clang=$kit/toolchain/bin/clang
archive=crates/citronhelm/out/libcitronhelm.a
rust_part=$made/cargo/x86_64-unknown-linux-gnu/release/libfuzz.a
export ASAN_OPTIONS=malloc_context_size=0:quarantine_size_mb=16

# keeping_kit FOLDER: the kit with one thing changed: its clang also keeps the LLVM module that it is given, and the flags. The library is
# built as ever. The copy is made of links, but for rt, which takes for the kit what lies around it; it stands outside the repository, where
# `rt ci` wants none.
keeping_kit() {
    mkdir -p "$1/bin" "$1/toolchain/bin"
    for part in "$kit"/*; do [[ ${part##*/} =~ ^(bin|toolchain)$ ]] || ln -s "$part" "$1/"; done
    for part in "$kit"/bin/*; do [[ ${part##*/} =~ ^rt(lib.py)?$ ]] || ln -s "$part" "$1/bin/"; done
    cp "$kit/bin/rt" "$kit/bin/rtlib.py" "$1/bin/"
    for part in "$kit"/toolchain/*; do [ "${part##*/}" = bin ] || ln -s "$part" "$1/toolchain/"; done
    for part in "$kit"/toolchain/bin/*; do [ "${part##*/}" = clang ] || ln -s "$part" "$1/toolchain/bin/"; done
    printf '#!/bin/sh\ncp module.bc "%s/library.bc"\nprintf "%%s\\n" "$@" >"%s/library.flags"\nexec "%s" "$@"\n' \
        "$made" "$made" "$kit_clang" >"$1/toolchain/bin/clang"
    chmod +x "$1/toolchain/bin/clang"
}

# compile MODULE OBJECT: as the kit does, but with a counter for each edge and every access to memory checked.
compile() {
    local as_the_kit
    mapfile -t as_the_kit < <(grep -vxE -e '-c|-x|ir|-o|module\.(bc|o)|--sysroot=.*' "$made/library.flags")
    "$kit_clang" "${as_the_kit[@]}" -c -x ir "$1" -o "$2" -fsanitize=address -fsanitize-coverage=inline-8bit-counters,pc-table
}

# link OBJECT FOLDER: the library's object with the targets. They are one program, which looks at the name it is called by.
link() {
    mkdir -p "$2"
    clang -fsanitize=fuzzer,address "$rust_part" "$1" -o "$2/targets"
    for target in $targets; do ln -f "$2/targets" "$2/$target"; done
}

# The proved library once more from its module.
library() {
    if [ -e "$made/library.o" ] && [ -e "$archive" ] &&
        [ -z "$(find crates/*/src -name '*.rt' -newer "$made/library.o" -print -quit)" ]; then return; fi
    local copy failed=
    copy=$(mktemp -d)
    keeping_kit "$copy/kit"
    (cd crates/citronhelm && rt lib && "$copy/kit/bin/rt" lib) >"$made/library.log" 2>&1 || failed=1
    rm -rf "$copy"
    [ -z "$failed" ] || { cat "$made/library.log" >&2; exit 1; }
    "$kit_clang" -S -emit-llvm -x ir "$made/library.bc" -o "$made/library.ll"
    for group in $(sed -nE 's/^define .* (#[0-9]+) .*\{$/\1/p' "$made/library.ll" | sort -u); do
        sed -i "s/^attributes $group = {/& sanitize_address/" "$made/library.ll"
    done
    compile "$made/library.ll" "$made/library.o"
}

build() {
    mkdir -p "$made"
    library
    local flags='-C passes=sancov-module -C llvm-args=-sanitizer-coverage-level=3'
    for what in inline-8bit-counters pc-table; do flags+=" -C llvm-args=-sanitizer-coverage-$what"; done
    (cd fuzz && RUSTFLAGS=$flags cargo build --quiet --offline --locked --release --target x86_64-unknown-linux-gnu \
        --target-dir "$made/cargo")
    link "$made/library.o" "$made/bin"
    link "$archive" "$made/plain"
    rm -rf "$made/seeds" && fuzz/seeds.py "$made/seeds"
}

# fuzz TARGET SECONDS: prints executions, edges, size of the corpus, and how often each service gave each kind of answer. The inputs
# kept are then run once on the library as it is delivered.
fuzz() {
    mkdir -p fuzz/findings
    local inputs=("-artifact_prefix=fuzz/findings/$1-" "$made/found/$1" "fuzz/corpus/$1" "$made/seeds/$1") log=$made/$1.log
    "$made/bin/$1" -max_total_time="$2" -max_len=3000 -timeout=20 -dict=fuzz/words.dict -print_final_stats=1 "${inputs[@]}" >"$log" 2>&1 ||
        ended "$log"
    grep -E '^#[0-9]+.(INITED|DONE)|^stat::|^tally:' "$log"
    "$made/plain/$1" -runs=0 "${inputs[@]}" >"$log.plain" 2>&1 || ended "$log.plain"
    sed -nE 's/^Done ([0-9]+) runs.*/as delivered: \1 runs/p' "$log.plain"
}

ended() {
    grep -vE '^#|^INFO|^tally|^stat|^"' "$1" | head -n 30 >&2
    echo "fuzz/run.sh: stopped; see $1" >&2
    exit 1
}

# reached FOLDER...: which edges each input in FOLDER/TARGET reaches, for every target.
reached() {
    mkdir -p "$made/edges"
    clang -O1 -fsanitize=address fuzz/edges.c "$made/library.o" "$rust_part" -o "$made/edges/targets"
    for target in $targets; do
        ln -f "$made/edges/targets" "$made/edges/$target"
        find "${@/%//$target}" -type f -exec "$made/edges/$target" {} + >"$made/edges/$target.edges" 2>"$made/edges/log" ||
            ended "$made/edges/log"
    done
}

corpus() {
    reached fuzz/corpus "$made/seeds" "$made/found"
    # shellcheck disable=SC2086
    fuzz/smallest.py "$made/edges" fuzz/corpus $targets
}

edges() {
    local all
    reached fuzz/corpus "$made/seeds"
    all=$(size -A "$made/library.o" | awk '$1 == "__sancov_cntrs" { all += $2 } END { print all }')
    for target in $targets 'all targets'; do
        cat "$made/edges/"${target/all targets/*}.edges | cut -d' ' -f2- | tr ' ' '\n' | sort -u |
            awk -v all="$all" -v target="$target" '$1 < all { reached++ } END { print target ": " reached " of " all }'
    done
}

# shown FOLDER: whether the targets there end on an input of the corpus or a seed; the first that does.
shown() {
    for target in $targets; do
        "$1/$target" -runs=0 -timeout=5 -artifact_prefix="$1/" "fuzz/corpus/$target" "$made/seeds/$target" >"$1/log" 2>&1 ||
            { echo "$target"; return; }
    done
    return 1
}

wrong() {
    local all=0 found=0 by
    for line in $(grep -n ' icmp ' "$made/library.ll" | cut -d: -f1); do
        sed "$line{s/icmp eq/icmp ne/;t;s/icmp ne/icmp eq/;t;s/icmp ult/icmp ule/;t;s/icmp ule/icmp ult/}" \
            "$made/library.ll" >"$made/wrong.ll"
        compile "$made/wrong.ll" "$made/wrong.o"
        link "$made/wrong.o" "$made/wrong"
        all=$((all + 1))
        if by=$(shown "$made/wrong"); then found=$((found + 1)); else by='not shown'; fi
        echo "$(head -n "$line" "$made/library.ll" | sed -nE 's/^define [^@]*@"?([A-Za-z_:0-9]+).*/\1/p' | tail -1), line $line: $by"
    done
    echo "$found of $all wrong libraries are shown"
}

for target in $targets; do mkdir -p "fuzz/corpus/$target" "$made/found/$target"; done
build
case ${1:-all} in
build) ;;
corpus) corpus ;;
edges) edges ;;
wrong) wrong ;;
all) for target in $targets; do echo "== $target" && fuzz "$target" 60; done ;;
rule | take | sheet | judge | check | step | run | circuit) fuzz "$1" "${2:-60}" ;;
*) sed -n '2,9s/^# \?//p' "$0" >&2 && exit 2 ;;
esac
