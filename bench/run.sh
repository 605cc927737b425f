#!/bin/bash
# Builds the speed bench and runs it; see docs/SPEED.md.
#
#   run.sh [WORDS..]           the times; the words go to the program: --lines N, --passes N, --seed N
#   run.sh --count             instructions a line of each side on 20,000 lines, counted by valgrind
#
# PDBTBX_SRC      the folder with src/read/pdb/lexer.rs; otherwise ../shared/docs/src beside the repository
# BENCH_READ      the port's static library; otherwise make builds it, which proves it first
# SALTIGHEDDA     the library that hosts link; otherwise make builds it, which proves it first
# RUSTC CC CXX    the compilers; otherwise rustc, cc and c++
set -eu
[ "$(uname -m)" = x86_64 ] || { echo "run.sh: the port is compiled for x86-64; a time under an emulator says nothing" >&2; exit 2; }
here=$(cd "$(dirname "${BASH_SOURCE[0]}")" && pwd)
repository=$(dirname "$here")
made=$repository/target/bench
program=$made/bench

count=no
if [ "${1:-}" = --count ]; then
    count=yes
    [ $# = 1 ] || { echo "run.sh: --count takes no more words" >&2; exit 2; }
    command -v valgrind >/dev/null || { echo "run.sh: --count wants valgrind" >&2; exit 2; }
fi

source=${PDBTBX_SRC:-$repository/../shared/docs/src}
[ -f "$source/src/read/pdb/lexer.rs" ] || {
    echo "run.sh: $source has no src/read/pdb/lexer.rs; name its folder in PDBTBX_SRC" >&2
    exit 2
}
PDBTBX_SRC=$(cd "$source" && pwd)
export PDBTBX_SRC

mkdir -p "$made"
if [ -z "${BENCH_READ:-}" ]; then
    make --no-print-directory -C "$repository" crates/bench_read_c/out/libbench_read_c.a
    BENCH_READ=$repository/crates/bench_read_c/out/libbench_read_c.a
fi
if [ -z "${SALTIGHEDDA:-}" ]; then
    make --no-print-directory -C "$repository" target/staticlib/libsaltighedda.a
    SALTIGHEDDA=$repository/target/staticlib/libsaltighedda.a
fi

rust() {
    "${RUSTC:-rustc}" --edition 2021 --check-cfg 'cfg(copying, gemmi)' -C opt-level=3 -C codegen-units=1 -C debug-assertions=off "$@"
}
rust --crate-type rlib --crate-name rust_copying --cfg copying -o "$made/librust_copying.rlib" "$here/src/rust.rs"
rust --crate-type rlib --crate-name rust_light -o "$made/librust_light.rlib" "$here/src/rust.rs"
"${CC:-cc}" -std=c11 -Wall -Wextra -O3 -c -o "$made/floor.o" "$here/floor.c"
"${CC:-cc}" -std=c11 -Wall -Wextra -O3 -I"$repository/include" -c -o "$made/words.o" "$here/words.c"
words=(-C "link-arg=$BENCH_READ" -C "link-arg=$made/floor.o" -C "link-arg=$made/words.o" -C "link-arg=$SALTIGHEDDA")
sides=(port:saltighedda_bench words:bench_words rust-copying:bench_rust_copying rust-light:bench_rust_light floor:bench_floor)
if echo '#include <gemmi/pdb.hpp>' | "${CXX:-c++}" -E -x c++ - >/dev/null 2>&1; then
    "${CXX:-c++}" -std=c++17 -O3 -c -o "$made/gemmi.o" "$here/gemmi.cpp"
    words+=(--cfg gemmi -C "link-arg=$made/gemmi.o" -l dylib=stdc++)
    sides+=(gemmi:bench_gemmi)
fi
rust --crate-name bench --extern "rust_copying=$made/librust_copying.rlib" --extern "rust_light=$made/librust_light.rlib" \
    "${words[@]}" -o "$program" "$here/src/main.rs"

[ $count = yes ] || exec "$program" "$@"

# Counting is on only while the side's own function runs, so that making the file isn't counted.
lines=20000
echo "instructions a line, over $lines lines with no fault"
for side in "${sides[@]}"; do
    word=${side%%:*} entry=${side#*:}
    out=$made/callgrind.$word
    valgrind --tool=callgrind --toggle-collect="$entry" --callgrind-out-file="$out" "$program" --once "$word" --lines $lines \
        >"$out.log" 2>&1 || { cat "$out.log" >&2; exit 1; }
    awk -v word="$word" -v lines=$lines '/^(summary|totals):/ { n = $2 } END { printf "%-14s %8.0f\n", word, n / lines }' "$out"
done
[ ${#sides[@]} = 6 ] || echo "gemmi isn't installed here, and had no turn"
echo "who has them: callgrind_annotate target/bench/callgrind.SIDE"
