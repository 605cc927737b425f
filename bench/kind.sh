#!/bin/bash
# Builds the bench of asking for a line's kind and runs it on the bench's own file; see docs/SPEED.md.
#
#   kind.sh [--passes N]     the times
#   kind.sh --count          instructions a line of each side: counted by valgrind on x86-64, elsewhere by the toolchain's emulator
#
# SALTIGHEDDA     the port's static library; otherwise make builds it, which proves it first
# RUSTC CC        a compiler for this machine, and a C compiler for x86-64; otherwise those of tests/have.sh
set -eu
cd "$(dirname "${BASH_SOURCE[0]}")/.."
. tests/have.sh
if why=$(missing c); then echo "kind.sh: $why" >&2; exit 2; fi
made=target/bench
program=$made/kind
mkdir -p $made
if [ "${1:-}" != --count ] && [ "$processor" != x86_64 ]; then
    echo "kind.sh: the port is compiled for x86-64, and a time under an emulator says nothing; --count counts instructions" >&2
    exit 2
fi
if [ -z "${SALTIGHEDDA:-}" ]; then
    SALTIGHEDDA=target/staticlib/libsaltighedda.a
    make --no-print-directory $SALTIGHEDDA
fi
"${RUSTC:-rustc}" --edition 2021 -C opt-level=3 -o $made/lines bench/src/lines.rs
$CC -std=c11 -Wall -Wextra -O3 -Iinclude -o $program bench/kind.c "$SALTIGHEDDA"
if [ "${1:-}" != --count ]; then
    $made/lines 330 500000 | $program "$@"
    exit
fi

# The difference of two files of unlike length leaves out what isn't asking.
if [ "$processor" = x86_64 ]; then
    has valgrind || { echo "kind.sh: --count wants valgrind" >&2; exit 2; }
    instructions() {
        $made/lines 330 $2 | valgrind --tool=callgrind --callgrind-out-file=$made/callgrind.kind-$1 $program --once $1 > $made/kind.log 2>&1 ||
            { cat $made/kind.log >&2; exit 1; }
        awk '/^(summary|totals):/ { n = $2 } END { printf "%.0f\n", n }' $made/callgrind.kind-$1
    }
else
    emulator=$(dirname "$(dirname "$(readlink -f "$(command -v rt)")")")/on/$processor/toolchain
    [ -x "$emulator/bin/qemu-x86_64" ] || { echo "kind.sh: the toolchain has no emulator here" >&2; exit 2; }
    instructions() {
        $made/lines 330 $2 | "$emulator/bin/qemu-x86_64" -one-insn-per-tb -d exec,nochain -D /dev/stderr "$emulator/lib/ld-linux-x86-64.so.2" \
            --library-path "$emulator/lib" $program --once $1 2>&1 > $made/kind.log | wc -l
    }
fi
echo "instructions a line, over 2,000 lines with no fault; the others have those of walk in them"
for side in walk kind read list; do
    few=$(instructions $side 500)
    many=$(instructions $side 2500)
    printf '%-6s %8d\n' $side $(((many - few) / 2000))
done
