#!/bin/bash
# Instructions a line of the port on any processor, counted by the toolchain's emulator, which runs one instruction at a time and logs each. The
# difference of two files of unlike length leaves out what isn't reading. See docs/SPEED.md.
#
# BENCH_READ      the port's static library; otherwise make builds it, which proves it first
# RUSTC CC        a compiler for this machine, and a C compiler for x86-64; otherwise those of tests/have.sh
set -eu
cd "$(dirname "${BASH_SOURCE[0]}")/.."
. tests/have.sh
emulator=$(dirname "$(dirname "$(readlink -f "$(command -v rt)")")")/on/$processor/toolchain
[ -x "$emulator/bin/qemu-x86_64" ] || { echo "emulated.sh: the toolchain has no emulator here; bench/run.sh --count counts with valgrind" >&2; exit 2; }
if why=$(missing c); then echo "emulated.sh: $why" >&2; exit 2; fi
made=target/bench
mkdir -p $made
if [ -z "${BENCH_READ:-}" ]; then
    BENCH_READ=crates/bench_read_c/out/libbench_read_c.a
    make --no-print-directory $BENCH_READ
fi
"${RUSTC:-rustc}" --edition 2021 -C opt-level=3 -o $made/lines bench/src/lines.rs
$CC -std=c11 -Wall -Wextra -O2 -o $made/port bench/port.c "$BENCH_READ"

# The emulator logs a line for each instruction.
count() {
    $made/lines 330 "$1" | "$emulator/bin/qemu-x86_64" -one-insn-per-tb -d exec,nochain -D /dev/stderr \
        "$emulator/lib/ld-linux-x86-64.so.2" --library-path "$emulator/lib" $made/port 2>&1 > $made/sum | wc -l
}
few=$(count 500)
many=$(count 2500)
echo "instructions a line, over 2,000 lines with no fault: $(((many - few) / 2000))"
