#!/bin/bash
# Builds the bench of the writer and runs it; see docs/SPEED.md.
#
#   write.sh [WORDS..]       the times; the words go to the program: --lines N, --passes N, --seed N
#   write.sh --count         instructions a line of each side: counted by valgrind on x86-64, elsewhere by the toolchain's emulator, which
#                            runs one instruction at a time and logs each
#
# SALTIGHEDDA     the port's static library; otherwise make builds it, which proves it first
# CC CXX          compilers for x86-64; otherwise that of tests/have.sh, and the C++ compiler beside it
set -eu
cd "$(dirname "${BASH_SOURCE[0]}")/.."
. tests/have.sh
if why=$(missing c); then echo "write.sh: $why" >&2; exit 2; fi
case $CC in *gcc) cxx=${CC%gcc}g++ ;; *) cxx=c++ ;; esac
CXX=${CXX:-$cxx}
made=target/bench
program=$made/write
mkdir -p $made

count=no
if [ "${1:-}" = --count ]; then
    count=yes
    [ $# = 1 ] || { echo "write.sh: --count takes no more words" >&2; exit 2; }
elif [ "$processor" != x86_64 ]; then
    echo "write.sh: the port is compiled for x86-64, and a time under an emulator says nothing; --count counts instructions" >&2
    exit 2
fi
if [ -z "${SALTIGHEDDA:-}" ]; then
    SALTIGHEDDA=target/staticlib/libsaltighedda.a
    make --no-print-directory $SALTIGHEDDA
fi

sides=(port snprintf)
flags="-std=c11 -Wall -Wextra -O3 -Iinclude"
if printf '#define GEMMI_WRITE_IMPLEMENTATION\n#include <gemmi/to_pdb.hpp>\n' | $CXX -std=c++17 -E -x c++ - > /dev/null 2>&1; then
    sides+=(gemmi)
    $CXX -x c++ -std=c++17 -w -O3 -c -o $made/write-gemmi.o bench/write.c
    $CC $flags -DGEMMI -c -o $made/write.o bench/write.c
    $CXX -static-libstdc++ -static-libgcc -o $program $made/write.o $made/write-gemmi.o "$SALTIGHEDDA"
else
    $CC $flags -o $program bench/write.c "$SALTIGHEDDA"
fi
[ $count = yes ] || exec $program "$@"

# Instructions of a side that writes 250 lines so many times. The atoms are made once: the difference of two counts leaves that out.
lines=250
if [ "$processor" = x86_64 ]; then
    has valgrind || { echo "write.sh: --count wants valgrind" >&2; exit 2; }
    instructions() {
        valgrind --tool=callgrind --callgrind-out-file=$made/callgrind.write-$1 $program --once $1 --lines $lines --passes $2 \
            > $made/write.log 2>&1 || { cat $made/write.log >&2; exit 1; }
        awk '/^(summary|totals):/ { n = $2 } END { printf "%.0f\n", n }' $made/callgrind.write-$1
    }
else
    emulator=$(dirname "$(dirname "$(readlink -f "$(command -v rt)")")")/on/$processor/toolchain
    [ -x "$emulator/bin/qemu-x86_64" ] || { echo "write.sh: the toolchain has no emulator here" >&2; exit 2; }
    instructions() {
        "$emulator/bin/qemu-x86_64" -one-insn-per-tb -d exec,nochain -D /dev/stderr "$emulator/lib/ld-linux-x86-64.so.2" \
            --library-path "$emulator/lib" $program --once $1 --lines $lines --passes $2 2>&1 > $made/write.log | wc -l
    }
fi
echo "instructions a line, over $lines lines"
for side in "${sides[@]}"; do
    few=$(instructions $side 1)
    many=$(instructions $side 5)
    printf '%-10s %8d\n' $side $(((many - few) / (4 * lines)))
done
[ ${#sides[@]} = 3 ] || echo "gemmi isn't installed here, and had no turn"
