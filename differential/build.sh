#!/bin/bash
# Builds the differential test with rustc alone, for the machine at hand; see README.md.
#
#   build.sh [--unchecked] [--test] [-o PROGRAM]
#
# --unchecked     no overflow checks and no debug assertions, as in a release build of the Rust
# --test          builds the tests of the oracle and of the writer, and runs them
# -o PROGRAM      where the program goes; otherwise target/differential/differential
#
# PDBTBX_SRC      the folder with src/read/pdb/lexer.rs; otherwise ../shared/docs/src beside the repository
# RUSTC           the compiler; otherwise rustc
set -eu
here=$(cd "$(dirname "${BASH_SOURCE[0]}")" && pwd)
repository=$(dirname "$here")

checked=yes test=no program=$repository/target/differential/differential
while [ $# -gt 0 ]; do
    case $1 in
        --unchecked) checked=no ;;
        --test) test=yes ;;
        -o) shift; program=${1:?-o wants a name} ;;
        *) echo "build.sh: $1 is not known" >&2; exit 2 ;;
    esac
    shift
done

source=${PDBTBX_SRC:-$repository/../shared/docs/src}
[ -f "$source/src/read/pdb/lexer.rs" ] || {
    echo "build.sh: $source has no src/read/pdb/lexer.rs; name its folder in PDBTBX_SRC" >&2
    exit 2
}
PDBTBX_SRC=$(cd "$source" && pwd)
export PDBTBX_SRC

words=(--edition 2021 --crate-name differential --check-cfg 'cfg(test)' -C opt-level=3)
[ $checked = no ] || words+=(-C overflow-checks=on -C debug-assertions=on)
[ $test = no ] || words+=(--test)

mkdir -p "$(dirname "$program")"
"${RUSTC:-rustc}" "${words[@]}" -o "$program" "$here/src/main.rs"
[ $test = no ] || exec "$program"
