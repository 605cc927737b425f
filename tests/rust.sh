#!/bin/bash
# The Rust host: its tests and its example, built by cargo without a network and linked to an installed library. The status is 1 if one fails.
set -eu
cd "$(dirname "${BASH_SOURCE[0]}")/.."
. tests/have.sh
folder=$(mktemp -d)
trap 'rm -rf "$folder"' EXIT

if why=$(missing cargo); then
    echo "rust: left out: $why"
    exit 0
fi

fail() {
    [ ! -f "$folder/log" ] || cat "$folder/log" >&2
    echo "rust: $1" >&2
    exit 1
}

make --no-print-directory install PREFIX="$folder/prefix" > "$folder/installed"
export CARGO_TARGET_DIR="$folder/target" SALTIGHEDDA_LIB="$folder/prefix/lib" RUSTFLAGS="-D warnings"
cargo test --offline --locked --manifest-path hosts/rust/Cargo.toml > "$folder/log" 2>&1 || fail "its tests fail"
count=$(awk '/^test result: ok/ { n += $4 } END { print n }' "$folder/log")
cargo build --offline --locked --manifest-path hosts/rust/Cargo.toml --example unread > "$folder/log" 2>&1 || fail "its example isn't built"
status=0
(cd examples && "$folder/target/debug/examples/unread" zinc.pdb) > "$folder/told" || status=$?
[ $status = 1 ] || fail "its example's status is $status and not 1"
diff hosts/unread.stdout "$folder/told" >&2 || fail "its example printed something else"
echo "rust: $count tests pass, and its example tells what was not read"
