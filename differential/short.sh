#!/bin/bash
# A million lines compared with the Rust, and a hundred thousand records that are written, where rustc and the Rust's files are there. Wants
# crates/serve/out/serve. See README.md.
set -eu
cd "$(dirname "${BASH_SOURCE[0]}")/.."
. tests/have.sh

if why=$(missing rust); then
    echo "differential: left out: $why"
    exit 0
fi
log=$(mktemp)
trap 'rm -f "$log"' EXIT

# The words before the others say which run.
compare() {
    target/differential/differential "$@" --short --file examples/zinc.pdb -- tools/run crates/serve/out/serve > "$log" || {
        cat "$log"
        exit 1
    }
    echo "differential: $(head -n 1 "$log"); $(tail -n 1 "$log")"
}

differential/build.sh
compare
compare --write
