#!/bin/bash
# Every crate's files are as `rt fmt` lays them out, by what it makes of a copy. `rt ci` refuses a crate that isn't; this looks at the layout alone.
# The status is 1 if a file differs.
set -eu
cd "$(dirname "${BASH_SOURCE[0]}")/.."
copy=$(mktemp -d)
trap 'rm -rf "$copy"' EXIT

find crates crates.txt -name out -prune -o -type f -print0 | tar --null -T - -cf - | tar -xf - -C "$copy"
for crate in "$copy"/crates/*/; do
    (cd "$crate" && rt fmt) > "$copy/log" 2>&1 || { cat "$copy/log" >&2; echo "format: rt fmt can't lay out $(basename "$crate")" >&2; exit 1; }
done
diff -r -u -x out crates "$copy/crates" >&2 || { echo "format: rt fmt lays these files out otherwise" >&2; exit 1; }
echo "format: the files of $(ls crates | wc -l) crates are as rt fmt lays them out"
