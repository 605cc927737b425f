#!/bin/bash
# The table of docs/MARGINS.md is the one that the clauses of `free` in crates/margins/specs/Free.antt make, which are proved to be the columns
# that no field takes. With --table the rows are printed as they should be; else the status is 1 if one differs.
set -eu
cd "$(dirname "${BASH_SOURCE[0]}")/.."
folder=$(mktemp -d)
trap 'rm -rf "$folder"' EXIT

# A row for each clause: the kind, the mode, its columns from 0 with a..b excluding b, and the same as the format counts them, from 1.
awk '
    /^free [A-Z(]/ { row(); clause = $0; next }
    clause != "" && /^ / { clause = clause $0; next }
    { row() }
    END { row() }
    function row(    place, head, stretches, parts, word, mode, kind, n, i, a, b, from0, from1) {
        if (clause == "") return
        place = index(clause, "=")
        head = substr(clause, 6, place - 6)
        stretches = substr(clause, place + 1)
        clause = ""
        gsub(/[()]| row/, "", head)
        gsub(/[()]/, "", stretches)
        split(head, parts, " ")
        kind = toupper(parts[1])
        mode = parts[2] == "mode" ? "both" : parts[2] == "Crate" ? "crate" : "wwPDB"
        n = split(stretches, parts, /∷/)
        from0 = from1 = ""
        for (i = 1; i <= n; i++) {
            split(parts[i], word, " ")
            if (word[1] == "one") { a = word[2]; b = a + 1 }
            else if (word[1] == "to") { a = word[2]; b = word[4] }
            else if (word[1] == "from") { a = word[2]; b = "" }
            else continue
            from0 = from0 (from0 == "" ? "" : ", ") (b == a + 1 ? a : a ".." b)
            from1 = from1 (from1 == "" ? "" : ", ") (b == "" ? "from " a + 1 : b == a + 1 ? b : a + 1 " to " b)
        }
        if (from0 == "") from0 = from1 = "none"
        print "| " kind " | " mode " | " from0 " | " from1 " |"
    }
' crates/margins/specs/Free.antt > "$folder/made"
[ "$(wc -l < "$folder/made")" = "$(grep -c '^free ' crates/margins/specs/Free.antt)" ] || { echo "margins: crates/margins/specs/Free.antt isn't as it is read here" >&2; exit 1; }
if [ "${1-}" = --table ]; then
    cat "$folder/made"
else
    grep -E '^\| [A-Z0-9]+ \| (both|crate|wwPDB) \|' docs/MARGINS.md > "$folder/said" || true
    diff -u "$folder/said" "$folder/made" >&2 || { echo "margins: docs/MARGINS.md has other columns than the definition" >&2; exit 1; }
    echo "margins: $(wc -l < "$folder/said") rows of docs/MARGINS.md are the columns that the definition leaves free"
fi
