#!/bin/bash
# The names of include/saltighedda_fields.h and those of crates/names/specs/Names.antt are the same by kind and column: what hosts call a field is
# what the report calls it. The definition has the fields that can be faulted. It leaves out HEADER, the space group, marks, triples and texts to
# the line's end, and has each column of the charge, of MODEL's number and of DBREF1's end that a fault can name. The status is 1 if one differs.
set -eu
cd "$(dirname "${BASH_SOURCE[0]}")/.."
folder=$(mktemp -d)
trap 'rm -rf "$folder"' EXIT
header=include/saltighedda_fields.h
definition=crates/names/specs/Names.antt

# The kinds of the header, one a line: the number, the name and the list of its fields.
sed -n 's/^ *K(\([0-9]*\), \([A-Z0-9]*\), \([A-Z0-9]*\)).*/\1 \2 \3/p' "$header" > "$folder/kinds"

# A row for each kind and column: the kind's number, the column, the name.
awk '
    NR == FNR { list[$1] = $3; next }
    /^#define SALTIGHEDDA_[A-Z0-9]*_FIELDS\(F\)/ { at = $2; sub(/^SALTIGHEDDA_/, "", at); sub(/_FIELDS.*/, "", at) }
    /^ *F\(/ && at != "HEADER" {
        split($0, word, /[(,)] */)
        split($0, quoted, "\"")
        sort = word[2]; column = word[4]; end = word[5]; name = quoted[2]
        if (sort == "B" || sort == "L" || sort == "T" && end == 1024 || at == "CELL" && column == 55) next
        put(column)
        if (column == 78) put(79)
        if (at == "MODEL") put(10)
        if (at == "DBREF1" && column == 20) put(21)
    }
    function put(column,    k) { for (k in list) if (list[k] == at) print k, column, name }
' "$folder/kinds" "$header" | sort > "$folder/header"

# The same by the rows of `fields` and the tests of `family_of`, in their order: a number that passes goes by the one behind it.
awk '
    NR == FNR { kind[$1] = $2; next }
    /^family_of number =/ {
        gsub(/[()]/, "")
        tests = split($0, test, / *cond /)
    }
    /^    (∷ )?called / {
        line = $0
        sub(/^ *(∷ )?called /, "", line)
        split(line, quoted, "\"")
        gsub(/[()]/, "", quoted[1])
        n = split(quoted[1], word, " ")
        name = toupper(word[1])
        if (n == 3) name = name word[2] + 1
        rows++; owner[rows] = name; column[rows] = word[n]; called[rows] = quoted[2]
    }
    END {
        for (k in kind) {
            family = family_of(k)
            for (i = 1; i <= rows; i++) if (owner[i] == kind[family]) print k, column[i], called[i]
        }
    }
    function family_of(number,    i, word, n) {
        for (i = 2; i <= tests; i++) {
            n = split(test[i], word, " ")
            if (word[1] == "eqb" && number == word[3] || word[1] == "ltb" && number + 0 < word[3] + 0) return word[4] == "number" ? number : word[4]
        }
        return word[n] == "number" ? number : word[n]
    }
' "$folder/kinds" "$definition" | sort > "$folder/definition"

[ -s "$folder/header" ] || { echo "names: $header isn't as it is read here" >&2; exit 1; }
diff -u "$folder/header" "$folder/definition" >&2 || { echo "names: $definition calls other fields than $header, or calls them otherwise" >&2; exit 1; }
echo "names: $(grep -c '^    ∷ called \|^    called ' "$definition") fields of the definition have the names that $header has, in $(cut -d' ' -f1 "$folder/header" | sort -u | wc -l) kinds"
