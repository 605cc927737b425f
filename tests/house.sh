#!/bin/bash
# The picture of docs/HOUSE.md, crates.txt and the `use` lines of the crates say the same: which crates there are, what each stands on, and on
# which floor it is. The status is 1 if one differs.
set -eu
cd "$(dirname "${BASH_SOURCE[0]}")/.."
folder=$(mktemp -d)
trap 'rm -rf "$folder"' EXIT

# The toolchain's libraries; std is there for every crate, and crates.txt doesn't list it.
kit=$(ls "$(dirname "$(dirname "$(readlink -f "$(command -v rt)")")")/rlibs" | sed -n 's/\.rlib$//p' | grep -vx std | tr '\n' ' ')
[ -n "$kit" ] || { echo "house: the toolchain of rt has no libraries" >&2; exit 1; }

# The record families: what `lexitem` stands on, but for the floors below them.
families=$(sed -n 's/^lexitem: //p' crates.txt | tr ' ' '\n' | grep -vx 'single\|line\|field\|row\|kind')

# What a crate's files name: `x::` at the begin of a path in the code, `Rattle.x.` in clauses, definitions and proofs. Code that holds the record
# over all kinds has every family's types in it, code that holds a line's faults the kind's, and code that holds what is known of a file's lines the
# tally's and MASTER's.
used() {
    local known=" $(ls crates | tr '\n' ' ') $kit "
    {
        if [ "$1" != lexitem ] && grep -qrwE 'LexItem|Answer' "crates/$1/src"; then echo "$families"; fi
        if grep -qrw LineFaults "crates/$1/src"; then echo kind; fi
        if [ "$1" != audit ] && grep -qrw Watch "crates/$1/src"; then printf '%s\n' tally master; fi
        find "crates/$1" -name out -prune -o -name '*.rt' -exec grep -hoE '(^|[^:a-z_0-9])[a-z_0-9]+::' {} + | sed 's/:://; s/^[^a-z_0-9]//'
        find "crates/$1" -name out -prune -o \( -name '*.rt' -o -name '*.antt' \) -exec grep -hoE 'Rattle\.[a-z_0-9]+' {} + | sed 's/Rattle\.//'
    } | sort -u | while read -r name; do
        [ "$name" = "$1" ] || case $known in *" $name "*) echo "$name" ;; esac
    done
}

# A line for each crate: its name, and what it stands on in the order of the alphabet.
sorted() {
    while read -r name rest; do
        echo "$name $(printf '%s\n' $rest | sort | tr '\n' ' ')" | sed 's/ *$//'
    done | sort
}

sed -n '/^#/d; s/ staticlib:/:/; s/:/ /; /./p' crates.txt | sorted > "$folder/listed"
sed -n 's/^   [ 0-9][0-9]  //p' docs/HOUSE.md | sed 's/->//' | sorted > "$folder/drawn"
for crate in $(ls crates); do echo "$crate $(used "$crate" | tr '\n' ' ')"; done | sorted > "$folder/used"
diff -u "$folder/used" "$folder/listed" >&2 || { echo "house: crates.txt isn't what the use lines name" >&2; exit 1; }
diff -u "$folder/listed" "$folder/drawn" >&2 || { echo "house: docs/HOUSE.md isn't what crates.txt lists" >&2; exit 1; }

# The floor of a crate is one above the highest that it stands on.
sed -n 's/^ *\([0-9]\{1,2\}\)  \([a-z_0-9]*\).*/\2 \1/p' docs/HOUSE.md | sort > "$folder/floors"
awk '
    NR == FNR { floor[$1] = $2; next }
    {
        want = 0
        for (i = 2; i <= NF; i++) if (($i in floor) && floor[$i] + 1 > want) want = floor[$i] + 1
        if (floor[$1] != want) { print "house: " $1 " is drawn on floor " floor[$1] " and stands on " want; bad = 1 }
    }
    END { exit bad }
' "$folder/floors" "$folder/listed" >&2
echo "house: $(wc -l < "$folder/listed") crates on $(cut -d' ' -f2 "$folder/floors" | sort -u | wc -l) floors, as docs/HOUSE.md draws them"
