#!/bin/bash
# docs/PROMISES.md says of each definition that has to be believed how many lines it has: here they are counted again, without comments and
# imports. A row with the sum closes each of its tables. With --table the rows are printed as they should be; else the status is 1 if one differs,
# or if a definition of the first table uses one that is neither in it nor named in the text above it.
set -eu
cd "$(dirname "${BASH_SOURCE[0]}")/.."
folder=$(mktemp -d)
trap 'rm -rf "$folder"' EXIT

# The lines of a file's definitions of these names, or of all: a definition goes from its first line to the next blank one.
lines() {
    awk -v names=" ${*:2} " '
        /^[ \t]*$/ { name = ""; next }
        /^[ \t]*--/ || /^use / || /^infix / { next }
        name == "" {
            line = $0
            sub(/^(unfoldable |abbrev )?(pub )?(data |record )?/, "", line)
            split(line, word, /[ :]/)
            name = word[1]
        }
        names ~ /^ *$/ || index(names, " " name " ") { n++; seen[name] = 1 }
        END {
            count = split(names, wanted, " ")
            for (i = 1; i <= count; i++) if (!(wanted[i] in seen)) print "believed: no definition " wanted[i] > "/dev/stderr"
            print n + 0
        }
    ' "crates/$1"
}

# What the listed definitions use and isn't listed, nor spared: a name stands for a definition of its own file, or for one of another crate's specs that
# the file's imports name; the words of std are the language's own. The rows are a file with names, or with none for all of it; then come the words that are spared.
lacking() {
    awk -v rows="$1" -v spared="$2" '
        function open(name) { gsub(/^◌|◌$/, "", name); return name }
        FILENAME == rows { for (i = 2; i <= NF; i++) listed["crates/" $1 " " $i]; if (NF == 1) whole["crates/" $1]; next }
        FILENAME == spared { known[$1]; next }
        /^[ \t]*$/ { name = ""; next }
        /^[ \t]*--/ || /^infix / { next }
        /^use / {
            if (!match($0, /^use Rattle\.[a-z_]+\.specs\.[A-Z][A-Za-z]*\.\{/)) next
            split($0, path, /\.specs\.|\.\{|\}/)
            sub(/^use Rattle\./, "", path[1])
            if (path[1] == "std") next
            count = split(path[3], import, /, */)
            for (i = 1; i <= count; i++) {
                words = split(import[i], word, " ")
                stands[FILENAME, open(word[words])] = "crates/" path[1] "/specs/" path[2] ".antt " word[1]
            }
            next
        }
        {
            line = $0
            if (name == "") {
                sub(/^(unfoldable |abbrev )?(pub )?(data |record )?/, "", line)
                split(line, word, /[ :]/)
                name = word[1]
                stands[FILENAME, open(name)] = FILENAME " " name
            }
            gsub(/[(){};,]/, " ", line)
            count = split(line, word, " ")
            for (i = 1; i <= count; i++) if (sub(/\..*/, "", word[i]) == 0 || word[i] != "") uses[FILENAME, name] = uses[FILENAME, name] " " word[i]
        }
        function held(d, part) { split(d, part, " "); return (part[1] in whole) || (d in listed) }
        END {
            for (d in uses) {
                split(d, of, SUBSEP)
                if (!held(of[1] " " of[2])) continue
                count = split(uses[d], word, " ")
                for (i = 1; i <= count; i++) if ((of[1], word[i]) in stands) {
                    split(stands[of[1], word[i]], used, " ")
                    if (!held(stands[of[1], word[i]]) && !(used[2] in known)) print "believed: " of[2] " of " of[1] " uses " used[2] " of " used[1]
                }
            }
        }
    ' "$1" "$2" crates/*/specs/*.antt | sort -u
}

sed -n '/^## What has to be believed/,/^## /p' docs/PROMISES.md > "$folder/section"
grep '^| [0-9*]' "$folder/section" > "$folder/said"
total=0
while IFS= read -r row; do
    case $row in
        '| **'*)
            echo "| **$total** | in all |"
            total=0
            ;;
        *)
            cited=$(sed 's/^| [0-9]* | //; s/ |$//' <<< "$row")
            n=$(lines $(tr -d '`:,' <<< "$cited"))
            echo "| $n | $cited |"
            total=$((total + n))
            ;;
    esac
done < "$folder/said" > "$folder/counted"
if [ "${1-}" = --table ]; then
    cat "$folder/counted"
else
    [ -s "$folder/said" ] || { echo "believed: docs/PROMISES.md has no such table" >&2; exit 1; }
    diff -u "$folder/said" "$folder/counted" >&2 || { echo "believed: docs/PROMISES.md says other lines than are there" >&2; exit 1; }
    sed '/^| \*\*/,$d' "$folder/section" > "$folder/first"
    sed -n 's/^| [0-9]* | //p' "$folder/first" | tr -d '`:,|' > "$folder/rows"
    grep -v '^|' "$folder/first" | grep -o '`[^`]*`' | tr -d '`' > "$folder/spared"
    lacking "$folder/rows" "$folder/spared" > "$folder/lacking"
    if [ -s "$folder/lacking" ]; then
        cat "$folder/lacking" >&2
        exit 1
    fi
    echo "believed: $(grep -c '`' "$folder/said") rows of docs/PROMISES.md have as many lines as it says, and the first table all that its definitions use"
fi
