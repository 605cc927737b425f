#!/bin/bash
# Every file that docs/PROMISES.md cites is there, and has the names that are cited of it; and it cites every must-fail edit. The status is 1 if
# one isn't.
set -eu
cd "$(dirname "${BASH_SOURCE[0]}")/.."

# What is cited, one a line: a file, and behind a tab a name in it, or nothing. A file is named from crates/ on, and a further one of the same
# folder by itself; the names that follow a colon are of the file before it.
cited() {
    awk '
        function cite(file, name) { print file "\t" name }
        {
            n = split($0, part, "`")
            file = ""
            for (i = 2; i <= n; i += 2) {
                between = part[i - 1]
                word = part[i]
                if (between ~ /[|;.(]/) open = 0
                if (word ~ /\.(antt|rt|edit|sh)$/) {
                    if (word !~ /\// && folder != "" && between ~ /^, *$/) word = folder word
                    file = word
                    folder = word
                    sub(/[^\/]*$/, "", folder)
                    open = 1
                    cite(file, "")
                } else if (file != "" && open && between ~ /^(: |, | and )$/) {
                    cite(file, word)
                } else {
                    open = 0
                }
            }
        }
    ' docs/PROMISES.md
}

wrong=0 count=0
while IFS=$'\t' read -r file name; do
    count=$((count + 1))
    path=crates/$file
    [ -e "$path" ] || path=$file
    if [ ! -e "$path" ]; then
        echo "promises: there is no $file" >&2
        wrong=1
    elif [ -n "$name" ] && ! grep -qwF -- "$name" "$path"; then
        echo "promises: $file has no $name" >&2
        wrong=1
    fi
done < <(cited)
for edit in crates/*/must-fail/*.edit; do
    if ! grep -qF -- "$(basename "$edit")" docs/PROMISES.md; then
        echo "promises: nothing cites $edit" >&2
        wrong=1
    fi
done
[ $wrong = 0 ] || exit 1
echo "promises: $count files and names are where docs/PROMISES.md says"
