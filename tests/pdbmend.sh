#!/bin/bash
# The program pdbmend from a shell: a file, a pipe in pieces, line ends, lines about 1,024 bytes long, many lines beside an awk that goes by document
# 02, a file mended twice, the zinc, and what it says when it can't read or write.
# Wants crates/pdbmend/out/pdbmend. Prints a line for each thing that holds; the status is 1 if one doesn't.
set -eu
cd "$(dirname "${BASH_SOURCE[0]}")/.."
folder=$(mktemp -d)
trap 'rm -rf "$folder"' EXIT
export LC_ALL=C
pdbmend() {
    tools/run crates/pdbmend/out/pdbmend 2> "$folder/rows"
}
input=crates/pdbmend/stdin
output=crates/pdbmend/stdout

# Compares what was written, and the rows, with what should have been.
same() {
    if ! cmp -s "$2" "$folder/written" || ! cmp -s "$3" "$folder/rows"; then
        echo "pdbmend: $1: it wrote something else" >&2
        diff -a -u "$2" "$folder/written" | head -n 20 >&2
        diff -a -u "$3" "$folder/rows" | head -n 20 >&2
        exit 1
    fi
    echo "pdbmend: $1"
}

cat > "$folder/sample.rows" << 'end'
line 1, columns 23 to 24: made ?
line 2, columns 67 to 80: blanks put
line 4, columns 15 to 16: made ?
line 4, columns 47 to 54: cut, so the line is left at 52 bytes
line 5, columns 14 to 14: made ?
line 5, columns 79 to 80: cut, so the line is left at 79 bytes
line 6, columns 31 to 38: cut, so the line is left at 33 bytes
end
pdbmend < $input > "$folder/written"
same "a file" $output "$folder/sample.rows"

{ head -c 20 $input; sleep 0.2; tail -c +21 $input | head -c 72; sleep 0.2; tail -c +93 $input; } | pdbmend > "$folder/written"
same "a pipe in pieces, one cut between CR and LF" $output "$folder/sample.rows"

: > "$folder/nothing"
pdbmend < /dev/null > "$folder/written"
same "no input, no output" "$folder/nothing" "$folder/nothing"

# The zinc: its number is cut, and nothing can be mended.
echo 'line 30, columns 31 to 38: cut, so the line is left at 33 bytes' > "$folder/zinc.rows"
pdbmend < examples/zinc.pdb > "$folder/written"
same "of the zinc nothing can be mended" examples/zinc.pdb "$folder/zinc.rows"

# Blanks are put before a CR that an LF follows, and behind one at the end of the input, which is a byte of its line.
printf 'ATOM      1\r\nATOM      1\r\r\nTER\r\n\r\n\nATOM      1 \r' > "$folder/ends"
{
    printf 'ATOM      1%69s\r\nATOM      1\r%68s\r\nTER\r\n\r\n\n' '' ''
    printf 'ATOM      1 \r'
} > "$folder/wanted"
printf 'line 1, columns 12 to 80: blanks put\nline 2, columns 13 to 80: blanks put\nline 6, columns 13 to 16: cut, so the line is left at 13 bytes\n' > "$folder/wanted.rows"
pdbmend < "$folder/ends" > "$folder/written"
same "line ends stay as they were" "$folder/wanted" "$folder/wanted.rows"

# A line of 1,024 bytes is mended, whatever ends it; one more byte, and it goes on as it is.
long() {
    printf "%$1s\377" ''
}
{ long 1023; printf '\r\n'; long 1023; printf '\n'; long 1024; printf '\r\n'; long 1024; printf '\n'; long 1025; printf '\n'; long 200000; printf '\r\n'; long 1023; printf '\r'; } > "$folder/long"
{ printf '%1023s?\r\n%1023s?\n' '' ''; tail -c +2052 "$folder/long"; } > "$folder/wanted"
printf 'line %s\n' '1, columns 1024 to 1024: made ?' '2, columns 1024 to 1024: made ?' '3: over 1,024 bytes, left as it is' '4: over 1,024 bytes, left as it is' \
    '5: over 1,024 bytes, left as it is' '6: over 1,024 bytes, left as it is' '7: over 1,024 bytes, left as it is' > "$folder/wanted.rows"
pdbmend < "$folder/long" > "$folder/written"
same "lines about 1,024 bytes long" "$folder/wanted" "$folder/wanted.rows"

# Forty thousand lines of every length from 0 to 81, beside an awk of its own.
awk 'BEGIN {
    srand(330)
    whole = "ATOM     18 ZN   AZN A 101C     11.639   6.071  -5.147  1.00 17.90      SEG1ZN2+ "
    split("ATOM  |HETATM|ANISOU|TER   |REMARK|CRYST1", name, "|")
    for (n = 0; n < 40000; n++) {
        line = name[1 + int(rand() * (rand() < 0.6 ? 2 : 6))] substr(whole, 7)
        line = substr(line, 1, n % 82)
        if (rand() < 0.3)
            for (k = int(rand() * 4); k >= 0; k--) {
                at = 7 + int(rand() * (length(line) - 6))
                if (at <= length(line)) line = substr(line, 1, at - 1) sprintf("%c", 128 + int(rand() * 128)) substr(line, at + 1)
            }
        printf "%s%s", line, rand() < 0.2 ? "\r\n" : "\n"
    }
}' > "$folder/many"
awk -v rows="$folder/wanted.rows" 'BEGIN {
    count = split("7-11 13-16 18-20 23-26 31-38 39-46 47-54 55-60 61-66 73-76 77-78 79-80", fields, " ")
}
{
    end = sub(/\r$/, "") ? "\r" : ""
    n = length($0)
    out = ""
    start = 0
    for (i = 1; i <= n + 1; i++) {
        high = i <= n && substr($0, i, 1) > "\177"
        if (high && !start) start = i
        if (!high && start) { printf "line %d, columns %d to %d: made ?\n", NR, start, i - 1 > rows; start = 0 }
        if (i <= n) out = out (high ? "?" : substr($0, i, 1))
    }
    name = substr($0, 1, 6)
    if (n > 6 && n < 80 && (name == "ATOM  " || name == "HETATM")) {
        cut = ""
        for (i = 1; i <= count; i++) { split(fields[i], f, "-"); if (f[1] <= n && n < f[2]) cut = f[1] " to " f[2] }
        if (cut != "") printf "line %d, columns %s: cut, so the line is left at %d bytes\n", NR, cut, n > rows
        else { printf "line %d, columns %d to 80: blanks put\n", NR, n + 1 > rows; while (length(out) < 80) out = out " " }
    }
    printf "%s%s\n", out, end
}' "$folder/many" > "$folder/wanted"
pdbmend < "$folder/many" > "$folder/written"
same "forty thousand lines as an awk has them, with $(wc -l < "$folder/wanted.rows") rows" "$folder/wanted" "$folder/wanted.rows"

# What is mended has no changes left, and the same lines are left cut.
cp "$folder/written" "$folder/once"
grep -a ': cut' "$folder/wanted.rows" > "$folder/cut.rows"
pdbmend < "$folder/once" > "$folder/written"
same "mended twice" "$folder/once" "$folder/cut.rows"

# Wants a reason on standard error. The status can't tell: the language gives a program none.
complains() {
    if ! grep -q '^pdbmend: ' "$folder/rows"; then
        echo "pdbmend: $1: no reason was given" >&2
        exit 1
    fi
    echo "pdbmend: $1: $(cat "$folder/rows")"
}
pdbmend <&- > "$folder/written"
complains "no standard input"
pdbmend < "$folder/long" > /dev/full
complains "a full disk"
