#!/bin/bash
# The program pdbreport from a shell: a file, a pipe in pieces, a file cut at every byte of its last two lines, one shifted by a column, tabs, a byte
# order mark, CR line ends alone, other formats, no input, a file far larger than what is held of it, and what it says when it can't read or write.
# Wants crates/pdbreport/out/pdbreport. Prints a line for each thing that holds; the status is 1 if one doesn't.
set -eu
cd "$(dirname "${BASH_SOURCE[0]}")/.."
tested=pdbreport
. tests/program.sh
export LC_ALL=C
pdbreport() {
    tools/run crates/pdbreport/out/pdbreport
}

# The same for what stands on standard input here.
says() {
    cat > "$folder/wanted"
    same "$1" "$folder/wanted"
}

pdbreport < $input > "$folder/printed"
same "a file" $output
{ head -c 100 $input; sleep 0.2; tail -c +101 $input; } | pdbreport > "$folder/printed"
same "a pipe in pieces" $output

pdbreport < examples/zinc.pdb > "$folder/printed"
says "the zinc" << 'end'
line 30, HETATM 18 ZN ZN A 101: the line ends after column 33
    HETATM   18 ZN    ZN A 101      1
                                  ^^^^^^^^ x: not read; 0.0 was put there
                                          ^^^^^^^^ y: not read; 0.0 was put there
                                                  ^^^^^^^^ z: not read; 0.0 was put there
                                                          ^^^^^^ occupancy: not read; 1.0 was put there
                                                                ^^^^^^ B factor: not read; 0.0 was put there
                                                                            ^^^^ segment: not read; no text was put there
                                                                                ^^ element: not read; no text was put there
30 lines; 1 has fields that were not read. No line was refused. Columns are counted from 1. The last line is cut: most likely the file was not saved whole.
    x: 1, in line 30
    y: 1, in line 30
    z: 1, in line 30
    occupancy: 1, in line 30
    B factor: 1, in line 30
    segment: 1, in line 30
    element: 1, in line 30
end

# A whole file of four lines.
cat > "$folder/whole" << 'end'
ATOM      1  N   CYS A   1      11.104   6.134  -6.504  1.00 18.42           N  
ATOM      2  CA  CYS A   1      11.639   6.071  -5.147  1.00 17.90           C  
HETATM    3 ZN    ZN A 101      10.011   4.020  -5.100  1.00 15.30          ZN2+
END
end
pdbreport < "$folder/whole" > "$folder/printed"
says "a whole file" << 'end'
4 lines; every number that was looked for was read.
end
sed 's/$/\r/' "$folder/whole" | pdbreport > "$folder/printed"
says "one with CR LF" << 'end'
4 lines; every number that was looked for was read.
end

# It is cut behind so many bytes of its last two lines, which have 81 and 4.
for ((n = 0; n <= 85; n++)); do
    head -c $((162 + n)) "$folder/whole" | pdbreport > "$folder/cut"
    echo "$n $(grep '^[0-9]* lines; ' "$folder/cut")"
    if [ $n = 38 ]; then cp "$folder/cut" "$folder/y"; fi
done | awk '
    { n = $1; sub(/^[0-9]* /, "") }
    $0 != said { if (NR > 1) print from " to " last " bytes: " said; from = n; said = $0 }
    { last = n }
    END { print from " to " last " bytes: " said }
' > "$folder/printed"
says "cut at every byte of its last two lines" << 'end'
0 to 0 bytes: 2 lines; every number that was looked for was read. There is no END line: lines may be missing at the end.
1 to 6 bytes: 3 lines; every number that was looked for was read. There is no END line: lines may be missing at the end.
7 to 77 bytes: 3 lines; 1 has fields that were not read. No line was refused. Columns are counted from 1. The last line is cut: most likely the file was not saved whole.
78 to 81 bytes: 3 lines; every number that was looked for was read. There is no END line: lines may be missing at the end.
82 to 83 bytes: 4 lines; every number that was looked for was read. There is no END line: lines may be missing at the end.
84 to 85 bytes: 4 lines; every number that was looked for was read.
end
mv "$folder/y" "$folder/printed"
says "what it says of one cut before y" << 'end'
line 3, HETATM 3 ZN ZN A 101: the line ends after column 38
    HETATM    3 ZN    ZN A 101      10.011
                                          ^^^^^^^^ y: not read; 0.0 was put there
                                                  ^^^^^^^^ z: not read; 0.0 was put there
                                                          ^^^^^^ occupancy: not read; 1.0 was put there
                                                                ^^^^^^ B factor: not read; 0.0 was put there
                                                                            ^^^^ segment: not read; no text was put there
                                                                                ^^ element: not read; no text was put there
3 lines; 1 has fields that were not read. No line was refused. Columns are counted from 1. The last line is cut: most likely the file was not saved whole.
    y: 1, in line 3
    z: 1, in line 3
    occupancy: 1, in line 3
    B factor: 1, in line 3
    segment: 1, in line 3
    element: 1, in line 3
end

# A blank more behind the name.
sed 's/^\(ATOM  \|HETATM\)/\1 /' "$folder/whole" | pdbreport | tail -n 17 > "$folder/printed"
says "shifted by a column" << 'end'
line 3, HETATM ZN Z A 101: 7 fields were not read
    HETATM     3 ZN    ZN A 101      10.011   4.020  -5.100  1.00 15.30          ZN2+
                                          ^^^^^^^^ y: not read; 0.0 was put there
                                                  ^^^^^^^^ z: not read; 0.0 was put there
                                                          ^^^^^^ occupancy: not read; 1.0 was put there
                                                                ^^^^^^ B factor: not read; 0.0 was put there
          ^^^^^ serial number: not read; 0 was put there
                          ^^^^ residue number: not read; 0 was put there
                                                                                  ^ charge: not read; 0 was put there
4 lines; 3 have fields that were not read. No line was refused. Columns are counted from 1. In every ATOM and HETATM line y or z was not read: most likely the columns are shifted.
    serial number: 3, first in line 1, last in line 3
    residue number: 3, first in line 1, last in line 3
    y: 3, first in line 1, last in line 3
    z: 3, first in line 1, last in line 3
    occupancy: 3, first in line 1, last in line 3
    B factor: 3, first in line 1, last in line 3
    charge: 3, first in line 1, last in line 3
end

# Where blanks became tabs ATOM has no name any more.
sed 's/  */\t/g' "$folder/whole" | pdbreport > "$folder/printed"
says "tabs" << 'end'
line 3, HETATM 3?ZN ZN?A 101 1 0.011: the line ends after column 56
    HETATM?3?ZN?ZN?A?101?10.011?4.020?-5.100?1.00?15.30?ZN2+
                                  ^^^^^^^^ x: not read; 0.0 was put there
                                          ^^^^^^^^ y: not read; 0.0 was put there
                                                  ^^^^^^^^ z: not read; 0.0 was put there
                                                          ^^^^^^ occupancy: not read; 1.0 was put there
                                                                ^^^^^^ B factor: not read; 0.0 was put there
          ^^^^^ serial number: not read; 0 was put there
                          ^^^^ residue number: not read; 0 was put there
                                                                            ^^^^ segment: not read; no text was put there
                                                                                ^^ element: not read; no text was put there
4 lines; 1 has fields that were not read. No line was refused. Columns are counted from 1. In every ATOM and HETATM line y or z was not read: most likely the columns are shifted.
    serial number: 1, in line 3
    residue number: 1, in line 3
    x: 1, in line 3
    y: 1, in line 3
    z: 1, in line 3
    occupancy: 1, in line 3
    B factor: 1, in line 3
    segment: 1, in line 3
    element: 1, in line 3
end

{ printf '\xef\xbb\xbf'; cat "$folder/whole"; } | pdbreport > "$folder/printed"
says "a byte order mark" << 'end'
line 1: not read: the byte in column 1 is above 127
    ???ATOM      1  N   CYS A   1      11.104   6.134  -6.504  1.00 18.42           N  
4 lines; no line has fields that were not read. 1 line was refused. Columns are counted from 1.
end

# All of it is one line then, which is read as an ATOM, or is too long.
tr '\n' '\r' < "$folder/whole" | pdbreport > "$folder/printed"
says "CR line ends alone" << 'end'
1 line; every number that was looked for was read. There is no END line: lines may be missing at the end. A line has a CR inside it: most likely the lines end with CR alone.
end
for turn in 1 2 3 4 5; do cat "$folder/whole"; done | tr '\n' '\r' | pdbreport > "$folder/printed"
says "and in a longer file" << 'end'
line 1: not read: it has 211 bytes behind column 1024, the last that is read
1 line; no line has fields that were not read. 1 line was refused. Columns are counted from 1. A line has a CR inside it: most likely the lines end with CR alone.
end

printf '%s\n' data_9ZNC loop_ _atom_site.group_PDB _atom_site.id 'ATOM 1 N N . CYS A 1 1 ? 11.104 6.134 -6.504' | pdbreport > "$folder/printed"
says "mmCIF" << 'end'
5 lines; none is a record of a PDB file, so nothing was read.
end
printf '%s\n' 2 zinc 'ZN 10.011 4.020 -5.100' 'N 11.104 6.134 -6.504' | pdbreport > "$folder/printed"
says "XYZ" << 'end'
4 lines; none is a record of a PDB file, so nothing was read.
end
pdbreport < /dev/null > "$folder/printed"
says "no input" << 'end'
The file is empty.
end

# A short file that is cut in two parts at every place, between CR and LF among them.
printf 'ATOM      1  N   CYS A   1      11.1o4   6.134  -6.504\r\nEND\r\nTER' > "$folder/short"
pdbreport < "$folder/short" > "$folder/wanted"
for ((n = 1; n < $(stat -c %s "$folder/short"); n++)); do
    { head -c $n "$folder/short"; sleep 0.02; tail -c +$((n + 1)) "$folder/short"; } | pdbreport > "$folder/printed"
    cmp -s "$folder/wanted" "$folder/printed" || same "a cut behind $n bytes" "$folder/wanted"
done
same "a short file, cut at every place" "$folder/wanted"

# 24 MB, of which no memory is added to what was there.
{ yes "$(head -n 1 "$folder/whole")" | head -n 300000 || true; echo END; } > "$folder/large"
mkfifo "$folder/pipe"
tools/run crates/pdbreport/out/pdbreport < "$folder/pipe" > "$folder/printed" & program=$!
memory() {
    awk '/^VmRSS:/ { print $2 }' "/proc/$program/status"
}
exec 3> "$folder/pipe"
head -c 200000 "$folder/large" >&3
sleep 0.5
before=$(memory)
tail -c +200001 "$folder/large" >&3
after=$(memory)
exec 3>&-
wait $program
says "$(stat -c %s "$folder/large") bytes" << 'end'
300001 lines; every number that was looked for was read.
end
if [ "$after" -gt $((before + 200)) ]; then
    echo "pdbreport: it held $before kB, and after 24 MB more $after kB" >&2
    exit 1
fi
echo "pdbreport: $before kB were held, and after 24 MB more $after kB"

pdbreport <&- > "$folder/printed" 2> "$folder/why"
complains "input that can't be read"
pdbreport < $input 2> "$folder/why" > /dev/full
: > "$folder/printed"
complains "output that can't be written"
