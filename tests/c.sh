#!/bin/bash
# The C face from C: the edges of its entries, the words and structs of a line beside its listing, the kinds of drawn lines beside the rule, the
# columns that don't matter and those that do, what is written beside what printf writes, what is moved beside C's own doubles, how many decimals
# were read beside how many were drawn, exponents beside whole numbers and strtod, files held against their MASTER lines beside a count of C's
# own, lines mended beside a mending of C's own, the example hosts on the sample file and on made ones, and an installation as a C programmer uses
# it. All is compiled for x86-64, as the library is. Wants target/staticlib/libsaltighedda.a and, built as make builds them, the programs pdblist,
# pdbmaster, pdbmend and pdbreport. Prints a line for each thing that holds; the status is 1 if one doesn't.
set -eu
cd "$(dirname "${BASH_SOURCE[0]}")/.."
. tests/have.sh
run=$PWD/tools/run
folder=$(mktemp -d)
trap 'rm -rf "$folder"' EXIT

if why=$(missing c); then
    echo "c: left out: $why"
    exit 0
fi
warned="-std=c11 -Wall -Wextra -Werror"

fail() {
    echo "c: $1" >&2
    exit 1
}

# What the host prints for the sample, and its status: 1, since not every field could be read.
told() {
    local status=0
    (cd examples && "$@" zinc.pdb) > "$folder/told" || status=$?
    [ $status = 1 ] || fail "the host's status is $status and not 1: $*"
    diff -u examples/host.stdout "$folder/told" >&2 || fail "the host printed something else: $*"
}

# edited FILE COMMAND..: the editing host moves the zincs of a file; what it prints and what it says of lines that it couldn't write. Its
# status is 1, since in each of the files there is one.
edited() {
    local status=0 file=$1
    shift
    (cd "$folder" && "$@" "$file" 1.5 -2 0.25) > "$folder/moved" 2> "$folder/said" || status=$?
    [ $status = 1 ] || fail "the editing host's status is $status and not 1: $*"
    diff -u "$folder/$file.moved" "$folder/moved" >&2 || fail "the editing host printed something else: $*"
    diff -u "$folder/$file.said" "$folder/said" >&2 || fail "the editing host said something else: $*"
}

# The sample's only zinc is cut off. In the made file the first two can be moved, the second a line of 78 bytes and CR LF; then come one that
# doesn't fit behind the move, another element, a number that isn't one, half a charge, a tab in the name, a byte of 128 or more, a NUL for a
# chain, and a good one without a line end.
cp examples/zinc.pdb "$folder/zinc.pdb"
cp examples/zinc.pdb "$folder/zinc.pdb.moved"
as_it_is="the line is copied as it is"
echo "zinc.pdb:30: columns 31 to 38: x was not read; $as_it_is" > "$folder/zinc.pdb.said"
kept() {
    echo 'HETATM   20 ZN    ZN A 103    9999.000   2.000   0.000  1.00 17.90          ZN2+'
    echo 'HETATM   21  O   HOH A 104      11.639   6.071  -5.147  1.00 17.90           O  '
    echo 'HETATM   22 ZN    ZN A 105      11.639   6.071    *.**  1.00 17.90          ZN2+'
    echo 'HETATM   23 ZN    ZN A 106      11.639   6.071  -5.147  1.00 17.90          ZN2'
    printf 'HETATM   24 ZN\t   ZN A 107      11.639   6.071  -5.147  1.00 17.90          ZN2+\n'
    printf 'HETATM   25 ZN    ZN A 108      11.639   6.071  -5.147  1.00 17.90   \302\265    ZN2+\n'
    printf 'HETATM   25 ZN    ZN \0 108      11.639   6.071  -5.147  1.00 17.90          ZN2+\n'
}
{
    echo 'HETATM   18 ZN    ZN A 101      11.639   6.071  -5.147  1.00 17.90          ZN2+'
    printf 'ATOM     19 ZN  B ZN  -102C     -1.500  2.0001 -998.25   0.5-01.00      S%%  ZN\r\n'
    kept
    printf 'HETATM   26 ZN    ZN   109       0.000   0.000   0.000  1.00 17.90          ZN  '
} > "$folder/made.pdb"
{
    echo 'HETATM   18 ZN    ZN A 101      13.139   4.071  -4.897  1.00 17.90          ZN2+'
    printf 'ATOM     19 ZN  B ZN  -102C      0.000   0.000-998.000  0.50 -1.00      S%%  ZN  \r\n'
    kept
    printf 'HETATM   26 ZN    ZN   109       1.500  -2.000   0.250  1.00 17.90          ZN  '
} > "$folder/made.pdb.moved"
{
    echo "made.pdb:3: columns 31 to 38: x doesn't fit; $as_it_is"
    echo "made.pdb:5: columns 47 to 54: z was not read; $as_it_is"
    echo "made.pdb:6: columns 79 to 80: charge was not read; $as_it_is"
    echo "made.pdb:7: columns 13 to 16: atom name doesn't fit; $as_it_is"
    echo "made.pdb:8: columns 70 to 70: the line has a byte of 128 or more, and nothing was read; $as_it_is"
    echo "made.pdb:9: columns 22 to 22: chain was not read; $as_it_is"
} > "$folder/made.pdb.said"

# transformed SERIAL STATUS COMMAND..: the host that moves a file's atoms by its own rows; what it prints and what it says.
transformed() {
    local serial=$1 wanted=$2 status=0
    shift 2
    (cd "$folder" && "$@" rows.pdb "$serial") > "$folder/moved" 2> "$folder/said" || status=$?
    [ $status = "$wanted" ] || fail "the transforming host's status is $status and not $wanted: $*"
    diff -u "$folder/rows.$serial.moved" "$folder/moved" >&2 || fail "the transforming host printed something else: $*"
    diff -u "$folder/rows.$serial.said" "$folder/said" >&2 || fail "the transforming host said something else: $*"
}

# Serial 1 turns about z and shifts, its third row once wrong and then replaced; serial 2 lacks the row whose number can't be read. Of the
# atoms the first two can be moved, the third doesn't fit behind the move, and of the fourth a coordinate wasn't read.
rows() {
    echo 'MTRIX1   1  0.000000 -1.000000  0.000000        1.00000'
    echo 'MTRIX3   1  9.000000  9.000000  9.000000        9.00000'
    echo 'MTRIX2   1  1.000000  0.000000  0.000000       -0.25000    1'
    printf 'MTRIX3   1  0.000000  0.000000  1.000000        0.50000\r\n'
    echo 'MTRIX1   2  1.000000  0.000000  0.000000        0.00000'
    echo 'MTRIX2   2  0.000000  1.000000  0.0 0000        0.00000'
    echo 'MTRIX3   2  0.000000  0.000000  1.000000        0.00000'
}
still() {
    echo 'HETATM    3  O   HOH A   3       6.0719999.999  -5.147  1.00 17.90           O  '
    echo 'HETATM    4  O   HOH A   4      11.639   *.***  -5.147  1.00 17.90           O  '
    printf 'END'
}
left_out="rows.pdb:6: columns 31 to 40: third matrix element was not read; the row is left out"
{
    rows
    echo 'ATOM      1  CA  GLY A   1      11.639   6.071  -5.147  1.00 17.90           C  '
    printf 'HETATM    2 ZN    ZN A   2      -1.500  -0.250   0.125  0.50  3.00          ZN2+\r\n'
    still
} > "$folder/rows.pdb"
{
    rows
    echo 'ATOM      1  CA  GLY A   1      -5.071  11.389  -4.647  1.00 17.90           C  '
    printf 'HETATM    2 ZN    ZN A   2       1.250  -1.750   0.625  0.50  3.00          ZN2+\r\n'
    still
} > "$folder/rows.1.moved"
{
    echo "$left_out"
    echo "rows.pdb:10: columns 31 to 38: x doesn't fit; $as_it_is"
    echo "rows.pdb:11: columns 39 to 46: y was not read; $as_it_is"
} > "$folder/rows.1.said"
: > "$folder/rows.2.moved"
{
    echo "$left_out"
    echo "rows.pdb: not all three rows of MTRIX 2 are there"
} > "$folder/rows.2.said"

# rewritten FILE STATUS COMMAND..: the host that writes a file anew from its fields; what it prints and what it says.
rewritten() {
    local file=$1 wanted=$2 status=0
    shift 2
    (cd "$folder" && "$@" "$file") > "$folder/again" 2> "$folder/said" || status=$?
    [ $status = "$wanted" ] || fail "the rewriting host's status is $status and not $wanted: $*"
    cmp "$folder/$file.again" "$folder/again" >&2 || fail "the rewriting host printed something else: $*"
    diff -u "$folder/$file.said" "$folder/said" >&2 || fail "the rewriting host said something else: $*"
}

# Every field stands where the format has it, with decimals of all sorts, and comes back byte for byte: lines of 80 bytes, shorter and longer
# ones, with LF, with CR LF and with none at the end; and beside them kinds that aren't written, a remark that would be refused among them.
{
    echo 'HEADER    A SHORT ONE'
    echo 'REMARK   3 A REMARK OF EIGHTY BYTES AND MORE, WHICH IS REFUSED UNLESS READING IS LOOSE, BY REFUSAL 5.'
    echo 'CRYST1   42.570    42.57     61.9  90.00   90.0    120 P 31 2 1      6          '
    echo 'SCALE1       0.01000      -0.5 0.0000000        0.00000'
    echo 'ORIGX2             0       1.0     -0.00           12.5                         '
    echo 'MTRIX3   1  0.000000 -1.000000         1     0.12345678    1'
    echo 'MTRIX1 999      1.50       1.5      1500              0      '
    echo 'MODEL        1'
    echo 'ATOM      1  CA  GLY A   1        1.50     1.5      12  1.00  17.9           C  '
    echo 'ANISOU    1  CA  GLY A   1     2551   2403   2702    112    -87      0       C  '
    printf 'HETATM    2 ZN  B ZN A-101C     -0.250     0.0      -0     10.5000      SEG ZN2+\r\n'
    echo 'HETATM    3  O   HOH A 102    0.123456-0.12345-12345670.0000-99.99           O'
    echo 'HETATM    4  O   HOH A 103       1.500   1.000 100.000  1.00  0.00           O        '
    echo 'TER       5      HOH A 103'
    printf 'TER\r\n'
    echo 'ENDMDL'
    echo 'ENDMDL    '
    echo
    printf 'END   '
} > "$folder/same.pdb"
cp "$folder/same.pdb" "$folder/same.pdb.again"
: > "$folder/same.pdb.said"

# The lines of which something would be lost: what doesn't fit with a digit before its point, what isn't a number, a line that is cut, half a
# charge, a tab in a name, a byte of 128 or more, bytes in columns of no field, a cell that has no Z or is cut, and a mark that is no mark.
lost() {
    echo 'ATOM      5  CB  GLY A   1    .1234567   1.000   1.000  1.00 17.90           C  '
    echo 'ATOM      6  CB  GLY A   1    -.123456   1.000   1.000  1.00 17.90           C  '
    echo 'ATOM      7  CB  GLY A   1       1.500   *.***   1.000  1.00 17.90           C  '
    echo 'ATOM      8  CB  GLY A   1       1.500   1.0'
    echo 'ANISOU    8  CB  GLY A   1     2551   2403   2702    112    -87     31       C1'
    printf 'ATOM      9  CB\t GLY A   1       1.500   1.000   1.000  1.00 17.90           C  \n'
    printf 'ATOM     10  CB  GLY A   1       1.500   1.000   1.000  1.00 17.90  \302\265       C  \n'
    echo 'ATOM     11  CB  GLYXA   1       1.500   1.000   1.000  1.00 17.90           C  '
    echo 'ATOM     12  CB  GLY A   1       1.500   1.000   1.000  1.00 17.90           C    x'
    echo 'CRYST1   42.570    42.57     61.9  90.00   90.0    120 P 31 2 1'
    echo 'CRYST1   42.570    42.57     61.9'
    echo 'SCALE2       0.01000 .12345678   1.5.0000        0.00000'
    echo 'ORIGX2    .123456789      -0.5 0.0000000        0.00000'
    echo 'MTRIX1   1  0.000000 -1.000000         1     0.12345678    2'
    echo 'MODEL    10000'
    echo 'ATOM'
    printf 'HEADER \302\265\n'
    echo 'TERX'
}
{
    echo 'ATOM      1  CA  GLY A   1         .50      5.    +1.0   -0. 007.5           C  '
    printf 'ATOM     +2 ZN   ZN  A-001     1.50   -.50    0012.    0.50 +.1           S C 0+\r\n'
    echo 'CRYST1 42.570  42.57         61.990.      90.0   +120    P 1      1   '
    echo 'SCALE1    +0.010       -.5    0000012.50     -0.       '
    echo 'MODEL 2'
    lost
    printf 'END'
} > "$folder/other.pdb"
{
    echo 'ATOM      1  CA  GLY A   1        0.50       5     1.0    -0   7.5           C  '
    printf 'ATOM      2 ZN    ZN A  -1        1.50   -0.50      12  0.50   0.1      S    C  \r\n'
    echo 'CRYST1   42.570    42.57     61.9     90   90.0    120 P 1           1'
    echo 'SCALE1         0.010      -0.5     12.50             -0'
    echo 'MODEL        2'
    lost
    printf 'END'
} > "$folder/other.pdb.again"
{
    echo "other.pdb:6: columns 31 to 38: x doesn't fit as it was written; $as_it_is"
    echo "other.pdb:7: columns 31 to 38: x doesn't fit as it was written; $as_it_is"
    echo "other.pdb:8: columns 39 to 46: y was not read; $as_it_is"
    echo "other.pdb:9: columns 39 to 46: y was not read; $as_it_is"
    echo "other.pdb:10: columns 79 to 80: charge was not read; $as_it_is"
    echo "other.pdb:11: columns 13 to 16: atom name doesn't fit as it was written; $as_it_is"
    echo "other.pdb:12: columns 69 to 69: the line has a byte of 128 or more, and nothing was read; $as_it_is"
    echo "other.pdb:13: columns 21 to 21: something is in no field; $as_it_is"
    echo "other.pdb:14: columns 83 to 83: something is in no field; $as_it_is"
    echo "other.pdb:15: columns 67 to 70: Z was not read; $as_it_is"
    echo "other.pdb:16: columns 34 to 55: the line is too short for its kind, and nothing was read; $as_it_is"
    echo "other.pdb:17: columns 31 to 40: third matrix element was not read; $as_it_is"
    echo "other.pdb:18: columns 11 to 20: first matrix element doesn't fit as it was written; $as_it_is"
    echo "other.pdb:19: columns 60 to 60: given mark was not read; $as_it_is"
    echo "other.pdb:20: columns 11 to 14: model number doesn't fit as it was written; $as_it_is"
} > "$folder/other.pdb.said"

# indexed FILE COMMAND..: the host that counts a file's lines by their kinds; what it prints.
indexed() {
    local file=$1
    shift
    (cd "$folder" && "$@" "$file") > "$folder/counted" || fail "the indexing host's status isn't 0: $*"
    diff -u "$folder/$file.index" "$folder/counted" >&2 || fail "the indexing host printed something else: $*"
}

cat > "$folder/zinc.pdb.index" << 'end'
HEADER         1  first in line 1
REMARK         2  first in line 2
ATOM          16  first in line 12
HETATM         1  first in line 30
ANISOU         1  first in line 28
CRYST1         1  first in line 5
SCALE1         1  first in line 9
SCALE2         1  first in line 10
SCALE3         1  first in line 11
ORIGX1         1  first in line 6
ORIGX2         1  first in line 7
ORIGX3         1  first in line 8
SEQRES         1  first in line 4
TER            1  first in line 29
end

# Lines that are refused for their bytes are told apart, and those that only reading refuses have their kind. A six-byte ENDMDL ends a model in
# wwPDB mode alone.
printf 'CRYST1 \nENDMDL\r\n\nCONECT    1\nATOM\302\265\nATOM  \nTERX\nATOM   \nENDMDL\nHEADER \n%1025s\nEND' '' > "$folder/kinds.pdb"
cp "$folder/kinds.pdb" "$folder/standard.pdb"
cat > "$folder/kinds.pdb.index" << 'end'
EMPTY          3  first in line 3
HEADER         1  first in line 10
ATOM           1  first in line 8
CRYST1         1  first in line 1
TER            1  first in line 7
END            3  first in line 2
refused        2  first in line 5
end
cat > "$folder/standard.pdb.index" << 'end'
EMPTY          3  first in line 3
HEADER         1  first in line 10
ATOM           1  first in line 8
CRYST1         1  first in line 1
ENDMDL         2  first in line 2
TER            1  first in line 7
END            1  first in line 12
refused        2  first in line 5
end

# merged STATUS COMMAND..: the host that merges the faults of files; what it prints and what it says.
merged() {
    local wanted=$1 status=0
    shift
    (cd "$folder" && "$@") > "$folder/list" 2> "$folder/said" || status=$?
    [ $status = "$wanted" ] || fail "the merging host's status is $status and not $wanted: $*"
    diff -u "$folder/merged" "$folder/list" >&2 || fail "the merging host printed something else: $*"
    diff -u "$folder/merged.said" "$folder/said" >&2 || fail "the merging host said something else: $*"
}

# Three files, each fault once, the charge's two beside each other, and a line that is refused.
{
    echo 'REMARK   X A NUMBER THAT IS NONE'
    echo 'HETATM    1 ZN    ZN A 101      11.639   6.071    *.**  1.00 17.90          ZNx+'
    printf 'MODEL \302\265\n'
    echo 'ANISOU    1 ZN    ZN A 101     2551   24.3   2702    112    -87     31      ZN2 '
} > "$folder/first.pdb"
echo 'SCALE1      0.023491  0.013562' > "$folder/second.pdb"
cat > "$folder/merged" << 'end'
fault 1: the line ends before the field's last column
    second.pdb:1: SCALE1, columns 31 to 40: third matrix element
    second.pdb:1: SCALE1, columns 46 to 55: translation
    zinc.pdb:30: HETATM, columns 31 to 38: x
    zinc.pdb:30: HETATM, columns 39 to 46: y
    zinc.pdb:30: HETATM, columns 47 to 54: z
    zinc.pdb:30: HETATM, columns 55 to 60: occupancy
    zinc.pdb:30: HETATM, columns 61 to 66: B factor
    zinc.pdb:30: HETATM, columns 73 to 76: segment
    zinc.pdb:30: HETATM, columns 77 to 78: element
fault 2: the columns hold no number of the field's sort
    first.pdb:1: REMARK, columns 8 to 10: remark number
    first.pdb:2: HETATM, columns 47 to 54: z
    first.pdb:4: ANISOU, columns 36 to 42: U22
fault 3: the charge has no digit
    first.pdb:2: HETATM, columns 79 to 79: charge
fault 4: the charge has no sign
    first.pdb:4: ANISOU, columns 80 to 80: charge
end
echo "first.pdb:3: line not read: the line has a byte of 128 or more" > "$folder/merged.said"

$CC $warned -Iinclude -o "$folder/face" tests/face.c target/staticlib/libsaltighedda.a
"$run" "$folder/face" || fail "an entry isn't as the header says"
echo "c: the entries are as the header says"

if why=$(missing c++); then
    echo "c: left out: $why"
else
    printf '#include <saltighedda.h>\nint main() { return 0; }\n' > "$folder/header.cpp"
    $CXX -Wall -Wextra -Werror -Iinclude -c -o "$folder/header.o" "$folder/header.cpp" || fail "the header is no C++"
    echo "c: the header serves C++ too"
fi

$CC $warned -O1 -Iinclude -o "$folder/typed" tests/typed.c target/staticlib/libsaltighedda.a
"$run" "$folder/typed" || fail "a line isn't read into words and structs as the header says"
echo "c: the words of a line say what its listing says, and the structs what the words say, two hundred thousand drawn lines among others"

$CC $warned -Iinclude -o "$folder/kind" tests/kind.c target/staticlib/libsaltighedda.a
"$run" "$folder/kind" || fail "a line's kind isn't as the header says"
echo "c: drawn lines have the kinds that the rule gives them, and their listings the same names"

$CC $warned -Iinclude -o "$folder/modes" tests/modes.c target/staticlib/libsaltighedda.a
"$run" "$folder/modes" || fail "a line isn't read in wwPDB mode as the header says"
echo "c: drawn lines are read in wwPDB mode by its three rules, and all others as in crate mode"

$CC $warned -Iinclude -o "$folder/margins" tests/margins.c target/staticlib/libsaltighedda.a
"$run" "$folder/margins" docs/MARGINS.md || fail "a free column matters, or another doesn't"
echo "c: bytes in the free columns of docs/MARGINS.md change no answer, a thousand pairs for each, and in every other that is read some byte does"

$CC $warned -Iinclude -o "$folder/host" examples/host.c target/staticlib/libsaltighedda.a
told "$run" "$folder/host"
status=0
"$run" "$folder/host" "$folder/none" 2> "$folder/why" || status=$?
[ $status = 2 ] && [ -s "$folder/why" ] || fail "the host says nothing of a file that isn't there"
echo "c: the host tells what was not read"

$CC $warned -Iinclude -o "$folder/write" tests/write.c target/staticlib/libsaltighedda.a
"$run" "$folder/write" || fail "a line isn't written as the header says"
echo "c: lines are written as the header says, and a million doubles as printf has them"

$CC $warned -Iinclude -o "$folder/matrix" tests/matrix.c target/staticlib/libsaltighedda.a -lm
"$run" "$folder/matrix" || fail "a matrix isn't as the header says"
echo "c: rows are collected and positions moved as the header says, a million as C's own doubles have them"

$CC $warned -Iinclude -o "$folder/places" tests/places.c target/staticlib/libsaltighedda.a
"$run" "$folder/places" || fail "places aren't as the header says"
echo "c: a million drawn fields have the places that were written, and come back digit for digit"

$CC $warned -O2 -Iinclude -o "$folder/exponents" tests/exponents.c target/staticlib/libsaltighedda.a
"$run" "$folder/exponents" 1000000 > "$folder/told" || { cat "$folder/told"; fail "an exponent isn't read as the header says"; }
echo "c: a million drawn texts with exponents are read as whole numbers and as strtod say"

$CC $warned -Iinclude -o "$folder/master" tests/master.c target/staticlib/libsaltighedda.a
"$run" "$folder/master" || fail "a file isn't held against its MASTER line as the header says"
echo "c: files are held against their MASTER lines as the header says, twenty thousand drawn ones as another count has them"

$CC $warned -Iinclude -o "$folder/mend" tests/mend.c target/staticlib/libsaltighedda.a
"$run" "$folder/mend" || fail "a line isn't mended as the header says"
echo "c: a million drawn and cut lines are mended as another mending has them, and read as the header says"

if why=$(missing rust); then
    echo "c: left out: $why"
else
    $CC $warned -Iinclude -o "$folder/rows" tests/rows.c target/staticlib/libsaltighedda.a
    "$run" "$folder/rows" > "$folder/collected" || fail "a row is refused that the Rust takes"
    PDBTBX_SRC=$(cd "$rust_source" && pwd) "${RUSTC:-rustc}" --edition 2021 -O -o "$folder/rust-rows" differential/rows.rs
    "$folder/rust-rows" > "$folder/rust-collected"
    cmp "$folder/rust-collected" "$folder/collected" >&2 || fail "rows are collected otherwise than by the Rust"
    echo "c: $(wc -l < "$folder/collected") drawn rows are collected as by the Rust, with $(grep -vc none "$folder/collected") matrices"
fi

$CC $warned -Iinclude -o "$folder/edit" examples/edit.c target/staticlib/libsaltighedda.a
edited zinc.pdb "$run" "$folder/edit"
edited made.pdb "$run" "$folder/edit"
status=0
"$run" "$folder/edit" "$folder/zinc.pdb" 1.5 -2 0.25 2> "$folder/why" > /dev/full || status=$?
[ $status = 2 ] && grep -q '^edit: ' "$folder/why" || fail "the editing host doesn't say that it can't write"
echo "c: the editing host moves zincs, and tells which it couldn't write"

$CC $warned -Iinclude -o "$folder/transform" examples/transform.c target/staticlib/libsaltighedda.a
transformed 1 1 "$run" "$folder/transform"
transformed 2 2 "$run" "$folder/transform"
echo "c: the transforming host moves a file's atoms by its own rows, and tells which it couldn't"

$CC $warned -Iinclude -o "$folder/rewrite" examples/rewrite.c target/staticlib/libsaltighedda.a
rewritten same.pdb 0 "$run" "$folder/rewrite"
rewritten other.pdb 1 "$run" "$folder/rewrite"
status=0
"$run" "$folder/rewrite" "$folder/same.pdb" 2> "$folder/why" > /dev/full || status=$?
[ $status = 2 ] && grep -q '^rewrite: ' "$folder/why" || fail "the rewriting host doesn't say that it can't write"
echo "c: the rewriting host gives a file back byte for byte, and tells which lines it couldn't write"

$CC $warned -Iinclude -o "$folder/index" examples/index.c target/staticlib/libsaltighedda.a
indexed zinc.pdb "$run" "$folder/index"
indexed kinds.pdb "$run" "$folder/index"
indexed standard.pdb "$run" "$folder/index" --wwpdb
echo "c: the indexing host counts a file's lines by their kinds"

$CC $warned -Iinclude -o "$folder/merge" examples/merge.c target/staticlib/libsaltighedda.a
merged 1 "$run" "$folder/merge" first.pdb second.pdb zinc.pdb
status=0
"$run" "$folder/merge" "$folder/same.pdb" "$folder/none" 2> "$folder/why" || status=$?
[ $status = 2 ] && [ -s "$folder/why" ] || fail "the merging host says nothing of a file that isn't there"
echo "c: the merging host sorts the faults of several files, and each still says its file, line, record and columns"

if why=$(missing valgrind); then
    echo "c: left out: $why"
else
    memory="valgrind -q --leak-check=full --error-exitcode=9"
    $memory "$folder/face" || fail "valgrind found a fault in the use of memory"
    told $memory "$folder/host"
    $memory "$folder/write" 5000 || fail "valgrind found a fault in the use of memory"
    $memory "$folder/matrix" 5000 || fail "valgrind found a fault in the use of memory"
    edited zinc.pdb $memory "$folder/edit"
    edited made.pdb $memory "$folder/edit"
    transformed 1 1 $memory "$folder/transform"
    transformed 2 2 $memory "$folder/transform"
    $memory "$folder/places" 5000 || fail "valgrind found a fault in the use of memory"
    $memory "$folder/exponents" 5000 > "$folder/told" || fail "valgrind found a fault in the use of memory"
    $memory "$folder/mend" 5000 || fail "valgrind found a fault in the use of memory"
    $memory "$folder/master" 500 || fail "valgrind found a fault in the use of memory"
    rewritten same.pdb 0 $memory "$folder/rewrite"
    rewritten other.pdb 1 $memory "$folder/rewrite"
    $memory "$folder/kind" 5000 || fail "valgrind found a fault in the use of memory"
    indexed kinds.pdb $memory "$folder/index"
    $memory "$folder/typed" 2000 || fail "valgrind found a fault in the use of memory"
    merged 1 $memory "$folder/merge" first.pdb second.pdb zinc.pdb
    echo "c: and so under valgrind"
fi

# The name of the folder has a blank, and the build must not look into the repository.
prefix="$folder/an installation"
make --no-print-directory install PREFIX="$prefix" > "$folder/installed"
if why=$(missing pkg-config); then
    echo "c: left out: $why"
else
    cp examples/host.c examples/fields.h "$folder"
    flags=$(PKG_CONFIG_PATH="$prefix/lib/pkgconfig" pkg-config --cflags --libs saltighedda)
    (cd "$folder" && eval "$CC $warned -o installed-host host.c $flags")
    told "$run" "$folder/installed-host"
    rm "$prefix/lib/libsaltighedda.so"
    (cd "$folder" && eval "$CC $warned -o installed-host host.c $flags")
    told "$run" "$folder/installed-host"
    echo "c: an installation serves a host through pkg-config, with the shared library and with the archive"
fi
"$run" "$prefix/bin/pdblist" < crates/pdblist/stdin | cmp - crates/pdblist/stdout || fail "the installed pdblist printed something else"
echo "c: the installed pdblist lists"
"$run" "$prefix/bin/pdbmaster" < crates/pdbmaster/stdin | cmp - crates/pdbmaster/stdout || fail "the installed pdbmaster printed something else"
echo "c: the installed pdbmaster checks"
"$run" "$prefix/bin/pdbmend" < crates/pdbmend/stdin 2> "$folder/rows" | cmp - crates/pdbmend/stdout || fail "the installed pdbmend wrote something else"
[ -s "$folder/rows" ] || fail "the installed pdbmend told nothing"
echo "c: the installed pdbmend mends"
"$run" "$prefix/bin/pdbreport" < crates/pdbreport/stdin | cmp - crates/pdbreport/stdout || fail "the installed pdbreport printed something else"
echo "c: the installed pdbreport reports"
