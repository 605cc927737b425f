#!/bin/bash
# The program pdbmaster from a shell: a file that adds up, one with lines missing, one with more than MASTER says, every refusal, drawn files beside a
# count of tests/verdict.awk's own, whole and cut in parts, files far larger than what is held of them, and what it says when it can't read or
# write. Wants crates/pdbmaster/out/pdbmaster. Prints a line for each thing that holds; the status is 1 if one doesn't.
#
#     pdbmaster.sh [FILES [SEED]]
#
# FILES are drawn, two hundred if the number isn't given.
set -eu
cd "$(dirname "${BASH_SOURCE[0]}")/.."
tested=pdbmaster
. tests/program.sh
pdbmaster() {
    tools/run crates/pdbmaster/out/pdbmaster
}

# Wants a last row.
last() {
    if [ "$(tail -n 1 "$folder/printed")" != "$2" ]; then
        echo "pdbmaster: $1: it doesn't say: $2" >&2
        cat "$folder/printed" >&2
        exit 1
    fi
    echo "pdbmaster: $1: $2"
}

pdbmaster < $input > "$folder/printed"
same "a file" $output
last "a line taken out" "lines are missing"

{ head -c 100 $input; sleep 0.2; tail -c +101 $input; } | pdbmaster > "$folder/printed"
same "a pipe in pieces" $output

{ echo 'SCALE2'; cat $input; } > "$folder/whole"
pdbmaster < "$folder/whole" > "$folder/printed"
last "it is put back" "no lines are missing"
sed 's/$/\r/' "$folder/whole" | pdbmaster > "$folder/printed"
last "CR LF" "no lines are missing"
{ echo 'ATOM'; cat "$folder/whole"; } | pdbmaster > "$folder/printed"
last "a line more" "no lines are missing, but MASTER says other numbers"
sed 's/^MASTER        2    0/MASTER        2    3/' "$folder/whole" | pdbmaster > "$folder/printed"
last "a second number" "no lines are missing, but MASTER says other numbers"
grep -q '^second number: 0 counted, 3 said, differs$' "$folder/printed" || { echo "pdbmaster: the second number isn't told" >&2; exit 1; }

printf '%s\n' refusal=10,0,0 "there is no MASTER line" > "$folder/wanted"
pdbmaster < /dev/null > "$folder/printed"
same "no input" "$folder/wanted"
{ echo MASTER; echo MASTER; } | pdbmaster > "$folder/printed"
printf '%s\n' refusal=11,7,6 "there is more than one MASTER line" > "$folder/wanted"
same "two MASTER lines" "$folder/wanted"
printf 'END\r\nMASTER\r\n' | pdbmaster > "$folder/printed"
printf '%s\n' refusal=12,5,6 "the MASTER line can't be read" > "$folder/wanted"
same "a MASTER line of six bytes" "$folder/wanted"

# What tests/verdict.awk says of a file.
verdict() {
    LC_ALL=C awk -v size="$(stat -c %s "$1")" -f tests/verdict.awk < "$1" > "$folder/wanted"
}

# Wants what tests/verdict.awk says of drawn files, and how many there are of each sort.
files=${1:-200} seed=${2:-330}
declare -A sorts=()
for ((n = seed; n < seed + files; n++)); do
    LC_ALL=C awk -v seed=$n -v lines=$((n % 5 ? 60 : 600)) -f tests/file.awk < /dev/null > "$folder/drawn"
    verdict "$folder/drawn"
    pdbmaster < "$folder/drawn" > "$folder/printed"
    if ! cmp -s "$folder/wanted" "$folder/printed"; then
        same "the drawn file $n" "$folder/wanted"
    fi
    sort=$(tail -n 1 "$folder/wanted")
    sorts[$sort]=$((${sorts[$sort]:-0} + 1))
done
for sort in "${!sorts[@]}"; do
    echo "pdbmaster: drawn files: ${sorts[$sort]}: $sort"
done
[ ${#sorts[@]} = 6 ] || [ "$files" -lt 100 ] || { echo "pdbmaster: not every sort of file was drawn" >&2; exit 1; }

# Another in parts of 1 to 700 bytes, and a short file that is cut at every place, between CR and LF among them.
RANDOM=$seed
LC_ALL=C awk -v seed=$((seed + 7)) -v lines=400 -f tests/file.awk < /dev/null > "$folder/drawn"
verdict "$folder/drawn"
for turn in 1 2 3; do
    {
        left=$(stat -c %s "$folder/drawn")
        while [ "$left" -gt 0 ]; do
            part=$((1 + RANDOM % 700))
            head -c $part
            sleep 0.002
            left=$((left - part))
        done
    } < "$folder/drawn" | pdbmaster > "$folder/printed"
    same "a drawn file in parts of its own" "$folder/wanted"
done
printf 'END\r\nMASTER        0    0    0    0    0    0    0    0    0    1    0    0\r\nTER' > "$folder/short"
verdict "$folder/short"
for ((n = 1; n < $(stat -c %s "$folder/short"); n++)); do
    { head -c $n "$folder/short"; sleep 0.02; tail -c +$((n + 1)) "$folder/short"; } | pdbmaster > "$folder/printed"
    cmp -s "$folder/wanted" "$folder/printed" || same "a cut behind $n bytes" "$folder/wanted"
done
same "a short file, cut at every place" "$folder/wanted"

# 40 MB, of which no memory is added to what was there; and a place that 16 bits don't hold.
{
    yes "ATOM      1  N   GLY A   1      11.104   6.134  -6.504$(printf '%350s' '')" | head -n 99999 || true
    echo 'MASTER        0    0    0    0    0    0    0    099999    0    0    0'
} > "$folder/large"
verdict "$folder/large"
mkfifo "$folder/pipe"
tools/run crates/pdbmaster/out/pdbmaster < "$folder/pipe" > "$folder/printed" & program=$!
memory() {
    awk '/^VmRSS:/ { print $2 }' "/proc/$program/status"
}
exec 3> "$folder/pipe"
head -c 200000 "$folder/large" >&3
sleep 0.5
before=$(memory)
tail -c +200001 "$folder/large" >&3
after=$(memory)
exec 3>&-
wait $program
same "$(stat -c %s "$folder/large") bytes" "$folder/wanted"
last "all of them" "no lines are missing"
if [ "$after" -gt $((before + 200)) ]; then
    echo "pdbmaster: it held $before kB, and after 40 MB more $after kB" >&2
    exit 1
fi
echo "pdbmaster: $before kB were held, and after 40 MB more $after kB"
{ cat "$folder/large"; echo MASTER; } | pdbmaster > "$folder/printed"
printf 'refusal=11,%s,6\nthere is more than one MASTER line\n' "$(stat -c %s "$folder/large")" > "$folder/wanted"
same "a second MASTER line far on" "$folder/wanted"

# A MASTER line of 1,024 bytes is read, whatever ends it and wherever it is cut; a longer one isn't, and its length is told.
master='MASTER        0    0    0    0    0    0    0    0    0    0    0    0'
{ printf '%-1024s' "$master"; sleep 0.1; printf '\r\n'; } | pdbmaster > "$folder/printed"
last "a MASTER line of 1,024 bytes" "no lines are missing"
{ printf '%-1024s' "$master"; sleep 0.1; printf ' \r\n'; } | pdbmaster > "$folder/printed"
printf '%s\n' refusal=12,0,1025 "the MASTER line can't be read" > "$folder/wanted"
same "one of 1,025 bytes" "$folder/wanted"
{ printf 'END\n%s' "$master"; head -c 20000000 /dev/zero | tr '\0' ' '; } | pdbmaster > "$folder/printed"
printf '%s\n' refusal=12,4,20000070 "the MASTER line can't be read" > "$folder/wanted"
same "one of 20,000,070 bytes" "$folder/wanted"

pdbmaster <&- > "$folder/printed" 2> "$folder/why"
complains "input that can't be read"

pdbmaster < $input 2> "$folder/why" > /dev/full
: > "$folder/printed"
complains "output that can't be written"
