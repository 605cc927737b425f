#!/bin/bash
# The program pdblist from a shell: input from a file, a pipe in pieces and a terminal, of many bytes and in long lines, and what it says when it
# can't read or write.
# Wants crates/pdblist/out/pdblist. Prints a line for each thing that holds; the status is 1 if one doesn't.
set -eu
cd "$(dirname "${BASH_SOURCE[0]}")/.."
. tests/have.sh
tested=pdblist
. tests/program.sh
pdblist() {
    tools/run crates/pdblist/out/pdblist
}

pdblist < $input > "$folder/printed"
same "a file" $output

{ head -c 20 $input; sleep 0.2; tail -c +21 $input | head -c 30; sleep 0.2; tail -c +51 $input; } | pdblist > "$folder/printed"
same "a pipe in pieces" $output

pdblist < /dev/null > "$folder/printed"
: > "$folder/wanted"
same "no input, no output" "$folder/wanted"

printf 'END\r\n\r\nMODEL 1' | pdblist > "$folder/printed"
printf '%s\n' record=END line=1 faults=0 record=EMPTY line=2 faults=0 record=MODEL line=3 f6=1 faults=0 > "$folder/wanted"
same "CR LF, and no newline at the end" "$folder/wanted"

# A line of 1,024 bytes is listed, whatever ends it; one more byte is refused, and at the end of the input a CR is a byte of its line.
printf '%1024s\r\n%1024s\n%1025s\r\n%6000s\n%1024s\r' '' '' '' '' '' | pdblist > "$folder/printed"
printf 'record=%s\nline=%s\n%s\n' EMPTY 1 faults=0 EMPTY 2 faults=0 REFUSED 3 refusal=2,1024,1 REFUSED 4 refusal=2,1024,4976 \
    REFUSED 5 refusal=2,1024,1 > "$folder/wanted"
same "lines about 1,024 bytes long" "$folder/wanted"

# What is finished is printed before more is waited for, and what isn't is held. While 20 MB follow, no memory is added to what was there.
mkfifo "$folder/pipe"
tools/run crates/pdblist/out/pdblist < "$folder/pipe" > "$folder/printed" & program=$!
memory() {
    awk '/^VmRSS:/ { print $2 }' "/proc/$program/status"
}
exec 3> "$folder/pipe"
printf 'END\nMODEL     ' >&3
printf '%s\n' record=END line=1 faults=0 > "$folder/wanted"
for turn in {1..100}; do
    ! cmp -s "$folder/wanted" "$folder/printed" || break
    sleep 0.1
done
same "what is finished is printed before it waits for more" "$folder/wanted"
printf '4\n' >&3
head -c 100000 /dev/zero | tr '\0' '\n' >&3
before=$(memory)
head -c 20000000 /dev/zero | tr '\0' x >&3
after=$(memory)
exec 3>&-
wait $program
{
    printf '%s\n' record=END line=1 faults=0 record=MODEL line=2 f6=4 faults=0
    seq 3 100002 | sed 's/.*/record=EMPTY\nline=&\nfaults=0/'
    printf '%s\n' record=REFUSED line=100003 refusal=2,1024,19998976
} > "$folder/wanted"
same "a hundred thousand lines, and one of 20,000,000 bytes" "$folder/wanted"
if [ "$after" -gt $((before + 200)) ]; then
    echo "pdblist: it held $before kB, and after 20 MB more $after kB" >&2
    exit 1
fi
echo "pdblist: $before kB were held, and after 20 MB more $after kB"

if why=$(missing script); then
    echo "pdblist: left out: $why"
else
    # A terminal shows what is typed, so only the rows are looked at. Byte 4 at the start of a line ends the input.
    { sleep 0.3; printf 'MODEL        2\n'; sleep 0.3; printf '\004'; } | script -qec "tools/run crates/pdblist/out/pdblist" "$folder/typescript" > "$folder/terminal"
    tr -d '\r' < "$folder/terminal" | grep -a '^record=\|^line=\|^f6=\|^faults=' > "$folder/printed" || true
    printf '%s\n' record=MODEL line=1 f6=2 faults=0 > "$folder/wanted"
    same "a terminal" "$folder/wanted"
fi

pdblist <&- > "$folder/printed" 2> "$folder/why"
complains "input that can't be read"

pdblist < $input 2> "$folder/why" > /dev/full
: > "$folder/printed"
complains "output that can't be written"
