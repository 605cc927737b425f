# For the tests of a program from a shell, which set `tested` to its name and read this: a folder that goes at the end, what the program is run on
# and has to print in its crate, and how what it printed is compared. It prints a line for each thing that holds, and ends with 1 if one doesn't.
folder=$(mktemp -d)
trap 'rm -rf "$folder"' EXIT
input=crates/$tested/stdin
output=crates/$tested/stdout

# Compares what was printed with what should have been.
same() {
    if ! cmp -s "$2" "$folder/printed"; then
        echo "$tested: $1: it printed something else" >&2
        diff -u "$2" "$folder/printed" | head -n 20 >&2
        exit 1
    fi
    echo "$tested: $1"
}

# Wants nothing printed, and a reason on standard error. The status can't tell: it is 0.
complains() {
    if [ -s "$folder/printed" ] || [ ! -s "$folder/why" ]; then
        echo "$tested: $1: no reason was given" >&2
        exit 1
    fi
    echo "$tested: $1: $(cat "$folder/why")"
}
