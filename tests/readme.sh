#!/bin/bash
# Runs the README's own lines: each block that is fenced as sh, c, rust or python, one after the other, as they stand. A host's five lines go
# into the file that the README names for them. All is done in a folder that shows this clone, with a home of its own, and without a network.
# The status is 1 if a block fails, hasn't five lines, or prints something else than the README says.
set -eu
cd "$(dirname "${BASH_SOURCE[0]}")/.."
. tests/have.sh

if why=$(missing readme); then
    echo "readme: left out: $why"
    exit 0
fi

folder=$(mktemp -d)
trap 'rm -rf "$folder"' EXIT

fail() {
    [ ! -f "$folder/log" ] || cat "$folder/log" >&2
    echo "readme: $1" >&2
    exit 1
}

# Every fenced block in a file of its own, named by its place and its language.
mkdir "$folder/blocks" "$folder/home" "$folder/clone"
awk -v to="$folder/blocks" '
    /^```/ && file == "" { file = sprintf("%s/%02d.%s", to, ++n, substr($0, 4)); printf "" > file; next }
    /^```/ { close(file); file = ""; next }
    file != "" { print > file }
' README.md
ln -s "$PWD"/* "$folder/clone"

export CARGO_HOME=${CARGO_HOME:-$HOME/.cargo} RUSTUP_HOME=${RUSTUP_HOME:-$HOME/.rustup} CARGO_NET_OFFLINE=true
export PIP_NO_INDEX=1 PIP_DISABLE_PIP_VERSION_CHECK=1 PIP_TARGET="$folder/site" PYTHONPATH="$folder/site" PYTHONDONTWRITEBYTECODE=1
export HOME="$folder/home"
unset PKG_CONFIG_PATH SALTIGHEDDA_LIB SALTIGHEDDA_LIBRARY LD_LIBRARY_PATH CARGO_TARGET_DIR MAKEFLAGS MFLAGS MAKELEVEL
cd "$folder/clone"

declare -A into=([c]=viewer.c [rust]=viewer-rs/src/main.rs [python]=viewer.py)
: > "$folder/lines.sh"
hosts=0
for block in "$folder"/blocks/*; do
    language=${block##*.}
    case $language in
        sh) cat "$block" >> "$folder/lines.sh" ;;
        c | rust | python)
            [ "$(wc -l < "$block")" = 5 ] || fail "the lines for $language aren't five"
            echo "cp '$block' '${into[$language]}'" >> "$folder/lines.sh"
            hosts=$((hosts + 1))
            ;;
        *) fail "a block is fenced as '$language', and nobody tries it" ;;
    esac
done
[ $hosts = 3 ] || fail "there are the lines of $hosts hosts, and not of three"

bash -eu "$folder/lines.sh" > "$folder/told" 2> "$folder/log" || fail "a block fails"
{
    for host in c rust python; do echo "x is 0.0, and was put there"; done
    sed 's/^zinc.pdb: //' "$folder/clone/hosts/unread.stdout"
} > "$folder/due"
diff "$folder/due" "$folder/told" >&2 || fail "the lines print something else"
echo "readme: the five lines of C, of Rust and of Python run as they stand"
