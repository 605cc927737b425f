#!/bin/bash
# The shared library exports the entries that the header declares, and nothing else; the archive has them all, and the header those of the
# archive; it is known by its first number, wants nothing but the C library, and serves a host that links it from an installation. The names of
# the header come by way of the C compiler here, so that tools/entries is tried too. The status is 1 if one of these doesn't hold.
set -eu
cd "$(dirname "${BASH_SOURCE[0]}")/.."
. tests/have.sh
run=$PWD/tools/run
folder=$(mktemp -d)
trap 'rm -rf "$folder"' EXIT

if why=$(missing shared); then
    echo "shared: left out: $why"
    exit 0
fi

fail() {
    echo "shared: $1" >&2
    exit 1
}

make --no-print-directory install PREFIX="$folder/prefix" > "$folder/installed"
library=$(readlink -f "$folder/prefix/lib/libsaltighedda.so")

# What the compiler sees, with braces and what is in them left out: declarations that aren't static.
printf '#include <saltighedda.h>\n' | $CC -std=c11 -I"$folder/prefix/include" -E -P - | tr '\n' ' ' |
    awk '{ for (i = 1; i <= length($0); i++) { c = substr($0, i, 1); if (c == "{") depth++; if (depth == 0) out = out c; if (c == "}" && --depth == 0) out = out ";" } print out }' |
    tr ';' '\n' | grep -v '^ *static' | grep -oE 'saltighedda_[a-z0-9_]+ *\(' | tr -d ' (' | sort > "$folder/declared"
tools/entries include/saltighedda.h | sort > "$folder/listed"
diff "$folder/declared" "$folder/listed" >&2 || fail "tools/entries tells other entries than the compiler sees in the header"
[ -s "$folder/declared" ] || fail "the header declares no entry"

# A defined symbol has a section; versions are none.
readelf --dyn-syms -W "$library" | awk '$1 ~ /^[0-9]+:$/ && $7 != "UND" { print $8 }' | sort > "$folder/exported"
diff "$folder/declared" "$folder/exported" >&2 || fail "the library exports other names than the header declares"
readelf -s -W target/staticlib/libsaltighedda.a | awk '$5 == "GLOBAL" && $7 != "UND" && $8 ~ /^saltighedda_/ { print $8 }' | sort -u > "$folder/archived"
diff "$folder/declared" "$folder/archived" >&2 || fail "the archive has other entries than the header declares"

readelf -d "$library" > "$folder/dynamic"
known=$(sed -nE 's/.*SONAME.*\[(.*)\]/\1/p' "$folder/dynamic")
[ "$known" = libsaltighedda.so.0 ] || fail "the library is known as '$known'"
[ "$(basename "$library")" = "libsaltighedda.so.$(sed -n 's/^Version: //p' "$folder/prefix/lib/pkgconfig/saltighedda.pc")" ] ||
    fail "the library and pkg-config's file have other versions"
wanted=$(sed -nE 's/.*NEEDED.*\[(.*)\]/\1/p' "$folder/dynamic" | grep -v '^libc\.so\.6$' || true)
[ -z "$wanted" ] || fail "the library wants $wanted"
! grep -q TEXTREL "$folder/dynamic" || fail "the library has to be written to when it is loaded"

cp examples/host.c examples/fields.h examples/zinc.pdb "$folder"
cd "$folder"
$CC -std=c11 -Iprefix/include -o host host.c -Lprefix/lib -Wl,-rpath,"$folder/prefix/lib" -lsaltighedda
readelf -d host | grep -q 'NEEDED.*libsaltighedda\.so\.0' || fail "a host isn't linked to the shared library"
"$run" ./host zinc.pdb > told || [ $? = 1 ] || fail "a host doesn't run with the shared library"
diff "$OLDPWD/examples/host.stdout" told >&2 || fail "a host with the shared library prints something else"
echo "shared: the library exports the $(wc -l < declared) entries of the header and nothing else, and serves a host"
