#!/bin/bash
# The Python host: its tests and its example with the module of the clone, and once more with the one that `pip install .` puts elsewhere,
# without a network. The status is 1 if one fails.
set -eu
cd "$(dirname "${BASH_SOURCE[0]}")/.."
. tests/have.sh
folder=$(mktemp -d)
trap 'rm -rf "$folder"' EXIT

if why=$(missing python); then
    echo "python: left out: $why"
    exit 0
fi

fail() {
    [ ! -f "$folder/log" ] || cat "$folder/log" >&2
    echo "python: $1" >&2
    exit 1
}

make --no-print-directory install PREFIX="$folder/prefix" > "$folder/installed"
export LD_LIBRARY_PATH="$folder/prefix/lib" PYTHONDONTWRITEBYTECODE=1
unset SALTIGHEDDA_LIBRARY PYTHONPATH

(cd hosts/python && python3 -m unittest -q test_saltighedda) > "$folder/log" 2>&1 || fail "its tests fail"
count=$(sed -nE 's/^Ran ([0-9]+) tests.*/\1/p' "$folder/log")
status=0
(cd examples && python3 ../hosts/python/unread.py zinc.pdb) > "$folder/told" || status=$?
[ $status = 1 ] || fail "its example's status is $status and not 1"
diff hosts/unread.stdout "$folder/told" >&2 || fail "its example printed something else"
echo "python: $count tests pass, and its example tells what was not read"

if why=$(missing pip); then
    echo "python: left out: $why"
    exit 0
fi
PIP_NO_INDEX=1 PIP_DISABLE_PIP_VERSION_CHECK=1 python3 -m pip install -q --no-cache-dir --target "$folder/site" hosts/python > "$folder/log" 2>&1 ||
    fail "pip can't install it"
mkdir "$folder/elsewhere"
cp hosts/python/test_saltighedda.py "$folder/elsewhere"
[ "$(cd "$folder/elsewhere" && PYTHONPATH="$folder/site" python3 -c 'import saltighedda; print(saltighedda.__file__)')" = "$folder/site/saltighedda.py" ] ||
    fail "the installed module isn't the one that is found"
(cd "$folder/elsewhere" && PYTHONPATH="$folder/site" python3 -m unittest -q test_saltighedda) > "$folder/log" 2>&1 || fail "its tests fail once it is installed"
echo "python: and so when pip has installed it, without a network"
