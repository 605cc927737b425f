#!/bin/bash
# What will be left out of the tests for want of a tool, in one list; the status is 1 if programs can't be run at all.
set -eu
cd "$(dirname "${BASH_SOURCE[0]}")/.."
. tests/have.sh

tools/run --how || exit 1
for part in c c++ valgrind pkg-config shared cargo python pip readme script rust; do
    if why=$(missing $part); then
        echo "left out: $why"
    fi
done
