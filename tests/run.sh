#!/bin/bash
# Every way that tools/run can go, those of other machines by stand-ins: an emulator that prints what it was asked to run.
# The status is 1 if it went another way.
set -eu
cd "$(dirname "${BASH_SOURCE[0]}")/.."
folder=$(mktemp -d)
trap 'rm -rf "$folder"' EXIT

# An emulator that says its name and its words.
stand_in() {
    mkdir -p "$(dirname "$1")"
    printf '#!/bin/sh\necho "%s" "$@" "[${QEMU_CPU-}]"\n' "$(basename "$1")" > "$1"
    chmod +x "$1"
}

# goes WHAT WANTED COMMAND..: what the command prints has to be what is wanted.
goes() {
    local what=$1 wanted=$2 printed
    shift 2
    printed=$("$@" 2>&1) || true
    if [ "$printed" != "$wanted" ]; then
        printf 'run: %s: it printed\n%s\nand not\n%s\n' "$what" "$printed" "$wanted" >&2
        exit 1
    fi
}

stand_in "$folder/kit/on/arm/toolchain/bin/qemu-x86_64"
stand_in "$folder/path/qemu-x86_64"
mkdir "$folder/libraries" "$folder/none"
lib=$folder/kit/on/arm/toolchain/lib
goes "on x86-64" "one two" env PROCESSOR=x86_64 RATTLE_HOME="$folder/kit" tools/run /bin/echo one two
goes "under the toolchain's emulator" "qemu-x86_64 -cpu max,-erms $lib/ld-linux-x86-64.so.2 --library-path $lib a/program one two []" \
    env PROCESSOR=arm RATTLE_HOME="$folder/kit" QEMU_CPU=other tools/run a/program "one two"
goes "under the emulator of the path" "qemu-x86_64 -cpu max,-erms -L $folder/libraries a/program one []" \
    env PROCESSOR=arm RATTLE_HOME="$folder/none" LIBRARIES="$folder/libraries" PATH="$folder/path:$PATH" tools/run a/program one
goes "with no emulator" "run: this processor is arm and programs are for x86-64: install qemu-user and libc6-amd64-cross" \
    env PROCESSOR=arm RATTLE_HOME="$folder/none" LIBRARIES="$folder/no" tools/run a/program one
echo "run: programs run as they are, under the toolchain's emulator, or under the path's; and it says so where none is there"
