# What the tests want besides the toolchain. Each test sources this file; tests/needs.sh tells it all in one list, before the proofs.
processor=${PROCESSOR:-$(uname -m)}
rust_source=${PDBTBX_SRC:-../shared/docs/src}
if [ "$processor" = x86_64 ]; then
    CC=${CC:-cc}
    CXX=${CXX:-c++}
    compiler="gcc"
else
    CC=${CC:-x86_64-linux-gnu-gcc}
    CXX=${CXX:-x86_64-linux-gnu-g++}
    compiler="gcc-x86-64-linux-gnu"
fi

has() {
    command -v "$1" > /dev/null
}

# missing PART: the status is 0 if the part has to be left out, and why is printed then. Called at the repository's root.
missing() {
    case $1 in
        c) has "$CC" || { echo "the C face and the host: there is no $CC (Debian: $compiler)"; return 0; } ;;
        valgrind)
            [ "$processor" = x86_64 ] || { echo "the C face under valgrind: it can't look into x86-64 programs on $processor"; return 0; }
            has valgrind || { echo "the C face under valgrind: there is no valgrind"; return 0; }
            ;;
        pkg-config) has pkg-config || { echo "an installation through pkg-config: there is no pkg-config"; return 0; } ;;
        shared)
            has "$CC" || { echo "the shared library: there is no $CC (Debian: $compiler)"; return 0; }
            has readelf || { echo "the shared library: there is no readelf (Debian: binutils)"; return 0; }
            ;;
        c++) has "$CXX" || { echo "the header as C++: there is no $CXX"; return 0; } ;;
        cargo)
            [ "$processor" = x86_64 ] || { echo "the Rust host: the library is for x86-64, and cargo builds for $processor"; return 0; }
            has cargo || { echo "the Rust host: there is no cargo"; return 0; }
            has cc || { echo "the Rust host: there is no cc, by which rustc links"; return 0; }
            ;;
        python)
            [ "$processor" = x86_64 ] || { echo "the Python host: the library is for x86-64, and python3 runs on $processor"; return 0; }
            has python3 || { echo "the Python host: there is no python3"; return 0; }
            has "$CC" || { echo "the Python host: there is no $CC, and so no shared library"; return 0; }
            ;;
        pip)
            { has python3 && python3 -m pip --version > /dev/null 2>&1; } || { echo "the Python host installed by pip: there is no pip"; return 0; }
            ;;
        readme)
            [ "$processor" = x86_64 ] || { echo "the README's lines: the library is for x86-64, and this is $processor"; return 0; }
            for tool in cc pkg-config cargo python3; do
                has $tool || { echo "the README's lines: there is no $tool"; return 0; }
            done
            python3 -m pip --version > /dev/null 2>&1 || { echo "the README's lines: there is no pip"; return 0; }
            ;;
        script) has script || { echo "pdblist on a terminal: there is no script (Debian: bsdutils)"; return 0; } ;;
        rust)
            has "${RUSTC:-rustc}" || { echo "the comparison with the Rust: there is no ${RUSTC:-rustc}"; return 0; }
            [ -f "$rust_source/src/read/pdb/lexer.rs" ] || {
                echo "the comparison with the Rust: $rust_source has no src/read/pdb/lexer.rs, and PDBTBX_SRC names no other folder"
                return 0
            }
            ;;
        *) echo "missing: $1 is no part" >&2; exit 2 ;;
    esac
    return 1
}
