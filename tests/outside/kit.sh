# shellcheck shell=bash
# The Rattle kit as the checks from outside use it: the library's archive, and programs for x86-64 that link it, with the kit's linker and
# C library. tests/outside/run reads this file.

kit=$(dirname "$(dirname "$(readlink -f "$(command -v rt)")")")
kit_libraries=$kit/toolchain/lib
kit_tools=$kit/toolchain/bin
archive=crates/tirmuzzle/out/libtirmuzzle.a

# Proves the layers where no check has left its work, and makes the archive, for any x86-64 processor.
make_archive() {
    (cd crates/tirmuzzle && rt lib --cpu x86-64)
}

# Compiles C for x86-64 and links it, with the kit's linker and C library: takes the words that cc takes.
cc_x86() { # WORDS..
    clang --target=x86_64-linux-gnu -isystem "/usr/include/$(gcc -dumpmachine)" -fPIE -pie -nostdlib --ld-path="$kit_tools/ld.lld" \
        "$kit_libraries/Scrt1.o" "$kit_libraries/crti.o" "$kit_libraries/crtbeginS.o" "$@" \
        "$kit_libraries/libc.so.6" "$kit_libraries/libc_nonshared.a" "$kit_libraries/libgcc.a" \
        "$kit_libraries/crtendS.o" "$kit_libraries/crtn.o"
}

# A C program for x86-64 over the archive.
build_x86() { # OUT SOURCE COMPILER-WORDS..
    local out=$1
    shift
    cc_x86 "$@" "$archive" -o "$out"
}

# Runs such a program with the kit's C library.
run_x86() { # PROGRAM WORDS..
    "$kit_libraries/ld-linux-x86-64.so.2" --library-path "$kit_libraries" "$@"
}
