#!/bin/bash
# Builds the archive and the shared library from sources, and leaves both in bindings/out, with Python's extension where
# its headers are there, and the program where it is built. What isn't proved yet is proved first, and named as it is.
# bindings/README.md says what that takes. It wants the Rattle toolchain, ar and gcc.
set -eu
cd "$(dirname "$0")"
here=$PWD
out=$here/out
kit=$(dirname "$(rt doc)")
version=$(sed -n 's/^#define FIRNUUBAL_VERSION "\(.*\)"/\1/p' c/firnuubal.h)

# The library of the crate, over the libraries that a gate passed.
proved() {
    python3 ../tools/release/stamps.py || true
    (cd ../crates/html5c && rt lib) >"$out/rt.log" 2>&1 &
    tail -n +1 -f --pid=$! "$out/rt.log" | sed -u -n 's/^crate \([^:]*\):.*/bindings: \1 is proved/p'
    wait $! || {
        tail -20 "$out/rt.log"
        return 1
    }
}

# The archive: that of the crate, and the part of the C library that it calls.
archive() {
    rm -rf "$out/objects" "$out/libfirnuubal.a"
    mkdir "$out/objects"
    (cd "$out/objects" && ar x "$here/../crates/html5c/out/libhtml5c.a" && ar x "$kit/c/liblibc_c.a" && ar rcsD ../libfirnuubal.a ./*)
    rm -r "$out/objects"
}

# The name by which programs ask for the shared library: below 1.0 the calls may change with the second number, too.
soname() {
    case $version in
    0.*) echo "libfirnuubal.so.${version%.*}" ;;
    *) echo "libfirnuubal.so.${version%%.*}" ;;
    esac
}

# The shared library has the calls of the header alone, and asks which processor it is. The same archive makes the same bytes.
shared() {
    gcc -std=c99 -Wall -Wextra -Werror -O2 -fPIC -c c/cpu.c -o "$out/cpu.o"
    gcc -shared -Wl,-soname,"$(soname)" -Wl,--version-script,c/firnuubal.map -Wl,--build-id=sha1 -Wl,-z,relro,-z,now \
        -Wl,-z,x86-64-v2 -o "$out/libfirnuubal.so" "$out/cpu.o" -Wl,--whole-archive "$out/libfirnuubal.a" -Wl,--no-whole-archive
    rm "$out/cpu.o"
}

# The program, where `rt ci` left it.
program() {
    rm -f "$out/firnuubal"
    if [ -x ../crates/firnuubal/out/firnuubal ]; then
        cp ../crates/firnuubal/out/firnuubal "$out/firnuubal"
    else
        echo "bindings: crates/firnuubal/out has no firnuubal, which rt ci leaves there, so the program is left out"
    fi
}

mkdir -p "$out"
proved
archive
shared
program
cp c/firnuubal.h "$out/"
python/native/build.sh "$out"
echo "bindings: libfirnuubal.a, libfirnuubal.so and firnuubal.h of version $version are in bindings/out"
