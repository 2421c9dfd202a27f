#!/bin/bash
# Builds the library (build.sh), and checks it and the one that is shipped in dist/: the calls from C, also under valgrind,
# and what stands on them in C, Rust and Python. Their readers, for Python those in Python and those of the extension, print
# pages in pieces of 1, 7 and 4,096 bytes as html5tok does, with places as print_places, and clean them as firnuubal. The wheel is
# installed as a user would, and so are the library for C, in a folder whose name has a space, and the crate as it is packaged.
# The calls from C are fuzzed for 20 seconds. What is made stands in bindings/out. It wants the toolchain and, for each language,
# gcc with AddressSanitizer, valgrind and pkg-config, cargo, and python3; what isn't there is left out, and it says so, also at
# the end.
set -eu
cd "$(dirname "$0")"
here=$PWD
out=$here/out
failed=0
passed=0
left_out=""

has() {
    command -v "$1" >/dev/null || {
        echo "bindings: there is no $1 here, so $2 is left out"
        left_out="$left_out; $2 left out"
        return 1
    }
}

# A check, by its name: the command that follows succeeds.
check() {
    local name=$1
    shift
    if "$@"; then
        passed=$((passed + 1))
    else
        echo "bindings: $name failed"
        failed=$((failed + 1))
    fi
}

# Builds a program in C, which is a file of c/, and names it.
built_in_c() {
    gcc -std=c99 -Wall -Wextra -Werror -O2 "c/$1" "$library/libfirnuubal.a" -o "$out/$2"
}

# The crate is built in out/, so that no file of cargo's stands beside the sources.
rust() {
    rm -rf "$out/rust"
    cp -rL rust "$out/rust"
    (cd "$out/rust" && FIRNUUBAL_LIB=$library CARGO_TARGET_DIR=$out/target cargo "$@" --quiet --offline)
}

# Whether a program prints the pages as the lines of another say, whose name ends the names of their files.
prints_as() {
    local kind=$1 page piece words=()
    shift
    [ "$kind" != places ] || words=(places)
    for page in "$out/page.html" "$out/odd.html"; do
        for piece in 1 7 4096; do
            "$@" "$piece" "${words[@]}" <"$page" | cmp - "$page.$kind" || return 1
        done
    done
}

# Whether the examples and the tests in C give back all memory, and touch no other.
leaks_nothing() {
    local under="valgrind --quiet --leak-check=full --error-exitcode=9" test
    for test in tokens clean; do
        $under "$out/$test-c" 7 <"$out/page.html" >/dev/null || return 1
    done
    for test in "${tests_in_c[@]}"; do
        # What large.c takes at once would take minutes there.
        [ "$test" = large ] || $under "$out/$test-c" || return 1
    done
}

# The calls that the header declares and does not define: those of the library.
declared() {
    sed -n 's/^[a-z0-9_]* \(html5_[a-z0-9_]*\)(.*/\1/p' c/firnuubal.h | sort -u
}

# Whether the shared library has these calls for others, and no more.
exports_what_the_header_declares() {
    nm -D --defined-only "$library/libfirnuubal.so" | sed 's/.* //' | sort | diff - <(declared)
}

# Whether the shared library is asked for by the name under which it is installed, is bound when it is loaded, and has a build
# id.
is_linked_as_said() {
    local abi
    abi=$(make -s -C c abi) || return 1
    readelf --wide --dynamic --segments --notes "$library/libfirnuubal.so" >"$out/parts" 2>/dev/null &&
        grep -q "soname: \[libfirnuubal.so.$abi\]" "$out/parts" && grep -q "Flags: NOW" "$out/parts" &&
        grep -q GNU_RELRO "$out/parts" && grep -q "Build ID" "$out/parts"
}

# Whether what the shared library does when it is loaded ends a program with words where the processor lacks something, and
# else does nothing.
asks_for_the_processor() {
    local build=(gcc -std=c99 -Wall -Wextra -Werror -O2 c/cpu.c "$out/main.c" -o "$out/processor-c")
    echo "int main(void) { return 3; }" >"$out/main.c"
    "${build[@]}" && has_status 3 "$out/processor-c" && "${build[@]}" "-DHAS(feature)=0" &&
        has_status 127 "$out/processor-c" 2>"$out/processor" && grep -q "^libfirnuubal: this processor lacks" "$out/processor"
}

# Whether a command ends with a status.
has_status() {
    local due=$1 status=0
    shift
    "$@" || status=$?
    [ "$status" = "$due" ]
}

# Whether the fuzzer finds nothing: over its corpus, and for 20 seconds over inputs of its own.
finds_nothing() {
    gcc -std=c99 -Wall -Wextra -Werror -g -O1 -fsanitize=address,undefined -fno-sanitize-recover=all c/fuzz/calls.c \
        "$library/libfirnuubal.a" -o "$out/fuzz-c" &&
        (cd "$out" && ./fuzz-c --seconds 20 --seed "$(date +%s)" "$here"/c/fuzz/corpus/* >"$out/fuzz.log")
}

has_sanitizers() {
    echo "int main(void) { return 0; }" >"$out/main.c"
    if gcc -fsanitize=address,undefined "$out/main.c" -o "$out/sanitized" 2>/dev/null && "$out/sanitized"; then return; fi
    echo "bindings: gcc has no AddressSanitizer here, so the fuzzer is left out"
    left_out="$left_out; the fuzzer left out"
    return 1
}

# Whether the line in C of README.md runs as it stands where bindings and dist are, and nothing else.
runs_as_the_readme_says() {
    local fresh=$out/fresh line
    line=$(sed -n 's|^    \(gcc .*bindings/c/examples/clean\.c .*\)|\1|p' README.md)
    rm -rf "$fresh"
    mkdir "$fresh"
    ln -s "$here" "$fresh/bindings"
    ln -s "$library" "$fresh/dist"
    cp "$out/page.html" "$fresh/PAGE"
    [ -n "$line" ] && (cd "$fresh" && bash -c "$line") | cmp - "$out/page.html.cleaned"
}

# The lines of print_places with the place of each at its front: the three numbers of a token stand on a line before its text's
# and its own. With places nothing pauses.
placed_lines() {
    awk '/^[0-9]+ [0-9]+ [0-9]+$/ { split($0, places, " "); next }
        $1 == "pause" { next }
        { print ($1 == "text" ? places[1] " " places[2] : places[2] " " places[3]) " " $0 }'
}

# The pages, what html5tok and print_places print of each, and what firnuubal cleans of it.
pages() {
    local page table
    table=$(python3 ../tools/gen/entities.py)
    cp page.html "$out/page.html"
    printf 'a\0b\1\177<a href="x\ny">\r\n<p\0><!--\0' >"$out/odd.html"
    for page in "$out/page.html" "$out/odd.html"; do
        ../crates/html5tok/out/html5tok --table "$table" <"$page" >"$page.tokens"
        ../crates/print_places/out/print_places --table "$table" <"$page" | placed_lines >"$page.places"
        ../crates/firnuubal/out/firnuubal clean <"$page" >"$page.cleaned"
    done
}

# Whether a program in C finds the library where it was installed, and nothing is left where it was removed again. The folder
# has a space in its name, which pkg-config escapes, so that a shell has to read its words.
links_where_it_is_installed() {
    local prefix="$out/the prefix" flags
    rm -rf "$prefix"
    make -s -C c install PREFIX="$prefix" LIB="$library" || return 1
    flags=$(PKG_CONFIG_PATH=$prefix/lib/pkgconfig pkg-config --cflags --libs firnuubal) || return 1
    sed 's|"../firnuubal.h"|<firnuubal.h>|' c/examples/clean.c >"$out/installed.c"
    eval "gcc -std=c99 -O2 '$out/installed.c' -o '$out/installed' $flags" &&
        LD_LIBRARY_PATH=$prefix/lib prints_as cleaned "$out/installed" && has_the_program "$prefix" &&
        make -s -C c uninstall PREFIX="$prefix" && [ -z "$(find "$prefix" ! -type d)" ]
}

# Whether the program was installed, with its pages and completions, where it is beside the library.
has_the_program() {
    local prefix=$1
    if [ ! -f "$library/firnuubal" ]; then
        [ ! -e "$prefix/bin/firnuubal" ]
        return
    fi
    "$prefix/bin/firnuubal" clean <"$out/page.html" | cmp - "$out/page.html.cleaned" &&
        cmp ../docs/man/firnuubal-clean.1 "$prefix/share/man/man1/firnuubal-clean.1" &&
        cmp ../docs/completions/firnuubal.bash "$prefix/share/bash-completion/completions/firnuubal" &&
        cmp ../docs/completions/firnuubal.fish "$prefix/share/fish/vendor_completions.d/firnuubal.fish" &&
        cmp ../docs/completions/_firnuubal "$prefix/share/zsh/site-functions/_firnuubal"
}

# Whether the crate, as cargo packages it with the archive, is whole: it has its licences, and what is unpacked of it is built and
# cleans where nothing else of this repository is seen.
is_a_whole_crate() {
    local crate=$out/crate target=$out/target file
    rm -rf "$crate" "$target/package"
    cp -rL rust "$crate" && mkdir -p "$crate/lib" && cp "$library/libfirnuubal.a" "$crate/lib/" || return 1
    packages "$crate" --list >"$out/crate.files" && packages "$crate" --no-verify || return 1
    for file in LICENSE-APACHE LICENSE-MIT README.md build.rs lib/libfirnuubal.a src/lib.rs; do
        grep -qx "$file" "$out/crate.files" || return 1
    done
    rm -r "$crate"
    mkdir "$crate" && tar xf "$target"/package/firnuubal-*.crate -C "$crate" --strip-components=1 &&
        cmp ../LICENSE-MIT "$crate/LICENSE-MIT" && cmp ../LICENSE-APACHE "$crate/LICENSE-APACHE" &&
        (cd "$crate" && unset FIRNUUBAL_LIB && CARGO_TARGET_DIR=$target/alone cargo build --quiet --offline --release --example clean) &&
        prints_as cleaned "$target/alone/release/examples/clean"
}

# Whether the programs of docs/use/c.md end well, as they stand there.
c_recipes_hold() {
    local recipes=$out/recipes file
    rm -rf "$recipes"
    mkdir "$recipes"
    awk -v into="$recipes" '/^```c$/ {n++; file = into "/" n ".c"; next} /^```/ {file = ""} file {print > file}' ../docs/use/c.md
    [ -f "$recipes/1.c" ] || return 1
    for file in "$recipes"/*.c; do
        gcc -std=c99 -Wall -Wextra -Werror -O2 -I c "$file" "$library/libfirnuubal.a" -o "$recipes/program" && "$recipes/program" || return 1
    done
}

# Whether a comment stands over each function of the header, except those that its macros call.
header_is_documented() {
    awk '/^([a-z0-9_]+ |static inline .*)html5_[a-z0-9_]*\(/ && !/_page\(/ && before !~ /\*\/$/ { print; bad = 1 }
        /[^ ]/ { before = $0 }
        END { exit bad }' c/firnuubal.h
}

# Whether all that the crate shows is documented, without a warning.
crate_is_documented() {
    RUSTDOCFLAGS="-D warnings -D missing-docs" rust doc --no-deps
}

# Whether the pieces of docs/use/rust.md are right, with the crate that was built last.
rust_recipes_hold() {
    local built=$out/target/release
    rustdoc --test ../docs/use/rust.md --edition 2021 --extern "firnuubal=$built/libfirnuubal.rlib" -L "dependency=$built/deps" >/dev/null
}

packages() {
    (cd "$1" && CARGO_TARGET_DIR=$out/target cargo package --quiet --offline --allow-dirty "$2") 2>"$out/crate.log"
}

# Whether the wheel serves where nothing else of this repository is seen.
serves_as_a_wheel() {
    local env=$out/venv wheels=$out/wheels is_fast=False
    if has_extension; then is_fast=True; fi
    rm -rf "$env" "$wheels"
    mkdir "$wheels"
    python3 -m venv "$env"
    FIRNUUBAL_LIB=$library "$env/bin/pip" wheel --quiet --no-index --no-deps --wheel-dir "$wheels" ./python
    "$env/bin/pip" install --quiet --no-index "$wheels"/firnuubal-*.whl
    (cd "$out" && "$env/bin/python" -c "import firnuubal as f; assert (f.clean('<p onclick=x>1'), f.IS_FAST) == ('<p>1</p>', $is_fast)")
}

# Whether Python's extension is beside the library.
has_extension() {
    [ -f "$library/_fast.abi3.so" ]
}

tests_in_c=(abi calls cleaning large policies reader)

in_c() {
    local test
    for test in "${tests_in_c[@]}"; do
        check "the tests in C, $test" built_in_c "tests/$test.c" "$test-c"
        check "what they test, $test" "$out/$test-c"
    done
    has g++ "the header in C++" && check "the header in C++" g++ -std=c++11 -Wall -Wextra -Werror -fsyntax-only -x c++ c/firnuubal.h
    check "the comments of the header" header_is_documented
    check "the reader in C" built_in_c examples/tokens.c tokens-c
    check "the tokens from C" prints_as tokens "$out/tokens-c"
    check "the places from C" prints_as places "$out/tokens-c"
    check "the counter in C" built_in_c examples/count.c count-c
    check "the cleaner in C" built_in_c examples/clean.c clean-c
    check "cleaned pages from C" prints_as cleaned "$out/clean-c"
    check "the recipes in C" c_recipes_hold >/dev/null
    check "a policy that isn't there, from C" has_status 2 "$out/clean-c" 7 "$out/no-such-policy" 2>/dev/null
    check "the line of README.md in C" runs_as_the_readme_says
    check "the calls of the shared library" exports_what_the_header_declares
    check "the links of the shared library" is_linked_as_said
    check "what the shared library asks of the processor" asks_for_the_processor
    has valgrind "the check for leaks" && check "leaks" leaks_nothing
    has_sanitizers && check "the fuzzer" finds_nothing
    has pkg-config "the installation for C" && check "the installation for C" links_where_it_is_installed
    return 0
}

in_rust() {
    check "the tests in Rust" rust test >/dev/null
    check "the library and the examples in Rust" rust build --release --lib --examples
    check "the recipes in Rust" rust_recipes_hold
    check "the tokens from Rust" prints_as tokens "$out/target/release/examples/tokens"
    check "the places from Rust" prints_as places "$out/target/release/examples/tokens"
    check "cleaned pages from Rust" prints_as cleaned "$out/target/release/examples/clean"
    check "the reference of the crate" crate_is_documented
    check "the crate as it is packaged" is_a_whole_crate
    has rustfmt "the layout of the sources in Rust" && check "the layout of the sources in Rust" cargo fmt --check --manifest-path rust/Cargo.toml
    return 0
}

# The checks of the package, with the readers in Python (1) or the extension (0), and their name.
with_readers() {
    local pure=$1 readers=$2
    local run=(env "FIRNUUBAL_LIB=$library" PYTHONDONTWRITEBYTECODE=1 FIRNUUBAL_PURE="${pure#0}" python3)
    check "$readers" env PYTHONPATH=python/src "${run[@]}" -c "import firnuubal; assert firnuubal.IS_FAST == (not $pure)"
    check "the tests in Python, $readers" env PYTHONPATH=python/src "${run[@]}" -m unittest discover --quiet -s python/tests
    check "the recipes in Python, $readers" env PYTHONPATH=python/src "${run[@]}" -m doctest ../docs/use/python.md
    check "the tokens from Python, $readers" prints_as tokens "${run[@]}" python/examples/tokens.py
    check "the places from Python, $readers" prints_as places "${run[@]}" python/examples/tokens.py
}

in_python() {
    with_readers 1 "the readers in Python"
    if has_extension; then
        with_readers 0 "the extension"
    else
        echo "bindings: there is no _fast.abi3.so in $library, so Python's extension is left out"
        left_out="$left_out; Python's extension left out"
    fi
    check "cleaned pages from Python" prints_as cleaned env "FIRNUUBAL_LIB=$library" PYTHONDONTWRITEBYTECODE=1 python3 python/examples/clean.py
    check "the wheel" serves_as_a_wheel
}

# Checks the library of a folder.
check_library() {
    library=$1
    if has gcc "C"; then in_c; fi
    if has cargo "Rust"; then in_rust; fi
    if has python3 "Python"; then in_python; fi
}

mkdir -p "$out"
./build.sh
for program in html5tok print_places firnuubal; do
    [ -x "../crates/$program/out/$program" ] || (cd "../crates/$program" && rt run </dev/null >/dev/null 2>"$out/rt.log")
done
check "html5tok, print_places and firnuubal" pages
check_library "$out"
if [ -d ../dist ]; then
    check "what is shipped" python3 ../tools/release/dist.py --check
    # Where both have the same bytes, what was checked holds of both.
    { cmp -s ../dist/libfirnuubal.a "$out/libfirnuubal.a" && cmp -s ../dist/_fast.abi3.so "$out/_fast.abi3.so"; } ||
        check_library "$(cd ../dist && pwd)"
fi
echo "bindings: $passed checks passed, $failed failed$left_out"
[ "$failed" = 0 ]
