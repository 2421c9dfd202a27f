#!/bin/sh
# What the Makefile does. The folders are those of its variables.
#
#     install.sh install|uninstall
set -eu
docs=../../docs
include=$DESTDIR$INCLUDEDIR
lib=$DESTDIR$LIBDIR
bin=$DESTDIR$BINDIR
man=$DESTDIR$DATADIR/man/man1
bash=$DESTDIR$DATADIR/bash-completion/completions
fish=$DESTDIR$DATADIR/fish/vendor_completions.d
zsh=$DESTDIR$DATADIR/zsh/site-functions

# The name of a folder as the file for pkg-config has it, where a backslash stands before what would end a word.
escaped() {
    printf '%s\n' "$1" | sed "s/[\\\\ \"'#\$()&;<>\`|]/\\\\&/g"
}

# The name of a folder, by that of the prefix where it is beneath it.
beneath() {
    case $1 in
    "$PREFIX"/*) printf '%s%s\n' "\${prefix}" "$(escaped "${1#"$PREFIX"}")" ;;
    *) escaped "$1" ;;
    esac
}

install_library() {
    install -d "$include" "$lib/pkgconfig"
    install -m 644 firnuubal.h "$include/"
    install -m 644 "$LIB/libfirnuubal.a" "$lib/"
    install -m 755 "$LIB/libfirnuubal.so" "$lib/libfirnuubal.so.$VERSION"
    ln -sf "libfirnuubal.so.$VERSION" "$lib/libfirnuubal.so.$ABI"
    ln -sf "libfirnuubal.so.$ABI" "$lib/libfirnuubal.so"
    {
        printf 'prefix=%s\nincludedir=%s\nlibdir=%s\n' "$(escaped "$PREFIX")" "$(beneath "$INCLUDEDIR")" "$(beneath "$LIBDIR")"
        sed "s/@VERSION@/$VERSION/" firnuubal.pc.in
    } >"$lib/pkgconfig/firnuubal.pc"
}

install_program() {
    install -d "$bin" "$man" "$bash" "$fish" "$zsh"
    install -m 755 "$LIB/firnuubal" "$bin/"
    install -m 644 "$docs"/man/*.1 "$man/"
    install -m 644 "$docs/completions/firnuubal.bash" "$bash/firnuubal"
    install -m 644 "$docs/completions/firnuubal.fish" "$fish/"
    install -m 644 "$docs/completions/_firnuubal" "$zsh/"
}

uninstall() {
    rm -f "$include/firnuubal.h" "$lib/libfirnuubal.a" "$lib/pkgconfig/firnuubal.pc"
    rm -f "$lib/libfirnuubal.so" "$lib/libfirnuubal.so.$ABI" "$lib/libfirnuubal.so.$VERSION"
    rm -f "$bin/firnuubal" "$bash/firnuubal" "$fish/firnuubal.fish" "$zsh/_firnuubal"
    for page in "$docs"/man/*.1; do
        rm -f "$man/$(basename "$page")"
    done
}

case $1 in
install)
    install_library
    if [ -f "$LIB/firnuubal" ]; then
        install_program
    else
        echo "there is no program firnuubal in $LIB, so it is left out"
    fi
    ;;
uninstall) uninstall ;;
esac
