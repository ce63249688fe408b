# Sourced by the scripts that install the library for C. It is made of an archive, by the compiler that they name.

# soname_of VERSION: the name by which programs find the shared library
soname_of() {
    echo "libscard.so.${1%%.*}"
}

# shares COMPILER ARCHIVE FOLDER VERSION: links the shared library into a folder, with its links. It exports only the
# calls of the header. LDFLAGS are words for the linker.
shares() {
    soname=$(soname_of "$4")
    rm -f "$3/libscard.so.$4"
    # one file with the list of what it exports, which the linker reads from here
    shown=$(mktemp) && echo '{ global: scard_*; local: *; };' >"$shown" || return 1
    # shellcheck disable=SC2086 # words for the linker
    "$1" -shared $LDFLAGS -Wl,-soname,"$soname" -Wl,--version-script="$shown" -Wl,--gc-sections -Wl,-z,defs \
        -Wl,-z,relro -Wl,-z,now -Wl,--whole-archive "$2" -Wl,--no-whole-archive -o "$3/libscard.so.$4"
    linked=$?
    rm -f "$shown"
    [ "$linked" -eq 0 ] && ln -sf "libscard.so.$4" "$3/$soname" && ln -sf "$soname" "$3/libscard.so"
}

# describes PREFIX LIBDIR VERSION WORDS: writes what pkg-config reads into LIBDIR/pkgconfig/scard.pc below the root
# DESTDIR, if that is set. WORDS come before the library's name when a program is linked.
describes() {
    mkdir -p "$DESTDIR$2/pkgconfig" && cat >"$DESTDIR$2/pkgconfig/scard.pc" <<PC
prefix=$1
includedir=\${prefix}/include
libdir=\${prefix}${2#"$1"}
archive=\${libdir}/libscard.a

Name: scard
Description: the proved smart card stack
Version: $3
Cflags: -I\${includedir}
Libs: -L\${libdir}${4:+ $4} -lscard
PC
}
