# Sourced by the scripts that make what users get. A stamp says which files were proved, and by which toolchain: it has
# the lines of `rt version`, and then a line of sha256sum for each file, by its path from the folder of the stamp.

# stamp_sums STAMP FILE..: adds files to a stamp
stamp_sums() {
    stamp=$1
    folder=$(dirname -- "$1")
    shift
    (cd "$folder" && sha256sum -- "$@") >>"$stamp"
}

# is_stamped STAMP FILE..: whether a stamp is there, and has each file as it is now
is_stamped() {
    stamp=$1
    shift
    [ -f "$stamp" ] || return 1
    for one; do
        line=$(grep -F "  $one" -- "$stamp") || return 1
        (cd "$(dirname -- "$stamp")" && printf '%s\n' "$line" | sha256sum --check --status) || return 1
    done
}

# toolchain_of STAMP: prints what the toolchain that proved the files says of itself
toolchain_of() {
    grep -vE '^[0-9a-f]{64}  ' -- "$1"
}
