# Sourced, with `root` the repository's: whether what was built was built of the sources as they are, by their content and never by
# their dates, so that older sources put back over newer ones are built anew.

# The sum of crates.txt and every file of crates/, by name and content; what rt makes, crates/NAME/out, is no source.
sources_sum() {
    (cd "$root" && find crates.txt crates -regex 'crates/[a-z_0-9]+/out' -prune -o -type f -print0 | LC_ALL=C sort -z | xargs -0 sha256sum | sha256sum | cut -d' ' -f1)
}

# The kit's identity, nothing where it is not here: what it built before can still be run.
kit_identity() {
    ! command -v rt >/dev/null || rt version
}

# is_built FILE: whether FILE is there with a stamp of these sources and, where a kit is here, of this kit.
is_built() {
    [ -e "$1" ] && [ -r "$1.built" ] || return 1
    local sources kit here
    { read -r sources && IFS= read -r kit; } <"$1.built" || return 1
    here=$(kit_identity)
    [ "$sources" = "$(sources_sum)" ] && { [ -z "$here" ] || [ "$kit" = "$here" ]; }
}

# build_archive, build_program NAME: prove and build, for every x86-64 processor as the header has it: rt's own choice, x86-64-v2, asks for more.
build_archive() {
    build_by_rt "$root/target/staticlib/libtrawnosz.a" trawnosz_c libtrawnosz_c.a lib --cpu x86-64
}
build_program() {
    build_by_rt "$root/target/bin/$1" "$1" "$1" run --cpu x86-64
}

# build_by_rt FILE CRATE MADE WORDS...: has `rt WORDS...` make out/MADE in the crate's folder, and puts it at FILE; its progress on standard
# error. The stamp stands only behind a build that succeeded, and is of the sources that stood when it began.
build_by_rt() {
    local file=$1 crate=$root/crates/$2 made=$root/crates/$2/out/$3 sum
    shift 3
    if ! command -v rt >/dev/null; then
        printf 'the command rt of the Rattle kit is needed and is not on the PATH\n' >&2
        return 1
    fi
    # rt leaves what it made before where it proves nothing.
    rm -f "$file.built" "$made" "$made.stamp"
    sum=$(sources_sum)
    # `rt run` runs what it built too, here on no input, and what that prints is not wanted; rt itself speaks on standard error.
    (cd "$crate" && rt "$@" </dev/null >/dev/null) && [ -e "$made" ] || return 1
    mkdir -p "$(dirname "$file")" && cp "$made" "$file.new" && mv -f "$file.new" "$file" || return 1
    printf '%s\n%s\n' "$sum" "$(kit_identity)" >"$file.built"
}
