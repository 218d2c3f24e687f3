# Sourced, with `root` the repository's and `name` the script's: what a release is made of, and where each thing of it stands.

release=$(cat "$root/RELEASE")
source "$root/scripts/built.sh"

# Ends what cannot be done: status 2.
die() {
    printf '%s: %s\n' "$name" "$1" >&2
    exit 2
}

# Makes the archive and the two programs where they are not of these sources.
build_release() {
    local file
    for file in staticlib/libtrawnosz.a bin/listing bin/tables; do
        is_built "$root/target/$file" && continue
        [ -w "$root" ] || die "$file is not built of these sources, and $root cannot be written"
        printf '%s: proving and building %s\n' "$name" "${file##*/}" >&2
        case $file in
        staticlib/*) build_archive ;;
        bin/*) build_program "${file##*/}" ;;
        esac || die "${file##*/} could not be built"
    done
}

# The pkg-config file finds its folder from where it stands, so that a release may be moved.
package_description() {
    cat <<PC
prefix=\${pcfiledir}/../..
includedir=\${prefix}/include
libdir=\${prefix}/lib

Name: trawnosz
Description: Packets of GB/T 26875.3 for alarm transmitters
Version: $release
Cflags: -I\${includedir}
Libs: -L\${libdir} -ltrawnosz
PC
}

# put_release PREFIX: puts what was built there; a file that another release left there is replaced.
put_release() {
    local to=$1 program
    install -D -m 644 "$root/include/trawnosz.h" "$to/include/trawnosz.h"
    install -D -m 644 "$root/target/staticlib/libtrawnosz.a" "$to/lib/libtrawnosz.a"
    install -D -m 644 <(package_description) "$to/lib/pkgconfig/trawnosz.pc"
    install -D -m 644 "$root/RELEASE" "$to/lib/trawnosz/RELEASE"
    install -D -m 644 "$root/scripts/program.sh" "$to/lib/trawnosz/scripts/program.sh"
    mkdir -p "$to/bin"
    for program in listing tables; do
        install -D -m 755 "$root/$program" "$to/lib/trawnosz/$program"
        install -D -m 755 "$root/target/bin/$program" "$to/lib/trawnosz/$program.program"
        ln -sf "../lib/trawnosz/$program" "$to/bin/trawnosz-$program"
    done
}
