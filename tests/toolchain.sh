# Sourced: the repository's root, Debian packages by name, compilers and a runner for x86-64, and the library's archive.

root=$(cd "$(dirname "${BASH_SOURCE[0]}")/.." && pwd -P)

# Installs the named Debian packages; as root, or by sudo where that asks for nothing.
install_packages() {
    local sudo=()
    [ "$(id -u)" -eq 0 ] || sudo=(sudo -n)
    "${sudo[@]}" apt-get -qq update && "${sudo[@]}" env DEBIAN_FRONTEND=noninteractive apt-get -qq install -y "$@"
}

# need PACKAGE...: installs those of the named Debian packages that are missing, and says so.
need() {
    local package missing=()
    for package in "$@"; do
        dpkg -s "$package" 2>/dev/null | grep '^Status: .* installed$' >/dev/null || missing+=("$package")
    done
    [ ${#missing[@]} -gt 0 ] || return 0
    printf 'installing Debian packages: %s\n' "${missing[*]}" >&2
    if ! install_packages "${missing[@]}" </dev/null >/dev/null 2>&1; then
        printf 'cannot install the Debian packages that are needed: %s\n' "${missing[*]}" >&2
        return 1
    fi
}

# compiles COMPILER LANGUAGE: whether it is here and makes a program.
compiles() {
    local made
    made=$(mktemp) && printf '#include <stdio.h>\nint main(void) { return puts("") < 0; }\n' | "$1" -x "$2" - -o "$made" 2>/dev/null
    local status=$?
    rm -f "$made"
    return $status
}

# The archive holds x86-64 code: elsewhere it is linked by Debian's cross compiler and run by its emulator.
if [ "$(uname -m)" = x86_64 ]; then
    compiles gcc c || need gcc libc6-dev
    compiles g++ c++ || need g++
    cc=(gcc)
    cxx=(g++)
    run=()
else
    compiles x86_64-linux-gnu-gcc c || need gcc-x86-64-linux-gnu libc6-dev-amd64-cross
    compiles x86_64-linux-gnu-g++ c++ || need g++-x86-64-linux-gnu
    command -v qemu-x86_64 >/dev/null || need qemu-user
    cc=(x86_64-linux-gnu-gcc)
    cxx=(x86_64-linux-gnu-g++)
    run=(qemu-x86_64 -L /usr/x86_64-linux-gnu)
fi

# Where the library's archive is: the repository's own, or the one that TRAWNOSZ_ARCHIVE names.
library=${TRAWNOSZ_ARCHIVE:-$root/target/staticlib/libtrawnosz.a}

source "$root/scripts/built.sh"

# Makes the archive where it is not of these sources; shows what rt said only where it fails.
archive() {
    if [ -n "${TRAWNOSZ_ARCHIVE:-}" ]; then
        [ -r "$library" ] || { printf 'TRAWNOSZ_ARCHIVE names no file: %s\n' "$library" >&2; return 1; }
        return 0
    fi
    local said
    is_built "$library" || said=$(build_archive 2>&1) || {
        printf '%s\nthe library could not be built\n' "$said" >&2
        return 1
    }
}
