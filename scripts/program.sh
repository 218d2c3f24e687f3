# Sourced, with `root` the checkout's or the installed release's and `name` the program's: what ./listing and ./tables have in common.

# A checkout builds its programs and looks each time whether they are of its sources; a release has them.
if [ -e "$root/crates.txt" ]; then
    program=$root/target/bin/$name
    source "$root/scripts/built.sh"
else
    program=$root/$name.program
fi

# Ends what cannot be begun: status 2.
die() {
    printf '%s: %s\n' "$name" "$1" >&2
    exit 2
}

# answer_words WORDS...: --help and --version are answered, and a word that begins like an option is refused.
answer_words() {
    case ${1--} in
    '') die "an empty name; $usage" ;;
    --help) printf '%s\n' "$usage" && exit ;;
    --version) printf 'Trawnosz %s\n' "$(cat "$root/RELEASE")" && exit ;;
    --*) die "$usage" ;;
    esac
}

# Proves and links the program where it is not of these sources.
build() {
    [ -e "$root/crates.txt" ] || return 0
    ! is_built "$program" || return 0
    [ -w "$root" ] || die "the program is not built of these sources, and $root cannot be written"
    printf '%s: proving and building the program, some five minutes on four cores where nothing was kept\n' "$name" >&2
    build_program "$name" || die "the program could not be built"
}

# The program is x86-64 code: elsewhere an emulator, Debian's, runs it with the kit's C library.
find_runner() {
    run=("$program")
    if [ "$(uname -m)" != x86_64 ]; then
        command -v rt >/dev/null || die "the command rt of the Rattle kit is needed and is not on the PATH"
        local libraries emulator
        libraries=$(dirname "$(rt doc)")/toolchain/lib
        emulator=$(command -v qemu-x86_64 || command -v qemu-x86_64-static) || die "no qemu-x86_64 is here (Debian: qemu-user)"
        run=("$emulator" "$libraries/ld-linux-x86-64.so.2" --library-path "$libraries" "$program")
    fi
}

# needs_output, needs_input: whether what the program writes to and reads from is there.
needs_output() {
    [ -e /dev/fd/1 ] || die "standard output is closed"
}
needs_input() {
    [ -e /dev/fd/0 ] || die "standard input is closed"
    [ ! -t 0 ] || printf '%s: reading standard input, a terminal; its end is Ctrl-D\n' "$name" >&2
}

# run_program WORDS...: runs it, what it says on standard error in `said`, how it ended in `status`. The programs have no exit status of
# their own: what they say tells how it went.
run_program() {
    build
    find_runner
    exec 3>&1
    status=0
    said=$("${run[@]}" "$@" 2>&1 >&3) || status=$?
}
