# Sourced: builds the test programs in target/tests, of each only the objects that have changed.

source "$(dirname "${BASH_SOURCE[0]}")/toolchain.sh"
built=$root/target/tests
flags=(-std=c11 -O2 -Wall -Wextra -Werror -I "$root/tests/independent" -I "$root/include")

# What the gate runs: a fixed seed and a number of cases.
gate_seed=26875
gate_count=400000

# compile DIRECTORY NAME...: makes those objects of tests/DIRECTORY that are not of this source, these headers, flags and
# compiler, by content, and adds all of them to the array `objects`.
compile() {
    local directory=$1 name source object sum headers=("$root"/tests/*/*.h "$root"/include/*.h)
    shift
    mkdir -p "$built/$directory"
    for name in "$@"; do
        source=$root/tests/$directory/$name.c
        object=$built/$directory/$name.o
        sum=$({ "${cc[@]}" --version; printf '%s\n' "${flags[@]}"; sha256sum "$source" "${headers[@]}"; } | sha256sum)
        if [ ! -e "$object" ] || [ "$(cat "$object.built" 2>/dev/null)" != "$sum" ]; then
            rm -f "$object.built"
            "${cc[@]}" "${flags[@]}" -c "$source" -o "$object"
            printf '%s\n' "$sum" >"$object.built"
        fi
        objects+=("$object")
    done
}

# names DIRECTORY: the names of its sources.
names() {
    find "$root/tests/$1" -name '*.c' -printf '%f\n' | sed 's/\.c$//' | sort
}

# link_program NAME FILES...: makes target/tests/NAME; a program that is running meanwhile is not disturbed.
link_program() {
    local program=$built/$1
    shift
    "${cc[@]}" "$@" -o "$program.$$"
    mv "$program.$$" "$program"
}

# Makes the objects of the comparing program, all in `objects`.
compile_comparing() {
    local independent comparing
    mapfile -t independent < <(names independent)
    mapfile -t comparing < <(names comparing | grep -vx hostile)
    objects=()
    compile independent "${independent[@]}"
    compile comparing "${comparing[@]}"
}
