# Sourced, with `name` the test's: a folder to work in, and what a command gives as its user sees it.

root=$(cd "$(dirname "${BASH_SOURCE[0]}")/.." && pwd -P)
work=$(mktemp -d)
trap 'chmod -R u+w "$work" && rm -rf "$work"' EXIT
chmod 755 "$work"

fail() {
    printf '%s: %s\n' "$name" "$1" >&2
    exit 1
}

# gives STATUS SAYS WHAT COMMAND...: it ends with that status, and says that on standard error, in one line, or nothing there.
gives() {
    local wanted=$1 says=$2 what=$3 status=0
    shift 3
    "$@" >"$work/out" 2>"$work/err" || status=$?
    [ "$status" -eq "$wanted" ] || fail "$what: status $status where $wanted is due: $(cat "$work/err")"
    if [ -z "$says" ]; then
        [ ! -s "$work/err" ] || fail "$what: says $(cat "$work/err")"
    else
        [ "$(wc -l <"$work/err")" -eq 1 ] && grep -q -- "$says" "$work/err" || fail "$what: says $(cat "$work/err")"
    fi
}

# prints LINES...: what the last command printed, line by line.
prints() {
    printf '%s\n' "$@" | cmp -s - "$work/out" || fail "printed was $(cat "$work/out") where $* is due"
}

# As somebody who may not write here: nobody, where this runs as root.
somebody=()
[ "$(id -u)" -ne 0 ] || somebody=(setpriv --reuid=nobody --regid=nogroup --clear-groups)

closed_input() { "$@" <&-; }
closed_output() { "$@" >&-; }
full_disk() { "$@" >/dev/full; }
