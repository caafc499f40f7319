# Sourced by what builds from proofs, with $top, the top of the checkout, $name, the name of the lines on standard error, and $log, which gets all that rt says.
set -o pipefail

# Whether so many megabytes are free for what a build keeps; where they aren't, it says so.
has_room() {
    local free
    free=$(df -Pm "$top" | awk 'NR == 2 { print $4 }')
    [ "${free:-0}" -ge "$1" ] && return
    echo "$name: the proofs need up to $1 MB in $top, and $free MB are free there" >&2
    return 1
}

# Says how many megabytes are left, where a full disk may be why a proof failed.
tell_room() {
    local free
    free=$(df -Pm "$top" | awk 'NR == 2 { print $4 }')
    [ "${free:-0}" -ge 50 ] || echo "$name: $free MB are free in $top" >&2
}

# Proves a crate by the words of rt that follow its name, and says how many of its functions are done.
prove() {
    echo "$name: proving $1" >&2
    if ! (cd "$top/crates/$1" && rt "${@:2}" < /dev/null 2>&1) | tee -a "$log" |
        sed -un "s/^so far: \([0-9]* of [0-9]*\) functions.*/$name: $1: \1 functions/p" >&2; then
        tail -n 20 "$log" >&2
        tell_room
        echo "$name: it could not be built; all that was said is in ${log#"$top/"}" >&2
        return 1
    fi
}
