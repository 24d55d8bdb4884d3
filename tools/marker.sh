# Tells whether a program or a library was built from the present sources, by the marker beside it: the file NAME.built in out/. Its lines
# are the crates that were built, the folders that had their sources, and a sum of these and of what was built. Its time is the time before
# that build. Callers set top, the folder of the repository; and program, the file that is built, and marker for the calls that need them.

# Prints the crates that a crate uses.
uses_of() {
    sed -n "s/^$1\( [^:]*\)*://p" "$top/crates.txt"
}

# Adds a crate to crates, after the crates that it uses.
add_crate() {
    for used in $(uses_of "$1"); do
        add_crate "$used"
    done
    case " $crates" in
    *" $1 "*) ;;
    *) crates="$crates$1 " ;;
    esac
}

# Sets folders to the folders that have the sources of crates.
find_folders() {
    folders=''
    for one in $crates; do
        for part in src specs proofs; do
            [ ! -d "$top/crates/$one/$part" ] || folders="$folders${folders:+ }$one/$part"
        done
    done
}

# Prints a sum of the sources in folders and of the program.
sum_of_all() {
    sources=$(cd -- "$top/crates" && find ../crates.txt $folders -name '.?*' -prune -o \
        '(' -name crates.txt -o -name '*.rt' -o -name '*.antt' ')' -print0 | LC_ALL=C sort -z | xargs -0 sha256sum) &&
        product=$(sha256sum <"$program") && printf '%s\n' "$sources" "$product" | sha256sum
}

# Returns whether no source in folders, and no folder there, has changed since the time of a file.
is_unchanged_since() {
    time=$1
    set -- "$top/crates.txt"
    for one in $folders; do
        set -- "$@" "$top/crates/$one"
    done
    changed=$(find "$@" -name '.?*' -prune -o \
        '(' -type d -o -name crates.txt -o -name '*.rt' -o -name '*.antt' ')' -cnewer "$time" -print -quit) && [ -z "$changed" ]
}

# Returns whether the program is built from the present sources. A call looks only at times, unless one of them is new, as in a copy.
is_built() {
    [ -s "$program" ] && [ -f "$marker" ] && { read -r crates && read -r before && read -r sum; } <"$marker" || return 1
    find_folders
    [ "$folders" = "$before" ] || return 1
    is_unchanged_since "$marker" && return
    now=$marker.$$
    touch -- "$now" 2>/dev/null || now=''
    [ "$(sum_of_all)" = "$sum" ] && { [ -z "$now" ] || touch -r "$now" -- "$marker"; }
    same=$?
    [ -z "$now" ] || rm -f -- "$now"
    return "$same"
}

# Notes in a file which folders have the sources of crates, and, as its time, when that was.
begin_marker() {
    find_folders
    echo "$folders" >"$1"
}

# Writes the marker of a program that was built since begin_marker wrote the file, unless a source changed after that.
end_marker() {
    find_folders
    sum=$(sum_of_all)
    [ -n "$sum" ] && [ "$folders" = "$(cat -- "$1")" ] && is_unchanged_since "$1" &&
        printf '%s\n' "$crates" "$folders" "$sum" >"$marker.$$" && touch -r "$1" -- "$marker.$$" && mv -f -- "$marker.$$" "$marker"
}
