# The body of the scripts that run a program of this repository. They set top, the folder of the repository; name, the name of the program
# and of its crate; look, how to try it without a proof from the crate's folder; and hint, what is said if standard input is a terminal.
#
# The first time, and when one of its sources has changed, the program is proved and built before. Standard input, standard output,
# arguments and the status are the program's; all else goes to standard error.

crate=$top/crates/$name
program=$crate/out/$name
marker=$crate/out/$name.built

say() {
    echo "$name: $*" >&2
}

fail() {
    say "$@"
    exit 1
}

. "$top/tools/marker.sh"
if ! is_built; then
    make=run
    . "$top/tools/build.sh"
fi
if [ -n "$hint" ] && [ -t 0 ]; then
    say "$hint"
fi
exec "$program" "$@"
