# Builds and installs the library, and counts tests. The scripts in tests/ that read it are in the
# folder of the repository, and end with `ended`. With the argument --cargo, or without the kit, the
# library is Cargo's.

work=$(mktemp -d)
trap 'rm -rf -- "$work"' EXIT
passed=0
failed=0
left_out=0

has() { command -v "$1" >/dev/null 2>&1; }

without() {
    left_out=$((left_out + 1))
    echo "$1: left out, as there is no $2"
}

# Runs a test: its name, the tool that it needs, and the call, which returns 77 without the tool.
passes() {
    local name=$1 tool=$2 status=0
    shift 2
    "$@" || status=$?
    case $status in
    0) passed=$((passed + 1)) ;;
    77) without "$name" "$tool" ;;
    *) failed=$((failed + 1)); echo "$name: failed" >&2 ;;
    esac
}

# Checks that a call prints this file. It may exit with any status.
prints() {
    { "${@:2}" >"$work/printed" || true; } && diff "$1" "$work/printed"
}

ended() {
    echo "$1: $passed passed, $failed failed, $left_out left out"
    [ "$failed" -eq 0 ]
}

compiler=
for name in cc gcc clang; do
    if [ -z "$compiler" ] && has "$name"; then
        compiler=$name
    fi
done
archive="$work/in stalled/lib/libfotsevindre.a"
builder=()
if [ "${1:-}" = --cargo ]; then
    builder=(--cargo)
fi
warnings=(-Wall -Wextra -pedantic -Wconversion -Wsign-conversion -Werror)

# Prefers a Python with numpy, pandas and mypy.
PYTHON=python3
for python in /usr/bin/python3 python3; do
    if has "$python" && "$python" -c 'import numpy, pandas, mypy' 2>/dev/null; then
        PYTHON=$python
    fi
done
export PYTHON

# Builds the archive, or with a compiler installs everything: with options in CC, staged, and then
# moved into a folder with a space in its name.
install_all() {
    if [ -n "$compiler" ]; then
        CC="$compiler -pipe" DESTDIR=$work/staged clients/packaging/install "${builder[@]}" '/usr/some where' && mv "$work/staged/usr/some where" "$work/in stalled"
    else
        (cd crates/cal_c && rt lib)
    fi
}
install_all >"$work/build" 2>&1 || { cat "$work/build" >&2; exit 1; }
