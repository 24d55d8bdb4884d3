# Proves and builds a program or the static library. Its caller sets top, the folder of the repository; name, the crate; crate, its folder;
# program, the file to build, and marker, its marker; make, which is run for a program and lib for the library; look, how to try the program
# without a proof; and the functions say and fail. The caller has read tools/marker.sh.
. "$top/tools/jobs.sh"

# Returns whether this library is as `rt ci` proved it, and no source of it has changed since. Other commands of rt leave a stamp beside theirs.
is_proved_by_ci() (
    program=$top/crates/$1/out/rlib/$1.rlib/format
    marker=$top/crates/$1/out/$1.built
    [ ! -e "$top/crates/$1/out/rlib/stamp" ] && is_built
)

# Builds over the libraries that `rt ci` proved. They hold statements and no proofs, so the other commands of rt would prove them again: this
# calls rattle, with the words that rt has for it. Returns 0 if that built it, 1 if the crate is not proved or has an error, and else another
# status: then rt is to build it.
build_over_ci() (
    folder=$(cd -P -- "$top/crates" && pwd)
    set --
    for one in $crates; do
        if [ "$one" != "$name" ]; then
            is_proved_by_ci "$one" || return 2
            set -- "$@" -L "dependency=$folder/$one/out/rlib"
        fi
    done
    # Only rt knows what another word in that line means.
    grep -q "^$name\( staticlib\)\{0,1\}:" "$top/crates.txt" && kit=$(rt doc 2>/dev/null) && command -v flock >/dev/null || return 2
    kit=${kit%/*}
    for one in $(uses_of "$name"); do
        set -- "$@" --extern "$one=$folder/$one/out/rlib/$one.rlib"
    done
    set -- --crate-name "$name" --extern "std=$kit/rlibs/std.rlib" -L "dependency=$kit/rlibs" "$@" --links "$name=" --jobs "$(jobs_that_fit 4 2)" \
        --antt-project "$kit/rattle/logic/antt-project.json" --logic-built "$kit/logic_built" --incremental out/incremental_ci \
        --toolchain "$kit/toolchain" --backend llvm
    # A build by rt locks the folder, too.
    cd -- "$crate" && exec 9<. || return 2
    flock -n 9 || { echo 'rt: waiting for another rt' && flock 9; } || return 2
    echo "tools: proving $name"
    case $make in
    lib) "$kit/bin/rattle" build "$@" --crate-type staticlib -o "out/lib$name.a" src/lib.rt 2>&1 ;;
    run)
        "$kit/bin/rattle" build "$@" -o "out/$name.o" src/main.rt 2>&1 || return
        "$kit/bin/rattle-link" --target x86_64-unknown-linux-gnu --toolchain "$kit/toolchain" -o "out/$name" "out/$name.o" \
            "$kit/c/libos_c.a" "$kit/c/liblibc_c.a" 2>&1 || return 2
        ;;
    esac
)

# Each library that is not proved yet in its turn, lowest first, and then the crate itself. The kit runs a program that it has built:
# its words, and its status, say nothing of the build.
build_by_rt() {
    for one in $crates; do
        if [ "$one" != "$name" ] && [ ! -e "$top/crates/$one/out/rlib/stamp" ]; then
            (cd -- "$top/crates/$one" && rt lib 2>&1) || return
        fi
    done
    cd -- "$crate" || return
    case $make in
    run) rt run 2>&1 >/dev/null ;;
    lib) rt lib 2>&1 && echo "tools: built $name" ;;
    esac
}

prove_and_build() {
    status=0
    build_over_ci || status=$?
    case $status in
    0) echo "tools: built $name" ;;
    1) ;;
    *) build_by_rt ;;
    esac
}

# Reports each crate that starts, and another build in the way.
progress() {
    told=' '
    while IFS= read -r line; do
        case $line in
        'rt: waiting for another rt'*) say 'waiting for another build' ;;
        'rt: chose --jobs '* | 'tools: proving '*)
            place=0
            for one in $crates; do
                place=$((place + 1))
                case $told in
                *" $one "*) ;;
                *)
                    if [ "$one" = "${line##* }" ]; then
                        told="$told$one "
                        say "crate $place of $count: $one"
                    fi
                    ;;
                esac
            done
            ;;
        esac
    done
}

# Says how long the proof takes, by the functions in the crates that have none yet: 0.6 to 1.5 seconds each if nothing is kept, measured
# on four processors of a fast machine and of a slow one. Says also how to try the program meanwhile.
forecast() {
    set --
    for one in $crates; do
        if [ "$one" = "$name" ] || ! { [ -e "$top/crates/$one/out/rlib/stamp" ] || is_proved_by_ci "$one"; }; then
            set -- "$@" "$top/crates/$one/src"
        fi
    done
    functions=$(grep -rhE --include='*.rt' --exclude=tests.rt --exclude-dir=tests '^ *(pub(\([a-z]+\))? )?(const )?(extern "C" )?fn ' "$@" | wc -l)
    most=$(((functions * 15 + 599) / 600))
    case $most in
    0 | 1 | 2) duration='a minute or two' ;;
    *) duration="$(((functions * 6 + 599) / 600)) to $most minutes" ;;
    esac
    say "proving and building: $duration on four idle processors, less if earlier work is kept"
    [ -z "$look" ] || say "to try it meanwhile without a proof: cd $crate && $look"
}

crates=''
add_crate "$name"
count=0
for one in $crates; do
    count=$((count + 1))
done
unset CDPATH
log=$crate/out/build.log
begun=$crate/out/begun.$$
command -v rt >/dev/null || fail "rt not found; expected the kit's rt on PATH"
mkdir -p -- "$crate/out" 2>/dev/null && begin_marker "$begun" 2>/dev/null || fail "cannot write to $crate/out"
trap 'rm -f -- "$begun" "$log.$$"' EXIT
forecast
prove_and_build </dev/null | tee -- "$log.$$" | progress || true
mv -f -- "$log.$$" "$log"
if grep -q -e "^rt: running out/$name;" -e "^tools: built $name\$" "$log"; then
    end_marker "$begun" || say 'a source changed during the build, so the next call builds again'
    rm -f -- "$begun"
    trap - EXIT
else
    # Prints unproved functions and errors with their places, without functions that only call
    # these.
    grep -E '^note: src/.*it is not proved|: error(\[|:)|^fn .*: no proof: (expected|search)|^rt: the library .* did not build' "$log" | head -n 40 >&2 ||
        tail -n 5 "$log" >&2
    if grep -q '^logic=not-proved' "$log"; then
        fail "the proof failed, so nothing was built; see crates/$name/out/build.log"
    fi
    fail "the build failed; see crates/$name/out/build.log"
fi
