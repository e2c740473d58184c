# How a face is compiled by itself, over the libraries that rt has proved. Sourced at the repository's top, behind tools/c/kit.sh and
# tools/progress.sh.

# compile_face CRATE TOOLCHAIN ARCHIVE: the crate is proved, and its module made by that toolchain's clang. $room/face.log has what is said.
compile_face() {
    crate=$1 toolchain=$2 archive=$3
    set --
    for below in $(sed -n "s/^$crate *staticlib *: *//p" crates.txt); do
        set -- "$@" --extern "$below=crates/$below/out/rlib/$below.rlib"
    done
    for below in $(crates_below "$crate"); do
        [ "$below" = "$crate" ] || set -- "$@" -L "dependency=crates/$below/out/rlib"
    done
    "$kit/bin/rattle" build --crate-name "$crate" "crates/$crate/src/lib.rt" \
        --extern "std=$kit/rlibs/std.rlib" -L "dependency=$kit/rlibs" "$@" \
        --antt-project "$kit/rattle/logic/antt-project.json" --logic-built "$kit/logic_built" --links "$crate=" \
        --crate-type staticlib --toolchain "$toolchain" --backend llvm -o "$archive" >"$room/face.log" 2>&1 || {
        cat "$room/face.log" >&2
        return 1
    }
}

# just_proved CRATE: whether the libraries below it are those that the rt ci of ./test has proved in this very run. They have no stamp
# then; where an earlier command had left its own, rt ci puts that back.
just_proved() {
    [ -n "${OVENLUTE_CI_BEGAN:-}" ] || return 1
    for below in $(crates_below "$1"); do
        [ "$below" != "$1" ] || continue
        made=crates/$below/out/rlib
        [ "$made/$below.rlib" -nt "$OVENLUTE_CI_BEGAN" ] && [ ! -e "$made/stamp" ] || return 1
    done
}
