# What the scripts share: a room that goes with them, and the kit's clang, linker and emulator. Sourced at the repository's top.
command -v rt >/dev/null 2>&1 || {
    echo "$0: there is no rt on the path: put the Rattle kit's bin folder there" >&2
    exit 2
}
target=x86_64-unknown-linux-gnu
rt=$(readlink -f "$(command -v rt)")
kit=${RATTLE_HOME:-$(dirname "$(dirname "$rt")")}
tools=$kit/toolchain
emulator=$tools/bin/qemu-x86_64
[ -x "$emulator" ] || emulator=

# take_room: a temporary folder, $room, that is removed when the script ends, also where it is interrupted
prover=
take_room() {
    room=$(mktemp -d)
    trap 'leave_room' EXIT
    trap 'exit 129' HUP
    trap 'exit 130' INT
    trap 'exit 143' TERM
}

# The prover that tools/progress.sh started, if there is one, ends with it.
leave_room() {
    if [ -n "$prover" ]; then
        kill -s TERM -- "-$prover" 2>/dev/null || :
        wait "$prover" 2>/dev/null || :
    fi
    rm -rf "$room"
}

# compile SOURCE OBJECT [FLAG...]
compile() {
    source=$1 object=$2
    shift 2
    "$tools/bin/clang" --target=$target -std=c99 -pedantic -O2 -Wall -Wextra -Werror \
        -nostdinc -isystem tools/c/include -I include -I reference -I tools/c "$@" -c "$source" -o "$object"
}

# link PROGRAM OBJECT...; the linker's words are shown when it fails
link() {
    program=$1
    shift
    "$kit/bin/rattle-link" --target $target --toolchain "$tools" -o "$program" "$@" >"$program.log" 2>&1 || {
        cat "$program.log" >&2
        return 1
    }
}

# The archive that C links, or the one that BOX names.
box=${BOX:-target/archive/libovenlute.a}

need_box() {
    [ -e "$box" ] || { echo "There is no $box: tools/archive/run makes the archive." >&2; exit 1; }
}

# start PROGRAM [ARGUMENT...]
start() {
    ${emulator:+"$emulator"} "$tools/lib/ld-linux-x86-64.so.2" --library-path "$tools/lib" "$@"
}
