# The benchmark for a machine that the kit does not compile for: the module that rattle hands its clang, turned to the
# machine and compiled there, and the C sides by the same clang. Sourced by run, which has taken a room, behind tools/c/kit.sh,
# tools/progress.sh and tools/archive/face.sh.
# MACHINE, CC and START name another machine's kind, linker and emulator, to try this without one.
machine=${MACHINE:-$(uname -m)}
target=$machine-unknown-linux-gnu

link() {
    program=$1
    shift
    "${CC:-cc}" -o "$program" "$@"
}

start() {
    ${START:-} "$@"
}

# A toolchain like the kit's, but for a clang that keeps a copy of the module it is given.
listening_toolchain() {
    mkdir -p "$room/toolchain/bin"
    ln -s "$tools"/* "$room/toolchain/" 2>/dev/null || :
    ln -s "$tools"/bin/* "$room/toolchain/bin/"
    rm "$room/toolchain/bin/clang"
    {
        echo '#!/bin/sh'
        echo "cp module.bc '$room/module.bc'"
        echo "exec '$tools/bin/clang' \"\$@\""
    } >"$room/toolchain/bin/clang"
    chmod +x "$room/toolchain/bin/clang"
}

# module FACE: its module, in a form that can be read; the crate is proved again, over the libraries that tools/archive/run has proved.
module() {
    compile_face "$1_c" "$room/toolchain" "$room/listened.a"
    "$tools/bin/clang" --target=x86_64-unknown-linux-gnu -O0 -Xclang -disable-llvm-passes -S -emit-llvm -x ir \
        "$room/module.bc" -o "$room/module.ll"
}

# Sets box: the two faces that are timed. A struct that is too large for registers is passed as x86-64 does it, so native.c stands
# between.
box_for_this_machine() {
    listening_toolchain
    for face in ovenlute who; do
        module "$face"
        sed -e 's/^target triple = .*/target triple = "'"$target"'"/' -e '/^target datalayout = /d' \
            -e 's/"target-cpu"="[^"]*"//; s/"probe-stack"="[^"]*"//' -e 's/@ovenlute_fresh(/@box_fresh(/' \
            -e 's/@ovenlute_who(/@box_who(/; s/ byval([^)]*) align [0-9]*//' "$room/module.ll" >"$room/native.ll"
        "$tools/bin/clang" --target="$target" -O3 -fPIC -c -x ir "$room/native.ll" -o "$room/box_$face.o"
    done
    compile tools/bench/native.c "$room/native.o"
    "$tools/bin/llvm-ar" rc "$room/box.a" "$room/box_ovenlute.o" "$room/box_who.o" "$room/native.o"
    box=$room/box.a
}
