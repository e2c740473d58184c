# How ./play and ./test prove: one at a time, and telling how far they are. Sourced at the repository's top, behind tools/c/kit.sh.

# take_target: target/ is this script's until it ends or leave_target; who comes second waits. What it starts shares it.
take_target() {
    [ -z "${OVENLUTE_TARGET_TAKEN:-}" ] || return 0
    exec 9<crates.txt
    flock -n 9 || {
        echo "$0: another ./play or ./test is proving in target/: waiting for it" >&2
        flock 9
    }
    OVENLUTE_TARGET_TAKEN=$$
    export OVENLUTE_TARGET_TAKEN
}

leave_target() {
    [ "${OVENLUTE_TARGET_TAKEN:-}" = $$ ] || return 0
    unset OVENLUTE_TARGET_TAKEN
    exec 9<&-
}

# crates_below NAME: the crates that have to be proved for NAME, itself among them; without a name all of them
crates_below() {
    awk -v wanted="${1:-}" '
        function visit(name,    k, n, below) {
            if (!(name in needs) || name in seen) return
            seen[name] = 1
            print name
            n = split(needs[name], below, " ")
            for (k = 1; k <= n; k++) visit(below[k])
        }
        { sub(/#.*/, "") }
        split($0, half, ":") == 2 { split(half[1], named, " "); needs[named[1]] = half[2] }
        END { if (wanted) visit(wanted); else for (name in needs) print name }
    ' crates.txt
}

# changed PROGRAM: it is not proved and built yet, or it, or the kit, has changed since
changed() {
    mark=target/$1.proved
    [ -e "target/bin/$1" ] && [ -e "$mark" ] || return 0
    # what rt itself writes lies in crates/*/out
    [ -n "$({ find crates -mindepth 2 -path 'crates/*/out' -prune -o -newer "$mark" -print; find crates.txt "$kit/KIT-ID" -newer "$mark"; } | head -n 1)" ]
}

# keep PROGRAM BEGAN: takes the program that rt has made of what there was when the file BEGAN was
keep() {
    mkdir -p target/bin
    cp "crates/$1/out/$1" "target/bin/$1"
    touch -r "$2" "target/$1.proved"
}

# program NAME ARGUMENT..: target/bin/NAME, proved and built by rt, which also runs it once, on these arguments
program() {
    built=$1
    shift
    : >"$room/began"
    proves "$(crates_below "$built" | wc -l)" "crates/$built" run -- "$@" || { cat "$room/log" >&2; return 1; }
    keep "$built" "$room/began"
}

# proves TOTAL FOLDER WORDS..: rt WORDS in that folder, and says on standard error how far it is, of TOTAL crates and edits, and how
# long it has taken: on a terminal in one line that is rewritten, with what is being done; otherwise in a line for each that is done.
# $room/log has all that rt said. rt's temporary files lie in the room too, which others must pass through where rt runs a program as
# nobody.
proves() {
    total=$1 folder=$2
    shift 2
    began=$(date +%s) told=0 finished=0 verb=$1
    chmod 711 "$room"
    : >"$room/log"
    (cd "$folder" && TMPDIR=$room exec setsid rt "$@") >"$room/log" 2>&1 9<&- &
    prover=$!
    while kill -0 "$prover" 2>/dev/null; do
        tell_progress
        sleep 1
    done
    proved=0
    wait "$prover" || proved=$?
    prover=
    tell_progress
    [ ! -t 2 ] || printf '\r\033[K' >&2
    return "$proved"
}

# What rt has said since it was last looked at: '1' before a line of a crate or an edit that is done, '0' before any other. rt ci says
# itself which crate is proved; else the last two lines of its check tell it.
tell_progress() {
    before=$told
    told=$(wc -l <"$room/log")
    awk -v before="$before" -v told="$told" -v verb="$verb" '
        NR > told { exit }
        /^crate [a-z0-9_]+: / { name = $2; sub(/:/, "", name) }
        NR <= before { next }
        verb != "ci" && /^logic=proved / { print 1, "rt: " name " proved" }
        verb != "ci" && /^logic=not-proved/ { print 1, "rt: " name " NOT PROVED" }
        verb != "ci" && /^rt: (chose |running |rt check |rt lemma |[a-z0-9_]+: begins with )/ { next }
        /^rt: ([a-z0-9_]+ (proved|NOT PROVED|is kept)|must-fail )/ { print 1, $0; next }
        /^rt: / { print 0, $0 }
    ' "$room/log" >"$room/lines"
    while read -r is_done line; do
        finished=$((finished + is_done))
        case $line in
        *' is kept: '*) ;;
        *) [ -t 2 ] || echo "$(so_far): ${line#rt: }" >&2 ;;
        esac
    done <"$room/lines"
    [ ! -t 2 ] || printf '\r\033[K%.*s' "$(($(columns) - 1))" "$(so_far)$(in_work)" >&2
}

so_far() {
    seconds=$(($(date +%s) - began))
    printf '%d of %d, %d min %02d s' "$finished" "$total" $((seconds / 60)) $((seconds % 60))
}

# the crates that rt's provers are at, where the system's ps tells them
in_work() {
    [ -n "$prover" ] || return 0
    ps -s "$prover" -o args= 2>/dev/null |
        sed -n 's|^[^ ]*/rattle [a-z]* --crate-name \([a-z0-9_]*\) .*|proving \1|p' |
        sort -u | awk '{ printf "%s%s", NR == 1 ? ": " : ", ", $0 }'
}

# how wide the terminal on standard error is
columns() {
    size=$(stty size <&2 2>/dev/null) || size=
    size=${size#* }
    [ "${size:-0}" -gt 0 ] 2>/dev/null && echo "$size" || echo 80
}
