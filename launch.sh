# What the launchers have in common: a program is proved and built first where a source is newer, and a signal to the launcher ends what it has started.
# Sourced, by a script that has set: name, the program's; root, this file's folder; first, what the program is run on once it is built.
program=$root/crates/$name/out/$name
job='' room='' made=''

die() { printf '%s: %s\n' "$name" "$*" >&2; exit 2; }

check_streams() {
    (exec 3<&0) 2>/dev/null || die "standard input is closed"
    (exec 3>&1) 2>/dev/null || die "standard output is closed"
}

make_room() { room=$(mktemp -d) || die "no room for temporary files"; }
clear_room() {
    [ -z "$room" ] || rm -rf "$room"
    room=''
}
trap clear_room EXIT

# A signal to this shell ends what it has started, which does not hear Ctrl-C in the background.
end() { # end PID: with all below it; stopped first, so that it starts nothing more
    kill -s STOP "$1" 2>/dev/null
    for child in $(ps -A -o ppid= -o pid= 2>/dev/null | awk -v above="$1" '$1 == above { print $2 }'); do end "$child"; done
    kill "$1" 2>/dev/null
    kill -s CONT "$1" 2>/dev/null
}
stop() { # stop SIGNAL
    trap - "$1"
    [ -z "$job" ] || end "$job"
    [ -z "$made" ] || rm -f "$made"
    clear_room
    kill -s "$1" $$
}
attend() { # attend COMMAND..: runs it and hears signals meanwhile; its standard input is this shell's 4
    "$@" <&4 &
    job=$!
    wait "$job"
    set -- $?
    job=''
    return "$1"
}

# what the program is built from, with all that its crates rest on, and is newer than it
newer() {
    todo=$name seen=' '
    while [ -n "$todo" ]; do
        next=''
        for crate in $todo; do
            case $seen in *" $crate "*) continue ;; esac
            seen="$seen$crate "
            next="$next $(sed -n "s/^$crate://p" "$root/crates.txt")"
        done
        todo=$next
    done
    for crate in $seen; do
        for part in "$root/crates/$crate"/*; do
            case ${part##*/} in out | must-fail) continue ;; esac
            [ ! -e "$part" ] || find "$part" -newer "$program" -print
        done
    done
    find "$root/crates.txt" -newer "$program"
}

# rt leaves a program in out/ only once it is proved. Of what rt prints, a line a crate; all of it where something is not proved.
build() {
    command -v rt >/dev/null 2>&1 || die "needs the Rattle kit's rt on PATH"
    make_room
    : >"$room/began" && printf "$first" >"$room/first" && mkfifo "$room/said" || die "no room for temporary files"
    printf '%s: proving and building the program; from nothing this takes some minutes\n' "$name" >&2
    (cd "$root/crates/$name" && exec rt run) <"$room/first" >"$room/said" 2>&1 &
    job=$! made=$program
    crate=$name
    while IFS= read -r line || [ -n "$line" ]; do
        printf '%s\n' "$line" >>"$room/all"
        case $line in
        'crate '*': '*) crate=${line#crate } crate=${crate%%:*} ;;
        'logic=proved '*) printf '%s: %s proved\n' "$name" "$crate" >&2 ;;
        esac
    done <"$room/said"
    if wait "$job" && [ -x "$program" ]; then
        # an edit during the check is newer than the program
        touch -r "$room/began" "$program"
        clear_room
        job='' made=''
    else
        cat "$room/all" >&2
        rm -f "$program"
        die "the program is not proved, so it is not run"
    fi
}

# makes the program if it has to be
make_ready() {
    for signal in HUP INT QUIT TERM; do trap "stop $signal" "$signal"; done
    if [ ! -x "$program" ] || [ -n "$(newer | head -n 1)" ]; then build; fi
}
