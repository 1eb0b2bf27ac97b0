# What the commands share that run a proved program, ./drill, ./least, ./split and ./absence. Such a command sets
# `here`, the folder of the tree, `name`, its own, `crate`, that of its program, and `takes`, how long it takes to
# prove, and takes this file in. `build_if_needed` proves and builds the program, on first use and where a crate has
# changed since; `$program` is where it stands then. What is said here goes to standard error.
program=$here/crates/$crate/out/$crate
built=$here/target/$name.built
log=$here/target/$name.log

say() {
    printf '%s: %s\n' "$name" "$1" >&2
}

refuse() {
    say "$1"
    exit 2
}

# The crates to prove, each after those that it builds on: those of crates.txt that the program's reaches, itself last.
list_crates() {
    awk -v program="$crate" '
        function reach(name,  needed, count, i) {
            if (!(name in needs) || (name in reached)) return
            reached[name] = 1
            count = split(needs[name], needed, " ")
            for (i = 1; i <= count; i++) reach(needed[i])
            print name
        }
        { sub(/#.*/, "") }
        sub(/:/, " ") { name = $1; $1 = ""; needs[name] = $0 }
        END { reach(program) }' "$here/crates.txt"
}

# prove CRATE: has rt prove it, over what is proved of those below. Of the program's crate rt links the program too, and
# runs it, which is of no use here: it gets no argument and no input, and its output and status are not looked at. The
# one that stands there goes first, so that where there is one it is a proved one. rt is kept from standard input, which
# is the program's.
prove() {
    cd "$here/crates/$1" || return
    if [ "$1" = "$crate" ]; then
        rm -f "$program"
        rt run >/dev/null || true
        [ -x "$program" ]
    else
        rt lib
    fi </dev/null 2>&1
}

# How many crates are proved: on a terminal in one line that is written anew, elsewhere in a line for each.
show_progress() {
    if [ -t 2 ]; then
        printf '\r%s: %s of %s crates proved' "$name" "$1" "$2" >&2
    elif [ "$1" -gt 0 ]; then
        say "$1 of $2 crates proved: $3"
    fi
}

# The stamp has the time of the beginning, so that a change made meanwhile is seen. It gets its name only where rt has
# succeeded, so that nothing is taken for built that failed or was interrupted.
build() {
    if ! command -v rt >/dev/null; then
        say "the program is not built, and rt, which proves and builds it, is not on the path (README.md, 'Run it')"
        exit 1
    fi
    say "proving and building the program, once; this takes $takes"
    mkdir -p "$here/target"
    touch "$built.next"
    : >"$log"
    # shellcheck disable=SC2046
    set -- $(list_crates)
    all=$#
    proved=0
    show_progress 0 "$all"
    for each in "$@"; do
        if ! (prove "$each") >>"$log"; then
            [ ! -t 2 ] || echo >&2
            say "it was not proved or not built; the log, target/$name.log, ends with"
            tail -n 15 "$log" >&2
            exit 1
        fi
        proved=$((proved + 1))
        show_progress "$proved" "$all" "$each"
    done
    [ ! -t 2 ] || echo >&2
    mv "$built.next" "$built"
}

# A folder is newer where a source in it has gone.
build_if_needed() {
    if [ ! -x "$program" ] || [ ! -e "$built" ] ||
        [ -n "$(find "$here/crates.txt" "$here"/crates/*/src "$here"/crates/*/specs "$here"/crates/*/proofs \
            -newer "$built" -print | head -n 1)" ]; then
        build
    fi
}
