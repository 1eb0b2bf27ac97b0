# What the checks of this folder share, check_drill and the like, which take this file in: a folder for what a check
# makes, and the words that they are written in. A check that fails is told, and the next goes on; `finish` fails if any
# did.
room=$(mktemp -d)
trap 'rm -rf "$room"' EXIT
out=$room/out err=$room/err
failed=0

# wrong TEXT: the check failed; what the command said is shown below.
wrong() {
    echo "${0##*/}: $check: $1" >&2
    head -n 20 "$err" | cut -c 1-200 | sed 's/^/    /' >&2
    failed=1
}

# run CHECK STATUS COMMAND..: the command, its output in $out and $err. It has to end by itself, with this status.
run() {
    check=$1
    local wanted=$2 status=0
    shift 2
    timeout 60 "$@" >"$out" 2>"$err" || status=$?
    [ "$status" -eq "$wanted" ] || wrong "status $status instead of $wanted"
}

prints() {
    cmp -s "$out" "$1" || wrong "standard output is not $1"
}

prints_nothing() {
    [ ! -s "$out" ] || wrong "it writes to standard output"
}

says_nothing() {
    [ ! -s "$err" ] || wrong "it writes to standard error"
}

# says TEXT: this stands in some line of standard error.
says() {
    grep -qF -- "$1" "$err" || wrong "standard error does not have: $1"
}

says_one_line() {
    [ "$(wc -l <"$err")" -eq 1 ] || wrong "standard error is not one line"
}

# Words for a command that answers its arguments in one line, as ./least and ./split do. Its check sets `name`, that of
# the command, and `crate`, that of its program.

# answers TEXT ARGUMENTS..: it prints this line.
answers() {
    local text=$1
    shift
    run "./$name $*" 0 "./$name" "$@"
    echo "$text" >"$room/answer"
    prints "$room/answer"
    says_nothing
}

# refuses TEXT ARGUMENTS..: it prints nothing and says one line, in which this stands.
refuses() {
    local text=$1
    shift
    local words=$*
    run "./$name ${words:0:60}" 2 "./$name" "$@"
    prints_nothing
    says "$text"
    says_one_line
}

# proves_itself TEXT ARGUMENTS..: it prints this line at first use over what is proved. It proves what is not, and may
# take its time.
proves_itself() {
    local text=$1
    shift
    check="first use over what is proved"
    rm -f "target/$name.built"
    "./$name" "$@" >"$out" 2>"$err" || wrong "status $?"
    echo "$text" >"$room/answer"
    prints "$room/answer"
    tail -n 1 "$err" | grep -qxE "$name: ([0-9]+) of \1 crates proved: $crate" ||
        wrong "the last line does not say that all crates are proved"
}

# helps TEXT: it has help of ten lines at most, whose example prints this line.
helps() {
    local option example
    for option in -h --help; do
        run "$option" 0 "./$name" "$option"
        says_nothing
        [ "$(wc -l <"$out")" -le 10 ] || wrong "it prints more than ten lines"
    done
    example=$(sed -n 's/^Example: //p' "$out")
    run "the example of -h" 0 sh -c "${example:-false}"
    echo "$1" >"$room/answer"
    prints "$room/answer"
}

# fails_quietly ARGUMENTS..: it does so where standard output is closed.
fails_quietly() {
    local status=0
    check="a closed standard output: ./$name $*"
    "./$name" "$@" >&- 2>"$err" || status=$?
    [ "$status" -eq 1 ] || wrong "status $status instead of 1"
    says_nothing
}

# starts_anywhere ARGUMENTS..: first use in a copy, by a link and from another folder, over an rt that makes a program
# which prints its arguments.
starts_anywhere() {
    local copy=$room/copy
    mkdir -p "$copy"/crates/one/{src,specs,proofs} "$copy/crates/$crate/src" "$copy/bin"
    cp -r "$name" tools "$copy"
    printf 'one:\n%s: one io\nother: one\n' "$crate" >"$copy/crates.txt"
    cat >"$copy/bin/rt" <<RT
#!/bin/sh
case "\$*, \${PWD##*/}" in
    'lib, one') ;;
    'run, $crate')
        mkdir -p out
        printf '#!/bin/sh\necho "\$@"\n' >out/$crate
        chmod +x out/$crate
        ;;
    *) exit 1 ;;
esac
RT
    chmod +x "$copy/bin/rt"
    ln -s "$copy/$name" "$room/link"
    echo "$*" >"$room/answer"
    run "first use" 0 env -C "$room" PATH="$copy/bin:$PATH" ./link "$@"
    prints "$room/answer"
    says "$name: 2 of 2 crates proved: $crate"
    run "second use" 0 env -C "$room" ./link "$@"
    prints "$room/answer"
    says_nothing
}

# finish TEXT: the end of the checks; the text is what they have shown.
finish() {
    [ "$failed" -eq 0 ] || exit 1
    echo "$1"
}
