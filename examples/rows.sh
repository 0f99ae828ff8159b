# What examples/test-program, test-forms, test-start and test-install share: each sets `test` (its name) and reads this file at the root of
# the repository. `command` is what a row starts, `out` a folder for its files.
rows=0
command=bin/refute
out=$PWD/rust/target/program/$test
rm -rf "$out"
mkdir -p "$out"

wrong() {
    echo "examples/$test: $*" >&2
    exit 1
}

# says STATUS LINE [ARGUMENT..]: what the command prints on standard output, and its status.
says() {
    local status=$1 wanted=$2 said ended=0
    shift 2
    said=$("$command" "$@" 2>"$out/words") || ended=$?
    [ "$said" = "$wanted" ] && [ "$ended" = "$status" ] ||
        wrong "$command $*: '$said' with status $ended, not '$wanted' with status $status; words: $(cat "$out/words")"
    rows=$((rows + 1))
}

# told WORDS: what the last call wrote to standard error.
told() {
    [ "$(cat "$out/words")" = "$1" ] || wrong "words: '$(cat "$out/words")', not '$1'"
}

# hinted WORDS: how the last call's words end.
hinted() {
    [[ $(cat "$out/words") == *" $1" ]] || wrong "words: '$(cat "$out/words")', without '$1'"
}

bytes() {
    printf "$(tr -d ' ' <<<"$1" | sed 's/../\\x&/g')"
}

# As another user where the test is run by root, who may read and write everything.
other() {
    if [ "$(id -u)" = 0 ]; then
        setpriv --reuid=65534 --regid=65534 --clear-groups --no-new-privs "$@"
    else
        "$@"
    fi
}
