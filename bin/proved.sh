# Whether a file under target/ is what the prover built from this checkout's files. bin/common.sh, bin/install, bin/test and rust/run read it; they
# set `root`. `rt` leaves what it builds in the crate's own folder out/, which its next run may empty: a program is kept as target/bin/NAME, an
# archive as target/staticlib/libNAME.a. Each product has a note, target/built/NAME: the digest of the files, the toolchain's identity, the
# product's digest. Dates play no part, since a copy may bring older ones.

# The digest of all files that a proof can depend on, with their names.
digest_files() {
    (cd "$root" && find -L crates crates.txt -path 'crates/*/out' -prune -o -type f -print0 | sort -z | xargs -0 -r sha256sum | sha256sum |
        cut -d ' ' -f 1)
}

digest() {
    sha256sum <"$1" | cut -d ' ' -f 1
}

# noted WORD NAME: what the note of NAME has after the word.
noted() {
    sed -n "s/^$1 //p" "$root/target/built/$2" 2>/dev/null || true
}

# The toolchain's identity; without a toolchain the noted one, since nothing can be proved then.
toolchain() {
    rt version 2>/dev/null || noted toolchain "$1"
}

# note FILES NAME PRODUCT: what the note says of a product of these files.
note() {
    printf 'files %s\ntoolchain %s\nproduct %s\n' "$1" "$(toolchain "$2")" "$(digest "$3")"
}

is_proved() {
    [ -f "$3" ] && [ -f "$root/target/built/$2" ] && [ "$(note "$@")" = "$(cat "$root/target/built/$2")" ]
}

# One start at a time proves. The toolchain inherits the lock: if it outlives a start that was killed, the next start waits for it. The caller's
# function `waiting` tells so.
lock() {
    local file=$root/target/refute.lock
    mkdir -p "$root/target/built"
    [ -e "$file" ] || : >"$file"
    exec 9<"$file"
    flock -n 9 && return
    waiting
    flock 9
}

# noting FILES NAME PRODUCT: writes the note of a product that was just made of these files.
noting() {
    if [ "$(digest_files)" != "$1" ]; then
        echo "a file under crates/ was changed while they were proved: start again" >&2
        return 1
    fi
    note "$@" >"$root/target/built/$2.new"
    mv "$root/target/built/$2.new" "$root/target/built/$2"
}

# ensure NAME PRODUCT COMMAND..: where the product is not the one of these files, it is made by the command, which calls `rt`.
ensure() {
    local name=$1 product=$2 files
    shift 2
    files=$(digest_files)
    if is_proved "$files" "$name" "$product"; then return; fi
    lock
    if ! is_proved "$files" "$name" "$product"; then
        "$@"
        noting "$files" "$name" "$product"
    fi
    exec 9<&-
}

# keep CRATE FILE PRODUCT: puts what `rt` left as crates/CRATE/out/FILE in the product's place.
keep() {
    mkdir -p "$(dirname "$3")"
    cp "$root/crates/$1/out/$2" "$3.$$"
    mv -f "$3.$$" "$3"
}

# take FILES CRATE: keeps the program that an `rt ci` over these files has just proved and built.
take() {
    lock
    keep "$2" "$2" "$root/target/bin/$2"
    noting "$1" "$2" "$root/target/bin/$2"
    exec 9<&-
}

# The archives with functions that C and Rust programs link, each by the name that it is linked by.
archives() {
    sed -n 's/^\([a-z0-9_]*\) staticlib *:.*/\1/p' "$root/crates.txt" | sed 's/_c$//' | sort
}

# archive NAME: proves the static library and puts its archive where C and Rust programs look for it. Where a library of that name is for Rattle
# programs, the archive is that of crate NAME_c.
archive() {
    local crate=$1
    ! grep -q "^$1_c staticlib" "$root/crates.txt" || crate=$1_c
    (cd "$root/crates/$crate" && rt lib) && keep "$crate" "lib$crate.a" "$root/target/staticlib/lib$1.a"
}
