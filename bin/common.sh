# What bin/refute, bin/refute-drat and bin/drat-convert share. Each sets `name` (its own) and ends, whatever happens, with `status`, which is 3
# until a line is written. It runs from a checkout, where what is missing is proved and built, and where bin/install has put it.
set -euo pipefail
export LC_ALL=C
here=$(dirname "$(readlink -f "${BASH_SOURCE[0]}")")
quiet=

tell() {
    echo "$*" >&2 || true
}

# end STATUS
end() {
    status=$1
    exit
}

if [ -d "$here/programs" ]; then
    title=$name programs=$here/programs manual="man $name"

    # need CRATE: the proved program, which stands ready.
    need() {
        program=$programs/$1
    }

    # need_small: the program of the check by truth table, `small`.
    need_small() {
        small=$programs/terminal
    }

    # need_why: the program that tells why a proof is refused, `explainer`.
    need_why() {
        explainer=$programs/refute-why
    }

    identity() {
        cat "$here/identity"
    }
else
    title=bin/$name root=$(cd "$here/.." && pwd) manual=docs/OPERATING.md
    programs=$root/target/bin
    . "$here/proved.sh"

    waiting() {
        [ -n "$quiet" ] || tell "$title: another start is proving; waiting for it"
    }

    # How many crates of the repository a program stands on, itself among them.
    crates() {
        awk -v program="$1" '
            { sub(/#.*/, "") } match($0, /:/) { split($0, words, /[ \t:]+/); under[words[1]] = substr($0, RSTART + 1) }
            function reach(name, k, i, names) {
                if (!(name in under) || seen[name]++) return
                count++
                k = split(under[name], names, " ")
                for (i = 1; i <= k; i++) reach(names[i])
            }
            END { reach(program); print count + 0 }' "$root/crates.txt"
    }

    # Proves and builds a program; tells each crate that is proved on the way. What rt says is kept in a file, and its last lines are told where it
    # fails: the file may have found no room. `rt run` also runs what it built, with no argument.
    build() {
        local said last=() kept=1 ended=1 crate='' log=$root/target/$1.out
        [ -n "$quiet" ] || tell "$title: proving and building the program, $(crates "$1") crates; from nothing this takes long"
        : >"$log" || kept=
        while IFS= read -r said; do
            if [[ $said =~ ^ended\ with\ ([0-9]+)$ ]]; then
                ended=${BASH_REMATCH[1]}
                continue
            fi
            printf '%s\n' "$said" 2>/dev/null >>"$log" || kept=
            last+=("$said")
            [ "${#last[@]}" -le 20 ] || last=("${last[@]:1}")
            if [[ $said =~ ^crate\ ([a-z_0-9]+):\  ]]; then
                crate=${BASH_REMATCH[1]}
            elif [[ $said == logic=proved* ]] && [ -z "$quiet" ] && [ "$crate" != "$1" ]; then
                tell "$title: $crate is proved"
            fi
        done < <(cd "$root/crates/$1" && { rt run </dev/null 2>&1 && echo "ended with 0" || echo "ended with $?"; })
        [ "$ended" = 0 ] && keep "$1" "$1" "$program" && return
        printf '%s\n' "${last[@]}" >&2 || true
        if [ -n "$kept" ]; then
            tell "$title: not built; target/$1.out says why"
        else
            tell "$title: not built; what rt says could not be written to target/$1.out: is the disk full?"
        fi
        exit
    }

    # need CRATE: the proved program, made first where it is not the one of this checkout's files.
    need() {
        program=$programs/$1
        ensure "$1" "$program" build "$1"
    }

    # staticlib NAME: the archive for C and Rust, proved. What rt says is told where it fails.
    staticlib() {
        local log=$root/target/$1.out
        [ -n "$quiet" ] || tell "$title: proving and building the archive of $1"
        archive "$1" >"$log" 2>&1 || { tail -n 20 "$log" >&2; tell "$title: not built; target/$1.out says why"; exit; }
    }

    # need_small: the program of the check by truth table, `small`: examples/c/terminal.c over its proved archive.
    need_small() {
        local archive=$root/target/staticlib/libsmall_export.a
        ensure libsmall_export.a "$archive" staticlib small_export
        small=$root/target/terminal
        cc -std=c11 -O2 -I"$root/include" "$root/examples/c/terminal.c" "$archive" -o "$small.$$"
        mv -f "$small.$$" "$small"
    }

    # need_why: the program that tells why a proof is refused, `explainer`: rust/explain over the proved archive.
    need_why() {
        explainer=$root/rust/target/release/refute-why
        "$root/rust/run" explain || { tell "$title: refute-why is not built"; exit; }
    }

    identity() {
        local commit changed=
        echo "version $(cat "$root/VERSION")"
        if commit=$(git -C "$root" rev-parse --short=12 HEAD 2>/dev/null); then
            [ -z "$(git -C "$root" status --porcelain 2>/dev/null)" ] || changed=" with changes"
            echo "commit $commit$changed"
        fi
        echo "files $(digest_files)"
        echo "toolchain $(rt version 2>/dev/null || echo none)"
    }
fi

# named NAME: sets `named` to a name that a program can open. A program reads names in UTF-8 alone: a file of any other name is opened here, and named
# by its descriptor.
named() {
    local descriptor
    named=$1
    if [[ $1 == *[$'\x80'-$'\xff']* ]] && ! iconv -f UTF-8 -t UTF-8 <<<"$1" >/dev/null 2>&1 && [ -r "$1" ]; then
        exec {descriptor}<"$1"
        named=/dev/fd/$descriptor
    fi
}

# What runs here, so that two results can be known to be of one checker. It ends with 2, since 0 is kept for what is shown.
version() {
    local file
    echo "$title of Cablesalak"
    identity
    for file in "$@"; do
        if [ -f "$programs/$file" ]; then
            echo "program $file $(sha256sum <"$programs/$file" | cut -d ' ' -f 1)"
        else
            echo "program $file is not built yet"
        fi
    done
    end 2
}

# sentence NUMBER: the number in words, as docs/OPERATING.md has them.
sentence() {
    sed -n "s/^$1 //p" "$here/words.txt" || true
}

# What a file looks like by its bytes: compressed, mark (a byte order mark), frat, binary (DRAT), text (DRAT), records; nothing where it cannot
# be told or read again. A guess for a hint, which decides nothing.
look() {
    local first
    [ -f "$1" ] && [ -s "$1" ] || return 0
    first=$(head -c 6 -- "$1" | od -An -v -tx1 | tr -d ' \n')
    case $first in
    1f8b* | fd377a585a00 | 425a68* | 28b52ffd*) echo compressed ;;
    efbbbf* | fffe* | feff*) echo mark ;;
    6f*) echo frat ;;
    6[14]*[0-9a-f]) if [ "$(tr -cd '\0' <"$1" | head -c 1 | wc -c)" = 1 ]; then echo binary; else is_text "$1"; fi ;;
    4[4-6be]* | 5[0-248]*) echo records ;;
    *) is_text "$1" ;;
    esac
}

is_text() {
    grep -qavE '^(c.*|[-0-9d[:blank:]]*)'$'\r''?$' -- "$1" || echo text
}

# hint FORM FILE: words for a file that is not of the form r, t or b (records, DRAT text, binary DRAT).
hint() {
    case $1:$(look "$2") in
    *:compressed) echo " It is compressed: name <(zcat FILE), or what unpacks it, in its place." ;;
    *:mark) echo " It begins with a byte order mark: save it without one." ;;
    [rtb]:frat) echo " It looks like FRAT: keep its added and deleted clauses alone, without their numbers and hints." ;;
    r:text) echo " It looks like DRAT text, which refute-drat reads." ;;
    r:binary) echo " It looks like binary DRAT, which refute-drat --binary reads." ;;
    t:binary) echo " It looks like binary DRAT, which --binary reads." ;;
    b:text) echo " It looks like DRAT text: leave out --binary." ;;
    [tb]:records) echo " It looks like records, which refute reads." ;;
    esac
}
