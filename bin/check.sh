# What bin/refute and bin/refute-drat do, each of which sets `name` and `form` (r, records, or t, DRAT text): runs the proved program, passes its
# line on and ends with the line's status. A Rattle program cannot end with a status of its own, so the line's number is read here.
. "$(dirname "$(readlink -f "${BASH_SOURCE[0]}")")/common.sh"

usage() {
    local picture="
  --picture FILE  draw the diagram of the record at fault (SVG)" options='[-q] [-s] [--why] [--picture FILE] [--consequence | --twice]' proof="records" binary= twice="
  --twice        check by truth table too, which must answer the same: at most six variables"
    if [ "$name" = refute-drat ]; then
        options='[-q] [-s] [--why] [--binary] [--consequence]' proof="a DRAT text" twice= picture=
        binary="
  --binary       the proof is binary DRAT"
    fi
    echo "usage: $title $options FORMULA PROOF
  FORMULA  DIMACS CNF, at most 65,536 bytes    PROOF  $proof, at most 65,536 bytes$binary
  --consequence  accept a line only if it follows from the formula: no PR line, no RAT clause$twice
  --why          tell why a proof is refused: the piece at fault, and the cause$picture
  -s             print 's VERIFIED' or 's NOT VERIFIED' after the line
  -q             no words beside the line
  --version      print what runs here; --help  print this
Prints 'number place lines rounds peak'. Number 0: refuted, no assignment satisfies the formula. $manual tells every other number.
Status: 0 refuted, 1 refused, 2 a file was not taken, wrong use, --help or --version, 3 no line could be written."
}

consequence='' verified='' twice='' why='' picture='' asked=
while [ $# -gt 0 ]; do
    case $name:$1 in
    *:-q) quiet=1 ;;
    *:-s) verified=1 ;;
    *:--consequence) consequence=c ;;
    refute-drat:--binary) form=b ;;
    refute:--twice) twice=1 ;;
    *:--why) why=1 ;;
    refute:--picture)
        [ $# -gt 1 ] || { usage >&2 || true; end 2; }
        picture=$2
        shift
        ;;
    *:--version) asked=version ;;
    *:--help) usage; end 2 ;;
    *:--) shift; break ;;
    *:-*) usage >&2 || true; end 2 ;;
    *) break ;;
    esac
    shift
done
[ $# -le 2 ] && [ -z "$twice" -o -z "$consequence" ] || { usage >&2 || true; end 2; }

# The program of the form and profile; the two that 01 and 02 name are programs of their own.
case $form$consequence in
r) crate=refute ;;
t) crate=refute_drat ;;
*) crate=refute_in ;;
esac
[ -z "$asked" ] || version "$crate"
need "$crate"

# run [FORMULA [PROOF]]: a name that is not given is empty, which is no file, so that the mode keeps its place.
run() {
    local file names=()
    for file in "$@"; do
        named "$file"
        names+=("$named")
    done
    if [ "$crate" = refute_in ]; then
        "$program" "${names[0]-}" "${names[1]-}" "$form$consequence"
    else
        "$program" "${names[@]}"
    fi
}

# The line, whole and of its form, or nothing at all.
line=$(run "$@") || line=
if ! [[ $line =~ ^([0-9]+)\ ([0-9]+)(\ [0-9]+){3}$ ]]; then
    tell "$title: the program gave no line"
    exit
fi
number=${BASH_REMATCH[1]} place=${BASH_REMATCH[2]}

# The second method: truth tables, no nodes. It has no table that could be full, so that 8 and 23 have no second opinion.
if [ -n "$twice" ] && [[ $number != @(8|23|24|25) ]]; then
    if [ ! -f "$1" ] || [ ! -f "$2" ]; then
        tell "$title: --twice reads both files twice: they must be plain files"
        end 2
    fi
    need_small
    second=$("$small" "$1" "$2" 2>/dev/null) || true
    if [[ $second == "2 "* && $number != 2 ]]; then
        tell "$title: --twice is for formulas of at most six variables"
        end 2
    elif [ "$second" != "${line% *}" ]; then
        tell "$title: the two methods disagree: '$line' over diagrams, '$second' by truth table"
        exit
    fi
fi
if [ -n "$verified" ]; then
    verified=$'\n''s NOT VERIFIED'
    [ "$number" != 0 ] || verified=$'\n''s VERIFIED'
fi
if ! printf '%s\n' "$line$verified" 2>/dev/null; then
    tell "$title: the line could not be written"
    exit
fi
case $number in
0) end 0 ;;
24 | 25) status=2 ;;
*) status=1 ;;
esac

# Why it is refused, by a program that calls the proved library once more.
explain() {
    local ended=0
    [ -n "$why$picture" ] && [ "$status" = 1 ] || return 0
    if [ ! -f "$1" ] || [ ! -f "$2" ]; then
        tell "$title: --why reads both files again: they must be plain files"
        return
    fi
    need_why
    "$explainer" "$form$consequence" "$1" "$2" ${picture:+"$picture"} || ended=$?
    case $ended in
    1) ;;
    3) status=3 ;;
    *) tell "$title: the files are no longer those that were checked" ;;
    esac
}
if [ -n "$quiet" ]; then
    explain "$@"
    exit
fi

# Whether a file can be seen to be the one that 24 or 25 is about; the line does not say which it was.
is_the_one() {
    if [ "$number" = 24 ]; then
        [ -f "$1" ] && [ "$(wc -c <"$1")" -gt 65536 ]
    else
        [ ! -e "$1" ] || [ -d "$1" ] || [ ! -r "$1" ]
    fi
}

# The file that 3, 4 or 6 is about, which a DRAT proof can be too: where it is the formula, an empty proof gets the same line. A formula that is
# no plain file cannot be read again, and then it is neither.
either() {
    if [ ! -f "$1" ]; then
        return 0
    elif [ "$(run "$1" /dev/null)" = "$line" ]; then
        echo formula
    else
        echo proof
    fi
}

# Which of the two files the refusal is of: formula, proof, or neither if it cannot be seen.
case $form:$number in
*:[1258]) which=formula ;;
r:[346] | b:3) which=formula ;;
*:[346]) which=$(either "$@") ;;
*:2[45])
    which=
    if is_the_one "${1-}"; then
        which=formula
    elif is_the_one "${2-}"; then
        which=proof
    fi
    ;;
*) which=proof ;;
esac

# Which file and which byte of it.
case $number:$which in
2[45]:formula) at=", ${1:-no formula is named}" ;;
2[45]:proof) at=", ${2:-no proof is named}" ;;
2[45]:) at= ;;
*:formula) at=" at byte $place of $1" ;;
*:proof) at=" at byte $place of $2" ;;
*) at=" at byte $place of $1 or of $2" ;;
esac

# What may help: names in the wrong order, a file of another form.
more=
case $number:$which in
1:formula)
    more=$(hint formula "$1")
    if [ -f "$2" ] && grep -aq '^p[[:blank:]]*cnf' -- "$2"; then
        more="$more The second file has one: are the two names in the wrong order?"
    fi
    ;;
5:formula)
    if [ -f "$1" ] && [ "$(tail -c "+$((place + 1))" -- "$1" | head -c 1)" = % ]; then
        more=" Files of SATLIB close with '%' and '0': leave these two lines out."
    fi
    ;;
3:proof | 4:proof | 6:proof | 9:proof | 31:proof) more=$(hint "$form" "$2") ;;
esac
tell "refused: $number$at: $(sentence "$number")$more"
explain "$@"
