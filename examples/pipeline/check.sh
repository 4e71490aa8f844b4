#!/bin/sh
# check.sh SCRIPT POLICY BEFORE: ends with 0 where each row of the policy holds after each write of the script, and it
# lets the modes do with each byte what the script BEFORE does, and locks it alike; with 1 where that isn't so; with 2
# where there is no answer, or the policy has no rows. It takes the pmp on the path, or the one that PMP names. In GitHub Actions each finding is
# an annotation, of the policy's line or of the script.
[ $# = 3 ] || { echo 'usage: check.sh SCRIPT POLICY BEFORE' >&2; exit 2; }
pmp=${PMP:-pmp}
work=$(mktemp -d) || exit 2
trap 'rm -rf "$work"' EXIT

"$pmp" policy --explain --strict --each-write "$1" "$2" >"$work/verdicts"
case $? in
    0) failed=0 ;;
    1)
        failed=1
        while IFS=, read -r row verdict event first last owner; do
            line=$((row + 1))
            demand=$(sed -n "${line}p" "$2")
            case $verdict,$demand in
                broken,*) finding="breaks '$demand': after event $event, $first-$last, entry $owner" ;;
                unmet,*if-any*) continue ;;
                unmet,*) finding="never reaches the moments of '$demand'" ;;
                *) continue ;;
            esac
            echo "${GITHUB_ACTIONS:+::error file=$2,line=$line::}$1 $finding"
        done <"$work/verdicts"
        ;;
    *) echo "no answer for $1 and $2"; exit 2 ;;
esac

"$pmp" diff --locks "$3" "$1"
case $? in
    0) ;;
    1) echo "${GITHUB_ACTIONS:+::error file=$1::}$1 leaves other rights or locks than $3"; failed=1 ;;
    *) echo "no answer for $3"; exit 2 ;;
esac
exit $failed
