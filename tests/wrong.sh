#!/bin/bash
# Wrong programs: tries the edits of tests/wrong/, each a small change of code that a user would suffer from, on a copy of the crates. A line for each says
# whether the prover refuses it, and where its first error is, or ACCEPTED. An accepted edit breaks what no contract says: docs/TRUST.md has the lines that a
# person must read then. Some edits change a line of a proof too: they show what a contract leaves open to one who writes the proof as well.
#   tests/wrong.sh [CRATE | CRATE/NAME]..      all of them, or those of some crates, or some
# They are not part of the gate. Where a check on this machine proved the crates before (rt check), rt begins with what that kept. Of one that is refused only
# because a proof names what the edit took away, that is said: it tells little of the contract.
# Status 0: all are refused. 1: some are accepted. 2: an edit is bad, or was not tried.
set -euo pipefail
cd "$(dirname "$0")/.."
work=$(mktemp -d)
trap 'rm -rf "$work"' EXIT

[ $# -gt 0 ] || set -- $(cd tests/wrong && ls)
tar -c --exclude=out --exclude=must-fail crates crates.txt | tar -x -C "$work"

# Each word is a crate, or an edit of one.
crates=() tried=0
for word in "$@"; do
    crate=${word%%/*}
    [ -d "$work/crates/$crate/must-fail" ] || { mkdir "$work/crates/$crate/must-fail" && crates+=("$crate"); }
    case $word in
        */*) cp "tests/wrong/$word.edit" "$work/crates/$crate/must-fail" ;;
        *) cp "tests/wrong/$crate"/*.edit "$work/crates/$crate/must-fail" ;;
    esac
done
for crate in "${crates[@]}"; do tried=$((tried + $(ls "$work/crates/$crate/must-fail" | wc -l))); done

refused=0 accepted=0
while IFS= read -r line; do
    line=${line#rt: must-fail }
    edit=${line%%:*}
    case $line in
        *': refused, as it must be'*)
            place=${line#*: refused, as it must be}
            echo "$edit: refused${place/#: /, }"
            refused=$((refused + 1))
            ;;
        *': NOT REFUSED: '*)
            echo "$edit: ACCEPTED"
            accepted=$((accepted + 1))
            ;;
        *) echo "$line" ;;
    esac
done < <(cd "$work" && rt must-fail "${crates[@]}" 2>&1 | tee "$work/said" | grep --line-buffered '^rt: must-fail ' || true)

echo "$refused refused, $accepted accepted"
[ $((refused + accepted)) = "$tried" ] || { grep -E -A 6 'BAD EDIT|NOT TRIED' "$work/said" || tail -n 5 "$work/said"; exit 2; }
[ "$accepted" = 0 ]
