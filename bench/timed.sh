#!/bin/bash
# Proves crates from nothing, one after the other, and prints a line for each: its name and the seconds that its proof took.
#   bench/timed.sh [NAME..]      in a folder with crates/ and crates.txt: every crate, or these and those below them
# Must-fail edits are not tried: they are taken out of the folder, which is a copy. A program's time includes its compilation. Status 1: some crate is not proved;
# what rt said is in the file `said` then.
set -euo pipefail
rm -rf crates/*/must-fail
export RT_JOBS=1
from=$EPOCHREALTIME status=0
while IFS= read -r line; do
    now=$EPOCHREALTIME
    if [[ $line =~ ^rt:\ ([a-z_0-9]+)\ proved$ ]]; then
        awk -v name="${BASH_REMATCH[1]}" -v from="$from" -v now="$now" 'BEGIN { printf "%s %.0f\n", name, now - from }'
        from=$now
    elif [[ $line =~ ^rt:\ .*\ (NOT\ PROVED|proved)$ ]]; then
        # the proof of a crate's tests, or one that failed
        from=$now
    fi
done < <(rt ci --anew "$@" 2>&1 | tee said)
tail -n 1 said | grep -qE '^[0-9]+ passed, 0 failed' || status=1
exit $status
