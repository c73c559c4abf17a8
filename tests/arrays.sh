#!/bin/bash
# Whether docs/TRUST.md, "Array constants of the library", names the constant arrays of the code: each one, by its file, and no other.
#   tests/arrays.sh         from the top of the repository; it takes a second
# The usage line of a program, USAGE, counts as none. An array that a function returns is no constant: its row begins with "the array that".
# Prints a line for each array that stands in one of them alone, and fails where there is one.
set -euo pipefail
work=$(mktemp -d)
trap 'rm -rf "$work"' EXIT

find crates -name out -prune -o -path '*/src/*.rt' -print | sort | xargs awk 'match($0, /^ *(pub )?(const|static) [A-Z_0-9]+: \[/) {
    n = split(substr($0, RSTART, RLENGTH), word, " ")
    name = word[n - 1]
    sub(/:$/, "", name)
    if (name != "USAGE")
        print substr(FILENAME, 8) "\t" name
}' | sort > "$work/code"

sed -n '/^## Array constants of the library/,/^## Assumed/p' docs/TRUST.md | awk -F '|' '/^\| `/ {
    n = split($2, name, "`")
    m = split($3, file, "`")
    for (i = 2; i <= n; i += 2)
        for (j = 2; j <= m; j += 2)
            print file[j] "\t" name[i]
}' | sort > "$work/listed"

# Without an array in both the comparison would say nothing.
[ -s "$work/code" ] && [ -s "$work/listed" ] || { echo "docs/TRUST.md: no constant array found"; exit 1; }
comm -23 "$work/code" "$work/listed" | sed 's/^/not in docs\/TRUST.md: /' > "$work/faults"
comm -13 "$work/code" "$work/listed" | sed 's/^/not in the code: /' >> "$work/faults"
cat "$work/faults"
[ ! -s "$work/faults" ]
