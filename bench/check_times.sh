#!/bin/bash
# What the proof of each crate takes: wall time, one crate after the other, nothing beside it; and the most memory that one of them had resident.
#   bench/check_times.sh            every crate
#   bench/check_times.sh NAME..     these; what they stand on is proved before their own time begins
# Works on a copy, which it removes, and from nothing (bench/timed.sh): what checks on this machine kept does not count.
set -euo pipefail
cd "$(dirname "$0")/.."
cc=${CC:-cc}
top=$PWD
copy=$(mktemp -d)
trap 'rm -rf "$copy"' EXIT
tar -c --exclude=out crates crates.txt | tar -x -C "$copy"
"$cc" -std=gnu11 -O2 -Wall -Wextra bench/usage.c -o "$copy/usage"
cd "$copy"
git init -q
./usage used "$top/bench/timed.sh" "$@" > times || { cat said; exit 1; }
echo "| Crate | Time, s |"
echo "|---|---|"
[ $# -gt 0 ] || set -- $(sed -n 's/^\([a-z_0-9]*\)\( staticlib\)\?:.*/\1/p' crates.txt)
for crate in "$@"; do
    sed -n "s/^\($crate\) \([0-9]*\)$/| \`\1\` | \2 |/p" times
done
read -r _ _ kilobytes < used
awk -v kilobytes="$kilobytes" 'BEGIN { printf "\nThe most memory: %.0f MB.\n", kilobytes * 1024 / 1000000 }'
