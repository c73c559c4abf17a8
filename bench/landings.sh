#!/bin/bash
# What landings cost to check: everything is proved at a commit and at the one before it, one crate after the other, each from nothing (bench/timed.sh).
#   bench/landings.sh COMMIT..         the seconds of each crate that moved, and of all, before and after; BEFORE:COMMIT for a landing of several commits
#   bench/landings.sh --ci COMMIT..    whether `rt ci` passes at each, with its last line
# What was measured at a commit stays in target/landings, so a long list may be stopped and taken up later. Before is the first parent, unless it is named. A
# crate moved where one of its files did, or what it stands on changed in crates.txt. Nothing else should run; where a processor is given to it alone (taskset),
# what others do costs it little.
set -euo pipefail
cd "$(dirname "$0")/.."
top=$PWD
kept=$PWD/target/landings
mkdir -p "$kept"
tree=$(mktemp -d)
chmod 711 "$tree"
trap 'rm -rf "$tree"' EXIT

# at COMMIT COMMAND..: in the tree of that commit. rt wants a repository at its top.
at() {
    local commit=$1
    shift
    rm -rf "$tree/work"
    mkdir "$tree/work"
    git archive "$commit" | tar -x -C "$tree/work"
    (cd "$tree/work" && git init -q && "$@")
}

# times COMMIT: a line for each crate, its name and its seconds.
times() {
    local commit
    commit=$(git rev-parse "$1")
    if [ ! -f "$kept/$commit" ]; then
        at "$commit" "$top/bench/timed.sh" > "$kept/part" || { tail -n 3 "$tree/work/said" >&2; echo "$1 is not proved by this kit" >&2; return 1; }
        mv "$kept/part" "$kept/$commit"
    fi
    cat "$kept/$commit"
}

# moved BEFORE COMMIT: the crates of which a file moved, or the line in crates.txt.
moved() {
    {
        git diff --name-only "$1" "$2" -- crates | cut -d / -f 2
        git diff "$1" "$2" -- crates.txt | sed -nE 's/^[-+]([a-z_0-9]+)( staticlib)?:.*/\1/p'
    } | sort -u
}

if [ "${1-}" = --ci ]; then
    shift
    for commit in "$@"; do
        ci=$kept/$(git rev-parse "$commit").ci
        [ -f "$ci" ] || { at "$commit" rt ci > "$tree/log" 2>&1 || true; tail -n 1 "$tree/log" > "$ci"; }
        echo "$(git log -1 --format='%h %s' "$commit"): $(cat "$ci")"
    done
    exit
fi

[ $# -gt 0 ] || { echo "usage: bench/landings.sh [--ci] COMMIT.." >&2; exit 2; }
for word in "$@"; do
    commit=${word#*:}
    if [ "$word" = "$commit" ]; then before=$commit^; else before=${word%%:*}; fi
    git log -1 --format='%h %s' "$commit"
    echo
    echo "| Crate | Before, s | After, s |"
    echo "|---|---|---|"
    times "$before" > "$tree/before"
    times "$commit" > "$tree/after"
    moved "$before" "$commit" > "$tree/moved"
    awk '
        FILENAME ~ /moved$/ { moved[$1] = 1; next }
        FILENAME ~ /before$/ { before[$1] = $2; sum += $2; next }
        { after[$1] = $2; total += $2; if ($1 in moved) row[++n] = $1 }
        END {
            for (i = 1; i <= n; i++)
                printf "| `%s` | %s | %s |\n", row[i], row[i] in before ? before[row[i]] : "-", after[row[i]]
            for (crate in before)
                if (!(crate in after))
                    printf "| `%s` | %s | - |\n", crate, before[crate]
            printf "| all | %d | %d |\n\n", sum, total
        }' "$tree/moved" "$tree/before" "$tree/after"
done
