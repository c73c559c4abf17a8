#!/bin/bash
# The index of the specifications and proofs: what each file says of itself in its first sentence, crate by crate, lowest first.
#   bash docs/files.sh > docs/FILES.md      from the top of the repository
# Proofs of single functions are left out: the files of proofs/NAME are that of the function NAME.
set -euo pipefail
echo '# Specifications and proofs, file by file'
echo
echo '`docs/files.sh` makes this list from the first sentence of each file, and the tests compare. The files of `proofs/NAME` are the proof of the function `NAME`, and are left out.'
echo
echo '| File, in `crates/` | What it holds |'
echo '|---|---|'
sed -n 's/^\([a-z_]*\)\( staticlib\)\?:.*/\1/p' crates.txt | while read -r crate; do
    for file in crates/"$crate"/specs/*.antt crates/"$crate"/proofs/*.antt; do
        [ -f "$file" ] && [ "${file##*/}" != Lib.antt ] || continue
        awk -v file="${file#crates/}" '
            !/^-- / { exit }
            { text = text (NR > 1 ? " " : "") substr($0, 4) }
            END {
                # The first sentence ends at a full stop before a capital, or at the end of the line that a full stop ends.
                if (match(text, /[.] [A-Z`]/))
                    text = substr(text, 1, RSTART - 1)
                sub(/[.]$/, "", text)
                if (text == "")
                    exit 1
                printf "| `%s` | %s |\n", file, text
            }' "$file" || { echo "$file says nothing of itself" >&2; exit 1; }
    done
done
