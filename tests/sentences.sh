#!/bin/bash
# Whether what docs/SENTENCES.md names is there. A row has three columns and names a file at least. A name in backticks that is no file is declared in one
# of the row's files, and each .antt or .rt file of the row declares one of its names.
#   tests/sentences.sh      from the top of the repository; it takes a second
# A file of a crate is named from the crate on, any other from the top. An .antt file declares its definitions and theorems, an .rt file its functions with
# a contract, its types and constants, and any other file each word that stands in it.
# unused.sh does not read the table: a lemma that only the table names is unused.
# Prints a line for each fault, with its row, and fails where there is one.
set -euo pipefail
table=docs/SENTENCES.md
work=$(mktemp -d)
trap 'rm -rf "$work"' EXIT

# Each file as it is named, and where it is; then what each declares.
grep -o '`[^`]*[./][^`]*`' "$table" | tr -d '`' | sort -u | while read -r file; do
    for path in "crates/$file" "$file"; do
        if [ -f "$path" ]; then
            printf '%s\t%s\n' "$file" "$path"
            break
        fi
    done
done > "$work/files"
cut -f 2 "$work/files" > "$work/paths"
{
    grep -E '\.(antt|rt)$' "$work/paths" | xargs awk -f tests/items.awk | sed -n 's/^item\t\([^:]*\):\(\(pub \)\?fn \)\?\([^\t]*\)\t.*/\1\t\4/p'
    grep '\.rt$' "$work/paths" | xargs awk 'match($0, /^ *(pub )?(const|struct|enum|type) [A-Za-z_0-9]+/) {
        n = split(substr($0, RSTART, RLENGTH), word, " ")
        print FILENAME "\t" word[n]
    }'
    grep -vE '\.(antt|rt)$' "$work/paths" | xargs awk '{
        n = split($0, word, /[^A-Za-z_0-9]+/)
        for (i = 1; i <= n; i++)
            print FILENAME "\t" word[i]
    }'
} > "$work/declared"

awk -F '\t' '
    function fault(what) {
        print FILENAME ":" line ": " what ": " row
        found = 1
    }
    # check: the row that was read.
    function check(    n, i, k, token, cell, files, file, names, name, declares, there) {
        if (split(row, cell, "|") != 5)
            fault("not three columns")
        n = split(row, token, "`")
        if (n % 2 == 0)
            fault("an odd number of backticks")
        for (i = 2; i <= n; i += 2)
            if (token[i] !~ /[.\/]/)
                name[++names] = token[i]
            else if (token[i] in path)
                file[++files] = path[token[i]]
            else
                fault("there is no " token[i])
        if (!files)
            fault("it names no file")
        for (i = 1; i <= names; i++) {
            there = 0
            for (k = 1; k <= files; k++)
                if ((file[k], name[i]) in declared)
                    there = declares[k] = 1
            if (!there)
                fault("there is no " name[i] " in the files that it names")
        }
        for (k = 1; k <= files; k++)
            if (file[k] ~ /\.(antt|rt)$/ && !declares[k])
                fault(file[k] " declares nothing that it names")
    }
    FILENAME ~ /\/files$/ {
        path[$1] = $2
        next
    }
    FILENAME ~ /\/declared$/ {
        declared[$1, $2] = 1
        next
    }
    # A row is checked when the next line is read: the one before a rule is the head of a table.
    row != "" && !/^\|[-|]+$/ { check() }
    {
        row = /^\|/ && !/^\|[-|]+$/ ? $0 : ""
        line = FNR
    }
    END {
        if (row != "")
            check()
        exit found
    }' "$work/files" "$work/declared" "$table"
