#!/bin/bash
# What stands twice: functions, definitions and lemmas of six lines or more whose text is the same but for their own name. One of five has a single line of code.
#   tests/repeated.sh      from the top of the repository; it takes seconds
# A block is what stands between two empty lines. Comments, imports, and the answers of a proof, which follow the shape of its function, do not count.
# Prints a line for each pair, and fails where there is one.
set -euo pipefail
find crates -name out -prune -o \( -name '*.rt' -o -name '*.antt' \) -print | sort | xargs awk '
    function escaped(name) {
        gsub(/[^A-Za-z0-9_]/, "[&]", name)
        return name
    }
    # ended: the block that was read, compared with those before.
    function ended(    name, text) {
        if (lines >= 6 && block !~ /tie\.(close|spec|Need)|: goal\./ && block !~ /^use / && block !~ /^ghost use/) {
            name = block
            sub(/^(pub |abbrev |unfoldable |const |unsafe )+/, "", name)
            sub(/^(fn|struct|enum|record|data|module) /, "", name)
            sub(/[^A-Za-z0-9_'"'"'₀-₉-].*/, "", name)
            text = " " block " "
            if (name != "")
                gsub("[^A-Za-z0-9_-]" escaped(name) "[^A-Za-z0-9_-]", " @ ", text)
            gsub(/[ \t]+/, " ", text)
            if (text in place) {
                print place[text] " and " file ":" from ": the same " lines " lines"
                found = 1
            } else
                place[text] = file ":" from
        }
        block = ""
        lines = 0
    }
    FNR == 1 { ended() }
    { file = FILENAME }
    /^[ \t]*$/ {
        ended()
        next
    }
    /^[ \t]*(--|\/\/)/ { next }
    {
        if (lines == 0)
            from = FNR
        block = block (lines ? "\n" : "") $0
        lines++
    }
    END {
        ended()
        exit found
    }'
