#!/bin/bash
# What must be believed: every definition that a public contract or a theorem of docs/TRUST.md rests on, by file, with the clauses that the file names.
#   bash tests/believed.sh > docs/BELIEVED.md      from the top of the repository
# Three tiers: the contracts of send_run, receive_run and decode; all public contracts, those of the functions that docs/ARCHITECTURE.md names under
# "Public surface"; and the theorems of docs/TRUST.md beside them. Of a theorem the signature counts
# and not the proof; of a definition all of it counts.
set -euo pipefail

# surface: the crates, and modules of them, that callers may use, and the functions of one where they are named in brackets behind it.
surface() {
    awk '/^What a caller may use/ {
        n = split($0, token, "`")
        for (i = 1; i <= n; i++)
            if (i % 2) {
                if (token[i] ~ /\)/)
                    inside = 0
                if (token[i] ~ /\([^)]*$/)
                    inside = 1
            } else if (inside)
                print "function\t" crate "\t" token[i]
            else {
                crate = token[i] ~ /::/ ? token[i] : token[i] "::lib"
                sub(/::/, "/src/", crate)
                crate = "crates/" crate ".rt"
                print "crate\t" crate
            }
    }' docs/ARCHITECTURE.md
}

# clauses: what a file names in its comments.
clauses() {
    find crates -name out -prune -o -name '*.antt' -print | sort | xargs awk '/^ *-- / {
        while (match($0, /EN 30[01] [0-9]+(, [0-9]+(\.[0-9]+)+|, tables? [0-9]+( and [0-9]+)?)?|[Dd]ocument 0[12](, ("[^"]*"|P[0-9]+)( and ("[^"]*"|P[0-9]+))*)?/)) {
            clause = substr($0, RSTART, RLENGTH)
            sub(/^D/, "d", clause)
            $0 = substr($0, RSTART + RLENGTH)
            print "clause\t" FILENAME "\t" clause
        }
    }'
}

{
    surface
    clauses
    find crates -name out -prune -o \( -name '*.antt' -o -name '*.rt' \) -print | sort | xargs awk -f tests/items.awk
    sed '/^## Array constants/,$d' docs/TRUST.md | awk -f tests/cited.awk
} | awk -F '\t' '
    function live(item) {
        if (!(item in reached)) {
            reached[item] = 1
            queue[++last] = item
        }
    }
    function root(item) {
        roots[item] = 1
        live(item)
    }
    function file_of(item) {
        sub(/:.*/, "", item)
        return item
    }
    function name_of(item) {
        sub(/^[^:]*:/, "", item)
        return item
    }
    function crate_of(item) {
        sub(/^crates\//, "", item)
        sub(/\/.*/, "", item)
        return item
    }
    # reach TIER: what the items in the queue rest on is in this tier, where it is in none before.
    function reach(tier,    n, to, i) {
        while (at < last) {
            at++
            if (!(queue[at] in roots)) {
                tier_of[queue[at]] = tier
            }
            n = split(signature[queue[at]] (queue[at] in roots ? "" : body[queue[at]]), to, "\n")
            for (i = 1; i < n; i++)
                live(to[i])
        }
    }
    # clauses_of FILE: a document or a standard alone only where no part of it is named.
    function clauses_of(file,    list, n, i, said) {
        n = split(clause[file], list, "; ")
        for (i = 1; i <= n; i++)
            if (index(clause[file], list[i] ",") == 0)
                said = said (said == "" ? "" : "; ") list[i]
        return said
    }
    function thousands(n) {
        return n < 1000 ? n : int(n / 1000) sprintf(",%03d", n % 1000)
    }

    $1 == "crate" { all[$2] = 1 }
    $1 == "function" {
        delete all[$2]
        some[$2 ":pub fn " $3] = 1
    }
    $1 == "clause" && index("; " clause[$2] ";", "; " $3 ";") == 0 { clause[$2] = clause[$2] (clause[$2] == "" ? "" : "; ") $3 }
    $1 == "item" {
        lines[$2] = $4
        order[++items] = $2
        if ($2 ~ /\.rt:/) {
            name = name_of($2)
            sub(/.* /, "", name)
            contract[crate_of($2), name] = $2
        }
        if ($2 in some || $2 ~ /:pub fn / && file_of($2) in all) {
            public[++contracts] = $2
            delete some[$2]
        }
    }
    $1 == "sign" { signature[$2] = signature[$2] $3 "\n" }
    $1 == "body" { body[$2] = body[$2] $3 "\n" }
    $1 == "cited" {
        if (!($2 in lines))
            $2 = contract[crate_of($2), name_of($2)]
        named[++names] = $2
    }

    END {
        for (item in some) {
            print "docs/ARCHITECTURE.md names " item ", which has no contract" > "/dev/stderr"
            exit 1
        }
        for (i = 1; i <= contracts; i++)
            if (public[i] ~ / (send_run|receive_run|decode)$/) {
                root(public[i])
                mains++
            }
        if (mains != 3) {
            print "send_run, receive_run and decode are not three public functions" > "/dev/stderr"
            exit 1
        }
        reach(1)
        for (i = 1; i <= contracts; i++)
            root(public[i])
        reach(2)
        for (i = 1; i <= names; i++)
            if (named[i] ~ /\/specs\//)
                live(named[i])
            else if (named[i] != "" && !(named[i] in roots)) {
                root(named[i])
                theorems += named[i] ~ /\/proofs\//
            }
        reach(3)
        for (i = 1; i <= items; i++)
            if (order[i] in reached && !(order[i] in roots)) {
                file = file_of(order[i])
                sum[file] += lines[order[i]]
                for (tier = tier_of[order[i]]; tier <= 3; tier++)
                    total[tier] += lines[order[i]]
                if (name_of(order[i]) !~ /^module@/) {
                    definitions[file] = definitions[file] ", `" name_of(order[i]) "` " lines[order[i]]
                    for (tier = tier_of[order[i]]; tier <= 3; tier++)
                        count[tier]++
                }
            }
        for (file in sum)
            files++
        print "# What must be believed\n"
        print "| What is promised | Definitions | Lines without comments |"
        print "|---|---|---|"
        printf "| Sending, receiving and decoding: `send_run`, `receive_run`, `decode` | %s | %s |\n", thousands(count[1]), thousands(total[1])
        printf "| All %d contracts of the public surface | %s | %s |\n", contracts, thousands(count[2]), thousands(total[2])
        printf "| These, and the %d theorems that `docs/TRUST.md` names | %s | %s |\n\n", theorems, thousands(count[3]), thousands(total[3])
        printf "The definitions stand in %d files. ", files
        print "`tests/believed.sh` makes this list, and the tests compare. Behind each definition is how many lines it has; the lines of a file count the headers of its modules too. A file that names no clause has general terms, or the form in which a theorem is stated.\n"
        print "| File, in `crates/` | Clauses that it names | Definitions | Lines |"
        print "|---|---|---|---|"
        for (file in sum) {
            row = file
            sub(/^crates\//, "", row)
            print "| `" row "` | " clauses_of(file) " | " substr(definitions[file], 3) " | " sum[file] " |" | "LC_ALL=C sort"
        }
    }'
