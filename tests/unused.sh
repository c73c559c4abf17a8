#!/bin/bash
# What nothing uses: imported names, definitions and lemmas, functions, constants and types of the code; and what docs/TRUST.md and
# docs/ARCHITECTURE.md name that is not there.
#   tests/unused.sh      from the top of the repository; it takes seconds
# A definition or a lemma is used where a contract rests on it, the proof of a function, or a theorem that those two documents name.
# Prints a line for each, and fails where there is one.
set -euo pipefail
work=$(mktemp -d)
trap 'rm -rf "$work"' EXIT
find crates -name out -prune -o \( -name '*.antt' -o -name '*.rt' \) -print | sort > "$work/files"
xargs awk -f tests/items.awk < "$work/files" > "$work/items"
awk -f tests/cited.awk docs/TRUST.md docs/ARCHITECTURE.md > "$work/cited"

# What the code has names for: a document may name that beside a file.
{ grep '\.rt$' "$work/files" | xargs grep -oh '[A-Za-z_0-9]*'; sed -n 's/^\([a-z_0-9]*\)[ :].*/\1/p' crates.txt; basename -s .rs reference/src/bin/*; basename -s .c examples/*.c; } | sort -u | sed 's/^/word\t/' > "$work/words"

# Definitions, lemmas and their imports, and what is named in the documents.
sed 's/^/have\t/' "$work/files" | cat - "$work/words" "$work/items" "$work/cited" | awk -F '\t' '
    function live(item) {
        if (!(item in reached)) {
            reached[item] = 1
            queue[++last] = item
        }
    }
    function report(line) {
        print line
        found = 1
    }
    $1 == "have" { have[$2] = 1 }
    $1 == "word" { code[$2] = 1 }
    $1 == "item" {
        name[$2] = $2
        sub(/^[^:]*:/, "", name[$2])
        place[$2] = $2
        sub(/:.*/, ":" $3, place[$2])
        order[++items] = $2
        # A document may name a definition of another file beside a file.
        if ($2 ~ /\/specs\//)
            code[name[$2]] = 1
        # Contracts, and the proofs that the prover looks for by their name.
        if (name[$2] ~ /^(pub )?fn /)
            live($2)
    }
    $1 == "goal" { live($2) }
    $1 == "sign" || $1 == "body" || $1 == "local" { uses[$2] = uses[$2] $3 "\n" }
    $1 == "import" { report($2 ":" $3 ": imports " $4 ", and does not use it") }
    $1 == "file" && !($2 in have) && $2 !~ /NAME/ { report($3 ": there is no " $2) }
    $1 == "cited" {
        theorem = $2
        sub(/^[^:]*:/, "", theorem)
        if ($2 in name) {
            live($2)
            there[theorem] = 1
        } else if (theorem ~ /[-_]/ && theorem !~ /::|NAME/ && !(theorem in code) && !(theorem in asked)) {
            asked[theorem] = $3
            wanted[++theorems] = theorem
        }
    }
    END {
        for (i = 1; i <= theorems; i++)
            if (!(wanted[i] in there))
                report(asked[wanted[i]] ": there is no " wanted[i] " in the files that it names")
        for (at = 1; at <= last; at++) {
            count = split(uses[queue[at]], to, "\n")
            for (i = 1; i < count; i++)
                live(to[i])
        }
        for (i = 1; i <= items; i++)
            if (!(order[i] in reached) && name[order[i]] !~ /^module@/)
                report(place[order[i]] ": nothing uses " name[order[i]])
        exit found
    }' || found=1

# The code: a name is used where it stands in more places than those that declare it. What C calls is used from there, and a public function of a crate
# that docs/ARCHITECTURE.md names under "Public surface" by whoever calls it.
surface=$(sed -n '/^What a caller may use/p' docs/ARCHITECTURE.md | grep -o '`[a-z_0-9:]*`' | tr -d '`' | tr '\n' ' ')
grep '\.rt$' "$work/files" | xargs awk -v surface="$surface" '
    BEGIN {
        n = split(surface, crate, " ")
        for (i = 1; i <= n; i++) {
            file = crate[i] ~ /::/ ? crate[i] : crate[i] "::lib"
            sub(/::/, "/src/", file)
            public["crates/" file ".rt"] = 1
        }
    }
    # A use is read up to its semicolon. What a crate hands on by pub use is not used by that.
    FNR == 1 { use = inside = "" }
    { sub(/ *\/\/.*/, "") }
    /^(pub )?use / { use = FNR }
    use != "" {
        if (use == FNR)
            given = ""
        given = given $0
        if (!/;$/)
            next
        if (given ~ /^use /) {
            sub(/;$/, "", given)
            sub(/^use /, "", given)
            whole = given
            gsub(/.*\{|\}$/, "", given)
            n = split(given, names, /, */)
            for (i = 1; i <= n; i++) {
                name = names[i]
                gsub(/^ +| +$|^.*::|^.* as /, "", name)
                # A trait is used by its methods.
                if (name != "" && name != "self" && !(whole ~ /^std::/ && name ~ /^(Read|Write|Seek|AsFd|AsRawFd|Env)$/))
                    brought[FILENAME, name] = FILENAME ":" use ": imports " name ", and does not use it"
            }
        }
        use = ""
        next
    }
    # A method of a trait is called by its trait.
    /^impl.* for / { inside = 1 }
    /^}/ { inside = "" }
    inside == "" && match($0, /^ *(pub(\([a-z]+\))? )?(const|fn|struct|enum|type|trait) [A-Za-z_0-9]+/) {
        n = split(substr($0, RSTART, RLENGTH), word, " ")
        declared[word[n]]++
        place[word[n]] = FILENAME ":" FNR
        if (FILENAME in public && $0 ~ /^ *pub fn /)
            said[word[n]]++
    }
    {
        n = split($0, word, /[^A-Za-z_0-9]+/)
        for (i = 1; i <= n; i++) {
            said[word[i]]++
            if ((FILENAME, word[i]) in brought)
                delete brought[FILENAME, word[i]]
        }
    }
    END {
        for (key in brought) {
            print brought[key]
            found = 1
        }
        for (name in declared)
            if (said[name] == declared[name] && name != "main") {
                print place[name] ": nothing uses " name
                found = 1
            }
        exit found
    }' || found=1
exit "${found:-0}"
