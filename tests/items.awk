# What each definition, lemma and contract of the crates cites. unused.sh and believed.sh read what it prints.
#   awk -f tests/items.awk FILE..      every .antt and .rt file below crates/, at once
# An item is what an .antt file declares at its top or in a module inside it, FILE:NAME, or the contract of a function, FILE:fn NAME,
# or FILE:pub fn NAME. Methods of one name in one file are one item.
# It prints, between tabs:
#   item ITEM LINE LINES     where it begins, and how many lines it has, without comments
#   goal ITEM                an answer or an invariant that the prover looks for by its name
#   sign ITEM ITEM           the first cites the second in its signature, or in its fields, constructors or contract
#   body ITEM ITEM           the same in its clauses
#   local ITEM ITEM          it has the other's name for a variable, and does not seem to cite it
#   import FILE LINE NAME    an imported name that the file does not use
# A word cites what the file declares or imports under it. The scope of a variable is taken to be the rest of the clause or signature:
# where that is too wide, a citation is printed as local.

# file_of MODULE: the file of a module of the project. A module of the kit, or one made from the code, has none here.
function file_of(module) {
    if (!sub(/^Rattle\./, "", module))
        return ""
    gsub(/\./, "/", module)
    return "crates/" module ".antt"
}

# words_of TEXT: fills words with them. A name in a module is one word, as tie.spec.
function words_of(text) {
    gsub(/[(){};,@"]|⌜|⌝/, " ", text)
    return split(text, words, " ")
}

# import LINE: the names that a line brings, or the module as a whole.
function import(line,    module, names, n, i, pair) {
    sub(/^(ghost )?use /, "", line)
    sub(/;$/, "", line)
    module = line
    if (sub(/\.\{.*/, "", module)) {
        sub(/^.*\.\{/, "", line)
        sub(/\}$/, "", line)
        n = split(line, names, /, */)
        for (i = 1; i <= n; i++) {
            if (split(names[i], pair, " as ") < 2)
                pair[2] = pair[1]
            bring(pair[2], module, pair[1])
        }
    } else {
        if (split(line, pair, " as ") < 2) {
            pair[2] = line
            sub(/.*\./, "", pair[2])
        }
        bring(pair[2], pair[1], "")
    }
}

function bring(word, module, name) {
    brought[FILENAME, word] = ++imports
    import_at[imports] = FILENAME "\t" FNR "\t" word
    import_from[imports] = file_of(module)
    import_name[imports] = name
    note_parts(word)
}

# note_parts NAME: an operator is cited by each of its parts.
function note_parts(name,    part, n, i) {
    if (name !~ /◌/)
        return
    n = split(name, part, "◌")
    for (i = 1; i <= n; i++)
        if (part[i] != "")
            operators[FILENAME, part[i]] = operators[FILENAME, part[i]] " " name
}

# declare NAME: the item that the lines from here on belong to.
function declare(name) {
    item = FILENAME ":" name
    if (item in line_of)
        return
    line_of[item] = FNR
    file[item] = FILENAME
    order[++items] = item
    if (depth)
        around[item] = scope[depth]
    note_parts(name)
}

# bind TEXT: its words are variables from here to the end of the clause, or of the module whose header or open line this is.
function bind(text,    n, i) {
    n = words_of(text)
    for (i = 1; i <= n; i++)
        if (part == "module")
            in_module[depth] = in_module[depth] " " words[i]
        else
            variable[words[i]] = 1
}

# bind_all LINE: what follows a bracket and stands before a colon, a λ before its dot, a let.
function bind_all(line) {
    while (match(line, /[({][^(){}:]* : |λ [^.(]*\.|let [^ ]+ [=:]/)) {
        bound = substr(line, RSTART, RLENGTH)
        line = substr(line, RSTART + RLENGTH)
        gsub(/^λ|^let| [=:] ?$|\.$/, "", bound)
        bind(bound)
    }
}

# new_clause: no variables but those of the modules around it.
function new_clause(    d, n, i, list) {
    split("", variable)
    for (d = 1; d <= depth; d++) {
        n = split(in_module[d], list, " ")
        for (i = 1; i <= n; i++)
            variable[list[i]] = 1
    }
}

# take LINE PART: the line is of this part of the item.
function take(line, part,    n, i) {
    lines[item]++
    n = words_of(line)
    for (i = 1; i <= n; i++)
        cite_later(words[i] in variable ? "local" : part == "module" ? "sign" : part, words[i])
}

function cite_later(part, word) {
    if (!((item, part, word) in said)) {
        said[item, part, word] = 1
        text[item] = text[item] part " " word "\n"
    }
}

FNR == 1 {
    depth = indent = header = contract = 0
    item = part = ""
    new_clause()
}

/^(ghost )?use / {
    if (FILENAME ~ /antt$/ || /^ghost/)
        import($0)
    next
}

# Of code, only the contracts.
FILENAME ~ /\.rt$/ {
    sub(/ *\/\/.*/, "")
    if (match($0, /fn [a-z_0-9]+[(<]/) && /^ *(pub(\([a-z]+\))? )?(extern "C" )?fn /)
        name = (/^ *pub / ? "pub " : "") substr($0, RSTART, RLENGTH - 1)
    if (/^ *(requires|ensures)\*? ([a-z_0-9]+ )?\{/) {
        contract = 1
        declare(name)
    }
    if (/^ *\{$/)
        contract = 0
    if (contract)
        take($0, "sign")
    next
}

{ sub(/^ *--( .*)?$| +-- .*$/, "") }
/^$/ || /^ *(pub )?mod / || /^ *infix/ { next }

{
    match($0, /^ */)
    at = RLENGTH
    while (at < indent && !header)
        indent = outer[depth--]
    rest = substr($0, at + 1)
    sub(/^(abbrev|unfoldable) /, "", rest)
    sub(/^pub /, "", rest)
    split(rest, first, " ")
    declares = rest ~ /^[^ ]+ (\{[^}]*\} )?: /
    if (header || at > indent) {
        # A field, a constructor, or what a where declares.
        if (declares && !header) {
            before = substr(rest, 1, index(rest, " : "))
            if (kind && at == indent + 2)
                for (i = words_of(before); i > 0; i--)
                    member[kind, FILENAME, words[i]] = item
            if (kind != "data")
                bind(before)
        }
    } else {
        new_clause()
        kind = first[1] ~ /^(record|data)$/ && first[2] != "{" ? first[1] : ""
        if (first[1] == "module") {
            declare("module@" FNR)
            outer[depth + 1] = indent
            scope[++depth] = item
            in_module[depth] = ""
            indent = at + 2
            header = 1
            part = "module"
        } else if (first[1] == "open" && depth) {
            item = scope[depth]
            part = "module"
            bound = rest
            sub(/.*using/, "", bound)
            gsub(/[^(), ]+ as /, "", bound)
            gsub(/_/, " ", bound)
            bind(bound)
        } else if (kind || first[1] == "ruleset") {
            declare(first[2])
            part = kind ? "sign" : "body"
        } else if (declares) {
            declare(first[1])
            part = "sign"
            if (FILENAME ~ /\/(Proof|Answers|Invariants)\.antt$/ && (rest ~ /: goal\./ || rest ~ /[-_]spec : .*statement/))
                print "goal\t" item
        } else {
            part = "body"
            if ((FILENAME ":" first[1]) in line_of)
                item = FILENAME ":" first[1]
            # What stands in a pattern is a constructor or a variable.
            if (first[1] != "unfolding" && match($0, / =( |$)/)) {
                for (i = words_of(substr($0, 1, RSTART)); i > 0; i--)
                    if (words[i] != first[1])
                        cite_later("pattern", words[i])
                bound = substr($0, at + length(first[1]) + 1, RSTART - at - length(first[1]))
                bind(bound)
            }
        }
    }
    bind_all($0)
    take($0, part)
    if (header && /where$/)
        header = 0
}

# meant FILE WORD: the item of the project that the file means by it.
function meant(from, word,    k, name) {
    if ((from ":" word) in line_of)
        return from ":" word
    if (("data", from, word) in member)
        return member["data", from, word]
    if (!((from, word) in brought))
        return ""
    k = brought[from, word]
    used[k] = 1
    name = import_name[k]
    from = import_from[k]
    return (from ":" name) in line_of ? from ":" name : ("data", from, name) in member ? member["data", from, name] : member["record", from, name]
}

function constructor(from, word,    k) {
    if (("data", from, word) in member)
        return 1
    k = brought[from, word]
    return k && ("data", import_from[k], import_name[k]) in member
}

function cite(from, part, to) {
    if (to != "" && to != from && !((from, part, to) in drawn)) {
        drawn[from, part, to] = 1
        print part "\t" from "\t" to
    }
}

# cite_word ITEM PART WORD: what it cites, by itself, through a module, or as a part of operators.
function cite_word(from, part, word,    at, path, n, i, j, pieces, names) {
    at = file[from]
    if (part == "pattern")
        part = constructor(at, word) ? "body" : "local"
    if (split(word, path, ".") > 1 && (at, path[1]) in brought && import_name[brought[at, path[1]]] == "") {
        meant(at, path[1])
        cite(from, part, (import_from[brought[at, path[1]]] ":" path[2]) in line_of ? import_from[brought[at, path[1]]] ":" path[2] : "")
        return
    }
    cite(from, part, meant(at, path[1]))
    n = split(path[1], pieces, "◌")
    for (i = 1; i <= n; i++)
        for (j = split(operators[at, pieces[i]], names, " "); j > 0; j--)
            cite(from, part, meant(at, names[j]))
}

END {
    for (i = 1; i <= items; i++)
        print "item\t" order[i] "\t" line_of[order[i]] "\t" lines[order[i]]
    for (i = 1; i <= items; i++) {
        if (order[i] in around)
            cite(order[i], "sign", around[order[i]])
        n = split(text[order[i]], cited, "\n")
        for (c = 1; c < n; c++) {
            split(cited[c], both, " ")
            cite_word(order[i], both[1], both[2])
        }
    }
    for (i = 1; i <= imports; i++)
        if (!(i in used))
            print "import\t" import_at[i]
}
