# What a program does with its inputs and outputs that no contract of it can refuse, since they are values and may be copied. programs.sh reads what it prints.
#   awk -v crate=NAME -f tests/programs.awk FILE..      the sources of program_io, of the crates that the programs share, and of the crate
# A file is a value of type Input or Output. On each path through a function of the crate
#   each standard stream, and each other kind of input, is made at most once, by it or by a function that it calls;
#   each file is handed on at most once: to a read, a write or a closing, to a function, into a structure, or to the caller. To ask whether it failed or
#   ended is not to hand it on;
#   what a read, a write, a closing or a function makes of a file is handed on in its turn. Only a function that gives no file back, such as main, may end
#   with a structure of which it hands on no file, and it with one.
# A field of a structure is a file of its own; a name that is given to a field stands for it.
# A path ends at a return, and at an unreachable!(), which is proved not to be reached. What Ok, Err and Some hold is no file.
# It prints FILE:LINE: and what is wrong. Where it cannot follow a file, it prints that.

# ---- words

function add(word) {
    tok[++n] = word
    at[n] = FILENAME ":" FNR
}

FNR == 1 { contract = 0 }

{
    line = $0
    while (line != "") {
        if (contract) {
            # A contract is between its two brackets, and may have others in it.
            if (!match(line, /[{}]/))
                next
            contract += substr(line, RSTART, 1) == "{" ? 1 : -1
            line = substr(line, RSTART + 1)
        } else if (match(line, /^[ \t]+/)) {
            line = substr(line, RLENGTH + 1)
        } else if (line ~ /^\/\// || line ~ /^ghost use /) {
            next
        } else if (match(line, /^(requires|ensures)\*? ([a-z_0-9]+ )?\{/)) {
            contract = 1
            line = substr(line, RLENGTH + 1)
        } else if (match(line, /^b?"([^"\\]|\\.)*"/) || match(line, /^b?'([^'\\]|\\.)'/)) {
            add("\"\"")
            line = substr(line, RLENGTH + 1)
        } else if (match(line, /^'[a-z_]+/)) {
            # a lifetime
            line = substr(line, RLENGTH + 1)
        } else if (match(line, /^[A-Za-z_][A-Za-z0-9_]*(::[A-Za-z_][A-Za-z0-9_]*)*/) || match(line, /^[0-9][0-9A-Za-z_]*/) || match(line, /^(=>|==|!=|<=|>=|->|\.\.|&&|\|\||[-+*\/%&|^]=|.)/)) {
            add(substr(line, 1, RLENGTH))
            line = substr(line, RLENGTH + 1)
        }
    }
}

function last_of(path) {
    sub(/.*::/, "", path)
    return path
}

function crate_at(i,    name) {
    name = at[i]
    sub(/^.*crates\//, "", name)
    sub(/\/.*/, "", name)
    return name
}

function is_name(word) {
    return word ~ /^[A-Za-z_]/ && word !~ /^(let|mut|return|if|else|match|while|loop|for|in|break|continue|as|true|false)$/
}

function is_file(type) {
    return type == "Input" || type == "Output"
}

function carries(type) {
    return is_file(type) || (type in carrier)
}

function say(i, text) {
    if (loud && crate_at(i) == crate)
        print at[i] ": " text
}

# ---- declarations

# past I: the word after the bracket that closes the one at I.
function past(i,    depth) {
    depth = 0
    do {
        if (tok[i] ~ /^[([{]$/)
            depth++
        else if (tok[i] ~ /^[])}]$/)
            depth--
        i++
    } while (depth > 0 && i <= n)
    return i
}

# type_at I STOP: the words of a type up to one of these, as one.
function type_at(i, stop,    type, depth) {
    type = ""
    depth = 0
    while (i <= n && (depth > 0 || index(stop, tok[i]) == 0)) {
        if (tok[i] ~ /^[([]$/)
            depth++
        if (tok[i] ~ /^[])]$/)
            depth--
        type = type (type == "" ? "" : " ") (tok[i] ~ /^[A-Za-z_]/ ? last_of(tok[i]) : tok[i])
        i++
    }
    type_end = i
    return type
}

function declare_structure(i,    name, field, type) {
    name = tok[i + 1]
    structures[name] = 1
    i += 3
    while (i <= n && tok[i] != "}") {
        if (tok[i] == "pub")
            i++
        if (tok[i] == "(")
            i = past(i)
        field = tok[i]
        type = type_at(i + 2, ",}")
        field_type[name, field] = type
        fields[name] = fields[name] " " type
        held[++holdings] = type
        held_at[holdings] = i
        i = type_end
        if (tok[i] == ",")
            i++
    }
    return i + 1
}

function declare_function(i, owner,    f, name, type, k) {
    f = ++functions
    fn_name[f] = tok[i + 1]
    fn_crate[f] = crate_at(i)
    fn_owner[f] = owner
    fn_at[f] = i
    i += 2
    if (tok[i] == "<")
        while (i <= n && tok[i] != "(")
            i++
    i++
    k = 0
    while (i <= n && tok[i] != ")") {
        while (tok[i] ~ /^(&|mut)$/)
            i++
        name = tok[i]
        if (name == "self") {
            type = owner
            i++
        } else {
            type = type_at(i + 2, ",)")
            i = type_end
        }
        param[f, ++k] = name
        param_type[f, k] = type
        if (tok[i] == ",")
            i++
    }
    params[f] = k
    i++
    if (tok[i] == "->") {
        fn_type[f] = type_at(i + 1, "{")
        i = type_end
    }
    fn_body[f] = i
    if (owner != "")
        method[owner, fn_name[f]] = f
    else
        function_of[fn_crate[f], fn_name[f]] = f
    return past(i)
}

function declare(    i, owner, owner_end) {
    i = 1
    owner = ""
    owner_end = 0
    while (i <= n) {
        if (i >= owner_end)
            owner = ""
        if (tok[i] == "struct" && tok[i + 2] == "{")
            i = declare_structure(i)
        else if (tok[i] == "enum") {
            enum_at[++enums] = i
            i = past(i + 2)
        } else if (tok[i] == "impl") {
            owner = tok[i + 1]
            owner_end = past(i + 2)
            i += 3
        } else if (tok[i] == "fn")
            i = declare_function(i, owner)
        else
            i++
    }
}

# ---- what structures hold, and what functions make and ask

function holds(words,    part, k, i) {
    k = split(words, part, /[^A-Za-z0-9_]+/)
    for (i = 1; i <= k; i++)
        if (carries(part[i]))
            return 1
    return 0
}

function resolve(path, here,    first, f) {
    first = path
    sub(/::.*/, "", first)
    path = last_of(path)
    if (((first, path) in function_of))
        return function_of[first, path]
    if (((here, path) in function_of))
        return function_of[here, path]
    for (f = 1; f <= functions; f++)
        if (fn_name[f] == path && fn_owner[f] == "")
            return f
    return 0
}

function is_made(path) {
    return path ~ /^(program_io::)?(Output::(standard|errors)|Input::(standard|open|none))$/
}

# asks F NAME: whether the function does nothing with this file but ask how it is.
function asks(f, name,    i, end) {
    end = past(fn_body[f])
    for (i = fn_body[f]; i < end; i++)
        if (tok[i] == name && tok[i - 1] != "." && !(tok[i + 1] == "." && tok[i + 2] ~ /^(failed|ended)$/))
            return 0
    return 1
}

# uses_part F K FIELD: whether the function uses this field of its parameter K, or hands on the whole to one that may.
function uses_part(f, k, field,    i, j, end, depth, g, which) {
    end = past(fn_body[f])
    for (i = fn_body[f]; i < end; i++) {
        if (tok[i] != param[f, k] || tok[i - 1] == "." || (tok[i + 1] == "." && tok[i + 2] != field && tok[i + 3] != "("))
            continue
        # Which argument it is of which function.
        which = 1
        depth = 0
        for (j = i - 1; depth > 0 || tok[j] !~ /^[([{;]$/; j--) {
            if (tok[j] ~ /^[])}]$/)
                depth++
            else if (tok[j] ~ /^[([{]$/)
                depth--
            else if (tok[j] == "," && depth == 0)
                which++
        }
        g = tok[j] == "(" && tok[i - 1] ~ /^[,(]$/ && tok[i + 1] ~ /^[,)]$/ ? resolve(tok[j - 1], fn_crate[f]) : 0
        if (!g || uses_part(g, which, field))
            return 1
    }
    return 0
}

function learn(    more, name, f, i, k, end, g, words, w, before) {
    do {
        more = 0
        for (name in structures)
            if (!(name in carrier) && holds(fields[name])) {
                carrier[name] = 1
                more = 1
            }
    } while (more)
    for (f = 1; f <= functions; f++)
        for (k = 1; k <= params[f]; k++) {
            asked[f, k] = is_file(param_type[f, k]) && asks(f, param[f, k])
            if (carries(param_type[f, k]) && !asked[f, k])
                takes[f] = 1
        }
    do {
        more = 0
        for (f = 1; f <= functions; f++) {
            before = makes[f]
            end = past(fn_body[f])
            for (i = fn_body[f]; i < end; i++)
                if (is_name(tok[i]) && tok[i + 1] == "(" && tok[i - 1] != ".") {
                    words = ""
                    if (is_made(tok[i]))
                        words = kind_of(tok[i])
                    else if ((g = resolve(tok[i], fn_crate[f])))
                        words = makes[g]
                    k = split(words, w, " ")
                    while (k > 0) {
                        if (index(" " makes[f] " ", " " w[k] " ") == 0)
                            makes[f] = makes[f] " " w[k]
                        k--
                    }
                }
            if (makes[f] != before)
                more = 1
        }
    } while (more)
}

function kind_of(path) {
    sub(/^program_io::/, "", path)
    return path
}

# ---- values: a name has a value, and a value is used up where it is handed on. used is a list of them, each between blanks.

function has(list, value) {
    return index(list, " " value " ") > 0
}

function either(a, b,    part, k, i) {
    k = split(b, part, " ")
    for (i = 1; i <= k; i++)
        if (!has(a, part[i]))
            a = a part[i] " "
    return a
}

# id_of NAME: the variable of this name, or 0.
function id_of(name,    i) {
    for (i = ids; i >= 1; i--)
        if (id_name[i] == name && id_open[i])
            return i
    return 0
}

function fresh(name, type, i,    value) {
    value = name "#" (++values)
    if (is_file(type)) {
        made_at[value] = i
        owed[++owing] = value
    }
    return value
}

function bind(name, type, value, depth) {
    id_name[++ids] = name
    id_type[ids] = type
    id_value[ids] = value
    id_open[ids] = 1
    id_depth[ids] = depth
}

function close_scope(depth,    i) {
    for (i = ids; i >= 1; i--)
        if (id_depth[i] >= depth)
            id_open[i] = 0
}

# hand_on I VALUE NAME: the value of a name is handed on at a word.
function hand_on(i, value, name,    whole, k, part, j) {
    touched++
    handed[value] = 1
    last_hand[id_of(name)] = ++hands
    whole = value
    sub(/\..*/, "", whole)
    if (has(used, value) || has(used, whole))
        say(i, name " is used again after it was handed on")
    k = split(used, part, " ")
    for (j = 1; j <= k; j++)
        if (index(part[j], value ".") == 1)
            say(i, name " is used again after a part of it was handed on")
    # A name that was given to a part before stands for itself from here on, where the function does not use that part.
    for (j = 1; j <= ids; j++)
        if (callee && index(id_value[j], value ".") == 1 && !uses_part(callee, callee_param, substr(id_value[j], length(value) + 2)))
            id_value[j] = id_name[j] "#" (++values)
    used = either(used, " " value " ")
}

function make(i, kinds,    part, k) {
    k = split(kinds, part, " ")
    while (k > 0) {
        touched++
        if (has(used, part[k]))
            say(i, part[k] " is made twice on one path")
        used = either(used, " " part[k] " ")
        k--
    }
}

# drop I: a structure of which no file is handed on, or a function that gives none of its files back.
function drop(i) {
    if (++dropped > may_drop)
        say(i, "the files of this are thrown away")
}

# ---- expressions and statements. Each function gives the word after what it walked over.

# place I: the value of the name at I, with its fields, in place_value, place_type and place_end.
function place(i,    id) {
    id = id_of(tok[i])
    place_type = id ? id_type[id] : ""
    place_value = id ? id_value[id] : ""
    place_end = i + 1
    while (tok[place_end] == "." && is_name(tok[place_end + 1]) && tok[place_end + 2] != "(" && carries(place_type)) {
        place_type = field_type[place_type, tok[place_end + 1]]
        place_value = place_value "." tok[place_end + 1]
        place_end += 2
    }
}

function walk_name(i,    f, m, name) {
    if (tok[i - 1] == ".")
        return i + 1
    if (tok[i + 1] == "(")
        return walk_call(i)
    if (tok[i + 1] == "{" && last_of(tok[i]) ~ /^[A-Z].*[a-z]/)
        return walk_structure(i + 1)
    place(i)
    name = tok[i]
    if (!carries(place_type))
        return place_end
    if (tok[place_end] == "." && tok[place_end + 2] == "(") {
        m = tok[place_end + 1]
        if (is_file(place_type) && m ~ /^(failed|ended)$/)
            return place_end + 2
        f = place_end
        hand_on(i, place_value, name)
        return f + 2
    }
    f = place_end
    hand_on(i, place_value, name)
    return f
}

function walk_call(i,    f, k) {
    f = 0
    if (is_made(tok[i]))
        make(i, kind_of(tok[i]))
    else if ((f = resolve(tok[i], crate))) {
        make(i, makes[f])
        if (carries(fn_type[f]))
            touched++
        else if (makes[f] != "" || takes[f])
            drop(i)
    }
    i += 2
    k = 1
    while (i <= n && tok[i] != ")") {
        if (is_name(tok[i]) && tok[i + 1] ~ /^[,)]$/) {
            callee = f
            callee_param = k
            i = f && asked[f, k] ? i + 1 : walk(i, ",)")
            callee = 0
        } else
            i = walk(i, ",)")
        if (tok[i] == ",") {
            i++
            k++
        }
    }
    return i + 1
}

function walk_structure(i) {
    i++
    while (i <= n && tok[i] != "}") {
        if (tok[i + 1] == ":")
            i += 2
        i = walk(i, ",}")
        if (tok[i] == ",")
            i++
    }
    return i + 1
}

# is_unreachable I: whether an unreachable!() is at I.
function is_unreachable(i) {
    return tok[i] == "unreachable" && tok[i + 1] == "!" && tok[i + 2] == "("
}

# else_of I: where the else of a let is whose expression is at I.
function else_of(i,    depth) {
    depth = 0
    while (i <= n && (depth > 0 || tok[i] !~ /^(;|else)$/)) {
        if (tok[i] ~ /^[([{]$/)
            depth++
        else if (tok[i] ~ /^[])}]$/)
            depth--
        i++
    }
    return tok[i] == "else" ? i : 0
}

# walk_else I: the block of a let .. else, where the pattern did not fit. It leaves; where that is for the end of a loop, what it handed on stays so.
function walk_else(i,    before, drops) {
    before = used
    drops = dropped
    i = walk_block(i)
    if (ended) {
        used = before
        dropped = drops
    } else
        used = either(before, used)
    ended = 0
    given = 0
    return i
}

# walk I STOP: an expression, up to one of these words.
function walk(i, stop,    depth) {
    depth = 0
    while (i <= n && (depth > 0 || index(stop, tok[i]) == 0)) {
        if (tok[i] ~ /^(if|match|while|loop|for)$/) {
            i = walk_control(i)
            continue
        }
        if (tok[i] ~ /^[([]$/)
            depth++
        else if (tok[i] ~ /^[])]$/)
            depth--
        if (is_name(tok[i]))
            i = walk_name(i)
        else if (tok[i] == "{")
            i = walk_block(i)
        else
            i++
    }
    return i
}

# After a block: ended where it left the function, given where its last expression has to do with a file.
function walk_block(i,    before) {
    level++
    before = touched
    ended = 0
    given = 0
    i++
    while (i <= n && tok[i] != "}")
        i = walk_statement(i)
    # What a block that left the function handed on is no part of the value that it is in.
    if (ended)
        touched = before
    close_scope(level)
    level--
    return i + 1
}

function walk_loop(i,    start, before, drops, hands_before, first, j, parts) {
    start = i
    before = used
    drops = dropped
    hands_before = hands
    first = ids
    i = walk_block(walk(i + 1, "{"))
    if (!ended) {
        if (dropped > drops)
            say(i - 1, "each turn of the loop throws files away")
        for (j = 1; j <= first; j++)
            if (last_hand[j] > hands_before && id_open[j] && (has(used, id_value[j]) || index(used, " " id_value[j] ".")))
                say(i - 1, id_name[j] " is used again by the next turn of the loop")
        split(used, parts, " ")
        for (j in parts)
            if (parts[j] ~ /::/ && !has(before, parts[j]))
                say(i - 1, parts[j] " is made by each turn of the loop")
    }
    used = either(before, used)
    ended = tok[start] == "loop"
    given = 0
    for (j = start; j < i; j++)
        if (tok[j] == "break")
            ended = 0
    return i
}

# walk_control I: an if, a match or a loop. Each arm begins with what was used before it.
function walk_control(i,    before, after, all, some, word, turn, drops, most) {
    word = tok[i]
    if (word ~ /^(while|loop|for)$/)
        return walk_loop(i)
    i = walk(i + 1, "{")
    before = used
    drops = dropped
    most = dropped
    after = " "
    all = 1
    some = 0
    if (word == "if") {
        i = walk_block(i)
        if (!ended) {
            after = either(after, used)
            most = dropped
        }
        all = ended
        some = given
        used = before
        dropped = drops
        if (tok[i] == "else") {
            if (tok[i + 1] == "if")
                i = walk_control(i + 1)
            else
                i = walk_block(i + 1)
            some += given
        } else
            ended = 0
        if (!ended) {
            after = either(after, used)
            if (dropped > most)
                most = dropped
        }
        all = all && ended
    } else {
        i++
        while (i <= n && tok[i] != "}") {
            level++
            while (i <= n && tok[i] != "=>") {
                if (tok[i] ~ /^[a-z_]/)
                    bind(tok[i], "", "", level)
                i++
            }
            i++
            used = before
            dropped = drops
            ended = 0
            given = 0
            if (tok[i] == "{")
                i = walk_block(i)
            else if (is_unreachable(i)) {
                i = past(i + 2)
                ended = 1
            } else {
                turn = touched
                i = walk(i, ",}")
                given = touched > turn
            }
            close_scope(level)
            level--
            some += given
            if (!ended) {
                after = either(after, used)
                if (dropped > most)
                    most = dropped
            }
            all = all && ended
            if (tok[i] == ",")
                i++
        }
        i++
    }
    used = all ? before : after
    dropped = most
    ended = all
    given = some
    return i
}

# take I NAME: the value that a name gets from the expression at I, of type take_type.
function take(i, name,    end, before, type, known) {
    before = touched
    type = ""
    known = 0
    if (is_name(tok[i])) {
        place(i)
        if (carries(place_type) && tok[place_end] == ";") {
            take_type = place_type
            take_value = place_value
            last_hand[id_of(tok[i])] = ++hands
            return place_end + 1
        }
        if (carries(place_type) && tok[place_end] == "." && tok[place_end + 2] == "(")
            type = fn_type[method[place_type, tok[place_end + 1]]]
        else if (tok[i + 1] == "(" && is_made(tok[i]))
            type = tok[i] ~ /Output::/ ? "Output" : "Input"
        else if (tok[i + 1] == "(") {
            known = resolve(tok[i], crate)
            type = fn_type[known]
        } else if (tok[i + 1] == "{")
            type = last_of(tok[i])
    }
    end = walk(i, ";")
    if (!carries(type)) {
        if (touched > before && !known)
            say(i, name ": what becomes of a file here cannot be followed")
        type = ""
    }
    take_type = type
    take_value = carries(type) ? fresh(name, type, i) : ""
    return end + 1
}

function walk_statement(i,    start, before, name, id, pattern, other) {
    start = i
    before = touched
    given = 0
    if (tok[i] == "let") {
        i++
        if (tok[i] == "mut")
            i++
        name = tok[i]
        pattern = name ~ /^(Ok|Err|Some)$/ && tok[i + 1] == "(" && is_name(tok[i + 2]) && tok[i + 3] == ")"
        if (pattern)
            name = tok[i + 2]
        while (i <= n && tok[i] != "=")
            i++
        other = pattern ? else_of(i + 1) : 0
        if (other)
            tok[other] = ";"
        i = take(i + 1, name)
        if (other) {
            tok[other] = "else"
            if (carries(take_type))
                say(start, name ": what becomes of a file here cannot be followed")
            i = walk_else(other + 1)
            take_type = ""
            take_value = ""
            if (tok[i] == ";")
                i++
        }
        bind(name, take_type, take_value, level)
        if (carries(take_type) && name ~ /^_/)
            say(start, "the answer is thrown away")
        if (carries(take_type) && !is_file(take_type) && take_value !~ /\./ && !(take_value in kept))
            drop(start)
        given = 0
        return i
    }
    if (tok[i] == "return") {
        i = walk(i + 1, ";}")
        ended = 1
        given = 0
        return tok[i] == ";" ? i + 1 : i
    }
    if (is_unreachable(i)) {
        i = past(i + 2)
        ended = 1
        given = 0
        return tok[i] == ";" ? i + 1 : i
    }
    if (tok[i] ~ /^(if|match|while|loop|for)$/) {
        i = walk_control(i)
        if (given && tok[i] != "}")
            say(start, "the answer is thrown away")
        if (tok[i] == ";")
            i++
        return i
    }
    if (is_name(tok[i]) && tok[i + 1] == "=" && (id = id_of(tok[i]))) {
        i = take(i + 2, tok[i])
        if (carries(id_type[id])) {
            id_value[id] = take_value
            if (!carries(take_type))
                say(start, id_name[id] ": what becomes of a file here cannot be followed")
        }
        given = 0
        return i
    }
    i = walk(i, ";}")
    if (tok[i] == ";") {
        if (touched > before)
            say(start, "the answer is thrown away")
        given = 0
        return i + 1
    }
    given = touched > before
    return i
}

# walk_function F: once in silence, to learn which values are handed on, and once more.
function walk_function(f,    k) {
    split("", kept)
    loud = 0
    walk_once(f)
    for (k in handed) {
        sub(/\..*/, "", k)
        kept[k] = 1
    }
    loud = 1
    walk_once(f)
    for (k = 1; k <= owing; k++)
        if (!(owed[k] in kept))
            say(made_at[owed[k]], "what this makes of a file is never handed on")
}

function walk_once(f,    k, type) {
    ids = 0
    values = 0
    owing = 0
    level = 0
    touched = 0
    dropped = 0
    may_drop = !carries(fn_type[f])
    used = " "
    split("", handed)
    split("", last_hand)
    for (k = 1; k <= params[f]; k++) {
        type = param_type[f, k]
        if (!carries(type) && holds(type))
            say(fn_at[f], param[f, k] ": a file is not handed on by its value")
        bind(param[f, k], type, carries(type) ? param[f, k] "#" (++values) : "", 0)
    }
    if (!carries(fn_type[f]) && holds(fn_type[f]))
        say(fn_at[f], fn_name[f] ": a file is not handed on by its value")
    walk_block(fn_body[f])
}

END {
    loud = 1
    declare()
    learn()
    for (f = 1; f <= enums; f++)
        for (i = enum_at[f]; i < past(enum_at[f] + 2); i++)
            if (carries(last_of(tok[i])))
                say(i, "a file in an enum cannot be followed")
    for (i = 1; i <= holdings; i++)
        if (!carries(held[i]) && holds(held[i]))
            say(held_at[i], "a file in " held[i] " cannot be followed")
    for (f = 1; f <= functions; f++)
        if (fn_crate[f] == crate) {
            if (fn_owner[f] != "" && (makes[f] != "" || takes[f] || carries(fn_type[f])))
                say(fn_at[f], "a file in a method cannot be followed")
            walk_function(f)
        }
}
