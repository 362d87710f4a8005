# The names of the columns of an answer, from the SELECT list of its statement.

# The tokens of a text, token[1] and on, and whether a blank stands before each; how many they are.
function tokens_of(text, token, blank,    n) {
    n = 0
    while (match(text, /[^ \t\r]/)) {
        blank[++n] = RSTART > 1
        text = substr(text, RSTART)
        if (!match(text, /^('([^']|'')*'|[A-Za-z][A-Za-z0-9_]*|[0-9]+([.][0-9]+)?|[.][0-9]+|<>|!=|<=|>=|[|][|])/)) RLENGTH = 1
        token[n] = substr(text, 1, RLENGTH)
        text = substr(text, RLENGTH + 1)
    }
    return n
}

function is_name(word) {
    return word ~ /^[A-Za-z]/ && toupper(word) !~ /^(END|NULL|ITERATION_NUMBER)$/
}

# An item is known by its alias, a plain column by its own name, and any other by its text.
function name_of(token, blank, from, to,    before, i, text) {
    before = from < to ? token[to - 1] : ""
    if (is_name(token[to])) {
        if (from == to || (before == "." && to == from + 2)) return token[to]
        if (before ~ /^([])]|[A-Za-z0-9']|[.][0-9])/) return token[to]
    }
    for (i = from; i <= to; i++) text = text (blank[i] && i > from ? " " : "") token[i]
    return text
}

function depth_of(sign) {
    return sign ~ /^[[(]$/ ? 1 : sign ~ /^[])]$/ ? -1 : 0
}

# The last of these places from which the words stand outside of brackets, or 0.
function place_of(token, n, first, second,    i, depth, found) {
    for (i = 1; i <= n; i++) {
        depth += depth_of(token[i])
        if (depth == 0 && toupper(token[i]) == first && (second == "" || toupper(token[i + 1]) == second)) found = i
    }
    return found + 0
}

# Puts the names of a list behind the names that are there: from a place up to the bracket or the word that ends the list.
function list_names(token, blank, n, at,    i, depth, from) {
    from = at
    for (i = at; i <= n + 1; i++) {
        if (depth == 0 && (i > n || token[i] == "," || token[i] == ")" || toupper(token[i]) == "FROM")) {
            if (token[from] == "*" && i == from + 1) star_names(token, blank, n)
            else name[++names] = name_of(token, blank, from, i - 1)
            if (i > n || token[i] != ",") return
            from = i + 1
        } else depth += depth_of(token[i])
    }
}

# A star has the columns of the model, or else those of the tables behind FROM.
function star_names(token, blank, n,    at, i, depth) {
    if (place_of(token, n, "MODEL", "")) {
        at = place_of(token, n, "PARTITION", "BY")
        if (at) list_names(token, blank, n, at + 3)
        list_names(token, blank, n, place_of(token, n, "DIMENSION", "BY") + 3)
        list_names(token, blank, n, place_of(token, n, "MEASURES", "") + 2)
        return
    }
    for (i = place_of(token, n, "FROM", ""); i <= n; i++) {
        if (depth == 0 && toupper(token[i]) ~ /^(WHERE|GROUP|ORDER)$/) return
        if (depth == 0 && toupper(token[i]) ~ /^(FROM|JOIN|,)$/) table_names(token[i + 1])
        depth += depth_of(token[i])
    }
}

# The statement before another that made a table or view of a name, or 0.
function maker_of(sort, made, before,    s, token, blank) {
    for (s = before - 1; s > 0; s--) {
        if (end_of[s] != "ok" || toupper(body_of[s]) !~ ("^[ \t\r]*CREATE[ \t\r]+" sort "[^A-Z0-9_]")) continue
        tokens_of(body_of[s], token, blank)
        if (toupper(token[3]) == toupper(made)) return s
    }
    return 0
}

function table_names(table,    s, n, token, blank, i, depth) {
    s = maker_of("TABLE", table, chosen)
    n = tokens_of(body_of[s], token, blank)
    for (i = 4; i <= n; i++) {
        if (depth == 1 && token[i - 1] ~ /^[(,]$/ && toupper(token[i]) != "PRIMARY") name[++names] = token[i]
        depth += depth_of(token[i])
    }
}

# name[1] to name[names] are the columns of the chosen answer; the first of a COMPARE has its scenarios.
function find_names(    s, n, token, blank) {
    s = chosen
    n = tokens_of(body_of[s], token, blank)
    names = 0
    if (toupper(token[1]) == "COMPARE") name[++names] = "SCENARIO"
    if (toupper(token[1]) ~ /^(SHOW|COMPARE)$/) {
        s = maker_of("VIEW", token[2], s)
        sub(/^[ \t\r]*[A-Za-z]+[ \t\r]+[A-Za-z]+[ \t\r]+[A-Za-z0-9_]+[ \t\r]+[A-Za-z]+/, "", body_of[s])
        n = tokens_of(body_of[s], token, blank)
    }
    list_names(token, blank, n, 2)
}
