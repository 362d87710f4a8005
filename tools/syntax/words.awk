# A syntax file from the table of reserved words: `form` is vim or tmLanguage.json.
# Aggregates are told by the table; which words are kinds, calls and values is said here, and all others are keywords.

BEGIN {
    sort_words("INT DECIMAL TEXT DATE", "kind")
    sort_words("ABS CAST CV FLOOR LENGTH NVL PRESENTNNV PRESENTV PREVIOUS ROUND", "call")
    sort_words("NULL ITERATION_NUMBER", "value")
}

function sort_words(list, sort,    n, i, word) {
    n = split(list, word, " ")
    for (i = 1; i <= n; i++) sort_of[word[i]] = sort
}

/^ *\("[A-Z_]+", Terminal::/ {
    split($0, part, "\"")
    word = part[2]
    sort = $0 ~ /Terminal::Aggregate/ ? "call" : word in sort_of ? sort_of[word] : "keyword"
    list[sort] = list[sort] (list[sort] == "" ? "" : " ") word
    is_there[word] = 1
    words++
}

END {
    for (word in sort_of) if (!(word in is_there)) missing = missing " " word
    if (!words || missing != "") {
        print FILENAME ": no reserved words:" missing | "cat 1>&2"
        exit 1
    }
    if (form == "vim") write_vim()
    else write_grammar()
}

function write_vim() {
    print "\" Vim syntax file for scripts of Neskawan, written by tools/syntax/make."
    print "\" It goes into ~/.vim/syntax, and `:set filetype=neskawan` puts it to use."
    print "if exists(\"b:current_syntax\")"
    print "  finish"
    print "endif"
    print ""
    print "syntax case ignore"
    print "syntax iskeyword @,48-57,_"
    print "syntax keyword neskawanKeyword " list["keyword"]
    print "syntax keyword neskawanKind " list["kind"]
    print "syntax keyword neskawanCall " list["call"]
    print "syntax keyword neskawanValue " list["value"]
    print "syntax match neskawanNumber \"\\%(\\<\\d\\+\\%(\\.\\d\\+\\)\\=\\|\\.\\d\\+\\)\""
    print "syntax region neskawanText start=\"'\" skip=\"''\" end=\"'\""
    print "syntax match neskawanComment \"--.*$\""
    print "syntax region neskawanComment start=\"/\\*\" end=\"\\*/\""
    print ""
    print "highlight default link neskawanKeyword Keyword"
    print "highlight default link neskawanKind Type"
    print "highlight default link neskawanCall Function"
    print "highlight default link neskawanValue Constant"
    print "highlight default link neskawanNumber Number"
    print "highlight default link neskawanText String"
    print "highlight default link neskawanComment Comment"
    print ""
    print "let b:current_syntax = \"neskawan\""
}

function write_grammar() {
    print "{"
    print "  \"comment\": \"Written by tools/syntax/make.\","
    print "  \"name\": \"Neskawan\","
    print "  \"scopeName\": \"source.neskawan\","
    print "  \"fileTypes\": [\"neskawan\"],"
    print "  \"patterns\": ["
    print "    { \"name\": \"comment.line.double-dash.neskawan\", \"match\": \"--.*$\" },"
    print "    { \"name\": \"comment.block.neskawan\", \"begin\": \"/\\\\*\", \"end\": \"\\\\*/\" },"
    print "    {"
    print "      \"name\": \"string.quoted.single.neskawan\", \"begin\": \"'\", \"end\": \"'(?!')\","
    print "      \"patterns\": [{ \"name\": \"constant.character.escape.neskawan\", \"match\": \"''\" }]"
    print "    },"
    print "    { \"name\": \"constant.numeric.neskawan\", \"match\": \"(?<![A-Za-z0-9_])[0-9]+(\\\\.[0-9]+)?|\\\\.[0-9]+\" },"
    print word_pattern("keyword.other", "keyword")
    print word_pattern("storage.type", "kind")
    print word_pattern("support.function", "call")
    print word_pattern("constant.language", "value")
    print "    { \"name\": \"keyword.operator.neskawan\", \"match\": \"<>|!=|<=|>=|\\\\|\\\\||[=<>+*/-]\" }"
    print "  ]"
    print "}"
}

function word_pattern(scope, sort,    choice) {
    choice = list[sort]
    gsub(/ /, "|", choice)
    return "    { \"name\": \"" scope ".neskawan\", \"match\": \"(?i)\\\\b(" choice ")\\\\b\" },"
}
