# The statements of a script, cut as docs/LANGUAGE.md, "Where a statement ends", has it: at each `;` outside of texts and comments.
# Statement n begins on line line_of[n], and first_of[n] is what this line has of it. Of queries, CREATE, SHOW and COMPARE body_of[n] is the
# text, with a blank in place of each comment. `statements` counts them. Each line goes to `cut`, and then `end_script` is called once.

function begin_statement(number, text) {
    statements++
    line_of[statements] = number
    first_of[statements] = text
    is_open = 1
    is_kept = toupper(text) ~ /^(SELECT|CREATE|SHOW|COMPARE)([^A-Z0-9_]|$)/
    body_of[statements] = ""
}

# What stands outside of comments; `behind` is the rest of the line from there on.
function add_piece(piece, behind) {
    if (!is_open) {
        if (piece !~ /[^ \t\r]/) return
        match(behind, /[^ \t\r]/)
        begin_statement(FNR, substr(behind, RSTART))
        began_here = 1
    }
    if (is_kept) body_of[statements] = body_of[statements] piece
}

# The statement ends before what is left of its line.
function end_statement(left) {
    if (is_open && began_here) {
        first_of[statements] = substr(first_of[statements], 1, length(first_of[statements]) - length(left))
    }
    is_open = 0
    began_here = 0
}

function cut(text,    sign) {
    began_here = 0
    while (text != "") {
        if (within == "comment") {
            if (!match(text, /\*\//)) return
            within = ""
            text = substr(text, RSTART + 2)
            if (is_open) add_piece(" ", text)
        } else if (within == "text") {
            if (!match(text, /'/)) RSTART = length(text)
            else within = ""
            add_piece(substr(text, 1, RSTART), text)
            text = substr(text, RSTART + 1)
        } else if (!match(text, /'|;|--|\/\*/)) {
            add_piece(text, text)
            text = ""
        } else {
            sign = substr(text, RSTART, RLENGTH)
            text = after_sign(text, sign, RSTART)
        }
    }
    if (is_open) add_piece(" ", "")
}

# A sign that may end a piece stands at a place of a line: what is left of the line behind it.
function after_sign(text, sign, at) {
    if (at > 1) add_piece(substr(text, 1, at - 1), text)
    text = substr(text, at)
    if (sign == "--") return ""
    if (sign == ";") end_statement(text)
    if (sign == "'") {
        add_piece(sign, text)
        within = "text"
    }
    if (sign == "/*") {
        within = "comment"
        comment_line = FNR
        comment_text = text
    }
    return substr(text, length(sign) + 1)
}

# A comment that nothing closes is a token up to the end, and so a statement where none is open.
function end_script(    n) {
    if (within == "comment" && !is_open) begin_statement(comment_line, comment_text)
    for (n = 1; n <= statements; n++) sub(/[ \t\r]+$/, "", first_of[n])
}
