# One answer as CSV. NULL is an empty field; a text that is empty, or has a comma, a quote or a blank at an end, stands in quotes.

part == "script" { cut($0); next }

{ take_line($0) }

END {
    end_script()
    check_chosen()
    if (header) {
        find_names()
        for (i = 1; i <= names; i++) printf "%s%s", field_of(name[i]), (i < names ? "," : "\n")
    }
    for (r = 1; r <= rows; r++) print csv_line(row_of[r])
}

function csv_line(text,    value, n, i, line) {
    n = values_of(text, value)
    for (i = 1; i <= n; i++) {
        line = line (i > 1 ? "," : "") (value[i] == "NULL" ? "" : value[i] ~ /^'/ ? field_of(content_of(value[i])) : value[i])
    }
    return line
}

function field_of(text) {
    if (text != "" && text !~ /[",]|^ | $/) return text
    gsub(/"/, "\"\"", text)
    return "\"" text "\""
}
