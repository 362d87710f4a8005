# The answers of an output: lines of rows up to `rows N`, steps up to `steps N`, or one line `ok`, `ok N`, `fault ..` or `error ..`. That of
# a COMPARE has a part for each scenario that its statement names: `scenario NAME`, and then rows, or one line `fault ..` or `refused ..`.
# Each line goes to `take_line`, behind the script. `answers` counts the answers that are begun, `is_short` is set in the middle of one, and
# end_of[n] is the last line of answer n, or of its first part that has no rows. Of the answer `wanted` (0 stands for the last one that has
# rows, in all its parts) row_of[1] to row_of[rows] are the rows, each of a COMPARE with the scenario's name as its first value.

# A row begins with a quote, a digit, a minus or NULL, and a step with a name, which has no small letters; so neither is one of these.
function is_end(text) {
    return text ~ /^(ok|rows |steps |fault |error |refused )/
}

function take_line(text) {
    if (!is_short) begin_answer(text)
    if (text ~ /^scenario /) {
        scenario = substr(text, length("scenario ") + 1)
        return
    }
    if (is_end(text)) end_part(text)
    else row_here[++rows_here] = (scenario == "" ? "" : "'" scenario "'|") text
}

function begin_answer(text) {
    answers++
    is_short = 1
    rows_here = 0
    scenario = ""
    parts_left = text ~ /^scenario / ? scenarios_of(body_of[answers]) : 1
    end_of[answers] = "rows "
}

# How many scenarios the text of a COMPARE names.
function scenarios_of(text) {
    return gsub(/,/, "", text) + 1
}

function end_part(text) {
    if (end_of[answers] ~ /^rows /) end_of[answers] = text ~ /^rows / || scenario == "" ? text : "scenario " scenario ": " text
    is_short = --parts_left > 0
    if (!is_short && (answers == wanted || (!wanted && end_of[answers] ~ /^rows /))) keep_rows()
}

function keep_rows(    r) {
    chosen = answers
    rows = rows_here
    for (r = 1; r <= rows; r++) row_of[r] = row_here[r]
}

# The values of a printed row, value[1] and on; how many they are.
function values_of(text, value,    n) {
    n = 0
    while (1) {
        if (!match(text, /^'([^']|'')*'/)) match(text, /^[^|]*/)
        value[++n] = substr(text, 1, RLENGTH)
        text = substr(text, RLENGTH + 1)
        if (text == "") return n
        text = substr(text, 2)
    }
}

# What a printed value says: a text without its quotes.
function content_of(value) {
    if (value !~ /^'/) return value
    value = substr(value, 2, length(value) - 2)
    gsub(/''/, "'", value)
    return value
}

function quit(message) {
    print program ": " message | "cat 1>&2"
    close("cat 1>&2")
    status = 1
    exit 1
}

# Ends where there is no answer of that number, or it has no rows.
function check_chosen() {
    if (answers != statements || is_short) {
        quit("the script has " statements + 0 " statements, and the output " answers - (is_short + 0) " whole answers")
    }
    if (!wanted && !chosen) quit("no answer has rows")
    if (wanted > answers) quit("there is no answer " wanted ", the last one is " answers + 0)
    if (wanted && end_of[wanted] !~ /^rows /) quit("answer " wanted " has no rows, it is: " end_of[wanted])
}
