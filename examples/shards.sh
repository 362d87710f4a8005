#!/bin/sh
# Runs a plan over more rows than one session holds, a range of partition keys at a time (docs/SCALE.md).
#
#   examples/shards.sh cut sales.csv PROD 8 plan.sql room     writes room/shard-001.sql to room/shard-008.sql
#   ls room/*.sql | xargs -n 1 -P 4 examples/shards.sh run    runs each; any engine that takes a command does in place of xargs
#   examples/shards.sh join room > rows.txt                   writes the rows of all, as one session would print them
#
# The plan makes its table, has a line `-- rows of TABLE` where the rows go, and ends with one query, which begins its ORDER BY with the
# key, ascending, and has it in PARTITION BY. The first record of the CSV file names columns of the table. An empty field is NULL.
# NESKAWAN is the program, `neskawan` where it is not set.

usage() {
    echo "usage: examples/shards.sh cut CSV KEY SHARDS PLAN ROOM | run SHARD | join ROOM" >&2
    exit 2
}

quit() {
    echo "examples/shards.sh: $*" >&2
    exit 1
}

# What the two readings of the CSV file have in common. The plan comes first, then, the second time, the keys with their shards.
common='
function quit(message) { print message | "cat 1>&2"; failed = 1; exit 1 }

# The kinds of the columns of the table, from the line of its CREATE TABLE on.
part == "plan" {
    if (!marked) {
        text = text " " $0
        head = head $0 "\n"
    } else tail = tail $0 "\n"
    if ($0 ~ /^-- rows of [A-Za-z]/) { table = $4; marked = 1 }
    next
}

part == "keys" {
    split($0, k, "\t")
    shard_of[k[1] "\t" k[2]] = 1 + int(before * shards / total)
    before += k[3]
    next
}

FNR == 1 {
    sub(/\r$/, "")
    if (!marked) quit("the plan has no line: -- rows of TABLE")
    upper = toupper(text)
    if (!match(upper, "CREATE +TABLE +" toupper(table) " *[(]")) quit("the plan makes no table " table)
    upper = "," substr(upper, RSTART + RLENGTH)
    columns = fields($0, column)
    for (c = 1; c <= columns; c++) {
        if (!match(upper, ", *" toupper(column[c]) " +(INT|DECIMAL|TEXT)")) quit("the table has no column " column[c])
        is_text[c] = substr(upper, RSTART, RLENGTH) ~ /TEXT$/
        names = names (c > 1 ? "," : "") column[c]
        if (toupper(column[c]) != toupper(key)) continue
        key_column = c
        digits = substr(upper, RSTART, RLENGTH) ~ /INT$/ ? 0 : substr(upper, RSTART + RLENGTH + 1) + 0
    }
    if (!key_column) quit("the CSV file has no column " key)
    next
}

{
    sub(/\r$/, "")
    if (fields($0, field) != columns) quit("record " FNR " has another number of fields")
    for (c = 1; c <= columns; c++) {
        if (field[c] != "" && !is_text[c] && field[c] !~ /^[+-]?([0-9]+([.][0-9]+)?|[.][0-9]+)$/) quit("record " FNR ": " field[c] " is no number")
    }
    # Two spellings of one number are one key, and so would be what the table rounds to one.
    if (!is_text[key_column] && match(field[key_column], /[.].*/) && RLENGTH - 1 > digits) quit("record " FNR ": the key would be rounded")
    name = field[key_column] == "" ? "1\t" : "0\t" (is_text[key_column] ? field[key_column] : sprintf("%.12f", field[key_column]))
}

function fields(line, f,    n, x) {
    while (1) {
        if (line ~ /^"/ && match(line, /^"([^"]|"")*"/)) {
            x = substr(line, 2, RLENGTH - 2)
            gsub(/""/, "\"", x)
        } else {
            match(line, /^[^,]*/)
            x = substr(line, 1, RLENGTH)
        }
        line = substr(line, RLENGTH + 1)
        f[++n] = x
        if (line == "") return n
        line = substr(line, 2)
    }
}
'

# Each key with its rows, in the order of the tool: numbers by worth, texts by bytes, null last.
count_keys='
{ rows[name]++ }
END {
    if (failed) exit 1
    sort = "LC_ALL=C sort -t \"\t\" -k 1,1 -k 2,2" (is_text[key_column] ? "" : "n")
    for (name in rows) print name "\t" rows[name] | sort
    close(sort)
}
'

write_shards='
{
    s = shard_of[name]
    row = ""
    for (c = 1; c <= columns; c++) row = row (c > 1 ? "," : "") (field[c] == "" ? "NULL" : is_text[c] ? quoted(field[c]) : field[c])
    if (!(s in count)) printf "%s", head > file(s)
    if (count[s] % 500 == 0) printf "%sINSERT INTO %s VALUES\n(%s)", (count[s] ? ";\n" : ""), table " (" names ")", row > file(s)
    else printf ",\n(%s)", row > file(s)
    count[s]++
}
function quoted(text) { gsub(/\047/, "\047\047", text); return "\047" text "\047" }
function file(s) { return room "/" sprintf("shard-%03d.sql", s) }
END {
    if (failed) exit 1
    for (s in count) printf ";\n%s", tail > file(s)
}
'

cut_rows() {
    [ $# = 5 ] || usage
    case $3 in 0* | *[!0-9]* | ????* | '') usage ;; esac
    if [ ! -f "$1" ] || [ ! -f "$4" ]; then quit "there is no file $1 or no file $4"; fi
    mkdir -p "$5" || exit 1
    rm -f "$5"/shard-*.sql "$5"/shard-*.out "$5"/shard-*.status
    LC_ALL=C "${AWK:-awk}" -v key="$2" "$common$count_keys" part=plan "$4" part=rows "$1" > "$5/keys" || exit 1
    total=$("${AWK:-awk}" -F '\t' '{ total += $NF } END { print total + 0 }' "$5/keys")
    [ "$total" -gt 0 ] || quit "there are no rows"
    LC_ALL=C "${AWK:-awk}" -v key="$2" -v shards="$3" -v total="$total" -v room="$5" "$common$write_shards" \
        part=plan "$4" part=keys "$5/keys" part=rows "$1"
}

run_shard() {
    [ $# = 1 ] || usage
    "${NESKAWAN:-neskawan}" < "$1" > "${1%.sql}.out"
    echo $? > "${1%.sql}.status"
}

# Nothing is joined where a shard was not run or did not end with status 0.
join_answers() {
    [ $# = 1 ] || usage
    failed=0
    for shard in "$1"/shard-*.sql; do
        status=$(cat "${shard%.sql}.status" 2> /dev/null)
        if [ "$status" != 0 ]; then
            echo "$shard: status ${status:-none}" >&2
            grep -E '^(fault|error) ' "${shard%.sql}.out" >&2 2> /dev/null
            failed=1
        fi
    done
    [ $failed = 0 ] || exit 1
    LC_ALL=C "${AWK:-awk}" '
        FNR == 1 { total += write_last() }
        /^(ok|rows )/ { last = rows; rows = 0; is_query = /^rows /; next }
        { row[++rows] = $0 }
        function write_last(    r) { if (!is_query) last = 0; for (r = 1; r <= last; r++) print row[r]; rows = 0; is_query = 0; return last }
        END { total += write_last(); print "rows " total }
    ' "$1"/shard-*.out
}

word=${1-}
[ $# -gt 0 ] && shift
case $word in
cut) cut_rows "$@" ;;
run) run_shard "$@" ;;
join) join_answers "$@" ;;
*) usage ;;
esac
