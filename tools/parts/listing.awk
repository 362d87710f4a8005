# Each statement's number and first line before its answer.

part == "script" { cut($0); next }

!begun { begun = 1; end_script() }

{
    was_short = is_short
    take_line($0)
    if (!was_short) print heading(answers)
    print
}

END {
    if (!begun) end_script()
    if (answers != statements || is_short) {
        quit("the script has " statements + 0 " statements, and the output " answers - (is_short + 0) " whole answers")
    }
}

function heading(n) {
    return n in line_of ? "-- " n ", line " line_of[n] ": " first_of[n] : "-- " n
}
