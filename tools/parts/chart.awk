# An SVG chart of one answer: lines or bars, one for each series.
# The plot has 600 by 300 units. Points are kept by their series and by the place of their x among all x, which go by their worth where
# all are numbers or all are dates, and else as they first come.

BEGIN {
    LEFT = 90; TOP = 50; WIDE = 600; HIGH = 300
    x_word = ENVIRON["x"]; value_word = ENVIRON["value"]; series_word = ENVIRON["series"]
    plan_word = ENVIRON["plan"]; title = ENVIRON["title"]
    colours = split("#0072b2 #d55e00 #009e73 #cc79a7 #e69f00 #56b4e9 #7a5195 #000000", colour, " ")
}

part == "script" { cut($0); next }

{ take_line($0) }

END {
    if (status) exit status
    end_script()
    check_chosen()
    find_names()
    x_column = column_of(x_word)
    value_column = column_of(value_word)
    series_column = series_word == "" ? 0 : column_of(series_word)
    for (r = 1; r <= rows; r++) take_row(row_of[r])
    if (!points) quit("answer " chosen " has no value to draw")
    sort_places()
    find_plan()
    find_scale()
    draw()
}

function column_of(word,    i, list) {
    for (i = 1; i <= names; i++) {
        if (toupper(name[i]) == toupper(word)) return i
        list = list (i > 1 ? ", " : "") name[i]
    }
    if (word ~ /^[0-9]+$/ && word >= 1 && word <= names) return word + 0
    quit("answer " chosen " has no column " word ", it has " list)
}

function number_of(table, count, key) {
    if (!(key in table)) table[key] = count + 1
    return table[key]
}

function take_row(text,    value, s, p) {
    values_of(text, value)
    s = number_of(series_number, all_series, series_column ? content_of(value[series_column]) : "")
    if (s > all_series) series_name[all_series = s] = series_column ? content_of(value[series_column]) : ""
    p = number_of(place_number, places, content_of(value[x_column]))
    if (p > places) x_at[places = p] = content_of(value[x_column])
    if ((s, p) in drawn) quit("two rows have " x_at[p] " in column " name[x_column] (series_column ? " and " series_name[s] : "") \
        "; --series names the column that tells them apart")
    drawn[s, p] = value[value_column]
    if (value[value_column] == "NULL") return
    if (value[value_column] !~ /^-?[0-9]+([.][0-9]+)?$/) quit("column " name[value_column] " has " value[value_column] ", which is no number")
    if (!points || value[value_column] + 0 < least) least = value[value_column] + 0
    if (!points || value[value_column] + 0 > most) most = value[value_column] + 0
    points++
}

# order[k] is the place in x_at of the k-th x of the chart.
function sort_places(    k, j, p) {
    are_numbers = are_dates = 1
    for (p = 1; p <= places; p++) {
        if (x_at[p] !~ /^-?[0-9]+([.][0-9]+)?$/) are_numbers = 0
        if (x_at[p] !~ /^[0-9][0-9][0-9][0-9]-[0-9][0-9]-[0-9][0-9]$/) are_dates = 0
    }
    for (k = 1; k <= places; k++) {
        for (j = k; j > 1 && comes_before(x_at[k], x_at[order[j - 1]]); j--) order[j] = order[j - 1]
        order[j] = k
    }
}

function comes_before(a, b) {
    return are_numbers ? a + 0 < b + 0 : are_dates && (a "") < (b "")
}

# The number of the x from which on the chart shows a plan, or one behind the last.
function find_plan(    k) {
    for (plan_from = 1; plan_from <= places; plan_from++) if (x_at[order[plan_from]] == plan_word) return
    if (plan_word != "") quit("no row has " plan_word " in column " name[x_column])
}

# The lines of the grid go from `low` to `high` by `step`, which is 1, 2 or 5 times a power of ten.
function find_scale(    range, power) {
    if (kind == "bar" && least > 0) least = 0
    if (kind == "bar" && most < 0) most = 0
    range = most > least ? most - least : most < 0 ? -most : most > 0 ? most : 1
    for (power = 1; power * 10 <= range / 5; power *= 10) digits = 0
    for (digits = 0; power > range / 5 && digits < 12; digits++) power /= 10
    step = power * 5 >= range ? power : power * 10 >= range ? 2 * power : power * 25 >= range ? 5 * power : 10 * power
    if (step >= 10 * power && digits) digits--
    low = step * floor(least / step)
    high = step * -floor(-most / step)
    if (high <= low) high = low + step
}

function floor(a) {
    return a < int(a) ? int(a) - 1 : int(a)
}

# A length with at most one digit behind the point.
function length_text(a,    text) {
    text = sprintf("%.1f", a)
    sub(/[.]0$/, "", text)
    return text == "-0" ? "0" : text
}

function scale_text(a,    text) {
    text = sprintf("%." digits "f", a)
    return length(text) > 10 ? sprintf("%.3g", a) : text
}

function escaped(text) {
    gsub(/&/, "\\&amp;", text)
    gsub(/</, "\\&lt;", text)
    gsub(/>/, "\\&gt;", text)
    return text
}

# The characters of a text in UTF-8, of which awk sees the bytes.
function width_of(text) {
    gsub(/[\200-\277]/, "", text)
    return length(text)
}

function y_of(a) {
    return TOP + HIGH - HIGH * (a - low) / (high - low)
}

function x_of(k,    first, last) {
    if (kind == "bar" || !are_numbers || places == 1) return LEFT + WIDE * (k - 0.5) / places
    first = x_at[order[1]]
    last = x_at[order[places]]
    return LEFT + 30 + (WIDE - 60) * (x_at[order[k]] - first) / (last - first)
}

function text_at(x, y, anchor, text, more) {
    printf "<text x=\"%s\" y=\"%s\" text-anchor=\"%s\"%s>%s</text>\n", length_text(x), length_text(y), anchor, more, escaped(text)
}

function line_between(x1, y1, x2, y2, stroke) {
    printf "<line x1=\"%s\" y1=\"%s\" x2=\"%s\" y2=\"%s\" stroke=\"%s\"/>\n", length_text(x1), length_text(y1), length_text(x2), length_text(y2), stroke
}

function colour_of(s) {
    return colour[(s - 1) % colours + 1]
}

function draw(    s, wide, tall) {
    for (s = 1; s <= all_series; s++) if (width_of(series_name[s]) > wide) wide = width_of(series_name[s])
    wide = LEFT + WIDE + (series_column ? 60 + 7 * wide : 30)
    tall = TOP + 20 * all_series + 10
    if (tall < 410) tall = 410
    printf "<svg xmlns=\"http://www.w3.org/2000/svg\" viewBox=\"0 0 %d %d\" width=\"%d\" height=\"%d\"", wide, tall, wide, tall
    print " font-family=\"sans-serif\" font-size=\"12\">"
    if (title != "") print "<title>" escaped(title) "</title>"
    print "<rect width=\"100%\" height=\"100%\" fill=\"#ffffff\"/>"
    if (title != "") text_at(LEFT, 28, "start", title, " font-size=\"15\"")
    draw_scale()
    draw_names()
    for (s = 1; s <= all_series; s++) {
        if (kind == "bar") draw_bars(s)
        else draw_line(s)
        if (series_column) draw_key(s)
    }
    print "</svg>"
}

function draw_scale(    n, count, a) {
    count = floor((high - low) / step + 0.5)
    for (n = 0; n <= count; n++) {
        a = low + n * step
        line_between(LEFT, y_of(a), LEFT + WIDE, y_of(a), n == 0 || floor(a / step + 0.5) == 0 ? "#555555" : "#dddddd")
        text_at(LEFT - 8, y_of(a) + 4, "end", scale_text(a))
    }
    text_at(20, TOP + HIGH / 2, "middle", name[value_column], " transform=\"rotate(-90 20 " TOP + HIGH / 2 ")\"")
}

# As many names as have room beside each other.
function draw_names(    k, every, longest) {
    for (k = 1; k <= places; k++) if (width_of(x_at[k]) > longest) longest = width_of(x_at[k])
    every = floor((7 * longest + 10) * places / WIDE) + 1
    for (k = 1; k <= places; k += every) text_at(x_of(k), TOP + HIGH + 20, "middle", x_at[order[k]])
    text_at(LEFT + WIDE / 2, TOP + HIGH + 44, "middle", name[x_column])
}

function draw_bars(s,    k, group, wide, a) {
    group = 0.8 * WIDE / places
    wide = group / all_series
    for (k = 1; k <= places; k++) {
        if (!is_drawn(s, k)) continue
        a = drawn[s, order[k]]
        printf "<rect x=\"%s\" y=\"%s\" width=\"%s\" height=\"%s\" fill=\"%s\"%s>%s</rect>\n", length_text(x_of(k) - group / 2 + (s - 1) * wide), \
            length_text(y_of(a > 0 ? a : 0)), length_text(wide), length_text(HIGH * (a > 0 ? a : -a) / (high - low)), colour_of(s), \
            (k < plan_from ? "" : " fill-opacity=\"0.5\""), hint(s, k)
    }
}

function is_drawn(s, k) {
    return (s, order[k]) in drawn && drawn[s, order[k]] != "NULL"
}

function hint(s, k) {
    return "<title>" escaped((series_column ? series_name[s] ", " : "") x_at[order[k]] ": " drawn[s, order[k]]) "</title>"
}

# A line joins the points of a series; where a value is NULL it is broken, and what leads to a plan is dashed.
function draw_line(s,    k, last, radius) {
    radius = places > 60 ? 1 : 3.5
    for (k = 1; k <= places; k++) {
        if (!((s, order[k]) in drawn)) continue
        if (!is_drawn(s, k)) { last = 0; continue }
        if (last) {
            printf "<line x1=\"%s\" y1=\"%s\" x2=\"%s\" y2=\"%s\" stroke=\"%s\" stroke-width=\"2\"%s/>\n", length_text(x_of(last)), \
                length_text(y_of(drawn[s, order[last]])), length_text(x_of(k)), length_text(y_of(drawn[s, order[k]])), colour_of(s), \
                (k < plan_from ? "" : " stroke-dasharray=\"6 4\"")
        }
        last = k
    }
    for (k = 1; k <= places; k++) {
        if (!is_drawn(s, k)) continue
        printf "<circle cx=\"%s\" cy=\"%s\" r=\"%s\" fill=\"%s\" stroke=\"%s\" stroke-width=\"2\">%s</circle>\n", length_text(x_of(k)), \
            length_text(y_of(drawn[s, order[k]])), radius, (k < plan_from ? colour_of(s) : "#ffffff"), colour_of(s), hint(s, k)
    }
}

function draw_key(s,    y) {
    y = TOP + 20 * s - 10
    printf "<rect x=\"%d\" y=\"%d\" width=\"12\" height=\"12\" fill=\"%s\"/>\n", LEFT + WIDE + 20, y - 10, colour_of(s)
    text_at(LEFT + WIDE + 38, y, "start", series_name[s])
}
