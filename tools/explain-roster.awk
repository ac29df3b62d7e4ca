# Why a roster file is refused, a line for each cause, ten at most; read behind csv-lines.awk. docs/RULES.md, 12, has the rules,
# crates/listing_format/specs/Format.antt their definition, docs/PLANNERS.md what to do about each cause. With tell=conflicts, of
# a file that is accepted: the capacity keys that several duties hold.
# `header` is the first line that is wanted, `most` how many bytes were kept at most. Numbers are compared as strings of digits:
# awk's own are exact up to 2^53 only. What is read behind this file may set `judged_elsewhere`, and tell what it finds here itself.
BEGIN {
    fields = split(header, heading, ",")
    told_at_most = 10
    for (i = 1; i < 256; i++) number_of[character[i]] = i
}

# ---- what is told

# a cause of 9, and one of 1, which the program looks for only where there is none of 9
function cause(words) { if (++causes <= told_at_most) cause_of[causes] = words }
function limit(words) { if (++limits <= told_at_most) limit_of[limits] = words }

function tell_causes(    i, told) {
    for (i = 1; i <= causes && told < told_at_most; i++) print cause_of[++told]
    for (i = 1; i <= limits && told < told_at_most; i++) { print limit_of[i]; told++ }
    if (causes + limits > told) print "and " (causes + limits - told) " more"
}

function grouped(n,    digits) {
    for (digits = ""; n >= 1000; n = int(n / 1000)) digits = sprintf(",%03d", n % 1000) digits
    return n digits
}

# text between quotes, on one line, cut where it is long; a byte that is no text by its number
function shown(words,    i, c, out) {
    for (i = 1; i <= length(words) && i <= 60; i++) {
        c = substr(words, i, 1)
        out = out (c ~ /[ -~]/ ? c : sprintf("\\x%02X", number_of[c]))
    }
    return "\"" out "\"" (length(words) > 60 ? " and so on" : "")
}

function cell(i, k) { return " (cell " substr("ABCDE", k, 1) i ")" }

# ---- the file as a whole

function starts_with(bytes,    n, part, i) {
    n = split(bytes, part, " ")
    for (i = 1; i <= n; i++) if (substr(text[1], i, 1) != character[part[i]]) return 0
    return 1
}

# what a spreadsheet writes under another name; nothing else is worth telling of it
function judge_kind() {
    if (starts_with("80 75 3 4") || starts_with("208 207 17 224"))
        cause("the file is a workbook and no text: save the sheet as comma-separated values")
    else if (starts_with("255 254") || starts_with("254 255"))
        cause("the file is UTF-16 text: save the sheet as comma-separated values")
    else return 1
    return 0
}

function judge_mark() {
    if (!starts_with("239 187 191")) return
    cause("the file begins with a byte order mark: none is wanted")
    text[1] = substr(text[1], 4)
}

function judge_line_ends(    i, kind, kinds, count, first, ended) {
    split("LF,CR,CR CR LF", kinds, ",")
    for (i = 1; i <= lines; i++) {
        if (ending[i] != "") ended++
        if (!count[ending[i]]++) first[ending[i]] = i
    }
    for (i = 1; i <= 3; i++) {
        kind = kinds[i]
        if (!count[kind]) continue
        if (count[kind] == ended && kind == "LF") cause("the file has Unix line ends (LF): CR LF is wanted")
        else if (count[kind] == ended) cause("all lines end in " kind ": CR LF is wanted")
        else cause("line " first[kind] " ends in " kind ": CR LF is wanted" others(count[kind] - 1))
    }
}

function others(n) { return n == 0 ? "" : n == 1 ? " (and so does 1 line more)" : " (and so do " n " lines more)" }

# the separator that the first line has
function judge_separator() {
    separator = ","
    if (index(text[1], ",")) return
    if (index(text[1], ";")) separator = ";"
    else if (index(text[1], "\t")) separator = "\t"
    if (separator != ",") cause("the fields are separated by " (separator == ";" ? "semicolons" : "tabs") ": commas are wanted")
}

function judge_header(    found, bare, i) {
    found = text[1]
    if (separator != ",") gsub(separator, ",", found)
    if (found == header) return
    bare = found
    gsub(/"/, "", bare)
    if (bare == header) cause("line 1: the header has quotation marks: none is wanted")
    else if (found == "") cause("line 1 is blank: " header " is wanted")
    else if (found ~ /^[0-9]/) cause("line 1: the header is missing: it is " shown(text[1]) ", and " header " is wanted")
    else {
        for (i = 1; substr(found, i, 1) == substr(header, i, 1); i++);
        cause("line 1: the header is " shown(text[1]) ": " header " is wanted (from character " i " on)")
    }
}

# ---- a line

function judge_line(i,    field, count, rest) {
    rest = text[i]
    gsub(separator, "", rest)
    count = split(text[i], field, separator)
    if (text[i] == "") cause("line " i " is blank: delete it")
    else if (index(text[i], "\"")) cause("line " i ", character " index(text[i], "\"") ": a quotation mark: none is wanted")
    else if (rest == "") cause("line " i " has empty fields alone: delete that row of the sheet")
    else if (count != fields)
        cause("line " i " has " count (count == 1 ? " field" : " fields") ": " fields " are wanted" (count > fields ? " (a comma within a number makes two fields of it)" : ""))
    else judge_fields(i, field)
}

function judge_fields(i, field,    k, right, wanted) {
    for (k = 1; k <= fields; k++) {
        wanted = fault(field[k], k)
        right[k] = wanted == ""
        if (!right[k]) cause("line " i ": " heading[k] " is " (field[k] == "" ? "empty" : shown(field[k])) ": " wanted cell(i, k))
    }
    if (right[1] && over(field[1], 127)) limit("line " i ": row is " field[1] ": at most 127" cell(i, 1))
    if (right[2] && over(field[2], 63)) limit("line " i ": value is " field[2] ": at most 63" cell(i, 2))
    if (right[1] && right[2]) judge_pair(i, field[1], field[2])
    if (right[1] && right[2] && right[3] && field[3] == "1") judge_holding(i, field[1], field[2])
    if (right[4] && field[3] == "1" && field[4] != "") hold_key(field[4], field[1], i)
}

# what is wanted in place of a field, or nothing where it is right
function fault(word, k,    whole) {
    if (k == 3) return word == "0" || word == "1" ? "" : "0 or 1 is wanted"
    if (word == "" && k > 3) return ""
    whole = "a whole number is wanted"
    if (word ~ /^0[0-9]+$/) return whole ", without leading zeros"
    if (word ~ /^[0-9]+$/) return too_large(word) ? "a number below 18446744073709551616 is wanted" : ""
    if (word ~ /[^ -~]/ || index(word, character[0])) return whole ", and \\x stands before the number of a byte that is no text"
    if (word ~ /^[-+][0-9]+$/) return whole ", without a sign"
    if (word ~ /^[0-9 ]+$/ && word ~ /[0-9]/) return whole ", without spaces"
    if (word ~ /^[0-9]+[.,][0-9]*[eE][-+]?[0-9]+$/ || word ~ /^[0-9]+[eE][-+]?[0-9]+$/)
        return whole ", with all its digits: the sheet shortened it"
    if (word ~ /^[0-9]+[.,'0-9]*$/) return whole ", without thousands marks and decimals"
    return whole
}

function too_large(digits) {
    return length(digits) > 20 || (length(digits) == 20 && ("" digits) >= "18446744073709551616")
}

function over(digits, most_of_it) { return length(digits) > 3 || digits + 0 > most_of_it }

# ---- what lines say together

function judge_pair(i, row, value) {
    if ((row "," value) in line_of) cause("duty " row " and driver " value " come twice: lines " line_of[row "," value] " and " i)
    else line_of[row "," value] = i
}

function judge_holding(i, row, value) {
    if (!(row in held_at)) {
        held_at[row] = i
        held_by[row] = value
    } else if (("" held_by[row]) != ("" value))
        cause("duty " row " is held by two drivers: lines " held_at[row] " and " i " (drivers " held_by[row] " and " value ")")
}

function hold_key(key, row, i) {
    if (!(key in holders)) key_at[++keys] = key
    holders[key]++
    duty[key, holders[key]] = row
    duty_line[key, holders[key]] = i
}

function listed(of, key,    i, out) {
    for (i = 1; i <= holders[key]; i++) out = out (i == 1 ? "" : i == holders[key] ? " and " : ", ") of[key, i]
    return out
}

function tell_conflicts(    i, key) {
    for (i = 1; i <= keys; i++) {
        key = key_at[i]
        if (holders[key] > 1)
            print "key " key " is in conflict: duties " listed(duty, key) " hold it (lines " listed(duty_line, key) "); a rotation that touches it is listed only if it leaves one holder at most"
    }
}

# ---- all of it

function judge_lines(    i, last) {
    for (last = lines; last > 1 && text[last] == ""; last--);
    for (i = 2; i <= last; i++) judge_line(i)
    if (lines == last + 1) cause("line " lines " is blank, the last one: delete it")
    if (lines > last + 1) cause("lines " (last + 1) " to " lines " are blank, at the end: delete them")
}

function judge() {
    if (size > 65536) cause((size > most ? "more than " grouped(most) : grouped(size)) " bytes: at most 65,536")
    if (!lines) cause("the file is empty: its first line is to be " header)
    if (!lines || !judge_kind()) return
    judge_mark()
    judge_line_ends()
    judge_separator()
    judge_header()
    judge_lines()
}

END {
    finish_lines()
    judge()
    if (tell == "conflicts") tell_conflicts()
    else if (!judged_elsewhere) tell_causes()
}
