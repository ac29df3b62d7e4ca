# Why a driver has no calendar, a line for each cause; read behind csv-lines.awk, explain-roster.awk, whose causes it tells where
# the file is no roster file, and stamps.awk. docs/RULES.md, 13. `operand1` of the environment is the driver, `operand2` the stamp,
# `number` the refusal's. With tell=left-out, of a file that is accepted: the driver's duties that are in no calendar.
BEGIN {
    driver = ENVIRON["operand1"]
    stamp = ENVIRON["operand2"]
    number = ENVIRON["number"]
    judged_elsewhere = 1
}

# the driver's duties, rising, as the lines have them: row, day and line
function find_duties(    i, field, row) {
    for (i = 2; i <= lines; i++)
        if (split(text[i], field, ",") == 5 && field[3] == "1" && ("" field[2]) == ("" driver)) {
            held[field[1] + 0] = 1
            day[field[1] + 0] = field[5]
            at[field[1] + 0] = i
        }
    for (row = 0; row < 128; row++) if (row in held) duties_held[++found] = row
}

# numbers with commas and an "and"
function enumerated(list, n,    i, out) {
    for (i = 1; i <= n; i++) out = out (i == 1 ? "" : i == n ? " and " : ", ") list[i]
    return out
}

function noun(n) { return n == 1 ? "duty " : "duties " }

function tell_driver(    wanted) {
    wanted = driver == "" ? "a whole number is wanted" : fault(driver, 1)
    if (wanted != "") print "DRIVER is " (driver == "" ? "empty" : shown(driver)) ": " wanted
    return wanted != ""
}

function tell_stamp(    wrong) {
    wrong = stamp_fault(stamp)
    if (wrong != "") print "STAMP is " shown(stamp) ": a UTC date and time is wanted, as 20261116T080000Z; " wrong
}

function tell_none(    i) {
    if (!found) {
        print "driver " driver " has no duty today: no line has " driver " under value and 1 under now"
        return
    }
    for (i = 1; i <= found; i++) if (day[duties_held[i]] != "") return
    print "driver " driver " has " noun(found) enumerated(duties_held, found) ", and no day for " (found == 1 ? "it" : "them") ": sequence is empty there" cells_of_none()
}

function cells_of_none(    i, cells, n) {
    for (i = 1; i <= found; i++) cells[++n] = "E" at[duties_held[i]]
    return " (" (n == 1 ? "cell " : "cells ") enumerated(cells, n) ")"
}

function too_late(digits) { return length(digits) > 7 || digits + 0 > 2932896 }

function tell_late(    i, row) {
    for (i = 1; i <= found; i++) {
        row = duties_held[i]
        if (day[row] != "" && too_late(day[row]))
            print "line " at[row] ": the day of duty " row " is " day[row] ": at most 2932896 days from 1970-01-01 on, which is 9999-12-31" cell(at[row], 5)
    }
}

function tell_left_out(    i, left, n) {
    for (i = 1; i <= found; i++) if (day[duties_held[i]] == "") left[++n] = duties_held[i]
    if (n) print noun(n) enumerated(left, n) " of driver " driver (n == 1 ? " has" : " have") " no day (sequence is empty), and " (n == 1 ? "is" : "are") " not in the calendar"
}

END {
    find_duties()
    if (tell == "left-out") tell_left_out()
    else if (number == 17) tell_stamp()
    else if (number == 16) tell_none()
    else if (number == 11) tell_late()
    else if (!(number == 9 && tell_driver())) tell_causes()
}
