# Why a file is no calendar of ours: the first line that is not as driver-calendar writes it. docs/RULES.md, 13; the definitions are in
# crates/calendar_format/specs. Bytes, as `od -A n -v -t u1` writes them; `most` is how many were kept at most. Read behind stamps.awk.
BEGIN { size = octets = lines = 0 }

{ for (i = 1; i <= NF; i++) byte[size++] = $i + 0 }

# the octets that are left when every CR LF before a blank is taken out, and the line of the file that each stands in
function unfold(    i, line) {
    line = 1
    for (i = 0; i < size; i++) {
        if (byte[i] == 13 && byte[i + 1] == 10 && (byte[i + 2] == 32 || byte[i + 2] == 9)) {
            i += 2
            line++
            continue
        }
        octet[octets] = byte[i]
        stands[octets++] = line
        if (byte[i] == 10) line++
    }
}

# text[1] to text[lines], the line of the file where each begins, and what ends it. No line of ours has over 31 octets: of a long one
# the front is kept, since each sum of strings is a copy
function split_lines(    i, line) {
    for (i = 0; i < octets; i++) {
        if (line == "") first[lines + 1] = stands[i]
        if (octet[i] == 13 && octet[i + 1] == 10) {
            end_line(line, "CR LF")
            i++
            line = ""
        } else if (octet[i] == 10 || octet[i] == 13) {
            end_line(line, octet[i] == 10 ? "LF" : "CR")
            line = ""
        } else if (length(line) < 100) line = line (octet[i] ? sprintf("%c", octet[i]) : "\\x00")
    }
    if (line != "") end_line(line, "")
}

function end_line(line, how) {
    text[++lines] = line
    ending[lines] = how
}

function shown(words,    i, c, out) {
    for (i = 1; i <= length(words) && i <= 60; i++) {
        c = substr(words, i, 1)
        out = out (c ~ /[ -~]/ ? c : "?")
    }
    return "\"" out "\"" (length(words) > 60 ? " and so on" : "")
}

# ---- line by line; each says whether the line is right, and tells it where it is not

function wrong(words) {
    print words
    return 0
}

# the next line, if there is one
function here(wanted) {
    if (++now <= lines) return 1
    if (!lines) return wrong("the file is empty: " wanted " is wanted")
    return wrong("the file ends behind line " first[lines] ": " wanted " is wanted")
}

function ended() {
    if (ending[now] == "CR LF") return 1
    return wrong("line " first[now] (ending[now] == "" ? " has no line end" : " ends in " ending[now]) ": CR LF is wanted")
}

function fixed(wanted) {
    if (!here(wanted)) return 0
    if (text[now] != wanted) return wrong("line " first[now] " is " shown(text[now]) ": " wanted " is wanted")
    return ended()
}

# what stands behind a word that the line begins with
function behind(word, wanted) {
    if (!here(word wanted)) return 0
    if (index(text[now], word) != 1) return wrong("line " first[now] " is " shown(text[now]) ": " word wanted " is wanted")
    rest = substr(text[now], length(word) + 1)
    return 1
}

function right_stamp(    fault) {
    if (!behind("DTSTAMP:", " and a stamp")) return 0
    fault = stamp_fault(rest)
    if (fault != "") return wrong("line " first[now] ": the stamp is " shown(rest) ": a UTC date and time is wanted, as 20261116T080000Z; " fault)
    if (stamp == "") stamp = rest
    if (rest != stamp) return wrong("line " first[now] ": the stamp is " rest ", and that of the first event is " stamp ": one is wanted")
    return ended()
}

function right_name(    part) {
    if (!behind("UID:turepawon-row-", ", a row, - and a date")) return 0
    if (split(rest, part, "-") != 2 || part[1] !~ /^(0|[1-9][0-9]*)$/ || !eight_digits(part[2]))
        return wrong("line " first[now] " is " shown(text[now]) ": UID:turepawon-row-, a row, - and a date of eight digits is wanted")
    if (length(part[1]) > 3 || part[1] + 0 > 127) return wrong("line " first[now] ": the row is " part[1] ": at most 127")
    if (row != "" && part[1] + 0 <= row + 0) return wrong("line " first[now] ": row " part[1] " comes behind row " row ": rows must rise")
    if (date_fault(part[2]) != "") return wrong("line " first[now] ": " part[2] " is no date: " date_fault(part[2]))
    if (substr(part[2], 1, 4) < "1970") return wrong("line " first[now] ": the date is " part[2] ": none before 19700101 is wanted")
    row = part[1]
    date = part[2]
    return ended()
}

function right_event() {
    return right_stamp() && right_name() && fixed("DTSTART;VALUE=DATE:" date) && fixed("SUMMARY:Duty " row) && fixed("END:VEVENT")
}

function right_events() {
    for (;;) {
        if (!here(row == "" ? "BEGIN:VEVENT" : "BEGIN:VEVENT or END:VCALENDAR")) return 0
        if (text[now] == "END:VCALENDAR" && row == "") return wrong("line " first[now] ": there is no event before END:VCALENDAR: one at least is wanted")
        if (text[now] == "END:VCALENDAR") return ended()
        if (text[now] != "BEGIN:VEVENT") return wrong("line " first[now] " is " shown(text[now]) ": BEGIN:VEVENT" (row == "" ? "" : " or END:VCALENDAR") " is wanted")
        if (!ended() || !right_event()) return 0
    }
}

function judge() {
    if (size > most) {
        print "more than 262,144 bytes: no calendar of ours is so long"
        return
    }
    unfold()
    split_lines()
    if (fixed("BEGIN:VCALENDAR") && fixed("VERSION:2.0") && fixed("PRODID:-//turepawon//roster//EN") && right_events() && now < lines)
        print "line " first[now + 1] ": nothing is wanted behind END:VCALENDAR"
}

END { judge() }
