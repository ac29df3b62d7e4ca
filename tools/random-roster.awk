# A roster file drawn by `seed`, for tools/test-list-moves: about half of them right, the others damaged once or twice. The same seed
# gives the same bytes with every awk. A NUL is written as byte 1: no awk but one can write it.
BEGIN {
    state = seed % 2147483646 + 1
    for (i = 0; i < 10; i++) below(2)
    make()
    if (below(2)) for (times = 1 + below(2); times > 0; times--) damage(below(26))
    for (i = 0; i <= lines; i++) printf "%s%s", text[i], ending[i]
}

# a number below n, by the generator of Park and Miller, exact in awk's numbers
function below(n) {
    state = (16807 * state) % 2147483647
    return int(state / 2147483647 * n)
}

function pick(words,    part, n) {
    n = split(words, part, " ")
    return part[1 + below(n)]
}

# ---- a roster

function make(    duties, drivers, row, value, held, kind) {
    text[0] = "row,value,now,capacity,sequence"
    ending[0] = "\r\n"
    duties = below(8)
    drivers = 1 + below(5)
    kind = below(4)
    for (row = 0; row < duties; row++) {
        held = below(8) ? (below(3) ? row % drivers : below(drivers)) : -1
        for (value = 0; value < drivers; value++)
            if (value == held || below(4)) add(row "," value "," (value == held) "," key(kind, row, value) "," (below(2) ? below(9) : ""))
    }
    if (!below(4)) ending[lines] = ""
}

# none; the driver; driver and day, three duties a day; now and then another
function key(kind, row, value) {
    if (!below(12)) return pick("0 7 18446744073709551615 18446744073709551614 9007199254740993 9007199254740992")
    return kind == 0 ? "" : kind == 1 ? value : 100 * int(row / 3) + value
}

function add(line) {
    text[++lines] = line
    ending[lines] = "\r\n"
}

# ---- damage

function any_line() { return below(lines + 1) }

function set_field(i, k, word,    part, n, j, out) {
    n = split(text[i], part, ",")
    part[k] = word
    for (j = 1; j <= n; j++) out = out (j > 1 ? "," : "") part[j]
    text[i] = out
}

function insert_line(at, line, how,    i) {
    for (i = ++lines; i > at; i--) {
        text[i] = text[i - 1]
        ending[i] = ending[i - 1]
    }
    text[at] = line
    ending[at] = how
    if (ending[lines - 1] == "") ending[lines - 1] = "\r\n"
}

function damage_ends(how, once,    i) {
    for (i = once ? any_line() : 0; i <= lines; i++) {
        if (ending[i] != "") ending[i] = how
        if (once) return
    }
}

function separate_by(mark,    i) { for (i = 0; i <= lines; i++) gsub(/,/, mark, text[i]) }

# a byte put in, taken out or exchanged, anywhere
function damage_byte(how,    i, at, byte) {
    i = any_line()
    at = 1 + below(length(text[i]) + 1)
    byte = how == 1 ? "" : sprintf("%c", below(3) ? 32 + below(95) : 1 + below(255))
    text[i] = substr(text[i], 1, at - 1) byte substr(text[i], at + (how > 0))
}

function damage_field(word) { if (lines) set_field(1 + below(lines), 1 + below(5), word) }

function damage(kind,    i) {
    i = any_line()
    if (kind < 3) damage_byte(kind)
    else if (kind == 3) damage_ends("\n", 0)
    else if (kind == 4) damage_ends(below(2) ? "\r" : "\r\r\n", 0)
    else if (kind == 5) damage_ends(below(2) ? "\n" : "\r", 1)
    else if (kind == 6) text[0] = "\357\273\277" text[0]
    else if (kind == 7) insert_line(i, "", "\r\n")
    else if (kind == 8) for (i = 1 + below(3); i > 0; i--) insert_line(lines + 1, "", "\r\n")
    else if (kind == 9) insert_line(lines + 1, text[1 + below(lines)], "\r\n")
    else if (kind == 10) separate_by(";")
    else if (kind == 11) separate_by("\t")
    else if (kind == 12) text[i] = text[i] ","
    else if (kind == 13) sub(/,/, "", text[i])
    else if (kind == 14) set_field(1, 3, "1")
    else if (kind == 15 && lines) set_field(1 + below(lines), 3, pick("1 1 1 2 10"))
    else if (kind == 16 && lines) set_field(1 + below(lines), 1, pick("127 128 999 1000 18446744073709551615"))
    else if (kind == 17 && lines) set_field(1 + below(lines), 2, pick("63 64 128 18446744073709551615"))
    else if (kind == 18) damage_field(pick("18446744073709551616 18446744073709551625 18446744073709551615 99999999999999999999 100000000000000000000"))
    else if (kind == 19) damage_field(pick("00 01 -1 +1 1.0 1,5 1'000 x7 1e3 1.5E+15 TRUE"))
    else if (kind == 20) damage_field(pick("\"0\" \"1,000\" \\x00 \001 \303\251 \302\240"))
    else if (kind == 21) damage_field(below(2) ? " 1" : "1 ")
    else if (kind == 22) damage_field("")
    else if (kind == 23) text[0] = pick("Row,Value,Now,Capacity,Sequence row,value,now \"row\",\"value\",\"now\",\"capacity\",\"sequence\" 0,0,1,, sep=;")
    else if (kind == 24) lines = below(lines + 1)
    else if (kind == 25) for (i = 5400 + below(1200); lines < i;) add(int(lines / 64) "," lines % 64 ",0,,")
}
