# How far a build has come with the crate `want`. With tell=needed: the crates that it stands on, itself among them. With tell=old:
# those of them that were proved before and stand on none that was not. With tell=next: of those below it the one to prove next
# (tools/prove-needed). Else a line for each crate proved behind the first `told` (-1: a
# line before all), "12 of 42, about 5 minutes left", `seconds` from the start.
# Read one behind the other: crates.txt; with part=times a table of crates and seconds, docs/BENCHMARKS.md, Checks; with part=stamps
# the crates that were proved before; with part=started those that are being proved; with part=log what rt said.
# What is left is weighed by that table (a crate that is not in it by 10 seconds). At first two seconds are taken for three of the
# table, two crates being proved at a time and a pair taking as long as its longer half; what was measured soon outweighs that.
part == "" {
    sub(/#.*/, "")
    if (at = index($0, ":")) needs[$1 ~ /:/ ? substr($1, 1, index($1, ":") - 1) : $1] = substr($0, at + 1)
}

part == "times" && $1 == "|" && $3 == "|" && $2 in needs && $4 ~ /^[0-9]+$/ && !($2 in weight) { weight[$2] = $4 }

part == "stamps" { stamped[$1] = 1 }

part == "started" { started[$1] = 1 }

# what is seen a second time was told the first
part == "log" && /^rt: [a-z_0-9]+ proved \(/ && !($2 in state) {
    reported[++reports] = $2
    unchanged[reports] = /unchanged/
    state[$2] = unchanged[reports] ? "old" : "new"
}

# what stands below first
function visit(crate,    below, count, i) {
    if (crate in seen || !(crate in needs)) return
    seen[crate] = 1
    count = split(needs[crate], below, " ")
    for (i = 1; i <= count; i++) visit(below[i])
    order[++crates] = crate
}

# a crate is proved again where it has no stamp, or one below it is new
function expected(crate,    below, count, i) {
    if (crate in state) return state[crate]
    count = split(needs[crate], below, " ")
    for (i = 1; i <= count; i++) if (expects[below[i]] == "new") return "new"
    return crate in stamped ? "old" : "new"
}

function weigh(    i, crate) {
    for (i = 1; i <= crates; i++) {
        crate = order[i]
        expects[crate] = expected(crate)
        if (expects[crate] == "old") continue
        if (crate in state) behind += crate in weight ? weight[crate] : 10
        else ahead += crate in weight ? weight[crate] : 10
    }
}

function time_left(    left) {
    left = ahead * (seconds + 20) / (behind + 30)
    if (left < 45) return "less than a minute left"
    left = int(left / 60 + 0.5)
    return "about " (left < 1 ? 1 : left) (left < 2 ? " minute left" : " minutes left")
}

# the seconds from a crate's start to the end of the longest way up to `want`; `order` has what stands below first
function measure_ways(    i, j, below, count) {
    for (i = crates; i > 0; i--) {
        way[order[i]] += order[i] in weight ? weight[order[i]] : 10
        count = split(needs[order[i]], below, " ")
        for (j = 1; j <= count; j++) if (below[j] in seen && way[below[j]] < way[order[i]]) way[below[j]] = way[order[i]]
    }
}

function can_start(crate,    below, count, i) {
    if (crate == want || crate in stamped || crate in started) return 0
    count = split(needs[crate], below, " ")
    for (i = 1; i <= count; i++) if (below[i] in needs && !(below[i] in stamped)) return 0
    return 1
}

function choose(    i, best) {
    measure_ways()
    for (i = 1; i <= crates; i++) if (can_start(order[i]) && (best == "" || way[best] < way[order[i]])) best = order[i]
    return best
}

END {
    visit(want)
    if (tell == "next") {
        print choose()
        exit
    }
    if (tell == "needed") {
        for (i = 1; i <= crates; i++) print order[i]
        exit
    }
    weigh()
    if (tell == "old") {
        for (i = 1; i <= crates; i++) if (expects[order[i]] == "old") print order[i]
        exit
    }
    if (told < 0) print "the program is proved and built first: 0 of " crates ", " time_left()
    for (i = told + 1; i <= reports; i++)
        if (i > 0 && !unchanged[i]) print i " of " crates ", " time_left()
}
