# Bytes, as `od -A n -v -t u1` writes them, made into lines: text[1] to text[lines], and ending[i], what ends line i: "CR LF",
# "LF", "CR", "CR CR LF" (a LF behind several CRs is one line end) or "" for a last line that nothing ends.
# The file that is read beside this one has the END that uses them, and may change `character` first.
BEGIN {
    for (i = 1; i < 256; i++) character[i] = sprintf("%c", i)
    # no awk but one keeps a NUL in a string
    character[0] = "\\x00"
    lines = 0
    size = 0
}

function end_line(how) {
    text[++lines] = line piece
    ending[lines] = how
    line = piece = ""
}

# CRs that no LF follows end a line each
function end_at_returns() {
    for (; returns > 0; returns--) end_line("CR")
}

# by pieces, since each sum of strings is a copy: a line may have a quarter of a million bytes
function add(more) {
    piece = piece more
    if (length(piece) > 200) {
        line = line piece
        piece = ""
    }
}

function take(byte) {
    size++
    if (byte == 0) nuls++
    if (byte == 13) {
        returns++
    } else if (byte == 10) {
        end_line(returns == 0 ? "LF" : returns == 1 ? "CR LF" : "CR CR LF")
        returns = 0
    } else {
        if (returns) end_at_returns()
        add(character[byte + 0])
    }
}

# called first by the END of the other file
function finish_lines() {
    end_at_returns()
    if (line piece != "") end_line("")
}

{ for (i = 1; i <= NF; i++) take($i) }
