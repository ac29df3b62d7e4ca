# A file as comma-separated values should be, from the bytes of one that is nearly so; read behind csv-lines.awk. `header` is the
# first line that is wanted, `give` is "text" for the mended file or "notes" for a line about each thing that was mended.
# Nothing is guessed: a separator is taken for commas only where the header has it and no comma is in the file. A file with a
# NUL is given as notes alone, none.
function take_mark_off() {
    if (substr(text[1], 1, 3) != character[239] character[187] character[191]) return
    text[1] = substr(text[1], 4)
    note("the byte order mark at the start was taken off")
}

function separator_for_commas(mark, called,    wanted, i) {
    wanted = header
    gsub(/,/, mark, wanted)
    if (text[1] != wanted) return
    for (i = 1; i <= lines; i++) if (index(text[i], ",")) return
    for (i = 1; i <= lines; i++) gsub(mark, ",", text[i])
    note(called " were made commas")
}

function take_blank_lines_off(    before) {
    before = lines
    while (lines > 1 && text[lines] == "") lines--
    if (before - lines == 1) note("a blank line at the end was taken off")
    if (before - lines > 1) note((before - lines) " blank lines at the end were taken off")
}

function right_line_ends(    i, made, kinds, counted) {
    for (i = 1; i <= lines; i++)
        if (ending[i] != "" && ending[i] != "CR LF") {
            if (!counted[ending[i]]++) kinds = kinds (kinds ? ", " : "") ending[i]
            ending[i] = "CR LF"
            made++
        }
    if (made) note(made (made == 1 ? " line end (" : " line ends (") kinds ") made CR LF")
}

function note(words) { notes[++noted] = words }

END {
    finish_lines()
    if (nuls) exit
    take_mark_off()
    separator_for_commas(";", "semicolons")
    separator_for_commas("\t", "tabs")
    take_blank_lines_off()
    right_line_ends()
    if (give == "notes") for (i = 1; i <= noted; i++) print notes[i]
    else for (i = 1; i <= lines; i++) printf "%s%s", text[i], ending[i] == "" ? "" : "\r\n"
}
