# Dates and stamps, for the files that explain refusals. docs/RULES.md, 13; crates/calendar_format/specs/Stamps.antt has the definition.
function leap(year) { return year % 4 == 0 && (year % 100 != 0 || year % 400 == 0) }

function month_days(year, month) {
    if (month == 2) return leap(year) ? 29 : 28
    return month == 4 || month == 6 || month == 9 || month == 11 ? 30 : 31
}

# what is wrong with eight digits as a date, or nothing
function date_fault(digits,    year, month, day) {
    year = substr(digits, 1, 4) + 0
    month = substr(digits, 5, 2) + 0
    day = substr(digits, 7, 2) + 0
    if (month < 1 || month > 12) return "its month is " substr(digits, 5, 2)
    if (day < 1 || day > month_days(year, month)) return "its day is " substr(digits, 7, 2) ", and that month has " month_days(year, month)
}

function eight_digits(word) { return word ~ /^[0-9][0-9][0-9][0-9][0-9][0-9][0-9][0-9]$/ }

function six_digits(word) { return word ~ /^[0-9][0-9][0-9][0-9][0-9][0-9]$/ }

# what is wrong with a text as a stamp, or nothing
function stamp_fault(word,    date) {
    if (word == "") return "it is empty"
    if (!eight_digits(substr(word, 1, 8))) return "it does not begin with a date of eight digits"
    if (substr(word, 9, 1) != "T") return "there is no T behind the date"
    if (!six_digits(substr(word, 10, 6))) return "there is no time of six digits behind the T"
    if (substr(word, 16) != "Z") return "there is no Z, and nothing else, behind the time: a UTC time is wanted"
    date = date_fault(substr(word, 1, 8))
    if (date != "") return date
    if (substr(word, 10, 2) > 23) return "its hour is " substr(word, 10, 2)
    if (substr(word, 12, 2) > 59) return "its minute is " substr(word, 12, 2)
    if (substr(word, 14, 2) > 60) return "its second is " substr(word, 14, 2)
}
