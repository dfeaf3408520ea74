# Compares a sheet with the key, for lessons/mark. Input: the script (part=script), the explained answers (part=key), the sheet (part=sheet).
# By line number: CALL, KEY, WHY, GIVEN. The end, "used U lamp L", has the number END.

# A text as it is compared: small letters, single blanks, no room left to fill in.
function plain(text) {
    text = tolower(text)
    gsub(/[ \t,:;_]+/, " ", text)
    gsub(/^ | $/, "", text)
    return text
}

# An answer without what may be left out: "line 3 answer 1" and "answer 1" are "1".
function bare(text) {
    sub(/^line [0-9]+ */, "", text)
    sub(/^answer */, "", text)
    return text
}

function shown(text) { return (text ~ /^[0-9]/ ? "answer " : "") text }
function is_number(word) { return word ~ /^[0-9]+$/ }

function give(number, text) {
    at = number
    if (text == "" || text == "used lamp") return
    is_any_given = 1
    if (!(number in GIVEN)) {
        GIVEN[number] = text
        if (!(number in KEY)) BEYOND[++beyond] = number
    }
    else if (GIVEN[number] != text) GIVEN[number] = GIVEN[number] ", and then " shown(text)
}

# The line of a worksheet that repeats the call. A sheet of another lesson is no sheet of this one.
function head(number, text) {
    is_worksheet = 1
    at = number - 1
    if (text == "line " number " " plain(CALL[number])) return
    cannot("line " number " of the sheet is not line " number " of the lesson: is it the sheet of another?")
}

function cannot(reason) {
    print "lessons/mark: " reason > "/dev/stderr"
    is_refused = 1
    exit 2
}

# A sheet without line numbers goes on by one a line; a worksheet only where it says "answer".
function read_sheet(text, is_left_out,   word) {
    split(text, word, " ")
    if (word[1] == "used") give("END", text)
    else if (word[1] == "line" && is_number(word[2])) {
        if (word[3] == "" || word[3] == "answer" || is_number(word[3])) give(word[2] + 0, bare(text))
        else head(word[2] + 0, text)
    }
    else if (word[1] == "answer" || !is_worksheet) give(at + 1, is_left_out ? "" : bare(text))
}

function tell(label, number) {
    if (!(number in GIVEN)) { missing++; print label ": missing"; return }
    if (number in KEY && GIVEN[number] == KEY[number]) { right++; print label ": right"; return }
    wrong++
    print label ": wrong"
    if (number in CALL) print "    the call:    " plain(CALL[number])
    print "    you wrote:   " shown(GIVEN[number])
    if (number in KEY) print "    the program: " shown(KEY[number]) "\n    why:         " WHY[number]
    else print "    why:         the lesson has lines " lines
}

function tell_all(   number, i) {
    for (number = 1; number <= lines; number++) tell("line " number, number)
    for (i = 1; i <= beyond; i++) tell("line " BEYOND[i], BEYOND[i])
    tell("at the end", "END")
    print "right " right + 0 " of answers " lines + 1 ", wrong " wrong + 0 ", missing " missing + 0
}

part == "script" { CALL[FNR] = $0; lines = FNR; next }
part == "key" {
    number = $1 == "used" ? "END" : FNR - 1
    WHY[number] = $0; sub(/.*\t/, "", WHY[number])
    sub(/\t[^\t]*$/, "")
    KEY[number] = bare(plain($0))
    next
}
FNR == 1 { sub(/^\001+/, "") }
/^[ \t]*(#|why|bytes|$)/ { next }
{ read_sheet(plain($0), $0 ~ /^[ \t]*[-?_]+[ \t]*$/) }

END {
    if (is_refused) exit 2
    if (!is_any_given) cannot("there is no answer on the sheet")
    tell_all()
    exit wrong + missing > 0
}
