# Makes a capture of what a spreadsheet or a person wrote: the raw text on standard input, the capture on standard output, and on
# standard error a line for each kind of change, with the lines of the raw text that it was made in.
# It judges no number and takes out neither link nor handheld: what is still wrong the program refuses. Where the text makes no
# sense it writes no capture, says why in one sentence, and ends with status 1. LC_ALL=C: a byte is a letter, whatever it is.
# Of a longer text than most_bytes a caller need hand over one byte more and no further.

BEGIN {
    # The whole text is one record, so that a last line without a line feed is seen. No text has this byte.
    RS = "\001"

    # In the order in which they are told.
    kinds = split("mark returns commas semicolons spaces loose quotes empty order blank remark open", kind, " ")
    words["mark"] = "byte-order mark taken out"
    words["returns"] = "line feeds in place of Windows line ends"
    words["commas"] = "tabs in place of commas"
    words["semicolons"] = "tabs in place of semicolons"
    words["spaces"] = "tabs in place of spaces"
    words["loose"] = "spaces that part no fields taken out"
    words["quotes"] = "quotes taken out"
    words["empty"] = "empty fields at the end taken out"
    words["order"] = "smaller radio put first"
    words["blank"] = "blank lines taken out"
    words["remark"] = "lines that begin with # taken out"
    words["open"] = "line feed put at the end"

    # Eight times what a capture may have: columns, quotes and remarks take room too.
    most_bytes = 65536
    # More of them help nobody.
    most_ranges = 10
}

{
    text = NR == 1 ? $0 : text RS $0
}

END {
    fault = on_file(text)
    if (fault == "") tidy(text)
    if (fault != "") {
        say("not tidied: " fault)
        close(to_error)
        exit 1
    }
    for (i = 1; i <= kept; i++) print capture[i]
    tell()
}

# ---- the text

# A file that is no text at all, or far more than one site.
function on_file(text) {
    if (length(text) > most_bytes) return "this is longer than " most_bytes " bytes; hand over one capture at a time"
    if (index(text, "PK\003\004") == 1) return "this is a spreadsheet's own file; save the sheet as CSV, and hand that over"
    if (index(text, "\377\376") == 1 || index(text, "\376\377") == 1) return "this is UTF-16 text; save it as CSV or as plain text (UTF-8)"
    return ""
}

function tidy(text,    mark, lines, line, i) {
    mark = "\357\273\277"
    if (index(text, mark) == 1) {
        text = substr(text, length(mark) + 1)
        note("mark", 1)
    }
    lines = split(text, line, "\n")
    # What stands after the last line feed is a line only if something stands there.
    if (lines > 0 && line[lines] == "") lines--
    else if (lines > 0) is_open = lines
    for (i = 1; i <= lines && fault == ""; i++) take_line(line[i], i)
}

# Keeps what the line says, or takes it out.
function take_line(line, number) {
    if (sub(/\r$/, "", line)) note("returns", number)
    if (line ~ /^[ \t]*"?#/) {
        note("remark", number)
        return
    }
    part(line)
    if (fault != "") {
        fault = "line " number ": " fault
        return
    }
    if (all_empty()) {
        note("blank", number)
        return
    }
    note_all(number)
    if (take_empty()) note("empty", number)
    if (put_in_order()) note("order", number)
    if (number == is_open) note("open", number)
    capture[++kept] = joined()
}

# ---- the fields of a line

# Parts the line into field[1] to field[fields], and counts in found[..] what it comes across. Where it cannot, it sets fault.
function part(line,    stop, spaces) {
    stop = signs_of(line)
    split("", found)
    fields = 0
    left = line
    if (skip_spaces()) found["loose"]++
    while (1) {
        if (left ~ /^"/) take_quoted()
        else take_plain(stop)
        if (fault != "") return
        spaces = skip_spaces()
        if (left == "" && spaces) found["loose"]++
        if (left == "") return
        if (index(stop, substr(left, 1, 1))) {
            pass_sign()
            spaces += skip_spaces()
            if (spaces) found["loose"]++
        } else if (spaces) found["spaces"]++
        else {
            fault = "something stands right behind a closing quote"
            return
        }
    }
}

# The signs that part this line's fields. Beside a tab or a semicolon a comma parts none: some write 0,5 for a half.
function signs_of(line) {
    gsub(/"[^"]*"/, "", line)
    return line ~ /[;\t]/ ? "\t;" : "\t;,"
}

function pass_sign(    sign) {
    sign = substr(left, 1, 1)
    left = substr(left, 2)
    if (sign == ",") found["commas"]++
    if (sign == ";") found["semicolons"]++
}

# How many spaces were skipped.
function skip_spaces() {
    if (!match(left, /^ +/)) return 0
    left = substr(left, RLENGTH + 1)
    return RLENGTH
}

function take_plain(stop,    end) {
    end = match(left, "[ " stop "]") ? RSTART : length(left) + 1
    field[++fields] = substr(left, 1, end - 1)
    left = substr(left, end)
}

# Within quotes two of them stand for one.
function take_quoted(    value, end) {
    left = substr(left, 2)
    while (1) {
        end = index(left, "\"")
        if (end == 0) {
            fault = "a quote is opened and not closed"
            return
        }
        value = value substr(left, 1, end - 1)
        left = substr(left, end + 1)
        if (left !~ /^"/) break
        value = value "\""
        left = substr(left, 2)
    }
    if (value ~ /[ \t;,]/) fault = "a quoted field holds a space, a tab, a comma or a semicolon; a field is one word or one number"
    field[++fields] = value
    found["quotes"]++
}

function all_empty(    i) {
    for (i = 1; i <= fields; i++)
        if (field[i] != "") return 0
    return 1
}

# A spreadsheet writes every row as wide as its widest.
function take_empty(    before) {
    before = fields
    while (field[fields] == "") fields--
    return fields < before
}

# Two plain numbers are put in order; anything else stays as it is.
function put_in_order(    first) {
    if (fields != 3 || field[1] != "link" || !is_number(field[2]) || !is_number(field[3])) return 0
    if (!is_below(field[3], field[2])) return 0
    first = field[3]
    field[3] = field[2]
    field[2] = first
    return 1
}

function is_number(field) {
    return field ~ /^(0|[1-9][0-9]*)$/
}

# As texts, since a long number loses digits.
function is_below(a, b) {
    return length(a) < length(b) || (length(a) == length(b) && a "" < b "")
}

function joined(    i, line) {
    line = field[1]
    for (i = 2; i <= fields; i++) line = line "\t" field[i]
    return line
}

# ---- what was changed

function note_all(number,    name) {
    for (name in found) note(name, number)
}

# Lines come in order, so a line goes on with the range before it or begins one.
function note(name, number) {
    if (ranges[name] > 0 && range_end[name, ranges[name]] == number - 1) {
        range_end[name, ranges[name]] = number
        return
    }
    ranges[name]++
    range_start[name, ranges[name]] = number
    range_end[name, ranges[name]] = number
}

function tell(    i) {
    for (i = 1; i <= kinds; i++)
        if (ranges[kind[i]] > 0) say("tidied: " words[kind[i]] ": " lines_in_words(kind[i]))
    if (ranges["blank"] + ranges["remark"] > 0) say("tidied: the sheet counts the lines that are left")
    close(to_error)
}

function lines_in_words(name,    i, all) {
    for (i = 1; i <= ranges[name] && i <= most_ranges; i++)
        all = all (i == 1 ? "" : ", ") range_in_words(range_start[name, i], range_end[name, i])
    if (ranges[name] > most_ranges) all = all " and more"
    return (all ~ /^[0-9]+$/ ? "line " : "lines ") all
}

function range_in_words(start, end) {
    if (start == end) return start
    return start (end == start + 1 ? ", " : " to ") end
}

function say(sentence) {
    to_error = "cat 1>&2"
    print sentence | to_error
}
