# One plain sentence on a sheet: why a capture was refused, what the cut of a short sheet means, or what a full sheet promises.
# Reads the capture's bytes as decimal numbers (od -An -v -tu1) and the sheet from the environment (FOG_SHEET).
# It judges nothing itself: the number and the place are the sheet's.

BEGIN {
    # The limits of document 01. tests/refusals holds them to the definitions.
    fewest_radios = 2
    most_radios = 64
    most_links = 256
    most_paths = 8
    most_bytes = 8192
    largest_number = 65535

    # More of a strange field than this helps nobody.
    most_shown = 20

    # The fields of each kind of line, the first of them its word.
    fields_of["net"] = "net,the capture number,the number of radios,S,T,k"
    fields_of["link"] = "link,the first radio,the second radio"
    fields_of["hand"] = "hand,the radio"
    split("one two three four five six seven eight", in_words, " ")

    lines = 1
    text[1] = ""
}

{
    for (i = 1; i <= NF; i++) take_byte($i + 0)
}

END {
    sheet_lines = split(ENVIRON["FOG_SHEET"], sheet, "\n")
    split(sheet[1], first, "\t")
    if (first[1] == "refused") print on_refusal(first[2], first[3])
    else if (first[3] == "short") print on_short(first[4])
    else print on_full(first[4])
}

# A byte that no line should hold is kept as '?', with a note of what it was.
function take_byte(byte) {
    bytes++
    if (byte == 10) {
        is_ended[lines] = 1
        lines++
        text[lines] = ""
        return
    }
    length_of[lines]++
    if (byte == 9 || (byte >= 32 && byte <= 126)) {
        text[lines] = text[lines] sprintf("%c", byte)
        return
    }
    if (byte == 0) has_zero[lines] = 1
    if (length_of[lines] == 1 && byte == 239) may_be_mark[lines] = 1
    if (length_of[lines] == 3 && byte == 191 && may_be_mark[lines]) has_mark[lines] = 1
    if (byte == 13) last_return[lines] = length_of[lines]
    if (!(lines in strange)) strange[lines] = byte
    text[lines] = text[lines] "?"
}

function on_refusal(number, place) {
    split(text[1], head, "\t")
    if (number == 10) return "the capture is longer than " most_bytes " bytes"
    if (number == 9) return "line " place ": " on_shape(place)
    if (number == 1) return "line 1: the site has " radios_in_words(head[3]) "; it must have " fewest_radios " to " most_radios
    if (number == 11) return "line " place ": " in_gaps(text[place]) ": " on_record(place, head[3])
    if (number == 4) return "the capture has " count_links() " links; it may have " most_links " at most"
    if (number == 5) return "line 1: " on_ends(head[3], head[4], head[5])
    if (number == 6) return "line 1: k is " head[6] "; it must be 1 to " most_paths
    return "refused by number " number ": docs/REFUSALS.md says what it means"
}

# ---- 9: a line of the wrong shape

function on_shape(line,    wrong) {
    if (bytes == 0) return "the capture is empty; its first line must be net, capture number, n, S, T, k"
    if (!is_ended[line]) return mended("it is the last line and no line feed ends it")
    if (line in strange) return on_strange(line)
    if (text[line] == "") return mended("it is blank")
    wrong = on_fields(line, word_meant(line))
    return wrong == "" ? "it does not have the right shape" : wrong
}

# The first line is the net line. Of the others the first word tells, whatever parts it from the rest.
function word_meant(line,    part) {
    if (line == 1) return "net"
    split(without_edges(line), part, /[ ,;\t]+/)
    return part[1] == "hand" ? "hand" : "link"
}

# The line without quotes, and without signs that part nothing.
function without_edges(line,    parted) {
    parted = text[line]
    gsub(/"/, "", parted)
    gsub(/^[ ,;\t]+|[ ,;\t]+$/, "", parted)
    return parted
}

# What share/tidy.awk puts right.
function mended(wrong) {
    return wrong " (--tidy mends it)"
}

function on_strange(line,    byte, wrong) {
    byte = strange[line]
    if (line in has_zero) return "it holds a byte 0 (NUL); save the capture as plain text"
    if (has_mark[line]) {
        wrong = "it starts with a byte-order mark; save the capture as plain text without one"
        return line == 1 ? mended(wrong) : wrong
    }
    if (last_return[line] == length_of[line] && byte == 13) return mended("it ends in a carriage return (a Windows line end); a line feed alone must end it")
    if (byte == 13) return "it holds a carriage return; a line feed alone must end each line"
    if (byte < 32 || byte == 127) return "it holds a control character (byte " byte "); only words, numbers and tabs may stand there"
    return "it holds a letter or sign that is not plain ASCII (byte " byte ")"
}

function on_fields(line, word,    field, name, count, wanted, i, wrong) {
    count = split(text[line], field, "\t")
    wanted = split(fields_of[word], name, ",")
    if (field[1] != word || count != wanted) wrong = on_separators(line, word, count)
    if (wrong != "") return wrong
    if (field[1] != word) return on_word(line, field[1])
    if (count > wanted && text[line] ~ /\t$/) return on_tail(field, count, wanted)
    if (count != wanted) return "it has " counted(count, "field") "; it must have " wanted ": " all_names(name, wanted)
    for (i = 2; i <= wanted; i++) {
        wrong = on_number(name[i], field[i])
        if (wrong != "") return wrong
    }
    return ""
}

# Other signs than tabs that part it into more fields, the first of them the right word.
function on_separators(line, word, count,    parted, part, signs, wrong) {
    parted = without_edges(line)
    if (split(parted, part, /[ ,;\t]+/) <= count || part[1] != word) return ""
    signs = signs_in_words(parted)
    wrong = (parted ~ /\t/ ? "some of its fields" : "its fields") " are parted by " signs "; one tab must part them"
    # Beside a tab or a semicolon a comma may be part of a number, and stays.
    return signs ~ /commas/ && parted ~ /[;\t]/ ? wrong : mended(wrong)
}

function signs_in_words(parted,    words) {
    if (parted ~ /,/) words = words " and commas"
    if (parted ~ /;/) words = words " and semicolons"
    if (parted ~ / /) words = words " and spaces"
    return substr(words, length(" and ") + 1)
}

# What stands past the last field, a tab at the end of the line.
function on_tail(field, count, wanted,    i) {
    for (i = wanted + 1; i <= count; i++)
        if (field[i] != "") return "it has " counted(count, "field") ", the last of them empty; it must have " wanted
    return mended(count == wanted + 1 ? "a tab stands at its end" : "tabs stand at its end")
}

function on_word(line, found,    words) {
    words = line == 1 ? "net" : "link or hand"
    if (text[line] ~ /^[ \t]*#/) return mended("it begins with #; a capture has no remarks")
    if (found == "" && text[line] ~ /^\t/) return "it starts with a tab; it must start with the word " words
    if (found ~ /^"/) return mended("quotes stand around its first field; a capture has none")
    # Without a tab the whole line is one field, and its first word tells more.
    if (text[line] !~ /\t/ && match(found, /[^ ,;]+/)) found = substr(found, RSTART, RLENGTH)
    if (line > 1 && found == "net") return "it is a second net line; a capture has one, its first line"
    if (line == 1 && (found == "link" || found == "hand")) return "it is a " found " line; the first line must be the net line"
    return "it starts with \"" shown(found) "\"; it must start with the word " words
}

function on_number(name, field) {
    if (field == "") return name " is missing: its field is empty"
    if (field ~ /^ *[^ ]+ *$/ && field ~ / /) return mended(name " is \"" shown(field) "\"; no space may stand there")
    if (field ~ / /) return name " is \"" shown(field) "\"; no space may stand there"
    if (field ~ /^-[0-9]+$/) return name " is " shown(field) "; it must not be below 0"
    if (field !~ /^[0-9]+$/) return name " is \"" shown(field) "\"; it must be a number"
    if (field ~ /^0./) return name " is " shown(field) "; a number must not start with a 0 that it does not need"
    # As text a longer number would lose digits on the way to a comparison.
    if (length(field) > length(largest_number) || field + 0 > largest_number) return name " is " shown(field) "; the largest number is " largest_number
    return ""
}

function all_names(name, count,    i, all) {
    all = name[1]
    for (i = 2; i <= count; i++) all = all ", " name[i]
    return all
}

function shown(field) {
    return length(field) > most_shown ? substr(field, 1, most_shown) "..." : field
}

# ---- 11, 4, 1 and 5

function in_gaps(words) {
    gsub(/\t/, " ", words)
    return words
}

function on_record(line, radios,    field) {
    split(text[line], field, "\t")
    return field[1] == "hand" ? on_hand(line, field[2], radios) : on_link(line, field, radios)
}

function on_hand(line, radio, radios) {
    if (radio + 0 >= radios + 0) return no_radio(radio, radios)
    return on_repeat(line, "handheld")
}

function on_link(line, field, radios) {
    if (field[2] + 0 > field[3] + 0) return mended("the first radio must be below the second")
    if (field[2] + 0 == field[3] + 0) return "the first radio must be below the second"
    if (field[3] + 0 >= radios + 0) return no_radio(field[3], radios)
    return on_repeat(line, "link")
}

function no_radio(radio, radios) {
    return "there is no radio " radio "; " numbered(radios)
}

function on_repeat(line, thing,    before) {
    for (before = 2; before < line; before++)
        if (text[before] == text[line]) return "the same " thing " stands in line " before
    return "it cannot stand here"
}

function count_links(    line, links) {
    for (line = 2; line <= lines; line++)
        if (text[line] ~ /^link\t/) links++
    return links
}

function on_ends(radios, source, destination) {
    if (source + 0 >= radios + 0) return "S is " source "; " numbered(radios)
    if (destination + 0 >= radios + 0) return "T is " destination "; " numbered(radios)
    return "S and T are both radio " source "; they must be two different radios"
}

function numbered(radios) {
    return "the radios are numbered 0 to " (radios - 1)
}

function radios_in_words(radios) {
    return radios == 0 ? "no radio" : counted(radios, "radio")
}

function counted(number, thing) {
    return number " " thing (number == 1 ? "" : "s")
}

# ---- full and short

function ways_in_words(    head) {
    split(text[1], head, "\t")
    return "from radio " head[4] " to radio " head[5]
}

# With k paths that share no radio, k - 1 radios can break k - 1 of them at most.
function on_full(wanted,    all) {
    if (wanted == 1) return "full: the one path wanted " ways_in_words() " exists"
    all = wanted == 2 ? "both" : "all " in_words[wanted]
    return "full: " all " paths wanted " ways_in_words() " exist; any " in_words[wanted - 1] " of the other radios may fail, and a path is left"
}

function on_short(paths,    head) {
    split(text[1], head, "\t")
    if (paths == 0) return "short: there is no path at all " ways_in_words() handhelds_in_words()
    return "short: only " in_words[paths] " of the " in_words[head[6]] " paths wanted " (paths == 1 ? "exists" : "exist") "; every path " ways_in_words() " " cut_in_words() handhelds_in_words()
}

# Whoever follows the links sees ways through handhelds, which are no paths. S and T need not pass anything on.
function handhelds_in_words(    head, line, is_line, radio, hand, count, i, words) {
    split(text[1], head, "\t")
    for (line = 2; line <= lines; line++) is_line[text[line]] = 1
    for (radio = 0; radio < head[3]; radio++)
        if (("hand\t" radio) in is_line && radio != head[4] && radio != head[5]) hand[++count] = radio
    if (count == 0) return ""
    for (i = 1; i <= count; i++) words = words (i == 1 ? "" : i == count ? " and " : ", ") hand[i]
    return "; the " (count == 1 ? "handheld " words " passes" : "handhelds " words " pass") " nothing on"
}

# The direct link stands for itself; all other paths hold a radio of the cut.
function cut_in_words(    i, field, radios, has_link, words) {
    for (i = 2; i <= sheet_lines; i++) {
        split(sheet[i], field, "\t")
        if (field[1] != "cut") continue
        if (field[3] == "link") {
            has_link = 1
            continue
        }
        radios++
        words = words (radios == 1 ? "" : " or ") field[3]
    }
    if (radios > 0) words = "goes through radio " words
    if (has_link) words = words (radios > 0 ? " or " : "") "is the direct link"
    return words
}
