# The picture of one site as a Graphviz graph: every radio and link of the capture, the paths and the cut of its sheet.
# Reads the capture, the sheet from the environment (FOG_SHEET) and the sentence on a refusal (FOG_SENTENCE).
# It finds no path and no cut itself: it draws what the sheet says.

BEGIN {
    # Each path differs from the others in print without colours too: by dashes, by double lines, by width.
    # The colours are dark enough for white paper and apart for most colour-blind eyes.
    split("solid dashed dotted solid dashed dotted solid solid", dashes, " ")
    split("1 1 1 2 2 2 1 3", lines_beside, " ")
    split("4 4 6 3 3 4 9 3", width, " ")
    split("#0060b0 #c04000 #007a50 #8a2090 #7a5000 #00707a #b00040 #303030", colour, " ")

    # Longer lines would make the picture wider than the site.
    most_letters = 70

    # Where the heading is wider than the legend, the rest is shared out among this many columns, all but one empty.
    columns = 20

    line_break = "<br align=\"left\"/>"

    cut_ground = "#d0d0d0"

    # A handheld has this outline and the word hand, so that it is seen without colours too.
    hand_outline = "dashed"

    # Inches, as whole numbers: Graphviz drops the rest. Far is more than 63 links in a row, and so keeps no radio from
    # where its links put it.
    near = 2
    apart = 6
    far = 200

    links = 0
    hands = 0
    paths = 0
    sheet_lines = split(ENVIRON["FOG_SHEET"], sheet, "\n")
    split(sheet[1], report, "\t")
    if (report[1] == "refused") {
        draw_refusal(report[2], report[3], ENVIRON["FOG_SENTENCE"])
        exit
    }
    read_sheet()
    FS = "\t"
}

$1 == "net" {
    capture = $2
    radios = $3
    source = $4
    destination = $5
    wanted = $6
}

$1 == "link" {
    links++
    first[links] = $2
    second[links] = $3
    if (is_direct($2, $3)) has_direct = 1
}

$1 == "hand" {
    hands++
    is_hand[$2] = 1
}

END {
    if (report[1] != "refused") draw_site()
}

function read_sheet(    i, j, count, field) {
    for (i = 2; i <= sheet_lines; i++) {
        count = split(sheet[i], field, "\t")
        if (field[1] == "path") {
            paths++
            for (j = 3; j <= count; j++) route[paths] = route[paths] (j == 3 ? "" : " ") field[j]
            for (j = 4; j <= count; j++) {
                # A link is one whichever way it is walked.
                path_of[field[j - 1], field[j]] = paths
                path_of[field[j], field[j - 1]] = paths
                is_walked_back[field[j], field[j - 1]] = 1
            }
        }
        if (field[1] == "cut") take_cut(field[3])
    }
}

function take_cut(item) {
    cut = cut (cut == "" ? "" : ", ") (item == "link" ? "the direct link" : "radio " item)
    if (item == "link") cuts_link = 1
    else is_cut[item] = 1
}

# ---- a refused capture: one box

function draw_refusal(number, place, sentence) {
    print "graph site {"
    print "    node [shape=box, fontname=\"Helvetica\", margin=\"0.3,0.2\"]"
    print "    refused [class=\"refused\", penwidth=2, label=\"refused: number " number ", place " place "\\n\\n" wrapped(sentence, "\\n", 0) "\"]"
    print "}"
}

# ---- a site

function draw_site(    i) {
    print "graph site {"
    print "    layout=neato"
    # A start that depends on the links alone: the same capture gives the same picture.
    print "    start=self"
    # Parts of the site that no link joins stand beside each other, not inside one another.
    print "    packmode=\"graph\""
    print "    overlap=false"
    # Otherwise a small site is pressed together until its links are too short to carry numbers.
    print "    overlap_scaling=0"
    print "    overlap_shrink=false"
    print "    splines=true"
    print "    sep=\"+6\""
    print "    outputorder=edgesfirst"
    # Turns the site until the line from the first radio to the second, S and T, runs from left to right.
    print "    normalize=true"
    print "    labelloc=t"
    print "    labeljust=l"
    print "    fontname=\"Helvetica\""
    print "    fontsize=18"
    print "    label=<" legend() ">"
    print "    node [shape=circle, fixedsize=true, fontname=\"Helvetica\", fontsize=18, style=filled, fillcolor=white]"
    print "    edge [len=" near ", color=\"#909090\", fontname=\"Helvetica-Bold\", fontsize=15, labelangle=0, labeldistance=1.8]"
    draw_radio(source)
    draw_radio(destination)
    for (i = 0; i < radios; i++) if (i != source && i != destination) draw_radio(i)
    # The turning needs a line between S and T; where they have no link it is not seen.
    if (!has_direct) print "    " source " -- " destination " [style=invis, len=" (paths > 0 ? far : apart) "]"
    for (i = 1; i <= links; i++) if (!((first[i], second[i]) in path_of)) draw_link(first[i], second[i])
    # Later lines lie on top: no path is hidden by another link.
    for (i = 1; i <= links; i++) if ((first[i], second[i]) in path_of) draw_path_link(first[i], second[i])
    print "}"
}

function is_direct(a, b) {
    return (a == source && b == destination) || (a == destination && b == source)
}

function draw_radio(radio,    kind, label, look, side) {
    kind = "radio"
    label = radio
    side = 0.6
    if (radio == source) {
        kind = "source"
        label = "S<br/>" radio
        look = ", shape=box, penwidth=3"
        side = 0.75
    }
    if (radio == destination) {
        kind = "destination"
        label = "T<br/>" radio
        look = ", shape=octagon, penwidth=3"
        side = 0.85
    }
    if (radio in is_cut) {
        kind = "cut"
        label = radio "<br/>" small("cut")
        look = ", peripheries=2, penwidth=2, fillcolor=\"" cut_ground "\""
        side = 0.7
    }
    # S and T keep their look otherwise. No other handheld is on a path, and so none is in a cut.
    if (radio in is_hand) {
        look = (look == "" ? ", penwidth=2" : look) ", style=\"filled," hand_outline "\""
        kind = kind " handheld"
        label = label "<br/>" small("hand")
        side += 0.15
    }
    print "    " radio " [class=\"" kind "\", label=<" label ">" look ", width=" side ", height=" side "]"
}

function small(word) {
    return "<font point-size=\"14\">" word "</font>"
}

function draw_link(a, b) {
    if (cuts_link && is_direct(a, b)) print "    " a " -- " b " [class=\"link cut\"" cut_on_link() "]"
    else print "    " a " -- " b " [class=\"link\"]"
}

# The number stands near the end that the path comes from: halfway it would lie on the numbers of crossing links.
function draw_path_link(a, b,    path, kind, look, from, to) {
    path = path_of[a, b]
    from = is_walked_back[a, b] ? b : a
    to = is_walked_back[a, b] ? a : b
    kind = "path-" path
    look = ", style=" dashes[path] ", penwidth=" width[path] ", color=\"" beside(path) "\", taillabel=<" tag(path, "white") ">"
    if (cuts_link && is_direct(a, b)) {
        kind = kind " cut"
        look = look cut_on_link()
    }
    print "    " from " -- " to " [class=\"" kind "\"" look "]"
}

function cut_on_link() {
    return ", labeldistance=2.5, headlabel=<" tag("cut", cut_ground) ">"
}

# Lines that run side by side are drawn as one link.
function beside(path,    i, all) {
    all = colour[path]
    for (i = 2; i <= lines_beside[path]; i++) all = all ":white:" colour[path]
    return all
}

# A ground of its own, so that the line does not strike the letters out.
function tag(label, ground) {
    return "<table border=\"" (ground == "white" ? 0 : 1) "\" color=\"black\" cellborder=\"0\" cellspacing=\"0\" cellpadding=\"1\" bgcolor=\"" ground "\"><tr><td>" label "</td></tr></table>"
}

# ---- heading and legend

function heading() {
    return report[3] ": " report[4] " of " counted(wanted, "path") ", " counted(report[5], "round") ", " counted(report[6], "message")
}

function legend(    rows) {
    rows = row("<b>" heading() "</b>")
    rows = rows row("capture " capture ": " counted(radios, "radio") ", " counted(links, "link") "; S is radio " source ", T is radio " destination)
    if (paths > 0 || hands > 0) rows = rows "<tr><td align=\"left\">" what_is_marked() "</td><td colspan=\"" (columns - 1) "\"></td></tr>"
    return table(rows, "")
}

function what_is_marked(    i, rows) {
    for (i = 1; i <= paths; i++) rows = rows named_row("path " i, sample_of(i), route[i])
    if (cut != "") rows = rows named_row("cut", tag("cut", cut_ground), cut)
    if (hands > 0) rows = rows named_row(hands == 1 ? "handheld" : "handhelds", hand_sample(), handhelds())
    return table(rows, "cellspacing=\"3\"")
}

# Of one size, or it would grow as high as a long list of handhelds.
function hand_sample() {
    return "<table border=\"2\" style=\"" hand_outline "\" cellborder=\"0\" cellspacing=\"0\" cellpadding=\"0\" fixedsize=\"true\" width=\"50\" height=\"26\"><tr><td width=\"46\" height=\"22\">" small("hand") "</td></tr></table>"
}

# By rising number, whatever the order of their lines.
function handhelds(    radio, all) {
    for (radio = 0; radio < radios; radio++)
        if (radio in is_hand) all = all (all == "" ? "" : ", ") radio
    return hands == 1 ? "radio " all ", which passes nothing on" : "radios " all ", which pass nothing on"
}

# Each line is the upper border of an empty cell, dashed as on the site.
function sample_of(path,    i, rows, height) {
    # The least that Graphviz gives a cell with such a border.
    height = 2 * width[path] + 2
    for (i = 1; i <= lines_beside[path]; i++) rows = rows "<tr><td sides=\"t\" style=\"" dashes[path] "\" width=\"50\"></td></tr>"
    return "<table border=\"0\" cellborder=\"" width[path] "\" cellspacing=\"0\" cellpadding=\"0\" color=\"" colour[path] "\" fixedsize=\"true\" width=\"50\" height=\"" (lines_beside[path] * height) "\">" rows "</table>"
}

function table(rows, look) {
    return "<table border=\"0\" cellborder=\"0\" cellpadding=\"2\" " look ">" rows "</table>"
}

function row(cell) {
    return "<tr><td align=\"left\" colspan=\"" columns "\">" cell "</td></tr>"
}

function named_row(name, look, text) {
    return "<tr><td align=\"left\">" name "</td><td>" look "</td><td align=\"left\">" wrapped(text, line_break, 1) line_break "</td></tr>"
}

function counted(number, thing) {
    return number " " thing (number == 1 ? "" : "s")
}

# ---- text

# Breaks at spaces alone.
function wrapped(text, ending, is_html,    count, word, i, letters, all) {
    count = split(text, word, /[ ]/)
    for (i = 1; i <= count; i++) {
        if (i > 1 && letters + 1 + length(word[i]) > most_letters) {
            all = all ending
            letters = 0
        } else if (i > 1) {
            all = all " "
            letters++
        }
        all = all (is_html ? word[i] : quoted(word[i]))
        letters += length(word[i])
    }
    return all
}

# Letter by letter: what a replacement does with backslashes is not the same in every awk.
function quoted(text,    i, letter, all) {
    for (i = 1; i <= length(text); i++) {
        letter = substr(text, i, 1)
        if (letter == "\\") letter = "\\\\"
        if (letter == "\"") letter = "\\\""
        if (letter == "&") letter = "&amp;"
        all = all letter
    }
    return all
}
