# Holds a heat map against its report: each cell has the shade, and the count if it has one, of the
# slots where it stands. awk -f map-cells.awk REPORT MAP
function value(name,    rest) {
    rest = substr($0, index($0, " " name "='") + length(name) + 3)
    return substr(rest, 1, index(rest, "'") - 1)
}
function place(at, first) {
    return int((at - first) / cell + 0.5)
}
function complain(what) {
    print what
    wrong = 1
}
# The order of the slots: how many cards have a lower one.
function rank(card,    i, lower) {
    for (i = 1; i <= cards; i++) lower += slot[i] < slot[card]
    return lower + 0
}
BEGIN { selves = 0 }
FNR == 1 { file++ }
file == 1 && /\// { slot[++cards] = $1 }
file == 1 && FNR > 1 && !/\// {
    row++
    for (i = 2; i <= NF; i++) {
        wanted[rank(row), rank(i - 1)] = $i + 0
        most = $i > most ? $i + 0 : most
        counts += $i > 0
    }
}
file == 2 && /^<rect class='self'/ && value("width") == value("height") {
    x[selves] = value("x")
    y[selves++] = value("y")
}
file == 2 && /^<rect class='shade/ && value("width") == value("height") {
    shade[++cells] = substr(value("class"), 6)
    cell_x[cells] = value("x")
    cell_y[cells] = value("y")
}
file == 2 && /^<text class='count/ {
    number[++texts] = substr($0, index($0, ">") + 1) + 0
    text_x[texts] = value("x")
    text_y[texts] = value("y")
}
END {
    if (selves != cards) complain("cells of a slot itself: " selves + 0 ", cards: " cards)
    if (cells != counts) complain("cells: " cells + 0 ", counts above 0: " counts)
    cell = selves > 1 ? (x[selves - 1] - x[0]) / (selves - 1) : 60
    for (i = 1; i <= cells; i++) {
        count = wanted[place(cell_y[i], y[0]), place(cell_x[i], x[0])]
        if (shade[i] != int((count * 6 + most - 1) / most))
            complain("cell " i " has shade " shade[i] " and count " count)
    }
    for (i = 1; i <= texts; i++) {
        count = wanted[place(text_y[i] - cell / 2, y[0]), place(text_x[i] - cell / 2, x[0])]
        if (number[i] != count) complain("text " number[i] " at a count of " count)
    }
    if (!wrong) print cells + 0 " cells, " texts + 0 " counts"
    exit wrong
}
