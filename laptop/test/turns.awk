# Judges the report of racklap why against the listing: who held the bus when the card asked, who
# was granted or elected, and from where to where each card had the bus.
# awk -f turns.awk CARDS LISTING REPORT
# CARDS has a row a card: the number and the slot. Cards that won and have not released stand in a
# queue here: the first holds the bus, the second is elected.
FILENAME == ARGV[1] {
    slot[$1 + 0] = $2 + 0
    next
}
FILENAME == ARGV[2] {
    line = FNR
    if ($3 == "00" && $1 == "A") {
        won_at[++last] = line
        winner[line] = $4 + 0
        elected[line] = last > first + 1
        if (!elected[line]) from[line] = line
    }
    if ($3 == "00" && $1 == "R") {
        until[won_at[++first]] = line
        if (last > first) from[won_at[first + 1]] = line
    }
    holder_won[line] = last > first ? won_at[first + 1] : 0
    follower_won[line] = last > first + 1 ? won_at[first + 2] : 0
    next
}
function card(won) {
    return "slot " slot[winner[won]] " (number " winner[won] ")"
}
function released(won) {
    return until[won] ? ", released at line " until[won] : ", not released by the end"
}
function handed(won) {
    return from[won] ? "handed the bus at line " from[won] : "not handed the bus by the end"
}
function bus_row(line,    holder, follower, row) {
    holder = holder_won[line]
    follower = follower_won[line]
    if (!holder) return ""
    row = "  line " line ": bus held by " card(holder) released(holder)
    if (!follower) return row
    row = row ", with " card(follower) " elected to follow"
    return from[follower] ? row released(follower) : row
}
function winner_row(line,    row) {
    if (!elected[line]) return "  line " line ": granted to " card(line) released(line)
    row = "  line " line ": elected " card(line) ", " handed(line)
    return from[line] ? row released(line) : row
}
function outcome(line) {
    if (!line) return "not granted by the end"
    return elected[line] ? "elected at line " line ", " handed(line) : "granted at line " line
}
function expect(wanted) {
    if (wanted == $0) return
    print "report line " FNR ": " $0
    print "expected: " wanted
    wrong = 1
}
held != "" { expect(held) }
held == "" && /: bus held by / { expect("no such row") }
{ held = "" }
/^wait / {
    held = bus_row($6 + 0)
    match($0, /(granted|elected) at line [0-9]+/)
    ended = RSTART == 0 ? 0 : substr($0, RSTART + 16) + 0
    if (index($0, ", " outcome(ended) ", ") == 0) expect("wait: " outcome(ended))
}
/^  line [0-9]+: (granted to|elected) / { expect(winner_row($2 + 0)) }
END { exit wrong }
