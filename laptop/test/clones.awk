# The loud lines of racklap why on a listing with cloned cards, by rising number.
# awk -f clones.awk CARDS LISTING
# CARDS has a row a card, by rising number: the number and the slot.
NR == FNR {
    number[++cards] = $1 + 0
    slot[cards] = $2 + 0
    next
}
$1 == "A" && $7 > 1 {
    lines[$4 + 0] = lines[$4 + 0] " " FNR
    shown[FNR] = $7 + 0
}
function times(count) {
    return count == 1 ? "once" : count == 2 ? "twice" : count " times"
}
function tell(card, at, count,    i, most) {
    most = at[1]
    for (i = 2; i <= count; i++) if (shown[at[i]] > shown[most]) most = at[i]
    printf "*** CLONED CARD *** %s, first at line %d: %d cards show number %d", times(count),
        at[1], shown[at[1]], number[card]
    if (most != at[1]) printf ", and %d at line %d", shown[most], most
    printf ". The table has it in slot %d. Look for the clone.\n", slot[card]
}
END {
    for (card = 1; card <= cards; card++) {
        count = split(lines[number[card]], at, " ")
        if (count > 0) tell(card, at, count)
    }
}
