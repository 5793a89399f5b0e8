# The waiting report of a listing, worked out from the listing alone: what rackreport prints for it.
# awk [-v square=1] -f waiting-report.awk CARDS LISTING
# CARDS has a row a card, by rising number: the number and the slot.
NR == FNR {
    number[++cards] = $1 + 0
    slot[cards] = $2 + 0
    next
}
$1 == "tab." {
    printf "tab. %02d 00000\n", $2
    refused = 1
    exit
}
$1 == "----" {
    ending = 18
    exit
}
$3 != "00" { next }
{ events++ }
$1 == "Q" {
    waits[$2 + 0] = 1
    wait[$2 + 0] = 0
}
$1 == "A" {
    winner = $4 + 0
    grants[winner]++
    sum[winner] += wait[winner]
    squares[winner] += wait[winner] ^ 2
    waits[winner] = 0
    for (i = 1; i <= cards; i++) {
        waiter = number[i]
        if (waits[waiter]) {
            wait[waiter]++
            count[waiter, winner]++
        }
    }
}
END {
    if (refused) exit
    printf "end. %02d %05d\n", ending, events
    for (i = 1; i <= cards; i++) {
        a = number[i]
        g = grants[a] + 0
        printf "%02d %02d %05d %05d/%05d %010.0f %015.0f/%010.0f\n", slot[i], a, g, sum[a], g,
            squares[a], g * squares[a] - sum[a] ^ 2, g * g
    }
    for (i = 1; square && i <= cards; i++) {
        printf "%02d", number[i]
        for (j = 1; j <= cards; j++) printf " %05d", count[number[i], number[j]]
        printf "\n"
    }
}
