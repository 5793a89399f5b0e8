# Reads what racklap settle printed: so many bounds stand beside t, and t is over none of them.
# awk -v bounds=COUNT -f within-bounds.awk
/^settled/ { t = $NF + 0 }
/^at most/ {
    seen++
    if (t > $3 + 0) {
        over = over " " $3
    }
}
END {
    if (seen != bounds || over != "") {
        printf "t = %s, %d bounds, wanted %d, too small:%s\n", t, seen, bounds, over
        exit 1
    }
}
