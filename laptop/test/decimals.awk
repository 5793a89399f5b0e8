# Reads what racklap report printed: each decimal is its fraction, rounded by long division.
# awk -v least=COUNT -f decimals.awk: at least so many fractions are there.
function rounded(over, under,    rest, whole, i) {
    rest = over % under
    whole = (over - rest) / under
    for (i = 1; i <= 3; i++) {
        rest *= 10
        whole = whole * 10 + (rest - rest % under) / under
        rest %= under
    }
    whole += 2 * rest >= under
    return sprintf("%.0f.%03d", (whole - whole % 1000) / 1000, whole % 1000)
}
{
    for (i = 2; i < NF; i++) {
        if ($i == "=") {
            seen++
            split($(i - 1), fraction, "/")
            if ($(i + 1) != rounded(fraction[1], fraction[2])) {
                print "wrong decimal: " $0
                wrong = 1
            }
        }
    }
}
END {
    if (seen < least) print "fractions: " seen + 0 ", wanted at least " least
    exit wrong || seen < least
}
