# The tests of racklap report. rackreport's output is worked out from a listing by an awk program of
# its own, waiting-report.awk, or written by hand.

report=examples/three-cards/report

# cards_of TABLE: number and slot of each card, by rising number, in a table as rackgen saves it.
cards_of() {
    od -An -v -tu1 -w2 -j24 "$1" | sort -n
}

# reported FOLDER: works out FOLDER/report, with the square, from the table and the listing there.
reported() {
    cards_of "$1/rack.tab" > "$1/cards"
    awk -v square=1 -f laptop/test/waiting-report.awk "$1/cards" "$1/listing" > "$1/report"
}

# One long wait among 10922 grants has the longest figures that a rack can come to. Others end in a
# half, or carry into the whole part.
make_figures() {
    awk 'function card(slot, number, grants, waited, squares) {
            printf "%02d %02d %05d %05d/%05d %010.0f %015.0f/%010.0f\n", slot, number, grants,
                waited, grants, squares, grants * squares - waited * waited, grants * grants
        }
        BEGIN {
            print "end. 31 65535"
            card(1, 1, 10922, 21843, 21843 * 21843)
            card(2, 2, 2, 1, 1)
            card(4, 3, 3, 2, 2)
            card(3, 4, 2000, 1, 1)
            card(5, 5, 2000, 1999, 1999)
            card(6, 6, 0, 0, 0)
            card(63, 63, 16, 1, 1)
        }' > "$work/figures"
}

make_reports() {
    mkdir -p "$work/large"
    "$tests/rackgen" 1 "$work/large/rack.tab" "$work/large/trace" full > "$work/large/slots"
    local racktrace=$PWD/target/bin/racktrace
    (cd "$work/large" && "$racktrace" < trace > listing)
    reported "$work/large"
    head -4 "$report" > "$work/plain"
    sed '1s/00/18/' "$report" > "$work/ended-18"
    echo 'tab. 07 00000' > "$work/ended-tab"
    sed '1s/00 00012/31 65535/' "$work/plain" > "$work/ended-31"
    printf '%s\n' 'end. 00 00000' \
        '03 01 00000 00000/00000 0000000000 000000000000000/0000000000' '01 00000' > "$work/idle"
    make_figures
}

test_report_texts() {
    prints report-example 0 "$racklap report $report"
    prints report-example 0 "$racklap report < $report"
    prints report-plain 0 "$racklap report $work/plain"
    prints report-ended-18 0 "$racklap report $work/ended-18"
    prints report-ended-31 0 "$racklap report $work/ended-31"
    prints report-ended-tab 0 "$racklap report $work/ended-tab"
    prints report-idle 0 "$racklap report $work/idle"
    prints report-figures 0 "$racklap report $work/figures"
    prints report-large 0 "$racklap report $work/large/report"
    local file
    for file in figures large/report; do
        succeeds "report within 80 columns: $file" "$racklap report $work/$file |
            awk 'NR > 1 && length > 80 { print; wide = 1 } END { exit wide || NR < 10 }'"
        succeeds "report decimals: $file" \
            "$racklap report $work/$file | awk -v least=12 -f laptop/test/decimals.awk"
    done
    verdict 'the worked report' laptop/test/waiting-report.awk \
        "$(cards_of "$rack" > "$work/cards"
            awk -v square=1 -f laptop/test/waiting-report.awk "$work/cards" "$listing" |
                diff "$report" -)"
}

# mapped NAME FILE TEXTS WORDS: a map that is well formed, keeps inside, fits the report cell by
# cell, has so many counts in its cells and says these words.
mapped() {
    succeeds "map: $1" "$racklap report $2 --svg $work/heat.svg > $work/text &&
        $tests/well_formed < $work/heat.svg && awk -f laptop/test/inside.awk $work/heat.svg &&
        awk -f laptop/test/map-cells.awk $2 $work/heat.svg > $work/cells &&
        grep -q ' $3 counts' $work/cells && grep -q '>$4</text>' $work/heat.svg"
}

test_maps() {
    succeeds 'map: the committed one' "$racklap report $report --svg $work/heat.svg > $work/text &&
        diff examples/three-cards/who-waits.svg $work/heat.svg"
    mapped 'the example' "$report" 5 'Slot 1 waited most for slot 2: 1 grant.'
    mapped '63 cards' "$work/large/report" 0 'Slot 5 waited most for slot 45: 39 grants.'
    mapped 'ended by 18' "$work/ended-18" 5 'Done events: 12. Ended by 18.'
    mapped 'one card that never waits' "$work/idle" 0 'No slot waited for another.'
    local file lacks='--svg draws who waits for whom, which this report does not say'
    for file in plain ended-tab; do
        refuses "map of $file" 1 "$lacks: let rackreport square print it" \
            "$racklap report $work/$file --svg $work/none.svg"
    done
    succeeds 'map: none without a square' "[ ! -e $work/none.svg ]"
}

# damaged NAME MESSAGE LINE SCRIPT: the example's report after this sed script is refused at a line.
damaged() {
    sed "$4" "$report" > "$work/damaged"
    refuses "report: $1" 1 "report line $3$2" "$racklap report $work/damaged"
    refuses "report: $1, standard input" 1 "report line $3$2" "$racklap report < $work/damaged"
}

# no_report_line NAME LINE EXPECTED SCRIPT: a line that is none.
no_report_line() {
    damaged "$1" " is none: expected $3" "$2" "$4"
}

opening='one like end. 00 00012'
card='a card like 03 06 00002 00002/00002 0000000004 000000000000004/0000000004'

test_openings() {
    local name script
    while IFS=: read -r name script; do
        no_report_line "$name" 1 "$opening" "$script"
    done << 'END'
opening in capitals:1s/end/END/
opening of a listing:1s/end./----/
ended by 17:1s/ 00/ 17/
ended by 41:1s/ 00/ 41/
full at 12 events:1s/ 00/ 31/
events over 65,535:1s/00012/65536/
events of 4 digits:1s/00012/0012/
events of 6 digits:1s/00012/000012/
letter in the events:1s/00012/0001x/
blank at the end:1s/$/ /
line end of Windows:1s/$/\r/
blank line first:1s/^/\n/
refused table 0:1s/.*/tab. 00 00000/
refused table 8:1s/.*/tab. 08 00000/
refused table with events:1s/.*/tab. 07 00012/
no opening:1d
END
    damaged 'refused table with cards' ' is none: expected the end of the report' 2 \
        '1s/.*/tab. 07 00000/'
    damaged 'nothing' ' is missing: expected one like end. 00 00012' 1 d
    damaged 'no card' " is missing: expected $card" 2 '2,$d'
    head -c 13 "$report" > "$work/damaged"
    refuses 'report: opening cut' 1 "report line 1 is none: expected $opening" \
        "$racklap report $work/damaged"
    head -c 3000 target/bin/racktrace > "$work/damaged"
    refuses 'report: binary garbage' 1 "report line 1 is none: expected $opening" \
        "$racklap report $work/damaged"
}

test_report_cards() {
    local name script
    while IFS=: read -r name script; do
        no_report_line "$name" 3 "$card, or $(row 02 1)" "$script"
    done << 'END'
letter in a slot:3s/^02/0x/
slot of 1 digit:3s/^02/2/
grants of 4 digits:3s/ 00001/ 0001/
grants of 6 digits:3s/ 00001/ 000001/
no mean:3s/ 00001.00001//
mean with a blank:3s/\// /
no squares:3s/ 0000000001 / /
squares of 9 digits:3s/ 0000000001 / 000000001 /
squares of 11 digits:3s/ 0000000001 / 00000000001 /
letter in the squares:3s/ 0000000001 / 000000000x /
squares as a fraction:3s/ 0000000001 / 0000000001\//
variance of 16 digits:3s/ 000000000000000/ 0000000000000000/
variance of 14 digits:3s/ 000000000000000/ 00000000000000/
letter in the variance:3s/ 000000000000000/ 00000000000000e/
variance negative:3s/ 000000000000000/ -00000000000001/
variance over 9 digits:3s/0000000001$/000000001/
two blanks:3s/ /  /
blank line:3s/.*//
card in capitals:3s/.*/CARD/
second opening:3s/.*/end. 00 00012/
END
    damaged 'number 0' ': 0 is no number, numbers are 1 to 63' 2 '2s/ 02/ 00/'
    damaged 'number 64' ': 64 is no number, numbers are 1 to 63' 4 '4s/ 06/ 64/'
    damaged 'number twice' ': number 5 does not rise above 5' 4 '4s/ 06/ 05/'
    damaged 'numbers not rising' ': number 4 does not rise above 5' 4 '4s/ 06/ 04/'
    damaged 'slot 0' ': 0 is no slot, slots are 1 to 63' 2 '2s/^01/00/'
    damaged 'slot 64' ': 64 is no slot, slots are 1 to 63' 2 '2s/^01/64/'
    damaged 'slot twice' ': slot 1 has a card already' 4 '4s/^03/01/'
}

test_report_figures() {
    local none=': no waits have this mean and this sum of squares'
    local misfit=': the variance does not fit the grants, the waits and the squares'
    damaged 'mean over other grants' ': the mean wait is over 3, but the grants are 2' 4 \
        '4s/00002\/00002/00002\/00003/'
    damaged 'grants other than the fractions' ': the mean wait is over 2, but the grants are 3' 4 \
        '4s/ 00002/ 00003/'
    damaged 'variance over other grants' ': the variance is over 2, but the grants squared are 4' \
        4 '4s/4$/2/'
    damaged 'waits without a grant' "$none" 3 \
        '3s/00001 00001\/00001 \(.*\)1$/00000 00001\/00000 \10/'
    damaged 'squares without a grant' "$none" 3 \
        '3s/.*/02 05 00000 00000\/00000 0000000001 000000000000000\/0000000000/'
    damaged 'variance without a grant' "$misfit" 3 \
        '3s/.*/02 05 00000 00000\/00000 0000000000 000000000000001\/0000000000/'
    damaged 'variance that these waits do not have' "$misfit" 4 '4s/4\//3\//'
    damaged 'squares that this variance does not have' "$misfit" 4 '4s/0000000004 /0000000002 /'
    damaged 'squares below the sum' "$none" 4 \
        '4s/.*/03 06 00008 00004\/00008 0000000002 000000000000000\/0000000064/'
    damaged 'squares above the sum squared' "$none" 4 \
        '4s/.*/03 06 00002 00002\/00002 0000000006 000000000000008\/0000000004/'
    damaged 'squares odd, sum even' "$none" 4 \
        '4s/.*/03 06 00002 00002\/00002 0000000003 000000000000002\/0000000004/'
    damaged 'variance of one wait' "$misfit" 2 '2s/0\//1\//'
    local more=': more grants or waits than the 2 done events'
    damaged 'more grants than events' "$more" 4 '1s/12/02/'
    damaged 'more waits than events' ': more grants or waits than the 1 done events' 2 '1s/12/01/'
}

# row NUMBER: what is expected of its row in the example's square.
row() {
    echo "the row of number $1, with a count for each of ${2:-3}"
}

test_report_squares() {
    local name script
    while IFS=: read -r name script; do
        no_report_line "$name" 6 "$(row 05)" "$script"
    done << 'END'
a column missing:6s/ 00001$//
a column too many:6s/$/ 00000/
columns beyond 63:6s/.*/& & & & & & & & & & & & & & & & & & & & & & & & & & & & & & & & &/
a count of 4 digits:6s/00001/0001/
letter in a count:6s/00001/0000a/
row of another number:6s/^05/06/
row twice:5p
row missing:6d
blank row:6s/.*//
card among the rows:6s/.*/03 06 00002 00002\/00002 0000000004 000000000000004\/0000000004/
END
    damaged 'last row missing' " is missing: expected $(row 06)" 7 '$d'
    damaged 'rows but the first missing' " is missing: expected $(row 05)" 6 '6,$d'
    damaged 'a card missing' " is none: expected $card, or $(row 02 2)" 4 3d
    damaged 'letter in the first row' " is none: expected $card, or $(row 02)" 5 '5s/1$/x/'
    damaged 'a row too many' ' is none: expected the end of the report' 8 '$p'
    damaged 'waits for itself' ': number 5 waits for itself' 6 '6s/ 00000 00001/ 00001 00001/'
    damaged 'count above the grants' ': number 5 has 1 grants, but a count of 2' 7 \
        '7s/1 00000/2 00000/'
    damaged 'row below the waits' ': the waits of number 2 sum to 2, but its row to 1' 5 \
        '5s/1$/0/'
    head -c -1 "$report" > "$work/damaged"
    refuses 'report: last newline missing' 1 "report line 7 is none: expected $(row 06)" \
        "$racklap report $work/damaged"
}

test_report_usage() {
    local how='(racklap --help shows how)'
    refuses 'report two files' 2 "usage: racklap report [FILE] [--svg FILE.svg] $how" \
        "$racklap report a b"
    refuses 'report without a file' 2 "--svg wants the name of a file $how" \
        "$racklap report $report --svg"
    refuses 'report with rows' 2 "--rows is no option here, or it stands twice $how" \
        "$racklap report --rows"
    refuses 'report: missing file' 1 "cannot read $work/none: No such file or directory" \
        "$racklap report $work/none"
    refuses 'report: directory' 1 'cannot read laptop: Is a directory' "$racklap report laptop"
    refuses 'report: directory on standard input' 1 'cannot read the report from standard input' \
        "$racklap report < laptop"
    refuses 'report: closed' 1 'cannot read the report from standard input' "$racklap report <&-"
    unwritten report "$racklap report $report --svg $work/unwritten"
    succeeds 'no map beside an unwritten report' "[ ! -e $work/unwritten ]"
    refuses 'map into a directory' 1 'cannot write laptop: Is a directory' \
        "$racklap report $report --svg laptop > $work/text"
    refuses 'map on a full disk' 1 'cannot write all of /dev/full' \
        "$racklap report $report --svg /dev/full > $work/text"
}

test_report() {
    test_report_texts
    test_maps
    test_openings
    test_report_cards
    test_report_figures
    test_report_squares
    test_report_usage
    seeds 'random reports' laptop/test/random-report 40
    seeds 'damaged reports' laptop/test/random-damage 40
}
