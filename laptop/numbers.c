#include "numbers.h"

#include <stddef.h>

static const struct screen_number screen_numbers[] = {
    {0, "done",
     "Nothing to do. After a check: the rack takes this table. In a listing: the event took "
     "place."},
    {1, "file under 12 or over 8,192 bytes",
     "Look at the size of the file: a table that the rack saved has 24 + 2N bytes, 30 for three "
     "cards. A file that is missing on the rack counts as empty: copy it again."},
    {2, "edition not 1",
     "Look at the first two bytes, 01 00 in hex (od -t x1 FILE). If they differ, the file is no "
     "card table or was saved by other software: fetch the table that belongs to this rack."},
    {3, "F, N, k, rule or record length out of range, or N over 2^k - 1",
     "Look at bytes 2 to 5 and 10 to 11: columns 2 to 16, cards 1 to 63, k 1 to 6, rule 0 to 4, "
     "record length 2 to 64. If k is too small for the cards (k = 3 takes 7), raise k or take "
     "cards out."},
    {4, "offsets or file length break the layout",
     "Compare the length of the file with the original: it may have been cut or lengthened in "
     "copying. If it is the original, look at the offsets: the directory (bytes 6 to 7) at 12 or "
     "more, its end not past the records (bytes 8 to 9), the records' end at the end of the file."},
    {5, "directory: bad name byte, name twice, bad width, column ending past the record",
     "Look at the 6 bytes of each directory entry: four letters A-Z or digits, each name once, "
     "then the column's offset and its width, 1 to 4, the two together within the record."},
    {6, "ANUM or SLOT absent, or not of width 1",
     "Look in the directory for the names ANUM and SLOT. Both must be there with width 1; save "
     "the table again from the software that wrote it."},
    {7, "a number or slot out of range or used twice",
     "Look at the number and the slot of each card: numbers 1 to 2^k - 1, slots 1 to 63, no two "
     "cards alike; racklap check names what stands twice. A card copied onto a spare carries the "
     "old number: give the spare its own."},
    {8, "save buffer under 24 + 2N bytes (after 17)",
     "The table is good. The program that saves it lends too little memory: tell its maker that "
     "N cards need 24 + 2N bytes."},
    {11, "request or release by a number not in the table",
     "Look up the number with racklap table. A card that was set to a wrong number: correct the "
     "card. A new card: put it into the table."},
    {12, "request by a card already waiting, or elected",
     "A card that waits keeps its turn: its first request still stands. An elected card gets the "
     "bus at the next release and can ask again then. If this number comes often, look at why the "
     "card asks again, and ask racklap why about its slot."},
    {13, "arbitrate while a card is already elected",
     "Look for the last two winners above this line: the last is elected to follow, the one before "
     "it holds the bus. If the release of the holder never comes, look at that card first."},
    {14, "arbitrate with nobody waiting",
     "No card wants the bus, which is no fault. If a card should have asked, look above for its "
     "request and for the answer that it got."},
    {15, "release by a card that doesn't hold the bus",
     "Look for the last two winners above this line: the last holds the bus, or it is elected and "
     "the one before it still holds. Only the holder can release, and only once. The card that "
     "released here is elected and comes too early, or sends its release twice, or under a wrong "
     "number."},
    {16, "arbitrate under rule 2 where a loser's count is already 2^k - 1",
     "Start the rack anew: all counts begin at 0. Keep the table and the listing up to this line "
     "and report them, for somebody must see how the count got there."},
    {17, "state not well formed (before 11 to 16)",
     "The memory of the rack does not fit its table and rule: the waiting cards and how many are "
     "stored as waiting, counts, batch, inhibited cards, last winner, holder, elected card or kept "
     "line value. Load the table again. If the number comes back, exchange the card that shows "
     "it."},
    {18, "trace line malformed",
     "Look at this line of the trace: Q, A or R, one space, two digits, a newline and nothing "
     "else; A has 00. Blank lines and line ends of Windows are malformed too."},
    {21, "m not 1 to 12",
     "Give 1 to 12 lines: k under the rules fixed, batch and inhibit, k + 1 under round-robin, 2k "
     "under arrival. racklap table shows k and the rule."},
    {22, "more than 64 competing numbers",
     "Count the competing numbers and leave some out: a rack has no more than 63 cards."},
    {23, "a number over 2^m - 1",
     "Look for the number that does not fit on m lines: on 4 lines the greatest is 15. Correct "
     "the number or give more lines."},
    {24, "stage buffer under m+1 entries",
     "The program that settles lends too little memory: tell its maker that m lines need m + 1 "
     "entries of two bytes."},
    {25, "start over 2^m - 1",
     "Look at the start: on 4 lines the greatest is 15. It is what the lines still carry, the "
     "value at which they settled last. Correct it or give more lines."},
    {31, "65,535 or more done events are already counted",
     "The report holds for the first 65,535 done events and says nothing of what came later. To "
     "see that too, report on shorter traces, each from the start of the rack."},
    {32, "next winner asked for under a rule that isn't round-robin",
     "The panel can say who is next only under round-robin, rule 1. Look at the rule with racklap "
     "table. If the rack should be round-robin, its table is wrong in byte 5: fetch the one that "
     "belongs to this rack. If the rule is right, the rack is well: set the panel not to ask, and "
     "see in the listing who wins."},
    {41,
     "as given, a count, sum, running wait or entry exceeds the events counted, a sum of squares "
     "exceeds their square, or a variance would be negative",
     "The figures that were handed in are damaged: a count that began at zero never gets there. "
     "Begin again with a zero tally and a zero square. If the number comes back, the memory that "
     "keeps them is the place to look."},
};

const struct screen_number *screen_number(uint32_t number)
{
    for (size_t i = 0; i < sizeof screen_numbers / sizeof *screen_numbers; i++) {
        if (screen_numbers[i].number == number) {
            return &screen_numbers[i];
        }
    }
    return NULL;
}

const char *meaning_of(uint32_t number)
{
    const struct screen_number *entry = screen_number(number);
    return entry == NULL ? "not known to this racklap" : entry->meaning;
}
