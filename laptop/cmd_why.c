/* racklap why: why the card in one slot waits for the bus. */
#include "commands.h"
#include "fit.h"
#include "inquiry.h"
#include "report.h"
#include "say.h"
#include "svg.h"

static unsigned slot_word(const char *word)
{
    uint32_t slot = number_word(word, SLOTS);
    if (slot == 0 || slot == SLOTS) {
        bad_input("%s is no slot, slots are 1 to %d", word, SLOTS - 1);
    }
    return slot;
}

int why_command(struct words words)
{
    bool rows = take_flag(&words, "--rows");
    const char *svg = take_file(&words, "--svg");
    expect_words(&words, 2, 2, "why SLOT rack.tab [--rows] [--svg FILE] < listing");
    struct inquiry inquiry = {.slot = slot_word(words.word[0])};
    inquiry.table = load_table(words.word[1]);
    inquiry.number = inquiry.table.number_in[inquiry.slot];
    if (inquiry.number == 0) {
        bad_input("slot %u has no card in %s", inquiry.slot, words.word[1]);
    }
    inquiry.listing = read_listing(stdin);
    check_fit(&inquiry.listing, &inquiry.table);
    bool wrong = rows ? print_rows(&inquiry) : print_report(&inquiry);
    finish_output();
    if (svg != NULL) {
        write_svg(&inquiry, wrong, svg);
    }
    free_listing(&inquiry.listing);
    return wrong ? NOT_AS_PROMISED : ALL_WELL;
}
