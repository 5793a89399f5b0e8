/* What racklap why is asked: one slot, in the light of a table and a listing. */
#ifndef INQUIRY_H
#define INQUIRY_H

#include "listing.h"
#include "table.h"

struct inquiry {
    struct table table;
    struct listing listing;
    unsigned slot;
    unsigned number; /* of the card in that slot */
};

#endif
