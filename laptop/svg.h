/* The listing as a picture: a row a slot, bars for waiting, being elected and holding, the asked
 * slot marked. */
#ifndef SVG_H
#define SVG_H

#include "inquiry.h"

/* `wrong` says that a card has a clone or that the promise was broken. */
void write_svg(const struct inquiry *inquiry, bool wrong, const char *name);

#endif
